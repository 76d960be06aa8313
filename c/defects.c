/* Writes a defect map onto the last cylinder of a drive, reads it back, and breaks a word of it. It
 * prints exactly
 *
 *     storage 0 1
 *     cylinder 0, head 1, offset 300, length 5
 *     cylinder 1, head 0, offset 7, length 65535
 *     cylinder 0, head 0, offset 9000, length 12
 *     refused 27 at 58
 *
 * Build it at the project's root, after `tools/archive`, with
 *
 *     gcc -std=c99 -Wall -Wextra -pedantic -Werror -I include c/defects.c target/staticlib/libpantoglide.a -o target/defects
 */
#include <inttypes.h>
#include <stdio.h>
#include <stdlib.h>

#include "pantoglide.h"

enum { CYLINDERS = 2, HEADS = 2, SECTORS = 3, HEADER = 1, FIELD_1 = 21, FIELD_2 = 0, ADDRESS = 3 };
enum { SECTOR_WORDS = HEADER + FIELD_1 + FIELD_2, DATA_FIELDS = HEADS * SECTORS, DEFECTS = 3 };
#define SETUP CYLINDERS, HEADS, SECTORS, HEADER, FIELD_1, FIELD_2, ADDRESS
#define LENGTH(array) (sizeof(array) / sizeof(array)[0])

static uint16_t sectors[CYLINDERS * HEADS * SECTORS * SECTOR_WORDS];
/* A third of the octets of all data fields: room for the defects of every map. */
static uint8_t defects[DATA_FIELDS * 2 * FIELD_1 / 3];

static void stop_if_refused(const char *what, uint8_t refusal) {
    if (refusal != PG_ACCEPTED) {
        fprintf(stderr, "%s: refused with %" PRIu8 "\n", what, refusal);
        exit(EXIT_FAILURE);
    }
}

static void add(size_t i, uint32_t cylinder, uint16_t head, uint32_t offset, uint16_t length) {
    stop_if_refused("add", pg_encode_defect(cylinder, head, offset, length,
                                            defects + i * PG_DEFECT_OCTETS, PG_DEFECT_OCTETS));
}

static void print(size_t i) {
    uint32_t cylinder, offset;
    uint16_t head, length;

    stop_if_refused("print", pg_decode_defect(defects + i * PG_DEFECT_OCTETS, PG_DEFECT_OCTETS,
                                              &cylinder, &head, &offset, &length));
    printf("cylinder %" PRIu32 ", head %" PRIu16 ", offset %" PRIu32 ", length %" PRIu16 "\n",
           cylinder, head, offset, length);
}

/* Reads the map, and prints the storage track and the defects, or the refusal. */
static void read_map(void) {
    size_t count, offset, i;
    uint16_t cylinder, head;
    uint8_t refusal = pg_read_map(SETUP, sectors, LENGTH(sectors), defects, sizeof defects, &count,
                                  &cylinder, &head, &offset);

    if (refusal != PG_ACCEPTED) {
        printf("refused %" PRIu8 " at %zu\n", refusal, offset);
        return;
    }
    printf("storage %" PRIu16 " %" PRIu16 "\n", cylinder, head);
    for (i = 0; i < count; i++) {
        print(i);
    }
}

int main(void) {
    uint16_t cylinder, head, sector;
    size_t start;

    add(0, 0, 1, 300, 5);
    add(1, 1, 0, 7, 0xFFFF);
    add(2, 0, 0, 9000, 12); /* out of sequence: the map says so by itself */
    stop_if_refused("write", pg_write_map(SETUP, 0, 1, defects, DEFECTS * PG_DEFECT_OCTETS,
                                          sectors, LENGTH(sectors)));
    read_map();

    /* Octet 16 of data field 1, which is copy 1 of the first set: it is not as in copy 0 now. */
    stop_if_refused("place", pg_map_place(SETUP, 1, &cylinder, &head, &sector));
    start = (((size_t)cylinder * HEADS + head) * SECTORS + sector) * SECTOR_WORDS + HEADER;
    sectors[start + 16 / 2] ^= 0x0100;
    read_map();
    return EXIT_SUCCESS;
}
