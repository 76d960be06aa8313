/* Measures how much stack the archive's calls for defect maps take, in octets, as c/stack.c does for
 * those of the drive: the return address, and all that a call writes below it.
 *
 * The deepest of these counts: each call made whole, with every slice shorter by one and with a
 * set-up outside its limits; maps with each octet and each word of theirs wrong, and of each length;
 * and defects with each octet of theirs wrong. It prints a line for each call.
 *
 * It is for Linux on x86-64. Build it at the project's root, after `tools/archive`, with
 *
 *     gcc -std=c99 -Wall -Wextra -pedantic -Werror -I include c/map_stack.c target/staticlib/libpantoglide.a -o target/map_stack
 */
#define _XOPEN_SOURCE 700
#include <inttypes.h>
#include <stdio.h>
#include <stdlib.h>
#include <string.h>

#include "pantoglide.h"

#include "depth.h"

enum { CYLINDERS = 2, HEADS = 2, SECTORS = 3, HEADER = 1, FIELD_1 = 21, FIELD_2 = 1, ADDRESS = 3 };
enum { SECTOR_WORDS = HEADER + FIELD_1 + FIELD_2, DATA_FIELDS = HEADS * SECTORS };
enum { DEFECTS = 3, MAP_OCTETS = DATA_FIELDS * 2 * FIELD_1 };
#define SETUP CYLINDERS, HEADS, SECTORS, HEADER, FIELD_1, FIELD_2, address
#define LENGTH(array) (sizeof(array) / sizeof(array)[0])

/* What calls change and the next call may look at. */
struct lent {
    uint16_t sectors[CYLINDERS * HEADS * SECTORS * SECTOR_WORDS];
    uint8_t map[MAP_OCTETS + 1], defects[MAP_OCTETS / 3], one[PG_DEFECT_OCTETS];
};

static struct lent lent, saved;
static uint16_t address, cylinder, head, sector, length;
static uint32_t defect_cylinder, defect_offset;
static size_t map_length, sector_length, defects_length, one_length, data_field;
static size_t count, offset, size;

static void take_apart(void) {
    CALL(decode_defect)(lent.one, one_length, &defect_cylinder, &head, &defect_offset, &length);
}

static void put_together(void) {
    CALL(encode_defect)(1, 1, 300, 5, lent.one, one_length);
}

static void place(void) {
    CALL(map_place)(SETUP, data_field, &cylinder, &head, &sector);
}

static void decode(void) {
    CALL(decode_map)(SETUP, lent.map, map_length, lent.defects, defects_length, &count, &cylinder,
                     &head, &offset);
}

static void encode(void) {
    CALL(encode_map)(SETUP, 1, 0, lent.defects, defects_length, lent.map, map_length, &size);
}

static void read_off(void) {
    CALL(read_map)(SETUP, lent.sectors, sector_length, lent.defects, defects_length, &count,
                   &cylinder, &head, &offset);
}

static void write_on(void) {
    CALL(write_map)(SETUP, 1, 0, lent.defects, defects_length, lent.sectors, sector_length);
}

enum { TAKE_APART, PUT_TOGETHER, PLACE, DECODE, ENCODE, READ, WRITE, CALLS };
static const struct { const char *name; void (*wrapped)(void); } calls[CALLS] = {
    {"pg_decode_defect", take_apart}, {"pg_encode_defect", put_together}, {"pg_map_place", place},
    {"pg_decode_map", decode}, {"pg_encode_map", encode}, {"pg_read_map", read_off},
    {"pg_write_map", write_on}
};
static size_t deepest[CALLS];

/* The next call finds what this one found. */
static void note(int call) {
    size_t depth = depth_of(calls[call].wrapped, &lent, &saved, sizeof lent);

    lent = saved;
    if (depth > deepest[call]) {
        deepest[call] = depth;
    }
}

static void whole_slices(void) {
    address = ADDRESS;
    map_length = MAP_OCTETS;
    sector_length = LENGTH(lent.sectors);
    defects_length = sizeof lent.defects;
    one_length = sizeof lent.one;
}

/* Every call as it stands, and with each slice shorter by one, and outside the limits. */
static void note_all(void) {
    size_t *const lengths[] = {&map_length, &sector_length, &defects_length, &one_length};
    size_t i;
    int call;

    for (call = 0; call < CALLS; call++) {
        size_t given = defects_length;

        if (call == ENCODE || call == WRITE) {
            defects_length = DEFECTS * PG_DEFECT_OCTETS;
        }
        note(call);
        for (i = 0; i < LENGTH(lengths); i++) {
            --*lengths[i];
            note(call);
            ++*lengths[i];
        }
        address += 8;
        note(call);
        address -= 8;
        defects_length = given;
    }
}

static void note_wrong_octets(uint8_t *octets, size_t many, int call) {
    static const uint8_t changes[] = {0x01, 0x08, 0x80, 0xFF};
    size_t i, j;

    for (i = 0; i < many; i++) {
        for (j = 0; j < sizeof changes; j++) {
            octets[i] ^= changes[j];
            note(call);
            octets[i] ^= changes[j];
        }
    }
}

int main(void) {
    static const uint8_t defects[DEFECTS][PG_DEFECT_OCTETS] = {
        {0, 0, 0, 0, 0, 1, 0, 0, 1, 44, 0, 5}, {0, 0, 0, 1, 0, 0, 0, 0, 0, 7, 255, 255},
        {0, 0, 0, 0, 0, 0, 0, 0, 35, 40, 0, 12}
    };
    size_t i;
    int call;

    whole_slices();
    memcpy(lent.defects, defects, sizeof defects);
    if (pg_encode_map(SETUP, 1, 0, defects[0], sizeof defects, lent.map, MAP_OCTETS, &size) != 0
        || pg_write_map(SETUP, 1, 0, defects[0], sizeof defects, lent.sectors,
                        LENGTH(lent.sectors)) != 0) {
        return EXIT_FAILURE;
    }
    for (data_field = 0; data_field <= DATA_FIELDS; data_field++) {
        note(PLACE);
    }
    note_all();
    note_wrong_octets(lent.map, MAP_OCTETS, DECODE);
    note_wrong_octets((uint8_t *)lent.sectors, sizeof lent.sectors, READ);
    for (map_length = 0; map_length <= sizeof lent.map; map_length++) {
        note(DECODE);
    }
    whole_slices();
    for (defects_length = 0; defects_length <= DEFECTS * PG_DEFECT_OCTETS; defects_length++) {
        note(ENCODE);
        note(WRITE);
    }
    defects_length = DEFECTS * PG_DEFECT_OCTETS;
    note_wrong_octets(lent.defects, DEFECTS * PG_DEFECT_OCTETS, ENCODE);
    note_wrong_octets(lent.defects, DEFECTS * PG_DEFECT_OCTETS, WRITE);
    for (i = 0; i < sizeof lent.one; i++) {
        one_length = i;
        note(TAKE_APART);
        note(PUT_TOGETHER);
    }
    for (call = 0; call < CALLS; call++) {
        printf("%s %zu\n", calls[call].name, deepest[call]);
    }
    return EXIT_SUCCESS;
}
