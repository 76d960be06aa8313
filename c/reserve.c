/* Keeps a drive between two sessions by command. The layout host, port 0, reserves the drive,
 * writes a sector and deselects; the imagesetter host, port 1, is turned away. The layout host
 * comes back with Priority Hold, since a selection without it would give the reservation up. It
 * releases the drive and deselects; now the imagesetter host gets it and reads the sector. It
 * prints exactly
 *
 *     port 0 selects: granted
 *     port 0 reserves: status 00
 *     port 0 writes a sector: status 00
 *     port 0 deselects
 *     port 1 selects: refused with 6
 *     port 1 selects with Priority Select: refused with 6
 *     port 0 selects with Priority Hold: granted
 *     port 0 releases: status 00
 *     port 1 selects: refused with 6
 *     port 0 deselects
 *     port 1 selects: granted
 *     port 1 reads 0007 00AA 00BB 00CC
 *
 * Build it at the project's root, after `tools/archive`, with
 *
 *     gcc -std=c99 -Wall -Wextra -pedantic -Werror -I include c/reserve.c target/staticlib/libpantoglide.a -o target/reserve
 */
#include <inttypes.h>
#include <stdio.h>
#include <stdlib.h>

#include "pantoglide.h"

enum { CYLINDERS = 2, HEADS = 2, SECTORS = 3, HEADER = 1, FIELD_1 = 2, FIELD_2 = 1, ADDRESS = 3 };
enum { SECTOR_WORDS = HEADER + FIELD_1 + FIELD_2, LAYOUT = 0, IMAGESETTER = 1 };
#define DRIVE_WORDS (CYLINDERS * HEADS * SECTORS * SECTOR_WORDS)
#define LENGTH(array) (sizeof(array) / sizeof(array)[0])

enum {
    SELECT = PG_SELECT_ADDRESS(ADDRESS),
    WRITE = PG_WRITE | PG_HEADER_MOVE | PG_FIELD_1 | PG_FIELD_2,
    READ = PG_READ | PG_HEADER_MOVE | PG_FIELD_1 | PG_FIELD_2
};

static uint16_t state[PG_STATE_WORDS], answer[PG_ANSWER_WORDS];
static uint16_t sectors[DRIVE_WORDS], staging[SECTOR_WORDS];

/* An event with up to two argument octets, and its refusal. */
static uint8_t event(uint8_t port, uint8_t kind, uint8_t a0, uint8_t a1) {
    return pg_event(state, LENGTH(state), port, kind, a0, a1, 0, 0, sectors, LENGTH(sectors),
                    staging, LENGTH(staging), answer, LENGTH(answer));
}

/* An event that nothing refuses. */
static void send(uint8_t port, uint8_t kind, uint8_t a0, uint8_t a1) {
    uint8_t refusal = event(port, kind, a0, a1);

    if (refusal != PG_ACCEPTED) {
        fprintf(stderr, "kind %" PRIu8 ": refused with %" PRIu8 "\n", kind, refusal);
        exit(EXIT_FAILURE);
    }
}

static void ask_for_the_drive(uint8_t port, const char *how, uint8_t octet) {
    uint8_t refusal = event(port, PG_SELECT, octet, 0);

    printf("port %" PRIu8 " selects%s: ", port, how);
    if (refusal == PG_ACCEPTED) {
        printf("granted\n");
    } else {
        printf("refused with %" PRIu8 "\n", refusal);
    }
}

/* Opens a command or a write, sends its words and tells the status of the last one. */
static void send_words(uint8_t port, const char *what, uint8_t control, const uint16_t *words) {
    uint16_t i, count;

    send(port, PG_DATA_CONTROL, control, 0);
    count = answer[PG_ANSWER_WORDS_TO_COME];
    for (i = 0; i < count; i++) {
        send(port, PG_WORD_FROM_HOST, PG_HIGH(words[i]), PG_LOW(words[i]));
    }
    printf("port %" PRIu8 " %s: status %02" PRIX16 "\n", port, what, answer[PG_ANSWER_STATUS]);
}

/* The word of a function has it in both octets. */
static void send_function(uint8_t port, const char *what, uint8_t function) {
    uint16_t word = (uint16_t)(function << 8 | function);

    send_words(port, what, PG_CODE_LOAD_DRIVE_FUNCTION, &word);
}

static void deselect(uint8_t port) {
    send(port, PG_DESELECT, 0, 0);
    printf("port %" PRIu8 " deselects\n", port);
}

static void read_sector(uint8_t port) {
    uint16_t left;

    send(port, PG_POSITION, 0, 0);
    send(port, PG_DATA_CONTROL, READ, 0);
    printf("port %" PRIu8 " reads", port);
    for (left = answer[PG_ANSWER_WORDS_TO_COME]; left > 0; left--) {
        send(port, PG_TAKE_WORD, 0, 0);
        printf(" %04" PRIX16, answer[PG_ANSWER_WORD]);
    }
    printf("\n");
}

int main(void) {
    static const uint16_t words[SECTOR_WORDS] = {0x0007, 0x00AA, 0x00BB, 0x00CC};

    if (pg_power_up(CYLINDERS, HEADS, SECTORS, HEADER, FIELD_1, FIELD_2, ADDRESS, sectors,
                    LENGTH(sectors), staging, LENGTH(staging), state, LENGTH(state)) != 0) {
        return EXIT_FAILURE;
    }
    ask_for_the_drive(LAYOUT, "", SELECT);
    send_function(LAYOUT, "reserves", PG_FUNCTION_RESERVE);
    send_words(LAYOUT, "writes a sector", WRITE, words);
    deselect(LAYOUT);
    ask_for_the_drive(IMAGESETTER, "", SELECT);
    ask_for_the_drive(IMAGESETTER, " with Priority Select", SELECT | PG_SELECT_PRIORITY_SELECT);

    ask_for_the_drive(LAYOUT, " with Priority Hold", SELECT | PG_SELECT_PRIORITY_HOLD);
    send_function(LAYOUT, "releases", PG_FUNCTION_RELEASE);
    ask_for_the_drive(IMAGESETTER, "", SELECT);
    deselect(LAYOUT);
    ask_for_the_drive(IMAGESETTER, "", SELECT);
    read_sector(IMAGESETTER);
    return EXIT_SUCCESS;
}
