/* Powers a drive up, writes a sector from port 0, hands the drive over to port 1 and reads the
 * sector back there. It prints exactly
 *
 *     0007 00AA 00BB 00CC
 *
 * Build it at the project's root, after `tools/archive`, with
 *
 *     gcc -std=c99 -Wall -Wextra -pedantic -Werror -I include c/example.c target/staticlib/libpantoglide.a -o target/example
 */
#include <inttypes.h>
#include <stdio.h>
#include <stdlib.h>

#include "pantoglide.h"

enum { CYLINDERS = 2, HEADS = 2, SECTORS = 3, HEADER = 1, FIELD_1 = 2, FIELD_2 = 1, ADDRESS = 3 };
enum { SECTOR_WORDS = HEADER + FIELD_1 + FIELD_2 };
#define DRIVE_WORDS (CYLINDERS * HEADS * SECTORS * SECTOR_WORDS)
#define LENGTH(array) (sizeof(array) / sizeof(array)[0])

static uint16_t state[PG_STATE_WORDS];
static uint16_t sectors[DRIVE_WORDS];
static uint16_t staging[SECTOR_WORDS];
static uint16_t answer[PG_ANSWER_WORDS];

static void stop_if_refused(const char *what, uint8_t refusal) {
    if (refusal != PG_ACCEPTED) {
        fprintf(stderr, "%s: refused with %" PRIu8 "\n", what, refusal);
        exit(EXIT_FAILURE);
    }
}

/* An event with up to two argument octets. */
static void send(const char *what, uint8_t port, uint8_t kind, uint8_t a0, uint8_t a1) {
    stop_if_refused(what, pg_event(state, LENGTH(state), port, kind, a0, a1, 0, 0, sectors,
                                   LENGTH(sectors), staging, LENGTH(staging), answer,
                                   LENGTH(answer)));
}

int main(void) {
    static const uint16_t words[SECTOR_WORDS] = {0x0007, 0x00AA, 0x00BB, 0x00CC};
    uint16_t i;

    stop_if_refused("power-up", pg_power_up(CYLINDERS, HEADS, SECTORS, HEADER, FIELD_1, FIELD_2,
                                            ADDRESS, sectors, LENGTH(sectors), staging,
                                            LENGTH(staging), state, LENGTH(state)));

    send("select", 0, PG_SELECT, PG_SELECT_ADDRESS(ADDRESS), 0);
    send("write header and both fields", 0, PG_DATA_CONTROL,
         PG_WRITE | PG_HEADER_MOVE | PG_FIELD_1 | PG_FIELD_2, 0);
    for (i = 0; i < SECTOR_WORDS; i++) {
        send("word", 0, PG_WORD_FROM_HOST, PG_HIGH(words[i]), PG_LOW(words[i]));
    }
    send("deselect", 0, PG_DESELECT, 0, 0);

    send("select", 1, PG_SELECT, PG_SELECT_ADDRESS(ADDRESS), 0);
    send("back to the sector written", 1, PG_POSITION, 0, 0);
    send("read header and both fields", 1, PG_DATA_CONTROL,
         PG_READ | PG_HEADER_MOVE | PG_FIELD_1 | PG_FIELD_2, 0);
    for (i = answer[PG_ANSWER_WORDS_TO_COME]; i > 0; i--) {
        send("take", 1, PG_TAKE_WORD, 0, 0);
        printf("%04" PRIX16 "%s", answer[PG_ANSWER_WORD], i > 1 ? " " : "\n");
    }
    send("deselect", 1, PG_DESELECT, 0, 0);
    return EXIT_SUCCESS;
}
