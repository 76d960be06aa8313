/* Keeps the words of one sector back: what a host has written goes to a second store, a sector at
 * a time, only after the call that committed it has returned. Power lost inside the call finds the
 * old sector whole in the second store, power lost during the copy the new one whole in the first.
 * Writes that are cut short reach neither. It prints exactly
 *
 *     5 writes mirrored, stores equal
 *
 * Build it at the project's root, after `tools/archive`, with
 *
 *     gcc -std=c99 -Wall -Wextra -pedantic -Werror -I include c/mirror.c target/staticlib/libpantoglide.a -o target/mirror
 */
#include <inttypes.h>
#include <stdio.h>
#include <stdlib.h>
#include <string.h>

#include "pantoglide.h"

enum { CYLINDERS = 2, HEADS = 2, SECTORS = 3, HEADER = 1, FIELD_1 = 2, FIELD_2 = 1, ADDRESS = 3 };
enum { SECTOR_WORDS = HEADER + FIELD_1 + FIELD_2, CUT_SHORT = SECTOR_WORDS - 1 };
#define DRIVE_WORDS (CYLINDERS * HEADS * SECTORS * SECTOR_WORDS)
#define LENGTH(array) (sizeof(array) / sizeof(array)[0])

/* The octets that the hosts send to select and to open a write of both fields. */
enum {
    SELECT = PG_SELECT_ADDRESS(ADDRESS),
    SELECT_WITH_PRIORITY = SELECT | PG_SELECT_PRIORITY_SELECT,
    VERIFY_AND_WRITE = PG_WRITE | PG_HEADER_VERIFY | PG_FIELD_1 | PG_FIELD_2,
    WRITE = PG_WRITE | PG_HEADER_MOVE | PG_FIELD_1 | PG_FIELD_2,
    WRITE_AT_TARGET = PG_WRITE | PG_AT_TARGET | PG_FIELD_1 | PG_FIELD_2
};

static uint16_t state[PG_STATE_WORDS], answer[PG_ANSWER_WORDS], staging[SECTOR_WORDS];
static uint16_t sectors[DRIVE_WORDS], mirror[DRIVE_WORDS];
static unsigned writes_mirrored;

static void stop_if_refused(const char *what, uint8_t refusal) {
    if (refusal != PG_ACCEPTED) {
        fprintf(stderr, "%s: refused with %" PRIu8 "\n", what, refusal);
        exit(EXIT_FAILURE);
    }
}

/* An event with up to two argument octets. While a write is open, at the state's place, the status
 * of a host's word is normal only if it was the last and the write was committed there. Nothing
 * else changes a sector word, and so no word of a command, whose code is below PG_WRITE. */
static void send(const char *what, uint8_t port, uint8_t kind, uint8_t a0, uint8_t a1) {
    size_t track = (size_t)state[PG_STATE_CYLINDER] * HEADS + state[PG_STATE_HEAD];
    size_t first = (track * SECTORS + state[PG_STATE_SECTOR]) * SECTOR_WORDS;
    int is_write = kind == PG_WORD_FROM_HOST && state[PG_STATE_CONTROL] >= PG_WRITE;

    stop_if_refused(what, pg_event(state, LENGTH(state), port, kind, a0, a1, 0, 0, sectors,
                                   LENGTH(sectors), staging, LENGTH(staging), answer,
                                   LENGTH(answer)));
    if (is_write && answer[PG_ANSWER_STATUS] == PG_STATUS_NORMAL) {
        memcpy(&mirror[first], &sectors[first], SECTOR_WORDS * sizeof mirror[0]);
        writes_mirrored++;
    }
}

/* Opens a write and sends so many words, none of which was sent before. */
static void send_write(const char *what, uint8_t port, uint8_t control, int words) {
    static uint8_t new_word = 1;

    send(what, port, PG_DATA_CONTROL, control, 0);
    for (; words > 0; words--) {
        send(what, port, PG_WORD_FROM_HOST, 0, new_word++);
    }
}

int main(void) {
    stop_if_refused("power-up", pg_power_up(CYLINDERS, HEADS, SECTORS, HEADER, FIELD_1, FIELD_2,
                                            ADDRESS, sectors, LENGTH(sectors), staging,
                                            LENGTH(staging), state, LENGTH(state)));
    send("select", 0, PG_SELECT, SELECT, 0);
    send_write("write at 0/0/0", 0, WRITE, SECTOR_WORDS);
    send_write("write at 0/0/1", 0, WRITE, SECTOR_WORDS);
    send("to cylinder 1", 0, PG_POSITION, 0, 1);
    send_write("write at 1/0/0", 0, WRITE, SECTOR_WORDS);
    send("target 2", 0, PG_TARGET, 0, 2);
    send_write("write at 1/0/2", 0, WRITE_AT_TARGET, SECTOR_WORDS);

    send_write("write that ends early", 0, WRITE, CUT_SHORT);
    send("end", 0, PG_END, 0, 0);
    send_write("write that the takeover ends", 0, WRITE, CUT_SHORT);
    send("takeover", 1, PG_SELECT, SELECT_WITH_PRIORITY, 0);
    send("to cylinder 0", 1, PG_POSITION, 0, 0);
    send_write("write that another header ends", 1, VERIFY_AND_WRITE, HEADER);
    send_write("write at 0/0/1 again", 1, WRITE, SECTOR_WORDS);
    send_write("write that the reset ends", 1, WRITE, CUT_SHORT);
    send("reset", 0, PG_RESET, 0, 0);

    int are_equal = memcmp(mirror, sectors, sizeof sectors) == 0;
    printf("%u writes mirrored, stores %s\n", writes_mirrored, are_equal ? "equal" : "differ");
    return are_equal ? EXIT_SUCCESS : EXIT_FAILURE;
}
