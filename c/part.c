/* Replays a capture in parts of three events at the most, as a bench does that may be stopped, and
 * compares what comes of it with one run; then asks for what is refused. It prints exactly
 *
 *     from 0: answers 0 6 0, gaps 0 9 10
 *     from 3: answers 0 0 0, gaps 1 2 0
 *     from 6: answers 0 0, gaps 65535 2
 *     from 8: nothing left
 *     one run: the same answers and the same drive
 *     room for one event of two: refused with 10
 *     no room for the count: refused with 10
 *     without its last octet: refused with 8
 *
 * Build it at the project's root, after `tools/archive`, with
 *
 *     gcc -std=c99 -Wall -Wextra -pedantic -Werror -I include c/part.c target/staticlib/libpantoglide.a -o target/part
 */
#include <inttypes.h>
#include <stdio.h>
#include <stdlib.h>
#include <string.h>

#include "pantoglide.h"

enum { ADDRESS = 3, RECORDS = 8, PART = 3, WRITE = PG_WRITE | PG_HEADER_MOVE | PG_FIELD_1 };
#define LENGTH(array) (sizeof(array) / sizeof(array)[0])

/* Tick, port, kind and argument octets. Ticks go round past zero behind the second record; the
 * seventh came a tick before the sixth, or 65535 after it. */
static const uint8_t records[RECORDS][PG_RECORD_OCTETS] = {
    {0xFF, 0xF0, 0, PG_SELECT, PG_SELECT_ADDRESS(ADDRESS), 0, 0, 0},
    {0xFF, 0xF9, 1, PG_SELECT, PG_SELECT_ADDRESS(ADDRESS), 0, 0, 0},
    {0x00, 0x03, 0, PG_DATA_CONTROL, WRITE, 0, 0, 0},
    {0x00, 0x04, 0, PG_WORD_FROM_HOST, 0x00, 0x07, 0, 0},
    {0x00, 0x06, 0, PG_WORD_FROM_HOST, 0x00, 0xAA, 0, 0},
    {0x00, 0x06, 0, PG_WORD_FROM_HOST, 0x00, 0xBB, 0, 0},
    {0x00, 0x05, 0, PG_DESELECT, 0, 0, 0, 0},
    {0x00, 0x07, 1, PG_SELECT, PG_SELECT_ADDRESS(ADDRESS), 0, 0, 0}
};

struct drive { uint16_t state[PG_STATE_WORDS], sectors[48], staging[4]; };

static struct drive cut, uncut;
static uint16_t cut_answers[RECORDS * PG_ANSWER_WORDS], uncut_answers[RECORDS * PG_ANSWER_WORDS];
static uint16_t gaps[RECORDS];
static uint64_t ran;

static void stop_if_refused(const char *what, uint8_t refusal) {
    if (refusal != PG_ACCEPTED) {
        fprintf(stderr, "%s: refused with %" PRIu8 "\n", what, refusal);
        exit(EXIT_FAILURE);
    }
}

static void power_up(struct drive *drive) {
    stop_if_refused("power-up", pg_power_up(2, 2, 3, 1, 2, 1, ADDRESS, drive->sectors,
                                            LENGTH(drive->sectors), drive->staging,
                                            LENGTH(drive->staging), drive->state,
                                            LENGTH(drive->state)));
}

/* The next part, with so much room from the place of its first event on. */
static uint8_t replay(size_t octets, size_t from, size_t limit, size_t room, size_t counts) {
    return pg_replay(cut.state, LENGTH(cut.state), records[0], octets, from, limit, cut.sectors,
                     LENGTH(cut.sectors), cut.staging, LENGTH(cut.staging),
                     cut_answers + PG_ANSWER_WORDS * from, PG_ANSWER_WORDS * room, gaps + from,
                     room, &ran, counts);
}

static void print_part(size_t from, size_t end) {
    size_t i;

    printf("from %zu: answers", from);
    for (i = from; i < end; i++) {
        printf(" %d", cut_answers[PG_ANSWER_WORDS * i + PG_ANSWER_REFUSAL]);
    }
    printf(", gaps");
    for (i = from; i < end; i++) {
        printf(" %d", gaps[i]);
    }
    printf("\n");
}

/* Goes on where the last part stopped, until nothing is left to run. */
static void replay_in_parts(void) {
    size_t from = 0;

    for (;;) {
        stop_if_refused("replay", replay(sizeof records, from, PART, RECORDS - from, 1));
        if (ran == 0) {
            printf("from %zu: nothing left\n", from);
            return;
        }
        print_part(from, from + (size_t)ran);
        from += (size_t)ran;
    }
}

static int are_equal(void) {
    return memcmp(&cut, &uncut, sizeof cut) == 0
           && memcmp(cut_answers, uncut_answers, sizeof cut_answers) == 0;
}

int main(void) {
    power_up(&cut);
    power_up(&uncut);
    replay_in_parts();
    stop_if_refused("run", pg_run(uncut.state, LENGTH(uncut.state), records[0], sizeof records,
                                  uncut.sectors, LENGTH(uncut.sectors), uncut.staging,
                                  LENGTH(uncut.staging), uncut_answers, LENGTH(uncut_answers)));
    printf("one run: %s\n", are_equal() ? "the same answers and the same drive" : "it differs");
    printf("room for one event of two: refused with %d\n", replay(sizeof records, 0, 2, 1, 1));
    printf("no room for the count: refused with %d\n", replay(sizeof records, 0, 2, 2, 0));
    printf("without its last octet: refused with %d\n", replay(sizeof records - 1, 0, 2, 2, 1));
    return are_equal() ? EXIT_SUCCESS : EXIT_FAILURE;
}
