/* Keeps three events of two hosts as a capture, finds them again and runs them, and tells what a
 * damaged capture gives. It prints exactly
 *
 *     39 octets, 3 records behind 7 octets of notes
 *     port 0: 0, port 1: 6, port 0: 0
 *     without its last octet: refused with 13
 *
 * Build it at the project's root, after `tools/archive`, with
 *
 *     gcc -std=c99 -Wall -Wextra -pedantic -Werror -I include c/capture.c target/staticlib/libpantoglide.a -o target/capture
 */
#include <inttypes.h>
#include <stdio.h>
#include <stdlib.h>

#include "pantoglide.h"

enum { ADDRESS = 3, RECORDS = 3, PORT = 2 };
#define LENGTH(array) (sizeof(array) / sizeof(array)[0])

static const uint8_t notes[] = {'m', 'o', 'n', 'd', 'a', 'y', '\n'};

/* Tick, port, kind and argument octets: port 0 selects, port 1 tries to, port 0 deselects. */
static const uint8_t records[RECORDS][PG_RECORD_OCTETS] = {
    {0, 0, 0, PG_SELECT, PG_SELECT_ADDRESS(ADDRESS), 0, 0, 0},
    {0, 5, 1, PG_SELECT, PG_SELECT_ADDRESS(ADDRESS), 0, 0, 0},
    {0, 9, 0, PG_DESELECT, 0, 0, 0, 0}
};

static uint8_t capture[sizeof notes + sizeof records + PG_TRAILER_OCTETS];
static uint16_t state[PG_STATE_WORDS], sectors[48], staging[4];
static uint16_t answers[RECORDS * PG_ANSWER_WORDS];

static void stop_if_refused(const char *what, uint8_t refusal) {
    if (refusal != PG_ACCEPTED) {
        fprintf(stderr, "%s: refused with %" PRIu8 "\n", what, refusal);
        exit(EXIT_FAILURE);
    }
}

int main(void) {
    size_t size, first, count, i;

    stop_if_refused("make", pg_make_capture(notes, sizeof notes, records[0], sizeof records,
                                            capture, sizeof capture, &size));
    stop_if_refused("find", pg_capture(capture, size, &first, &count));
    printf("%zu octets, %zu records behind %zu octets of notes\n", size, count, first);

    stop_if_refused("power-up", pg_power_up(2, 2, 3, 1, 2, 1, ADDRESS, sectors, LENGTH(sectors),
                                            staging, LENGTH(staging), state, LENGTH(state)));
    stop_if_refused("run", pg_run(state, LENGTH(state), capture + first, count * PG_RECORD_OCTETS,
                                  sectors, LENGTH(sectors), staging, LENGTH(staging), answers,
                                  LENGTH(answers)));
    for (i = 0; i < count; i++) {
        printf("port %d: %d%s", capture[first + i * PG_RECORD_OCTETS + PORT],
               answers[i * PG_ANSWER_WORDS + PG_ANSWER_REFUSAL], i + 1 < count ? ", " : "\n");
    }
    printf("without its last octet: refused with %d\n",
           pg_capture(capture, size - 1, &first, &count));
    return EXIT_SUCCESS;
}
