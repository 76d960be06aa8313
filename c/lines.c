/* Follows a trace of settings from a selection to a move without its history, through the lost
 * stretch behind it and back to IDLE, by the reader with the table and by the plain one. It prints
 * exactly
 *
 *     16: controller's
 *     24: drive's
 *     24: same
 *     25: controller's
 *     27: drive's
 *     26: controller's
 *     24: drive's
 *     28: controller's
 *     40: refused with 8
 *     20: drive's
 *     16: controller's
 *     24: drive's
 *     28: undefined
 *     8: lost
 *     0: idle
 *     4: controller's
 *     the plain reader: the same answers and the same follower
 *     room for one answer less: refused with 10
 *
 * Build it at the project's root, after `tools/archive`, with
 *
 *     gcc -std=c99 -Wall -Wextra -pedantic -Werror -I include c/lines.c target/staticlib/libpantoglide.a -o target/lines
 */
#include <inttypes.h>
#include <stdio.h>
#include <stdlib.h>
#include <string.h>

#include "pantoglide.h"

/* The first XFRRDY has the history that it needs, the second has not. A setting over 31, as a
 * broken probe may tell it, changes nothing. */
enum { BROKEN_PROBE = 40 };
static const uint8_t trace[] = {
    PG_SETTING_SELECT, PG_SETTING_SLAVACK, PG_SETTING_SLAVACK, PG_SETTING_BUSCTL,
    PG_SETTING_BUSACK, PG_SETTING_MASTEND, PG_SETTING_SLAVACK, PG_SETTING_XFRRDY,
    BROKEN_PROBE, PG_SETTING_SLAVEND, PG_SETTING_SELECT, PG_SETTING_SLAVACK,
    PG_SETTING_XFRRDY, PG_SETTING_DESEL, PG_SETTING_IDLE, PG_SETTING_REQUEST
};

/* What one reader makes of the trace. */
struct reading { uint8_t follower, answers[sizeof trace]; };

static struct reading by_table = {PG_FOLLOWER_START, {0}}, plain = {PG_FOLLOWER_START, {0}};

static void stop_if_refused(const char *what, uint8_t refusal) {
    if (refusal != PG_ACCEPTED) {
        fprintf(stderr, "%s: refused with %" PRIu8 "\n", what, refusal);
        exit(EXIT_FAILURE);
    }
}

static void print_answer(int setting, int answer) {
    static const char *const words[] = {
        "same", "controller's", "drive's", "undefined", "lost", "idle"
    };

    if (answer < PG_MOVE_SAME) {
        printf("%d: refused with %d\n", setting, answer);
    } else {
        printf("%d: %s\n", setting, words[answer - PG_MOVE_SAME]);
    }
}

int main(void) {
    int are_equal;
    size_t i;

    stop_if_refused("by the table", pg_lines(&by_table.follower, 1, trace, sizeof trace,
                                             by_table.answers, sizeof by_table.answers));
    stop_if_refused("plainly", pg_lines_plain(&plain.follower, 1, trace, sizeof trace,
                                              plain.answers, sizeof plain.answers));
    for (i = 0; i < sizeof trace; i++) {
        print_answer(trace[i], by_table.answers[i]);
    }
    are_equal = memcmp(&by_table, &plain, sizeof plain) == 0;
    printf("the plain reader: %s\n",
           are_equal ? "the same answers and the same follower" : "it differs");
    printf("room for one answer less: refused with %d\n",
           pg_lines_plain(&plain.follower, 1, trace, sizeof trace, plain.answers,
                          sizeof plain.answers - 1));
    return are_equal ? EXIT_SUCCESS : EXIT_FAILURE;
}
