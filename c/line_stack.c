/* Measures how much stack the archive's calls for the lines of a port take, in octets, as c/stack.c
 * does for those of the drive: the return address, and all that a call writes below it.
 *
 * The deepest of these counts: every octet of a follower with every setting, alone and as a long
 * trace; traces of every length up to one of many sessions, with every listed move; the same with
 * octets at random among them, so that the follower is lost, comes back and is refused; and slices
 * that are too short. It prints a line for each call.
 *
 * It is for Linux on x86-64. Build it at the project's root, after `tools/archive`, with
 *
 *     gcc -std=c99 -Wall -Wextra -pedantic -Werror -I include c/line_stack.c target/staticlib/libpantoglide.a -o target/line_stack
 */
#define _XOPEN_SOURCE 700
#include <stdio.h>
#include <stdlib.h>
#include <string.h>

#include "pantoglide.h"

#include "depth.h"

enum { LONGEST = 1000, RANDOM_TRACES = 5000 };

/* From IDLE to IDLE by every listed move. */
static const uint8_t session[] = {
    16, 24, 25, 27, 26, 24, 28, 30, 31, 29, 28, 30, 26, 24, 25, 27, 26, 24, 28, 20, 16, 24, 8, 0,
    4, 0, 1, 0, 16, 0
};

static uint8_t follower, saved, setting, trace[LONGEST], answers[LONGEST];
static size_t follower_length = 1, trace_length, answers_length = LONGEST;

static void line(void) {
    CALL(line)(&follower, follower_length, setting);
}

static void lines(void) {
    CALL(lines)(&follower, follower_length, trace, trace_length, answers, answers_length);
}

static void lines_plain(void) {
    CALL(lines_plain)(&follower, follower_length, trace, trace_length, answers, answers_length);
}

enum { CALLS = 3 };
static const struct { const char *name; void (*wrapped)(void); } calls[CALLS] = {
    {"pg_line", line}, {"pg_lines", lines}, {"pg_lines_plain", lines_plain}
};
static size_t deepest[CALLS];

/* Every call finds the same follower. */
static void note_all(int octet) {
    int call;

    for (call = 0; call < CALLS; call++) {
        size_t depth;

        follower = (uint8_t)octet;
        depth = depth_of(calls[call].wrapped, &follower, &saved, sizeof follower);
        if (depth > deepest[call]) {
            deepest[call] = depth;
        }
    }
}

static void every_octet(void) {
    int octet, new_setting;

    trace_length = LONGEST;
    for (new_setting = 0; new_setting < 33; new_setting++) {
        setting = (uint8_t)new_setting;
        memset(trace, setting, sizeof trace);
        for (octet = 0; octet < 256; octet++) {
            note_all(octet);
        }
    }
}

static void sessions(void) {
    size_t i;

    for (i = 0; i < LONGEST; i++) {
        trace[i] = session[i % sizeof session];
    }
    for (trace_length = 0; trace_length < LONGEST; trace_length++) {
        note_all(PG_FOLLOWER_START);
    }
}

static unsigned random_below(unsigned limit) {
    static uint32_t seed = 1;

    seed = seed * 1664525 + 1013904223;
    return (seed >> 16) % limit;
}

/* One octet of the sessions at random, then two, and so on: at last there are lost stretches and
 * refusals everywhere. */
static void disturbed_sessions(void) {
    int i;

    trace_length = LONGEST;
    for (i = 0; i < RANDOM_TRACES; i++) {
        trace[random_below(LONGEST)] = (uint8_t)(i % 4 ? random_below(40) : random_below(256));
        note_all(PG_FOLLOWER_START);
        note_all(PG_FOLLOWER_LOST);
    }
}

static void refusals(void) {
    answers_length = LONGEST - 1;
    note_all(PG_FOLLOWER_START);
    answers_length = LONGEST;
    follower_length = 0;
    note_all(PG_FOLLOWER_START);
}

int main(void) {
    int call;

    every_octet();
    sessions();
    disturbed_sessions();
    refusals();
    for (call = 0; call < CALLS; call++) {
        printf("%s %zu\n", calls[call].name, deepest[call]);
    }
    return EXIT_SUCCESS;
}
