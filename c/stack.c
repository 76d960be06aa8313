/* Measures how much stack the archive's calls of the drive and for captures take, in octets. Each
 * call is made on a stack of its own that was filled with a pattern before; how deep the pattern
 * was written over shows afterwards. What the caller itself takes, measured with a call that
 * returns at once, is taken off, so that a figure is the return address, all that the call writes
 * below it, and nothing else.
 *
 * The deepest of these counts: every refusal, parts of two records, what hosts do, one after
 * another, then every code of a command or a response and every function, and then octets at
 * random, on a state that is now and then disturbed. It prints a line for each call.
 *
 * It is for Linux on x86-64. Build it at the project's root, after `tools/archive`, with
 *
 *     gcc -std=c99 -Wall -Wextra -pedantic -Werror -I include c/stack.c target/staticlib/libpantoglide.a -o target/stack
 */
#define _XOPEN_SOURCE 700
#include <inttypes.h>
#include <stdio.h>
#include <stdlib.h>
#include <string.h>

#include "pantoglide.h"

#include "depth.h"
#include "script.h"

enum { SECTOR_WORDS = HEADER + FIELD_1 + FIELD_2, RANDOM_CALLS = 20000, MANY = 24 };
#define DRIVE_WORDS (CYLINDERS * HEADS * SECTORS * SECTOR_WORDS)
#define LENGTH(array) (sizeof(array) / sizeof(array)[0])

/* What calls change and the next call may look at. */
struct drive { uint16_t state[PG_STATE_WORDS], sectors[DRIVE_WORDS]; };

static struct drive drive, saved;
static uint16_t *const state = drive.state;
static uint16_t answer[PG_ANSWER_WORDS], staging[SECTOR_WORDS];
static uint16_t gap[1];
static uint64_t ran[1];
static uint8_t many_records[MANY * PG_RECORD_OCTETS];
static uint16_t many_answers[MANY * PG_ANSWER_WORDS], many_gaps[MANY];
static uint8_t record[PG_RECORD_OCTETS], two_records[2 * PG_RECORD_OCTETS];
static uint8_t capture[2 * PG_RECORD_OCTETS + PG_TRAILER_OCTETS];
static size_t state_length, sector_length, answer_length, record_length;
static size_t capture_length, first_record, record_count, size;
static size_t two_records_length, from, limit, gap_length, ran_length;

static void power_up(void) {
    CALL(power_up)(CYLINDERS, HEADS, SECTORS, HEADER, FIELD_1, FIELD_2, record[4], drive.sectors,
                   sector_length, staging, LENGTH(staging), state, state_length);
}

static void event(void) {
    CALL(event)(state, state_length, record[2], record[3], record[4], record[5], record[6],
                record[7], drive.sectors, sector_length, staging, LENGTH(staging), answer,
                answer_length);
}

static void run(void) {
    CALL(run)(state, state_length, record, record_length, drive.sectors, sector_length, staging,
              LENGTH(staging), answer, answer_length);
}

static void replay(void) {
    CALL(replay)(state, state_length, two_records, two_records_length, from, limit, drive.sectors,
                 sector_length, staging, LENGTH(staging), answer, answer_length, gap, gap_length,
                 ran, ran_length);
}

/* As many as the archive makes gaps of at a time, and more. */
static void replay_many(void) {
    CALL(replay)(state, state_length, many_records, sizeof many_records, 0, MANY, drive.sectors,
                 sector_length, staging, LENGTH(staging), many_answers, LENGTH(many_answers),
                 many_gaps, MANY, ran, ran_length);
}

static void find(void) {
    CALL(capture)(capture, capture_length, &first_record, &record_count);
}

static void make(void) {
    CALL(make_capture)(record, sizeof record, record, record_length, capture, capture_length,
                       &size);
}

static size_t deepest_power_up, deepest_event, deepest_run, deepest_replay;
static size_t deepest_find, deepest_make;

static void note(size_t *deepest, void (*wrapped)(void)) {
    size_t depth = depth_of(wrapped, &drive, &saved, sizeof drive);

    if (depth > *deepest) {
        *deepest = depth;
    }
}

/* The same event as a call, as a run of one record and as the second of two records, each from the
 * same state. */
static void note_event(const uint8_t octets[6]) {
    struct drive before = drive;

    memcpy(record + 2, octets, 6);
    memcpy(two_records + PG_RECORD_OCTETS, record, sizeof record);
    note(&deepest_run, run);
    drive = before;
    note(&deepest_replay, replay);
    drive = before;
    note(&deepest_event, event);
}

static void whole_slices(void) {
    state_length = PG_STATE_WORDS;
    sector_length = DRIVE_WORDS;
    answer_length = LENGTH(answer);
    record_length = sizeof record;
    two_records_length = sizeof two_records;
    from = limit = gap_length = ran_length = 1;
    capture_length = sizeof capture;
}

static void power_ups(void) {
    record[4] = ADDRESS + 8;
    note(&deepest_power_up, power_up);
    record[4] = ADDRESS;
    sector_length--;
    note(&deepest_power_up, power_up);
    whole_slices();
    note(&deepest_power_up, power_up);
}

static void note_too_short(size_t *length) {
    --*length;
    note_event(script[0]);
    whole_slices();
}

/* Events that 10 and then 11 refuse, and runs whose last record is not whole. */
static void refused_events(void) {
    uint16_t hold = state[PG_STATE_HOLD];

    note_too_short(&state_length);
    note_too_short(&sector_length);
    note_too_short(&answer_length);
    note_too_short(&gap_length);
    note_too_short(&ran_length);
    state[PG_STATE_HOLD] = 3;
    note_event(script[0]);
    state[PG_STATE_HOLD] = hold;
    record_length = 7;
    note(&deepest_run, run);
    two_records_length = 15;
    note(&deepest_replay, replay);
    whole_slices();
}

/* Parts of two records from each place on, and from past them, with limits from 0 on. */
static void parts(void) {
    for (from = 0; from < 4; from++) {
        for (limit = 0; limit < 4; limit++) {
            note(&deepest_replay, replay);
        }
    }
    from = limit = SIZE_MAX;
    note(&deepest_replay, replay);
    note(&deepest_replay, replay_many);
    whole_slices();
}

/* Sends a code of port 0's and, while it is open, words with the same octet twice, and takes. */
static void note_code(int code, int octet) {
    uint8_t control[6] = {0, PG_DATA_CONTROL}, word[6] = {0, PG_WORD_FROM_HOST};
    static const uint8_t take[6] = {0, PG_TAKE_WORD};

    control[2] = (uint8_t)code;
    word[2] = word[3] = (uint8_t)octet;
    note_event(control);
    while (state[PG_STATE_CONTROL] != 0) {
        note_event(word);
        note_event(take);
    }
}

/* Every code, just after a reset, which is told by C, and then with good and bad words; and every
 * function. */
static void codes(void) {
    static const uint8_t select[6] = {0, PG_SELECT, SELECT}, reset[6] = {0, PG_RESET};
    int code, function;

    for (code = 0; code < PG_WRITE; code++) {
        note_event(reset);
        note_event(select);
        note_code(code, 0);
        note_code(PG_CODE_READ_STATUS, 0);
        note_code(code, 0);
        note_code(code, 0xEE);
    }
    for (function = 0; function < 256; function++) {
        note_code(PG_CODE_LOAD_DRIVE_FUNCTION, function);
    }
}

static uint8_t random_octet(void) {
    static uint32_t seed = 1;

    seed = seed * 1664525 + 1013904223;
    return (uint8_t)(seed >> 24);
}

/* Octets that get far more often than not, and a state with a word that may be wrong. */
static void random_events(void) {
    int i;

    for (i = 0; i < RANDOM_CALLS; i++) {
        int at = random_octet() % PG_STATE_WORDS;
        uint8_t octets[6] = {0};

        octets[0] = (uint8_t)(state[PG_STATE_SELECTED] < 2 ? state[PG_STATE_SELECTED] : i & 1);
        octets[1] = random_octet() % 12;
        if (octets[1] == PG_SELECT) {
            octets[0] = random_octet() & 1;
            octets[2] = SELECT | (random_octet() & 3);
        } else if (octets[1] == PG_DATA_CONTROL) {
            octets[2] = i % 4 ? PG_WRITE | random_octet() : random_octet() & CODE_BITS;
        } else if (octets[1] == PG_WORD_FROM_HOST) {
            octets[3] = random_octet() & 3;
        }
        note_event(octets);
        if (i % 8 == 0) {
            uint16_t word = state[at];

            state[at] = random_octet();
            note_event(octets);
            state[at] = word;
        }
    }
}

/* Captures made whole, of records that are not whole, and in too little room; then found with
 * each octet of the trailer and each length. */
static void captures(void) {
    size_t i;

    for (capture_length = sizeof capture; capture_length > 0; capture_length--) {
        for (record_length = 0; record_length <= sizeof record; record_length++) {
            note(&deepest_make, make);
        }
    }
    whole_slices();
    pg_make_capture(record, sizeof record, record, sizeof record, capture, sizeof capture, &size);
    for (i = 0; i < sizeof capture; i++) {
        note(&deepest_find, find);
        capture[i] ^= 1;
        note(&deepest_find, find);
        capture[i] ^= 1;
    }
    for (capture_length = 0; capture_length < sizeof capture; capture_length++) {
        note(&deepest_find, find);
    }
}

int main(void) {
    size_t i;

    whole_slices();
    power_ups();
    refused_events();
    parts();
    for (i = 0; i < LENGTH(script); i++) {
        note_event(script[i]);
    }
    codes();
    random_events();
    captures();
    printf("pg_power_up %zu\npg_event %zu\n", deepest_power_up, deepest_event);
    printf("pg_run %zu\npg_replay %zu\n", deepest_run, deepest_replay);
    printf("pg_capture %zu\npg_make_capture %zu\n", deepest_find, deepest_make);
    return EXIT_SUCCESS;
}
