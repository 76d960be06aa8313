/* How deep a call writes, on a stack of its own that was filled with a pattern before. For Linux on
 * x86-64; c/stack.c, c/line_stack.c and c/map_stack.c say what is done with it. */
#ifndef DEPTH_H
#define DEPTH_H

#include <stddef.h>
#include <stdint.h>
#include <stdio.h>
#include <stdlib.h>
#include <string.h>
#include <ucontext.h>

#include "pantoglide.h"

/* In place of each call of the archive one that returns at once and writes nothing. */
__asm__(".text\nnothing_power_up:\nnothing_event:\nnothing_run:\nnothing_replay:\n"
        "nothing_line:\nnothing_lines:\nnothing_lines_plain:\nnothing_capture:\n"
        "nothing_make_capture:\n"
        "nothing_decode_defect:\nnothing_encode_defect:\nnothing_map_place:\nnothing_decode_map:\n"
        "nothing_encode_map:\nnothing_read_map:\nnothing_write_map:\nxorl %eax, %eax\nret\n");
__typeof__(pg_power_up) nothing_power_up;
__typeof__(pg_event) nothing_event;
__typeof__(pg_run) nothing_run;
__typeof__(pg_replay) nothing_replay;
__typeof__(pg_line) nothing_line;
__typeof__(pg_lines) nothing_lines;
__typeof__(pg_lines_plain) nothing_lines_plain;
__typeof__(pg_capture) nothing_capture;
__typeof__(pg_make_capture) nothing_make_capture;
__typeof__(pg_decode_defect) nothing_decode_defect;
__typeof__(pg_encode_defect) nothing_encode_defect;
__typeof__(pg_map_place) nothing_map_place;
__typeof__(pg_decode_map) nothing_decode_map;
__typeof__(pg_encode_map) nothing_encode_map;
__typeof__(pg_read_map) nothing_read_map;
__typeof__(pg_write_map) nothing_write_map;

static int calls_nothing;
#define CALL(name) (calls_nothing ? nothing_##name : pg_##name)

enum { RETURN_ADDRESS = 8 };

static ucontext_t here, there;
static uint8_t stack[16384];
static void (*callee)(void);

/* Makes the caller's own part deeper than what the change of stacks writes. */
static void enter(void) {
    volatile uint8_t room[1024];

    room[0] = 0;
    callee();
    room[0]++;
}

/* The octets of the stack from its top down to the last one that the call wrote over. */
static size_t depth_over(uint8_t pattern, void (*call)(void)) {
    size_t untouched = 0;

    callee = call;
    memset(stack, pattern, sizeof stack);
    getcontext(&there);
    there.uc_stack.ss_sp = stack;
    there.uc_stack.ss_size = sizeof stack;
    there.uc_link = &here;
    makecontext(&there, enter, 0);
    swapcontext(&here, &there);
    while (stack[untouched] == pattern) {
        untouched++;
    }
    if (untouched == 0) {
        fprintf(stderr, "a call takes more stack than there is to measure it on\n");
        exit(EXIT_FAILURE);
    }
    return sizeof stack - untouched;
}

/* What a call takes beyond its caller. Measured with two patterns, since an octet may be written
 * over with the one that was there. The second call finds what the first one found, which is copied
 * to saved and back. */
static size_t depth_of(void (*call)(void), void *lent, void *saved, size_t lent_size) {
    size_t nothing, first, second;

    memcpy(saved, lent, lent_size);
    calls_nothing = 1;
    nothing = depth_over(0xA5, call);
    calls_nothing = 0;
    first = depth_over(0xA5, call);
    memcpy(lent, saved, lent_size);
    second = depth_over(0x5A, call);
    return (first > second ? first : second) - nothing + RETURN_ADDRESS;
}

#endif
