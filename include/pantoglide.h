/* Pantoglide 2.4: the proved drive behind a C interface.
 *
 * Two hosts share a drive, one on each of two IPI-2 ports, 0 and 1. The firmware hands each thing
 * that a host does to pg_event, with the words of the drive; the call does what the drive would do
 * and tells what to answer. This header is all that a caller needs to read. The rules are those of
 * the paper that the project calls document 01, with commands and responses as request M-100 adds
 * them, exceptions that a host ignores as M-102 mends them, a replay that stops on request as M-103
 * adds it, a second reader of the lines as M-104 adds it, and the maker's defect map as M-108 adds
 * it. All take them from three papers on IPI: 001 (a drive's manual), 003 (the physical level) and
 * 004 (IPI-2). Octets are in hex.
 *
 *
 * WHAT IT NEEDS
 *
 * The archive libpantoglide.a, made by `tools/archive` at the project's root. It is for x86-64
 * only, as the project builds it. It calls nothing outside itself, so it needs no C library and no
 * operating system beside it. It allocates nothing and has no variables of its own: all it knows is
 * in the slices that a call is lent.
 *
 * The most stack that a call takes, in octets, its return address included and its arguments not:
 *
 *     pg_power_up 48          pg_event 312          pg_run 264        pg_replay 328
 *     pg_capture 8            pg_make_capture 64
 *     pg_line 8               pg_lines 56           pg_lines_plain 864
 *     pg_decode_map 4568      pg_encode_map 2304    pg_read_map 4584  pg_write_map 2320
 *     pg_decode_defect 8      pg_encode_defect 16   pg_map_place 8
 *
 * c/stack.c, c/line_stack.c and c/map_stack.c measured it: on a stack filled with a pattern, how
 * deep each call writes, over every kind, code, function, status, setting and refusal. Part of it
 * lies below the stack pointer, in the 128 octets that the ABI of x86-64 grants a function there
 * (the red zone), so code that interrupts a call on the same stack has to leave those alone.
 *
 * Every input gets one of the answers named here, nothing has to be checked beforehand, and all
 * calls end.
 *
 *
 * WHAT THE CALLER SEES TO
 *
 * Slices. A slice is lent as a pointer and a length counted in elements. The pointer must lead to
 * so many elements (where the length is 0 it is never followed), and no two slices of one call may
 * overlap unless both are only read. Elements beyond those that a call needs are never changed.
 *
 * Threads. Calls on one state must not overlap in time. So where each port has an interrupt of its
 * own, the two take turns: neither makes a call before that of the other has returned. Calls on
 * different states, each with slices of its own, may run at once.
 *
 * Power. A commit copies word by word, so power lost inside a call can leave part of a write in the
 * lent words. One pg_event commits to one sector at most, so a board that must survive this calls
 * pg_event, not pg_run or pg_replay, and keeps the words of that sector back until the call has
 * returned, as c/mirror.c does.
 *
 * Saved states. A state may be kept, copied and handed back at any later time, with the sector and
 * staging words of that time. Every call judges the state anew, whoever made it, and refuses with
 * 11 one that is not sound. Whether the words are those that belong to it nobody can tell. A state
 * that version 1 kept has 18 words and is too short now; with three words 0 behind them it is the
 * same state of this version.
 *
 * Byte order. A word is a number of 16 bits. Which of its two octets comes first on a medium, or in
 * a file that keeps the sectors, is the caller's. Events, captures and defect maps have the high
 * octet first, and a map on the last cylinder takes the high octet of each word for the first.
 */
#ifndef PANTOGLIDE_H
#define PANTOGLIDE_H

#include <stddef.h>
#include <stdint.h>

#ifdef __cplusplus
extern "C" {
#endif

/* The version of this header and of the archive it belongs to. The major number grows where a
 * program that was written for the last one may need a change; CHANGELOG.md says which. */
#define PG_VERSION_MAJOR 2
#define PG_VERSION_MINOR 4

/* ---- The drive ---------------------------------------------------------------------------- */

/* A drive has cylinders, heads and sectors, each counted from 0. A sector's words are its header,
 * field 1 and field 2, in that order; sectors follow one another by sector, then head, then
 * cylinder. So the words of a sector begin, in the lent slice, at
 *
 *     ((cylinder * heads + head) * sectors + sector) * (header + field_1 + field_2)
 *
 * The state of a drive: PG_STATE_WORDS words of 16 bits. A caller may read it. */
enum {
    PG_STATE_CYLINDERS = 0,   /* 1 to 4096 */
    PG_STATE_HEADS = 1,       /* 1 to 32 */
    PG_STATE_SECTORS = 2,     /* sectors per track, 1 to 256 */
    PG_STATE_HEADER = 3,      /* words of a sector's header, 0 to 8 */
    PG_STATE_FIELD_1 = 4,     /* words of a sector's field 1, 1 to 1024 */
    PG_STATE_FIELD_2 = 5,     /* words of a sector's field 2, 0 to 1024 */
    PG_STATE_ADDRESS = 6,     /* 0 to 7 */
    PG_STATE_SELECTED = 7,    /* the selected port, 0 or 1, or PG_NOBODY */
    PG_STATE_OWNER = 8,       /* the port that has the drive, 0 or 1, or PG_NOBODY */
    PG_STATE_HOLD = 9,        /* PG_HOLD_NONE, PG_HOLD_PLAIN or PG_HOLD_STRONG */
    PG_STATE_CYLINDER = 10,   /* the position, counted from 0 */
    PG_STATE_HEAD = 11,       /* the position, counted from 0 */
    PG_STATE_SECTOR = 12,     /* the position, counted from 0 */
    PG_STATE_TARGET = 13,     /* a sector, or PG_NO_TARGET */
    PG_STATE_CONTROL = 14,    /* the octet that opened the open transfer, 0 if none is open */
    PG_STATE_MOVED = 15,      /* words the open transfer has moved, 0 if none is open */
    PG_STATE_PENDING_0 = 16,  /* for port 0: response octet 1 times 256 plus octet 2 */
    PG_STATE_PENDING_1 = 17,  /* for port 1: the same */
    PG_STATE_PARAMETER_0 = 18,  /* the first words of the open command, but never its last one; */
    PG_STATE_PARAMETER_1 = 19,  /* 0 where they stand for nothing. Any value is sound. */
    PG_STATE_PARAMETER_2 = 20,
    PG_STATE_WORDS = 21
};

#define PG_NOBODY 2
#define PG_NO_TARGET 0xFFFF

/* ---- What a host does ---------------------------------------------------------------------- */

/* The kinds of events, with the argument octets each uses. The unused ones must be 0. */
enum {
    PG_SELECT = 1,          /* a0: the selection octet */
    PG_DESELECT = 2,        /* none */
    PG_DATA_CONTROL = 3,    /* a0: the data control octet, or the code of a command or response */
    PG_WORD_FROM_HOST = 4,  /* a0, a1: the word, high octet first */
    PG_TAKE_WORD = 5,       /* none */
    PG_END = 6,             /* none */
    PG_POSITION = 7,        /* a0, a1: cylinder, high octet first; a2: head; a3: sector */
    PG_TARGET = 8,          /* a0, a1: sector or PG_NO_TARGET, high octet first */
    PG_READ_STATUS = 9,     /* none */
    PG_RESET = 10           /* none */
};

/* The two octets of a word or a cylinder, as a0 and a1 take them. */
#define PG_HIGH(word) ((uint8_t)((word) >> 8))
#define PG_LOW(word) ((uint8_t)((word) & 0xFF))

/* The selection octet (003, 7.4.1):
 *
 *     bit      7      6 5 4      3                2             1           0
 *     means    is 0   address    change transfer  change octet  Priority    Priority
 *                                mode: refused 5  mode: 5       Hold        Select
 *
 * The sum of PG_SELECT_ADDRESS(n), n from 0 to 7, and either, both or none of the two others.
 *
 * A granted selection sets the hold, whatever hold the same port had before, by selection or by
 * PG_FUNCTION_RESERVE:
 *
 *     Priority Hold   Priority Select   hold
 *     no              no or yes         PG_HOLD_NONE: Deselect frees the drive
 *     yes             no                PG_HOLD_PLAIN: the port still has the drive after Deselect
 *     yes             yes               PG_HOLD_STRONG: the same
 *
 * A drive that is free, or that the asking port has, is granted. One that the other port has, be it
 * selected or not, is granted only
 *
 *     if its hold is     to a selection with
 *     PG_HOLD_NONE       Priority Select
 *     PG_HOLD_PLAIN      Priority Hold and Priority Select
 *     PG_HOLD_STRONG     nothing: it is refused with 6 until the hold is given up or a reset
 *
 * which is a takeover: the other port's selection, hold and open transfer are gone, and Alternate
 * Port Priority Select goes pending on it. */
#define PG_SELECT_PRIORITY_SELECT 0x01
#define PG_SELECT_PRIORITY_HOLD 0x02
#define PG_SELECT_ADDRESS(n) ((n) << 4)

enum { PG_HOLD_NONE = 0, PG_HOLD_PLAIN = 1, PG_HOLD_STRONG = 2 };

/* The data control octet (001, table 3-6):
 *
 *     bit      7 6              5      4             3 2           1          0
 *     means    10 write         is 0   no meaning,   the header,   field 2    field 1
 *              11 read                 see below     see below     passes     passes
 *
 *     bits 3 2   on a write (80 and up)              on a read (C0 and up)
 *     00         unsupported                         the header is skipped
 *     01         the header is verified              the header is skipped
 *     10         the header is written               the header is read
 *     11         the same, at the target             the same, at the target
 *
 * So a control is the sum of PG_WRITE or PG_READ, of one of the PG_HEADER_ constants or
 * PG_AT_TARGET, and of the fields that pass, which may be none. Bit 4 changes nothing, but for 90
 * and D0 (001 steps the head with it; document 01 does not). All octets:
 *
 *     80 to 83, 91 to 93       unsupported: status 8, Unsupported Bus Control
 *     84 to 8F, 94 to 9F       write
 *     90                       PG_STEP_HEAD: the head becomes the next, 0 after the last
 *     C0 to CF, D1 to DF       read
 *     D0                       PG_CONTROL_RESERVED: status 8, Invalid Bus Control
 *     A0 to BF, E0 to FF       invalid: status 8, Invalid Bus Control
 *     00 to 7F                 no data controls but codes of commands and responses, see below
 *
 * The answer that opens a transfer tells how many words will pass, and where. They pass in the
 * order header, field 1, field 2. A verify's count includes the header's words: the host sends the
 * header first, and behind it the fields. So of a sector with a header of 4, a field 1 of 256 and a
 * field 2 of 0 words
 *
 *     PG_WRITE | PG_HEADER_VERIFY | PG_FIELD_1   85   260 words, 256 of them written
 *     PG_WRITE | PG_HEADER_MOVE | PG_FIELD_1     89   260 words, all written
 *     PG_READ | PG_FIELD_1                       C1   256 words
 *     PG_READ | PG_HEADER_SKIP | PG_FIELD_1      C5   the same
 *     PG_READ | PG_AT_TARGET                     CC   4 words, the header at the target
 *     PG_READ | PG_FIELD_2                       C2   0 words: ends at once, with status 0 alone
 *
 * A write changes the sector in the call that takes its last word, and not before; until then its
 * words are staged. A verified header that differs from the stored one ends the write at the
 * header's last word, with status 7 and nothing written. PG_END ends a write or a read early, with
 * status 0; the write has then written nothing. A takeover and a reset end it too, and nothing is
 * written. */
#define PG_WRITE 0x80
#define PG_READ 0xC0
#define PG_HEADER_VERIFY 0x04 /* writes: sent by the host and compared, not written */
#define PG_HEADER_SKIP 0x04   /* reads: does not pass */
#define PG_HEADER_MOVE 0x08   /* writes: written; reads: read */
#define PG_AT_TARGET 0x0C     /* the same, in the target's sector */
#define PG_FIELD_1 0x01
#define PG_FIELD_2 0x02
#define PG_STEP_HEAD 0x90
#define PG_CONTROL_RESERVED 0xD0

/* The codes of commands and responses (004, 10.1), as a0 of PG_DATA_CONTROL. A command's words are
 * sent with PG_WORD_FROM_HOST, a response's are taken with PG_TAKE_WORD. The opening tells their
 * number, and as its place the position, which no code uses. A number of two words has the high one
 * first; cylinder, head, sector and target are counted from 0.
 *
 *     code, PG_CODE_                words   what they are, and what is done at the last one
 *     01 LOAD_DRIVE_FUNCTION        1 sent  a function in both octets: what it says, see below
 *     04 LOAD_CYLINDER              2 sent  a cylinder, in two words: the position's
 *     05 LOAD_HEAD                  1 sent  a head: the position's
 *     06 LOAD_TARGET                1 sent  the target, or PG_NO_TARGET
 *     07 LOAD_POSITION              4 sent  cylinder (two words), head, target: all three
 *     44 READ_STATUS                4 taken the response's 8 octets, two in a word, high first; the
 *                                           last one clears them, as PG_READ_STATUS does
 *     46 READ_CURRENT_SECTOR        1 taken the position's sector
 *     47 READ_CURRENT_POSITION      5 taken cylinder (two words), head, target or PG_NO_TARGET,
 *                                           sector
 *     02 03 41 42 43 45 48          none    Load Format Specification, Load Drive Specific
 *                                           Information, Read Configuration, Read Format
 *                                           Specification, Read Drive Specific Information, Read
 *                                           Correction Vectors, Read Extended Status: they act on
 *                                           more than this drive has. Status 8, Unsupported Bus
 *                                           Control
 *     00, 08 to 40, 49 to 7F        none    invalid: status 8, Invalid Bus Control
 *
 * A command is judged at its last word and not before. With a cylinder, head or target outside the
 * drive (all bits of the number count) it is answered with status 8 and Invalid Parameter, and does
 * nothing; else it is done, with status 0. Either way it is over. While a bit of response octet 1
 * is pending, every code but 44, good or bad, is answered with C and does not open; words, takes
 * and PG_END never are. PG_END ends a command or a response early with status 0: nothing was done,
 * and PG_END clears nothing; but the opening has cleared octet 2, unless it was 44's. A takeover
 * and a reset end it too, with nothing done. No code ever stages a word, changes a sector word or,
 * however it ends, makes the sector the next.
 *
 * The words of a command before its last one are kept in PG_STATE_PARAMETER_0 and on. Those three
 * words of the state are put to 0 by a granted PG_SELECT, by PG_RESET, and by every opening and
 * every end of a transfer, be it of data or of a code; nothing else changes them. */
#define PG_CODE_LOAD_DRIVE_FUNCTION 0x01
#define PG_CODE_LOAD_CYLINDER 0x04
#define PG_CODE_LOAD_HEAD 0x05
#define PG_CODE_LOAD_TARGET 0x06
#define PG_CODE_LOAD_POSITION 0x07
#define PG_CODE_READ_STATUS 0x44
#define PG_CODE_READ_CURRENT_SECTOR 0x46
#define PG_CODE_READ_CURRENT_POSITION 0x47

/* The functions of PG_CODE_LOAD_DRIVE_FUNCTION. The one word has the function in both octets, so
 * a0 and a1 are both the function.
 *
 *     function, PG_FUNCTION_        what it does
 *     13 PRIORITY_RESERVE           the hold becomes PG_HOLD_STRONG
 *     14 RESERVE                    PG_HOLD_NONE becomes PG_HOLD_PLAIN, other holds stay
 *     15 RELEASE                    the hold becomes PG_HOLD_NONE
 *     20 NO_OPERATION               nothing
 *     28 RECALIBRATE                the position's cylinder becomes 0; head, sector, target stay
 *     10 11 12 16 18 to 1F 22 23    Disable and Enable Alternate Port, Disable Port, Notify
 *     29 2B 2C 2D 41 to 4A 81       Alternate Port of Format Completion, interrupts, Spin Up and
 *                                   Down, Execute Internal Diagnostic, Perform Sector Marking,
 *                                   Disable and Enable Drive ECC, offsets, strobes, Disable
 *                                   Read/Write Diagnostic Tests: they act on more than this drive
 *                                   has. Status 8, Unsupported Bus Control
 *     all others, and octets        none: status 8, Invalid Parameter
 *     that differ
 *
 * There is one hold, whether a selection or a function made it: PG_DESELECT and the other port's
 * PG_SELECT go by it as said above. PG_FUNCTION_RELEASE takes it away at once; the port then has
 * the drive until its PG_DESELECT, or until the other port's Priority Select. The reserving port's
 * own next selection sets the hold anew: with PG_SELECT_PRIORITY_HOLD it keeps the drive, without
 * it the reservation is given up. */
#define PG_FUNCTION_PRIORITY_RESERVE 0x13
#define PG_FUNCTION_RESERVE 0x14
#define PG_FUNCTION_RELEASE 0x15
#define PG_FUNCTION_NO_OPERATION 0x20
#define PG_FUNCTION_RECALIBRATE 0x28

/* Where the position goes:
 *
 *     a write or a read ends inside its session:      the next sector, 0 after the track's last;
 *     at its last word, with status 7, by PG_END,     cylinder and head stay
 *     or at once because no words are to come
 *     a control "at target" with a target             first to the target's sector, at the opening
 *     PG_STEP_HEAD                                    the next head, 0 after the last
 *     PG_POSITION with a place inside the drive       there
 *     the last word of LOAD_CYLINDER, LOAD_HEAD,      to the cylinder, the head or both that were
 *     LOAD_POSITION or RECALIBRATE, with status 0     asked for; the sector stays
 *     every other word, take or end of a code         stays
 *     a takeover, PG_SELECT, PG_DESELECT              stays, in the middle of a transfer too
 *     PG_RESET                                        0/0/0
 *     a refusal, status 8, status C                   stays
 *
 * The target is a sector of whatever track the position is on. It stays until PG_TARGET,
 * LOAD_TARGET or LOAD_POSITION changes it or PG_RESET takes it away; using it does not. */

/* ---- What the drive answers ----------------------------------------------------------------- */

/* The answer to an event: PG_ANSWER_WORDS words of 16 bits. */
enum {
    PG_ANSWER_REFUSAL = 0,        /* 0, or the refusal's number (only from pg_run and pg_replay) */
    PG_ANSWER_STATUS = 1,         /* a drive status octet, or PG_ABSENT */
    PG_ANSWER_WORDS_TO_COME = 2,  /* at the opening of a transfer, else PG_ABSENT */
    PG_ANSWER_CYLINDER = 3,       /* the place of the transfer just opened, */
    PG_ANSWER_HEAD = 4,           /* else PG_ABSENT in all three */
    PG_ANSWER_SECTOR = 5,
    PG_ANSWER_HAS_WORD = 6,       /* 1 if a word was taken, else 0 */
    PG_ANSWER_WORD = 7,           /* the word taken, else 0 */
    PG_ANSWER_HAS_RESPONSE = 8,   /* 1 if the status was read, else 0 */
    PG_ANSWER_RESPONSE = 9,       /* 9 to 12: its 8 octets, two in a word, high first, else 0 */
    PG_ANSWER_WORDS = 13
};

#define PG_ABSENT 0xFFFF

/* The drive status octets (004, 8.3.9). The drive never sends busy: refusal 6 stands for it.
 *
 * Kinds 3, 7 and 8 are answered with C, and do nothing, while a bit of response octet 1 is pending
 * on their port. Else they first clear octet 2 of their port, so that an exception that the host
 * has ignored ends there; then, if they ask what cannot be done, they are answered with 8 and set a
 * bit of octet 2. PG_CODE_READ_STATUS is never answered with C, and its opening clears nothing. The
 * last word of a command, kind 4, is never answered with C; if it is bad it is answered with 8 and
 * only sets its bit, since the opening has cleared octet 2. Kinds 1, 2 and 10, the opening of a
 * transfer and a word before the last have no status. All else has 0, but for a verify's 7. */
enum {
    PG_STATUS_NORMAL = 0x00,
    PG_STATUS_BUSY = 0x01,
    PG_STATUS_HEADER_MISCOMPARE = 0x07,
    PG_STATUS_OPERATION_EXCEPTION = 0x08,
    PG_STATUS_UNSOLICITED_EXCEPTION = 0x0C
};

/* The status response (001, figure 3-3): 8 octets, of which octets 3 to 7 are 0. PG_READ_STATUS
 * answers them and clears what was pending on its port, and so do the four words of
 * PG_CODE_READ_STATUS, of which the last one clears. Nothing else clears octet 1 but PG_RESET,
 * which leaves Reset Complete alone on both ports and octet 2 zero. Octet 2 is also cleared by its
 * port's next event of kind 3, 7 or 8 that is neither refused nor answered with C,
 * PG_CODE_READ_STATUS excepted; so it tells of the last request alone. From power-up it never has
 * two bits; a state that is handed in may have several. Octet 0 follows from the others.
 *
 *     octet  bit   001's name                        set by
 *     0      40    UNSOLICITED EXCEPTION             octet 1 is not 0
 *     0      20    BUS CONTROL EXCEPTION             octet 2 is not 0
 *     1      80    RESET COMPLETE                    a reset from either port
 *     1      40    ALTERNATE PORT PRIORITY SELECT    the other port's takeover
 *     2      80    INVALID BUS CONTROL               an invalid control or code, or D0
 *     2      40    INVALID PARAMETER                 a place or a target outside the drive, or a
 *                                                    function that is none
 *     2      20    UNSUPPORTED BUS CONTROL           80 to 83, 91 to 93; codes and functions that
 *                                                    act on more than this drive has
 *     2      10    BUS CONTROL CONTEXT               "at target" while there is no target */
#define PG_RESPONSE_0_UNSOLICITED_EXCEPTION 0x40
#define PG_RESPONSE_0_BUS_CONTROL_EXCEPTION 0x20
#define PG_RESPONSE_1_RESET_COMPLETE 0x80
#define PG_RESPONSE_1_ALTERNATE_PORT_PRIORITY_SELECT 0x40
#define PG_RESPONSE_2_INVALID_BUS_CONTROL 0x80
#define PG_RESPONSE_2_INVALID_PARAMETER 0x40
#define PG_RESPONSE_2_UNSUPPORTED_BUS_CONTROL 0x20
#define PG_RESPONSE_2_BUS_CONTROL_CONTEXT 0x10

/* Octet n, 0 to 7, of the response in an answer's words. */
#define PG_RESPONSE_OCTET(answer, n) \
    ((uint8_t)((answer)[PG_ANSWER_RESPONSE + (n) / 2] >> ((n) % 2 == 0 ? 8 : 0)))

/* The same bits in the state's pending words, by our names; no others are ever set. */
#define PG_PENDING_RESET_COMPLETE 0x8000                  /* octet 1, RESET COMPLETE */
#define PG_PENDING_ALTERNATE_PORT_PRIORITY_SELECT 0x4000  /* octet 1, the same name */
#define PG_PENDING_INVALID_CONTROL 0x0080                 /* octet 2, INVALID BUS CONTROL */
#define PG_PENDING_OUTSIDE_DRIVE 0x0040                   /* octet 2, INVALID PARAMETER, for a
                                                             function that is none too */
#define PG_PENDING_UNSUPPORTED_CONTROL 0x0020             /* octet 2, UNSUPPORTED BUS CONTROL */
#define PG_PENDING_TARGET_MISSING 0x0010                  /* octet 2, BUS CONTROL CONTEXT */

/* The refusals. A refused call changes nothing, but that pg_decode_map and pg_read_map tell in
 * *offset where a map's offence lies. The answers 16 to 21 to a setting of the lines are no
 * refusals. */
enum {
    PG_ACCEPTED = 0,
    PG_REFUSED_NO_SUCH_PORT = 1,      /* The port is neither 0 nor 1. */
    PG_REFUSED_NOT_SELECTED = 2,      /* Kinds 2 to 9: the port is not selected. */
    PG_REFUSED_ALREADY_SELECTED = 3,  /* Select: the port is selected already. */
    PG_REFUSED_WRONG_ADDRESS = 4,     /* Select: octet bit 7 is set or the address is not ours. */
    PG_REFUSED_MODE_CHANGE = 5,       /* Select: octet bit 3 or 2 is set. */
    PG_REFUSED_BUSY = 6,              /* Select: the other port has the drive and keeps it. */
    PG_REFUSED_WRONG_MOMENT = 7,      /* A transfer is open, or none is, see below. */
    PG_REFUSED_MALFORMED = 8,         /* The kind is not 1 to 10 or an unused argument octet is not
                                         0; records are not whole, or too long for a capture; a
                                         setting is over 31; no map can be made of the defects. */
    PG_REFUSED_OUTSIDE_LIMITS = 9,    /* Power-up and maps: a number is outside its limits. */
    PG_REFUSED_TOO_SHORT = 10,        /* A lent slice is too short. */
    PG_REFUSED_UNSOUND = 11,          /* The state handed in is not sound, see below, or is none
                                         that a trace leads a follower to. */
    PG_REFUSED_CAPTURE_TOO_SHORT = 12,  /* A capture has under 8 octets. */
    PG_REFUSED_TRAILER_MARK = 13,       /* A capture's trailer mark is wrong. */
    PG_REFUSED_TRAILER_DISTANCE = 14,   /* A trailer's distance is no multiple of 8, or is more than
                                           the capture's length less 8. */

    /* Of a defect map, whose parts are named where its calls are. */
    PG_REFUSED_MAP_NO_DATA_FIELD = 16,  /* It is not at its end, and the last cylinder has no
                                           further data field. */
    PG_REFUSED_MAP_CUT_SHORT = 17,      /* It is not at its end, and the octets end before the next
                                           data field is whole. */
    PG_REFUSED_MAP_COUNT = 18,          /* Copy 0: octets 0 and 1 are not the data field's length
                                           less 2. */
    PG_REFUSED_MAP_FLAGS = 19,          /* Copy 0: a flag is set that no map has, or bit 7 in a set
                                           that is not the last, or not in the last. */
    PG_REFUSED_MAP_COPY_NUMBER = 20,    /* Octet 3 is neither the number of the copy that is due nor
                                           FF. */
    PG_REFUSED_MAP_UNLIKE_SET_0 = 21,   /* Copy 0: the number of sets is 0; or it or the storage
                                           track is not as in set 0. */
    PG_REFUSED_MAP_SET_NUMBER = 22,     /* Copy 0: the set's number is not that of the sets before
                                           it. */
    PG_REFUSED_MAP_OUTSIDE_DRIVE = 23,  /* Copy 0: cylinder or head of the storage track, or of a
                                           defect, is not in the drive. */
    PG_REFUSED_MAP_OUT_OF_SEQUENCE = 24,  /* Copy 0: flag bit 3 is clear, and a defect before one of
                                             its own has the same address or a higher one. */
    PG_REFUSED_MAP_PADDING = 25,        /* Copy 0: an octet between the defects and the CRC is not
                                           0. */
    PG_REFUSED_MAP_CRC = 26,            /* The CRC is not that of the octets before it. */
    PG_REFUSED_MAP_UNLIKE_COPY_0 = 27,  /* Copy 1 or 2: an octet is not as in copy 0, and is neither
                                           octet 3 nor of the CRC. */
    PG_REFUSED_MAP_TOO_LONG = 28        /* Octets follow the third copy of the last set. */
};

/* When 7 is given, a command being open as a write is, and a response as a read is:
 *
 *     kind                       nothing open    a write or a      a read or a
 *                                                command open      response open
 *     2, 3, 7, 8, 9              goes on         7                 7
 *     4 (a word from the host)   7               goes on           7
 *     5 (a word taken)           7               7                 goes on
 *     6 (end)                    7               goes on           goes on
 *
 * PG_CODE_READ_STATUS is no exception: it is refused, like PG_READ_STATUS, while something is open.
 *
 * A state is sound unless
 *
 *     a number is outside the limits named beside it;
 *     the position or the target is outside the drive;
 *     a port is selected that does not have the drive;
 *     there is a hold or an open transfer and no port has the drive;
 *     a port has the drive and is neither selected nor holding it;
 *     a transfer is open with nobody selected, with an octet that opens none, or with as many
 *     words moved as it has, or more; words are moved and no transfer is open; or
 *     a pending bit is set that has no name above.
 *
 * The three parameter words may have any value in any state. */

/* ---- The calls of the drive ------------------------------------------------------------------ */

/* Powers a drive up: nobody selected, no hold, position 0/0/0, no target, nothing open, nothing
 * pending, the parameter words 0. sector_words must hold every sector, that is cylinders * heads *
 * sectors * (header + field_1 + field_2) words, staging_words one sector, and state PG_STATE_WORDS
 * words.
 *
 * Returns 9 if a number is outside its limits (see the state's words 0 to 6); otherwise 10 if one
 * of the three slices is too short; and then nothing is changed. Otherwise writes the state and
 * returns 0. The sector and staging words are never changed. */
uint8_t pg_power_up(uint16_t cylinders, uint16_t heads, uint16_t sectors, uint16_t header,
                    uint16_t field_1, uint16_t field_2, uint16_t address,
                    const uint16_t *sector_words, size_t sector_length,
                    const uint16_t *staging_words, size_t staging_length,
                    uint16_t *state, size_t state_length);

/* One event of a port.
 *
 * Returns 10 if state has under PG_STATE_WORDS words, which leaves nothing to judge; otherwise 11
 * if the state is not sound; otherwise 10 if sector_words or staging_words is shorter than the
 * state's set-up needs or answer has under PG_ANSWER_WORDS words; otherwise 1 or 8; otherwise, for
 * Select, 3, 4, 5 or 6, for Reset none, and for the other kinds 2 or 7: always the first that holds
 * in this order, as the table of refusals says. A refused event changes nothing, the answer's words
 * included.
 *
 * Otherwise does what the kind asks, writes the first PG_ANSWER_WORDS words of answer and returns
 * 0. Word number k of a write, from 0 in that transfer, is staged at staging_words[k], and no
 * other staging word changes; a command's words are never staged. Sector words change only at the
 * last word of a write: those of the fields it names, and of the header if it writes that. */
uint8_t pg_event(uint16_t *state, size_t state_length, uint8_t port, uint8_t kind, uint8_t a0,
                 uint8_t a1, uint8_t a2, uint8_t a3, uint16_t *sector_words, size_t sector_length,
                 uint16_t *staging_words, size_t staging_length, uint16_t *answer,
                 size_t answer_length);

/* The records of a capture (see below) one after another, without notes or trailer. Ticks are not
 * looked at.
 *
 * Returns 10 if state has under PG_STATE_WORDS words, or answers under PG_ANSWER_WORDS words for
 * each whole record; otherwise 8 if records_length is no multiple of PG_RECORD_OCTETS; and then
 * nothing is changed. Otherwise returns 0, and state, sector words and staging words are what so
 * many calls of pg_event would have made of them. Record number i, from 0, has its answer in the
 * PG_ANSWER_WORDS words from PG_ANSWER_WORDS * i on: that of pg_event if it was accepted; if it was
 * refused, the refusal's number, PG_ABSENT in words 1 to 5 and 0 in words 6 to 12. So if the state
 * is not sound every answer is 11, if a lent slice is too short for a sound state every answer is
 * 10, and in both cases nothing but the answers changes. */
uint8_t pg_run(uint16_t *state, size_t state_length, const uint8_t *records, size_t records_length,
               uint16_t *sector_words, size_t sector_length, uint16_t *staging_words,
               size_t staging_length, uint16_t *answers, size_t answers_length);

/* A part of the records of a capture, one after another: at most limit of them, the first of which
 * is record number from, counted from 0. So as many events run as limit says, or as there are
 * records from that one on, whichever is fewer: none where limit is 0, and none where from is past
 * the last record, which is no refusal. Any two numbers may be given.
 *
 * The next part begins at from plus the events that ran. Each part being handed the state, the
 * sector words and the staging words as the one before it left them, parts put end to end are one
 * pg_run of all records.
 *
 * The gap of a record is its tick less that of the record before it, both of 16 bits, going round
 * past zero: from 0005 to 0003 it is 65534, from FFFF to 0001 it is 2. The record before it is that
 * of the capture, whether this call runs it, an earlier one did or none. Record 0 has none before
 * it, and its gap is 0.
 *
 * Returns 10 if state has under PG_STATE_WORDS words or ran_length is 0, also where no event would
 * run, or if answers has under PG_ANSWER_WORDS words, or gaps under one, for each event that would
 * run (not for each record); otherwise 8 if records_length is no multiple of PG_RECORD_OCTETS, also
 * where no event would run; and then nothing is changed. For the tests of 10 there are
 * records_length / PG_RECORD_OCTETS records, whole part.
 *
 * Otherwise returns 0, with the number of events that ran in ran[0], refused ones counted too.
 * State, sector words and staging words are what so many calls of pg_event would have made of them.
 * Event number i of those that ran, from 0, is record number from + i. It has its answer in the
 * PG_ANSWER_WORDS words from PG_ANSWER_WORDS * i on, as in pg_run, and its gap in gaps[i]. So if
 * the state is not sound every answer is 11, if a lent slice is too short for a sound state every
 * answer is 10, and in both cases nothing but answers, gaps and ran[0] changes. Words of answers
 * and gaps behind those of the events that ran, and numbers behind ran[0], stay as they were. */
uint8_t pg_replay(uint16_t *state, size_t state_length, const uint8_t *records,
                  size_t records_length, size_t from, size_t limit, uint16_t *sector_words,
                  size_t sector_length, uint16_t *staging_words, size_t staging_length,
                  uint16_t *answers, size_t answers_length, uint16_t *gaps, size_t gaps_length,
                  uint64_t *ran, size_t ran_length);

/* ---- Captures ------------------------------------------------------------------------------- */

/* A capture keeps what hosts did: notes, records and a trailer, with nothing between them.
 *
 *     notes      any octets, also none; they are kept and ignored
 *     records    PG_RECORD_OCTETS octets each: tick (2, high first), port, kind and the four
 *                argument octets of an event
 *     trailer    PG_TRAILER_OCTETS octets: the distance back from the trailer to the first record,
 *                that is the octets of all records (4, high first), then 49 50 49 32, which is
 *                "IPI2" in ASCII */
#define PG_RECORD_OCTETS 8
#define PG_TRAILER_OCTETS 8

/* Finds the records of a capture. What they say is not looked at.
 *
 * Returns 12 if the capture has under 8 octets; otherwise 13 if its last four octets are not 49 50
 * 49 32; otherwise 14 if the distance is no multiple of 8, or is more than the capture's length
 * less 8; and then nothing is changed. Otherwise returns 0, with the offset of the first record
 * from the front in *first_record, which is the length of the notes, and the number of records in
 * *record_count. So octets + *first_record and PG_RECORD_OCTETS * *record_count are what pg_run and
 * pg_replay take. The two pointers must lead to a size_t each, which no slice overlaps. */
uint8_t pg_capture(const uint8_t *octets, size_t octets_length, size_t *first_record,
                   size_t *record_count);

/* Makes a capture of notes and records.
 *
 * Returns 10 if out is shorter than notes_length + records_length + PG_TRAILER_OCTETS; otherwise 8
 * if records_length is no multiple of PG_RECORD_OCTETS or is over 4,294,967,295, which the trailer
 * cannot hold; and then nothing is changed. Otherwise returns 0, with the capture at the front of
 * out, the rest of out as it was, and the capture's length in *size. What the records say is not
 * looked at. size must lead to a size_t that no slice overlaps. */
uint8_t pg_make_capture(const uint8_t *notes, size_t notes_length, const uint8_t *records,
                        size_t records_length, uint8_t *out, size_t out_length, size_t *size);

/* ---- The maker's defect map ------------------------------------------------------------------ */

/* The maker of a drive lists its defects in a map on the last cylinder (004, section 13). Here is
 * what a caller needs; docs/DEFECTS.md says the map octet by octet and works one by hand.
 *
 *     defect       PG_DEFECT_OCTETS octets: cylinder (4), head (2), offset from Index in octets (4)
 *                  and length in bits (2), each with its high octet first. Its address is cylinder,
 *                  head and offset, compared in this order
 *     data field   field 1 of a sector, two octets for a word, the high one first. Data field 0 is
 *                  that of the last cylinder's last head, sector 0; behind the last sector of a
 *                  head comes sector 0 of the head below it. There are heads * sectors of them, and
 *                  none where field 1 has under 8 words. Headers and field 2 are no part of a map
 *     set          up to (field_1 * 2 - 16) / 12 defects, whole part, in one data field, which
 *                  stands three times, as copies 0, 1 and 2: they differ in octet 3, the number of
 *                  the copy, and in the CRC, their last two octets. A data field with FF in octet 3
 *                  is ignored wherever it stands before the map's end
 *     map          its sets one after another, from data field 0 on. It ends behind the third copy
 *                  of its last set. Each data field also tells the storage track, a cylinder and a
 *                  head: where a controller may store its Format Specification
 *
 * The calls have no state and know the drive by the seven numbers that pg_power_up is given:
 * cylinders to address, with the same limits (see the state's words 0 to 6). They never look at a
 * drive's state. A caller makes no other call with the same sector words at that time.
 *
 * A pointer to a single number, as cylinder or count, must lead to one, which no slice and no other
 * pointer of the same call overlaps. */
#define PG_DEFECT_OCTETS 12

/* Takes a defect apart.
 *
 * Returns 10 if octets has under PG_DEFECT_OCTETS octets, and then nothing is changed. Otherwise
 * returns 0, with the numbers of the defect in the first PG_DEFECT_OCTETS octets in *cylinder,
 * *head, *offset and *length. Any 12 octets are a defect. */
uint8_t pg_decode_defect(const uint8_t *octets, size_t octets_length, uint32_t *cylinder,
                         uint16_t *head, uint32_t *offset, uint16_t *length);

/* Puts a defect together.
 *
 * Returns 10 if octets has under PG_DEFECT_OCTETS octets, and then nothing is changed. Otherwise
 * returns 0, with the defect in the first PG_DEFECT_OCTETS octets and the others as they were. Any
 * four numbers are a defect. */
uint8_t pg_encode_defect(uint32_t cylinder, uint16_t head, uint32_t offset, uint16_t length,
                         uint8_t *octets, size_t octets_length);

/* Tells where a data field stands, counted from 0.
 *
 * Returns 9 if a number of the set-up is outside its limits; otherwise 16 if the last cylinder has
 * no such data field, that is if data_field is heads * sectors or more or field_1 is under 8; and
 * then nothing is changed. Otherwise returns 0, with its place in *cylinder, *head and *sector. */
uint8_t pg_map_place(uint16_t cylinders, uint16_t heads, uint16_t sectors, uint16_t header,
                     uint16_t field_1, uint16_t field_2, uint16_t address, size_t data_field,
                     uint16_t *cylinder, uint16_t *head, uint16_t *sector);

/* Decodes a map: octets are its data fields, one after another from data field 0 on, and nothing
 * behind the map's end.
 *
 * Returns 9 if a number of the set-up is outside its limits; otherwise 10 if defects_length is
 * under octets_length / 3, whole part, which is always enough for the defects; otherwise 16 to 28
 * if the octets are no map: the first offence, which is the one that lies at the lowest offset, and
 * at one offset the one with the lower number. Then *offset is where it lies, counted in octets
 * from the first one, which is 0 with 9 and 10; an offence of a number of several octets lies at
 * its first one, 16 and 17 lie where the missing data field would begin or begins, 28 behind the
 * map's end; and nothing else is changed.
 *
 * Otherwise returns 0, with the map's defects at the front of defects, in the map's order and
 * PG_DEFECT_OCTETS octets each, the rest of defects as it was, their number in *count, the storage
 * track in *storage_cylinder and *storage_head, and *offset as it was. */
uint8_t pg_decode_map(uint16_t cylinders, uint16_t heads, uint16_t sectors, uint16_t header,
                      uint16_t field_1, uint16_t field_2, uint16_t address, const uint8_t *octets,
                      size_t octets_length, uint8_t *defects, size_t defects_length, size_t *count,
                      uint16_t *storage_cylinder, uint16_t *storage_head, size_t *offset);

/* Encodes a map: of a storage track and of defects, PG_DEFECT_OCTETS octets each, in any order.
 *
 * With E = (field_1 * 2 - 16) / 12, the defects that fill a set, the map has as many sets as they
 * take, but one at least, and so 3 * sets data fields of field_1 * 2 octets. (Where field_1 is
 * under 14, E is 0, and the map counts as one set.)
 *
 * Returns 9 if a number of the set-up is outside its limits; otherwise 10 if out is shorter than
 * the map of defects_length / 12 defects, whole part; otherwise 8 if defects_length is no multiple
 * of 12, if a defect or the storage track is on a cylinder or head that the drive does not have, if
 * a defect is twelve octets 0, if there is a defect and E is 0, or if the last cylinder has fewer
 * data fields than the map; and then nothing is changed. Otherwise returns 0, with the map at the
 * front of out, the rest of out as it was, and the map's length in *size. pg_decode_map makes the
 * same defects and storage track of it, in the same order. */
uint8_t pg_encode_map(uint16_t cylinders, uint16_t heads, uint16_t sectors, uint16_t header,
                      uint16_t field_1, uint16_t field_2, uint16_t address,
                      uint16_t storage_cylinder, uint16_t storage_head, const uint8_t *defects,
                      size_t defects_length, uint8_t *out, size_t out_length, size_t *size);

/* Reads the map off the last cylinder. What stands there behind the map's end is not looked at.
 *
 * Returns 9 if a number of the set-up is outside its limits; otherwise 10 if sector_words is
 * shorter than the drive, as in pg_power_up, or defects_length is under a third, whole part, of the
 * octets of all data fields of the last cylinder; otherwise 16 or 18 to 27 if those octets are no
 * map; and then *offset is where the first offence lies, counted in the octets of the data fields,
 * as in pg_decode_map, and nothing else is changed. Otherwise returns 0, with defects, *count,
 * *storage_cylinder, *storage_head and *offset as pg_decode_map leaves them. The sector words are
 * never changed. */
uint8_t pg_read_map(uint16_t cylinders, uint16_t heads, uint16_t sectors, uint16_t header,
                    uint16_t field_1, uint16_t field_2, uint16_t address,
                    const uint16_t *sector_words, size_t sector_length, uint8_t *defects,
                    size_t defects_length, size_t *count, uint16_t *storage_cylinder,
                    uint16_t *storage_head, size_t *offset);

/* Writes the map that pg_encode_map makes onto the last cylinder, from data field 0 on.
 *
 * Returns 9 if a number of the set-up is outside its limits; otherwise 10 if sector_words is
 * shorter than the drive, as in pg_power_up; otherwise 8 as in pg_encode_map; and then nothing is
 * changed. Otherwise returns 0, with field 1 of the map's data fields written and all other
 * words as they were, headers, field 2 and the data fields behind the map among them. It writes
 * word by word, so power lost inside the call can leave part of a map; who writes one again has it
 * whole. */
uint8_t pg_write_map(uint16_t cylinders, uint16_t heads, uint16_t sectors, uint16_t header,
                     uint16_t field_1, uint16_t field_2, uint16_t address,
                     uint16_t storage_cylinder, uint16_t storage_head, const uint8_t *defects,
                     size_t defects_length, uint16_t *sector_words, size_t sector_length);

/* ---- The lines of a port -------------------------------------------------------------------- */

/* A setting is the sum of the lines that are up. SLAVE IN and SYNC IN are the drive's, the others
 * the controller's. */
#define PG_LINE_SELECT_OUT 16
#define PG_LINE_SLAVE_IN 8
#define PG_LINE_MASTER_OUT 4
#define PG_LINE_SYNC_IN 2
#define PG_LINE_SYNC_OUT 1

/* The settings that have a name. 31 and 29 finish the handshake of one word.
 *
 * The listed moves are, of the controller's: 0 to 4, 4 to 0, 0 to 1, 1 to 0, 0 to 16, 16 to 0 if 16
 * came from 0, 24 to 25, 27 to 26, 24 to 28 if 24 came from a 26 that came from 27, 30 to 31, 29 to
 * 28, 30 to 26, 20 to 16 and 24 to 8. Of the drive's: 16 to 24, 25 to 27, 26 to 24, 28 to 20, 28 to
 * 30, 31 to 29 and 8 to 0. */
enum {
    PG_SETTING_IDLE = 0,
    PG_SETTING_MAINT = 1,
    PG_SETTING_REQUEST = 4,
    PG_SETTING_DESEL = 8,
    PG_SETTING_SELECT = 16,
    PG_SETTING_SLAVEND = 20,
    PG_SETTING_SLAVACK = 24,
    PG_SETTING_BUSCTL = 25,
    PG_SETTING_MASTEND = 26,
    PG_SETTING_BUSACK = 27,
    PG_SETTING_XFRRDY = 28,
    PG_SETTING_XFRST = 30
};

/* The follower of one port's control lines: one octet, 0 at the start. Bits 0 to 4 are the setting
 * of the lines; bit 5 is set where the history is there that a later move needs, at setting 16
 * (that came from 0), 26 (that came from 27) and 24 (that came from such a 26), and nowhere else;
 * a lost follower is PG_FOLLOWER_LOST exactly. Traces lead to 18 of the 256 octets. */
#define PG_FOLLOWER_START 0x00
#define PG_FOLLOWER_HISTORY 0x20
#define PG_FOLLOWER_LOST 0x40

/* What a setting is answered with, unless it is refused: pg_line returns it, pg_lines and
 * pg_lines_plain write it. */
enum {
    PG_MOVE_SAME = 16,         /* The setting is what it was; nothing changes. */
    PG_MOVE_CONTROLLERS = 17,  /* A listed move of the controller's, with its history. */
    PG_MOVE_DRIVES = 18,       /* A listed move of the drive's. */
    PG_MOVE_UNDEFINED = 19,    /* Any other move; the follower is IDLE at setting 0, else lost. */
    PG_MOVE_LOST = 20,         /* The follower was lost and the setting is not 0: it still is. */
    PG_MOVE_IDLE = 21          /* The follower was lost and the setting is 0: it is IDLE. */
};

/* The lines of a port now have this setting.
 *
 * Returns 10 if follower_length is 0; otherwise 11 if no trace from the start leads to *follower;
 * otherwise 8 if the setting is over 31; and then nothing is changed. Otherwise moves *follower on
 * and returns 16 to 21. */
uint8_t pg_line(uint8_t *follower, size_t follower_length, uint8_t setting);

/* The lines of a port had these settings, one after another. Any octets are a trace, and so are
 * none at all.
 *
 * Returns 10 if follower_length is 0 or answers_length is less than trace_length, and then nothing
 * is changed. Otherwise returns 0. Setting number i, from 0, has its answer in answers[i], which is
 * what the call of pg_line for trace[i] would have returned, and *follower is what so many calls
 * would have made of it. So a setting over 31 is answered with 8, and the trace goes on behind it;
 * and if no trace from the start leads to *follower, every answer is 11 and *follower stays as it
 * is. Octets of answers behind the trace's length stay as they were.
 *
 * pg_lines goes by the table of the 1,024 pairs of settings. pg_lines_plain has no table: by turns
 * the controller and the drive take the moves that are their own. Both do the same on every input.
 * Neither takes more stack than the figure above, however long the trace. */
uint8_t pg_lines(uint8_t *follower, size_t follower_length, const uint8_t *trace,
                 size_t trace_length, uint8_t *answers, size_t answers_length);
uint8_t pg_lines_plain(uint8_t *follower, size_t follower_length, const uint8_t *trace,
                       size_t trace_length, uint8_t *answers, size_t answers_length);

#ifdef __cplusplus
}
#endif

#endif
