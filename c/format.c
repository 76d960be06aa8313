/* Formats a drive of 100 cylinders, 4 heads and 17 sectors, with a header of 4 words and a field 1
 * of 256: every header says where it lies. Then one host writes a sector under its header, sends
 * the same header at another sector and is told, and the other host takes the drive over and reads
 * the sector back. It was written from pantoglide.h alone. It prints exactly
 *
 *     6800 sectors formatted
 *     99/3/16 written: status 00
 *     the same header sent at 99/3/0: status 07
 *     taken over: status 0C, response 40 40 00
 *     99/3/16 read back: equal
 *
 * Build it at the project's root, after `tools/archive`, with
 *
 *     gcc -std=c99 -Wall -Wextra -pedantic -Werror -I include c/format.c target/staticlib/libpantoglide.a -o target/format
 */
#include <inttypes.h>
#include <stdio.h>
#include <stdlib.h>

#include "pantoglide.h"

enum { CYLINDERS = 100, HEADS = 4, SECTORS = 17, HEADER = 4, FIELD_1 = 256, ADDRESS = 5 };
enum { SECTOR_WORDS = HEADER + FIELD_1, LAYOUT = 0, IMAGESETTER = 1 };
#define LENGTH(array) (sizeof(array) / sizeof(array)[0])

enum {
    WRITE_ALL = PG_WRITE | PG_HEADER_MOVE | PG_FIELD_1,
    WRITE_UNDER_HEADER = PG_WRITE | PG_HEADER_VERIFY | PG_FIELD_1,
    READ_AT_TARGET = PG_READ | PG_AT_TARGET | PG_FIELD_1
};

static uint16_t sectors[CYLINDERS * HEADS * SECTORS * SECTOR_WORDS], staging[SECTOR_WORDS];
static uint16_t state[PG_STATE_WORDS], answer[PG_ANSWER_WORDS];

/* An event that nothing refuses, and its status, PG_ABSENT where it has none. */
static uint16_t event(uint8_t port, uint8_t kind, uint8_t a0, uint8_t a1, uint8_t a2, uint8_t a3) {
    uint8_t refusal = pg_event(state, LENGTH(state), port, kind, a0, a1, a2, a3, sectors,
                               LENGTH(sectors), staging, LENGTH(staging), answer, LENGTH(answer));

    if (refusal != PG_ACCEPTED) {
        fprintf(stderr, "kind %" PRIu8 ": refused with %" PRIu8 "\n", kind, refusal);
        exit(EXIT_FAILURE);
    }
    return answer[PG_ANSWER_STATUS];
}

static uint16_t position(uint8_t port, uint16_t cylinder, uint8_t head, uint8_t sector) {
    return event(port, PG_POSITION, PG_HIGH(cylinder), PG_LOW(cylinder), head, sector);
}

static uint16_t control(uint8_t port, uint8_t octet) {
    return event(port, PG_DATA_CONTROL, octet, 0, 0, 0);
}

/* Sends a header and words of field 1 until the drive ends the write, and hands its status back. */
static uint16_t send_sector(uint8_t port, const uint16_t header[HEADER], uint16_t first_word) {
    uint16_t status = PG_ABSENT, i;

    for (i = 0; status == PG_ABSENT; i++) {
        uint16_t word = i < HEADER ? header[i] : (uint16_t)(first_word + i - HEADER);

        status = event(port, PG_WORD_FROM_HOST, PG_HIGH(word), PG_LOW(word), 0, 0);
    }
    return status;
}

/* A write goes on to the next sector by itself, and after the last to sector 0 again. */
static unsigned format(uint8_t port) {
    unsigned formatted = 0;
    uint16_t cylinder, head, sector;

    for (cylinder = 0; cylinder < CYLINDERS; cylinder++) {
        position(port, cylinder, 0, 0);
        for (head = 0; head < HEADS; head++) {
            for (sector = 0; sector < SECTORS; sector++) {
                uint16_t header[HEADER];

                header[0] = cylinder;
                header[1] = head;
                header[2] = sector;
                header[3] = FIELD_1;
                control(port, WRITE_ALL);
                formatted += send_sector(port, header, 0) == PG_STATUS_NORMAL;
            }
            control(port, PG_STEP_HEAD);
        }
    }
    return formatted;
}

/* Reads a sector of the position's track with its header, and compares. */
static int read_back(uint8_t port, const uint16_t header[HEADER], uint16_t first_word) {
    uint16_t i, words;
    int are_equal = 1;

    event(port, PG_TARGET, PG_HIGH(header[2]), PG_LOW(header[2]), 0, 0);
    control(port, READ_AT_TARGET);
    words = answer[PG_ANSWER_WORDS_TO_COME];
    for (i = 0; i < words; i++) {
        event(port, PG_TAKE_WORD, 0, 0, 0, 0);
        are_equal &= answer[PG_ANSWER_WORD] ==
                     (i < HEADER ? header[i] : (uint16_t)(first_word + i - HEADER));
    }
    return are_equal && words == SECTOR_WORDS && answer[PG_ANSWER_STATUS] == PG_STATUS_NORMAL;
}

int main(void) {
    static const uint16_t last[HEADER] = {CYLINDERS - 1, HEADS - 1, SECTORS - 1, FIELD_1};
    const uint16_t first_word = 1000;
    uint16_t status;
    int are_equal;

    if (pg_power_up(CYLINDERS, HEADS, SECTORS, HEADER, FIELD_1, 0, ADDRESS, sectors,
                    LENGTH(sectors), staging, LENGTH(staging), state, LENGTH(state)) != 0) {
        return EXIT_FAILURE;
    }
    event(LAYOUT, PG_SELECT, PG_SELECT_ADDRESS(ADDRESS), 0, 0, 0);
    printf("%u sectors formatted\n", format(LAYOUT));

    position(LAYOUT, last[0], (uint8_t)last[1], (uint8_t)last[2]);
    control(LAYOUT, WRITE_UNDER_HEADER);
    printf("99/3/16 written: status %02X\n", send_sector(LAYOUT, last, first_word));
    /* The position has gone round to sector 0 of the track, whose header is not this one. */
    control(LAYOUT, WRITE_UNDER_HEADER);
    printf("the same header sent at 99/3/0: status %02X\n", send_sector(LAYOUT, last, 0));

    event(IMAGESETTER, PG_SELECT, PG_SELECT_ADDRESS(ADDRESS) | PG_SELECT_PRIORITY_SELECT, 0, 0, 0);
    are_equal = read_back(IMAGESETTER, last, first_word);
    event(IMAGESETTER, PG_DESELECT, 0, 0, 0, 0);

    event(LAYOUT, PG_SELECT, PG_SELECT_ADDRESS(ADDRESS), 0, 0, 0);
    status = control(LAYOUT, READ_AT_TARGET);
    event(LAYOUT, PG_READ_STATUS, 0, 0, 0, 0);
    printf("taken over: status %02X, response %02X %02X %02X\n", status,
           PG_RESPONSE_OCTET(answer, 0), PG_RESPONSE_OCTET(answer, 1),
           PG_RESPONSE_OCTET(answer, 2));
    printf("99/3/16 read back: %s\n", are_equal ? "equal" : "different");
    return are_equal ? EXIT_SUCCESS : EXIT_FAILURE;
}
