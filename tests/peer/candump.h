/*
 * candump.h - the lines of request W10: a log read as the exerciser's records, and written from them.
 *
 * Like the node it is an independent reading of the paper. It knows lines and
 * records, and no node.
 */
#ifndef CANDUMP_H
#define CANDUMP_H

#include "records.h"

enum {
    SECONDS_DIGITS = 10,        /* at most */
    DECIMALS = 6,
    LETTERS_MAX = 15,           /* of a name */
    IDENTIFIER_DIGITS = 3,
    IDENTIFIER_MAX = 0x7FF,
    MICROS_PER_TICK = 1000,
    MICROS_PER_SECOND = 1000000,
    TICKS_APART_MAX = 60000,    /* between neighbouring lines */
    LINE_KEPT = 256,            /* bytes of a line that are looked at; the longest that fits has 57 */
};

/* The first time that needs 11 digits of seconds, in microseconds. */
#define TIME_END (UINT64_C(10000000000) * MICROS_PER_SECOND)

/* What the words of a line say. */
struct form {
    bool timed, fits;           /* its time, and all of it */
    uint64_t time;              /* in microseconds, as all times here */
    uint32_t identifier;
    int length;
    uint8_t data[FRAME_BYTES];
};

/* What a reader keeps from line to line. */
struct reading {
    bool begun;
    uint64_t first, last;       /* the time of the first line, and of the line before */
};

/* What becomes of a line: so many ticks, and behind them a frame. */
struct line_read {
    uint64_t ticks;
    uint8_t record[RECORD_BYTES];
};

/* What becomes of a record: a line, or nothing. */
struct line_written {
    size_t length;
    char text[LINE_KEPT];
};

bool name_fits(struct bytes name);

/* Each answers with its refusal, 0 for none. What is refused leaves the reading, or the time, as it was. */
int read_log_line(struct bytes line, struct reading *so_far, struct line_read *read);
int write_log_line(struct bytes name, struct bytes record, uint64_t *time, struct line_written *written);

#endif
