/*
 * candump_programs.h - the programs of request W10 over standard input, output and error.
 */
#ifndef CANDUMP_PROGRAMS_H
#define CANDUMP_PROGRAMS_H

#include "candump.h"

enum {
    LINE_REQUEST_BYTES = 128,
    LINE_ASKED_MAX = 96,        /* bytes of a line that can be asked for */
    NAME_ASKED_MAX = 24, RECORD_ASKED_MAX = 24,
    LINE_PLACE = 32, NAME_PLACE = 24, RECORD_PLACE = 48,    /* in a request */
};

enum candump_call { READ_LINE = 1, WRITE_LINE };

/* A request of candump's scenes; only the fields of its call mean anything. */
struct line_request {
    bool good;
    enum candump_call call;
    struct reading so_far;
    struct bytes line, name, record;    /* in the request's bytes */
    uint64_t time;
};

struct line_request read_line_request(uint8_t *request);

/* A log in and records out, or records in and a log out, by these words. A refusal is told on standard error. */
void run_candump_converter(int count, char **words);

/* Requests in, a line for each out: candump's two calls on anything. */
void run_candump_scenes(void);

/* The same inputs in words: a line for each record or line that comes of it, and each request. */
void say_candump(int count, char **words);
void say_line_requests(void);

#endif
