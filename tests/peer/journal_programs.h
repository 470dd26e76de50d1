/*
 * journal_programs.h - the programs of request W4 over standard input and output.
 */
#ifndef JOURNAL_PROGRAMS_H
#define JOURNAL_PROGRAMS_H

#include "journal.h"

enum { REQUEST_BYTES = 64, ROOM_MAX = 48 };

enum journal_call { WRITE_ENTRY = 1, READ_ENTRY, CHECK_JOURNAL };

/* A request of the journal's scenes; only the fields of its call mean anything. */
struct request {
    bool good;
    enum journal_call call;
    int room;                       /* of the buffer to write to, or the bytes to read */
    struct entry entry;
    uint8_t bytes[ROOM_MAX];
};

struct request read_request(const uint8_t *request);

/* The exerciser's records in; its journal out, in place of lines. */
void run_exerciser_journal(void);

/* A journal in, a line for each record out, up to the first bad one. */
void run_journal_reader(void);

/* Requests in, a line for each out: the journal's three calls on anything. */
void run_journal_scenes(void);

/* The same inputs in words: of an exerciser's record as often as it has entries, of each record, of each request. */
void say_noted_records(void);
void say_journal(void);
void say_requests(void);

#endif
