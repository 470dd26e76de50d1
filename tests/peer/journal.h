/*
 * journal.h - the journal of request W4: reports as records of 16 bytes, written and read.
 *
 * Like the node it is an independent reading of the paper. It stands outside the
 * node's calls and sees their answers only.
 */
#ifndef JOURNAL_H
#define JOURNAL_H

#include "world.h"

enum {
    JOURNAL_BYTES = 16,
    DELIVERED_MAX = 4095,       /* a delivered length is 1 to this */
    CODE_MAX = N_BUFFER_OVFLW,
    ENTRIES_MAX = 2 * BERTHS,   /* of one answer: a tick with both codes of every berth */
};

enum entry_kind { RECEIVE_REPORT = 1, SEND_REPORT = 2 };

/* Wider than a record's fields, so that what does not fit there can be refused. */
struct entry {
    uint32_t kind, berth, code;
    uint32_t length;            /* 0 unless delivered */
    uint64_t tick;              /* ticks answered so far */
};

/* The bytes of an entry, whatever it holds. */
void put_entry(const struct entry *entry, uint8_t *record);

/* Each answers with its refusal, 0 for none. What is refused leaves the buffer, or the entry, as it was. */
int write_entry(const struct entry *entry, struct bytes out);
int read_entry(struct bytes bytes, struct entry *entry);

/* The record of a file that begins there, or its last part under 16 bytes. */
struct bytes record_at(struct bytes file, size_t at);

/* All records are good, and there are so many; or the first bad one has this number, from 1. */
struct verdict {
    bool all_good;
    uint64_t number;
};
struct verdict check_journal(struct bytes file);

/* What the report codes are called, "" for a number that is none. */
const char *code_name(uint32_t code);

/* With room for what a mutant adds. */
struct entries {
    int count;
    struct entry at[2 * ENTRIES_MAX];
};

/* The entries of an answer in their order; ticks counts those answered so far, this one too if it is one. */
struct entries entries_of(const struct call *call, const struct answer *answer, uint64_t ticks);

#endif
