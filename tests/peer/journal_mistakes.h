/*
 * journal_mistakes.h - what the mutants of request W4 do in the journal's writer and in its reader.
 *
 * The rules hand over what they have found, field by field; a mutant of that
 * field has its own mind about it. It is all inline, so that a peer without
 * mutants has nothing of it.
 */
#ifndef JOURNAL_MISTAKES_H
#define JOURNAL_MISTAKES_H

#include <string.h>

#include "journal.h"
#include "mutants.h"

enum user { WRITER, READER };  /* of the rules */

/* The rules */

static inline bool mistaken_kind(const struct entry *e, enum user user, bool fits)
{
    switch (mutant) {
    case MISTAKE_W4d5: return fits || e->kind == 0;
    case MISTAKE_W4d6: return fits || e->kind == SEND_REPORT + 1;
    case MISTAKE_W4f4: return fits || (user == READER && e->kind % 4 != 0);
    default: return fits;
    }
}

static inline bool mistaken_berth(const struct entry *e, enum user user, bool fits)
{
    switch (mutant) {
    case MISTAKE_W4d1: return fits || e->berth == BERTHS;
    case MISTAKE_W4d2: return fits && e->berth != BERTHS - 1;
    case MISTAKE_W4d3: return fits && e->berth != 0;
    case MISTAKE_W4d4: return e->berth % 256 < BERTHS;
    case MISTAKE_W4f6: return fits || user == READER;
    default: return fits;
    }
}

/* Whether the side of the entry has the code, by the two lists. */
static inline bool mistaken_code(const struct entry *e, bool receive, bool send)
{
    bool of_receive = e->kind == rule(RECEIVE_REPORT, W4c1, SEND_REPORT);
    bool fits = mistake(W4c2) ? receive || send : of_receive ? receive : send;
    bool one_of_two = e->kind == RECEIVE_REPORT || e->kind == SEND_REPORT;
    return one_of_two && e->code <= CODE_TURNED_MAX && mutant == code_turned(e->kind, e->code) ? !fits : fits;
}

static inline bool mistakes_code_of(enum user user)
{
    return mistake(W4c3) ? user == WRITER : mistake(W4c4) && user == READER;
}

static inline bool mistaken_length(const struct entry *e, enum user user, bool delivered, bool fits)
{
    bool of_receive = e->kind == RECEIVE_REPORT, sent = !of_receive && e->code == N_OK;
    bool in_range = e->length >= 1 && e->length <= DELIVERED_MAX;
    switch (mutant) {
    case MISTAKE_W4d7: return fits || (delivered && e->length == 0);
    case MISTAKE_W4d8: return fits && e->length != 1;
    case MISTAKE_W4d9: return fits && e->length != DELIVERED_MAX;
    case MISTAKE_W4d10: return fits || (delivered && e->length == DELIVERED_MAX + 1);
    case MISTAKE_W4d11: return delivered ? e->length % 65536 >= 1 && e->length % 65536 <= DELIVERED_MAX : fits;
    case MISTAKE_W4d12: return fits || (of_receive && in_range);
    case MISTAKE_W4d13: return fits || (sent && in_range);
    case MISTAKE_W4d14: return fits || (!of_receive && !sent && in_range);
    case MISTAKE_W4d15: return sent ? in_range : fits;
    case MISTAKE_W4d16: return fits || (user == WRITER && !delivered);
    case MISTAKE_W4f7: return fits || (user == READER && !delivered);
    case MISTAKE_W4f8: return fits || (user == READER && delivered);
    default: return fits;
    }
}

/* Whether a tick count is refused: by the rules none is. */
static inline bool mistaken_tick(const struct entry *e, enum user user)
{
    return (mistake(W4b14) && e->tick >> 63 != 0) || (mistake(W4f9) && user == READER && e->tick == 0)
        || (mistake(W4f11) && user == READER && e->tick == UINT64_MAX);
}

/* The record */

static inline void exchange(uint8_t *record, int a, int b)
{
    uint8_t kept = record[a];
    record[a] = record[b];
    record[b] = kept;
}

/* The mistakes that the writer and the reader share. Each undoes itself. */
static inline void mistake_layout(uint8_t *record)
{
    for (int i = 0; i < 4 && mistake(W4b1); i++)
        exchange(record, 8 + i, 15 - i);
    if (mistake(W4b2))
        exchange(record, 4, 5);
    for (int i = 0; i < 2 && mistake(W4b3); i++)
        exchange(record, 4 + i, 6 + i);
    if (mistake(W4b4))
        exchange(record, 0, 1);
    if (mistake(W4b5))
        exchange(record, 1, 2);
    if (mistake(W4b6) && (record[0] == RECEIVE_REPORT || record[0] == SEND_REPORT))
        record[0] = RECEIVE_REPORT + SEND_REPORT - record[0];
    if (mistake(W4b7))
        exchange(record, 2, 3);
}

/* What the writer makes of a record, and of the bytes that were there before. */
static inline void mistake_record(uint8_t *record, const uint8_t *was)
{
    bool delivered = record[0] == RECEIVE_REPORT && record[2] == N_OK;
    if (mistake(W4b8))
        memset(record + 8, 0, 4);
    if (mistake(W4b9))
        record[4] = 0;
    if (mistake(W4b10))
        record[3] = was[3];
    if (mistake(W4b11))
        memcpy(record + 6, was + 6, 2);
    if (mistake(W4b12))
        memcpy(record + 6, record + 4, 2);
    if (mistake(W4d16) && !delivered)
        memset(record + 4, 0, 2);
}

/* What the reader finds in a record. */
static inline void mistake_found(struct entry *found)
{
    if (mistake(W4b13))
        found->tick &= UINT32_MAX;
    if (mistake(W4b15))
        found->length %= 256;
    if (mistake(W4f4) && found->kind > SEND_REPORT)
        found->kind = found->kind % 4 % 3;
    if (mistake(W4f5))
        found->berth %= 16;
    if (mistake(W4f7) && !(found->kind == RECEIVE_REPORT && found->code == N_OK))
        found->length = 0;
}

static inline bool mistaken_zeros(const uint8_t *record, bool zeros)
{
    return mistake(W4f1) ? record[6] == 0 && record[7] == 0
         : mistake(W4f2) ? record[3] == 0 && record[7] == 0
         : mistake(W4f3) ? record[3] == 0 && record[6] == 0 : zeros;
}

/* A write and its refusals */

static inline bool writes_by_mistake(void)
{
    return (mutant >= MISTAKE_W4h1 && mutant <= MISTAKE_W4h6) || (mutant >= MISTAKE_W4i1 && mutant <= MISTAKE_W4i3)
        || mistake(W4i5);
}

static inline bool has_room(size_t room)
{
    switch (mutant) {
    case MISTAKE_W4h1: return room >= JOURNAL_BYTES - 1;
    case MISTAKE_W4h2: return room > JOURNAL_BYTES;
    case MISTAKE_W4h3: return room == JOURNAL_BYTES;
    default: return room >= JOURNAL_BYTES;
    }
}

static inline int mistaken_write(const struct entry *e, struct bytes out, bool fits)
{
    uint8_t record[JOURNAL_BYTES] = { 0 };
    size_t fill = out.length < sizeof record ? out.length : sizeof record;
    bool room = has_room(out.length), made = room && fits;
    put_entry(e, record);
    if (made || (mistake(W4h6) && !room) || (mistake(W4i2) && room))
        memcpy(out.at, record, fill);
    if (made && mistake(W4h5))
        memset(out.at + sizeof record, 0, out.length - sizeof record);
    if (mistake(W4i1) && room && !fits)
        memset(out.at, 0, fill);
    if (made)
        return 0;
    if (mistake(W4h4) && !fits)
        return 17;
    return room ? rule(17, W4i5, 16) : rule(16, W4i3, 17);
}

/* A check of a whole file */

static inline bool checks_by_mistake(void)
{
    return (mutant >= MISTAKE_W4g1 && mutant <= MISTAKE_W4g6) || mistake(W4g9) || mistake(W4g10) || mistake(W4f10);
}

/* What is counted of a file, record by record. */
struct counted {
    uint64_t number, bad, first, last;
    uint64_t tick;
};

static inline bool mistakes_record_of(struct counted *so_far, struct bytes record, bool cut)
{
    struct entry e = { .tick = 0 };
    bool good = read_entry(record, &e) == 0 && !(mistake(W4f10) && e.tick < so_far->tick);
    so_far->tick = e.tick;
    return good || (mistake(W4g3) && cut);
}

static inline struct verdict mistaken_check(struct bytes file)
{
    struct counted so_far = { .number = 0 };
    size_t whole = file.length - file.length % JOURNAL_BYTES;
    size_t end = mistake(W4g2) ? whole : mistake(W4g6) && file.length > JOURNAL_BYTES ? JOURNAL_BYTES : file.length;
    for (size_t at = 0; at < end; at += JOURNAL_BYTES) {
        so_far.number += !(mistake(W4g10) && at == whole && at > 0);
        if (mistakes_record_of(&so_far, record_at(file, at), at == whole))
            continue;
        so_far.first = so_far.bad == 0 ? so_far.number : so_far.first;
        so_far.last = so_far.number;
        so_far.bad++;
    }
    if (mistake(W4g9) && file.length == 0)
        return (struct verdict){ false, 1 };
    uint64_t told = mistake(W4g4) ? so_far.last : mistake(W4g5) ? so_far.bad : so_far.first - mistake(W4g1);
    return (struct verdict){ so_far.bad == 0, so_far.bad == 0 ? so_far.number : told };
}

#endif
