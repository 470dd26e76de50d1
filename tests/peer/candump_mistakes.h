/*
 * candump_mistakes.h - what the mutants of request W10 do in the form of a line, in its reader and in its writer.
 *
 * The rules hand over what they have found, field by field; a mutant of that
 * field has its own mind about it. It is all inline, so that a peer without
 * mutants has nothing of it.
 */
#ifndef CANDUMP_MISTAKES_H
#define CANDUMP_MISTAKES_H

#include <string.h>

#include "candump.h"
#include "mutants.h"

/* A byte that a mutant takes, or a piece of a line that it takes for another. */
struct byte_taken {
    int line;
    uint8_t byte;
};

struct piece_taken {
    int line;
    const char *written, *taken;
    bool of_data;               /* behind the hash only */
};

/* The bytes of a line */

static inline bool taken_by_mistake(uint8_t byte, const struct byte_taken *list, size_t count)
{
    for (size_t i = 0; i < count; i++)
        if (mutant == list[i].line && byte == list[i].byte)
            return true;
    return false;
}

static inline bool mistaken_decimal(uint8_t byte, bool fits)
{
    return fits || (mistake(W10a11) && byte == '/') || (mistake(W10a12) && byte == ':');
}

static inline bool mistaken_letter(uint8_t byte, bool fits)
{
    static const struct byte_taken others[] = {
        { MISTAKE_W10b4, '_' }, { MISTAKE_W10b5, '-' }, { MISTAKE_W10b11, '@' }, { MISTAKE_W10b12, '[' },
        { MISTAKE_W10b13, '`' }, { MISTAKE_W10b14, '{' }, { MISTAKE_W10b15, '/' }, { MISTAKE_W10b16, ':' },
        { MISTAKE_W10b17, 0xE9 },
    };
    switch (mutant) {
    case MISTAKE_W10b6: return fits && byte > '9';
    case MISTAKE_W10b7: return fits && !(byte >= 'A' && byte <= 'Z');
    case MISTAKE_W10b8: return fits && byte < 'a';
    default: return fits || taken_by_mistake(byte, others, sizeof others / sizeof others[0]);
    }
}

static inline bool mistaken_hex(uint8_t byte, bool fits)
{
    static const struct byte_taken others[] = {
        { MISTAKE_W10c10, '@' }, { MISTAKE_W10c11, 'G' }, { MISTAKE_W10c12, '/' }, { MISTAKE_W10c13, ':' },
    };
    return fits || taken_by_mistake(byte, others, sizeof others / sizeof others[0]);
}

static inline bool mistaken_name(struct bytes name, bool fits)
{
    switch (mutant) {
    case MISTAKE_W10b1: return fits || name.length == 0;
    case MISTAKE_W10b2: return fits || name.length == LETTERS_MAX + 1;
    case MISTAKE_W10b3: return fits && name.length < LETTERS_MAX;
    case MISTAKE_W10b9: return fits && name.at[0] > '9';
    default: return fits;
    }
}

/* The fields of a line */

static inline bool mistaken_seconds(struct bytes digits, bool fits)
{
    size_t zeros = 0;
    while (zeros < digits.length && digits.at[zeros] == '0')
        zeros++;
    switch (mutant) {
    case MISTAKE_W10a1: return fits || digits.length == SECONDS_DIGITS + 1;
    case MISTAKE_W10a2: return fits && digits.length < SECONDS_DIGITS;
    case MISTAKE_W10a3: return fits || digits.length == 0;
    case MISTAKE_W10a4: return digits.length == SECONDS_DIGITS;
    case MISTAKE_W10a5: return fits && (zeros == 0 || digits.length == 1);
    case MISTAKE_W10a6: return fits || (digits.length > 0 && digits.length - zeros <= SECONDS_DIGITS);
    default: return fits;
    }
}

static inline bool mistaken_decimals(struct bytes *digits, bool fits)
{
    if (mistake(W10a8) && digits->length > DECIMALS) {
        digits->length = DECIMALS;
        return true;
    }
    return mistake(W10a7) ? digits->length >= 1 && digits->length <= DECIMALS : fits;
}

static inline uint64_t mistaken_time(uint64_t seconds, uint64_t micros)
{
    uint64_t time = seconds * MICROS_PER_SECOND + micros;
    switch (mutant) {
    case MISTAKE_W10a9: return (seconds & UINT32_MAX) * MICROS_PER_SECOND + micros;
    case MISTAKE_W10a10: return time & UINT32_MAX;
    case MISTAKE_W10a14: return time - time % MICROS_PER_TICK;
    default: return time;
    }
}

static inline bool mistaken_identifier_digits(size_t count, bool fits)
{
    return fits || (mistake(W10c4) && count == 2) || (mistake(W10c5) && count == 4) || (mistake(W10c6) && count == 8);
}

static inline bool mistaken_identifier(uint32_t identifier, bool fits)
{
    switch (mutant) {
    case MISTAKE_W10c1: return fits || identifier == IDENTIFIER_MAX + 1;
    case MISTAKE_W10c2: return fits && identifier < IDENTIFIER_MAX;
    case MISTAKE_W10c7: return fits && identifier != 0;
    case MISTAKE_W10c8: return true;
    case MISTAKE_W10c9: return identifier >= 0x640 && identifier <= 0x649;
    default: return fits;
    }
}

static inline bool mistaken_data_digits(size_t count, bool fits)
{
    switch (mutant) {
    case MISTAKE_W10d1: return fits || (count % 2 == 0 && count > 2 * FRAME_BYTES);
    case MISTAKE_W10d2: return fits && count < 2 * FRAME_BYTES;
    case MISTAKE_W10d3: return fits && count > 0;
    case MISTAKE_W10d4: return fits || (count % 2 == 1 && count < 2 * FRAME_BYTES);
    default: return fits;
    }
}

/* What is kept of a line that fits, by mistake. */
static inline void mistake_form(struct form *form)
{
    if (mistake(W10c8))
        form->identifier &= IDENTIFIER_MAX;
    for (int i = 0; i < form->length && mistake(W10d6); i++)
        form->data[i] = (uint8_t)(form->data[i] >> 4 | form->data[i] << 4);
}

/* The line */

static inline size_t place_of_hash(struct bytes line)
{
    const uint8_t *hash = line.length > 0 ? memchr(line.at, '#', line.length) : NULL;
    return hash == NULL ? line.length : (size_t)(hash - line.at);
}

static inline struct bytes with_taken(struct bytes line, const struct piece_taken *piece, uint8_t *room)
{
    size_t length = 0, at = 0, old = strlen(piece->written), new = strlen(piece->taken);
    size_t from = piece->of_data ? place_of_hash(line) : 0;
    while (at < line.length && length + 1 < LINE_KEPT) {
        bool here = at >= from && line.length - at >= old && memcmp(line.at + at, piece->written, old) == 0;
        memcpy(room + length, here ? (const void *)piece->taken : line.at + at, here ? new : 1);
        length += here ? new : 1;
        at += here ? old : 1;
    }
    return (struct bytes){ room, length };
}

/* What ends a line too early, or is put behind it. */
static inline struct bytes with_other_end(struct bytes line, uint8_t *room)
{
    uint8_t ends = mistake(W10e9) ? 0 : '\n';
    size_t most = line.length < LINE_KEPT ? line.length : LINE_KEPT - 1;
    memcpy(room, line.at, most);
    uint8_t *end = most > 0 ? memchr(room, ends, most) : NULL;
    if (mistake(W10e4) && end == NULL)
        end = room + most;
    if (end == NULL)
        return line;
    *end = '\n';
    return (struct bytes){ room, (size_t)(end - room) + 1 };
}

/* The line as a mutant sees it, in this room of LINE_KEPT bytes. */
static inline struct bytes mistake_line(struct bytes line, uint8_t *room)
{
    static const struct piece_taken pieces[] = {
        { MISTAKE_W10a13, ",", ".", false }, { MISTAKE_W10a15, "( ", "(", false },
        { MISTAKE_W10a16, "(+", "(", false },
        { MISTAKE_W10d7, "##", "#", false }, { MISTAKE_W10d8, "#R", "#", false }, { MISTAKE_W10d9, ".", "", true },
        { MISTAKE_W10e1, "  ", " ", false }, { MISTAKE_W10e2, "\t", " ", false },
        { MISTAKE_W10e3, "\r\n", "\n", false }, { MISTAKE_W10e6, " \n", "\n", false },
        { MISTAKE_W10e7, " R\n", "\n", false }, { MISTAKE_W10e8, " (", "(", false },
    };
    for (size_t i = 0; i < sizeof pieces / sizeof pieces[0]; i++)
        if (mutant == pieces[i].line)
            return with_taken(line, &pieces[i], room);
    return mistake(W10e4) || mistake(W10e9) || mistake(W10e10) ? with_other_end(line, room) : line;
}

/* The reader */

/* Where a reading begins. */
static inline struct reading mistaken_reading(struct reading so_far)
{
    if (mistake(W10g5) && !so_far.begun)
        return (struct reading){ true, 0, 0 };
    so_far.begun |= mistake(W10p11);
    return so_far;
}

static inline uint64_t mistaken_ticks(const struct reading *so_far, uint64_t time, uint64_t ticks)
{
    uint64_t last = so_far->last, first = so_far->first, apart = time > last ? time - last : 0;
    uint64_t passed = time > first ? time - first : 0, before = last > first ? last - first : 0;
    switch (mutant) {
    case MISTAKE_W10g1: return apart / MICROS_PER_TICK;
    case MISTAKE_W10g2: return time / MICROS_PER_TICK - last / MICROS_PER_TICK;
    case MISTAKE_W10g3: return (passed + MICROS_PER_TICK / 2) / MICROS_PER_TICK
                             - (before + MICROS_PER_TICK / 2) / MICROS_PER_TICK;
    case MISTAKE_W10g4: return (passed + MICROS_PER_TICK - 1) / MICROS_PER_TICK
                             - (before + MICROS_PER_TICK - 1) / MICROS_PER_TICK;
    case MISTAKE_W10g7: return ticks == 0 ? 1 : ticks;
    case MISTAKE_W10g8: return (passed / MICROS_PER_TICK & UINT32_MAX) - (before / MICROS_PER_TICK & UINT32_MAX);
    case MISTAKE_W10g9: return (passed & UINT32_MAX) / MICROS_PER_TICK - (before & UINT32_MAX) / MICROS_PER_TICK;
    case MISTAKE_W10g10: return (time - first) / MICROS_PER_TICK - (last - first) / MICROS_PER_TICK;
    case MISTAKE_W10j5: return ticks > TICKS_APART_MAX ? TICKS_APART_MAX : ticks;
    default: return ticks;
    }
}

static inline bool mistaken_earlier(const struct reading *so_far, uint64_t time, bool earlier)
{
    switch (mutant) {
    case MISTAKE_W10i1: return time <= so_far->last;
    case MISTAKE_W10i2: return time / MICROS_PER_TICK < so_far->last / MICROS_PER_TICK;
    case MISTAKE_W10i3: return time < so_far->first;
    case MISTAKE_W10i4: return false;
    case MISTAKE_W10i7: return time / MICROS_PER_SECOND < so_far->last / MICROS_PER_SECOND;
    default: return earlier;
    }
}

static inline bool mistaken_apart(const struct reading *so_far, uint64_t time, bool apart)
{
    uint64_t micros = so_far->begun && time > so_far->last ? time - so_far->last : 0;
    uint64_t passed = so_far->begun && time > so_far->first ? time - so_far->first : 0;
    uint64_t before = so_far->begun && so_far->last > so_far->first ? so_far->last - so_far->first : 0;
    uint64_t ticks = passed / MICROS_PER_TICK - (passed > before ? before : passed) / MICROS_PER_TICK;
    switch (mutant) {
    case MISTAKE_W10j1: return ticks >= TICKS_APART_MAX;
    case MISTAKE_W10j2: return ticks > TICKS_APART_MAX + 1;
    case MISTAKE_W10j3: return micros > (uint64_t)TICKS_APART_MAX * MICROS_PER_TICK;
    case MISTAKE_W10j4: return micros / MICROS_PER_TICK > TICKS_APART_MAX;
    case MISTAKE_W10j8: return apart || (!so_far->begun && time / MICROS_PER_TICK > TICKS_APART_MAX);
    case MISTAKE_W10j9: return passed / MICROS_PER_TICK > TICKS_APART_MAX;
    case MISTAKE_W10j10: return ticks > UINT16_MAX;
    default: return apart;
    }
}

/* What is refused with 19, and by mistake with what is tested behind it. */
static inline int refused_early_by_mistake(const struct form *form, bool earlier, bool apart, int refusal)
{
    if (mistake(W10i8) && form->timed && earlier)
        return 20;
    if (mistake(W10i9) && form->fits && earlier)
        return 20;
    return mistake(W10j11) && form->fits && apart ? 21 : refusal;
}

static inline void mistake_frame_record(uint8_t *record)
{
    uint8_t high = record[2], length = record[4];
    if (mistake(W10f1)) {
        record[2] = record[3];
        record[3] = high;
    }
    if (mistake(W10f2)) {
        record[5] = length;
        record[4] = 0;
    }
    if (mistake(W10f3)) {
        memmove(record + 5, record + 8, FRAME_BYTES);
        memset(record + 5 + FRAME_BYTES, 0, 3);
    }
    if (mistake(W10f4))
        memset(record + 8 + length, 0xCC, (size_t)(FRAME_BYTES - length));
    if (mistake(W10f5))
        record[4] = (uint8_t)(2 * length);
}

static inline void mistake_kept(struct reading *kept, const struct reading *before, uint64_t ticks)
{
    if ((mistake(W10g11) && ticks > 0) || mistake(W10p12))
        kept->first = kept->last;
    if (mistake(W10p13) && before->begun)
        kept->last = before->last;
}

/* The writer */

/* A record as a mutant sees it, in these 16 bytes: of another form, and mended. */
static inline struct bytes mistake_record_bytes(struct bytes record, uint8_t *b)
{
    size_t length = record.length < RECORD_BYTES ? record.length : RECORD_BYTES;
    struct bytes seen = { b, record.length };
    memcpy(b, record.at, length);
    if ((mistake(W10l19) && record.length > RECORD_BYTES) || (mistake(W10l20) && record.length == RECORD_BYTES - 1))
        seen.length = RECORD_BYTES;
    if (mistake(W10l2) && (b[0] == SEND || b[0] == TURN))
        memset(b + 1, 0, RECORD_BYTES - 1);
    if (mistake(W10l3) && b[0] == SEND && b[2] == 1002 / 256 && b[3] == 1002 % 256)
        b[3]--;
    if (mistake(W10l5) && (b[0] > TURN || b[0] == 0))
        b[0] = TURN;
    if (mistake(W10l6) && b[0] == FRAME && b[4] > FRAME_BYTES)
        b[4] = FRAME_BYTES;
    if (mistake(W10l7) && b[0] == FRAME)
        b[1] = 0;
    if (mistake(W10l8) && b[0] == FRAME)
        memset(b + 5, 0, 3);
    if (mistake(W10l9) && b[0] == FRAME && b[4] <= FRAME_BYTES)
        memset(b + 8 + b[4], 0, (size_t)(FRAME_BYTES - b[4]));
    if (mistake(W10l10) && b[0] == TICK)
        memset(b + 1, 0, RECORD_BYTES - 1);
    if (mistake(W10l17) && b[0] == SEND)
        b[9] = 0;
    if (mistake(W10l18) && b[0] == TURN)
        b[1] = 0;
    return seen;
}

static inline bool mistakes_name(enum call_kind kind)
{
    return mistake(W10n1) || (mistake(W10n2) && kind != FRAME);
}

static inline bool refused_by_mistake(const struct call *call, uint64_t time)
{
    bool skipped = call->kind == SEND || call->kind == TURN, sends = call->kind == SEND;
    switch (mutant) {
    case MISTAKE_W10k11: return call->kind == TICK && time > UINT64_MAX - MICROS_PER_TICK;
    case MISTAKE_W10k12: return call->kind == TICK && time + MICROS_PER_TICK >= TIME_END;
    case MISTAKE_W10k17: return skipped && time >= TIME_END;
    case MISTAKE_W10l1: return skipped;
    case MISTAKE_W10l4: return sends && call->length == 1001;
    case MISTAKE_W10l15: return sends && call->berth >= BERTHS;
    case MISTAKE_W10l16: return sends && call->length == 0;
    case MISTAKE_W10l22: return call->kind == TURN;
    default: return false;
    }
}

static inline bool mistaken_identifier_written(struct call *call, bool fits)
{
    switch (mutant) {
    case MISTAKE_W10c1: return fits || call->identifier == IDENTIFIER_MAX + 1;
    case MISTAKE_W10c2: return fits && call->identifier < IDENTIFIER_MAX;
    case MISTAKE_W10l12: return true;
    case MISTAKE_W10l13: call->identifier &= IDENTIFIER_MAX; return true;
    case MISTAKE_W10l14: return call->identifier >= 0x640 && call->identifier <= 0x649;
    default: return fits;
    }
}

static inline bool mistaken_end_of_time(uint64_t time, bool fits)
{
    switch (mutant) {
    case MISTAKE_W10k13: return time < TIME_END / 10;
    case MISTAKE_W10k14: case MISTAKE_W10k16: return true;
    case MISTAKE_W10k15: return time <= TIME_END;
    default: return fits;
    }
}

static inline uint64_t mistaken_seconds_written(uint64_t seconds)
{
    return rule(seconds, W10k16, seconds % (TIME_END / MICROS_PER_SECOND));
}

static inline const char *mistaken_end(void)
{
    return mistake(W10m5) ? "" : mistake(W10m6) ? "\r\n" : rule("\n", W10m10, " R\n");
}

/* What a record leaves of the time. */
static inline void mistake_time(uint64_t *time, const struct call *call)
{
    static bool framed;
    framed |= call->kind == FRAME;
    if (mistake(W10k1) && !framed)
        *time = 0;
    if ((mistake(W10k6) && call->kind == TURN) || (mistake(W10k7) && call->kind == SEND)
        || (mistake(W10k8) && call->kind == FRAME))
        *time += MICROS_PER_TICK;
    if (mistake(W10k9))
        *time &= UINT32_MAX;
}

#endif
