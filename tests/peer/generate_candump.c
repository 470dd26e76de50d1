/*
 * generate_candump.c - lines and logs of request W10: good ones with every edge, and ones that break a rule.
 */
#include <inttypes.h>
#include <stdio.h>
#include <string.h>

#include "candump_programs.h"
#include "generate.h"

#define SOME(dice, list) ((list)[roll((dice), (int)(sizeof (list) / sizeof (list)[0]))])

enum { LONG_LINE = 70000 };

/* A line in pieces, so that each can be spoilt. What stands between them is as in the paper's example. */
struct pieces {
    const char *front;
    char seconds[24];
    const char *point;
    char decimals[12];
    const char *behind_time;
    char name[NAME_ASKED_MAX + 1];
    const char *behind_name;
    char identifier[12];
    const char *hash;
    char data[24];
    const char *end;
};

/* Good lines */

static void put_letters(struct dice *dice, char *name, int count)
{
    static const char letters[] = "ABYZabyz0189canCAN", edges[] = "AZaz09";
    for (int i = 0; i < count; i++)
        name[i] = chance(dice, 30) ? edges[roll(dice, 6)] : letters[roll(dice, (int)sizeof letters - 1)];
    name[count] = 0;
}

void put_name(struct dice *dice, char *name)
{
    static const int edges[] = { 1, 2, 14, LETTERS_MAX, LETTERS_MAX };
    if (chance(dice, 70))
        strcpy(name, "can0");
    else
        put_letters(dice, name, chance(dice, 60) ? SOME(dice, edges) : between(dice, 1, LETTERS_MAX));
}

int some_identifier(struct dice *dice)
{
    static const int edges[] = { 0, 1, 9, 10, 15, 16, 0xFF, 0x100, 0x63F, 0x64A, 0x7FE, IDENTIFIER_MAX, 0x2AF };
    return chance(dice, 50) ? 0x640 + roll(dice, BERTHS) : chance(dice, 60) ? SOME(dice, edges) : roll(dice, 0x800);
}

static void put_hex(struct dice *dice, char *text, int bytes)
{
    for (int i = 0; i < bytes; i++)
        sprintf(text + 2 * i, "%02X", roll(dice, 256));
    text[2 * bytes] = 0;
}

static struct pieces some_pieces(struct dice *dice, uint64_t time)
{
    struct pieces p = { .front = "(", .point = ".", .behind_time = ") ", .behind_name = " ", .hash = "#", .end = "\n" };
    int digits = chance(dice, 15) ? between(dice, 1, SECONDS_DIGITS) : 1;
    sprintf(p.seconds, "%0*" PRIu64, digits, time / MICROS_PER_SECOND);
    sprintf(p.decimals, "%06" PRIu64, time % MICROS_PER_SECOND);
    sprintf(p.identifier, "%03X", (unsigned)some_identifier(dice));
    put_name(dice, p.name);
    put_hex(dice, p.data, roll(dice, FRAME_BYTES + 1));
    return p;
}

static int put_pieces(const struct pieces *p, char *text)
{
    return sprintf(text, "%s%s%s%s%s%s%s%s%s%s%s", p->front, p->seconds, p->point, p->decimals, p->behind_time, p->name,
                   p->behind_name, p->identifier, p->hash, p->data, p->end);
}

/* Spoilt lines */

/* One byte becomes another one, from around the edges of what may stand there. */
static void spoil_byte(struct dice *dice, char *text)
{
    static const char edges[] = "/:@G[`g{afz-_.+ #()\t\r\xE9";
    if (text[0] != 0)
        text[roll(dice, (int)strlen(text))] = edges[roll(dice, (int)sizeof edges - 1)];
}

static void spoil_time(struct dice *dice, struct pieces *p)
{
    static const char *const fronts[] = { "", " (", "( ", "[", "((", "(+", "(-" };
    static const char *const points[] = { "", ",", "..", ":", " " };
    switch (roll(dice, 8)) {
    case 0:
        p->seconds[0] = 0;
        break;
    case 1:
        sprintf(p->seconds, "%d%010d", roll(dice, 2), roll(dice, 100000));
        break;
    case 2:
        p->decimals[chance(dice, 70) ? DECIMALS - 1 : roll(dice, DECIMALS)] = 0;
        break;
    case 3:
        strcat(p->decimals, "0");
        break;
    case 4:
        spoil_byte(dice, p->seconds);
        break;
    case 5:
        spoil_byte(dice, p->decimals);
        break;
    case 6:
        p->front = SOME(dice, fronts);
        break;
    default:
        p->point = SOME(dice, points);
        break;
    }
}

void spoil_name(struct dice *dice, char *name)
{
    static const int counts[] = { 0, 0, LETTERS_MAX + 1, LETTERS_MAX + 1, LETTERS_MAX + 2, NAME_ASKED_MAX };
    if (chance(dice, 50))
        put_letters(dice, name, SOME(dice, counts));
    else
        spoil_byte(dice, name);
}

static void spoil_frame(struct dice *dice, struct pieces *p)
{
    static const char *const identifiers[] = { "800", "801", "8FF", "FFF", "64", "6", "", "0643", "1643", "00000643" };
    static const char *const hashes[] = { "", "##", "#R", " #", "# ", "#1", "@" };
    switch (roll(dice, 6)) {
    case 0:
        strcpy(p->identifier, SOME(dice, identifiers));
        break;
    case 1:
        spoil_byte(dice, p->identifier);
        break;
    case 2:
        p->hash = SOME(dice, hashes);
        break;
    case 3:
        put_hex(dice, p->data, FRAME_BYTES + 1);
        break;
    case 4:
        put_hex(dice, p->data, between(dice, 1, FRAME_BYTES));
        p->data[strlen(p->data) - 1] = 0;
        break;
    default:
        put_hex(dice, p->data, between(dice, 1, FRAME_BYTES));
        spoil_byte(dice, p->data);
        break;
    }
}

static void spoil_between(struct dice *dice, struct pieces *p)
{
    static const char *const times[] = { ")", ")  ", ")\t", " ", ") \t", "] " };
    static const char *const names[] = { "", "  ", "\t", " \t", "\r" };
    static const char *const ends[] = { "\r\n", " \n", " R\n", "\t\n", "", "\r", "\n\n", ";\n", "#\n", ".\n" };
    int drawn = roll(dice, 4);
    if (drawn == 0)
        p->behind_time = SOME(dice, times);
    else if (drawn == 1)
        p->behind_name = SOME(dice, names);
    else
        p->end = SOME(dice, ends);
}

/* A byte of the whole line is changed, left out or put in; it may be any, 0 and LF too. */
static int spoil_text(struct dice *dice, char *text, int length)
{
    int at = roll(dice, length), drawn = roll(dice, 3);
    char byte = (char)(chance(dice, 20) ? 0 : chance(dice, 20) ? '\n' : roll(dice, 256));
    if (drawn == 0) {
        text[at] = byte;
        return length;
    }
    if (drawn == 1) {
        memmove(text + at, text + at + 1, (size_t)(length - at - 1));
        return length - 1;
    }
    memmove(text + at + 1, text + at, (size_t)(length - at));
    text[at] = byte;
    return length + 1;
}

/* The bytes of a line of another form, most of the time. */
int put_spoilt_line(struct dice *dice, char *text, uint64_t time)
{
    struct pieces p = some_pieces(dice, time);
    int drawn = roll(dice, 5);
    if (drawn == 0)
        spoil_time(dice, &p);
    else if (drawn == 1)
        spoil_name(dice, p.name);
    else if (drawn == 2)
        spoil_frame(dice, &p);
    else if (drawn == 3)
        spoil_between(dice, &p);
    int length = put_pieces(&p, text);
    return drawn == 4 ? spoil_text(dice, text, length) : length;
}

int put_good_line(struct dice *dice, char *text, uint64_t time)
{
    struct pieces p = some_pieces(dice, time);
    return put_pieces(&p, text);
}

/* Logs */

enum ending { ALL_GOOD, SPOILT, EARLIER, APART, CUT, LONG, ENDINGS };

struct log {
    struct dice dice;
    uint64_t first, last;       /* times, in microseconds */
};

/* A part of a millisecond, mostly at its edges. */
uint64_t some_part(struct dice *dice)
{
    static const uint64_t edges[] = { 0, 0, 1, 499, 500, 998, 999 };
    return chance(dice, 80) ? SOME(dice, edges) : (uint64_t)roll(dice, MICROS_PER_TICK);
}

/* So many ticks behind the line before. */
static uint64_t ticks_later(struct log *log, uint64_t ticks)
{
    uint64_t whole = (log->last - log->first) / MICROS_PER_TICK;
    return log->first + (whole + ticks) * MICROS_PER_TICK + some_part(&log->dice);
}

static uint64_t some_next_time(struct log *log)
{
    int drawn = roll(&log->dice, 1000);
    uint64_t next = drawn < 150 ? log->last
                  : drawn < 300 ? log->last + (uint64_t)between(&log->dice, 1, MICROS_PER_TICK - 1)
                  : drawn < 400 ? log->last + MICROS_PER_TICK
                  : drawn < 500 ? ticks_later(log, (uint64_t)between(&log->dice, 1, 3))
                  : drawn < 970 ? log->last + (uint64_t)between(&log->dice, 1, 5 * MICROS_PER_TICK)
                  : drawn < 997 ? log->last + (uint64_t)between(&log->dice, 1, 200 * MICROS_PER_TICK)
                                : ticks_later(log, TICKS_APART_MAX);
    return next < log->last || next >= TIME_END ? log->last : next;
}

static uint64_t some_earlier_time(struct log *log)
{
    static const uint64_t before[] = { 1, 1, 2, 999, 1000, 1001, MICROS_PER_SECOND, UINT64_MAX };
    uint64_t less = SOME(&log->dice, before);
    return log->last >= less ? log->last - less : 0;
}

static uint64_t some_time_apart(struct log *log)
{
    static const uint64_t ticks[] = { 60001, 60001, 60002, 65535, 65536, 100000000 };
    return ticks_later(log, SOME(&log->dice, ticks));
}

static void put_long_line(struct log *log, char *text)
{
    int length = put_good_line(&log->dice, text, log->last) - 1;
    fwrite(text, 1, (size_t)length, stdout);
    for (int i = 0; i < LONG_LINE; i++)
        putchar(chance(&log->dice, 2) ? ' ' : 'A');
    putchar('\n');
}

/* The line that ends the log, for whoever reads it. */
static void put_refused_line(struct log *log, enum ending ending, char *text)
{
    int length = 0;
    if (ending == SPOILT)
        length = put_spoilt_line(&log->dice, text, some_next_time(log));
    if (ending == EARLIER)
        length = put_good_line(&log->dice, text, some_earlier_time(log));
    if (ending == APART)
        length = put_good_line(&log->dice, text, some_time_apart(log));
    if (ending == LONG)
        put_long_line(log, text);
    fwrite(text, 1, (size_t)length, stdout);
}

static void put_next_line(struct log *log, char *text, bool cut, bool most)
{
    uint64_t next = most ? ticks_later(log, TICKS_APART_MAX) : some_next_time(log);
    log->last = next < TIME_END ? next : log->last;
    int length = put_good_line(&log->dice, text, log->last);
    fwrite(text, 1, (size_t)(cut ? between(&log->dice, 1, length - 1) : length), stdout);
}

/*
 * The ways to end take turns by the seed, and so do the times to start with; every
 * other row of endings has few lines. What is refused is late, and more comes behind
 * it. A good log has the most ticks between two lines once.
 */
void generate_log(uint64_t seed, long lines)
{
    static const uint64_t starts[] = {
        0, 12000250, 1700000000123456, 999, 4294960000, 4294967295999000, 9999999990000500,
    };
    struct log log = { .dice = { seed } };
    char text[TEXT_ROOM];
    enum ending ending = (enum ending)(seed % ENDINGS);
    lines = seed / ENDINGS % 2 == 1 ? between(&log.dice, 1, 6) : lines;
    log.first = log.last = starts[seed % (sizeof starts / sizeof starts[0])];
    long refused = ending == ALL_GOOD || ending == CUT ? -1 : between(&log.dice, (int)(lines * 3 / 4), (int)lines - 1);
    int length = put_good_line(&log.dice, text, log.first);
    fwrite(text, 1, (size_t)length, stdout);
    for (long i = 0; i < lines; i++) {
        if (i == refused)
            put_refused_line(&log, ending, text);
        put_next_line(&log, text, ending == CUT && i == lines - 1, ending == ALL_GOOD && i == lines / 2);
    }
}
