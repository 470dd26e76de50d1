/*
 * generate_log_records.c - records to be written as a log, and requests of candump's scenes, of request W10.
 */
#include <stdio.h>
#include <string.h>

#include "candump_programs.h"
#include "generate.h"

#define SOME(dice, list) ((list)[roll((dice), (int)(sizeof (list) / sizeof (list)[0]))])

/* Records */

static void put_frame(struct dice *dice, uint8_t *record)
{
    int identifier = some_identifier(dice), length = roll(dice, FRAME_BYTES + 1);
    record[0] = FRAME;
    record[2] = (uint8_t)(identifier >> 8);
    record[3] = (uint8_t)identifier;
    record[4] = (uint8_t)length;
    for (int i = 0; i < length; i++)
        record[8 + i] = (uint8_t)roll(dice, 256);
}

static void put_send(struct dice *dice, uint8_t *record)
{
    static const int lengths[] = { 0, 1, 7, 8, 255, 256, 1000, 1001 }, berths[] = { 0, 9, 10, 255 };
    int length = chance(dice, 60) ? SOME(dice, lengths) : roll(dice, 1002);
    record[0] = SEND;
    record[1] = (uint8_t)(chance(dice, 50) ? SOME(dice, berths) : roll(dice, BERTHS));
    record[2] = (uint8_t)(length >> 8);
    record[3] = (uint8_t)length;
    record[8] = (uint8_t)roll(dice, 256);
}

static void put_good_record(struct dice *dice, uint8_t *record)
{
    int drawn = roll(dice, 100);
    memset(record, 0, RECORD_BYTES);
    if (drawn < 45)
        put_frame(dice, record);
    else if (drawn < 85)
        record[0] = TICK;
    else if (drawn < 93)
        put_send(dice, record);
    else
        record[0] = TURN;
}

/* One byte that its kind has no use for. */
static void spoil_unused(struct dice *dice, uint8_t *record)
{
    static const int of_frame[] = { 1, 5, 6, 7 };
    static const int of_send[] = { 4, 5, 6, 7, 9, 10, 11, 12, 13, 14, 15 };
    int behind = record[0] == FRAME ? 8 + record[4] : 1;
    int at = record[0] == SEND ? SOME(dice, of_send) : between(dice, behind, RECORD_BYTES - 1);
    if (record[0] == FRAME && (chance(dice, 60) || record[4] == FRAME_BYTES))
        at = SOME(dice, of_frame);
    record[at] = (uint8_t)(1 << roll(dice, 8));
}

static void put_damaged_record(struct dice *dice, uint8_t *record)
{
    static const uint8_t kinds[] = { 0, 5, 6, 17, 129, 255 }, lengths[] = { 9, 10, 15, 16, 255 };
    static const int sends[] = { 1002, 1003, 4096, 65535 };
    static const int identifiers[] = { 0x800, 0x801, 0xFFF, 0x1643, 0x8643, 0xFFFF };
    int drawn = roll(dice, 5), send = SOME(dice, sends), identifier = SOME(dice, identifiers);
    put_good_record(dice, record);
    if (drawn == 0 || drawn == 1) {
        memset(record, 0, RECORD_BYTES);
        put_frame(dice, record);
    }
    if (drawn == 0)
        record[4] = SOME(dice, lengths);
    if (drawn == 1)
        memcpy(record + 2, (const uint8_t[]){ (uint8_t)(identifier >> 8), (uint8_t)identifier }, 2);
    if (drawn == 2)
        record[0] = SOME(dice, kinds);
    if (drawn == 3)
        memcpy(record, (const uint8_t[]){ SEND, 0, (uint8_t)(send >> 8), (uint8_t)send, 0, 0, 0, 0 }, 8);
    if (drawn == 4)
        spoil_unused(dice, record);
}

static void put_many_ticks(long count)
{
    static const uint8_t tick[RECORD_BYTES] = { TICK };
    for (long i = 0; i < count; i++)
        fwrite(tick, 1, sizeof tick, stdout);
}

/*
 * Four kinds of files take turns by the seed: good and whole, cut behind the last
 * record, with one damaged record late, and both. Of eight files one has the most
 * ticks that a reader takes in a row, and one has more.
 */
void generate_log_records(uint64_t seed, long records)
{
    struct dice dice = { seed };
    uint8_t record[RECORD_BYTES];
    long damaged = seed % 4 >= 2 ? between(&dice, (int)(records * 3 / 4), (int)records - 1) : -1;
    long many = seed % 4 == 0 ? between(&dice, (int)(records / 4), (int)records - 1) : -1;
    for (long i = 0; i < records; i++) {
        if (i == damaged)
            put_damaged_record(&dice, record);
        else
            put_good_record(&dice, record);
        fwrite(record, 1, sizeof record, stdout);
        if (i == many)
            put_many_ticks(TICKS_APART_MAX - 5 + (long)(seed % 8 / 4) * 10);
    }
    if (seed % 2 == 1)
        fwrite(record, 1, (size_t)between(&dice, 1, RECORD_BYTES - 1), stdout);
}

/* Requests of candump's scenes */

static void put_high_first(uint8_t *at, uint64_t value)
{
    for (int i = 0; i < 8; i++)
        at[i] = (uint8_t)(value >> 8 * (7 - i));
}

static uint64_t some_time(struct dice *dice)
{
    static const uint64_t edges[] = {
        0, 1, 999, 1000, 999999, 1000000, 1000001, UINT32_MAX, (uint64_t)UINT32_MAX + 1, UINT64_C(4294967296000000),
        TIME_END / 10 - 1, TIME_END / 10, TIME_END - 1001, TIME_END - 1000, TIME_END - 1, TIME_END, TIME_END + 1,
        INT64_MAX, (uint64_t)INT64_MAX + 1, UINT64_MAX - 1001, UINT64_MAX - 1000, UINT64_MAX - 999, UINT64_MAX,
    };
    return chance(dice, 60) ? SOME(dice, edges) : roll_bits(dice) >> roll(dice, 64);
}

/* A line's time and what was read before it: ticks around 60,000, few ticks, or none, and an earlier time. */
static uint64_t put_reading(struct dice *dice, uint8_t *request)
{
    static const int ticks[] = { 0, 0, 1, 2, 59999, 60000, 60000, 60001, 60001, 60002 };
    uint64_t first = some_time(dice) % TIME_END, before = roll_bits(dice) >> between(dice, 20, 63);
    uint64_t last = first + before % (TIME_END / 1000) * MICROS_PER_TICK + some_part(dice);
    uint64_t whole = (last - first) / MICROS_PER_TICK + (uint64_t)SOME(dice, ticks);
    uint64_t time = first + whole * MICROS_PER_TICK + some_part(dice);
    if (chance(dice, 15))
        first = some_time(dice);
    if (chance(dice, 10))
        last = some_time(dice);
    if (chance(dice, 10))
        last = time + (uint64_t)roll(dice, 3);
    request[2] = chance(dice, 85);
    put_high_first(request + 8, first);
    put_high_first(request + 16, last);
    return time < TIME_END || chance(dice, 10) ? time : TIME_END - 1;
}

static void put_request_to_read(struct dice *dice, uint8_t *request)
{
    char text[TEXT_ROOM];
    uint64_t time = put_reading(dice, request);
    int length = chance(dice, 55) ? put_good_line(dice, text, time) : put_spoilt_line(dice, text, time);
    if (chance(dice, 3))
        length = chance(dice, 50) ? length - 1 : roll(dice, LINE_ASKED_MAX + 1) % length;
    length = length < LINE_ASKED_MAX ? length : LINE_ASKED_MAX;
    request[0] = READ_LINE;
    request[1] = (uint8_t)length;
    memcpy(request + LINE_PLACE, text, (size_t)length);
}

static void put_request_to_write(struct dice *dice, uint8_t *request)
{
    static const uint8_t lengths[] = { 0, 1, 15, 17, RECORD_ASKED_MAX };
    char name[NAME_ASKED_MAX + 1];
    put_name(dice, name);
    if (chance(dice, 20))
        spoil_name(dice, name);
    if (chance(dice, 65))
        put_good_record(dice, request + RECORD_PLACE);
    else
        put_damaged_record(dice, request + RECORD_PLACE);
    request[0] = WRITE_LINE;
    request[1] = (uint8_t)strlen(name);
    request[2] = chance(dice, 94) ? RECORD_BYTES : SOME(dice, lengths);
    put_high_first(request + 8, some_time(dice));
    memcpy(request + NAME_PLACE, name, request[1]);
    memset(request + RECORD_PLACE + request[2], 0, RECORD_ASKED_MAX - (size_t)request[2]);
}

/* The mistakes of a request itself: its call, its lengths, a byte that is not used. */
static void spoil_line_request(struct dice *dice, uint8_t *request)
{
    static const uint8_t calls[] = { 0, 3, 4, 255 }, lines[] = { 97, 98, 128, 255 }, others[] = { 25, 26, 48, 255 };
    static const int unused_of_read[] = { 3, 7, 24, 31, 127 }, unused_of_write[] = { 3, 7, 16, 23, 72, 127 };
    bool reads = request[0] == READ_LINE;
    switch (roll(dice, 5)) {
    case 0:
        request[0] = SOME(dice, calls);
        break;
    case 1:
        request[1] = reads ? SOME(dice, lines) : SOME(dice, others);
        break;
    case 2:
        request[2] = reads ? (uint8_t)between(dice, 2, 255) : SOME(dice, others);
        break;
    case 3:
        request[reads ? LINE_PLACE + request[1] % LINE_ASKED_MAX : NAME_PLACE + request[1] % NAME_ASKED_MAX] ^= 1;
        break;
    default:
        request[reads ? SOME(dice, unused_of_read) : SOME(dice, unused_of_write)] ^= 1;
        break;
    }
}

/* Streams of odd seeds end in a cut request. */
void generate_line_requests(uint64_t seed, long requests)
{
    struct dice dice = { seed };
    uint8_t request[LINE_REQUEST_BYTES];
    for (long i = 0; i < requests; i++) {
        memset(request, 0, sizeof request);
        if (chance(&dice, 60))
            put_request_to_read(&dice, request);
        else
            put_request_to_write(&dice, request);
        if (chance(&dice, 4))
            spoil_line_request(&dice, request);
        fwrite(request, 1, sizeof request, stdout);
    }
    if (seed % 2 == 1)
        fwrite(request, 1, (size_t)between(&dice, 1, LINE_REQUEST_BYTES - 1), stdout);
}
