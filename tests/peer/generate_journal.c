/*
 * generate_journal.c - journals and requests of request W4: good ones with every edge, and ones that break a rule.
 */
#include <stdio.h>
#include <string.h>

#include "generate.h"
#include "journal_programs.h"

#define SOME(dice, list) ((list)[roll((dice), (int)(sizeof (list) / sizeof (list)[0]))])

/* Entries */

static uint64_t some_tick(struct dice *dice)
{
    static const uint64_t edges[] = {
        0, 1, 127, 128, 255, 256, 65535, 65536, UINT32_MAX, (uint64_t)UINT32_MAX + 1, INT64_MAX,
        (uint64_t)INT64_MAX + 1, UINT64_MAX - 1, UINT64_MAX,
    };
    return chance(dice, 30) ? SOME(dice, edges) : roll_bits(dice) >> roll(dice, 64);
}

static uint32_t some_delivered_length(struct dice *dice)
{
    static const uint32_t edges[] = { 1, 2, 7, 8, 255, 256, 257, 1000, 4094, DELIVERED_MAX };
    return chance(dice, 50) ? SOME(dice, edges) : (uint32_t)between(dice, 1, DELIVERED_MAX);
}

static struct entry some_good_entry(struct dice *dice)
{
    static const uint32_t receive[] = { N_OK, N_TIMEOUT_A, N_TIMEOUT_Cr, N_WRONG_SN, N_UNEXP_PDU };
    static const uint32_t send[] = { N_OK, N_TIMEOUT_A, N_TIMEOUT_Bs, N_INVALID_FS, N_BUFFER_OVFLW };
    bool received = chance(dice, 50);
    struct entry entry = {
        .kind = received ? RECEIVE_REPORT : SEND_REPORT, .berth = (uint32_t)roll(dice, BERTHS),
        .code = received ? SOME(dice, receive) : SOME(dice, send), .tick = some_tick(dice),
    };
    if (received && entry.code == N_OK)
        entry.length = some_delivered_length(dice);
    return entry;
}

/* Around the edge of what a field may be, or of the bytes that it has in a record. */
static uint32_t some_strange_number(struct dice *dice)
{
    static const uint32_t edges[] = { 0, 1, 2, 3, 9, 10, 11, 15, 16, 17, 18, 127, 128, 255 };
    static const uint32_t wide[] = { 256, 257, 259, 4095, 4096, 4097, 8191, 65535, 65536, 65537, 65541, UINT32_MAX };
    return chance(dice, 60) ? SOME(dice, edges) : SOME(dice, wide);
}

/* Kind and code have one byte in a request too. */
static struct entry some_strange_entry(struct dice *dice)
{
    struct entry entry = some_good_entry(dice);
    switch (roll(dice, 5)) {
    case 0:
        entry.kind = some_strange_number(dice) % 256;
        break;
    case 1:
        entry.berth = some_strange_number(dice);
        break;
    case 2:
        entry.code = (uint32_t)roll(dice, 12);
        break;
    case 3:
        entry.length = some_strange_number(dice);
        break;
    default:
        entry.kind = RECEIVE_REPORT;
        entry.code = N_OK;
        entry.length = some_strange_number(dice);
        break;
    }
    return entry;
}

/* Records: they are put together here without the journal's writer */

static void put_high_first(uint8_t *at, int bytes, uint64_t value)
{
    for (int i = 0; i < bytes; i++)
        at[i] = (uint8_t)(value >> 8 * (bytes - 1 - i));
}

static void put_record(uint8_t *at, struct entry entry)
{
    memset(at, 0, JOURNAL_BYTES);
    at[0] = (uint8_t)entry.kind;
    at[1] = (uint8_t)entry.berth;
    at[2] = (uint8_t)entry.code;
    put_high_first(at + 4, 2, entry.length);
    put_high_first(at + 8, 8, entry.tick);
}

static void put_damaged_record(struct dice *dice, uint8_t *at)
{
    static const int zeros[] = { 3, 6, 7 };
    if (chance(dice, 60)) {
        put_record(at, some_strange_entry(dice));
        return;
    }
    put_record(at, some_good_entry(dice));
    at[SOME(dice, zeros)] = (uint8_t)(1 << roll(dice, 8));
}

/*
 * Four kinds of files take turns by the seed: good and whole, cut behind the last
 * record, with one damaged record somewhere, and both.
 */
void generate_journal(uint64_t seed, long records)
{
    struct dice dice = { seed };
    uint8_t record[JOURNAL_BYTES];
    long damaged = seed % 4 >= 2 ? between(&dice, 0, (int)records - 1) : -1;
    for (long i = 0; i < records; i++) {
        if (i == damaged)
            put_damaged_record(&dice, record);
        else
            put_record(record, some_good_entry(&dice));
        fwrite(record, 1, sizeof record, stdout);
    }
    put_record(record, some_good_entry(&dice));
    if (seed % 2 == 1)
        fwrite(record, 1, (size_t)between(&dice, 1, JOURNAL_BYTES - 1), stdout);
}

/* Requests of the journal's scenes */

static int some_room(struct dice *dice)
{
    static const int edges[] = { 0, 1, 8, 15, 16, 17, 31, 32, 33, 47, ROOM_MAX };
    return chance(dice, 70) ? SOME(dice, edges) : roll(dice, ROOM_MAX + 1);
}

static void put_write(struct dice *dice, uint8_t *request)
{
    struct entry entry = chance(dice, 50) ? some_good_entry(dice) : some_strange_entry(dice);
    if (chance(dice, 10))
        entry = some_strange_entry(dice);
    request[0] = WRITE_ENTRY;
    request[1] = (uint8_t)(chance(dice, 40) ? JOURNAL_BYTES : some_room(dice));
    request[2] = (uint8_t)entry.kind;
    request[3] = (uint8_t)entry.code;
    put_high_first(request + 4, 4, entry.berth);
    put_high_first(request + 8, 4, entry.length);
    put_high_first(request + 12, 8, entry.tick);
}

/* Three records, of which some are damaged, and as much of them as there is room for. */
static void put_file(struct dice *dice, uint8_t *request, int damaged_percent)
{
    uint8_t file[ROOM_MAX];
    for (int at = 0; at < ROOM_MAX; at += JOURNAL_BYTES) {
        if (chance(dice, damaged_percent))
            put_damaged_record(dice, file + at);
        else
            put_record(file + at, some_good_entry(dice));
    }
    memcpy(request + 16, file, request[1]);
}

static void put_read(struct dice *dice, uint8_t *request)
{
    request[0] = READ_ENTRY;
    request[1] = (uint8_t)(chance(dice, 60) ? JOURNAL_BYTES : some_room(dice));
    put_file(dice, request, 60);
}

static void put_check(struct dice *dice, uint8_t *request)
{
    request[0] = CHECK_JOURNAL;
    request[1] = (uint8_t)(chance(dice, 60) ? JOURNAL_BYTES * roll(dice, 4) : some_room(dice));
    put_file(dice, request, 20);
}

/* The mistakes of a request itself: its call, its length, a byte that is not used. */
static void spoil_request(struct dice *dice, uint8_t *request)
{
    static const uint8_t calls[] = { 0, 4, 5, 255 }, rooms[] = { 49, 50, 64, 255 };
    int end = request[0] == WRITE_ENTRY ? 20 : 16 + request[1] % ROOM_MAX;
    switch (roll(dice, 4)) {
    case 0:
        request[0] = SOME(dice, calls);
        break;
    case 1:
        request[1] = SOME(dice, rooms);
        break;
    case 2:
        request[chance(dice, 50) ? REQUEST_BYTES - 1 : between(dice, end, REQUEST_BYTES - 1)] = 1;
        break;
    default:
        request[request[0] == WRITE_ENTRY ? 20 : between(dice, 2, 15)] = 1;
        break;
    }
}

static void put_request(struct dice *dice, uint8_t *request)
{
    int drawn = roll(dice, 20);
    memset(request, 0, REQUEST_BYTES);
    if (drawn < 9)
        put_write(dice, request);
    else if (drawn < 15)
        put_read(dice, request);
    else
        put_check(dice, request);
    if (chance(dice, 4))
        spoil_request(dice, request);
}

/* Streams of odd seeds end in a cut request. */
void generate_requests(uint64_t seed, long requests)
{
    struct dice dice = { seed };
    uint8_t request[REQUEST_BYTES];
    for (long i = 0; i < requests; i++) {
        put_request(&dice, request);
        fwrite(request, 1, sizeof request, stdout);
    }
    if (seed % 2 == 1)
        fwrite(request, 1, (size_t)between(&dice, 1, REQUEST_BYTES - 1), stdout);
}
