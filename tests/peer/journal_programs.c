/*
 * journal_programs.c - the programs of request W4 over standard input and output.
 */
#include <inttypes.h>
#include <stdio.h>
#include <string.h>

#include "journal_programs.h"
#include "line.h"
#include "mutants.h"
#include "noting_mistakes.h"

enum { EMPTY_BYTE = 0xAA };     /* what a buffer holds before a write */

/* The exerciser's journal */

/* The exerciser's world with the ticks that it has answered. */
struct run {
    struct world world;
    uint64_t ticks;
    uint8_t written[JOURNAL_BYTES];     /* the record before */
};

static struct entries note(struct run *run, const uint8_t *record)
{
    struct call call = read_record(EXERCISER, record);
    struct node before = run->world.node;
    struct answer answer = perform(&run->world, &call);
    bool answered = call.kind == TICK && answer.refusal == 0;
    struct entries entries = entries_of(&call, &answer, 0);
    run->ticks += ticks_before_noting(&call, record, answered, entries.count > 0);
    entries = entries_of(&call, &answer, run->ticks);
    if (mutant != NO_MUTANT)
        mistake_noting(&(struct noted){ &before, &call, &answer, run->ticks + mistake(W4j2) }, &entries);
    run->ticks += ticks_behind_noting(answered);
    if (mistake(W4a26) && call.kind == BAD)
        add_made_up(&entries, RECEIVE_REPORT, 0, N_WRONG_SN, 0);
    return entries;
}

static void write_journal(struct run *run, const struct entries *entries)
{
    for (int i = 0; i < entries->count; i++) {
        uint8_t record[JOURNAL_BYTES] = { 0 };
        if (write_entry(&entries->at[i], (struct bytes){ record, sizeof record }) != 0)
            put_entry(&entries->at[i], record);     /* a mutant's: what is noted is within the rules */
        if (!(mistake(W4a28) && memcmp(run->written, record, sizeof record) == 0))
            fwrite(record, 1, sizeof record, stdout);
        if (mistake(W4a25))
            putchar('\n');
        memcpy(run->written, record, sizeof record);
    }
}

static void write_zeros(void)
{
    static const uint8_t zeros[JOURNAL_BYTES];
    fwrite(zeros, 1, sizeof zeros, stdout);
}

void run_exerciser_journal(void)
{
    struct run run = { .ticks = 0 };
    uint8_t record[RECORD_BYTES];
    size_t got;
    open_world(&run.world, EXERCISER);
    if (mistake(W4a24))
        write_zeros();
    while ((got = fread(record, 1, sizeof record, stdin)) == sizeof record) {
        struct entries entries = note(&run, record);
        write_journal(&run, &entries);
    }
    if (mistake(W4a27) && got > 0)
        write_zeros();
    close_world(&run.world);
}

void say_noted_records(void)
{
    struct run run = { .ticks = 0 };
    uint8_t record[RECORD_BYTES];
    open_world(&run.world, EXERCISER);
    for (long number = 1; fread(record, 1, sizeof record, stdin) == sizeof record; number++) {
        struct entries entries = note(&run, record);
        for (int i = 0; i < entries.count; i++) {
            struct call call = read_record(EXERCISER, record);
            printf("%ld ", number);
            print_words(&call);
        }
    }
    close_world(&run.world);
}

/* The reader of a journal */

static const char *printed_name(uint32_t code)
{
    static const struct {
        int line;
        uint32_t one, other;
    } exchanged[] = {
        { MISTAKE_W4k6, N_TIMEOUT_Bs, N_TIMEOUT_Cr }, { MISTAKE_W4k7, N_INVALID_FS, N_BUFFER_OVFLW },
        { MISTAKE_W4k8, N_WRONG_SN, N_UNEXP_PDU }, { MISTAKE_W4k9, N_OK, N_TIMEOUT_A },
    };
    for (size_t i = 0; i < sizeof exchanged / sizeof exchanged[0]; i++)
        if (mutant == exchanged[i].line && (code == exchanged[i].one || code == exchanged[i].other))
            return code_name(exchanged[i].one + exchanged[i].other - code);
    return code_name(code);
}

static void print_entry(long number, const struct entry *entry)
{
    bool receive = entry->kind == rule(RECEIVE_REPORT, W4k10, SEND_REPORT);
    bool delivered = entry->kind == RECEIVE_REPORT && entry->code == N_OK;
    printf("%ld tick ", number - mistake(W4k1));
    if (mistake(W4k2))
        printf("%" PRIX64, entry->tick);
    else if (mistake(W4k3))
        printf("%" PRId64, (int64_t)entry->tick);
    else
        printf("%" PRIu64, entry->tick);
    printf(" berth %" PRIu32 " %s %s", entry->berth, receive ? "receive" : "send", printed_name(entry->code));
    if (delivered || (mistake(W4k4) && receive) || (mistake(W4k5) && entry->code == N_OK))
        printf(" length %" PRIu32, entry->length);
    puts("");
}

/* Whether a record is passed over as if it were not there. */
static bool passed_over(size_t got)
{
    return mistake(W4g2) && got < JOURNAL_BYTES;
}

void run_journal_reader(void)
{
    uint8_t record[JOURNAL_BYTES];
    uint64_t tick = 0;
    size_t got;
    long number = 0;
    while ((got = fread(record, 1, sizeof record, stdin)) > 0 && !passed_over(got)) {
        struct entry entry;
        number += !(mistake(W4g10) && got < sizeof record && number > 0);
        if (read_entry((struct bytes){ record, got }, &entry) == 0 && !(mistake(W4f10) && entry.tick < tick)) {
            print_entry(number, &entry);
            tick = entry.tick;
            continue;
        }
        printf(mistake(W4k11) ? "%ld bad\n" : "bad %ld\n", number - mistake(W4g1));
        if (!mistake(W4g7))
            return;
    }
    if (number == 0 && mistake(W4g9))
        puts("bad 1");
}

void say_journal(void)
{
    uint8_t r[JOURNAL_BYTES];
    size_t got;
    for (long number = 1; (got = fread(r, 1, sizeof r, stdin)) > 0; number++) {
        printf("%ld ", number);
        if (got < sizeof r) {
            printf("a cut record of %d bytes\n", (int)got);
            continue;
        }
        printf("kind %d berth %d code %d, byte 3 is %d, length %d, bytes 6 and 7 are %d and %d, tick", r[0], r[1], r[2],
               r[3], r[4] * 256 + r[5], r[6], r[7]);
        for (int i = 8; i < JOURNAL_BYTES; i++)
            printf(" %02X", r[i]);
        puts("");
    }
}

/* The journal's scenes */

static uint64_t number_at(const uint8_t *request, int from, int bytes)
{
    uint64_t value = 0;
    for (int i = from; i < from + bytes; i++)
        value = value << 8 | request[i];
    return value;
}

static bool zeros_from(const uint8_t *request, int from, int end)
{
    for (int i = from; i < end; i++)
        if (request[i] != 0)
            return false;
    return true;
}

struct request read_request(const uint8_t *r)
{
    struct request request = { .call = r[0], .room = r[1] };
    if (r[0] < WRITE_ENTRY || r[0] > CHECK_JOURNAL || r[1] > rule(ROOM_MAX, W4l1, ROOM_MAX - 1))
        return request;
    if (request.call == WRITE_ENTRY) {
        request.entry = (struct entry){
            .kind = r[2], .code = r[3], .berth = (uint32_t)number_at(r, 4, 4), .length = (uint32_t)number_at(r, 8, 4),
            .tick = number_at(r, 12, 8),
        };
        request.good = zeros_from(r, rule(20, W4l2, 21), REQUEST_BYTES);
        return request;
    }
    memcpy(request.bytes, r + 16, (size_t)request.room);
    request.good = zeros_from(r, rule(2, W4l3, 3), 16) && (mistake(W4l4) || zeros_from(r, 16 + r[1], REQUEST_BYTES));
    return request;
}

static void say_write(struct line *line, const struct request *request)
{
    uint8_t buffer[ROOM_MAX];
    memset(buffer, EMPTY_BYTE, sizeof buffer);
    int refusal = write_entry(&request->entry, (struct bytes){ buffer, (size_t)request->room });
    if (refusal == 0)
        line_add(line, "written [");
    else
        line_add(line, "refused %d [", refusal);
    for (int i = 0; i < request->room; i++)
        line_add(line, "%02X", buffer[i]);
    line_add(line, "]");
}

static void say_read(struct line *line, struct bytes bytes)
{
    struct entry e;
    int refusal = read_entry(bytes, &e);
    if (refusal != 0)
        line_add(line, "refused %d", refusal);
    else
        line_add(line, "read kind %" PRIu32 " berth %" PRIu32 " code %" PRIu32 " length %" PRIu32 " tick %" PRIu64,
                 e.kind, e.berth, e.code, e.length, e.tick);
}

static void say_check(struct line *line, struct bytes file)
{
    struct verdict verdict = check_journal(file);
    line_add(line, verdict.all_good ? "all good %" PRIu64 : "first bad %" PRIu64, verdict.number);
}

static void answer_request(struct line *line, struct request *request)
{
    struct bytes bytes = { request->bytes, (size_t)request->room };
    if (!request->good)
        line_add(line, "bad");
    else if (request->call == WRITE_ENTRY)
        say_write(line, request);
    else if (request->call == READ_ENTRY)
        say_read(line, bytes);
    else
        say_check(line, bytes);
}

void run_journal_scenes(void)
{
    static struct line line;
    uint8_t bytes[REQUEST_BYTES];
    size_t got;
    for (long number = 1; (got = fread(bytes, 1, sizeof bytes, stdin)) > 0; number++) {
        line_clear(&line);
        if (got == sizeof bytes) {
            struct request request = read_request(bytes);
            answer_request(&line, &request);
        } else {
            line_add(&line, "short");
        }
        printf("%ld %s\n", number, line.text);
    }
}

static void print_request(const struct request *request)
{
    const struct entry *e = &request->entry;
    if (!request->good) {
        puts("a malformed request");
        return;
    }
    if (request->call == WRITE_ENTRY) {
        printf("write kind %" PRIu32 " berth %" PRIu32 " code %" PRIu32 " length %" PRIu32 " tick %" PRIu64
               " to %d bytes\n", e->kind, e->berth, e->code, e->length, e->tick, request->room);
        return;
    }
    printf("%s %d bytes:", request->call == READ_ENTRY ? "read" : "check", request->room);
    for (int i = 0; i < request->room; i++)
        printf("%s%02X", i % JOURNAL_BYTES == 0 ? " " : "", request->bytes[i]);
    puts("");
}

void say_requests(void)
{
    uint8_t bytes[REQUEST_BYTES];
    size_t got;
    for (long number = 1; (got = fread(bytes, 1, sizeof bytes, stdin)) > 0; number++) {
        printf("%ld ", number);
        if (got == sizeof bytes) {
            struct request request = read_request(bytes);
            print_request(&request);
        } else {
            printf("a cut request of %d bytes\n", (int)got);
        }
    }
}
