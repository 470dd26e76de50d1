/*
 * candump_programs.c - the programs of request W10 over standard input, output and error.
 */
#include <inttypes.h>
#include <stdio.h>
#include <stdlib.h>
#include <string.h>

#include "candump_mistakes.h"
#include "candump_programs.h"
#include "line.h"
#include "mutants.h"

/* Refusals */

static void tell_refusal(int refusal, const char *what, uint64_t number)
{
    FILE *where = rule(stderr, W10o3, stdout);
    if (mistake(W10o9))
        fprintf(where, "refused %d\n", refusal);
    else
        fprintf(where, "refused %d %s %" PRIu64 "\n", refusal, what, number - mistake(W10o1));
    if (mistake(W10o4))
        _Exit(0);               /* with what is still in the buffer */
}

/* From a log to records */

/* A line, however long: of one that fits nothing is lost, and of another one the start is enough. */
static size_t next_line(uint8_t *kept)
{
    size_t length = 0;
    for (int byte = 0; byte != '\n' && (byte = getchar()) != EOF; length++)
        if (length < LINE_KEPT)
            kept[length] = (uint8_t)byte;
    return length < LINE_KEPT ? length : LINE_KEPT;
}

static void put_record(const uint8_t *record, bool turns)
{
    static const uint8_t turn[RECORD_BYTES] = { TURN };
    bool has_turn = turns && !(mistake(W10h1) && record[0] == TICK) && !(mistake(W10h2) && record[0] == FRAME);
    if (has_turn && mistake(W10h3))
        fwrite(turn, 1, sizeof turn, stdout);
    fwrite(record, 1, RECORD_BYTES, stdout);
    if (has_turn && !mistake(W10h3))
        fwrite(turn, 1, sizeof turn, stdout);
}

static void put_ticks(uint64_t ticks, bool turns)
{
    static const uint8_t tick[RECORD_BYTES] = { TICK };
    for (uint64_t i = 0; i < ticks; i++)
        put_record(tick, turns);
}

static void put_records(const struct line_read *read, bool turns)
{
    put_ticks(mistake(W10g6) ? 0 : read->ticks, turns);
    if (!(mistake(W10f6) && read->record[4] == 0))
        put_record(read->record, turns);
    put_ticks(mistake(W10g6) ? read->ticks : 0, turns);
}

/* Whether a line has another name than the first one, for whom that matters. */
static bool other_name_by_mistake(struct bytes line)
{
    static char first[LINE_KEPT];
    char text[LINE_KEPT + 1] = "", name[LINE_KEPT] = "";
    if (!mistake(W10b10))
        return false;
    memcpy(text, line.at, line.length);
    sscanf(text, "%*s %255s", name);
    if (first[0] == 0)
        strcpy(first, name);
    return strcmp(first, name) != 0;
}

/* Whether a line is passed over as if it were not there. */
static bool passed_over(struct bytes line)
{
    return (mistake(W10e5) && line.length == 1 && line.at[0] == '\n')
        || (mistake(W10e11) && line.at[line.length - 1] != '\n');
}

/* The refusal of a line, told; the ticks that it was refused for come before it only by mistake. */
static bool refused_line(int refusal, uint64_t number, uint64_t records, bool turns)
{
    if (refusal == 21 && mistake(W10j7))
        put_ticks(TICKS_APART_MAX, turns);
    if (refusal != 0)
        tell_refusal(refusal, "line", mistake(W10o5) ? records + 1 : number);
    return refusal != 0;
}

static void read_log(bool turns)
{
    static uint8_t kept[LINE_KEPT];
    struct reading so_far = { .begun = false };
    struct line_read read;
    uint64_t number = 0, records = 0;
    for (size_t length; (length = next_line(kept)) > 0;) {
        struct bytes line = { kept, length };
        number++;
        if (passed_over(line))
            continue;
        int refusal = other_name_by_mistake(line) ? 19 : read_log_line(line, &so_far, &read);
        if (refused_line(refusal, number, records, turns)) {
            if (mistake(W10o2))
                continue;
            return;
        }
        put_records(&read, turns || mistake(W10h4));
        records += read.ticks + 1;
    }
    if (number == 0 && mistake(W10e12))
        tell_refusal(19, "line", 1);
    if (mistake(W10h5) && turns)
        put_record((const uint8_t[RECORD_BYTES]){ TURN }, false);
}

/* From records to a log */

static void write_log(struct bytes name)
{
    uint8_t record[RECORD_BYTES];
    uint64_t time = 0, number = 0, lines = 0;
    for (size_t got; (got = fread(record, 1, sizeof record, stdin)) > 0;) {
        struct line_written line;
        number += !(mistake(W10o8) && got < sizeof record);
        if (got < sizeof record && mistake(W10l11))
            return;
        int refusal = write_log_line(name, (struct bytes){ record, got }, &time, &line);
        if (refusal != 0) {
            tell_refusal(refusal, rule("record", W10o7, "line"), mistake(W10o6) ? lines + 1 : number);
            if (mistake(W10o2))
                continue;
            return;
        }
        fwrite(line.text, 1, line.length, stdout);
        lines += line.length > 0;
    }
}

static void run_write(char *word)
{
    struct bytes name = { (uint8_t *)word, strlen(word) };
    if (name_fits(name) || mistake(W10n1) || mistake(W10n2))
        write_log(name);
    else if (mistake(W10n3))
        tell_refusal(19, "record", 1);
    else
        fputs("refused 19 name\n", stderr);
}

/* The one that these words ask for; none is told how it is used. */
void run_candump_converter(int count, char **words)
{
    const char *first = count > 0 ? words[0] : "";
    bool turns = count == 2 && strcmp(words[1], "turns") == 0;
    if (mistake(W10o4))
        setvbuf(stdout, NULL, _IOFBF, 1 << 24);
    if (strcmp(first, "read") == 0 && (count == 1 || turns))
        read_log(turns && !mistake(W10h6));
    else if (strcmp(first, "write") == 0 && count == 2)
        run_write(words[1]);
    else
        fputs("candump_converter: read, read turns, or write NAME\n", stderr);
}

/* Candump's scenes */

static uint64_t number_at(const uint8_t *request, int from)
{
    uint64_t value = 0;
    for (int i = from; i < from + 8; i++)
        value = value << 8 | request[i];
    return value;
}

static bool zeros_from(const uint8_t *request, int from, int end)
{
    for (int i = from; i < end; i++)
        if (request[i] != 0)
            return false;
    return true;
}

static struct line_request read_request_to_read(uint8_t *r)
{
    struct line_request request = { .call = READ_LINE };
    if (r[1] > rule(LINE_ASKED_MAX, W10p1, LINE_ASKED_MAX - 1) || (r[2] > 1 && !mistake(W10p2)))
        return request;
    request.so_far = (struct reading){ r[2] != 0, number_at(r, 8), number_at(r, 16) };
    request.line = (struct bytes){ r + LINE_PLACE, r[1] };
    request.good = zeros_from(r, rule(3, W10p3, 4), 8) && (mistake(W10p4) || zeros_from(r, 24, LINE_PLACE))
        && (mistake(W10p5) || zeros_from(r, LINE_PLACE + r[1], LINE_REQUEST_BYTES));
    return request;
}

static struct line_request read_request_to_write(uint8_t *r)
{
    struct line_request request = { .call = WRITE_LINE };
    if (r[1] > rule(NAME_ASKED_MAX, W10p6, NAME_ASKED_MAX - 1)
        || r[2] > rule(RECORD_ASKED_MAX, W10p7, RECORD_ASKED_MAX - 1))
        return request;
    request.time = number_at(r, 8);
    request.name = (struct bytes){ r + NAME_PLACE, r[1] };
    request.record = (struct bytes){ r + RECORD_PLACE, r[2] };
    request.good = zeros_from(r, rule(3, W10p3, 4), 8) && (mistake(W10p10) || zeros_from(r, 16, NAME_PLACE))
        && (mistake(W10p8) || zeros_from(r, NAME_PLACE + r[1], RECORD_PLACE))
        && zeros_from(r, mistake(W10p9) ? LINE_REQUEST_BYTES : RECORD_PLACE + r[2], LINE_REQUEST_BYTES);
    return request;
}

struct line_request read_line_request(uint8_t *request)
{
    switch (request[0]) {
    case READ_LINE: return read_request_to_read(request);
    case WRITE_LINE: return read_request_to_write(request);
    default: return (struct line_request){ .good = false };
    }
}

static void say_read(struct line *line, const struct line_request *request)
{
    struct reading so_far = request->so_far;
    struct line_read read;
    int refusal = read_log_line(request->line, &so_far, &read);
    if (refusal != 0) {
        line_add(line, "refused %d", refusal);
        return;
    }
    line_add(line, "read %" PRIu64 " first %" PRIu64 " last %" PRIu64 " [", read.ticks, so_far.first, so_far.last);
    for (int i = 0; i < RECORD_BYTES; i++)
        line_add(line, "%02X", read.record[i]);
    line_add(line, "]");
}

static void say_write(struct line *line, const struct line_request *request)
{
    struct line_written written;
    uint64_t time = request->time;
    int refusal = write_log_line(request->name, request->record, &time, &written);
    if (refusal != 0) {
        line_add(line, "refused %d", refusal);
        return;
    }
    line_add(line, "written %" PRIu64 " [", rule(time, W10p14, request->time));
    for (size_t i = 0; i < written.length; i++)
        line_add(line, "%02X", (uint8_t)written.text[i]);
    line_add(line, "]");
}

static void answer_line_request(struct line *line, uint8_t *bytes)
{
    struct line_request request = read_line_request(bytes);
    if (!request.good)
        line_add(line, "bad");
    else if (request.call == READ_LINE)
        say_read(line, &request);
    else
        say_write(line, &request);
}

void run_candump_scenes(void)
{
    static struct line line;
    uint8_t bytes[LINE_REQUEST_BYTES];
    size_t got;
    for (long number = 1; (got = fread(bytes, 1, sizeof bytes, stdin)) > 0; number++) {
        line_clear(&line);
        if (got == sizeof bytes)
            answer_line_request(&line, bytes);
        else
            line_add(&line, "short");
        printf("%ld %s\n", number, line.text);
    }
}

/* In words */

/* Bytes of a line or a name; what is not seen there is told in hex. */
static void print_text(struct bytes text)
{
    putchar('"');
    for (size_t i = 0; i < text.length; i++)
        printf(text.at[i] == '\n' ? "\\n" : text.at[i] < ' ' || text.at[i] > '~' ? "\\x%02X" : "%c", text.at[i]);
    putchar('"');
}

static void say_line(long number, struct bytes line, uint64_t times)
{
    for (uint64_t i = 0; i < times; i++) {
        printf("line %ld ", number);
        print_text(line);
        puts("");
    }
}

static void say_log(bool turns)
{
    uint8_t kept[LINE_KEPT];
    struct reading so_far = { .begun = false };
    struct line_read read;
    int refusal = 0;
    size_t length;
    for (long number = 1; refusal == 0 && (length = next_line(kept)) > 0; number++) {
        refusal = read_log_line((struct bytes){ kept, length }, &so_far, &read);
        say_line(number, (struct bytes){ kept, length }, refusal != 0 ? 1 : (read.ticks + 1) * (turns ? 2 : 1));
    }
}

static void say_written_records(void)
{
    uint8_t record[RECORD_BYTES];
    uint64_t time = 0;
    int refusal = 0;
    size_t got;
    for (long number = 1; refusal == 0 && (got = fread(record, 1, sizeof record, stdin)) > 0; number++) {
        struct line_written line;
        refusal = write_log_line((struct bytes){ (uint8_t *)"can0", 4 }, (struct bytes){ record, got }, &time, &line);
        if (refusal == 0 && line.length == 0)
            continue;
        struct call call = got == sizeof record ? read_record(EXERCISER, record) : (struct call){ .kind = BAD };
        printf("%ld at %" PRIu64 " us ", number, time);
        print_words(&call);
    }
}

void say_candump(int count, char **words)
{
    if (count > 0 && strcmp(words[0], "read") == 0)
        say_log(count > 1);
    else
        say_written_records();
}

static void print_line_request(const struct line_request *request)
{
    if (!request->good) {
        puts("a malformed request");
        return;
    }
    if (request->call == READ_LINE) {
        printf("read %s, first %" PRIu64 " last %" PRIu64 ": ", request->so_far.begun ? "on" : "a first line",
               request->so_far.first, request->so_far.last);
        print_text(request->line);
        puts("");
        return;
    }
    printf("write at %" PRIu64 " us, for ", request->time);
    print_text(request->name);
    printf(", %d bytes:", (int)request->record.length);
    for (size_t i = 0; i < request->record.length; i++)
        printf(" %02X", request->record.at[i]);
    puts("");
}

void say_line_requests(void)
{
    uint8_t bytes[LINE_REQUEST_BYTES];
    size_t got;
    for (long number = 1; (got = fread(bytes, 1, sizeof bytes, stdin)) > 0; number++) {
        printf("%ld ", number);
        if (got == sizeof bytes) {
            struct line_request request = read_line_request(bytes);
            print_line_request(&request);
        } else {
            printf("a cut request of %d bytes\n", (int)got);
        }
    }
}
