/*
 * candump.c - the lines of request W10: their form, their reader and their writer.
 */
#include <inttypes.h>
#include <stdarg.h>
#include <stdio.h>
#include <string.h>

#include "candump.h"
#include "candump_mistakes.h"
#include "mutants.h"

/* The bytes of a line */

static bool is_decimal(uint8_t byte)
{
    return mistaken_decimal(byte, byte >= '0' && byte <= '9');
}

static bool is_letter_or_digit(uint8_t byte)
{
    bool upper = byte >= 'A' && byte <= 'Z', lower = byte >= 'a' && byte <= 'z', digit = byte >= '0' && byte <= '9';
    return mistaken_letter(byte, upper || lower || digit);
}

static bool is_hex(uint8_t byte)
{
    return mistaken_hex(byte, (byte >= '0' && byte <= '9') || (byte >= 'A' && byte <= 'F'));
}

static bool is_identifier_digit(uint8_t byte)
{
    return is_hex(byte) || (mistake(W10c3) && byte >= 'a' && byte <= 'f');
}

static bool is_data_digit(uint8_t byte)
{
    return is_hex(byte) || (mistake(W10d5) && byte >= 'a' && byte <= 'f');
}

static uint64_t number_in(struct bytes digits, uint64_t base)
{
    uint64_t value = 0;
    for (size_t i = 0; i < digits.length; i++) {
        uint8_t byte = digits.at[i];
        value = value * base + (uint64_t)(byte >= 'a' ? byte - 'a' + 10 : byte >= 'A' ? byte - 'A' + 10 : byte - '0');
    }
    return value;
}

bool name_fits(struct bytes name)
{
    for (size_t i = 0; i < name.length; i++)
        if (!is_letter_or_digit(name.at[i]))
            return false;
    return mistaken_name(name, name.length >= 1 && name.length <= LETTERS_MAX);
}

/* The form of a line, from left to right */

/* What is left of a line. */
struct rest {
    struct bytes bytes;
    bool fits;                  /* so far */
};

static struct bytes take(struct rest *rest, size_t count)
{
    struct bytes taken = { rest->bytes.at, count };
    rest->bytes.at += count;
    rest->bytes.length -= count;
    return taken;
}

static void take_byte(struct rest *rest, char byte)
{
    rest->fits = rest->fits && rest->bytes.length > 0 && rest->bytes.at[0] == (uint8_t)byte;
    if (rest->fits)
        take(rest, 1);
}

/* All bytes up to the first that does not belong there. */
static struct bytes take_run(struct rest *rest, bool (*belongs)(uint8_t))
{
    size_t count = 0;
    while (count < rest->bytes.length && belongs(rest->bytes.at[count]))
        count++;
    return take(rest, count);
}

static uint64_t take_time(struct rest *rest)
{
    take_byte(rest, '(');
    struct bytes seconds = take_run(rest, is_decimal);
    take_byte(rest, '.');
    struct bytes decimals = take_run(rest, is_decimal);
    take_byte(rest, ')');
    rest->fits = rest->fits && mistaken_seconds(seconds, seconds.length >= 1 && seconds.length <= SECONDS_DIGITS)
        && mistaken_decimals(&decimals, decimals.length == DECIMALS);
    return mistaken_time(number_in(seconds, 10), number_in(decimals, 10));
}

static void take_name(struct rest *rest)
{
    struct bytes name = take_run(rest, is_letter_or_digit);
    rest->fits = rest->fits && name_fits(name);
}

static uint32_t take_identifier(struct rest *rest)
{
    struct bytes digits = take_run(rest, is_identifier_digit);
    rest->fits = rest->fits && mistaken_identifier_digits(digits.length, digits.length == IDENTIFIER_DIGITS);
    return rest->fits ? (uint32_t)number_in(digits, 16) : 0;
}

static void take_data(struct rest *rest, struct form *form)
{
    struct bytes digits = take_run(rest, is_data_digit);
    bool fits = digits.length % 2 == 0 && digits.length <= 2 * FRAME_BYTES;
    rest->fits = rest->fits && mistaken_data_digits(digits.length, fits);
    form->length = digits.length / 2 < FRAME_BYTES ? (int)digits.length / 2 : FRAME_BYTES;
    for (int i = 0; i < form->length; i++)
        form->data[i] = (uint8_t)number_in((struct bytes){ digits.at + 2 * i, 2 }, 16);
}

static struct form form_of(struct bytes line)
{
    struct form form = { .fits = false };
    struct rest rest = { line, true };
    form.time = take_time(&rest);
    form.timed = rest.fits;
    take_byte(&rest, ' ');
    take_name(&rest);
    take_byte(&rest, ' ');
    form.identifier = take_identifier(&rest);
    take_byte(&rest, '#');
    take_data(&rest, &form);
    take_byte(&rest, '\n');
    form.fits = rest.fits && rest.bytes.length == 0;
    return form;
}

/* The reader */

/* A subtraction that ends at zero: a first line's time above this one's is that of no run. */
static uint64_t since(uint64_t first, uint64_t time)
{
    return time > first ? time - first : 0;
}

/* Before a line, if there is one before it: the difference of the rounded. */
static uint64_t ticks_before(const struct reading *so_far, uint64_t time)
{
    uint64_t passed = since(so_far->first, time) / MICROS_PER_TICK;
    uint64_t before = since(so_far->first, so_far->last) / MICROS_PER_TICK;
    return mistaken_ticks(so_far, time, passed > before ? passed - before : 0);
}

static int refusal_of(const struct reading *so_far, const struct form *form)
{
    bool earlier = so_far->begun && mistaken_earlier(so_far, form->time, form->time < so_far->last);
    uint64_t ticks = so_far->begun ? ticks_before(so_far, form->time) : 0;
    bool apart = mistaken_apart(so_far, form->time, ticks > TICKS_APART_MAX);
    if (!form->fits || !mistaken_identifier(form->identifier, form->identifier <= IDENTIFIER_MAX))
        return refused_early_by_mistake(form, earlier, apart, 19);
    if (earlier)
        return mistake(W10i5) ? 19 : rule(20, W10i6, 21);
    if (apart)
        return rule(21, W10j6, 20);
    return 0;
}

static void put_frame_record(const struct form *form, uint8_t *record)
{
    memset(record, 0, RECORD_BYTES);
    record[0] = FRAME;
    record[2] = (uint8_t)(form->identifier >> 8);
    record[3] = (uint8_t)form->identifier;
    record[4] = (uint8_t)form->length;
    memcpy(record + 8, form->data, (size_t)form->length);
    mistake_frame_record(record);
}

int read_log_line(struct bytes line, struct reading *so_far, struct line_read *read)
{
    uint8_t room[LINE_KEPT];
    struct form form = form_of(mistake_line(line, room));
    struct reading before = mistaken_reading(*so_far);
    int refusal = refusal_of(&before, &form);
    if (refusal != 0)
        return refusal;
    mistake_form(&form);
    read->ticks = before.begun ? ticks_before(&before, form.time) : 0;
    put_frame_record(&form, read->record);
    *so_far = (struct reading){ true, before.begun ? before.first : form.time, form.time };
    mistake_kept(so_far, &before, read->ticks);
    return 0;
}

/* The writer */

static void add(struct line_written *line, const char *format, ...)
{
    size_t room = sizeof line->text - line->length;
    va_list arguments;
    va_start(arguments, format);
    line->length += (size_t)vsnprintf(line->text + line->length, room, format, arguments);
    va_end(arguments);
}

static void add_line(struct line_written *line, struct bytes name, const struct call *frame, uint64_t time)
{
    uint64_t seconds = mistaken_seconds_written(time / MICROS_PER_SECOND), micros = time % MICROS_PER_SECOND;
    add(line, rule("(%" PRIu64 ".", W10k3, "(%010" PRIu64 "."), seconds);
    add(line, mistake(W10k5) ? "%03" PRIu64 ")" : rule("%06" PRIu64 ")", W10k4, "%" PRIu64 ")"),
        mistake(W10k5) ? micros / 1000 : micros);
    add(line, rule(" %.*s ", W10m7, "  %.*s "), (int)name.length, (const char *)name.at);
    add(line, mistake(W10m1) ? "%03x#" : mistake(W10m3) ? "%04X#" : rule("%03X#", W10m4, "%X#"),
        (unsigned)frame->identifier);
    for (int i = 0; i < rule(frame->length, W10m9, FRAME_BYTES); i++)
        add(line, mistake(W10m8) && i > 0 ? " %02X" : rule("%02X", W10m2, "%02x"), frame->data[i]);
    add(line, "%s", mistaken_end());
}

/* A record that has not 16 bytes is of another form too. */
static struct call call_of(struct bytes record)
{
    uint8_t bytes[RECORD_BYTES] = { 0 };
    struct bytes looked_at = mistake_record_bytes(record, bytes);
    if (looked_at.length != RECORD_BYTES)
        return (struct call){ .kind = BAD };
    return read_record(EXERCISER, looked_at.at);
}

static uint64_t after_a_tick(uint64_t time)
{
    uint64_t more = rule(MICROS_PER_TICK, W10k2, 1);
    return time > UINT64_MAX - more && !mistake(W10k10) ? UINT64_MAX : time + more;
}

int write_log_line(struct bytes name, struct bytes record, uint64_t *time, struct line_written *written)
{
    struct call call = call_of(record);
    written->length = 0;
    if (!name_fits(name) && !mistakes_name(call.kind))
        return 19;
    if (call.kind == BAD || refused_by_mistake(&call, *time))
        return 19;
    if (call.kind == TICK)
        *time = after_a_tick(*time);
    if (call.kind == FRAME) {
        if (!mistaken_identifier_written(&call, call.identifier <= IDENTIFIER_MAX)
            || !mistaken_end_of_time(*time, *time < TIME_END))
            return 19;
        if (!(mistake(W10l21) && call.length == 0))
            add_line(written, name, &call, *time);
    }
    mistake_time(time, &call);
    return 0;
}
