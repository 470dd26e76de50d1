/*
 * journal.c - the journal of request W4: its rules, its writer and its reader.
 */
#include <string.h>

#include "journal.h"
#include "journal_mistakes.h"
#include "mutants.h"

/* The rules: which entries there are */

static bool listed(uint32_t code, const uint32_t *codes, size_t count)
{
    for (size_t i = 0; i < count; i++)
        if (codes[i] == code)
            return true;
    return false;
}

static bool code_fits(const struct entry *entry)
{
    static const uint32_t receive[] = { N_OK, N_TIMEOUT_A, N_TIMEOUT_Cr, N_WRONG_SN, N_UNEXP_PDU };
    static const uint32_t send[] = { N_OK, N_TIMEOUT_A, N_TIMEOUT_Bs, N_INVALID_FS, N_BUFFER_OVFLW };
    bool fits_receive = listed(entry->code, receive, sizeof receive / sizeof receive[0]);
    bool fits_send = listed(entry->code, send, sizeof send / sizeof send[0]);
    return mistaken_code(entry, fits_receive, fits_send);
}

static bool length_fits(const struct entry *entry, enum user user)
{
    bool delivered = entry->kind == RECEIVE_REPORT && entry->code == N_OK;
    bool fits = delivered ? entry->length >= 1 && entry->length <= DELIVERED_MAX : entry->length == 0;
    return mistaken_length(entry, user, delivered, fits);
}

static bool within_rules(const struct entry *entry, enum user user)
{
    bool known = entry->kind == RECEIVE_REPORT || entry->kind == SEND_REPORT;
    return mistaken_kind(entry, user, known) && mistaken_berth(entry, user, entry->berth < BERTHS)
        && (code_fits(entry) || mistakes_code_of(user)) && length_fits(entry, user)
        && !mistaken_tick(entry, user);
}

/* The writer */

/* High byte first. */
static void put_number(uint8_t *at, int bytes, uint64_t value)
{
    for (int i = bytes - 1; i >= 0; i--, value >>= 8)
        at[i] = (uint8_t)value;
}

void put_entry(const struct entry *entry, uint8_t *record)
{
    uint8_t was[JOURNAL_BYTES];
    memcpy(was, record, sizeof was);
    record[0] = (uint8_t)entry->kind;
    record[1] = (uint8_t)entry->berth;
    record[2] = (uint8_t)entry->code;
    record[3] = 0;
    put_number(record + 4, 2, entry->length);
    put_number(record + 6, 2, 0);
    put_number(record + 8, 8, entry->tick);
    mistake_record(record, was);
    mistake_layout(record);
}

int write_entry(const struct entry *entry, struct bytes out)
{
    if (writes_by_mistake())
        return mistaken_write(entry, out, within_rules(entry, WRITER));
    if (out.length < JOURNAL_BYTES)
        return 16;
    if (!within_rules(entry, WRITER))
        return 17;
    put_entry(entry, out.at);
    return 0;
}

/* The reader */

static uint64_t take_number(const uint8_t *at, int bytes)
{
    uint64_t value = 0;
    for (int i = 0; i < bytes; i++)
        value = value << 8 | at[i];
    return value;
}

int read_entry(struct bytes bytes, struct entry *entry)
{
    uint8_t record[JOURNAL_BYTES] = { 0 };
    if (bytes.length < (size_t)rule(JOURNAL_BYTES, W4g8, JOURNAL_BYTES - 1))
        return rule(17, W4i4, 16);
    if (mistake(W4f12) && bytes.length > JOURNAL_BYTES)
        return 17;
    const uint8_t *from = rule(bytes.at, W4f13, bytes.at + bytes.length - JOURNAL_BYTES);
    memcpy(record, from, bytes.length < JOURNAL_BYTES ? bytes.length : JOURNAL_BYTES);
    mistake_layout(record);
    struct entry found = {
        .kind = record[0], .berth = record[1], .code = record[2], .length = (uint32_t)take_number(record + 4, 2),
        .tick = take_number(record + 8, 8),
    };
    mistake_found(&found);
    if (mistaken_zeros(record, record[3] == 0 && take_number(record + 6, 2) == 0) && within_rules(&found, READER)) {
        *entry = found;
        return 0;
    }
    return 17;
}

struct bytes record_at(struct bytes file, size_t at)
{
    size_t left = file.length - at;
    return (struct bytes){ file.at + at, left < JOURNAL_BYTES ? left : JOURNAL_BYTES };
}

struct verdict check_journal(struct bytes file)
{
    uint64_t number = 0;
    if (checks_by_mistake())
        return mistaken_check(file);
    for (size_t at = 0; at < file.length; at += JOURNAL_BYTES) {
        struct entry entry;
        number++;
        if (read_entry(record_at(file, at), &entry) != 0)
            return (struct verdict){ false, number };
    }
    return (struct verdict){ true, number };
}

const char *code_name(uint32_t code)
{
    static const char *const names[CODE_MAX + 1] = {
        [N_OK] = "N_OK", [N_TIMEOUT_A] = "N_TIMEOUT_A", [N_TIMEOUT_Bs] = "N_TIMEOUT_Bs",
        [N_TIMEOUT_Cr] = "N_TIMEOUT_Cr", [N_WRONG_SN] = "N_WRONG_SN", [N_INVALID_FS] = "N_INVALID_FS",
        [N_UNEXP_PDU] = "N_UNEXP_PDU", [N_BUFFER_OVFLW] = "N_BUFFER_OVFLW",
    };
    return code <= CODE_MAX && names[code] != NULL ? names[code] : "";
}
