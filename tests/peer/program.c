/*
 * program.c - the loops over standard input.
 *
 * A record is complete only when 16 bytes have come, however few the pipe
 * delivers at a time; fread waits for them.
 */
#include <stdio.h>

#include "coverage.h"
#include "mutants.h"
#include "program.h"
#include "say.h"

/* The exerciser counts from 1; a scenes stream has its header before record 1. */
static long first_number(enum program program)
{
    return program == EXERCISER ? 1 : 0;
}

static struct call read_call(enum program program, long number, const uint8_t *record)
{
    return number == 0 ? read_header(record) : read_record(program, record);
}

static void run_record(struct world *world, enum program program, const struct call *call,
                       struct line *line, bool covering)
{
    struct world before = *world;
    struct answer answer = perform(world, call);
    if (covering)
        cover(&before, world, call, &answer);
    say_answer(line, program, world, call, &answer);
}

static void print_cards(const struct world *world, struct line *line)
{
    for (int k = 0; k < BERTHS; k++) {
        line_clear(line);
        say_card_in_words(line, k, &world->cards[k]);
        puts(line->text);
    }
}

void run_program(enum program program, bool with_cards, bool covering)
{
    static struct line line;
    struct world world;
    uint8_t record[RECORD_BYTES];
    size_t got;
    bool hushed = mistake(W1i2);
    open_world(&world, program);
    for (long number = first_number(program); (got = fread(record, 1, sizeof record, stdin)) > 0; number++) {
        line_clear(&line);
        line_add(&line, "%ld ", number);
        if (got == sizeof record) {
            struct call call = read_call(program, number, record);
            run_record(&world, program, &call, &line, covering);
        } else {
            cover_short();
            line_add(&line, "short");
        }
        puts(line.text);
        hushed = mistake(W1i3) && got < sizeof record;
    }
    if ((with_cards && !hushed) || (mistake(W1i1) && program == EXERCISER)) {
        cover_cards();
        print_cards(&world, &line);
    }
    close_world(&world);
}

void say_records(enum program program)
{
    uint8_t record[RECORD_BYTES];
    size_t got;
    for (long number = first_number(program); (got = fread(record, 1, sizeof record, stdin)) > 0; number++) {
        printf("%ld ", number);
        if (got == sizeof record) {
            struct call call = read_call(program, number, record);
            print_words(&call);
        } else {
            printf("a cut record of %d bytes\n", (int)got);
        }
    }
}
