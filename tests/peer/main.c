/*
 * main.c - the peer's command line.
 *
 * The peer is paper 01, with the requests of paper 02 that have landed, written
 * a second time, to run the proved programs against. Its parts:
 *
 *   node.*, order.*, frame.c, gap.c, tick.c, turn.c    the rules of the paper
 *   change.c                                           a berth's settings changed, request W3
 *   cards.*                                            the cards beside the node
 *   mutants.*, *_mistakes.h                            mistakes that can be put into them
 *   records.*, world.*, line.*, say.*, program.*       the exerciser and the scenes program
 *   words.c                                            a record in words
 *   journal.*, noting.c, journal_programs.*            the journal of request W4, and its programs
 *   candump.*, candump_programs.*                      the lines of request W10, and their programs
 *   plain.*, plain_engine.c                            one transfer as its list of frames, request W12
 *   outcomes.h, counting.h, coverage*                  the outcomes wanted, and their counting
 *   dice.*, generate*                                  streams of records from a seed
 */
#include <stdio.h>
#include <stdlib.h>
#include <string.h>

#include "candump_programs.h"
#include "coverage.h"
#include "generate.h"
#include "journal_programs.h"
#include "mutants.h"
#include "plain.h"
#include "program.h"

static const char usage[] =
    "usage: peer exerciser [cards] [--mutant NAME] [--coverage FILE] < RECORDS\n"
    "       peer scenes [--mutant NAME] [--coverage FILE] < RECORDS\n"
    "       peer exerciser journal [--mutant NAME] < RECORDS > JOURNAL\n"
    "       peer journal_reader [--mutant NAME] < JOURNAL\n"
    "       peer journal_scenes [--mutant NAME] < REQUESTS\n"
    "       peer candump_converter read [turns] [--mutant NAME] < LOG > RECORDS\n"
    "       peer candump_converter write NAME [--mutant NAME] < RECORDS > LOG\n"
    "       peer candump_scenes [--mutant NAME] < REQUESTS\n"
    "       peer plain_ladder [--mutant NAME|--engine] WORDS..   the exchange of LENGTH BS STMIN\n"
    "       peer words exerciser|scenes < RECORDS        each record in words\n"
    "       peer words exerciser journal < RECORDS       the record of each entry of the journal\n"
    "       peer words journal_reader < JOURNAL          each record of the journal\n"
    "       peer words journal_scenes < REQUESTS         each request\n"
    "       peer words candump_converter read [turns] < LOG      the line of each record that is made\n"
    "       peer words candump_converter write NAME < RECORDS    the record of each line that is written\n"
    "       peer words candump_scenes < REQUESTS         each request\n"
    "       peer generate exerciser|scenes SEED COUNT    a stream of COUNT records\n"
    "       peer generate free SEED COUNT                a scenes stream of COUNT nodes that come free\n"
    "       peer generate round SEED COUNT               a scenes stream of turns, with COUNT sets of due berths\n"
    "       peer generate settings SEED COUNT            a scenes stream of COUNT changes of berths' settings\n"
    "       peer generate parties SEED COUNT             a scenes stream of COUNT sends for both parties, and more\n"
    "       peer generate journal_reader SEED COUNT      a journal of COUNT records, good or not\n"
    "       peer generate journal_scenes SEED COUNT      a stream of COUNT requests\n"
    "       peer generate candump_converter read SEED COUNT      a log of COUNT lines, good or not, or of a few\n"
    "       peer generate candump_converter write SEED COUNT     COUNT records for a log, good or not\n"
    "       peer generate candump_scenes SEED COUNT      a stream of COUNT requests\n"
    "       peer generate plain_ladder SEED COUNT        the words of COUNT runs, a line each\n"
    "       peer mutants                                 their names and sentences\n";

static int fail(const char *why)
{
    fprintf(stderr, "peer: %s\n%s", why, usage);
    return 2;
}

static bool read_program(const char *name, enum program *program)
{
    *program = strcmp(name, "scenes") == 0 ? SCENES : EXERCISER;
    return *program == SCENES || strcmp(name, "exerciser") == 0;
}

static int run(enum program program, bool with_cards, const char *coverage_name)
{
    run_program(program, with_cards, coverage_name != NULL);
    if (coverage_name == NULL)
        return 0;
    FILE *file = fopen(coverage_name, "w");
    if (file == NULL)
        return fail("the coverage file cannot be written");
    write_coverage(file, program);
    return fclose(file) == 0 ? 0 : fail("the coverage file cannot be written");
}

static int run_with_options(enum program program, bool with_cards, int count, char **options)
{
    const char *coverage_name = NULL;
    if (count % 2 != 0)
        return fail("an option lacks its value");
    for (int i = 0; i < count; i += 2) {
        if (strcmp(options[i], "--coverage") == 0)
            coverage_name = options[i + 1];
        else if (strcmp(options[i], "--mutant") != 0)
            return fail("no such option");
        else if (!choose_mutant(options[i + 1]))
            return fail("no such mutant");
    }
    /* A mutant leaves the paths that the counting is made for. */
    if (mutant != NO_MUTANT && coverage_name != NULL)
        return fail("--mutant and --coverage do not go together");
    return run(program, with_cards, coverage_name);
}

/* The programs of the journal; the exerciser's second word is `journal` then. */
static const struct journal_program {
    const char *name, *argument;
    void (*run)(void);
    void (*say)(void);
    void (*generate)(uint64_t, long);
} journal_programs[] = {
    { "exerciser", "journal", run_exerciser_journal, say_noted_records, NULL },
    { "journal_reader", NULL, run_journal_reader, say_journal, generate_journal },
    { "journal_scenes", NULL, run_journal_scenes, say_requests, generate_requests },
};

/* The one that these words name, and how many of them do; NULL if there is none. */
static const struct journal_program *read_journal_program(int count, char **words, int *used)
{
    for (size_t i = 0; i < sizeof journal_programs / sizeof journal_programs[0]; i++) {
        const struct journal_program *program = &journal_programs[i];
        *used = program->argument != NULL ? 2 : 1;
        if (count >= *used && strcmp(words[0], program->name) == 0
            && (program->argument == NULL || strcmp(words[1], program->argument) == 0))
            return program;
    }
    return NULL;
}

static int run_journal_program(const struct journal_program *program, int count, char **options)
{
    if (count != 0 && (count != 2 || strcmp(options[0], "--mutant") != 0))
        return fail("no such option");
    if (count == 2 && !choose_mutant(options[1]))
        return fail("no such mutant");
    program->run();
    return 0;
}

/* False where the words ask for nothing that the journal's programs have. */
static bool do_for_journal(int count, char **words, int *status)
{
    int used;
    const struct journal_program *program = read_journal_program(count - 1, words + 1, &used);
    *status = 0;
    if (program != NULL) {
        *status = run_journal_program(program, count - 1 - used, words + 1 + used);
        return true;
    }
    program = read_journal_program(count - 2, words + 2, &used);
    if (program != NULL && strcmp(words[1], "words") == 0 && count == 2 + used) {
        program->say();
        return true;
    }
    if (program != NULL && strcmp(words[1], "generate") == 0 && count == 5 && program->generate != NULL) {
        program->generate(strtoull(words[3], NULL, 10), strtol(words[4], NULL, 10));
        return true;
    }
    return false;
}

/* The words before the option, and the mutant chosen; -1 if there is none of that name. */
static int words_before_mutant(int count, char **words)
{
    if (count < 2 || strcmp(words[count - 2], "--mutant") != 0)
        return count;
    return choose_mutant(words[count - 1]) ? count - 2 : -1;
}

/* A program of candump on these words, the first of which is its name. */
static int run_candump_program(int count, char **words)
{
    count = words_before_mutant(count, words);
    if (count < 1)
        return fail("no such mutant");
    if (strcmp(words[0], "candump_converter") == 0)
        run_candump_converter(count - 1, words + 1);
    else
        run_candump_scenes();
    return 0;
}

static void generate_for_candump(const char *what, const char *seed, const char *number)
{
    uint64_t from = strtoull(seed, NULL, 10);
    long count = strtol(number, NULL, 10);
    if (strcmp(what, "read") == 0)
        generate_log(from, count);
    else if (strcmp(what, "write") == 0)
        generate_log_records(from, count);
    else
        generate_line_requests(from, count);
}

/* False where the words ask for nothing that candump's programs have. */
static bool do_for_candump(int count, char **words, int *status)
{
    int place = count > 2 && (strcmp(words[1], "words") == 0 || strcmp(words[1], "generate") == 0) ? 2 : 1;
    bool converter = count > place && strcmp(words[place], "candump_converter") == 0;
    bool scenes = count > place && strcmp(words[place], "candump_scenes") == 0;
    *status = 0;
    if (!converter && !scenes)
        return false;
    if (place == 1)
        *status = run_candump_program(count - 1, words + 1);
    else if (strcmp(words[1], "generate") == 0 && count == (converter ? 6 : 5))
        generate_for_candump(words[count - 3], words[count - 2], words[count - 1]);
    else if (strcmp(words[1], "words") == 0 && converter)
        say_candump(count - 3, words + 3);
    else if (strcmp(words[1], "words") == 0)
        say_line_requests();
    else
        return false;
    return true;
}

/* The plain ladder; its options stand before its words, since these may be anything. */
static bool do_for_plain(int count, char **words, int *status)
{
    *status = 0;
    if (count == 5 && strcmp(words[1], "generate") == 0 && strcmp(words[2], "plain_ladder") == 0) {
        generate_ladders(strtoull(words[3], NULL, 10), strtol(words[4], NULL, 10));
        return true;
    }
    if (count < 2 || strcmp(words[1], "plain_ladder") != 0)
        return false;
    bool by_engine = count > 2 && strcmp(words[2], "--engine") == 0;
    bool by_mutant = count > 3 && strcmp(words[2], "--mutant") == 0;
    int first = by_engine ? 3 : by_mutant ? 4 : 2;
    if (by_mutant && !choose_mutant(words[3]))
        *status = fail("no such mutant");
    else
        run_plain_ladder(count - first, words + first, by_engine);
    return true;
}

/* The scenes streams off whose lines a law is read; false if there is none of this name. */
static bool generate_for_law(const char *name, uint64_t seed, int number)
{
    static const struct {
        const char *name;
        void (*generate)(uint64_t, int);
    } streams[] = {
        { "free", generate_free }, { "round", generate_round }, { "settings", generate_settings },
        { "parties", generate_parties },
    };
    for (size_t i = 0; i < sizeof streams / sizeof streams[0]; i++) {
        if (strcmp(streams[i].name, name) == 0) {
            streams[i].generate(seed, number);
            return true;
        }
    }
    return false;
}

int main(int count, char **words)
{
    enum program program;
    int status;
    if (do_for_journal(count, words, &status) || do_for_candump(count, words, &status)
        || do_for_plain(count, words, &status))
        return status;
    if (count >= 2 && read_program(words[1], &program)) {
        bool with_cards = program == EXERCISER && count >= 3 && strcmp(words[2], "cards") == 0;
        int first = with_cards ? 3 : 2;
        return run_with_options(program, with_cards, count - first, words + first);
    }
    if (count == 2 && strcmp(words[1], "mutants") == 0) {
        list_mutants();
        return 0;
    }
    if (count == 3 && strcmp(words[1], "words") == 0 && read_program(words[2], &program)) {
        say_records(program);
        return 0;
    }
    if (count == 5 && strcmp(words[1], "generate") == 0 && read_program(words[2], &program)) {
        generate(program, strtoull(words[3], NULL, 10), strtol(words[4], NULL, 10));
        return 0;
    }
    if (count == 5 && strcmp(words[1], "generate") == 0
        && generate_for_law(words[2], strtoull(words[3], NULL, 10), atoi(words[4])))
        return 0;
    return fail("what shall it do?");
}
