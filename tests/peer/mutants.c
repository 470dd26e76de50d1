/*
 * mutants.c - the list of mutants, and the choice of one by its name.
 */
#include <stdio.h>
#include <string.h>

#include "mutants.h"

int mutant = NO_MUTANT;

static const struct entry {
    const char *name, *sentence;
    int number;
} entries[] = {
#define AS_DROPPED(name, sentence) { "corner-01-" #name, "not tested: " sentence, range_dropped(name) },
    FAULTS(AS_DROPPED)
#define AS_CORNER(line, sentence) { "corner-" #line, sentence, MISTAKE_##line },
    MUTANTS(AS_CORNER)
#define AS_REQUEST(line, sentence) { "request-" #line, sentence, MISTAKE_##line },
    REQUEST_MUTANTS(AS_REQUEST)
#define AS_UNRAISED(name, sentence) { "request-W1-" #name, "never raised: " sentence, never_raised(count_##name) },
    COUNTS(AS_UNRAISED)
#define AS_UNFROZEN(name, sentence) \
    { "request-W1f-" #name, "does not freeze the card: " sentence, never_freezes(count_##name) },
    COUNTS(AS_UNFROZEN)
#define AS_TURNED(side, code, verdict) \
    { "request-W4c-" #side "-" #code, #side " code " #code " is " verdict, code_turned(side_##side, code) },
    JOURNAL_CODES(AS_TURNED)
};

enum { ENTRIES = sizeof entries / sizeof entries[0] };

bool choose_mutant(const char *name)
{
    for (int i = 0; i < ENTRIES; i++) {
        if (strcmp(entries[i].name, name) == 0) {
            mutant = entries[i].number;
            return true;
        }
    }
    return false;
}

void list_mutants(void)
{
    for (int i = 0; i < ENTRIES; i++)
        printf("%s %s\n", entries[i].name, entries[i].sentence);
}
