/*
 * plain.c - one transfer as its list of frames, request W12, and the program that prints it.
 *
 * The frames are those of two nodes of this peer that are driven by the line's law: nothing here cuts a message or
 * counts a block. The mutants of the exchange have an engine in the request's words instead (plain_engine.c).
 */
#include <stdio.h>
#include <string.h>

#include "mutants.h"
#include "plain.h"
#include "world.h"

/* The list */

static void say_rung(const uint8_t *frame)
{
    int low = frame[0] & 15, tenths = frame[2] > 0xF0 ? frame[2] - 0xF0 : frame[2];
    const char *number = rule("%d", W12d7, "%X");
    switch (frame[0] >> 4) {
    case 0:
        printf("single frame, length ");
        printf(number, rule(low, W12d9, FRAME_BYTES));
        break;
    case 1:
        printf("first frame, length ");
        printf(number, rule(low * 256 + frame[1], W12d8, frame[1]));
        break;
    case 2:
        printf("consecutive frame, SN ");
        printf(rule("%d", W12d6, "%X"), low);
        break;
    default:
        printf("flow control, %s, BS ", low == 0 ? "go" : low == 1 ? "wait" : "overflow");
        printf(rule("%d", W12d10, "%X"), frame[1]);
        printf(rule(", STmin %d", W12d11, ", STmin %X"), rule(frame[2], W12d12, tenths));
        break;
    }
}

void put_rung(struct ladder *ladder, enum direction direction, const uint8_t *frame)
{
    bool there = rule(direction == THERE, W12d3, direction != THERE);
    bool counted = !mistake(W12d1) || direction == THERE;
    ladder->frames += counted;
    printf("%d %s ", ladder->frames - rule(0, W12d2, 1), there ? "there" : "back");
    for (int i = 0; i < FRAME_BYTES; i++)
        printf(mistake(W12d5) && i > 0 ? " %02X" : rule("%02X", W12d4, "%02x"), frame[i]);
    putchar(' ');
    say_rung(frame);
    putchar('\n');
}

/* The line's law: two nodes, and each frame carried to the other */

enum { SENDERS_BERTH = 3, TAKERS_BERTH = 7, STEPS_MAX = 100000 };   /* the longest has 75,923, ticks and frames */

static void open_end(struct world *world, struct settings settings)
{
    struct call header = { .kind = HEADER, .settings = settings };
    open_world(world, SCENES);
    perform(world, &header);
}

/* Whether the one had a frame due, which the other has now. */
static bool carried(struct world *from, struct world *to, int berth, enum direction direction, struct ladder *ladder)
{
    struct call turn = { .kind = TURN, .buffer = FRAME_BYTES };
    struct answer handed = perform(from, &turn);
    if (handed.refusal != 0 || handed.turn.none)
        return false;
    put_rung(ladder, direction, handed.buffer);
    struct call frame = { .kind = FRAME, .identifier = FROM_BERTH_0 + berth, .length = FRAME_BYTES };
    memcpy(frame.data, handed.buffer, FRAME_BYTES);
    perform(to, &frame);
    return true;
}

static bool tick_in_gap(struct world *sender, struct world *taker)
{
    struct call tick = { .kind = TICK };
    if (sender->node.tx[SENDERS_BERTH].gap_left == 0)
        return false;
    perform(sender, &tick);
    perform(taker, &tick);
    return true;
}

/* How many bytes of the message have come; 0 if others have. */
static int delivered_bytes(struct world *taker)
{
    struct call show = { .kind = SHOW, .berth = TAKERS_BERTH, .choice = SHOW_ARRIVED };
    struct bytes part = perform(taker, &show).part;
    for (size_t i = 0; i < part.length; i++)
        if (part.at[i] != (uint8_t)i)
            return 0;
    return (int)part.length;
}

static int run_two_nodes(const struct transfer *transfer, struct ladder *ladder)
{
    struct world sender, taker;
    open_end(&sender, (struct settings){ AREA_MAX, 1, 9 });
    open_end(&taker, (struct settings){ AREA_MAX, (uint32_t)transfer->block_size, (uint32_t)transfer->stmin });
    struct call send = { .kind = SEND, .berth = SENDERS_BERTH, .length = transfer->length };
    if (transfer->length <= MESSAGE_MAX)
        perform(&sender, &send);
    bool more = true;
    for (int steps = 0; more && ladder->frames < LADDER_MAX && steps < STEPS_MAX; steps++)
        more = carried(&sender, &taker, TAKERS_BERTH, THERE, ladder)
            || carried(&taker, &sender, SENDERS_BERTH, BACK, ladder) || tick_in_gap(&sender, &taker);
    int delivered = delivered_bytes(&taker);
    close_world(&sender);
    close_world(&taker);
    return delivered;
}

/* The words */

enum argument { LENGTH_WORD, BS_WORD, STMIN_WORD };
enum verdict { GOOD, NO_NUMBER, OUT_OF_RANGE };
enum { DIGITS_MAX = 9 };

static const char *const names[] = { "LENGTH", "BS", "STMIN" };
static const char *const ranges[] = { "1 to 4095", "0 to 255", "0 to 127 or 241 to 249" };

static bool is_digit(char byte)
{
    return (byte >= '0' && byte <= '9') || (mistake(W12f10) && byte == '/') || (mistake(W12f11) && byte == ':');
}

/* What the mutants that pass over something make of a word. */
static const char *without_what_is_passed_over(const char *word)
{
    if ((mistake(W12f5) && *word == '+') || (mistake(W12f6) && *word == '-'))
        return word + 1;
    while (mistake(W12f7) && *word == ' ')
        word++;
    while (mistake(W12f16) && word[0] == '0' && word[1] != 0)
        word++;
    return word;
}

/* How many of its bytes must be digits; the rest does not matter to a mutant. */
static size_t bytes_looked_at(const char *word)
{
    size_t length = strlen(word), digits = 0;
    while (digits < length && is_digit(word[digits]))
        digits++;
    bool rest_passed = (mistake(W12f8) && word[digits] == ' ') || (mistake(W12f9) && word[digits] == '\n')
        || (mistake(W12f12) && digits > 0);
    return rest_passed ? digits : length;
}

static size_t digits_least(enum argument which)
{
    bool none_will_do = mistake(W12f4) || (mistake(W12f20) && which == BS_WORD)
        || (mistake(W12f21) && which == STMIN_WORD);
    return none_will_do ? 0 : 1;
}

static size_t digits_most(enum argument which)
{
    if (mistake(W12f13) || mistake(W12f14))
        return 1000000;
    bool one_more = mistake(W12f1) || (mistake(W12f17) && which == LENGTH_WORD)
        || (mistake(W12f18) && which == BS_WORD) || (mistake(W12f19) && which == STMIN_WORD);
    return (size_t)rule(DIGITS_MAX + one_more, W12f2, DIGITS_MAX - 1);
}

static uint64_t value_of(const char *word, size_t length)
{
    uint64_t value = 0, base = mistake(W12f15) && word[0] == '0' ? 8 : 10;
    for (size_t i = 0; i < length; i++)
        value = value * base + (uint64_t)(word[i] - '0');
    return rule(value, W12f13, (uint32_t)value);
}

static bool read_number(const char *word, enum argument which, uint64_t *value)
{
    word = without_what_is_passed_over(word);
    size_t length = bytes_looked_at(word);
    for (size_t i = 0; i < length; i++)
        if (!is_digit(word[i]))
            return false;
    *value = value_of(word, length);
    return length >= digits_least(which) && length <= digits_most(which)
        && !(mistake(W12f3) && length > 1 && word[0] == '0');
}

static bool length_fits(uint64_t length)
{
    uint64_t least = rule(rule(1, W12g1, 0), W12g2, 2);
    uint64_t most = rule(rule(AREA_MAX, W12g3, AREA_MAX - 1), W12g4, AREA_MAX + 1);
    return length >= least && length <= most;
}

static bool block_size_fits(uint64_t block_size)
{
    uint64_t most = rule(rule(BLOCK_MAX, W12g5, BLOCK_MAX - 1), W12g6, BLOCK_MAX + 1);
    return block_size >= rule(0, W12g7, 1) && block_size <= most;
}

static bool stmin_fits(uint64_t stmin)
{
    uint64_t ticks = rule(rule(STMIN_TICKS_MAX, W12g8, STMIN_TICKS_MAX - 1), W12g9, STMIN_TICKS_MAX + 1);
    uint64_t low = rule(rule(0xF1, W12g10, 0xF0), W12g11, 0xF2), high = rule(rule(0xF9, W12g12, 0xF8), W12g13, 0xFA);
    bool all = mistake(W12g14) && stmin <= 0xFF;
    bool none = mistake(W12g15) && stmin > STMIN_TICKS_MAX;
    return (stmin >= rule(0, W12g16, 1) && stmin <= ticks && !none) || (stmin >= low && stmin <= high && !none) || all;
}

/* What is wrong with each word, and the numbers of those that are right. */
static void judge(char **words, enum verdict *verdicts, uint64_t *values)
{
    for (enum argument which = LENGTH_WORD; which <= STMIN_WORD; which++)
        verdicts[which] = read_number(words[which], which, &values[which]) ? GOOD : NO_NUMBER;
    values[LENGTH_WORD] = rule(values[LENGTH_WORD], W12g17, (uint16_t)values[LENGTH_WORD]);
    values[BS_WORD] = rule(values[BS_WORD], W12g18, (uint8_t)values[BS_WORD]);
    values[STMIN_WORD] = rule(values[STMIN_WORD], W12g19, (uint8_t)values[STMIN_WORD]);
    bool single = verdicts[LENGTH_WORD] == GOOD && values[LENGTH_WORD] <= SINGLE_MAX;
    bool fits[] = {
        length_fits(values[LENGTH_WORD]), block_size_fits(values[BS_WORD]) || (mistake(W12g20) && single),
        stmin_fits(values[STMIN_WORD]) || (mistake(W12g21) && single),
    };
    for (enum argument which = LENGTH_WORD; which <= STMIN_WORD; which++)
        if (verdicts[which] == GOOD && !fits[which])
            verdicts[which] = OUT_OF_RANGE;
}

static void refuse(enum argument which, enum verdict verdict)
{
    FILE *file = rule(stdout, W12i1, stderr);
    if (verdict == NO_NUMBER)
        fprintf(file, "refused: %s is no number of one to nine digits\n", names[rule(which, W12i2, LENGTH_WORD)]);
    else if (verdict == OUT_OF_RANGE)
        fprintf(file, "refused: %s is not %s\n", names[which], ranges[which]);
}

/* The mutants tell what is wrong in another order, or more of it. True where something was told. */
static bool refused_by_mistake(const enum verdict *verdicts)
{
    static const enum argument bs_first[] = { BS_WORD, LENGTH_WORD, STMIN_WORD };
    static const enum argument stmin_second[] = { LENGTH_WORD, STMIN_WORD, BS_WORD };
    static const enum argument last_first[] = { STMIN_WORD, BS_WORD, LENGTH_WORD };
    const enum argument *order = mistake(W12h2) ? bs_first : mistake(W12h3) ? stmin_second : last_first;
    bool told = false;
    if (mistake(W12h2) || mistake(W12h3) || mistake(W12h5)) {
        for (int i = 0; i < LADDER_WORDS && !told; i++) {
            refuse(order[i], verdicts[order[i]]);
            told = verdicts[order[i]] != GOOD;
        }
    }
    for (enum verdict v = NO_NUMBER; v <= OUT_OF_RANGE && mistake(W12h4); v++) {
        for (int i = 0; i < LADDER_WORDS && !told; i++) {
            if (verdicts[i] == v) {
                refuse((enum argument)i, v);
                told = true;
            }
        }
    }
    return told;
}

static bool refused(const enum verdict *verdicts)
{
    bool told = refused_by_mistake(verdicts);
    for (enum argument which = LENGTH_WORD; which <= STMIN_WORD && (!told || mistake(W12h6)); which++) {
        if (verdicts[which] != GOOD) {
            refuse(which, verdicts[which]);
            told = true;
        }
    }
    return told && !mistake(W12i3);
}

/* Three words, whatever the count; the answer is another count for the mutants that are content with it. */
static int take_words(int count, char **words, char **taken)
{
    static char example[LADDER_WORDS][3] = { "20", "2", "5" }, zero[] = "0";
    for (int i = 0; i < LADDER_WORDS; i++)
        taken[i] = i < count ? words[i] : rule(zero, W12e4, example[i]);
    bool content = (mistake(W12e1) && count == 2) || (mistake(W12e2) && count == 1)
        || (mistake(W12e3) && count > LADDER_WORDS) || (mistake(W12e4) && count == 0);
    return content ? LADDER_WORDS : count;
}

/* The mistake of a count that is tested behind the words that are there. */
static bool refused_before_count(int count, char **words)
{
    enum verdict verdicts[LADDER_WORDS];
    uint64_t values[LADDER_WORDS] = { 0 };
    judge(words, verdicts, values);
    for (int i = count; i < LADDER_WORDS; i++)
        verdicts[i] = GOOD;
    return refused(verdicts);
}

void run_plain_ladder(int count, char **words, bool by_engine)
{
    char *taken[LADDER_WORDS];
    enum verdict verdicts[LADDER_WORDS];
    uint64_t values[LADDER_WORDS] = { 0 };
    count = take_words(count, words, taken);
    if (mistake(W12h1) && refused_before_count(count, taken))
        return;
    if (count != LADDER_WORDS) {
        fprintf(rule(stdout, W12i1, stderr), "refused: LENGTH, BS and STMIN are wanted\n");
        return;
    }
    judge(taken, verdicts, values);
    if (refused(verdicts))
        return;
    struct transfer transfer = { (int)values[LENGTH_WORD], (int)values[BS_WORD], (int)values[STMIN_WORD] };
    struct ladder ladder = { 0 };
    bool engine = by_engine || mistakes_exchange();
    int delivered = engine ? run_plain_engine(&transfer, &ladder) : run_two_nodes(&transfer, &ladder);
    if (!(mistake(W12d13) && transfer.length <= SINGLE_MAX))
        printf("delivered %d\n", rule(delivered, W12d14, ladder.frames));
}
