/*
 * generate_plain.c - the words of so many runs of the plain ladder, a line each.
 *
 * A word stands as it is, or in quotes as Python has it where it is empty or has a space, a quote or no sign at all.
 */
#include <stdio.h>

#include "generate.h"
#include "plain.h"

enum { LENGTHS_MAX = 4095, FRAMES_MAX = 585 };  /* the longest message, and its consecutive frames */
enum { SHORT_MAX = 400, LONG_LEAST = 1800 };    /* for long gaps, and for more frames than a block has */

/* How many a list has, and one of them. */
#define number_in(list) (int)(sizeof(list) / sizeof((list)[0]))
#define some_of(dice, list) ((list)[roll(dice, number_in(list))])

static int edge_length(struct dice *dice)
{
    static const int edges[] = {
        1, 2, 5, 6, 7, 8, 9, 12, 13, 14, 15, 19, 20, 21, 22, 104, 111, 112, 118, 119, 125, 126, 248, 254, 255, 256, 257,
        258, 259, 511, 512, 513, 1000, 2047, 2048, 2049, 4088, 4089, 4094, 4095, 4095, 4095,
    };
    return some_of(dice, edges);
}

static int edge_block_size(struct dice *dice)
{
    static const int edges[] = { 0, 1, 2, 3, 7, 8, 14, 15, 16, 17, 31, 32, 127, 128, 254, 255 };
    return some_of(dice, edges);
}

/* Consecutive frames that fill the last block, or one more or less; the last one is full or not. */
static int length_by_blocks(struct dice *dice, int block_size)
{
    int frames = block_size * between(dice, 1, FRAMES_MAX / (block_size + 1)) + between(dice, -1, 1);
    int length = 6 + 7 * frames - (chance(dice, 40) ? 0 : roll(dice, 7));
    return length < 1 ? 1 : length > LENGTHS_MAX ? LENGTHS_MAX : length;
}

/* A long message with long gaps would be all ticks. */
static int some_stmin(struct dice *dice, int length)
{
    static const int edges[] = { 0, 1, 2, 127, 126, 241, 242, 248, 249 };
    static const int small[] = { 0, 0, 0, 1, 3, 241, 245, 249 };
    if (length > SHORT_MAX)
        return some_of(dice, small);
    return chance(dice, 50) ? some_of(dice, edges) : chance(dice, 50) ? roll(dice, 128) : between(dice, 241, 249);
}

static int some_length(struct dice *dice, int block_size)
{
    switch (roll(dice, 6)) {
    case 0: case 1:
        return length_by_blocks(dice, block_size);
    case 2:
        return between(dice, 1, 60);
    case 3:
        return between(dice, 1, LENGTHS_MAX);
    default:
        return edge_length(dice);
    }
}

static void put_words(struct dice *dice, int length, int block_size)
{
    printf("%d %d %d\n", length, block_size, some_stmin(dice, length));
}

/* What is no number, and for each word what is beyond its range. */
static const char *const odd_words[] = {
    "\"\"", "-1", "-0", "+5", "\" 5\"", "\"5 \"", "\"5\\n\"", "\"\\t5\"", "x", "5x", "x5", "0x5", "5.0", "5e0", "1_0",
    "/5", ":5", "5/", "5:", "F1", "--", "-h", "\"5\\\"\"", "\"$5\"", "\"'\"", "\"\\xd9\\xa5\"", "\"\\xff\"",
    "1234567890", "0000000005", "4294967301", "18446744073709551621", "99999999999999999999",
    "00000000000000000000000000000000000000000000000000000000000000005",
};
static const char *const lengths_beyond[] = {
    "0", "4096", "4097", "65556", "65536", "000000000", "999999999", "004096",
};
static const char *const sizes_beyond[] = { "256", "257", "512", "65536", "999999999", "000000256" };
static const char *const stmins_beyond[] = {
    "128", "129", "200", "239", "240", "250", "251", "255", "256", "497", "999999999",
};

static const struct words_beyond {
    const char *const *words;
    int count;
} beyond[LADDER_WORDS] = {
    { lengths_beyond, number_in(lengths_beyond) },
    { sizes_beyond, number_in(sizes_beyond) },
    { stmins_beyond, number_in(stmins_beyond) },
};

/* Numbers within their range, also with zeros before them. */
static void put_word_within(struct dice *dice, int which)
{
    static const char *const forms[] = { "%d", "%d", "%d", "%03d", "%09d" };
    int length = chance(dice, 50) ? between(dice, 1, 7) : between(dice, 8, 60);
    int value = which == 0 ? length : which == 1 ? roll(dice, 256) : some_stmin(dice, length);
    printf(some_of(dice, forms), value);
}

/* Each word is good, no number, or beyond its range: often more than one is wrong, so that the order is seen. */
static void put_mixed_words(struct dice *dice, int count)
{
    for (int i = 0; i < count; i++) {
        int fate = roll(dice, 6), which = i < LADDER_WORDS ? i : LADDER_WORDS - 1;
        if (fate == 0)
            printf("%s", some_of(dice, odd_words));
        else if (fate == 1)
            printf("%s", beyond[which].words[roll(dice, beyond[which].count)]);
        else
            put_word_within(dice, which);
        putchar(i + 1 < count ? ' ' : '\n');
    }
    if (count == 0)
        putchar('\n');
}

/* Three words, one of them wrong: in turn each that is no number, in each place, and each that is beyond its range. */
static void put_one_wrong(struct dice *dice, int number)
{
    int odd = number_in(odd_words), place = number / odd, index = number % odd;
    bool no_number = place < LADDER_WORDS;
    number -= LADDER_WORDS * odd;
    for (int i = 0; i < LADDER_WORDS && !no_number; i++) {
        place = i;
        index = number;
        if (number < beyond[i].count)
            break;
        number -= beyond[i].count;
    }
    for (int i = 0; i < LADDER_WORDS; i++) {
        if (i == place)
            printf("%s", no_number ? odd_words[index] : beyond[i].words[index]);
        else
            put_word_within(dice, i);
        putchar(i + 1 < LADDER_WORDS ? ' ' : '\n');
    }
}

static void put_some_words(struct dice *dice)
{
    static const int counts[] = { 0, 1, 2, 2, 4, 4, 5 };
    int kind = roll(dice, 20), block_size = edge_block_size(dice);
    if (kind <= 1)
        put_mixed_words(dice, some_of(dice, counts));
    else if (kind <= 9)
        put_mixed_words(dice, LADDER_WORDS);
    else
        put_words(dice, some_length(dice, block_size), block_size);
}

/* More frames than a block can have. */
static void put_long_words(struct dice *dice, uint64_t number)
{
    static const int sizes[] = { 0, 255, 254 };
    put_words(dice, between(dice, LONG_LEAST, LENGTHS_MAX), sizes[number % number_in(sizes)]);
}

/* Behind a long one in every second run the block size is the next one, and the message has consecutive frames. */
static void put_exchanges(struct dice *dice, uint64_t number, long runs)
{
    put_long_words(dice, number);
    for (long i = 1; i < runs; i++) {
        int block_size = (int)((number * (uint64_t)runs + (uint64_t)i) / 2 % 256);
        int length = some_length(dice, block_size);
        if (i % 2 == 1)
            put_words(dice, length < 8 ? length + 7 : length, block_size);
        else
            put_some_words(dice);
    }
}

/* Every fourth stream has wrong words alone. */
void generate_ladders(uint64_t seed, long runs)
{
    struct dice dice = { seed };
    int all = LADDER_WORDS * number_in(odd_words) + beyond[0].count + beyond[1].count + beyond[2].count;
    if (seed % 4 != 0)
        put_exchanges(&dice, seed - seed / 4, runs);
    for (long i = 0; i < runs && seed % 4 == 0; i++)
        put_one_wrong(&dice, (int)((seed / 4 * (uint64_t)runs + (uint64_t)i) % (uint64_t)all));
}
