/* against: the searches of this library beside those of another commit, by turns and in one process (tools/against links the two, the other's names with `older_`
   before them). Prints a line for each word and text: what it is, its letters, the text's, both times in seconds, and the letters that each reads. Both must find
   the same. */
#define _POSIX_C_SOURCE 199309L
#include "marks.h"
#include "random.h"

#include <inttypes.h>
#include <stdio.h>
#include <stdlib.h>
#include <string.h>
#include <time.h>

typedef uint32_t search_entry(const uint8_t *, size_t, const uint8_t *, size_t, uint16_t *, size_t, uint32_t *, size_t, uint64_t *, uint64_t *);

search_entry older_marks_search, older_marks_turbo;

/* an entry of both */
struct pair {
    search_entry *older, *newer;
};

static const struct pair search = {older_marks_search, marks_search};
static const struct pair turbo = {older_marks_turbo, marks_turbo};

enum { LONG_TEXT = 16 << 20, PERIODIC_TEXT = 1 << 20, HOSTILE_TEXT = 256 << 10, LONGEST = 4096, ROUNDS = 20 };

static uint8_t text[LONG_TEXT];
static const uint8_t *word;
static uint16_t tables[MARKS_TABLES(LONGEST)];

struct told {
    double seconds; /* of the fastest round, for one search */
    uint64_t count, letters;
};

static double now(void)
{
    struct timespec at;
    clock_gettime(CLOCK_MONOTONIC, &at);
    return (double)at.tv_sec + 1e-9 * (double)at.tv_nsec;
}

/* the word, or another one at each call where there is no text: a processor would learn the way through one */
static const uint8_t *next_word(size_t n)
{
    static size_t calls;
    return n > 0 ? word : text + calls++ * LONGEST % (LONG_TEXT - LONGEST);
}

static void run(search_entry *entry, size_t m, size_t n, unsigned often, struct told *told)
{
    double start = now();
    for (unsigned i = 0; i < often; i++)
        if (entry(next_word(n), m, text, n, tables, MARKS_TABLES(m), NULL, 0, &told->count, &told->letters) != 0)
            abort();
    double took = (now() - start) / often;
    if (took < told->seconds)
        told->seconds = took;
}

/* both take turns, and change places from round to round */
static void race(const char *head, const struct pair *both, size_t m, size_t n)
{
    struct told older = {1e9, 0, 0}, newer = {1e9, 0, 0};
    run(both->newer, m, n, 1, &newer);
    unsigned often = newer.seconds > 2e-3 ? 1 : (unsigned)(2e-3 / newer.seconds) + 1;
    for (unsigned round = 0; round < ROUNDS; round++) {
        run(round % 2 ? both->newer : both->older, m, n, often, round % 2 ? &newer : &older);
        run(round % 2 ? both->older : both->newer, m, n, often, round % 2 ? &older : &newer);
    }
    if (older.count != newer.count)
        abort();
    printf("%s\t%zu\t%zu\t%.9f\t%.9f\t%" PRIu64 "\t%" PRIu64 "\n", head, m, n, older.seconds, newer.seconds, older.letters, newer.letters);
    fflush(stdout);
}

/* random texts, a long one and its start, and words that stand in them; and no text */
static void random_texts(unsigned letters)
{
    char head[32];
    snprintf(head, sizeof head, "%u letters", letters);
    for (size_t i = 0; i < LONG_TEXT; i++)
        text[i] = (uint8_t)(next_random() % letters);
    static const size_t lengths[] = {4, 12, 16, 64, 256, 1024, LONGEST};
    for (size_t i = 0; i < sizeof lengths / sizeof lengths[0]; i++) {
        word = text + LONG_TEXT / 2;
        race(head, &search, lengths[i], LONG_TEXT);
    }
    for (size_t i = 0; lengths[i] <= 64; i++) {
        word = text + 100;
        race(head, &search, lengths[i], 1024);
    }
    static const size_t short_texts[] = {256, 4096, 65536};
    for (size_t i = 0; i < sizeof short_texts / sizeof short_texts[0]; i++) {
        word = text;
        race(head, &search, 16, short_texts[i]);
        race(head, &search, 256, short_texts[i]);
    }
    for (size_t i = 0; i < sizeof lengths / sizeof lengths[0]; i++)
        race(head, &search, lengths[i], 0);
    snprintf(head, sizeof head, "turbo: %u letters", letters);
    for (size_t i = 2; i < sizeof lengths / sizeof lengths[0]; i++) {
        word = text + LONG_TEXT / 2;
        race(head, &turbo, lengths[i], LONG_TEXT);
    }
}

/* word and text of one period: the word stands everywhere */
static void periodic_texts(size_t period)
{
    char head[32];
    snprintf(head, sizeof head, "period %zu", period);
    for (size_t i = 0; i < PERIODIC_TEXT; i++)
        text[i] = (uint8_t)(i % period);
    word = text;
    race(head, &search, 256, PERIODIC_TEXT);
}

/* words of a's, the first or the last letter perhaps another, in a's: every window is read whole, or all but one letter */
static void hostile_texts(const char *head, uint8_t first, uint8_t last, const struct pair *both)
{
    static uint8_t hostile[LONGEST];
    memset(text, 'a', HOSTILE_TEXT);
    word = hostile;
    for (size_t m = 4; m <= 256; m *= 4) {
        memset(hostile, 'a', m);
        hostile[0] = first;
        hostile[m - 1] = last;
        race(head, both, m, HOSTILE_TEXT);
    }
}

int main(void)
{
    random_texts(2);
    random_texts(4);
    random_texts(20);
    random_texts(256);
    periodic_texts(2);
    periodic_texts(8);
    periodic_texts(64);
    hostile_texts("a, m times", 'a', 'a', &search);
    hostile_texts("b, then a", 'b', 'a', &search);
    hostile_texts("a, then b", 'a', 'b', &search);
    hostile_texts("turbo: a, m times", 'a', 'a', &turbo);
    hostile_texts("turbo: b, then a", 'b', 'a', &turbo);
    hostile_texts("turbo: a, then b", 'a', 'b', &turbo);
    return 0;
}
