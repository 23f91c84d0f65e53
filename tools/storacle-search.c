/* storacle-search M BOUND SEED TRIES: looks for a word of M letters whose storacle has at least BOUND arrows. tools/storacle-search says how, and compiles it. */
#include "random.h"

#include <stdio.h>
#include <stdlib.h>
#include <string.h>

enum { LONGEST = 128, KINDS = 26 };

/* A climb tries so many words for each letter, in so many stages. In stage s, from 1 up, it goes on to a word with d arrows fewer by a chance of 1 in 2 to the power
 * of ds. */
enum { CLIMB = 20000, STAGES = 10 };

/* How many arrows the storacle of a word has, those of the spine included. Where a suffix cannot be walked on, the arrow is made to the first later state that has the
 * letter, and the walk goes on behind it: to begin it anew would lead there. */
static int arrows(const uint8_t *word, int m)
{
    static uint8_t later[LONGEST + 1][KINDS], leads[LONGEST + 1][KINDS];
    memset(later[m], 0, KINDS);
    memset(leads, 0, (size_t)(m + 1) * KINDS);
    for (int j = m - 1; j >= 0; j--) {
        memcpy(later[j], later[j + 1], KINDS);
        later[j][word[j]] = leads[j][word[j]] = (uint8_t)(j + 1);
    }
    int made = m;
    for (int i = 1; i < m; i++) {
        for (int j = 0, k = i; k < m; k++) {
            uint8_t *arrow = &leads[j][word[k]];
            if (*arrow == 0) {
                *arrow = later[j][word[k]];
                made++;
            }
            j = *arrow;
        }
    }
    return made;
}

static int below(int bound)
{
    return (int)(next_random() % (uint64_t)bound);
}

/* True by a chance of 1 in 2 to the power of halvings; never where they are 40 or more. */
static int chance(int halvings)
{
    return halvings < 40 && next_random() % ((uint64_t)1 << halvings) == 0;
}

/* One letter becomes another, or that of another place; or two change places; or one goes elsewhere. */
static void change(uint8_t *word, int m)
{
    int from = below(m), to = below(m), how = below(4);
    uint8_t letter = word[from];
    if (how == 0) {
        word[from] = (uint8_t)below(KINDS);
    } else if (how == 1) {
        word[from] = word[to];
    } else if (how == 2) {
        word[from] = word[to];
        word[to] = letter;
    } else {
        memmove(word + from, word + from + 1, (size_t)(m - 1 - from));
        memmove(word + to + 1, word + to, (size_t)(m - 1 - to));
        word[to] = letter;
    }
}

static void tell(const uint8_t *word, int m, int made)
{
    char names[KINDS] = {0}, name = 'a';
    printf("%d ", made);
    for (int i = 0; i < m; i++) {
        if (names[word[i]] == 0)
            names[word[i]] = name++;
        putchar(names[word[i]]);
    }
    putchar('\n');
    fflush(stdout);
}

/* One climb, from random letters of some kinds. It ends early where the bound is reached. The most arrows are those of all climbs. */
static int climb(int m, int most, int bound)
{
    uint8_t word[LONGEST], other[LONGEST];
    int kinds = 2 + below(KINDS - 1), tries = CLIMB * m;
    for (int i = 0; i < m; i++)
        word[i] = (uint8_t)below(kinds);
    int made = arrows(word, m);
    for (int at = 0; at < tries && most < bound; at++) {
        int stage = 1 + (int)((int64_t)at * STAGES / tries);
        memcpy(other, word, (size_t)m);
        change(other, m);
        int now = arrows(other, m);
        if (now < made && !chance((made - now) * stage))
            continue;
        memcpy(word, other, (size_t)m);
        made = now;
        if (made > most)
            tell(word, m, most = made);
    }
    return most;
}

int main(int argc, char **argv)
{
    if (argc != 5)
        return 2;
    int m = atoi(argv[1]), bound = atoi(argv[2]), most = 0;
    long long tries = atoll(argv[4]);
    random_state = strtoull(argv[3], NULL, 10);
    if (m < 1 || m > LONGEST || random_state == 0) {
        fputs("storacle-search: M is 1 to 128, SEED from 1 up\n", stderr);
        return 2;
    }
    for (long long at = 0; at < tries && most < bound; at += (long long)CLIMB * m)
        most = climb(m, most, bound);
    return most < bound;
}
