/* instructions LETTERS M N: one search for a word of M letters in N random letters, of LETTERS kinds, in which it stands. tools/instructions counts what it executes. */
#include "marks.h"
#include "random.h"

#include <stdio.h>
#include <stdlib.h>

enum { LONGEST_TEXT = 16 << 20, LONGEST = 4096 };

static uint8_t text[LONGEST_TEXT];
static uint16_t tables[MARKS_TABLES(LONGEST)];

int main(int argc, char **argv)
{
    if (argc != 4)
        return 2;
    unsigned letters = (unsigned)atoi(argv[1]);
    size_t m = (size_t)atol(argv[2]), n = (size_t)atol(argv[3]);
    if (letters < 1 || m > LONGEST || n > LONGEST_TEXT || n < 2 * m)
        return 2;
    for (size_t i = 0; i < n; i++)
        text[i] = (uint8_t)(next_random() % letters);
    uint64_t count, read;
    return marks_search(text + n / 2, m, text, n, tables, MARKS_TABLES(m), NULL, 0, &count, &read) == 0 && count > 0 ? 0 : 1;
}
