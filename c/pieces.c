/* A program to start from where a text comes in pieces: it reads standard input, in pieces of 1, 3, 5, .. bytes or of so many as are asked for, and prints
 * where a mark stands. Nothing of the input is kept but the piece at hand; what hangs over from one piece to the next is in the searcher.
 *
 *   pieces [MARK [SIZE]] <UPLOAD */
#include <inttypes.h>
#include <stdio.h>
#include <stdlib.h>
#include <string.h>

#include "marks.h"

enum { MOST_PIECE = 4096 };

/* A refusal leaves searcher and list as they were, so the caller may go on: with another piece, with a searcher that was kept, or, where the stream is full,
 * with another one that is handed the last bytes again, one fewer than the mark has. */
static int refused(const char *what, uint32_t said)
{
    if (said != MARKS_OK)
        printf("%s: refused with %" PRIu32 ", %s\n", what, said, marks_meaning(said));
    return said != MARKS_OK;
}

/* Each byte ends one find at most, so a list as long as the piece has room for all of them, and none is missed. */
static int take(const char *what, uint8_t *searcher, const uint8_t *piece, size_t len)
{
    uint32_t finds[MOST_PIECE];
    uint64_t count;
    if (refused(what, marks_take(searcher, MARKS_SEARCHER, piece, len, finds, len, &count)))
        return 1;
    for (uint64_t i = 0; i < count; i++)
        printf("%" PRIu32 "\n", finds[i]);
    return 0;
}

/* pieces of the size that is asked for, or where that is 0, of 1, 3, 5, .. bytes */
static int take_input(uint8_t *searcher, size_t size)
{
    uint8_t piece[MOST_PIECE];
    size_t next = size > 0 ? size : 1, len;
    while ((len = fread(piece, 1, next, stdin)) > 0) {
        if (take("take", searcher, piece, len))
            return 1;
        next = size > 0 ? size : next + 2 <= MOST_PIECE ? next + 2 : 1;
    }
    if (ferror(stdin))
        perror("pieces");
    return ferror(stdin);
}

/* A searcher may be kept anywhere between two pieces, and one that comes back changed does no harm. */
static int take_damaged(const uint8_t *searcher)
{
    uint8_t kept[MARKS_SEARCHER];
    memcpy(kept, searcher, MARKS_SEARCHER);
    kept[MARKS_SEARCHER / 2] ^= 1;
    return !take("take with a damaged searcher", kept, NULL, 0);
}

int main(int argc, char **argv)
{
    const char *mark = argc > 1 ? argv[1] : "lap-lap";
    unsigned long size = argc > 2 ? strtoul(argv[2], NULL, 10) : 0;
    uint8_t searcher[MARKS_SEARCHER];
    if (size > MOST_PIECE) {
        fprintf(stderr, "pieces: a piece has at most %d bytes\n", MOST_PIECE);
        return 2;
    }
    if (refused("open", marks_open((const uint8_t *)mark, strlen(mark), searcher, MARKS_SEARCHER)))
        return 1;
    return take_input(searcher, size) || take_damaged(searcher);
}
