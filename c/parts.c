/* A program to start from where a text is longer than one call takes, or has more finds than there is room for. It is searched in parts. Each part begins with
 * the last m-1 bytes of the one before, so that no find is cut and none comes twice; and where the list was too short, the next part begins right behind the
 * last find that was listed.
 *
 *   parts            searches a text of its own making, and holds the finds against those of a plain loop
 *   parts FILE MARK  prints where the mark stands in a file of any size, of which no more than 16 MiB are kept at a time */
#include <inttypes.h>
#include <stdio.h>
#include <string.h>

#include "marks.h"

enum { LIST = 4096, FIRST = 4 };

struct search {
    const uint8_t *mark;
    size_t m;
    void (*found)(uint64_t at);
    uint64_t calls;
    uint16_t tables[MARKS_MOST_TABLES];
    uint32_t finds[LIST];
};

static int refused(const char *what, uint32_t said)
{
    if (said != MARKS_OK)
        printf("%s: refused with %" PRIu32 ", %s\n", what, said, marks_meaning(said));
    return said != MARKS_OK;
}

/* What a part has behind the last listed find was read for nothing, and is read again. So behind a list that was too short parts become shorter, down to a
 * length that has a find for each entry at most, and then longer again: however many finds there are, the time stays within a few times the text's length. */
static size_t next_part(size_t part, size_t m, int too_short)
{
    const size_t never_too_short = LIST + m - 1;
    if (too_short)
        return part / 2 > never_too_short ? part / 2 : never_too_short;
    return part < MARKS_LONGEST_TEXT / 2 ? 2 * part : MARKS_LONGEST_TEXT;
}

/* A text of any length; its first byte has the place base. The first call is made however short the text is, as it tells whether the mark is one. */
static uint32_t search_text(struct search *s, const uint8_t *text, uint64_t n, uint64_t base)
{
    size_t part = MARKS_LONGEST_TEXT;
    uint64_t at = 0, count, letters;
    do {
        size_t len = n - at < part ? (size_t)(n - at) : part;
        uint32_t said = marks_turbo(s->mark, s->m, text + at, len, s->tables, MARKS_MOST_TABLES, s->finds, LIST, &count, &letters);
        if (said != MARKS_OK)
            return said;
        s->calls++;
        for (uint64_t i = 0; i < count && i < LIST; i++)
            s->found(base + at + s->finds[i]);
        part = next_part(len, s->m, count > LIST);
        if (count > LIST)
            at += s->finds[LIST - 1] + 1;
        else
            at += len < s->m ? len : len - (s->m - 1);
    } while (n - at >= s->m);
    return MARKS_OK;
}

static void print_place(uint64_t at)
{
    printf("%" PRIu64 "\n", at);
}

/* The bytes that the next part begins with are moved to the front, and the rest of the room is filled behind them. */
static int search_stream(struct search *s, FILE *file)
{
    static uint8_t room[MARKS_LONGEST_TEXT];
    size_t kept = 0, got;
    uint64_t base = 0;
    do {
        got = fread(room + kept, 1, sizeof room - kept, file);
        size_t have = kept + got;
        if (refused("search", search_text(s, room, have, base)))
            return 1;
        kept = have < s->m - 1 ? have : s->m - 1;
        memmove(room, room + have - kept, kept);
        base += have - kept;
    } while (got > 0);
    return ferror(file);
}

static int search_file(const char *name, const char *mark)
{
    static struct search s;
    FILE *file = fopen(name, "rb");
    if (file == NULL) {
        perror(name);
        return 1;
    }
    s.mark = (const uint8_t *)mark, s.m = strlen(mark), s.found = print_place;
    int bad = search_stream(&s, file);
    if (ferror(file))
        perror(name);
    return fclose(file) != 0 || bad;
}

/* The text that is made here, and what was found in it. The mark is eight bytes of erased memory, which stand at every place of a long erased stretch. */
static const uint8_t mark[] = {0xff, 0xff, 0xff, 0xff, 0xff, 0xff, 0xff, 0xff};
static const size_t m = sizeof mark;
static uint8_t text[40 << 20];
static struct {
    uint64_t count, first[FIRST], last, behind;
    int same;
} seen = {0, {0}, 0, 0, 1};

static void erase(size_t at, size_t len)
{
    memset(text + at, 0xff, len);
}

/* Erased are the first and the last bytes, as many as the mark has; stretches over the end of the first part and over that of the second; and one with far more
 * finds than the list has entries. */
static void make_text(void)
{
    const size_t first_end = MARKS_LONGEST_TEXT, second_end = 2 * first_end - (m - 1);
    for (size_t i = 0; i < sizeof text; i++)
        text[i] = (uint8_t)((uint32_t)i * 2654435761u >> 16);
    erase(0, m);
    erase(first_end - 10, 20);
    erase(second_end - 10, 20);
    erase(second_end + 1000000, 100000);
    erase(sizeof text - m, m);
}

/* the next place from here on, by the plainest loop; behind the last there is none, and the answer is one where the mark would not fit */
static uint64_t plainly(uint64_t from)
{
    while (from + m <= sizeof text && memcmp(text + from, mark, m) != 0)
        from++;
    return from;
}

static void hold_against_plain(uint64_t at)
{
    seen.same = seen.same && at == plainly(seen.behind);
    if (seen.count < FIRST)
        seen.first[seen.count] = at;
    seen.count++;
    seen.last = at;
    seen.behind = at + 1;
}

/* what one call does not take: this text, no mark, and a mark that is too long; none of it is searched */
static void print_refusals(struct search *s)
{
    static const uint8_t longer[MARKS_LONGEST_WORD + 1];
    uint64_t count, letters;
    refused("the whole text in one call", marks_turbo(mark, m, text, sizeof text, s->tables, MARKS_MOST_TABLES, s->finds, LIST, &count, &letters));
    s->mark = mark, s->m = 0;
    refused("no mark", search_text(s, text, sizeof text, 0));
    s->mark = longer, s->m = sizeof longer;
    refused("a mark of 4,097 bytes", search_text(s, text, sizeof text, 0));
}

static int search_own(void)
{
    static struct search s;
    s.found = hold_against_plain;
    make_text();
    print_refusals(&s);
    s.mark = mark, s.m = m;
    if (refused("in parts", search_text(&s, text, sizeof text, 0)))
        return 1;
    printf("in parts: %" PRIu64 " places in %zu bytes, by %" PRIu64 " calls with a list of %d; the first:", seen.count, sizeof text, s.calls, LIST);
    for (int i = 0; i < FIRST; i++)
        printf(" %" PRIu64, seen.first[i]);
    seen.same = seen.same && plainly(seen.behind) + m > sizeof text;
    printf("; the last: %" PRIu64 "\na plain loop with memcmp finds %s\n", seen.last, seen.same ? "the same" : "others");
    return !seen.same;
}

int main(int argc, char **argv)
{
    if (argc == 1)
        return search_own();
    if (argc == 3)
        return search_file(argv[1], argv[2]);
    fprintf(stderr, "parts: a file and a mark are needed, or neither\n");
    return 2;
}
