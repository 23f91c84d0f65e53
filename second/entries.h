/* The fifteen entries of both sides by number, so that the comparison and the attack can ask either side the same thing in one line.
   This is all that the two share with each other; neither implementation sees it. */
#ifndef ENTRIES_H
#define ENTRIES_H

#include "marks.h"
#include "second.h"

#include <inttypes.h>
#include <stdbool.h>
#include <stdio.h>
#include <stdlib.h>
#include <string.h>

enum entry {
    BUILD,
    SAVE,
    SAVE_CHECKED,
    LOAD,
    SEARCH,
    TURBO,
    SEARCH_FILE,
    FAILURE_SEARCH,
    COMPACT_SEARCH,
    FAILURE_BUILD,
    COMPACT_BUILD,
    STORACLE_BUILD,
    OPEN,
    TAKE,
    SALVAGE,
    ENTRIES
};

static const char *const entry_name[ENTRIES] = {"build",      "save",        "save_checked", "load",        "search",
                                                "turbo",      "search_file", "fail_search",  "rows_search", "fail_build",
                                                "rows_build", "storacle",    "open",         "take",        "salvage"};

/* the slices that an entry may be lent; input is the word, or the file of load and search_file; text is also the piece of take, tables are
   also the targets of compact rows, and finds are also the starts of salvage */
enum slice { INPUT, TEXT, ROOM, OUT, TABLES, FINDS, SEARCHER, RIDE_KINDS, SETS, SLICES };

static const char *const slice_name[SLICES] = {"word or file", "text or piece", "word room", "output", "tables",
                                               "list",         "searcher",      "kinds",     "sets"};

static const size_t slice_width[SLICES] = {1, 1, 1, 1, sizeof(uint16_t), sizeof(uint32_t), 1, 1, sizeof(uint64_t)};

static const unsigned lent_slices[ENTRIES] = {
    1 << INPUT | 1 << TABLES,
    1 << INPUT | 1 << OUT | 1 << TABLES,
    1 << INPUT | 1 << OUT | 1 << TABLES,
    1 << INPUT | 1 << ROOM | 1 << TABLES,
    1 << INPUT | 1 << TEXT | 1 << TABLES | 1 << FINDS,
    1 << INPUT | 1 << TEXT | 1 << TABLES | 1 << FINDS,
    1 << INPUT | 1 << TEXT | 1 << ROOM | 1 << TABLES | 1 << FINDS,
    1 << INPUT | 1 << TEXT | 1 << TABLES | 1 << FINDS,
    1 << INPUT | 1 << TEXT | 1 << TABLES | 1 << FINDS | 1 << SETS,
    1 << INPUT | 1 << TABLES,
    1 << INPUT | 1 << TABLES | 1 << SETS,
    1 << INPUT | 1 << TABLES,
    1 << INPUT | 1 << SEARCHER,
    1 << TEXT | 1 << FINDS | 1 << SEARCHER,
    1 << TEXT | 1 << TABLES | 1 << FINDS | 1 << RIDE_KINDS,
};

static const unsigned read_slices = 1 << INPUT | 1 << TEXT;

/* the refusals that an entry can give, 0 (success) among them: bit n for the number n, which is below NUMBERS */
enum { NUMBERS = 18 };

static const unsigned can_give[ENTRIES] = {
    1 << 0 | 1 << 1 | 1 << 2 | 1 << 3,
    1 << 0 | 1 << 1 | 1 << 2 | 1 << 3 | 1 << 12 | 1 << 17,
    1 << 0 | 1 << 1 | 1 << 2 | 1 << 3 | 1 << 12 | 1 << 17,
    1 << 0 | 1 << 3 | 0xFE0 | 1 << 13,
    1 << 0 | 1 << 1 | 1 << 2 | 1 << 3 | 1 << 4,
    1 << 0 | 1 << 1 | 1 << 2 | 1 << 3 | 1 << 4,
    1 << 0 | 1 << 3 | 1 << 4 | 0xFE0 | 1 << 13,
    1 << 0 | 1 << 1 | 1 << 2 | 1 << 3 | 1 << 4,
    1 << 0 | 1 << 1 | 1 << 2 | 1 << 3 | 1 << 4,
    1 << 0 | 1 << 1 | 1 << 2 | 1 << 3,
    1 << 0 | 1 << 1 | 1 << 2 | 1 << 3,
    1 << 0 | 1 << 1 | 1 << 2 | 1 << 3,
    1 << 0 | 1 << 1 | 1 << 2 | 1 << 3,
    1 << 0 | 1 << 4 | 1 << 16,
    1 << 0 | 1 << 3 | 1 << 4,
};

/* the refusals that change nothing, whichever entry gives them: they come before the rooms or are the rooms' own */
static const unsigned changes_nothing = 1 << 1 | 1 << 2 | 1 << 3 | 1 << 4 | 1 << 7 | 1 << 8 | 1 << 16 | 1 << 17;

static bool makes_failure_oracle(enum entry entry)
{
    return entry == FAILURE_SEARCH || entry == FAILURE_BUILD;
}

static bool makes_rows(enum entry entry)
{
    return entry == COMPACT_SEARCH || entry == COMPACT_BUILD;
}

/* How many table entries an entry needs for a word of m letters. A word that is too long for a storacle is lent as many as the shortest of
   those would need. */
static size_t entries_for(enum entry entry, size_t m)
{
    if (entry == STORACLE_BUILD)
        return m <= MOST_STORACLE ? (m + 1) * (m + 6) : (MOST_STORACLE + 2) * (MOST_STORACLE + 7);
    return (makes_failure_oracle(entry) || makes_rows(entry) ? 10 : 6) * (m + 1);
}

/* how many words of 64 bits compact rows need beside them */
static size_t sets_for(size_t m)
{
    return 4 * (m + 1);
}

/* an answer and an offset that no entry gives: what is handed over under the last pointers */
#define UNTOUCHED UINT64_C(0xA5C3A5C35A3C5A3C)

/* what an entry is lent: a pointer and a number of elements for each slice */
struct lent {
    void *at[SLICES];
    size_t len[SLICES];
};

struct outcome {
    uint32_t number;
    uint64_t answer[3];
    uint64_t offset;
};

static size_t shorter(size_t a, size_t b)
{
    return a < b ? a : b;
}

/* How many of the elements that it is lent salvage may write when it succeeds: the tables of .FIT, and of both lists as many as there are
   rides, as far as they fit the shorter one. */
static size_t salvage_may_write(int slice, const size_t *len, uint64_t count)
{
    size_t fit = shorter(len[FINDS], len[RIDE_KINDS]);
    if (slice == TABLES)
        return shorter(len[TABLES], entries_for(SALVAGE, RIDE_MARK_BYTES));
    return count < fit ? (size_t)count : fit;
}

/* How many of the elements that it is lent an entry of compact rows may write when it succeeds: those of the form, and of the list as many
   as there are finds. */
static size_t rows_may_write(enum entry entry, int slice, const size_t *len, uint64_t count)
{
    if (slice == SETS)
        return shorter(len[SETS], sets_for(len[INPUT]));
    if (slice == TABLES)
        return shorter(len[TABLES], entries_for(entry, len[INPUT]));
    return count < len[slice] ? (size_t)count : len[slice];
}

/* How many of the elements that a slice is lent an entry may write when it answers so: none of an input, those of the searcher itself and
   no byte behind it, and none beside a refusal that changes nothing. */
static size_t may_write(enum entry entry, int slice, const size_t *len, const struct outcome *o)
{
    if ((read_slices & 1u << slice) || (changes_nothing & 1u << o->number))
        return 0;
    if (entry == SALVAGE)
        return salvage_may_write(slice, len, o->answer[0]);
    if (makes_rows(entry))
        return rows_may_write(entry, slice, len, o->answer[0]);
    if (entry == STORACLE_BUILD)
        return shorter(len[TABLES], entries_for(entry, len[INPUT]));
    return slice == SEARCHER ? shorter(len[SEARCHER], SEARCHER_BYTES) : len[slice];
}

static bool same_outcome(const struct outcome *a, const struct outcome *b)
{
    return a->number == b->number && memcmp(a->answer, b->answer, sizeof a->answer) == 0 && a->offset == b->offset;
}

/* the number, the answers and the offset, a dash for each that was not written */
static void print_outcome(const char *side, const struct outcome *o)
{
    const uint64_t beside[] = {o->answer[0], o->answer[1], o->answer[2], o->offset};
    printf("%s: %" PRIu32 ", answers and offset", side, o->number);
    for (int i = 0; i < 4; i++)
        if (beside[i] == UNTOUCHED)
            printf(" -");
        else
            printf(" %" PRIu64, beside[i]);
}

/* whether the refusal shows at a place in the file */
static bool has_offset(uint32_t number)
{
    return (number >= 5 && number <= 11) || number == 13;
}

/* 5 shows at the file's end and the others at a byte of it, 13 not at the last; but for 10, where arrows may be missing at its end. */
static bool offset_can_be(uint32_t number, uint64_t offset, size_t file_len)
{
    if (number == 5 || (number == 10 && offset == file_len))
        return offset == file_len;
    return offset + (number == 13 ? CHECK_BYTES : 1) <= file_len;
}

static bool reads_file(enum entry entry)
{
    return entry == LOAD || entry == SEARCH_FILE;
}

static bool writes_file(enum entry entry)
{
    return entry == SAVE || entry == SAVE_CHECKED;
}

/* whether what an entry took or wrote, where it answers with success, has fewer bytes than any file; or more, or than were lent for it */
static bool cannot_be_file(enum entry entry, const struct outcome *o, const size_t *len)
{
    size_t more = entry == SAVE_CHECKED ? CHECK_BYTES : 0;
    if (writes_file(entry))
        return o->answer[0] < LEAST_FILE + more || o->answer[0] > ALWAYS_ENOUGH + more || o->answer[0] > len[OUT];
    return reads_file(entry) && (len[INPUT] < LEAST_FILE || len[INPUT] > ALWAYS_ENOUGH + CHECK_BYTES);
}

/* Whether the failure search can count so: at most m letters for each place where a window can be, nothing where there is none, and for each
   letter at most as many failure arrows as there are states to climb to. */
static bool failure_counts_can_be(uint64_t letters, uint64_t failures, size_t m, size_t n)
{
    uint64_t places = m <= n ? n - m + 1 : 0;
    return letters <= places * m && failures <= letters * m;
}

/* what building a storacle says: the lengths alone decide it */
static uint32_t storacle_number(const size_t *len)
{
    if (len[INPUT] == 0 || len[INPUT] > MOST_STORACLE)
        return len[INPUT] == 0 ? 1 : 2;
    return len[TABLES] < entries_for(STORACLE_BUILD, len[INPUT]) ? 3 : 0;
}

/* what an outcome cannot be, whatever the other side says; NULL where it can be. Slices of so many elements were lent. */
static const char *wrong_in_itself(enum entry entry, const struct outcome *o, const size_t *len)
{
    if (o->number >= NUMBERS || !(can_give[entry] & 1u << o->number))
        return "both sides give a number that the entry cannot give";
    if (o->number != 0 && (o->answer[0] != UNTOUCHED || o->answer[1] != UNTOUCHED || o->answer[2] != UNTOUCHED))
        return "both sides answer beside a refusal";
    if (has_offset(o->number) != (o->offset != UNTOUCHED))
        return "both sides write an offset where there is none, or none where there is one";
    if (has_offset(o->number) && !offset_can_be(o->number, o->offset, len[INPUT]))
        return "both sides give an offset that the refusal cannot have";
    if ((o->number == 17) != (writes_file(entry) && len[INPUT] == 1))
        return "both sides give 17 where no single letter is saved, or something else where one is";
    if (o->number == 0 && cannot_be_file(entry, o, len))
        return "both sides take or write a file that is shorter than any, or longer, or than there is room for";
    if (entry == TURBO && o->number == 0 && o->answer[1] > 2 * (uint64_t)len[TEXT])
        return "both sides read more than two letters for each of the text";
    if (entry == FAILURE_SEARCH && o->number == 0 && !failure_counts_can_be(o->answer[1], o->answer[2], len[INPUT], len[TEXT]))
        return "both sides count letters or failure arrows that no failure search reads or takes";
    if (entry == COMPACT_SEARCH && o->number == 0 && !failure_counts_can_be(o->answer[1], 0, len[INPUT], len[TEXT]))
        return "both sides count letters that no search reads";
    if (entry == COMPACT_BUILD && o->number == 0 && o->answer[0] != len[INPUT])
        return "both sides build compact rows of other letters than there are";
    if (entry == STORACLE_BUILD && (o->number != storacle_number(len) || (o->number == 0 && o->answer[0] != len[INPUT])))
        return "both sides build a storacle where they must not, or do not where they must, or give another number";
    return NULL;
}

/* Whether the ride whose header begins at a place, wholly inside the text, has data and check there too. They are taken away from what is
   left of the text, byte by byte of the declared size from the highest on, so that no sum can be too great. */
static bool ride_is_whole(const uint8_t *text, size_t n, size_t start)
{
    size_t left = n - start - text[start];
    for (int i = 3; i >= 0; i--) {
        size_t part = (size_t)text[start + AT_DATA_SIZE + i] << 8 * i;
        if (part > left)
            return false;
        left -= part;
    }
    return left >= RIDE_CHECK_BYTES;
}

/* whether a header begins at a place and is wholly inside the text */
static bool is_ride(const uint8_t *text, size_t n, size_t at)
{
    size_t size = text[at];
    if ((size != SHORT_HEADER && size != LONG_HEADER) || n - at < size)
        return false;
    return memcmp(text + at + AT_RIDE_MARK, RIDE_MARK, RIDE_MARK_BYTES) == 0;
}

/* whether there are so many rides in the text, and the first of them are listed with their kinds; found from their first bytes on */
static bool lists_rides(const struct lent *l, uint64_t count)
{
    const uint8_t *text = l->at[TEXT], *kinds = l->at[RIDE_KINDS];
    const uint32_t *starts = l->at[FINDS];
    size_t n = l->len[TEXT], fit = shorter(l->len[FINDS], l->len[RIDE_KINDS]);
    uint64_t found = 0;
    for (size_t at = 0; at < n; at++)
        if (is_ride(text, n, at)) {
            if (found < fit && (starts[found] != at || kinds[found] != (ride_is_whole(text, n, at) ? WHOLE_RIDE : CUT_RIDE)))
                return false;
            found++;
        }
    return found == count;
}

/* whether the word stands in the text in so many places, and the first of them are listed; found by comparing letters */
static bool lists_places(const struct lent *l, uint64_t count)
{
    const uint8_t *text = l->at[TEXT];
    const uint32_t *list = l->at[FINDS];
    uint64_t found = 0;
    for (size_t at = 0; at + l->len[INPUT] <= l->len[TEXT]; at++)
        if (memcmp(text + at, l->at[INPUT], l->len[INPUT]) == 0) {
            if (found < l->len[FINDS] && list[found] != at)
                return false;
            found++;
        }
    return found == count;
}

/* the first 12 bytes of a header: any byte for its size, what it declares, .FIT; those between stay as they are */
static void put_header(uint8_t *at, size_t size, uint32_t data)
{
    at[0] = (uint8_t)size;
    for (int i = 0; i < 4; i++)
        at[AT_DATA_SIZE + i] = (uint8_t)(data >> 8 * i);
    memcpy(at + AT_RIDE_MARK, RIDE_MARK, RIDE_MARK_BYTES);
}

/* so many rides whose headers overlap, each beginning 6 bytes behind the one before; how many bytes they have */
static size_t put_overlapping(uint8_t *out, size_t rides)
{
    for (size_t i = 0; i <= rides; i++)
        memcpy(out + 6 * i, i % 2 ? "\x0E\0.FIT" : "\x0C\0.FIT", 6);
    memset(out + 6 * rides + 6, 0, 2);
    return 6 * rides + 8;
}

/* ---- the table of a failure oracle, read as it is laid out: ten rows of m+1 entries ---- */

enum { LETTER_ROW, FAILURE_ROW, FIRST_ROW, BEHIND_ROW, TARGET_ROW, EMPTY_ROW, FAILURE_ROWS = 10 };

static unsigned in_row(const uint16_t *table, size_t m, int row, size_t i)
{
    return table[(size_t)row * (m + 1) + i];
}

/* where the symbol arrow of a state on a letter leads; 0 for none */
static unsigned table_symbol(const uint16_t *table, size_t m, unsigned state, unsigned letter)
{
    if (state < m && table[state + 1] == letter)
        return state + 1;
    for (unsigned slot = in_row(table, m, FIRST_ROW, state); slot != 0; slot = in_row(table, m, BEHIND_ROW, slot))
        if (table[in_row(table, m, TARGET_ROW, slot)] == letter)
            return in_row(table, m, TARGET_ROW, slot);
    return 0;
}

/* the same by both kinds of arrow */
static unsigned table_reach(const uint16_t *table, size_t m, unsigned state, unsigned letter)
{
    unsigned next;
    while ((next = table_symbol(table, m, state, letter)) == 0 && in_row(table, m, FAILURE_ROW, state) != 0)
        state = in_row(table, m, FAILURE_ROW, state);
    return next;
}

/* The slots of a state: each older than the one before it, none used twice, no arrow that climbs, and none on a letter that the state has
   already. Says how many there are, more than m where that is not so. */
static size_t slots_of(const uint16_t *table, size_t m, unsigned state)
{
    if (in_row(table, m, FIRST_ROW, state) == 0)
        return 0;
    bool has[256] = {false};
    size_t many = 0;
    if (state < m)
        has[table[state + 1]] = true;
    for (unsigned slot = in_row(table, m, FIRST_ROW, state), before = (unsigned)m; slot != 0; many++) {
        unsigned target = in_row(table, m, TARGET_ROW, slot);
        if (slot >= before || target == 0 || target > state || has[table[target]])
            return m + 1;
        has[table[target]] = true;
        before = slot;
        slot = in_row(table, m, BEHIND_ROW, slot);
    }
    return many;
}

/* whether every suffix from a place on, where the next one begins so many letters on, is walked to its end */
static bool walks_suffixes(const uint16_t *table, size_t m, size_t from, size_t step)
{
    for (; from < m; from += step) {
        unsigned state = 0;
        for (size_t i = from; i < m; i++)
            if ((state = table_reach(table, m, state, table[i + 1])) == 0)
                return false;
    }
    return true;
}

/* What the table of a failure oracle cannot be, whatever the other side says; NULL where it can be: it has the letters, read from the first
   to the last or the other way round; failure arrows climb; there are m to 2m-1 arrows; slots are those from 1 on, each of one state;
   every suffix is walked, or some of them; all else is zero. */
static const char *wrong_failure_table(const uint16_t *table, const uint8_t *word, size_t m, bool mirrored)
{
    size_t failures = 0, slots = 0, n = m + 1;
    for (size_t i = 0; i < m; i++)
        if (table[i + 1] != word[mirrored ? m - 1 - i : i])
            return "both sides leave a table with other letters";
    for (unsigned x = 0; x <= m; x++) {
        unsigned to = in_row(table, m, FAILURE_ROW, x);
        if (to != 0 && (to <= x || to >= m))
            return "both sides leave a failure arrow that does not climb";
        failures += to != 0;
        slots += slots_of(table, m, x);
    }
    if (failures + slots > m - 1)
        return "both sides leave more arrows than there can be, or slots that cannot be";
    for (size_t i = 0; i < n; i++)
        if ((i >= 1 && i <= slots) != (in_row(table, m, TARGET_ROW, i) != 0) || (i > slots && in_row(table, m, BEHIND_ROW, i) != 0))
            return "both sides leave a slot that is no state's";
    for (size_t i = EMPTY_ROW * n; i < FAILURE_ROWS * n; i++)
        if (table[i] != 0)
            return "both sides leave something in a row that is to be zero";
    if (table[0] != 0 || in_row(table, m, BEHIND_ROW, 0) != 0 || !walks_suffixes(table, m, m > 64 ? m % 61 : 0, 1 + m / 64))
        return "both sides leave a table that does not walk every suffix, or with an entry that is to be zero";
    return NULL;
}

/* ---- the table of a storacle, read as it is laid out: m+6 rows of m+1 entries ---- */

enum { COLUMN_ROW = 1, FIRST_ARROW_ROW = 2, LAST_ZERO_ROWS = 3, MOST_ARROWS_BUILT = MOST_STORACLE * (MOST_STORACLE + 1) / 2 };

struct arrows {
    uint8_t source[MOST_ARROWS_BUILT], target[MOST_ARROWS_BUILT];
    size_t many;
};

/* the first state later than x that has a letter, found in the word; 0 for none */
static size_t later_in_word(const uint8_t *word, size_t m, size_t x, uint8_t letter)
{
    const uint8_t *found = x < m ? memchr(word + x, letter, m - x) : NULL;
    return found != NULL ? (size_t)(found - word) + 1 : 0;
}

/* Lists the arrows, and says what is wrong with them or with what stands beside them; NULL for nothing. */
static const char *list_arrows(const uint16_t *table, const uint8_t *word, size_t m, struct arrows *a)
{
    a->many = 0;
    for (size_t x = 0; x <= m + LAST_ZERO_ROWS; x++)
        for (size_t i = 0; i <= m; i++) {
            unsigned to = in_row(table, m, (int)(FIRST_ARROW_ROW + x), i);
            if (to == 0)
                continue;
            if (x > m || i == 0 || in_row(table, m, COLUMN_ROW, i) != i)
                return "both sides leave something in a storacle's table that is to be zero";
            if (to != later_in_word(word, m, x, word[i - 1]))
                return "both sides leave an arrow of a storacle that does not lead to the first later state with its letter";
            if (a->many == m * (m + 1) / 2)
                return "both sides leave more arrows than a storacle can have";
            a->source[a->many] = (uint8_t)x;
            a->target[a->many++] = (uint8_t)to;
        }
    return NULL;
}

/* whether every suffix is walked to its end, and each of so many arrows by one of them */
static bool suffixes_walk_all(const uint16_t *table, size_t m, size_t arrows)
{
    static bool walked[MOST_STORACLE + 1][MOST_STORACLE + 1];
    memset(walked, 0, (m + 1) * sizeof *walked);
    for (size_t from = 1; from <= m; from++)
        for (size_t i = from, x = 0; i <= m; i++) {
            unsigned next = in_row(table, m, (int)(FIRST_ARROW_ROW + x), in_row(table, m, COLUMN_ROW, i));
            if (next == 0)
                return false;
            arrows -= !walked[x][next];
            walked[x][next] = true;
            x = next;
        }
    return arrows == 0;
}

/* how many walks of m letters there are from state 0; 2 where there are more */
static size_t walks_of_m(const struct arrows *a, size_t m)
{
    uint8_t ways[MOST_STORACLE + 1] = {1}, longer[MOST_STORACLE + 1];
    size_t all = 0;
    for (size_t letters = 0; letters < m; letters++) {
        memset(longer, 0, sizeof longer);
        for (size_t i = 0; i < a->many; i++)
            longer[a->target[i]] = (uint8_t)shorter(longer[a->target[i]] + ways[a->source[i]], 2);
        memcpy(ways, longer, sizeof ways);
    }
    for (size_t x = 0; x <= m; x++)
        all += ways[x];
    return shorter(all, 2);
}

/* What the table of a storacle cannot be, whatever the other side says; NULL where it can be: it has the letters and the columns; every
   arrow leads to the first later state with its letter, those of the spine are there, and at most m(m+1)/2 in all; every suffix is walked,
   and every arrow by one; only the word is walked with m letters; all else is zero. *arrows is how many there are. */
static const char *wrong_storacle_table(const uint16_t *table, const uint8_t *word, size_t m, size_t *arrows)
{
    static struct arrows a;
    if (table[0] != 0 || in_row(table, m, COLUMN_ROW, 0) != 0)
        return "both sides leave something in a storacle's table that is to be zero";
    for (size_t i = 1; i <= m; i++)
        if (table[i] != word[i - 1] || in_row(table, m, COLUMN_ROW, i) != later_in_word(word, m, 0, word[i - 1]))
            return "both sides leave a storacle's table with other letters or columns";
    const char *wrong = list_arrows(table, word, m, &a);
    if (wrong != NULL)
        return wrong;
    for (size_t x = 0; x < m; x++)
        if (in_row(table, m, (int)(FIRST_ARROW_ROW + x), in_row(table, m, COLUMN_ROW, x + 1)) != x + 1)
            return "both sides leave a storacle without an arrow of the spine";
    if (!suffixes_walk_all(table, m, a.many))
        return "both sides leave a storacle that does not walk every suffix, or has an arrow that none walks";
    if (walks_of_m(&a, m) != 1)
        return "both sides leave a storacle that walks another word as long as its own";
    *arrows = a.many;
    return NULL;
}

/* ---- compact rows, read as they are laid out, and the first form, read by the rule of docs/TABLE.md ---- */

/* one more arrow of a state, which leads to another state, in the place of one on the same letter */
static void read_arrow(const uint16_t *table, size_t state, uint64_t set[4], unsigned to[256])
{
    unsigned letter = table[state] % 256;
    set[letter / 64] |= UINT64_C(1) << letter % 64;
    to[letter] = (unsigned)state;
}

/* The letters on which an arrow leaves a state by the first form, as a set of 256 bits, and where each of these leads. Of two extra arrows
   on a letter the first is taken, and the spine before both. */
static void read_first_form(const uint16_t *table, size_t m, size_t x, uint64_t set[4], unsigned to[256])
{
    const uint16_t *start = table + 2 * (m + 1), *target = table + 3 * (m + 1);
    memset(set, 0, 4 * sizeof *set);
    if (x >= m)
        return;
    for (size_t s = start[x + 1]; s-- > start[x];)
        read_arrow(table, target[s], set, to);
    read_arrow(table, x + 1, set, to);
}

/* What compact rows cannot be, whatever the other side says, where the first form of the same oracle is this; NULL where they can be. All
   256 letters of a state are compared at once; the target of each that has an arrow is found by counting the ones below it. */
static const char *wrong_rows(const uint64_t *sets, const uint16_t *targets, const uint16_t *first, size_t m)
{
    size_t n = m + 1, ones = 0;
    uint64_t set[4];
    unsigned to[256];
    if (memcmp(targets, first, 2 * n * sizeof *first) != 0)
        return "both sides leave compact rows with other letters or supplies than the first form has";
    for (size_t x = 0; x <= m; x++) {
        const uint16_t *counts = targets + 4 * n + 4 * x;
        size_t below = 0;
        read_first_form(first, m, x, set, to);
        if (memcmp(sets + 4 * x, set, sizeof set) != 0)
            return "both sides leave compact rows with other letters at a state than the first form has";
        for (unsigned k = 0; k < 4; k++) {
            if (counts[k] != ones)
                return "both sides leave compact rows with a word before which there are not so many ones";
            for (unsigned d = 0; d < 64 && set[k] >> d != 0; d++)
                if (set[k] >> d & 1) {
                    if (targets[8 * n + counts[0] + below] != to[64 * k + d])
                        return "both sides leave compact rows with another target than the first form has";
                    below++;
                    ones++;
                }
        }
    }
    for (size_t i = 2 * n; i < 10 * n; i++)
        if ((i < 4 * n || i >= 8 * n + ones) && targets[i] != 0)
            return "both sides leave compact rows with an entry that is to be zero";
    return NULL;
}

#define ASK(SIDE)                                                                                                                          \
    static struct outcome ask_##SIDE(enum entry entry, const struct lent *l) {                                                             \
        struct outcome o = {99, {UNTOUCHED, UNTOUCHED, UNTOUCHED}, UNTOUCHED};                                                             \
        const uint8_t *input = l->at[INPUT], *text = l->at[TEXT];                                                                          \
        size_t input_len = l->len[INPUT], text_len = l->len[TEXT], room_len = l->len[ROOM], tables_len = l->len[TABLES];                   \
        uint16_t *tables = l->at[TABLES];                                                                                                  \
        uint64_t *a = &o.answer[0], *b = &o.answer[1], *c = &o.answer[2];                                                                  \
        switch (entry) {                                                                                                                   \
        case BUILD: o.number = SIDE##_build(input, input_len, tables, tables_len, a); break;                                               \
        case SAVE: o.number = SIDE##_save(input, input_len, tables, tables_len, l->at[OUT], l->len[OUT], a); break;                        \
        case SAVE_CHECKED: o.number = SIDE##_save_checked(input, input_len, tables, tables_len, l->at[OUT], l->len[OUT], a); break;        \
        case LOAD: o.number = SIDE##_load(input, input_len, l->at[ROOM], room_len, tables, tables_len, a, &o.offset); break;               \
        case SEARCH:                                                                                                                       \
            o.number = SIDE##_search(input, input_len, text, text_len, tables, tables_len, l->at[FINDS], l->len[FINDS], a, b);             \
            break;                                                                                                                         \
        case TURBO:                                                                                                                        \
            o.number = SIDE##_turbo(input, input_len, text, text_len, tables, tables_len, l->at[FINDS], l->len[FINDS], a, b);              \
            break;                                                                                                                         \
        case SEARCH_FILE:                                                                                                                  \
            o.number = SIDE##_search_file(input, input_len, text, text_len, l->at[ROOM], room_len, tables, tables_len, l->at[FINDS],       \
                                          l->len[FINDS], a, b, &o.offset);                                                                 \
            break;                                                                                                                         \
        case FAILURE_SEARCH:                                                                                                               \
            o.number =                                                                                                                     \
                SIDE##_failure_search(input, input_len, text, text_len, tables, tables_len, l->at[FINDS], l->len[FINDS], a, b, c);         \
            break;                                                                                                                         \
        case COMPACT_SEARCH:                                                                                                               \
            o.number = SIDE##_compact_search(input, input_len, text, text_len, l->at[SETS], l->len[SETS], tables, tables_len,              \
                                             l->at[FINDS], l->len[FINDS], a, b);                                                           \
            break;                                                                                                                         \
        case FAILURE_BUILD: o.number = SIDE##_failure_build(input, input_len, tables, tables_len, a); break;                               \
        case COMPACT_BUILD:                                                                                                                \
            o.number = SIDE##_compact_build(input, input_len, l->at[SETS], l->len[SETS], tables, tables_len, a);                           \
            break;                                                                                                                         \
        case STORACLE_BUILD: o.number = SIDE##_storacle_build(input, input_len, tables, tables_len, a); break;                             \
        case OPEN: o.number = SIDE##_open(input, input_len, l->at[SEARCHER], l->len[SEARCHER]); break;                                     \
        case TAKE: o.number = SIDE##_take(l->at[SEARCHER], l->len[SEARCHER], text, text_len, l->at[FINDS], l->len[FINDS], a); break;       \
        case SALVAGE:                                                                                                                      \
            o.number = SIDE##_salvage(text, text_len, tables, tables_len, l->at[FINDS], l->len[FINDS], l->at[RIDE_KINDS],                  \
                                      l->len[RIDE_KINDS], a);                                                                              \
            break;                                                                                                                         \
        case ENTRIES: break;                                                                                                               \
        }                                                                                                                                  \
        return o;                                                                                                                          \
    }

ASK(marks)
ASK(second)

/* ---- the check of edition 2, another way than the second implementation's: by dividing ---- */

/* What is left of the bytes' bits, each byte's lowest first, as coefficients of a polynomial, the highest first, divided by the
   check's own one, x^16 + x^15 + x^2 + 1. Nothing is left exactly where the last two bytes are the check of those before. */
static unsigned left_by_division(const uint8_t *bytes, size_t len)
{
    unsigned left = 0;
    for (size_t bit = 0; bit < 8 * len; bit++) {
        left = 2 * left + (bytes[bit / 8] >> bit % 8) % 2;
        if (left >= 1u << 16)
            left ^= 1u << 16 | 1u << 15 | 1u << 2 | 1u;
    }
    return left;
}

static bool ends_with_check(const uint8_t *file, size_t len)
{
    return len > CHECK_BYTES && left_by_division(file, len) == 0;
}

/* Whether the check of a file is as the answer to it says, where it says something of it: right in edition 2 for success and where there
   are leftovers, wrong for 13, which edition 1 never has. */
static bool check_is_so(const uint8_t *file, size_t len, uint32_t number, size_t offset)
{
    if (number == 13)
        return file[0] == 2 && !ends_with_check(file, offset + CHECK_BYTES);
    if (number != 0 && number != 11)
        return true;
    return file[0] != 2 || ends_with_check(file, number == 0 ? len : offset);
}

/* puts the check behind so many bytes; how many there are then */
static size_t seal(uint8_t *file, size_t len)
{
    memset(file + len, 0, CHECK_BYTES);
    unsigned left = left_by_division(file, len + CHECK_BYTES);
    for (int bit = 0; bit < 8 * CHECK_BYTES; bit++)
        file[len + bit / 8] |= (uint8_t)((left >> (15 - bit)) % 2 << bit % 8);
    return len + CHECK_BYTES;
}

/* The file of a word, by the second implementation; its length. One letter has none: it is spelled as if it had, to be refused. */
static size_t file_of(const uint8_t *word, size_t m, uint8_t *file)
{
    static uint16_t tables[6 * (MOST_LETTERS + 1)];
    uint64_t length;
    if (m == 1) {
        const uint8_t spelled[] = {1, 1, word[0], 0};
        memcpy(file, spelled, sizeof spelled);
        return sizeof spelled;
    }
    if (second_save(word, m, tables, sizeof tables / sizeof *tables, file, MOST_FILE, &length) != 0) {
        fprintf(stderr, "no file of a word of %zu letters\n", m);
        exit(2);
    }
    return length;
}

/* the same in edition 2: another edition in front, the check behind */
static size_t checked_file_of(const uint8_t *word, size_t m, uint8_t *file)
{
    size_t len = file_of(word, m, file);
    file[0] = 2;
    return seal(file, len);
}

static size_t file_in(unsigned edition, const uint8_t *word, size_t m, uint8_t *file)
{
    return edition == 2 ? checked_file_of(word, m, file) : file_of(word, m, file);
}

#endif
