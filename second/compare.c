/* Asks the proved library and the second implementation the same things and compares whole outcomes: the number, the answers, the
   offset, every byte of every lent buffer, and the guard zones before and behind each. The first difference is printed with its input and
   ends the run with status 1, and so does a refusal that an entry can give and that no case brought about, for files of each edition by
   itself, and so does a run where no failure oracle had a symbol arrow beside the spine, none two at one state, where every window that was
   read whole was a find, no storacle had more than 3m arrows, or where a way in which a file of edition 2 can end was not met, something
   that .FIT in a text can be of, or something that compact rows can show.

   compare [--seed N] [--seconds N] [--long]: the cases are the same for the same seed. --seconds goes on with mixed cases until so
   many seconds have passed; --long adds the costly ones.

   Mistakes on purpose that stand here (see second.c):
     slip 31: only the worked examples are run
     slip 32: a byte behind the library's tables is changed after the call
     slip 67: a byte behind the searcher, inside what is lent, is changed on both sides after the call
     slip 68: past the worked examples, a piece has one find fewer on both sides
     slip 69: past the worked examples, both sides say that they took what nobody can have made
     slip 84: past the worked examples, both sides write an offset beside 3
     slip 85: past the worked examples, both sides show a wrong arrow one byte late
     slip 116: past the worked examples, turbo has one find fewer on both sides
     slip 117: past the worked examples, turbo lists its first find one place late on both sides
     slip 118: past the worked examples, turbo clears the first entry of the tables on both sides
     slip 119: past the worked examples, turbo reads 2n+1 letters on both sides
     slip 120: where turbo is not held against the library's search, it has one find fewer on both sides
     slip 140: past the worked examples, both sides refuse to save one letter with 3
     slip 141: past the worked examples, both sides refuse to save two letters with 17
     slip 142: past the worked examples, 17 changes the tables on both sides
     slip 143: past the worked examples, both sides load a file of one letter
     slip 144: past the worked examples, both sides refuse a file of one letter with 3
     slip 182: past the worked examples, the failure search has one find fewer on both sides
     slip 183: past the worked examples, the failure search lists its first find one place late on both sides
     slip 184: where the failure search is not held against the library's search, it has one find fewer on both sides
     slip 185: past the worked examples, both sides leave out a failure arrow
     slip 186: past the worked examples, both sides leave something in the last row of a failure oracle's table
     slip 187: past the worked examples, both sides lose the first symbol arrow beside the spine
     slip 188: past the worked examples, both sides leave a failure oracle's table with another letter
     slip 189: past the worked examples, the failure search reads a letter more than m at each place on both sides
     slip 190: words whose failure oracle has a symbol arrow beside the spine are none of the cases
     slip 231: past the worked examples, both sides take a file with a wrong check
     slip 232: past the worked examples, both sides refuse a wrong check with bytes behind it with 11
     slip 233: past the worked examples, both sides show a wrong check one byte late
     slip 234: past the worked examples, both sides refuse a right check with 13
     slip 235: past the worked examples, both sides take a file of edition 2 without its check
     slip 236: past the worked examples, 13 leaves a letter in the word room on both sides
     slip 237: past the worked examples, both sides save a wrong check
     slip 238: past the worked examples, both sides show leftovers behind a check one byte late
     slip 239: files of edition 2 that end inside the check are none of the cases
     slip 348: past the worked examples, both sides count one ride fewer
     slip 349: past the worked examples, both sides list the first ride one place late
     slip 350: past the worked examples, both sides list the first ride with the other kind
     slip 351: past the worked examples, salvage leaves a table with another letter on both sides
     slip 352: past the worked examples, salvage changes the entry behind its tables on both sides
     slip 353: past the worked examples, salvage changes the start behind those that are listed on both sides
     slip 354: past the worked examples, salvage changes the kind behind those that are listed on both sides
     slip 355: past the worked examples, both sides refuse a text that is too long with 3, where the tables are too short
     slip 356: past the worked examples, both sides salvage with too short tables
     slip 357: headers that end behind the text are none of the cases
     slip 385: past the worked examples, the search with compact rows has one find fewer on both sides where it has no list
     slip 386: past the worked examples, the search with compact rows lists its first find one place late on both sides
     slip 387: past the worked examples, the search with compact rows counts one letter fewer on both sides
     slip 388: past the worked examples, both sides exchange the first two targets of compact rows
     slip 389: past the worked examples, both sides give the last state of compact rows an arrow
     slip 390: past the worked examples, both sides leave something in row 2 of compact rows
     slip 391: past the worked examples, both sides change the word behind the sets of compact rows
     slip 392: past the worked examples, both sides build compact rows with too short sets
     slip 393: past the worked examples, both sides refuse a text that is too long with 3, where the rooms of compact rows are too short
     slip 394: states with more than 64 arrows are none of the cases
     slip 423: past the worked examples, both sides leave a storacle's table with another letter
     slip 424: past the worked examples, both sides leave a storacle's table with another column
     slip 425: past the worked examples, both sides lose the last arrow of a storacle's spine
     slip 426: past the worked examples, both sides lose a storacle's arrows beside the spine
     slip 427: past the worked examples, both sides lead a storacle's arrows beside the spine one state too far
     slip 428: past the worked examples, both sides add a storacle's arrows to the first later states that no suffix walks
     slip 429: past the worked examples, both sides leave something at a state of a storacle that is no column
     slip 430: past the worked examples, both sides leave something in the last row of a storacle's table
     slip 431: past the worked examples, both sides change the entry behind a storacle's table
     slip 432: past the worked examples, both sides build a storacle in a room of one entry too few
     slip 433: past the worked examples, both sides refuse a word that is too long for a storacle with 3, where the room is too short
     slip 434: storacles with more than 3m arrows are none of the cases */
#define _DEFAULT_SOURCE
#include "entries.h"

#include <stdlib.h>
#include <string.h>
#include <sys/mman.h>
#include <time.h>

#ifndef SLIP
#define SLIP 0
#endif

enum { GUARD = 256, NOISE = 1 << 16, PAST_16_BITS = 65536 };

/* lengths of long words: around two powers of two, and up to the limit */
#define LONG_EDGES 1023, 1024, 1025, 2047, 2048, 2049, MOST_LETTERS - 1, MOST_LETTERS

/* ---- numbers by chance, the same for the same seed ---- */

static uint64_t chance_state = 1;

static uint64_t chance(void)
{
    uint64_t z = chance_state += UINT64_C(0x9E3779B97F4A7C15);
    z = (z ^ (z >> 30)) * UINT64_C(0xBF58476D1CE4E5B9);
    z = (z ^ (z >> 27)) * UINT64_C(0x94D049BB133111EB);
    return z ^ (z >> 31);
}

static size_t below(size_t n)
{
    return n == 0 ? 0 : (size_t)(chance() % n);
}

/* short ones often, long ones sometimes: each number of binary digits is as likely as another */
static size_t some_length(size_t most)
{
    size_t digits = 0;
    while ((most >> digits) > 0)
        digits++;
    size_t l = below((size_t)1 << below(digits + 1));
    return l > most ? most : l;
}

/* ---- where a file is broken, found without the second implementation's reading: by the file of the word that it shows ---- */

/* where the number at a place ends, or the file */
static size_t behind_number(const uint8_t *file, size_t len, size_t at)
{
    while (at < len && file[at] >= 128)
        at++;
    return at < len ? at + 1 : len;
}

/* the number at a place, where it has one group or two */
static size_t small_number(const uint8_t *file, size_t at)
{
    return file[at] < 128 ? file[at] : file[at] % 128 + (size_t)128 * file[at + 1];
}

/* the edition of a file; 0 for one that there is not */
static unsigned edition_of(const uint8_t *file, size_t len)
{
    return len > 0 && (file[0] == 1 || file[0] == 2) ? file[0] : 0;
}

/* whether a file declares fewer letters than any file has */
static bool declares_too_few(const uint8_t *file, size_t len)
{
    return len > 1 && edition_of(file, len) != 0 && file[1] < LEAST_SAVED;
}

/* whether a file declares more letters than a word has: in three groups or more it always does */
static bool declares_too_many(const uint8_t *file, size_t len)
{
    size_t groups = behind_number(file, len, 1) - 1;
    return len > 1 && edition_of(file, len) != 0 && (groups > 2 || small_number(file, 1) > MOST_LETTERS);
}

/* whether no number has the byte at its place: zero behind a group, or above 15 behind four */
static bool is_no_group(const uint8_t *file, size_t at)
{
    size_t before = 0;
    while (before < at && file[at - 1 - before] >= 128)
        before++;
    return (before > 0 && file[at] == 0) || (before >= 4 && file[at] > 15);
}

/* Where the first arrow that the word does not have there begins, or where the declared ones end. Numbers have one spelling, so it is
   enough to compare bytes, from where the first arrow begins in either file. */
static size_t other_arrow(const uint8_t *file, size_t len, size_t at, size_t declared, const uint8_t *own, size_t own_len, size_t own_at)
{
    for (; declared > 0; declared--) {
        size_t to = behind_number(file, len, behind_number(file, len, at));
        size_t own_to = behind_number(own, own_len, behind_number(own, own_len, own_at));
        if (to - at != own_to - own_at || memcmp(file + at, own + own_at, to - at) != 0)
            return at;
        at = to;
        own_at = own_to;
    }
    return at;
}

/* where a file that is refused with 9, 10, 11 or 13, so one that has its letters and a count, must show it */
static size_t broken_at(const uint8_t *file, size_t len, uint32_t number)
{
    static uint8_t own[MOST_FILE];
    size_t letters = behind_number(file, len, 1), m = small_number(file, 1), count = letters + m;
    if (number == 9)
        return count;
    size_t own_len = file_of(file + letters, m, own), check = number == 11 && file[0] == 2 ? CHECK_BYTES : 0;
    return check + other_arrow(file, len, behind_number(file, len, count), small_number(file, count), own, own_len,
                               behind_number(own, own_len, count));
}

/* whether a refusal may show at an offset, which is not behind the file's end */
static bool breaks_at(const uint8_t *file, size_t len, uint32_t number, size_t offset)
{
    switch (number) {
    case 5: return offset == len;
    case 6: return is_no_group(file, offset);
    case 7: return offset == 0 && edition_of(file, len) == 0;
    case 8: return offset == 1 && (declares_too_few(file, len) || declares_too_many(file, len));
    default:
        return edition_of(file, len) != 0 && !declares_too_few(file, len) && !declares_too_many(file, len) &&
               offset == broken_at(file, len, number) && check_is_so(file, len, number, offset);
    }
}

/* ---- one case ---- */

enum fill { STRANGERS, ZEROS, ONES, FILLS }; /* what stands in a lent buffer before */

struct asked {
    enum entry entry;
    const uint8_t *input, *text;
    const uint8_t *searcher; /* what stands in it before, where that is not the fill */
    size_t len[SLICES];
    enum fill fill;
    bool nulls;  /* a slice of length 0 is handed over as a null pointer */
    bool inside; /* the word is lent from the text's own bytes, at its start */
};

/* A lent slice three times, each between two guard zones: as it was, and what either side was lent. */
struct zone {
    uint8_t *was, *marks, *second;
    size_t room;  /* bytes that each has */
    size_t at;    /* where the lent part begins */
    size_t bytes; /* of the lent part */
};

/* What is counted apart: each entry, and those that read a file once more, for files of edition 2. */
enum { LOAD_2 = ENTRIES, SEARCH_FILE_2, COLUMNS };

static int column_of(enum entry entry, const uint8_t *input, size_t len)
{
    bool of_edition_2 = reads_file(entry) && edition_of(input, len) == 2;
    return !of_edition_2 ? (int)entry : entry == LOAD ? LOAD_2 : SEARCH_FILE_2;
}

static struct zone zones[SLICES];
static uint8_t noise[NOISE];
static uint64_t seen[COLUMNS][NUMBERS];
static uint64_t with_slots[ENTRIES], with_chains[ENTRIES]; /* failure oracles with a symbol arrow beside the spine, and with two at a state */
static uint64_t storacles_past_3m;                         /* storacles with more than 3m arrows */
static uint64_t cases;
static bool past_examples;

/* How a file of edition 2 can end behind its arrows, or where these are missing; the last has a wrong arrow and a right check at its
   end. How often each was loaded, and how often searched with. */
enum ending {
    NO_CHECK,
    HALF_CHECK,
    WRONG_CHECK,
    WRONG_AND_MORE,
    RIGHT_AND_MORE,
    MISSING_AND_CUT,
    MISSING_AND_WRONG,
    MISSING_AND_RIGHT,
    ARROW_AND_RIGHT,
    ENDINGS
};

static const char *const ending_name[ENDINGS] = {"no check",
                                                 "one byte of the check",
                                                 "a wrong check",
                                                 "a wrong check and more",
                                                 "the check and more",
                                                 "arrows missing, and no check or one byte",
                                                 "arrows missing, and a wrong check",
                                                 "arrows missing, and the check",
                                                 "a wrong arrow, and the check at the end"};
static uint64_t endings[ENDINGS][2];

/* What .FIT in a text can be of: of no header as it is below 8, as another byte is where the size would be, as the header ends behind the
   text; of a ride of each kind with a header of each size; of one that ends with the text, one byte behind it, or behind 32 bits and as
   counted in 32 bits inside the text; of one that begins inside another's header, or inside a whole ride. Then that the one list or the
   other is too short for the rides and shorter than the other, and a text that is too long with tables that are too short. How often each
   was met. */
enum met {
    BELOW_8,
    OTHER_SIZE,
    HEADER_OUTSIDE,
    SHORT_CUT,
    SHORT_WHOLE,
    LONG_CUT,
    LONG_WHOLE,
    ENDS_WITH_TEXT,
    ONE_MISSING,
    PAST_32_BITS,
    IN_HEADER,
    IN_RIDE,
    STARTS_SHORTER,
    KINDS_SHORTER,
    LONG_AND_SHORT,
    METS
};

static const char *const met_name[METS] = {".FIT below 8",
                                           "another byte for the size",
                                           "a header that ends behind the text",
                                           "a cut ride, its header of 12",
                                           "a whole ride, its header of 12",
                                           "a cut ride, its header of 14",
                                           "a whole ride, its header of 14",
                                           "a ride that ends with the text",
                                           "a ride of which one byte is missing",
                                           "a ride that would end in the text in 32 bits alone",
                                           "a ride that begins in another's header",
                                           "a ride that begins in a whole one",
                                           "too few starts, fewer than kinds",
                                           "too few kinds, fewer than starts",
                                           "too long a text with too short tables"};
static uint64_t met[METS];

/* What compact rows can show: a state with more than 64 arrows; a word of a set with all 64 ones; a state with arrows in all four words,
   one with ones in words below another, one whose targets do not rise with the letters; a word's first bit, above the first word, and its
   last; as many arrows as there can be; a room that is too short by itself, and both. Of searches only: too long a text with either room
   too short by itself; a text that is empty, or shorter than the word; one that is just not long, and one that just is; in a long text a
   word whose states with an entry for each of its letters, or for one letter more, just fit, or are one too many, and one with more that
   is found. How often each was met in building and in searching. */
enum row_met {
    MANY_ARROWS,
    FULL_WORD,
    ALL_FOUR_WORDS,
    ONES_BELOW,
    FALLING_TARGETS,
    FIRST_BIT,
    LAST_BIT,
    MOST_ARROWS,
    SETS_SHORT,
    TARGETS_SHORT,
    BOTH_SHORT,
    FIRST_OF_SEARCHES,
    LONG_AND_SETS_SHORT = FIRST_OF_SEARCHES,
    LONG_AND_TARGETS_SHORT,
    EMPTY_TEXT,
    SHORTER_TEXT,
    JUST_NOT_LONG,
    JUST_LONG,
    JUST_FIT,
    ONE_TOO_MANY,
    JUST_FIT_AND_ONE,
    ONE_TOO_MANY_AND_ONE,
    FOUND_PAST_FIT,
    ROW_METS
};

static const char *const row_met_name[ROW_METS] = {"a state with more than 64 arrows",
                                                   "a word of 64 ones",
                                                   "a state with arrows in all four words",
                                                   "a state with ones in lower words",
                                                   "a state whose targets do not rise",
                                                   "a word's first bit",
                                                   "a word's last bit",
                                                   "the most arrows",
                                                   "too short sets alone",
                                                   "too short targets alone",
                                                   "both too short",
                                                   "too long a text with too short sets alone",
                                                   "too long a text with too short targets alone",
                                                   "an empty text",
                                                   "a text shorter than the word",
                                                   "a text that is just not long",
                                                   "one that just is",
                                                   "in a long text states that just fit",
                                                   "one state too many",
                                                   "with one letter more states that just fit",
                                                   "one state too many",
                                                   "a find past the states that fit"};
static uint64_t row_met[ROW_METS][2];

static uint8_t *reserve(uint8_t *old, size_t bytes)
{
    free(old);
    uint8_t *p = aligned_alloc(64, (bytes + 63) / 64 * 64);
    if (p == NULL) {
        fprintf(stderr, "compare: no memory for %zu bytes\n", bytes);
        exit(2);
    }
    return p;
}

static void make_noise(uint8_t *to, size_t bytes)
{
    while (bytes > 0) {
        size_t from = below(NOISE / 2), piece = bytes < NOISE / 2 ? bytes : NOISE / 2;
        memcpy(to, noise + from, piece);
        to += piece;
        bytes -= piece;
    }
}

static void lay(struct zone *z, size_t width, const uint8_t *content, size_t len, enum fill fill)
{
    z->at = GUARD + below(16) * width;
    z->bytes = len * width;
    size_t all = z->at + z->bytes + GUARD;
    if (all > z->room) {
        z->room = 2 * all;
        z->was = reserve(z->was, z->room);
        z->marks = reserve(z->marks, z->room);
        z->second = reserve(z->second, z->room);
    }
    make_noise(z->was, content != NULL ? z->at : all);
    if (content != NULL)
        make_noise(z->was + z->at + z->bytes, GUARD);
    if (content != NULL && len > 0)
        memcpy(z->was + z->at, content, z->bytes);
    else if (content == NULL && fill != STRANGERS)
        memset(z->was + z->at, fill == ZEROS ? 0 : 0xFF, z->bytes);
    memcpy(z->marks, z->was, all);
    memcpy(z->second, z->was, all);
}

static void print_bytes(const char *name, const uint8_t *bytes, size_t len)
{
    size_t shown = len <= MOST_FILE ? len : 64;
    printf("  %s, %zu bytes:", name, len);
    for (size_t i = 0; i < shown; i++)
        printf(" %02X", bytes[i]);
    printf(shown < len ? " .. (cut)\n" : "\n");
}

static void print_asked(const struct asked *a)
{
    printf("  asked: %s, case %" PRIu64 "%s%s\n", entry_name[a->entry], cases, a->nulls ? ", null pointers for length 0" : "",
           a->inside ? ", the word lent from the text" : "");
    const uint8_t *const contents[SLICES] = {[INPUT] = a->input, [TEXT] = a->text, [SEARCHER] = a->searcher};
    for (int s = 0; s < SLICES; s++)
        if (contents[s] != NULL && (lent_slices[a->entry] & 1u << s))
            print_bytes(slice_name[s], contents[s], a->len[s]);
    for (int s = ROOM; s < SLICES; s++)
        if (lent_slices[a->entry] & 1u << s)
            printf("  %s: %zu elements\n", slice_name[s], a->len[s]);
}

static void fail(const struct asked *a, const char *what, const struct outcome *m, const struct outcome *s)
{
    printf("DIFFERENT: %s\n", what);
    print_outcome("  library", m);
    print_outcome("; second opinion", s);
    printf("\n");
    print_asked(a);
    exit(1);
}

/* the first place where two differ, or bytes where they do not */
static size_t first_other(const uint8_t *a, const uint8_t *b, size_t bytes)
{
    if (memcmp(a, b, bytes) == 0)
        return bytes;
    size_t i = 0;
    while (a[i] == b[i])
        i++;
    return i;
}

/* says what is wrong with a slice after an answer, or nothing */
static bool slice_differs(const struct asked *a, int s, const struct outcome *m, char *what, size_t room)
{
    const struct zone *z = &zones[s];
    size_t all = z->at + z->bytes + GUARD, width = slice_width[s];
    size_t i = first_other(z->marks, z->second, all);
    if (i < all) {
        snprintf(what, room, "%s, byte %ld of %zu: library %02X, second opinion %02X, before %02X", slice_name[s], (long)i - (long)z->at,
                 z->bytes, z->marks[i], z->second[i], z->was[i]);
        return true;
    }
    size_t behind = z->at + may_write(a->entry, s, a->len, m) * width;
    i = first_other(z->marks, z->was, z->at);
    if (i == z->at)
        i = behind + first_other(z->marks + behind, z->was + behind, all - behind);
    if (i < all)
        snprintf(what, room, "%s, byte %ld of %zu: both sides changed what they may not", slice_name[s], (long)i - (long)z->at, z->bytes);
    return i < all;
}

static void lend(const struct asked *a, struct lent *m, struct lent *s)
{
    static uint8_t nothing[1];
    for (int i = 0; i < SLICES; i++) {
        bool lent = lent_slices[a->entry] & 1u << i, null = a->nulls && a->len[i] == 0;
        m->at[i] = s->at[i] = NULL;
        m->len[i] = s->len[i] = lent ? a->len[i] : 0;
        if (!lent || (a->inside && i == INPUT))
            continue;
        const uint8_t *content = i == INPUT ? a->input : i == TEXT ? a->text : i == SEARCHER ? a->searcher : NULL;
        lay(&zones[i], slice_width[i], content == NULL && (read_slices & 1u << i) ? nothing : content, a->len[i], a->fill);
        m->at[i] = null ? NULL : zones[i].marks + zones[i].at;
        s->at[i] = null ? NULL : zones[i].second + zones[i].at;
    }
    if (a->inside) {
        m->at[INPUT] = m->at[TEXT];
        s->at[INPUT] = s->at[TEXT];
    }
}

/* whether the library's search, which may read m letters for each of the text, is asked what turbo or the failure search is asked */
static bool also_searched(const struct asked *a)
{
    return (uint64_t)a->len[INPUT] * a->len[TEXT] <= 1 << 22;
}

static void slip_turbo(const struct asked *a, struct outcome *m, struct outcome *s)
{
    const struct zone *list = &zones[FINDS], *tables = &zones[TABLES];
    bool finds = m->number == 0 && m->answer[0] > 0;
    if (finds && ((SLIP == 116 && past_examples) || (SLIP == 120 && !also_searched(a))))
        s->answer[0] = --m->answer[0];
    if (SLIP == 117 && past_examples && finds && list->bytes > 0)
        list->second[list->at] = ++list->marks[list->at];
    if (SLIP == 118 && past_examples && m->number == 0)
        tables->second[tables->at + 2] = tables->marks[tables->at + 2] = 0;
    if (SLIP == 119 && past_examples && m->number == 0)
        m->answer[1] = s->answer[1] = 2 * (uint64_t)a->len[TEXT] + 1;
}

/* the table that the library left, and what the second side left at the same entry */
static const uint16_t *left_table(void)
{
    return (const uint16_t *)(const void *)(zones[TABLES].marks + zones[TABLES].at);
}

static void leave_both(size_t entry, uint16_t number)
{
    memcpy(zones[TABLES].marks + zones[TABLES].at + 2 * entry, &number, sizeof number);
    memcpy(zones[TABLES].second + zones[TABLES].at + 2 * entry, &number, sizeof number);
}

static void slip_failure(const struct asked *a, struct outcome *m, struct outcome *s)
{
    const struct zone *list = &zones[FINDS];
    size_t letters = a->len[INPUT], n = letters + 1;
    bool finds = a->entry == FAILURE_SEARCH && m->answer[0] > 0;
    if (finds && (SLIP == 182 || (SLIP == 184 && !also_searched(a))))
        s->answer[0] = --m->answer[0];
    if (SLIP == 183 && finds && list->bytes > 0)
        list->second[list->at] = ++list->marks[list->at];
    if (SLIP == 185)
        leave_both(n, 0);
    if (SLIP == 186)
        leave_both(10 * n - 1, 1);
    if (SLIP == 187)
        leave_both(4 * n + 1, 0);
    if (SLIP == 188)
        leave_both(1, left_table()[1] ^ 1);
    if (SLIP == 189 && a->entry == FAILURE_SEARCH && m->answer[1] > 0)
        m->answer[1] = s->answer[1] = (letters + 1) * (a->len[TEXT] - letters + 1);
}

/* the same number on both sides in the place of their own, with no offset; the answer of success */
static void say_both(uint32_t number, uint64_t answer, struct outcome *m, struct outcome *s)
{
    m->number = s->number = number;
    m->offset = s->offset = UNTOUCHED;
    if (number == 0)
        m->answer[0] = s->answer[0] = answer;
}

static void slip_one_letter(const struct asked *a, struct outcome *m, struct outcome *s)
{
    const struct zone *tables = &zones[TABLES];
    size_t len = a->len[INPUT];
    bool file_of_one = a->entry == LOAD && len == 4 && memcmp(a->input, "\1\1", 2) == 0;
    if (SLIP == 140 && m->number == 17)
        say_both(3, 0, m, s);
    if (SLIP == 141 && a->entry == SAVE && len == 2 && m->number == 3)
        say_both(17, 0, m, s);
    if (SLIP == 142 && m->number == 17 && tables->bytes > 0)
        tables->second[tables->at] = ++tables->marks[tables->at];
    if (SLIP == 143 && file_of_one)
        say_both(0, 1, m, s);
    if (SLIP == 144 && file_of_one)
        say_both(3, 0, m, s);
}

/* files of edition 2, read or written */
static void slip_checked(const struct asked *a, struct outcome *m, struct outcome *s)
{
    const struct zone *room = &zones[ROOM], *out = &zones[OUT];
    size_t len = a->len[INPUT], saved = out->at + (size_t)m->answer[0] - 1;
    if (SLIP == 231 && m->number == 13)
        say_both(0, 2, m, s);
    if (SLIP == 232 && m->number == 13 && m->offset + CHECK_BYTES < len) {
        m->number = s->number = 11;
        m->offset = s->offset += CHECK_BYTES;
    }
    if (SLIP == 233 && m->number == 13 && m->offset + CHECK_BYTES < len)
        s->offset = ++m->offset;
    if (SLIP == 234 && m->number == 0 && reads_file(a->entry)) {
        m->number = s->number = 13;
        m->offset = s->offset = len - CHECK_BYTES;
        m->answer[0] = s->answer[0] = m->answer[1] = s->answer[1] = UNTOUCHED;
    }
    if (SLIP == 235 && m->number == 5 && len >= LEAST_FILE && len == (size_t)small_number(a->input, 1) + 3)
        say_both(0, len - 3, m, s);
    if (SLIP == 236 && m->number == 13)
        room->second[room->at] = room->marks[room->at] = 1;
    if (SLIP == 237 && m->number == 0 && a->entry == SAVE_CHECKED)
        out->second[saved] = ++out->marks[saved];
    if (SLIP == 238 && m->number == 11 && m->offset + 1 < len)
        s->offset = ++m->offset;
}

/* the same change of a byte of a lent slice on both sides */
static void change_both(int slice, size_t at)
{
    const struct zone *z = &zones[slice];
    if (at < z->bytes)
        z->second[z->at + at] = ++z->marks[z->at + at];
}

static void slip_salvage(const struct asked *a, struct outcome *m, struct outcome *s)
{
    bool done = m->number == 0, short_tables = a->len[TABLES] < entries_for(SALVAGE, RIDE_MARK_BYTES);
    size_t fit = shorter(a->len[FINDS], a->len[RIDE_KINDS]), listed = done ? shorter(fit, (size_t)m->answer[0]) : 0;
    if (SLIP == 348 && done && m->answer[0] > 0)
        s->answer[0] = --m->answer[0];
    if (SLIP == 349 && listed > 0)
        change_both(FINDS, 0);
    if (SLIP == 350 && listed > 0)
        zones[RIDE_KINDS].second[zones[RIDE_KINDS].at] = zones[RIDE_KINDS].marks[zones[RIDE_KINDS].at] ^= 1;
    if (SLIP == 351 && done)
        leave_both(1, 0);
    if (SLIP == 352 && done)
        change_both(TABLES, entries_for(SALVAGE, RIDE_MARK_BYTES) * sizeof(uint16_t));
    if (SLIP == 353 && done)
        change_both(FINDS, listed * sizeof(uint32_t));
    if (SLIP == 354 && done)
        change_both(RIDE_KINDS, listed);
    if (SLIP == 355 && m->number == 4 && short_tables)
        say_both(3, 0, m, s);
    if (SLIP == 356 && m->number == 3 && a->len[TEXT] == 0)
        say_both(0, 0, m, s);
}

/* the first of the words that the library left */
static const uint64_t *left_sets(void)
{
    return (const uint64_t *)(const void *)(zones[SETS].marks + zones[SETS].at);
}

static bool short_sets(const struct asked *a)
{
    return a->len[SETS] < sets_for(a->len[INPUT]);
}

static bool short_targets(const struct asked *a)
{
    return a->len[TABLES] < entries_for(a->entry, a->len[INPUT]);
}

/* success that leaves something else */
static void slip_left_rows(const struct asked *a)
{
    size_t n = a->len[INPUT] + 1;
    uint16_t first = left_table()[8 * n], second = left_table()[8 * n + 1];
    if (SLIP == 388) {
        leave_both(8 * n, second);
        leave_both(8 * n + 1, first);
    }
    if (SLIP == 389)
        change_both(SETS, 4 * (n - 1) * sizeof(uint64_t));
    if (SLIP == 390)
        leave_both(2 * n, 1);
    if (SLIP == 391)
        change_both(SETS, sets_for(n - 1) * sizeof(uint64_t));
}

static void slip_rows(const struct asked *a, struct outcome *m, struct outcome *s)
{
    bool done = m->number == 0, finds = a->entry == COMPACT_SEARCH && done && m->answer[0] > 0;
    if (SLIP == 385 && finds && a->len[FINDS] == 0)
        s->answer[0] = --m->answer[0];
    if (SLIP == 386 && finds)
        change_both(FINDS, 0);
    if (SLIP == 387 && finds)
        s->answer[1] = --m->answer[1];
    if (done)
        slip_left_rows(a);
    if (SLIP == 392 && a->entry == COMPACT_BUILD && m->number == 3 && short_sets(a))
        say_both(0, a->len[INPUT], m, s);
    if (SLIP == 393 && m->number == 4 && (short_sets(a) || short_targets(a)))
        say_both(3, 0, m, s);
}

/* an arrow of a storacle from a state on the letter of a column, on both sides in the place of what is there */
static void lead_both(size_t m, size_t state, size_t column, size_t to)
{
    leave_both((2 + state) * (m + 1) + column, (uint16_t)to);
}

/* a storacle with arrows that it should not have, or without those that it should */
static void slip_arrows(const uint8_t *word, size_t m)
{
    const uint16_t *columns = left_table() + m + 1;
    if (SLIP == 425)
        lead_both(m, m - 1, columns[m], 0);
    for (size_t x = 0; x < m && SLIP >= 426 && SLIP <= 428; x++)
        for (size_t i = 1; i <= m; i++) {
            size_t to = in_row(left_table(), m, (int)(2 + x), i), first = later_in_word(word, m, x, word[i - 1]);
            if (SLIP == 426 && to > x + 1)
                lead_both(m, x, i, 0);
            if (SLIP == 427 && to > x + 1 && to < m)
                lead_both(m, x, i, to + 1);
            if (SLIP == 428 && to == 0 && columns[i] == i)
                lead_both(m, x, i, first);
        }
}

static void slip_storacle(const struct asked *a, struct outcome *m, struct outcome *s)
{
    size_t letters = a->len[INPUT], n = letters + 1, need = entries_for(a->entry, letters);
    if (SLIP == 432 && m->number == 3 && a->len[TABLES] + 1 == need)
        say_both(0, letters, m, s);
    if (SLIP == 433 && m->number == 2 && a->len[TABLES] < need)
        say_both(3, 0, m, s);
    if (m->number != 0 || SLIP == 432)
        return;
    slip_arrows(a->input, letters);
    if (SLIP == 423)
        leave_both(1, left_table()[1] ^ 1);
    if (SLIP == 424)
        leave_both(2 * n - 1, (uint16_t)(left_table()[2 * n - 1] == letters ? 1 : letters));
    if (SLIP == 429 && left_table()[2 * n - 1] != letters)
        lead_both(letters, letters - 1, letters, letters);
    if (SLIP == 430)
        leave_both(need - 1, 1);
    if (SLIP == 431)
        change_both(TABLES, need * sizeof(uint16_t));
}

/* the mistakes of this file that happen after the call */
static void slip_after(enum entry entry, struct outcome *m, struct outcome *s)
{
    bool streams = entry == OPEN || entry == TAKE;
    size_t behind = zones[SEARCHER].at + SEARCHER_BYTES;
    if (SLIP == 32 && (lent_slices[entry] & 1 << TABLES))
        zones[TABLES].marks[zones[TABLES].at + zones[TABLES].bytes] ^= 1;
    if (SLIP == 67 && streams && zones[SEARCHER].bytes > SEARCHER_BYTES)
        zones[SEARCHER].second[behind] = zones[SEARCHER].marks[behind] ^= 1;
    if (SLIP == 68 && past_examples && entry == TAKE && m->number == 0 && m->answer[0] > 0)
        s->answer[0] = --m->answer[0];
    if (SLIP == 69 && past_examples && m->number == 16) {
        m->number = s->number = 0;
        m->answer[0] = s->answer[0] = 0;
    }
    if (SLIP == 84 && past_examples && m->number == 3)
        m->offset = s->offset = 0;
    if (SLIP == 85 && past_examples && m->number == 10 && m->offset + 1 < zones[INPUT].bytes)
        s->offset = ++m->offset;
}

/* what the second side is lent, as it was before */
static void lend_again(const struct asked *a)
{
    for (int i = 0; i < SLICES; i++)
        if ((lent_slices[a->entry] & 1u << i) && !(a->inside && i == INPUT))
            memcpy(zones[i].second, zones[i].was, zones[i].at + zones[i].bytes + GUARD);
}

/* whether the second side was left what the library left */
static bool left_alike(const struct asked *a)
{
    bool alike = true;
    for (int i = 0; i < SLICES; i++)
        if ((lent_slices[a->entry] & 1u << i) && !(a->inside && i == INPUT))
            alike = alike && memcmp(zones[i].marks, zones[i].second, zones[i].at + zones[i].bytes + GUARD) == 0;
    return alike;
}

/* What turbo is asked is asked twice more. Of the library's search, where that does not take too long, only the letters may differ;
   where it would, the finds are held against the text. Where h is carried nothing may differ. */
static void check_turbo(const struct asked *a, const struct lent *l, const struct outcome *m)
{
    struct outcome carried = {99, {UNTOUCHED, UNTOUCHED, UNTOUCHED}, UNTOUCHED};
    if (m->number != 0 || also_searched(a)) {
        lend_again(a);
        struct outcome sought = ask_marks(SEARCH, l);
        sought.answer[1] = m->answer[1];
        if (!same_outcome(m, &sought) || !left_alike(a))
            fail(a, "more than the letters between turbo and the library's search, given here as second opinion", m, &sought);
    } else if (!lists_places(l, m->answer[0]))
        fail(a, "both sides find other places than those where the word stands", m, m);
    lend_again(a);
    carried.number = second_turbo_carried(l->at[INPUT], l->len[INPUT], l->at[TEXT], l->len[TEXT], l->at[TABLES], l->len[TABLES],
                                          l->at[FINDS], l->len[FINDS], &carried.answer[0], &carried.answer[1]);
    if (!same_outcome(m, &carried) || !left_alike(a))
        fail(a, "turbo where h is carried, given here as second opinion", m, &carried);
}

/* What the failure search is asked is asked of the library's search too, where that does not take too long, and must have the same finds;
   where it would, they are held against the text. Only rooms that the library's search does not need make a difference. */
static void check_failure_finds(const struct asked *a, const struct lent *l, const struct outcome *m)
{
    if (m->number == 0 && !also_searched(a)) {
        if (!lists_places(l, m->answer[0]))
            fail(a, "both sides find other places than those where the word stands", m, m);
        return;
    }
    if (m->number == 3)
        return;
    lend_again(a);
    const struct zone *list = &zones[FINDS];
    struct outcome sought = ask_marks(SEARCH, l);
    bool alike = memcmp(list->marks, list->second, list->at + list->bytes + GUARD) == 0;
    if (sought.number != m->number || sought.answer[0] != m->answer[0] || !alike)
        fail(a, "other finds between the failure search and the library's search, given here as second opinion", m, &sought);
}

/* the table of a failure oracle, held against what it must be in itself; counts those that few words have */
static void check_failure_table(const struct asked *a, const struct outcome *m)
{
    const uint16_t *table = left_table();
    size_t letters = a->len[INPUT], chains = 0;
    const char *wrong = wrong_failure_table(table, a->input, letters, a->entry == FAILURE_SEARCH);
    if (wrong != NULL)
        fail(a, wrong, m, m);
    for (size_t slot = 1; slot <= letters; slot++)
        chains += in_row(table, letters, BEHIND_ROW, slot) != 0;
    with_slots[a->entry] += SLIP != 190 && in_row(table, letters, TARGET_ROW, 1) != 0;
    with_chains[a->entry] += chains > 0;
}

/* the table of a storacle, held against what it must be in itself */
static void check_storacle(const struct asked *a, const struct outcome *m)
{
    size_t letters = a->len[INPUT], arrows;
    const char *wrong = wrong_storacle_table(left_table(), a->input, letters, &arrows);
    if (wrong != NULL)
        fail(a, wrong, m, m);
    storacles_past_3m += SLIP != 434 && arrows > 3 * letters;
}

/* What the library says to so many bytes of a file of edition 2 that say they are of edition 1, lent on the second side. */
static struct outcome ask_as_edition_1(const struct asked *a, struct lent *l, size_t len)
{
    uint8_t *edition = l->at[INPUT];
    lend_again(a);
    l->len[INPUT] = len;
    *edition = 1;
    struct outcome o = ask_marks(a->entry, l);
    *edition = 2;
    return o;
}

static void count_ending(const struct asked *a, enum ending ending)
{
    endings[ending][a->entry == SEARCH_FILE] += SLIP != 239 || ending != HALF_CHECK;
}

/* Counts what 10 was given for: cut at its offset, a file that says it is of edition 1 still misses arrows, or else there was a wrong
   one. */
static void count_wrong_arrows(const struct asked *a, struct lent l, size_t offset)
{
    size_t len = a->len[INPUT], behind = offset + CHECK_BYTES;
    if (ask_as_edition_1(a, &l, offset).number == 10)
        count_ending(a, behind > len ? MISSING_AND_CUT : ends_with_check(a->input, behind) ? MISSING_AND_RIGHT : MISSING_AND_WRONG);
    else if (ends_with_check(a->input, len))
        count_ending(a, ARROW_AND_RIGHT);
}

/* A file of edition 2 is held against what the library says to the same bytes of edition 1, where the check is leftovers: nothing else is
   different up to there, and what comes then is told from the number of bytes left and by dividing. What takes too long is left out. */
static void check_edition_2(const struct asked *a, struct lent l, const struct outcome *m)
{
    size_t len = a->len[INPUT];
    struct outcome right = ask_as_edition_1(a, &l, len);
    size_t at = right.number == 11 ? (size_t)right.offset : len, left = len - at;
    if (right.number == 0 || (right.number == 11 && left < CHECK_BYTES)) {
        count_ending(a, left == 0 ? NO_CHECK : HALF_CHECK);
        right = ask_as_edition_1(a, &l, at - 1);
        right.offset = len;
    } else if (right.number == 11 && !ends_with_check(a->input, at + CHECK_BYTES)) {
        count_ending(a, left == CHECK_BYTES ? WRONG_CHECK : WRONG_AND_MORE);
        right.number = 13;
    } else if (right.number == 11 && left > CHECK_BYTES) {
        count_ending(a, RIGHT_AND_MORE);
        right.offset += CHECK_BYTES;
    } else if (right.number == 11) {
        if (m->number == 0 && a->entry == SEARCH_FILE && !also_searched(a))
            return;
        right = ask_as_edition_1(a, &l, at);
    }
    if (!same_outcome(m, &right) || !left_alike(a))
        fail(a, "a file of edition 2 and what edition 1 says of it, given here as second opinion", m, &right);
    if (m->number == 10)
        count_wrong_arrows(a, l, (size_t)m->offset);
}

/* What saving with a check is asked is asked of the library's saving without one, with as much less output. Nothing may differ but the
   edition and the check. */
static void check_saved(const struct asked *a, struct lent l, const struct outcome *m)
{
    uint8_t *out = l.at[OUT];
    lend_again(a);
    l.len[OUT] -= l.len[OUT] < CHECK_BYTES ? l.len[OUT] : CHECK_BYTES;
    struct outcome right = ask_marks(SAVE, &l);
    if (right.number == 0) {
        out[0] = 2;
        right.answer[0] = seal(out, (size_t)right.answer[0]);
    }
    if (!same_outcome(m, &right) || !left_alike(a))
        fail(a, "more than edition and check between a file of edition 2 and one of edition 1, given here as second opinion", m, &right);
}

/* counts what a ride's header shows, where it begins at a place and is wholly inside the text; where the ride ends */
static uint64_t count_ride(const uint8_t *text, size_t n, size_t start)
{
    uint64_t end = start + text[start] + RIDE_CHECK_BYTES;
    for (int i = 0; i < 4; i++)
        end += (uint64_t)text[start + AT_DATA_SIZE + i] << 8 * i;
    met[(text[start] == LONG_HEADER ? LONG_CUT : SHORT_CUT) + ride_is_whole(text, n, start)]++;
    met[ENDS_WITH_TEXT] += end == n;
    met[ONE_MISSING] += end == n + 1;
    met[PAST_32_BITS] += end > UINT32_MAX && (uint32_t)end <= n;
    return end;
}

/* where .FIT stands next from a place on; n where it does not */
static size_t next_mark(const uint8_t *text, size_t n, size_t from)
{
    while (from + RIDE_MARK_BYTES <= n) {
        const uint8_t *point = memchr(text + from, RIDE_MARK[0], n - RIDE_MARK_BYTES + 1 - from);
        if (point == NULL)
            return n;
        if (memcmp(point, RIDE_MARK, RIDE_MARK_BYTES) == 0)
            return (size_t)(point - text);
        from = (size_t)(point - text) + 1;
    }
    return n;
}

/* counts what each .FIT in the text is of */
static void count_marks(const uint8_t *text, size_t n)
{
    uint64_t headers = 0, rides = 0; /* where the headers so far and the whole rides so far end */
    for (size_t q = next_mark(text, n, 0); q < n; q = next_mark(text, n, q + 1)) {
        size_t start = q - AT_RIDE_MARK;
        if (q < AT_RIDE_MARK)
            met[BELOW_8]++;
        else if (is_ride(text, n, start)) {
            uint64_t end = count_ride(text, n, start);
            met[IN_HEADER] += start < headers;
            met[IN_RIDE] += start < rides;
            headers = start + text[start];
            rides = end <= n && end > rides ? end : rides;
        } else
            met[text[start] == LONG_HEADER ? HEADER_OUTSIDE : OTHER_SIZE] += SLIP != 357 || text[start] != LONG_HEADER;
    }
}

/* What salvage is asked is asked of the library's search for .FIT, which must refuse alike and leave the tables alike. The rides are held
   against the text. */
static void check_salvage(const struct asked *a, struct lent l, const struct outcome *m)
{
    static uint8_t mark[] = RIDE_MARK;
    const struct zone *tables = &zones[TABLES];
    bool few_starts = a->len[FINDS] < a->len[RIDE_KINDS] && a->len[FINDS] < m->answer[0];
    bool few_kinds = a->len[RIDE_KINDS] < a->len[FINDS] && a->len[RIDE_KINDS] < m->answer[0];
    if (m->number == 0 && !lists_rides(&l, m->answer[0]))
        fail(a, "both sides list other rides than those whose headers are in the text", m, m);
    lend_again(a);
    l.at[INPUT] = mark;
    l.len[INPUT] = RIDE_MARK_BYTES;
    l.len[FINDS] = 0;
    struct outcome sought = ask_marks(SEARCH, &l);
    if (sought.number != m->number || memcmp(tables->marks, tables->second, tables->at + tables->bytes + GUARD) != 0)
        fail(a, "another refusal or other tables than of the library's search for .FIT, given here as second opinion", m, &sought);
    if (m->number == 0)
        count_marks(a->text, a->len[TEXT]);
    met[STARTS_SHORTER] += m->number == 0 && few_starts;
    met[KINDS_SHORTER] += m->number == 0 && few_kinds;
    met[LONG_AND_SHORT] += m->number == 4 && a->len[TABLES] < entries_for(SALVAGE, RIDE_MARK_BYTES);
}

static size_t ones_in(uint64_t bits)
{
    size_t ones = 0;
    for (; bits != 0; bits &= bits - 1)
        ones++;
    return ones;
}

/* counts what one state of compact rows shows, of which the targets are these; how many arrows it has */
static size_t count_state(const uint64_t *set, const uint16_t *targets, int searched)
{
    size_t arrows = 0, words = 0;
    bool full = false, below = false, falling = false, first = false, last = false;
    for (int k = 0; k < 4; k++) {
        below = below || (set[k] != 0 && arrows > 0);
        full = full || set[k] == UINT64_MAX;
        first = first || (k > 0 && set[k] % 2 == 1);
        last = last || set[k] >> 63 == 1;
        words += set[k] != 0;
        arrows += ones_in(set[k]);
    }
    for (size_t i = 1; i < arrows; i++)
        falling = falling || targets[i] < targets[i - 1];
    row_met[MANY_ARROWS][searched] += SLIP != 394 && arrows > 64;
    row_met[FULL_WORD][searched] += full;
    row_met[ALL_FOUR_WORDS][searched] += words == 4;
    row_met[ONES_BELOW][searched] += below;
    row_met[FALLING_TARGETS][searched] += falling;
    row_met[FIRST_BIT][searched] += first;
    row_met[LAST_BIT][searched] += last;
    return arrows;
}

static size_t distinct_letters(const uint8_t *word, size_t m)
{
    bool has[256] = {false};
    size_t many = 0;
    for (size_t i = 0; i < m; i++) {
        many += !has[word[i]];
        has[word[i]] = true;
    }
    return many;
}

/* counts what a text is to a search with compact rows */
static void count_rows_text(const struct asked *a, uint64_t finds)
{
    size_t m = a->len[INPUT], n = a->len[TEXT];
    row_met[EMPTY_TEXT][1] += n == 0;
    row_met[SHORTER_TEXT][1] += n > 0 && n < m;
    row_met[JUST_NOT_LONG][1] += n + 1 == long_for_rows(m);
    row_met[JUST_LONG][1] += n == long_for_rows(m);
    if (n < long_for_rows(m))
        return;
    for (size_t more = 0; more < 2; more++) {
        size_t entries = distinct_letters(a->input, m) + more, fit = PREPARED / entries;
        row_met[more ? JUST_FIT_AND_ONE : JUST_FIT][1] += m + 1 == fit;
        row_met[more ? ONE_TOO_MANY_AND_ONE : ONE_TOO_MANY][1] += m == fit;
        row_met[FOUND_PAST_FIT][1] += m > fit && finds > 0;
    }
}

static void count_rows(const struct asked *a, const struct outcome *m)
{
    const uint64_t *sets = left_sets();
    size_t letters = a->len[INPUT], arrows = 0;
    int searched = a->entry == COMPACT_SEARCH;
    row_met[SETS_SHORT][searched] += m->number == 3 && !short_targets(a);
    row_met[TARGETS_SHORT][searched] += m->number == 3 && !short_sets(a);
    row_met[BOTH_SHORT][searched] += m->number == 3 && short_sets(a) && short_targets(a);
    row_met[LONG_AND_SETS_SHORT][1] += m->number == 4 && short_sets(a) && !short_targets(a);
    row_met[LONG_AND_TARGETS_SHORT][1] += m->number == 4 && !short_sets(a) && short_targets(a);
    if (m->number != 0)
        return;
    for (size_t x = 0; x <= letters; x++)
        arrows += count_state(sets + 4 * x, left_table() + 8 * (letters + 1) + arrows, searched);
    row_met[MOST_ARROWS][searched] += letters > 1 && arrows == 2 * letters - 1;
    if (searched)
        count_rows_text(a, m->answer[0]);
}

/* What is asked of compact rows is asked of the library's own first form, in tables that are always enough: where neither room is too short
   the number, the answers and the finds are the same, and so is each arrow, by the rule that either form is read by. */
static void check_rows(const struct asked *a, struct lent l, const struct outcome *m)
{
    static uint16_t first[6 * (MOST_LETTERS + 1)];
    const struct zone *list = &zones[FINDS];
    bool searched = a->entry == COMPACT_SEARCH;
    lend_again(a);
    l.at[TABLES] = first;
    l.len[TABLES] = sizeof first / sizeof *first;
    struct outcome right = ask_marks(searched ? SEARCH : BUILD, &l);
    if (right.number == 0 && (short_sets(a) || short_targets(a)))
        right = (struct outcome){3, {UNTOUCHED, UNTOUCHED, UNTOUCHED}, UNTOUCHED};
    if (!same_outcome(m, &right))
        fail(a, "compact rows and what the library says of its first form, given here as second opinion", m, &right);
    if (m->number == 0 && searched && memcmp(list->marks, list->second, list->at + list->bytes + GUARD) != 0)
        fail(a, "other finds between the search with compact rows and the library's search, given here as second opinion", m, &right);
    const char *wrong = m->number == 0 ? wrong_rows(left_sets(), left_table(), first, a->len[INPUT]) : NULL;
    if (wrong != NULL)
        fail(a, wrong, m, m);
    count_rows(a, m);
}

/* runs a case on both sides; ends the program at a difference. What the library left stays in zones[..].marks. */
static struct outcome compare(const struct asked *a)
{
    struct lent for_marks, for_second;
    char what[200];
    bool of_edition_2 = column_of(a->entry, a->input, a->len[INPUT]) >= ENTRIES;
    cases++;
    lend(a, &for_marks, &for_second);
    struct outcome m = ask_marks(a->entry, &for_marks);
    struct outcome s = ask_second(a->entry, &for_second);
    slip_after(a->entry, &m, &s);
    if (a->entry == TURBO)
        slip_turbo(a, &m, &s);
    if (past_examples)
        slip_one_letter(a, &m, &s);
    if (past_examples && makes_failure_oracle(a->entry) && m.number == 0)
        slip_failure(a, &m, &s);
    if (past_examples && (of_edition_2 || a->entry == SAVE_CHECKED))
        slip_checked(a, &m, &s);
    if (past_examples && a->entry == SALVAGE)
        slip_salvage(a, &m, &s);
    if (past_examples && makes_rows(a->entry))
        slip_rows(a, &m, &s);
    if (past_examples && a->entry == STORACLE_BUILD)
        slip_storacle(a, &m, &s);
    if (!same_outcome(&m, &s))
        fail(a, "the number, the answers or the offset", &m, &s);
    for (int i = 0; i < SLICES; i++)
        if ((lent_slices[a->entry] & 1u << i) && !(a->inside && i == INPUT) && slice_differs(a, i, &m, what, sizeof what))
            fail(a, what, &m, &s);
    const char *wrong = wrong_in_itself(a->entry, &m, a->len);
    if (wrong != NULL)
        fail(a, wrong, &m, &s);
    if (has_offset(m.number) && !breaks_at(a->input, a->len[INPUT], m.number, m.offset))
        fail(a, "both sides show the file broken where it is not", &m, &s);
    if (reads_file(a->entry) && declares_too_few(a->input, a->len[INPUT]) && m.number != 8 && m.number != 4)
        fail(a, "both sides give another refusal than 8, or none, where a file declares fewer letters than any has", &m, &s);
    if (a->entry == TURBO)
        check_turbo(a, &for_second, &m);
    if (makes_failure_oracle(a->entry) && m.number == 0)
        check_failure_table(a, &m);
    if (a->entry == STORACLE_BUILD && m.number == 0)
        check_storacle(a, &m);
    if (a->entry == FAILURE_SEARCH)
        check_failure_finds(a, &for_second, &m);
    if (of_edition_2)
        check_edition_2(a, for_second, &m);
    if (a->entry == SAVE_CHECKED)
        check_saved(a, for_second, &m);
    if (a->entry == SALVAGE)
        check_salvage(a, for_second, &m);
    if (makes_rows(a->entry))
        check_rows(a, for_second, &m);
    seen[column_of(a->entry, a->input, a->len[INPUT])][m.number]++;
    return m;
}

/* ---- words, texts, files ---- */

/* a number in so many groups, zeros at the end where it needs fewer */
static size_t spell_in(uint32_t number, size_t groups, uint8_t *out)
{
    for (size_t g = 0; g < groups; g++) {
        out[g] = (uint8_t)(number % 128 + (g + 1 < groups ? 128 : 0));
        number /= 128;
    }
    return groups;
}

static size_t groups_of(uint32_t number)
{
    size_t groups = 1;
    while (number >>= 7)
        groups++;
    return groups;
}

static void mirror(const uint8_t *word, size_t m, uint8_t *out)
{
    for (size_t i = 0; i < m; i++)
        out[i] = word[m - 1 - i];
}

/* the letters in use: a few bytes by chance, or all */
static uint8_t palette[256];

static void set_palette(unsigned letters, uint8_t first, uint8_t step)
{
    for (unsigned i = 0; i < 256; i++)
        palette[i] = letters == 256 ? (uint8_t)i : (uint8_t)(first + (i % letters) * step);
}

static void choose_palette(unsigned letters)
{
    uint8_t first = (uint8_t)chance(), step = (uint8_t)(2 * chance() + 1);
    set_palette(letters, first, step);
}

/* as above, or with the letters 0 and 255, or of up to 20 letters that differ in their high bits alone */
static void choose_wide_palette(unsigned letters)
{
    switch (below(4)) {
    case 0: set_palette(letters, 0, 255); break;
    case 1: set_palette(letters, 255, 1); break;
    case 2: set_palette(letters, (uint8_t)chance(), letters <= 2 ? 128 : letters <= 4 ? 64 : 8); break;
    default: choose_palette(letters);
    }
}

enum kind { RANDOM, PERIODIC, FIBONACCI, ONE_LETTER, BROKEN, DOUBLED, KINDS };

/* each Fibonacci word is the one before and then the one before that */
static void fibonacci(uint8_t *out, size_t len)
{
    size_t shorter = 1, longer = 2;
    for (size_t i = 0; i < 2 && i < len; i++)
        out[i] = palette[i];
    while (longer < len) {
        size_t both = longer + shorter;
        memmove(out + longer, out, (both < len ? both : len) - longer);
        shorter = longer;
        longer = both;
    }
}

static void make_word(uint8_t *out, size_t len, enum kind kind)
{
    size_t period = kind == RANDOM || kind == DOUBLED ? len : kind == ONE_LETTER ? 1 : 1 + some_length(len < 40 ? len : 40);
    if (kind == DOUBLED)
        period = (len + 1) / 2;
    for (size_t i = 0; i < len; i++)
        out[i] = i < period ? palette[below(256)] : out[i - period];
    if (kind == FIBONACCI)
        fibonacci(out, len);
    if (kind == BROKEN && len > 0)
        out[below(len)] = palette[below(256)];
}

/* the word over and over, each overlapping the one before by the same border */
static void overlap(uint8_t *out, size_t len, const uint8_t *word, size_t m)
{
    size_t border = below(m);
    while (memcmp(word, word + m - border, border) != 0)
        border--;
    for (size_t i = 0; i < len; i++)
        out[i] = i < m ? word[i] : out[i - (m - border)];
}

/* pieces of the word one behind the other, mostly beginnings */
static void put_pieces(uint8_t *out, size_t len, const uint8_t *word, size_t m)
{
    for (size_t at = 0, piece; at < len; at += piece) {
        size_t from = below(3) ? 0 : below(m);
        piece = 1 + below(m - from);
        piece = piece < len - at ? piece : len - at;
        memcpy(out + at, word + from, piece);
    }
}

/* a text for a word: by itself, or with the word in it, whole, overlapping, or all but a letter, or overlapping by a border throughout, or
   of pieces of the word */
static void make_text(uint8_t *out, size_t len, const uint8_t *word, size_t m, unsigned kind)
{
    unsigned how = kind / KINDS % 5;
    make_word(out, len, (enum kind)(kind % KINDS));
    if (kind % 7 == 3 && m > 0)
        memset(out, word[m - 1], len);
    if (how == 0 || m == 0 || m > len)
        return;
    if (how > 2) {
        (how == 3 ? overlap : put_pieces)(out, len, word, m);
        return;
    }
    for (size_t turns = 1 + below(2 + len / m), at = below(len - m + 1); turns > 0; turns--) {
        memcpy(out + at, word, m);
        if (how == 2 && below(3) == 0)
            out[at + below(m)] = palette[below(256)];
        size_t step = 1 + below(below(2) ? m : 2 * m);
        at = below(8) == 0 ? len - m : at + step <= len - m ? at + step : below(len - m + 1);
    }
}

/* ---- cases ---- */

/* what a case is unless it says otherwise: rooms that are exactly enough for a word of m letters, strangers' numbers in them */
static struct asked ask(enum entry entry, const uint8_t *input, size_t input_len, size_t m)
{
    struct asked a = {.entry = entry, .input = input, .fill = STRANGERS};
    a.len[INPUT] = input_len;
    a.len[ROOM] = m;
    a.len[TABLES] = entries_for(entry, m);
    a.len[SEARCHER] = SEARCHER_BYTES;
    a.len[SETS] = sets_for(m);
    return a;
}

/* no room, one short, exactly enough, more */
static const size_t room_choices = 4;

static size_t room_choice(size_t need, size_t choice)
{
    return choice == 0 ? 0 : choice == 1 ? (need > 0 ? need - 1 : 0) : choice == 2 ? need : need + 1 + (below(2) ? 0 : below(40));
}

static struct outcome run_search(enum entry entry, const uint8_t *input, size_t input_len, size_t m, const uint8_t *text, size_t text_len,
                                 size_t list)
{
    struct asked a = ask(entry, input, input_len, m);
    a.text = text;
    a.len[TEXT] = text_len;
    a.len[FINDS] = list;
    return compare(&a);
}

static struct outcome run_save(unsigned edition, const uint8_t *word, size_t m, size_t out_len)
{
    struct asked a = ask(edition == 2 ? SAVE_CHECKED : SAVE, word, m, m);
    a.len[OUT] = out_len;
    return compare(&a);
}

static struct outcome run_plain(enum entry entry, const uint8_t *input, size_t input_len, size_t m)
{
    struct asked a = ask(entry, input, input_len, m);
    return compare(&a);
}

static struct outcome run_open(const uint8_t *word, size_t m, uint8_t *searcher)
{
    struct asked a = ask(OPEN, word, m, m);
    struct outcome o = compare(&a);
    memcpy(searcher, zones[SEARCHER].marks + zones[SEARCHER].at, SEARCHER_BYTES);
    return o;
}

/* so many bytes of the searcher are lent; it becomes what the library leaves */
static struct outcome run_take(uint8_t *searcher, size_t lent, const uint8_t *piece, size_t len, size_t list)
{
    struct asked a = ask(TAKE, NULL, 0, 0);
    a.searcher = searcher;
    a.text = piece;
    a.len[SEARCHER] = lent;
    a.len[TEXT] = len;
    a.len[FINDS] = list;
    struct outcome o = compare(&a);
    memcpy(searcher, zones[SEARCHER].marks + zones[SEARCHER].at, lent);
    return o;
}

static uint64_t taken_of(const uint8_t *searcher)
{
    const uint8_t *t = searcher + AT_TAKEN;
    return t[0] + ((uint64_t)t[1] << 8) + ((uint64_t)t[2] << 16) + ((uint64_t)t[3] << 24);
}

static void set_taken(uint8_t *searcher, uint64_t taken)
{
    for (int i = 0; i < 4; i++)
        searcher[AT_TAKEN + i] = (uint8_t)(taken >> (8 * i));
}

static struct outcome run_salvage(const uint8_t *text, size_t n, size_t starts, size_t kinds)
{
    struct asked a = ask(SALVAGE, NULL, 0, RIDE_MARK_BYTES);
    a.text = text;
    a.len[TEXT] = n;
    a.len[FINDS] = starts;
    a.len[RIDE_KINDS] = kinds;
    return compare(&a);
}

/* build both oracles, compact rows and a storacle, which has a limit of its own, save in each edition, load back; the last two are refused
   where it is one letter */
static void there_and_back(const uint8_t *word, size_t m)
{
    static uint8_t file[MOST_FILE];
    run_plain(BUILD, word, m, m);
    run_plain(FAILURE_BUILD, word, m, m);
    run_plain(COMPACT_BUILD, word, m, m);
    run_plain(STORACLE_BUILD, word, m, m);
    for (unsigned edition = 1; edition <= 2; edition++) {
        size_t size = file_in(edition, word, m, file);
        run_save(edition, word, m, size);
        run_plain(LOAD, file, size, m);
    }
}

/* each search for a word in a text, with a list of 0, fewer, exactly enough, or more entries, and with a file of either edition; that with
   compact rows only now and then where it takes long, as it has long texts of its own */
static void each_search(const uint8_t *word, size_t m, const uint8_t *text, size_t n)
{
    uint8_t mirrored[MOST_LETTERS], file[MOST_FILE];
    mirror(word, m, mirrored);
    size_t size = file_in((unsigned)below(2) + 1, mirrored, m, file);
    size_t count = run_search(SEARCH, word, m, m, text, n, 0).answer[0];
    size_t lists[3] = {count > 0 ? below(count) : 0, count, count + 1 + below(4)};
    run_search(SEARCH, word, m, m, text, n, lists[below(3)]);
    run_search(TURBO, word, m, m, text, n, lists[below(3)]);
    run_search(FAILURE_SEARCH, word, m, m, text, n, lists[below(3)]);
    if (below(2) || (uint64_t)m * n <= 1 << 12)
        run_search(COMPACT_SEARCH, word, m, m, text, n, lists[below(3)]);
    run_search(SEARCH_FILE, file, size, m, text, n, lists[below(3)]);
}

/* each search with lists of no entry, of one, one fewer than the finds, as many, one more, and with a file of either edition; that with
   compact rows with one of these lists, or with none, where the word is long */
static void every_list(const uint8_t *word, size_t m, const uint8_t *text, size_t n)
{
    uint8_t mirrored[MOST_LETTERS], file[MOST_FILE];
    mirror(word, m, mirrored);
    size_t size = file_in((unsigned)below(2) + 1, mirrored, m, file);
    size_t count = run_search(SEARCH, word, m, m, text, n, 0).answer[0];
    size_t lists[] = {0, 1, count > 0 ? count - 1 : 0, count, count + 1};
    for (size_t i = 0, some = below(10); i < sizeof lists / sizeof *lists; i++) {
        run_search(SEARCH, word, m, m, text, n, lists[i]);
        run_search(TURBO, word, m, m, text, n, lists[i]);
        run_search(FAILURE_SEARCH, word, m, m, text, n, lists[i]);
        if (m < 300 || i == some)
            run_search(COMPACT_SEARCH, word, m, m, text, n, lists[i]);
        run_search(SEARCH_FILE, file, size, m, text, n, lists[i]);
    }
}

/* a file loaded, in rooms for m letters that are exact, sometimes in shorter or longer ones, and sometimes searched with */
static void try_as_it_is(const uint8_t *file, size_t len, size_t m)
{
    static const uint8_t text[] = "abbaabbbaaabbaabbacdeacaacdacbaca";
    struct asked a = ask(LOAD, file, len, m);
    a.fill = (enum fill)below(FILLS);
    compare(&a);
    if (below(4) == 0) {
        a.len[below(2) ? TABLES : ROOM] -= 1;
        compare(&a);
    } else if (below(4) == 0) {
        a.len[TABLES] += 1 + below(80);
        a.len[ROOM] += 1 + below(13);
        compare(&a);
    }
    if (below(2) == 0)
        run_search(SEARCH_FILE, file, len, m, text, sizeof text - 1, below(6));
}

/* the same, and if it is of edition 2 sometimes once more with its last two bytes made the check of those before */
static void try_file(const uint8_t *file, size_t len, size_t m)
{
    static uint8_t sealed[2 * MOST_FILE];
    try_as_it_is(file, len, m);
    if (len <= CHECK_BYTES || file[0] != 2 || below(2) == 0)
        return;
    memcpy(sealed, file, len - CHECK_BYTES);
    try_as_it_is(sealed, seal(sealed, len - CHECK_BYTES), m);
}

/* ---- the scope document's worked examples, whose values are written out ---- */

static void expect(bool right, const char *what)
{
    if (!right) {
        printf("DIFFERENT: the worked example '%s' comes out otherwise\n", what);
        exit(1);
    }
}

static size_t from_hex(const char *hex, uint8_t *out)
{
    size_t len = 0;
    for (unsigned byte; sscanf(hex, "%2x", &byte) == 1; hex += hex[2] == ' ' ? 3 : 2)
        out[len++] = (uint8_t)byte;
    return len;
}

static void example_file(const char *word, const char *hex)
{
    uint8_t file[64];
    size_t size = from_hex(hex, file), m = strlen(word);
    struct outcome o = run_save(file[0], (const uint8_t *)word, m, size);
    expect(o.number == 0 && o.answer[0] == size && memcmp(zones[OUT].marks + zones[OUT].at, file, size) == 0, hex);
    o = run_plain(LOAD, file, size, m);
    expect(o.number == 0 && o.answer[0] == m && memcmp(zones[ROOM].marks + zones[ROOM].at, word, m) == 0, hex);
}

/* loading, and searching with, a file, in rooms for m letters; the offset is UNTOUCHED where the number has none */
static void example_loading(const uint8_t *file, size_t len, size_t m, uint32_t number, uint64_t offset, const char *what)
{
    struct outcome loaded = run_plain(LOAD, file, len, m), sought = run_search(SEARCH_FILE, file, len, m, NULL, 0, 0);
    expect(loaded.number == number && loaded.offset == offset, what);
    expect(sought.number == number && sought.offset == offset, what);
}

static void example_refused(const char *hex, uint32_t number, uint64_t offset)
{
    uint8_t file[64];
    example_loading(file, from_hex(hex, file), MOST_LETTERS, number, offset, hex);
}

static void expect_finds(struct outcome o, const char *word, uint64_t count, const uint32_t *places, uint64_t letters)
{
    expect(o.number == 0 && o.answer[0] == count && o.answer[1] == letters, word);
    expect(memcmp(zones[FINDS].marks + zones[FINDS].at, places, count * sizeof *places) == 0, word);
}

/* by the word, also with compact rows, and by the file of its mirror in each edition */
static void example_search(const char *word, const char *text, uint64_t count, const uint32_t *places, uint64_t letters)
{
    uint8_t mirrored[MOST_LETTERS], file[MOST_FILE];
    const uint8_t *w = (const uint8_t *)word, *t = (const uint8_t *)text;
    size_t m = strlen(word), n = strlen(text);
    mirror(w, m, mirrored);
    expect_finds(run_search(SEARCH, w, m, m, t, n, count), word, count, places, letters);
    expect_finds(run_search(COMPACT_SEARCH, w, m, m, t, n, count), word, count, places, letters);
    for (unsigned edition = 1; edition <= 2; edition++) {
        size_t size = file_in(edition, mirrored, m, file);
        expect_finds(run_search(SEARCH_FILE, file, size, m, t, n, count), word, count, places, letters);
    }
}

static void example_turbo(const char *word, const char *text, uint64_t count, const uint32_t *places, uint64_t letters)
{
    size_t m = strlen(word);
    struct outcome o = run_search(TURBO, (const uint8_t *)word, m, m, (const uint8_t *)text, strlen(text), count);
    expect_finds(o, word, count, places, letters);
}

/* pairs: source and target of each extra arrow in the file's order */
static void example_arrows(const char *word, const uint16_t *pairs, size_t arrows, const uint16_t *supplies)
{
    size_t m = strlen(word), n = m + 1;
    run_plain(BUILD, (const uint8_t *)word, m, m);
    const uint16_t *t = (const uint16_t *)(const void *)(zones[TABLES].marks + zones[TABLES].at);
    expect(t[2 * n + m] == arrows, word);
    for (size_t e = 0; e < arrows; e++)
        expect(t[2 * n + pairs[2 * e]] <= e && e < t[2 * n + pairs[2 * e] + 1] && t[3 * n + e] == pairs[2 * e + 1], word);
    for (size_t i = 1; supplies != NULL && i <= m; i++)
        expect(t[n + i] == supplies[i - 1], word);
}

/* saving so many a's in each edition, with every choice of tables and output: a refusal before the rooms, or else what the rooms say */
static void example_saving(size_t m, uint32_t before_rooms)
{
    static uint8_t word[MOST_LETTERS + 1];
    memset(word, 'a', sizeof word);
    for (size_t c = 0; c < 2 * room_choices * room_choices; c++) {
        size_t tables = c / 2 % room_choices, out = c / 2 / room_choices, size = c % 2 ? m + 5 : m + 3;
        bool short_tables = tables < 2, short_out = out < 2;
        struct asked a = ask(c % 2 ? SAVE_CHECKED : SAVE, word, m, m);
        a.len[TABLES] = room_choice(entries_for(SAVE, m), tables);
        a.len[OUT] = room_choice(size, out);
        a.nulls = below(2);
        struct outcome o = compare(&a);
        expect(o.number == (before_rooms != 0 ? before_rooms : short_tables ? 3 : short_out ? 12 : 0), "saving a's in every room");
        expect(o.number != 0 || o.answer[0] == size, "saving a's in every room");
    }
}

/* Saving in each edition with every length of output: 18 bytes are enough for the one, 20 for the other. */
static void example_outputs(void)
{
    for (size_t out = 0; out <= 24; out++)
        for (unsigned edition = 1; edition <= 2; edition++) {
            size_t size = edition == 2 ? 20 : 18;
            struct outcome o = run_save(edition, (const uint8_t *)"abbbaab", 7, out);
            expect(o.number == (out < size ? 12 : 0) && (o.number != 0 || o.answer[0] == size), "saving in every length of output");
        }
}

/* loading, and searching with, a file that is refused whatever word room and tables are lent */
static void example_in_every_room(const uint8_t *file, size_t len, size_t m, uint32_t number, uint64_t offset)
{
    for (size_t c = 0; c < 2 * room_choices * room_choices; c++) {
        struct asked a = ask(c % 2 ? LOAD : SEARCH_FILE, file, len, m);
        a.len[TABLES] = room_choice(entries_for(LOAD, m), c / 2 % room_choices);
        a.len[ROOM] = room_choice(m, c / 2 / room_choices);
        a.nulls = below(2);
        struct outcome o = compare(&a);
        expect(o.number == number && o.offset == offset, "a file that is refused in every room");
    }
}

static void example_least_file(const uint8_t *file, unsigned edition, size_t len)
{
    struct outcome saved = run_save(edition, file + 2, LEAST_SAVED, len);
    expect(saved.number == 0 && memcmp(zones[OUT].marks + zones[OUT].at, file, len) == 0, "saving twice the same letter");
    example_loading(file, len, LEAST_SAVED, 0, UNTOUCHED, "the file of twice the same letter");
}

/* One letter has no file, whichever it is. Twice the same letter has the least one, of 5 bytes in edition 1 and of 7 in edition 2. */
static void examples_of_least_files(void)
{
    for (unsigned letter = 0; letter < 256; letter++) {
        uint8_t one[LEAST_FILE + CHECK_BYTES] = {1, 1, (uint8_t)letter};
        uint8_t two[LEAST_FILE + CHECK_BYTES] = {1, 2, (uint8_t)letter, (uint8_t)letter};
        for (size_t len = 2; len <= LEAST_FILE; len++)
            example_in_every_room(one, len, 1, 8, 1);
        example_least_file(two, 1, LEAST_FILE);
        one[0] = two[0] = 2;
        seal(one, LEAST_FILE - 1);
        for (size_t len = 2; len <= sizeof one; len++)
            example_in_every_room(one, len, 1, 8, 1);
        example_least_file(two, 2, seal(two, LEAST_FILE));
    }
    example_outputs();
    example_saving(0, 1);
    example_saving(1, 17);
    example_saving(2, 0);
    example_saving(MOST_LETTERS + 1, 2);
}

/* a file: its first bytes, so many letters, each an a, and the bytes behind */
static void example_long(const char *front, size_t letters, const char *behind, size_t m, uint32_t number, uint64_t offset)
{
    uint8_t file[MOST_FILE];
    size_t len = from_hex(front, file);
    memset(file + len, 'a', letters);
    len += letters;
    len += from_hex(behind, file + len);
    example_loading(file, len, m, number, offset, front);
}

/* a declared length, m, that is let through to the fields behind it; with the edition it has three bytes */
static void example_goes_on(const char *front, size_t m)
{
    example_long(front, 0, "", m, 5, 3);
    example_long(front, m - 1, "", m, 5, m + 2);
    example_long(front, m - 1, "", m - 1, 5, m + 2);
    example_long(front, m, "", m - 1, 3, UNTOUCHED);
    example_long(front, m, "", m, 5, m + 3);
    example_long(front, m, "00", m, 0, UNTOUCHED);
    example_long(front, m, "00 61", m, 11, m + 4);
    example_long(front, m, "01", m, 5, m + 4);
    example_long(front, m, "01 00 00", m, 10, m + 4);
    example_long(front, m + 1, "00", m, 5, m + 5);
}

/* the same in edition 2; the check is given, and stands behind the count of no arrows */
static void example_goes_on_checked(const char *front, size_t m, const char *check)
{
    char right[16], more[16], wrong[16];
    size_t at = m + 4;
    snprintf(right, sizeof right, "00 %s", check);
    snprintf(more, sizeof more, "00 %s 00", check);
    snprintf(wrong, sizeof wrong, "00 %.2s 01", check);
    example_long(front, 0, "", m, 5, 3);
    example_long(front, m - 1, "", m - 1, 5, m + 2);
    example_long(front, m, "", m - 1, 3, UNTOUCHED);
    example_long(front, m, "", m, 5, m + 3);
    example_long(front, m, "00", m, 5, at);
    example_long(front, m, "00 61", m, 5, at + 1);
    example_long(front, m, wrong, m, 13, at);
    example_long(front, m, wrong, m - 1, 3, UNTOUCHED);
    example_long(front, m, right, m, 0, UNTOUCHED);
    example_long(front, m, more, m, 11, at + 2);
    example_long(front, m, "01 00 00", m, 10, at);
}

/* a word of so many letters, each an a, built, saved and searched for */
static void example_word(size_t m, uint32_t number)
{
    static uint8_t text[MOST_LETTERS + 8];
    memset(text, 'a', sizeof text);
    struct outcome built = run_plain(BUILD, text, m, m), saved = run_save(1, text, m, ALWAYS_ENOUGH);
    struct outcome checked = run_save(2, text, m, ALWAYS_ENOUGH + CHECK_BYTES);
    struct outcome sought = run_search(SEARCH, text, m, m, text, m + 2, 3), turbo = run_search(TURBO, text, m, m, text, m + 2, 3);
    struct outcome failing = run_plain(FAILURE_BUILD, text, m, m), by_failing = run_search(FAILURE_SEARCH, text, m, m, text, m + 2, 3);
    struct outcome rows = run_plain(COMPACT_BUILD, text, m, m), by_rows = run_search(COMPACT_SEARCH, text, m, m, text, m + 2, 3);
    expect(built.number == number && saved.number == number && sought.number == number, "a word of many letters");
    expect(number != 0 || (built.answer[0] == m && saved.answer[0] == m + 4), "a word of many letters");
    expect(checked.number == number && (number != 0 || checked.answer[0] == m + 6), "a word of many letters");
    expect(number != 0 || (sought.answer[0] == 3 && sought.answer[1] == 3 * m), "a word of many letters");
    expect(failing.number == number && by_failing.number == number, "a word of many letters");
    expect(number != 0 || (by_failing.answer[0] == 3 && by_failing.answer[1] == 3 * m && by_failing.answer[2] == 0), "a word of many letters");
    expect(turbo.number == number && (number != 0 || (turbo.answer[0] == 3 && turbo.answer[1] == m + m + 2)), "a word of many letters");
    expect(rows.number == number && by_rows.number == number, "a word of many letters");
    expect(number != 0 || (by_rows.answer[0] == 3 && by_rows.answer[1] == 3 * m), "a word of many letters");
}

static void examples_at_the_limit(void)
{
    example_goes_on("01 FF 07", 1023);
    example_goes_on("01 80 08", 1024);
    example_goes_on("01 81 08", 1025);
    example_goes_on("01 FF 1F", 4095);
    example_goes_on("01 80 20", 4096);
    example_goes_on_checked("02 80 08", 1024, "58 A3");
    example_goes_on_checked("02 81 08", 1025, "76 B7");
    example_goes_on_checked("02 FF 1F", 4095, "ED 29");
    example_goes_on_checked("02 80 20", 4096, "D0 C9");
    example_long("02 81 20", 0, "", MOST_LETTERS + 1, 8, 1);
    example_long("02 81 20", 4097, "00 00 00", MOST_LETTERS + 1, 8, 1);
    example_long("01 81 20", 0, "", MOST_LETTERS + 1, 8, 1);
    example_long("01 81 20", 4096, "", MOST_LETTERS, 8, 1);
    example_long("01 81 20", 4097, "00", MOST_LETTERS + 1, 8, 1);
    example_word(1024, 0);
    example_word(1025, 0);
    example_word(4095, 0);
    example_word(4096, 0);
    example_word(4097, 2);
}

/* the scope document's refused files, and where each is broken */
static void examples_refused(void)
{
    example_refused("", 5, 0);
    example_refused("01 00", 8, 1);
    example_refused("01 01 61 00", 8, 1);
    example_refused("01 FF FF FF FF 0F", 8, 1);
    example_refused("01 83 00 61 61 61 00", 6, 2);
    example_refused("01 03 61 61 61 03", 9, 5);
    example_refused("01 03 61 61 61", 5, 5);
    example_refused("01 03 61 61 61 01 00 00", 10, 6);
    example_refused("01 03 61 61 61 00 00", 11, 6);
    example_refused("01 02 61 62 00", 10, 5);
}

/* numbers that are cut, badly spelled or wrong, and letters that are missing */
static void examples_of_fronts(void)
{
    example_refused("00", 7, 0);
    example_refused("03 03 61 61 61 00", 7, 0);
    example_refused("80 01", 7, 0);
    example_refused("80", 5, 1);
    example_refused("81 00", 6, 1);
    example_refused("FF FF FF FF 10", 6, 4);
    example_refused("01", 5, 1);
    example_refused("01 80", 5, 2);
    example_refused("01 80 80 80 80", 5, 5);
    example_refused("01 80 80 80 80 00", 6, 5);
    example_refused("01 FF FF FF FF 8F 00", 6, 5);
    example_refused("01 01", 8, 1);
    example_refused("01 01 61 01 00 00", 8, 1);
    example_refused("01 01 61 80 00", 8, 1);
    example_refused("01 81 00 61 00", 6, 2);
    example_refused("03 01 61 00", 7, 0);
    example_refused("01 02", 5, 2);
    example_refused("01 02 61", 5, 3);
    example_refused("01 03", 5, 2);
    example_refused("01 03 61 61", 5, 4);
}

/* the letters of abbbaab and what stands behind them: in its own file 04 00 00 01 03 01 01 01 00, the count at 9 and the arrows at 10,
   12, 14 and 16 */
static void example_behind(const char *behind, uint32_t number, uint64_t offset)
{
    uint8_t file[64];
    size_t len = from_hex("01 07 61 62 62 62 61 61 62", file);
    len += from_hex(behind, file + len);
    example_loading(file, len, 7, number, offset, behind);
}

static void examples_of_arrows(void)
{
    example_refused("01 02 61 61", 5, 4);
    example_refused("01 02 61 61 02", 9, 4);
    example_refused("01 02 61 61 01", 5, 5);
    example_refused("01 02 61 61 01 00 00", 10, 5);
    example_refused("01 02 61 61 00 00", 11, 5);
    example_behind("84", 5, 10);
    example_behind("84 00 00 00", 6, 10);
    example_behind("07 00 00", 9, 9);
    example_behind("80 01 00 00", 9, 9);
    example_behind("04 00 00 01", 5, 13);
    example_behind("04 00 00 01 83 00 01 01 01 00", 6, 14);
    example_behind("04 00 00 02 83 00 01 01 01 00", 6, 14);
    example_behind("04 00 00 02", 5, 13);
    example_behind("04 00 00 02 03 01 01 01 00", 10, 12);
    example_behind("04 00 00 01 02 01 01 01 00", 10, 12);
    example_behind("04 00 00 01 83 01 01 01 01 00", 10, 12);
    example_behind("04 00 00 01 03 81 01 01 01 00", 10, 14);
    example_behind("04 00 00 01 03 01 01 01 01", 10, 16);
    example_behind("05 00 00 01 03 01 01 01 00 00 00", 10, 18);
    example_behind("03 00 00 01 03 01 01", 10, 16);
    example_behind("03 00 00 01 03 01 01 01 00", 10, 16);
    example_behind("00", 10, 10);
    example_behind("00 00 00 01 03 01 01 01 00", 10, 10);
    example_behind("04 00 00 01 03 01 01 01 00 00", 11, 18);
    example_behind("04 00 00 01 03 01 01 01 00 61 62 63", 11, 18);
}

/* Files of edition 2. Up to the arrows all is as in edition 1. Behind them, 00 36 is the check of 02 02 61 61 00. */
static void examples_of_checks(void)
{
    example_refused("02", 5, 1);
    example_refused("82 00", 6, 1);
    example_refused("82", 5, 1);
    example_refused("82 01", 7, 0);
    example_refused("02 00", 8, 1);
    example_refused("02 01 61 00", 8, 1);
    example_refused("02 01 61 00 79 E8", 8, 1);
    example_refused("02 02 61", 5, 3);
    example_refused("02 02 61 61", 5, 4);
    example_refused("02 02 61 61 02 00 36", 9, 4);
    example_refused("02 02 61 61 80 00 36", 6, 5);
    example_refused("02 02 61 61 00", 5, 5);
    example_refused("02 02 61 61 00 00", 5, 6);
    example_refused("02 02 61 61 00 36", 5, 6);
    example_refused("02 02 61 61 00 36 00", 13, 5);
    example_refused("02 02 61 61 00 00 00", 13, 5);
    example_refused("02 02 61 61 00 01 36", 13, 5);
    example_refused("02 02 61 61 00 00 37", 13, 5);
    example_refused("02 02 61 61 00 44 36", 13, 5);
    example_refused("02 02 61 61 00 00 37 00", 13, 5);
    example_refused("02 02 61 61 00 36 00 00 36", 13, 5);
    example_refused("02 02 61 61 00 00 36 00", 11, 7);
    example_refused("02 02 61 61 00 00 36 00 00", 11, 7);
    example_refused("02 02 61 61 00 00 36 00 36", 11, 7);
    example_refused("02 02 61 61 00 00 36 61 62 63", 11, 7);
    example_refused("01 02 61 61 00 00 36", 11, 5);
    example_refused("01 02 61 61 00 44 36", 11, 5);
    example_refused("03 02 61 61 00 3D F6", 7, 0);
    example_refused("00 02 61 61 00 79 F6", 7, 0);
    example_refused("02 03 61 61 61 01 00 00 49 5C", 10, 6);
}

/* abbbaab in edition 2, whose check is FE 2F; arrows that are missing or wrong come before the check, right or not, and before its cut */
static void example_behind_checked(const char *behind, uint32_t number, uint64_t offset)
{
    uint8_t file[64];
    size_t len = from_hex("02 07 61 62 62 62 61 61 62", file);
    len += from_hex(behind, file + len);
    example_loading(file, len, 7, number, offset, behind);
}

static void examples_of_arrows_and_checks(void)
{
    example_refused("02 02 61 62 00", 10, 5);
    example_refused("02 02 61 62 00 00", 10, 5);
    example_refused("02 02 61 62 00 00 C6", 10, 5);
    example_refused("02 02 61 62 00 00 C6 00", 10, 5);
    example_refused("02 02 61 62 00 D1 92", 10, 5);
    example_behind_checked("00", 10, 10);
    example_behind_checked("00 95 10", 10, 10);
    example_behind_checked("03 00 00 01 03 01 01", 10, 16);
    example_behind_checked("03 00 00 01 03 01 01 DE", 10, 16);
    example_behind_checked("03 00 00 01 03 01 01 DE 6A", 10, 16);
    example_behind_checked("03 00 00 01 03 01 01 DE 6B", 10, 16);
    example_behind_checked("03 00 00 01 03 01 01 DE 6A 00", 10, 16);
    example_behind_checked("04 00 00 01 04 01 01 01 00 4B EF", 10, 12);
    example_behind_checked("04 00 00 01 04 01 01 01 00 FE 2F", 10, 12);
    example_behind_checked("04 00 00 01 03 01 01 01", 5, 17);
    example_behind_checked("04 00 00 01 03 01 01 01 00", 5, 18);
    example_behind_checked("04 00 00 01 03 01 01 01 00 FE", 5, 19);
    example_behind_checked("04 00 00 01 03 01 01 01 00 FE 2E", 13, 18);
    example_behind_checked("04 00 00 01 03 01 01 01 00 FE 2E 2F", 13, 18);
    example_behind_checked("04 00 00 01 03 01 01 01 00 0E 6B", 13, 18);
    example_behind_checked("04 00 00 01 03 01 01 01 00 FE 2F 00", 11, 20);
    example_behind_checked("05 00 00 01 03 01 01 01 00 FE 2F", 5, 20);
    example_behind_checked("05 00 00 01 03 01 01 01 00 FE 2F 00", 10, 18);
}

/* the catalogue's check of 123456789 is BB3D; the words of two letters are chosen for their checks */
static void examples_of_dividing(void)
{
    uint8_t digits[] = "1234567890", file[16];
    expect(seal(digits, 9) == 11 && digits[9] == 0x3D && digits[10] == 0xBB, "the check of 123456789");
    expect(ends_with_check(digits, 11) && !ends_with_check(digits, 10), "the check of 123456789");
    static const char *const files[] = {"02 02 83 E1 01 00 00 00 00", "02 02 C6 15 01 00 00 FF FF", "02 02 D0 F4 01 00 00 80 00",
                                        "02 02 25 CB 01 00 00 00 01", "02 02 86 11 01 00 00 FF 00"};
    for (size_t i = 0; i < sizeof files / sizeof *files; i++) {
        size_t len = from_hex(files[i], file);
        struct outcome o = run_save(2, file + 2, 2, len);
        expect(o.number == 0 && memcmp(zones[OUT].marks + zones[OUT].at, file, len) == 0, files[i]);
        example_loading(file, len, 2, 0, UNTOUCHED, files[i]);
    }
}

/* 4,095 a's and a b: each of the first 4,095 states has an arrow to the last. 128 of the arrows have two bytes and the others three, so
   the file has 16,258 bytes. */
static void example_last_arrow(void)
{
    static uint8_t word[4096], file[MOST_FILE];
    const char *what = "the last arrow of 4,096 letters";
    memset(word, 'a', 4095);
    word[4095] = 'b';
    size_t len = file_of(word, 4096, file);
    expect(len == 16258 && file[16256] == 1 && file[16257] == 0, what);
    example_loading(file, len, 4096, 0, UNTOUCHED, what);
    example_loading(file, len - 1, 4096, 5, 16257, what);
    example_loading(file, len - 2, 4096, 5, 16256, what);
    file[16257] = 1;
    example_loading(file, len, 4096, 10, 16256, what);
    file[16256] = 0;
    example_loading(file, len, 4096, 10, 16256, what);
    file[16257] = 0;
    example_loading(file, len, 4096, 10, 16256, what);
    len = checked_file_of(word, 4096, file);
    expect(len == 16260 && file[16258] == 0xF2 && file[16259] == 0x1D, what);
    example_loading(file, len, 4096, 0, UNTOUCHED, what);
    example_loading(file, len - 1, 4096, 5, 16259, what);
    example_loading(file, len - 2, 4096, 5, 16258, what);
    file[16259] ^= 0x80;
    example_loading(file, len, 4096, 13, 16258, what);
    file[16257] = 1;
    example_loading(file, len, 4096, 10, 16256, what);
}

static void examples_of_loading(void)
{
    examples_refused();
    examples_of_fronts();
    examples_of_arrows();
    examples_of_checks();
    examples_of_arrows_and_checks();
    examples_of_dividing();
    example_last_arrow();
    examples_at_the_limit();
    examples_of_least_files();
}

/* a stream whose pieces are parted by bars: the finds of all of them, and how many letters are kept at the end */
static void example_stream(const char *word, const char *pieces, uint64_t count, const uint32_t *places, size_t kept)
{
    uint8_t searcher[SEARCHER_BYTES];
    uint64_t found = 0, taken = 0;
    expect(run_open((const uint8_t *)word, strlen(word), searcher).number == 0, word);
    while (pieces != NULL) {
        const char *bar = strchr(pieces, '|');
        size_t len = bar != NULL ? (size_t)(bar - pieces) : strlen(pieces);
        struct outcome o = run_take(searcher, SEARCHER_BYTES, (const uint8_t *)pieces, len, len);
        expect(o.number == 0 && found + o.answer[0] <= count, pieces);
        expect(memcmp(zones[FINDS].marks + zones[FINDS].at, places + found, o.answer[0] * sizeof *places) == 0, pieces);
        found += o.answer[0];
        taken += len;
        pieces = bar != NULL ? bar + 1 : NULL;
    }
    expect(found == count && searcher[AT_KEPT] == kept && taken_of(searcher) == taken, word);
}

static void example_opened(const char *word, const char *borders)
{
    uint8_t searcher[SEARCHER_BYTES], right[SEARCHER_BYTES] = {0};
    size_t m = strlen(word);
    memcpy(right + AT_LETTERS, word, m);
    from_hex(borders, right + AT_BORDERS);
    right[AT_LENGTH] = (uint8_t)m;
    expect(run_open((const uint8_t *)word, m, searcher).number == 0 && memcmp(searcher, right, SEARCHER_BYTES) == 0, word);
}

/* the stream's last byte ends a find, and nothing may follow but an empty piece; and what nobody can have made is refused before that */
static void example_at_the_end(void)
{
    static const uint8_t ab[] = "ab";
    static const uint32_t place = MOST_TEXT - 2;
    uint8_t searcher[SEARCHER_BYTES], forged[SEARCHER_BYTES];
    run_open(ab, 2, searcher);
    set_taken(searcher, MOST_TEXT - 2);
    expect(run_take(searcher, SEARCHER_BYTES, ab, 1, 1).answer[0] == 0, "a stream's last byte but one");
    expect(run_take(searcher, SEARCHER_BYTES, ab, 2, 1).number == 4, "a byte too many");
    expect(run_take(searcher, SEARCHER_BYTES, ab + 1, 1, 1).answer[0] == 1, "a stream's last byte");
    expect(memcmp(zones[FINDS].marks + zones[FINDS].at, &place, sizeof place) == 0, "a stream's last find");
    expect(taken_of(searcher) == MOST_TEXT && run_take(searcher, SEARCHER_BYTES, ab, 0, 1).number == 0, "an empty piece at the end");
    expect(run_take(searcher, SEARCHER_BYTES, ab, 1, 1).number == 4, "a byte behind the last");
    memcpy(forged, searcher, SEARCHER_BYTES);
    forged[AT_KEPT] = 2;
    expect(run_take(forged, SEARCHER_BYTES, ab, 1, 1).number == 16, "all of the word kept");
    memset(forged, 0, SEARCHER_BYTES);
    expect(run_take(forged, SEARCHER_BYTES, ab, 1, 1).number == 16, "zeros");
    expect(run_take(searcher, SEARCHER_BYTES - 1, ab, 0, 1).number == 16, "a byte too few of a searcher");
}

static void examples_of_streams(void)
{
    uint8_t word[MOST_STREAMED + 1], searcher[SEARCHER_BYTES];
    memset(word, 'a', sizeof word);
    expect(run_open(word, 0, searcher).number == 1, "no word");
    expect(run_open(word, 64, searcher).number == 0 && searcher[AT_BORDERS + 63] == 63, "64 letters");
    expect(run_open(word, 65, searcher).number == 2, "65 letters");
    example_opened("a", "00");
    example_opened("abaab", "00 00 01 01 02");
    example_opened("abacabadabacaba", "00 00 01 00 01 02 03 00 01 02 03 04 05 06 07");
    example_stream("aba", "ababa", 2, (const uint32_t[]){0, 2}, 1);
    example_stream("aba", "ab||aba|", 2, (const uint32_t[]){0, 2}, 1);
    example_stream("aba", "ab|x|aba|b", 1, (const uint32_t[]){3}, 2);
    example_stream("aa", "a|a|a|a", 3, (const uint32_t[]){0, 1, 2}, 1);
    example_stream("abc", "|xxab|", 0, (const uint32_t[]){0}, 2);
    example_stream("lap-lap", "..lap-lap-l|ap lap-lap", 3, (const uint32_t[]){2, 6, 14}, 3);
    example_at_the_end();
}

/* Backward and forward letters of each window: 3 and 3, then 2 and 2 in the first; 3 and 3, the last of them behind the window's end, where
   the next window would not end inside the text, in the second; 2 and 1; 2 and 2. */
static void examples_of_turbo(void)
{
    example_turbo("aba", "ababa", 2, (const uint32_t[]){0, 2}, 10);
    example_turbo("aaaa", "abaaa", 0, (const uint32_t[]){0}, 6);
    example_turbo("aa", "ba", 0, (const uint32_t[]){0}, 3);
    example_turbo("ab", "ab", 1, (const uint32_t[]){0}, 4);
    example_turbo("a", "aaaa", 4, (const uint32_t[]){0, 1, 2, 3}, 8);
    example_turbo("aa", "aaaa", 3, (const uint32_t[]){0, 1, 2}, 6);
    example_turbo("ab", "aab", 1, (const uint32_t[]){1}, 4);
    example_turbo("ab", "abxa", 1, (const uint32_t[]){0}, 7);
    example_turbo("abc", "xxxxxx", 0, (const uint32_t[]){0}, 2);
    example_turbo("abc", "ab", 0, (const uint32_t[]){0}, 0);
}

static void example_failure_search(const char *word, const char *text, uint64_t count, const uint32_t *places, uint64_t letters,
                                   uint64_t failures)
{
    size_t m = strlen(word);
    struct outcome o = run_search(FAILURE_SEARCH, (const uint8_t *)word, m, m, (const uint8_t *)text, strlen(text), count);
    expect_finds(o, word, count, places, letters);
    expect(o.answer[2] == failures, word);
}

/* pairs: source and target of each failure arrow; slot, where it is not NULL: those of the one symbol arrow beside the spine */
static void example_failure_oracle(const char *word, const uint16_t *pairs, size_t failures, const uint16_t *slot)
{
    size_t m = strlen(word), n = m + 1;
    uint16_t right[10 * 64] = {0};
    for (size_t i = 1; i <= m; i++)
        right[i] = (uint8_t)word[i - 1];
    for (size_t i = 0; i < failures; i++)
        right[n + pairs[2 * i]] = pairs[2 * i + 1];
    if (slot != NULL) {
        right[2 * n + slot[0]] = 1;
        right[4 * n + 1] = slot[1];
    }
    struct outcome o = run_plain(FAILURE_BUILD, (const uint8_t *)word, m, m);
    expect(o.number == 0 && o.answer[0] == m && memcmp(left_table(), right, 10 * n * sizeof *right) == 0, word);
}

/* every choice of table room, that of the other oracle among them */
static void example_failure_rooms(void)
{
    static const uint8_t word[] = "abcacdace";
    for (size_t m = 1; m <= 9; m++)
        for (size_t room = 0; room <= 10 * (m + 1) + 1; room++) {
            struct asked built = ask(FAILURE_BUILD, word, m, m), sought = ask(FAILURE_SEARCH, word, m, m);
            built.len[TABLES] = sought.len[TABLES] = room;
            sought.text = word;
            sought.len[TEXT] = 9;
            uint32_t right = room < 10 * (m + 1) ? 3 : 0;
            expect(compare(&built).number == right && compare(&sought).number == right, "the room of a failure oracle");
        }
}

/* figure is 003's 4a; the last window but one is read whole, and the word does not stand there */
static void examples_of_failure(void)
{
    static const uint16_t first[] = {0, 1, 1, 2, 2, 5, 3, 5, 5, 8}, figure[] = {0, 1, 1, 2, 2, 4};
    static const uint16_t other[] = {0, 1, 1, 3, 2, 5, 3, 5, 5, 7, 7, 9, 9, 13}, slot[] = {13, 13};
    example_failure_oracle("a", NULL, 0, NULL);
    example_failure_oracle("aaa", NULL, 0, NULL);
    example_failure_oracle("ab", first, 1, NULL);
    example_failure_oracle("abcaab", figure, 3, NULL);
    example_failure_oracle("abcacdace", first, 5, NULL);
    example_failure_oracle("abadbcaabdbaba", other, 7, slot);
    example_failure_search("a", "aba", 2, (const uint32_t[]){0, 2}, 3, 0);
    example_failure_search("aa", "aaaa", 3, (const uint32_t[]){0, 1, 2}, 6, 0);
    example_failure_search("ab", "ac", 0, (const uint32_t[]){0}, 1, 1);
    example_failure_search("ab", "aab", 1, (const uint32_t[]){1}, 4, 1);
    example_failure_search("aba", "ababa", 2, (const uint32_t[]){0, 2}, 6, 0);
    example_failure_search("abc", "xxxxxx", 0, (const uint32_t[]){0}, 2, 4);
    example_failure_search("abc", "ab", 0, (const uint32_t[]){0}, 0, 0);
    example_failure_search("ababdbaacbdaba", "abbbbbbbabdbaa", 0, (const uint32_t[]){0}, 14, 3);
    example_failure_search("ababdbaacbdaba", "ababdbaacbdaba", 1, (const uint32_t[]){0}, 14, 0);
    example_failure_rooms();
}

/* pairs: source and target of each arrow, where they are not NULL */
static void example_storacle(const char *word, const uint16_t *pairs, size_t arrows)
{
    size_t m = strlen(word), n = m + 1, many = 0;
    uint16_t right[16 * 16] = {0};
    struct outcome o = run_plain(STORACLE_BUILD, (const uint8_t *)word, m, m);
    for (size_t i = 2 * n; i < n * (m + 6); i++)
        many += left_table()[i] != 0;
    expect(o.number == 0 && o.answer[0] == m && many == arrows, word);
    for (size_t i = 1; i <= m && pairs != NULL; i++) {
        right[i] = (uint8_t)word[i - 1];
        right[n + i] = (uint16_t)(strchr(word, word[i - 1]) - word + 1);
    }
    for (size_t i = 0; i < arrows && pairs != NULL; i++)
        right[(2 + pairs[2 * i]) * n + right[n + pairs[2 * i + 1]]] = pairs[2 * i + 1];
    expect(pairs == NULL || memcmp(left_table(), right, n * (m + 6) * sizeof *right) == 0, word);
}

static uint32_t said_of_storacle(const uint8_t *word, size_t m, size_t room)
{
    struct asked a = ask(STORACLE_BUILD, word, m, m);
    a.len[TABLES] = room;
    a.fill = (enum fill)below(FILLS);
    a.nulls = below(2);
    return compare(&a).number;
}

/* every room up to some more than is needed, and of some lengths past 16 bits; words of the most letters, of one fewer and of more */
static void example_storacle_rooms(void)
{
    static const uint8_t word[PAST_16_BITS + 9] = "abcacdace";
    static const size_t lengths[] = {127, 128, 129, 130, 255, 256, 257, 265, 384, 4096, 65535, 65536, 65545};
    for (size_t m = 0; m <= 9; m++)
        for (size_t room = 0, need = (m + 1) * (m + 6); room <= need + 9; room++) {
            uint32_t right = m == 0 ? 1 : room < need ? 3 : 0;
            expect(said_of_storacle(word, m, room) == right, "the room of a storacle");
            expect(said_of_storacle(word, m, PAST_16_BITS + room) == (m == 0 ? 1 : 0), "the room of a storacle");
        }
    for (size_t l = 0; l < sizeof lengths / sizeof *lengths; l++) {
        const size_t m = lengths[l], rooms[] = {0, 13, 10 * 129, 17023, 17024, 17285, 17286, 17287, 17549, 17550, 17551, 65536, 99999};
        for (size_t r = 0; r < sizeof rooms / sizeof *rooms; r++) {
            uint32_t right = m > 128 ? 2 : rooms[r] < (m == 127 ? 17024 : 17286) ? 3 : 0;
            expect(said_of_storacle(word, m, rooms[r]) == right, "the room of a storacle of many letters");
        }
    }
}

/* more than 3m, which few words have */
static const char many_arrows[] = "abcdaebcdacbadbddcaabbf";

static void examples_of_storacles(void)
{
    static const uint16_t first[] = {0, 1, 1, 2, 0, 2};
    static const uint16_t other[] = {0, 1, 1, 2, 2, 3, 3, 4, 4, 5, 5, 6, 6, 7, 7, 8, 8, 9, 0, 2, 0, 3, 1, 3, 3, 6, 0, 6, 3, 9, 0, 9};
    example_storacle("a", first, 1);
    example_storacle("aa", first, 2);
    example_storacle("ab", first, 3);
    example_storacle("abcacdace", other, 16);
    example_storacle(many_arrows, NULL, 70);
    example_storacle_rooms();
}

/* the compact rows of a word, built, and left by a search for its mirror */
static void example_rows(const uint8_t *word, size_t m, const uint64_t *sets, const uint16_t *targets)
{
    uint8_t mirrored[16];
    size_t n = m + 1;
    mirror(word, m, mirrored);
    for (int turn = 0; turn < 2; turn++) {
        struct outcome o = turn == 0 ? run_plain(COMPACT_BUILD, word, m, m) : run_search(COMPACT_SEARCH, mirrored, m, m, word, m, 1);
        expect(o.number == 0 && memcmp(left_sets(), sets, 4 * n * sizeof *sets) == 0, "the sets of compact rows");
        expect(memcmp(left_table(), targets, 10 * n * sizeof *targets) == 0, "the targets of compact rows");
    }
}

static uint32_t said_with_rooms(enum entry entry, const uint8_t *word, size_t m, size_t sets, size_t targets)
{
    struct asked a = ask(entry, word, m, m);
    a.text = word;
    a.len[TEXT] = 9;
    a.len[SETS] = sets;
    a.len[TABLES] = targets;
    a.len[FINDS] = 2;
    a.fill = (enum fill)below(FILLS);
    a.nulls = below(2);
    return compare(&a).number;
}

/* 3 comes exactly where one of the rooms is too short, whichever it is */
static void example_rooms_of_rows(size_t m, size_t sets, size_t targets)
{
    static const uint8_t word[] = "abcacdace";
    uint32_t right = sets < 4 * (m + 1) || targets < 10 * (m + 1) ? 3 : 0;
    expect(said_with_rooms(COMPACT_BUILD, word, m, sets, targets) == right, "the rooms of compact rows");
    expect(said_with_rooms(COMPACT_SEARCH, word, m, sets, targets) == right, "the rooms of compact rows");
}

/* Each room of every length up to some more than is needed, where the other has none, one too few, just enough and more, and of some
   lengths past 16 bits; for words of one and two letters also each with each. */
static void example_every_room_of_rows(void)
{
    static const size_t past[] = {65535, 65536, 65537, 65536 + 7, 65536 + 19, 65536 + 39, 65536 + 99, 65536 + 100, 131072};
    for (size_t m = 1; m <= 9; m++) {
        size_t sets = 4 * (m + 1), targets = 10 * (m + 1);
        for (size_t c = 0; c < room_choices; c++) {
            for (size_t room = 0; room <= sets + 9; room++)
                example_rooms_of_rows(m, room, room_choice(targets, c));
            for (size_t room = 0; room <= targets + 9; room++)
                example_rooms_of_rows(m, room_choice(sets, c), room);
            for (size_t i = 0; m % 8 == 1 && i < sizeof past / sizeof *past; i++) {
                example_rooms_of_rows(m, past[i], room_choice(targets, c));
                example_rooms_of_rows(m, room_choice(sets, c), past[i]);
            }
        }
        for (size_t c = 0; m <= 2 && c < (sets + 2) * (targets + 2); c++)
            example_rooms_of_rows(m, c % (sets + 2), c / (sets + 2));
    }
}

/* abbbaab, whose letters are bits 33 and 34 of each second word. Then FF 00 40 00: from state 0 arrows on 00 to 2, on 40 to 3 and on FF to
   1, so that the targets do not rise. */
static void examples_of_rows(void)
{
    static const uint64_t a = UINT64_C(1) << 33, b = UINT64_C(1) << 34;
    const uint64_t first[32] = {0, a + b, 0, 0, 0, a + b, 0, 0, 0, a + b, 0, 0, 0, a + b, 0, 0, 0, a, 0, 0, 0, a, 0, 0, 0, b};
    static const uint16_t targets[80] = {
        0, 'a', 'b', 'b', 'b', 'a', 'a', 'b',                                                                      /* letters */
        0, 0, 0, 2, 3, 1, 1, 2,                                                                                    /* supplies */
        0, 0, 0, 0, 0, 0, 0, 0, 0, 0, 0, 0, 0, 0, 0, 0,                                                            /* nothing */
        0, 0, 2, 2, 2, 2, 4, 4, 4, 4, 6, 6, 6, 6, 8, 8, 8, 8, 9, 9, 9, 9, 10, 10, 10, 10, 11, 11, 11, 11, 11, 11, /* ones before */
        1, 2, 6, 2, 5, 3, 5, 4, 5, 6, 7};
    static const uint64_t other[20] = {1, 1, 0, UINT64_C(1) << 63, 1, 0, 0, 0, 0, 1, 0, 0, 1};
    static const uint16_t leads[50] = {
        0, 255, 0, 64, 0,                                           /* letters */
        0, 0, 0, 0, 2,                                              /* supplies */
        0, 0, 0, 0, 0, 0, 0, 0, 0, 0,                               /* nothing */
        0, 1, 2, 2, 3, 4, 4, 4, 4, 4, 5, 5, 5, 6, 6, 6, 6, 6, 6, 6, /* ones before */
        2, 3, 1, 2, 3, 4};
    example_rows((const uint8_t *)"abbbaab", 7, first, targets);
    example_rows((const uint8_t *)"\xFF\0@\0", 4, other, leads);
    example_every_room_of_rows();
}

/* kinds: a w for each ride that is whole, a c for each that is cut; the starts belong to them */
static void example_rides(const char *hex, const char *kinds, const uint32_t *starts)
{
    uint8_t text[64];
    size_t n = from_hex(hex, text), count = strlen(kinds);
    struct outcome o = run_salvage(text, n, count, count);
    expect(o.number == 0 && o.answer[0] == count, hex);
    for (size_t i = 0; i < count; i++) {
        expect(memcmp(zones[FINDS].marks + zones[FINDS].at + 4 * i, starts + i, sizeof *starts) == 0, hex);
        expect(zones[RIDE_KINDS].marks[zones[RIDE_KINDS].at + i] == (kinds[i] == 'w'), hex);
    }
}

/* one header at the text's start */
static void example_header(const char *hex, const char *kinds)
{
    example_rides(hex, kinds, (const uint32_t[]){0});
}

/* headers alone, with a byte of the check, with all of it, and with more; declared sizes that must not be believed, nor wrap */
static void examples_of_headers(void)
{
    example_header("", "");
    example_header("2E 46 49 54", "");
    example_header("2E 46 49 54 2E 46 49 54 2E 46 49 54 2E 46 49 54", "");
    example_header("0C 00 00 00 00 00 00 00 2E 46 49", "");
    example_header("0C 00 00 00 00 00 00 00 2E 46 49 54", "c");
    example_header("0C 00 00 00 00 00 00 00 2E 46 49 54 FF", "c");
    example_header("0C 00 00 00 00 00 00 00 2E 46 49 54 FF FF", "w");
    example_header("0C 00 00 00 00 00 00 00 2E 46 49 54 FF FF FF", "w");
    example_header("0C 20 55 08 01 00 00 00 2E 46 49 54 FF FF", "c");
    example_header("0C 20 55 08 01 00 00 00 2E 46 49 54 FF FF FF", "w");
    example_header("0E 10 43 08 00 00 00 00 2E 46 49 54", "");
    example_header("0E 10 43 08 00 00 00 00 2E 46 49 54 00", "");
    example_header("0E 10 43 08 00 00 00 00 2E 46 49 54 00 00", "c");
    example_header("0E 10 43 08 00 00 00 00 2E 46 49 54 12 34 FF", "c");
    example_header("0E 10 43 08 00 00 00 00 2E 46 49 54 12 34 FF FF", "w");
    example_header("0B 00 00 00 00 00 00 00 2E 46 49 54 FF FF FF FF", "");
    example_header("0D 00 00 00 00 00 00 00 2E 46 49 54 FF FF FF FF", "");
    example_header("0F 00 00 00 00 00 00 00 2E 46 49 54 FF FF FF FF", "");
    example_header("0C 00 00 00 00 00 00 2E 46 49 54 FF FF FF FF", "");
    example_header("0C 00 00 00 FF FF FF FF 2E 46 49 54 FF FF", "c");
    example_header("0C 00 00 00 FE FF FF FF 2E 46 49 54 FF FF", "c");
    example_header("0C 00 00 00 F2 FF FF FF 2E 46 49 54 FF FF", "c");
    example_header("0C 00 00 00 00 00 00 80 2E 46 49 54 FF FF", "c");
    example_header("0C 00 00 00 00 00 00 01 2E 46 49 54 FF FF FF", "c");
    example_header("0C 00 00 00 00 01 00 00 2E 46 49 54 FF FF FF", "c");
}

/* two rides, the first whole and the second cut, with 0 to 39 table entries and lists of 0 to 3 entries each */
static void example_ride_rooms(void)
{
    static const uint8_t two[] = "\x0C\0\0\0\0\0\0\0.FIT\xFF\xFF\x0E\0\0\0\1\0\0\0.FIT\0";
    for (size_t c = 0; c < 40 * 4 * 4; c++) {
        struct asked a = ask(SALVAGE, NULL, 0, RIDE_MARK_BYTES);
        a.text = two;
        a.len[TEXT] = sizeof two;
        a.len[TABLES] = c / 16;
        a.len[FINDS] = c / 4 % 4;
        a.len[RIDE_KINDS] = c % 4;
        struct outcome o = compare(&a);
        expect(o.number == (c / 16 < 30 ? 3 : 0) && (o.number != 0 || o.answer[0] == 2), "two rides in every room and list");
    }
}

/* Two files one behind the other, whole and cut; a header inside the data of a whole ride; headers that overlap; .FIT over and over, where
   the second has a size before it; two bytes in front. */
static void examples_of_salvage(void)
{
    examples_of_headers();
    example_rides("0C 00 00 00 01 00 00 00 2E 46 49 54 AA FF FF 0E 00 00 00 00 00 00 00 2E 46 49 54 00 00 FF FF", "ww",
                  (const uint32_t[]){0, 15});
    example_rides("0C 00 00 00 01 00 00 00 2E 46 49 54 AA FF FF 0E 00 00 00 00 00 00 00 2E 46 49 54 00 00 FF", "wc",
                  (const uint32_t[]){0, 15});
    example_rides("0C 00 00 00 01 00 00 00 2E 46 49 54 AA FF FF 0E 00 00 00 00 00 00 00 2E 46 49 54 00", "w", (const uint32_t[]){0});
    example_rides("0C 00 00 00 0C 00 00 00 2E 46 49 54 0C 00 00 00 FF FF FF FF 2E 46 49 54 FF FF", "wc", (const uint32_t[]){0, 12});
    example_rides("0C 00 2E 46 49 54 0C 00 2E 46 49 54 0C 00 2E 46 49 54", "cc", (const uint32_t[]){0, 6});
    example_rides("0C 00 00 00 2E 46 49 54 2E 46 49 54 2E 46 49 54", "c", (const uint32_t[]){0});
    example_rides("0C 0C 0E 00 00 00 00 00 00 00 2E 46 49 54 00 00 FF FF", "w", (const uint32_t[]){2});
    example_ride_rooms();
}
/* by the word alone, as one letter has no file */
static void example_search_one_letter(void)
{
    static const uint8_t text[] = "aba";
    expect_finds(run_search(SEARCH, text, 1, 1, text, 3, 2), "a", 2, (const uint32_t[]){0, 2}, 3);
    expect_finds(run_search(COMPACT_SEARCH, text, 1, 1, text, 3, 2), "a", 2, (const uint32_t[]){0, 2}, 3);
}

static void examples(void)
{
    static const uint16_t first[] = {0, 2, 1, 6, 2, 5, 3, 5}, supplies[] = {0, 0, 2, 3, 1, 1, 2};
    static const uint16_t other[] = {0, 2, 0, 3, 0, 6, 0, 9, 1, 5, 3, 6, 3, 9, 5, 9};
    example_file("aa", "01 02 61 61 00");
    example_file("aaa", "01 03 61 61 61 00");
    example_file("ab", "01 02 61 62 01 00 00");
    example_file("abbbaab", "01 07 61 62 62 62 61 61 62 04 00 00 01 03 01 01 01 00");
    example_file("aa", "02 02 61 61 00 00 36");
    example_file("aaa", "02 03 61 61 61 00 22 50");
    example_file("ab", "02 02 61 62 01 00 00 D1 92");
    example_file("abbbaab", "02 07 61 62 62 62 61 61 62 04 00 00 01 03 01 01 01 00 FE 2F");
    example_arrows("a", NULL, 0, NULL);
    example_arrows("aaa", NULL, 0, NULL);
    example_arrows("abbbaab", first, 4, supplies);
    example_arrows("abcacdace", other, 8, NULL);
    example_search_one_letter();
    example_search("aa", "aaaa", 3, (const uint32_t[]){0, 1, 2}, 6);
    example_search("ab", "aab", 1, (const uint32_t[]){1}, 4);
    example_search("aba", "ababa", 2, (const uint32_t[]){0, 2}, 6);
    example_search("ab", "abxa", 1, (const uint32_t[]){0}, 4);
    example_search("abc", "xxxxxx", 0, (const uint32_t[]){0}, 2);
    example_search("abc", "ab", 0, (const uint32_t[]){0}, 0);
    examples_of_turbo();
    examples_of_failure();
    examples_of_storacles();
    examples_of_rows();
    examples_of_loading();
    examples_of_streams();
    examples_of_salvage();
}

/* ---- every word up to 8 letters over 3 ---- */

static void short_word(const uint8_t *word, size_t m)
{
    uint8_t text[48];
    there_and_back(word, m);
    each_search(word, m, word, m - below(2));
    for (size_t i = 0; i < 40; i++)
        text[i] = word[i % m];
    each_search(word, m, text, 40);
    for (size_t i = 0; i < 40; i++)
        text[i] = (uint8_t)('a' + below(3));
    memcpy(text + below(40 - m + 1), word, m);
    each_search(word, m, text, 40);
    memset(text, 'a', 20);
    each_search(word, m, text, 20);
}

static void short_words(void)
{
    uint8_t word[8];
    for (size_t m = 1, many = 3; m <= 8; m++, many *= 3)
        for (size_t number = 0; number < many; number++) {
            for (size_t i = 0, rest = number; i < m; i++, rest /= 3)
                word[i] = (uint8_t)('a' + rest % 3);
            short_word(word, m);
        }
}

/* ---- every word up to 6 letters over 2, in every text up to 10 ---- */

/* a number's digits, of so many, as letters */
static void spell_in_base(size_t base, size_t number, size_t len, uint8_t *out)
{
    for (size_t i = 0; i < len; i++, number /= base)
        out[i] = (uint8_t)('a' + number % base);
}

static void spell_digits(size_t number, size_t len, uint8_t *out)
{
    spell_in_base(2, number, len, out);
}

static void every_text(const uint8_t *word, size_t m)
{
    uint8_t mirrored[6], file[2][MOST_FILE], text[10];
    mirror(word, m, mirrored);
    size_t size[2] = {file_of(mirrored, m, file[0]), checked_file_of(mirrored, m, file[1])};
    for (size_t n = 0; n <= sizeof text; n++)
        for (size_t number = 0; number < (size_t)1 << n; number++) {
            spell_digits(number, n, text);
            run_search(SEARCH, word, m, m, text, n, n);
            run_search(FAILURE_SEARCH, word, m, m, text, n, below(4) ? n : below(3));
            run_search(COMPACT_SEARCH, word, m, m, text, n, below(4) ? n : below(3));
            size_t edition = below(2);
            run_search(SEARCH_FILE, file[edition], size[edition], m, text, n, n);
        }
}

static void short_texts(void)
{
    uint8_t word[6];
    for (size_t m = 1; m <= sizeof word; m++)
        for (size_t number = 0; number < (size_t)1 << m; number++) {
            spell_digits(number, m, word);
            every_text(word, m);
        }
}

/* one search alone: every word of 1 to so many letters in every text of up to so many; lists that are as long as the finds can be, or
   shorter */
static void every_case_of(enum entry entry, size_t base, size_t longest_word, size_t longest_text)
{
    uint8_t word[16], text[16];
    for (size_t m = 1, words = base; m <= longest_word; m++, words *= base)
        for (size_t number = 0; number < words; number++) {
            spell_in_base(base, number, m, word);
            for (size_t n = 0, texts = 1; n <= longest_text; n++, texts *= base)
                for (size_t other = 0; other < texts; other++) {
                    spell_in_base(base, other, n, text);
                    run_search(entry, word, m, m, text, n, below(4) ? n : below(3));
                }
        }
}

static void short_texts_turbo(void)
{
    every_case_of(TURBO, 2, 7, 12);
}

static void short_texts_over_3(void)
{
    every_case_of(TURBO, 3, 4, 8);
}

static void short_texts_failure(void)
{
    every_case_of(FAILURE_SEARCH, 3, 4, 7);
    every_case_of(FAILURE_SEARCH, 4, 3, 6);
}

/* every word of 1 to so many letters */
static void every_word_of(enum entry entry, size_t base, size_t longest_word)
{
    uint8_t word[32];
    for (size_t m = 1, words = base; m <= longest_word; m++, words *= base)
        for (size_t number = 0; number < words; number++) {
            spell_in_base(base, number, m, word);
            run_plain(entry, word, m, m);
        }
}

static void short_failure_oracles(void)
{
    every_word_of(FAILURE_BUILD, 2, 14);
    every_word_of(FAILURE_BUILD, 3, 9);
    every_word_of(FAILURE_BUILD, 4, 7);
    every_word_of(FAILURE_BUILD, 7, 5);
}

static void longer_failure_oracles(void)
{
    every_word_of(FAILURE_BUILD, 2, 20);
    every_word_of(FAILURE_BUILD, 3, 12);
    every_word_of(FAILURE_BUILD, 4, 10);
    every_case_of(FAILURE_SEARCH, 2, 8, 13);
    every_case_of(FAILURE_SEARCH, 3, 5, 8);
}

static void longer_texts_turbo(void)
{
    every_case_of(TURBO, 2, 8, 14);
    every_case_of(TURBO, 3, 5, 9);
}

/* ---- storacles ---- */

/* in a room that is exactly enough, or longer by little or by much */
static void storacle_of_word(const uint8_t *word, size_t m)
{
    said_of_storacle(word, m, entries_for(STORACLE_BUILD, m) + (below(3) ? below(3) : below(400)));
}

/* every length up to some that are too many, over few letters and many, of each kind; also with one entry too few, and with far fewer */
static void storacles_of_every_length(void)
{
    static const unsigned alphabets[] = {2, 3, 4, 20, 256};
    uint8_t word[MOST_STORACLE + 12];
    for (size_t m = 1; m <= sizeof word; m++)
        for (int turn = 0; turn < 5 * KINDS; turn++) {
            choose_wide_palette(alphabets[turn % 5]);
            make_word(word, m, (enum kind)(turn / 5));
            storacle_of_word(word, m);
            size_t need = entries_for(STORACLE_BUILD, m);
            said_of_storacle(word, m, below(4) ? need - 1 : below(need));
        }
}

/* the word with many arrows, with every two of its letters changed in every way; then in front of, behind and between others */
static void storacles_of_many_arrows(void)
{
    enum { OWN = sizeof many_arrows - 1 };
    uint8_t word[MOST_STORACLE];
    for (size_t i = 0; i < OWN; i++)
        for (size_t k = 0; k < i; k++)
            for (unsigned letters = 0; letters < 49; letters++) {
                memcpy(word, many_arrows, OWN);
                word[i] = (uint8_t)('a' + letters % 7);
                word[k] = (uint8_t)('a' + letters / 7);
                storacle_of_word(word, OWN);
            }
    for (int turn = 0; turn < 3000; turn++) {
        size_t m = OWN + below(sizeof word - OWN + 1);
        set_palette(2 + below(6), 'a', 1);
        make_word(word, m, (enum kind)(turn % KINDS));
        memcpy(word + below(m - OWN + 1), many_arrows, OWN);
        storacle_of_word(word, m);
    }
}

static void short_storacles(void)
{
    every_word_of(STORACLE_BUILD, 2, 15);
    every_word_of(STORACLE_BUILD, 3, 10);
    every_word_of(STORACLE_BUILD, 4, 8);
    every_word_of(STORACLE_BUILD, 7, 5);
}

static void longer_storacles(void)
{
    storacles_of_every_length();
    storacles_of_many_arrows();
}

/* ---- words in texts of the same period, where each find overlaps the one before by a border ---- */

/* A word of m letters in a text of the same period, and there again with a letter of the text changed. Where the period's first letter
   does not stand in it again, the word begins with it, and its longest border has m - period letters. */
static void same_period(size_t m, size_t period, bool first_again)
{
    static uint8_t word[MOST_LETTERS], text[4 * MOST_LETTERS];
    size_t n = m + 2 * period + below(period);
    for (size_t i = 0; i < n; i++)
        text[i] = i >= period ? text[i - period] : i == 0 && !first_again ? 'c' : (uint8_t)('a' + below(2));
    memcpy(word, text + (first_again ? below(period) : 0), m);
    each_search(word, m, text, n);
    text[below(n)] = (uint8_t)('a' + below(3));
    each_search(word, m, text, n);
}

static void same_periods(void)
{
    static const size_t lengths[] = {128, 257, LONG_EDGES};
    for (size_t m = 1; m <= 64; m++)
        for (size_t period = 1; period <= m; period++) {
            same_period(m, period, false);
            same_period(m, period, true);
        }
    for (size_t l = 0; l < sizeof lengths / sizeof *lengths; l++) {
        size_t m = lengths[l], periods[] = {1, 2, 3, 1 + below(64), 1 + below(m), m / 2, m / 2 + 1, m - 1, m};
        for (size_t p = 0; p < sizeof periods / sizeof *periods; p++) {
            same_period(m, periods[p], false);
            same_period(m, periods[p], true);
        }
    }
}

/* ---- words and texts by strangers, where a plain search reads most letters many times: turbo, and the failure search where that is not
   too often ---- */

enum hostile { ALL_A, FIRST_B, LAST_B, MIDDLE_B, ALTERNATING, OF_FIBONACCI, HOSTILES };

static void make_hostile(uint8_t *word, size_t m, enum hostile kind)
{
    memset(word, 'a', m);
    if (kind == FIRST_B || kind == LAST_B || kind == MIDDLE_B)
        word[kind == FIRST_B ? 0 : kind == LAST_B ? m - 1 : m / 2] = 'b';
    for (size_t i = 1; i < m && kind == ALTERNATING; i += 2)
        word[i] = 'b';
    if (kind == OF_FIBONACCI) {
        palette[0] = 'a';
        palette[1] = 'b';
        fibonacci(word, m);
    }
}

/* the word's own text: itself over and over, whole, overlapping by a border, without its last letter, or with one letter more */
enum own { WHOLE, OVERLAPPING, WITHOUT_LAST, ONE_MORE, OWNS };

static void make_own_text(uint8_t *text, size_t n, const uint8_t *word, size_t m, enum own own)
{
    size_t period = own == WITHOUT_LAST && m > 1 ? m - 1 : own == ONE_MORE ? m + 1 : m;
    if (own == OVERLAPPING)
        overlap(text, n, word, m);
    else
        for (size_t i = 0; i < n; i++)
            text[i] = i % period < m ? word[i % period] : 'a';
}

/* in a's, in its own texts and in that of Fibonacci, there again with a letter changed, and in one of its pieces */
static void hostile_texts(const uint8_t *word, size_t m, size_t n)
{
    static uint8_t text[4 * MOST_LETTERS];
    for (int kind = 0; kind < OWNS + 3; kind++) {
        if (kind < OWNS)
            make_own_text(text, n, word, m, (enum own)kind);
        else if (kind == OWNS)
            put_pieces(text, n, word, m);
        else
            make_hostile(text, n, kind == OWNS + 1 ? ALL_A : OF_FIBONACCI);
        bool few = m * n <= 1 << 18;
        for (int turn = 0; turn < 2; turn++) {
            run_search(TURBO, word, m, m, text, n, below(2) ? n : below(5));
            if (few)
                run_search(FAILURE_SEARCH, word, m, m, text, n, below(2) ? n : below(5));
            text[below(n)] = (uint8_t)('a' + below(3));
        }
    }
}

static void hostile_words(void)
{
    static const size_t lengths[] = {64, 89, 90, 100, 127, 128, 129, 255, 256, 257, 500, LONG_EDGES};
    static uint8_t word[MOST_LETTERS];
    for (size_t l = 0; l < 48 + sizeof lengths / sizeof *lengths; l++)
        for (int kind = 0; kind < HOSTILES; kind++) {
            size_t m = l < 48 ? 1 + l : lengths[l - 48];
            make_hostile(word, m, (enum hostile)kind);
            hostile_texts(word, m, m + below(3 * m + 1));
            hostile_texts(word, m, 2 * m + below(2 * m + 1));
        }
}

/* the most letters in the longest text: in a's, in the word's own texts, and in that of Fibonacci */
static void longest_hostile(enum hostile kind)
{
    static uint8_t word[MOST_LETTERS];
    uint8_t *text = reserve(NULL, MOST_TEXT);
    make_hostile(word, MOST_LETTERS, kind);
    make_hostile(text, MOST_TEXT, ALL_A);
    struct outcome o = run_search(TURBO, word, MOST_LETTERS, MOST_LETTERS, text, MOST_TEXT, MOST_TEXT);
    if (kind == ALL_A) {
        expect(o.answer[0] == MOST_TEXT - MOST_LETTERS + 1, "the most a's in as many a's as may be");
        expect(o.answer[1] == MOST_TEXT + MOST_LETTERS, "the most a's in as many a's as may be");
    }
    for (int own = 0; own < OWNS; own++) {
        make_own_text(text, MOST_TEXT, word, MOST_LETTERS, (enum own)own);
        run_search(TURBO, word, MOST_LETTERS, MOST_LETTERS, text, MOST_TEXT, below(2) ? MOST_TEXT : below(1000));
    }
    make_hostile(text, MOST_TEXT, OF_FIBONACCI);
    run_search(TURBO, word, MOST_LETTERS, MOST_LETTERS, text, MOST_TEXT, MOST_TEXT);
    free(text);
}

static void longest_hostiles(void)
{
    for (int kind = 0; kind < HOSTILES; kind++)
        longest_hostile((enum hostile)kind);
}

/* ---- streams: texts that are taken in pieces ---- */

/* a text that is taken in pieces, and every place where the word stands in it, rising, found by comparing letters */
struct whole {
    const uint8_t *word, *text;
    size_t m, n, count;
    uint32_t *finds;
};

static void find_all(struct whole *w)
{
    w->count = 0;
    for (size_t at = 0; at + w->m <= w->n; at++)
        if (memcmp(w->text + at, w->word, w->m) == 0)
            w->finds[w->count++] = (uint32_t)at;
}

/* how many of the places end with the text's first bytes */
static size_t ended(const struct whole *w, size_t bytes)
{
    size_t low = 0, high = w->count;
    while (low < high) {
        size_t middle = (low + high) / 2;
        if (w->finds[middle] + w->m <= bytes)
            low = middle + 1;
        else
            high = middle;
    }
    return low;
}

/* the stream's next piece, the text's bytes from .. to; its finds must be the places that end there */
static void next_piece(const struct whole *w, uint8_t *searcher, size_t from, size_t to, size_t list)
{
    struct outcome o = run_take(searcher, SEARCHER_BYTES, w->text + from, to - from, list);
    const uint32_t *places = w->finds + ended(w, from);
    size_t count = ended(w, to) - ended(w, from), fit = count < list ? count : list;
    if (o.number == 0 && o.answer[0] == count && memcmp(zones[FINDS].marks + zones[FINDS].at, places, fit * sizeof *places) == 0)
        return;
    printf("DIFFERENT: the finds of the piece from %zu to %zu are not those of the whole text\n", from, to);
    printf("  both sides: %" PRIu32 ", %" PRIu64 " finds; places that end there: %zu\n", o.number, o.answer[0], count);
    print_bytes("word", w->word, w->m);
    print_bytes("whole text", w->text, w->n);
    exit(1);
}

/* for a piece of so many bytes: mostly enough for each to end a find, sometimes fewer, sometimes more */
static size_t some_list(size_t len)
{
    return below(4) ? len : below(2) ? below(len + 1) : len + below(4);
}

/* the text from here on, cut at some of its places, for every choice of them; empty pieces in between now and then */
static void cut_every_way(const struct whole *w, const uint8_t *searcher, size_t from)
{
    uint8_t here[SEARCHER_BYTES], next[SEARCHER_BYTES];
    memcpy(here, searcher, SEARCHER_BYTES);
    if (below(8) == 0)
        next_piece(w, here, from, from, below(2));
    for (size_t to = from + 1; to <= w->n; to++) {
        memcpy(next, here, SEARCHER_BYTES);
        next_piece(w, next, from, to, some_list(to - from));
        cut_every_way(w, next, to);
    }
}

enum { MOST_CUT = 12 }; /* letters of a text that is cut in every way */

static void every_cutting(const uint8_t *word, size_t m, const uint8_t *text, size_t n)
{
    uint8_t searcher[SEARCHER_BYTES];
    uint32_t finds[MOST_CUT];
    struct whole w = {.word = word, .text = text, .m = m, .n = n, .finds = finds};
    find_all(&w);
    run_open(word, m, searcher);
    cut_every_way(&w, searcher, 0);
}

/* The beginnings of a text are cut in every way with it, so texts of n letters are enough. */
static void every_text_cut(size_t longest_word, size_t n)
{
    uint8_t word[MOST_CUT], text[MOST_CUT];
    for (size_t m = 1; m <= longest_word; m++)
        for (size_t number = 0; number < (size_t)1 << m; number++) {
            spell_digits(number, m, word);
            for (size_t other = 0; other < (size_t)1 << n; other++) {
                spell_digits(other, n, text);
                every_cutting(word, m, text, n);
            }
        }
}

static void short_texts_cut(void)
{
    every_text_cut(5, 8);
}

/* each word in a text of nothing but itself, overlapping, and in one by chance */
static void texts_of_12_cut(void)
{
    uint8_t word[MOST_CUT], text[MOST_CUT];
    for (size_t m = 1; m <= 8; m++)
        for (size_t number = 0; number < (size_t)1 << m; number++) {
            spell_digits(number, m, word);
            overlap(text, MOST_CUT, word, m);
            every_cutting(word, m, text, MOST_CUT);
            spell_digits(below(1 << MOST_CUT), MOST_CUT, text);
            every_cutting(word, m, text, MOST_CUT);
        }
}

static void every_text_of_12_cut(void)
{
    every_text_cut(3, MOST_CUT);
}

/* ---- streams: long texts, cut by chance ---- */

/* pieces of up to so many bytes, an empty one now and then */
static void cut_by_chance(struct whole *w, size_t longest)
{
    uint8_t searcher[SEARCHER_BYTES];
    run_open(w->word, w->m, searcher);
    for (size_t from = 0, to; from < w->n; from = to) {
        size_t piece = below(10) == 0 ? 0 : longest < 4 ? longest : 1 + below(longest), left = w->n - from;
        to = from + (piece < left ? piece : left);
        next_piece(w, searcher, from, to, some_list(to - from));
    }
}

/* a word of each kind in a text of each kind, cut into single bytes, and into pieces that are about as long as the word, and longer */
static void cut_long_text(size_t m, unsigned letters, enum kind kind)
{
    enum { LONG_TEXT = 3000 };
    static uint8_t word[MOST_STREAMED], text[LONG_TEXT];
    static uint32_t finds[LONG_TEXT];
    size_t longest[] = {1, 2, 3, m, m + 1, 2 * m, 100, 1000, LONG_TEXT};
    choose_palette(letters);
    make_word(word, m, kind);
    for (size_t i = 0; i < sizeof longest / sizeof *longest; i++) {
        struct whole w = {.word = word, .text = text, .m = m, .n = 10 + below(longest[i] < 100 ? 40 * longest[i] : LONG_TEXT - 10)};
        w.n = w.n < LONG_TEXT ? w.n : LONG_TEXT;
        w.finds = finds;
        make_text(text, w.n, word, m, (unsigned)chance());
        find_all(&w);
        cut_by_chance(&w, longest[i]);
    }
}

/* a word in a text of the same period, so that it stands there once in each period */
static void cut_hostile_text(size_t m, size_t period)
{
    enum { HOSTILE_TEXT = 200000 };
    static uint8_t text[HOSTILE_TEXT];
    static uint32_t finds[HOSTILE_TEXT];
    struct whole w = {.word = text, .text = text, .m = m, .n = HOSTILE_TEXT, .finds = finds};
    for (size_t i = 0; i < HOSTILE_TEXT; i++)
        text[i] = i % period + 1 < period ? 'a' : 'b';
    find_all(&w);
    cut_by_chance(&w, 2 * m);
    cut_by_chance(&w, 10000);
    cut_by_chance(&w, HOSTILE_TEXT);
}

static void long_texts_cut(void)
{
    static const unsigned alphabets[] = {2, 4, 256};
    static const size_t hostile[][2] = {{1, 1}, {2, 1}, {63, 1}, {64, 1}, {64, 2}, {63, 31}, {64, 32}, {64, 63}, {64, 64}};
    for (size_t m = 1; m <= MOST_STREAMED; m += m < 20 || m >= 60 ? 1 : 5)
        for (unsigned a = 0; a < 3; a++)
            for (int kind = 0; kind < KINDS; kind++)
                cut_long_text(m, alphabets[a], (enum kind)kind);
    for (size_t i = 0; i < sizeof hostile / sizeof *hostile; i++)
        cut_hostile_text(hostile[i][0], hostile[i][1]);
}

/* ---- streams: openings ---- */

/* words empty, of every length that may be, and longer, where a searcher has no byte, too few, exactly enough, and more */
static void openings(void)
{
    static const size_t lents[] = {0, 1, 64, 128, SEARCHER_BYTES - 1, SEARCHER_BYTES, SEARCHER_BYTES + 1, 2 * SEARCHER_BYTES, 4096};
    static const size_t longer[] = {127, 128, 255, 256, 257, 256 + MOST_STREAMED, 4096, 65535, 65536, 65537, 65536 + MOST_STREAMED};
    static uint8_t word[65536 + MOST_STREAMED];
    for (size_t l = 0; l <= MOST_STREAMED + 5 + sizeof longer / sizeof *longer; l++)
        for (size_t c = 0; c < sizeof lents / sizeof *lents * KINDS * FILLS; c++) {
            size_t m = l <= MOST_STREAMED + 5 ? l : longer[l - MOST_STREAMED - 6];
            struct asked a = ask(OPEN, word, m, m);
            choose_palette(c % 2 ? 2 : 256);
            make_word(word, m < 300 ? m : 300, (enum kind)(c % KINDS));
            a.fill = (enum fill)(c / KINDS % FILLS);
            a.len[SEARCHER] = lents[c / KINDS / FILLS];
            compare(&a);
        }
}

/* ---- streams: searchers by strangers ---- */

static void fail_searcher(const char *what, const uint8_t *searcher)
{
    printf("DIFFERENT: %s\n", what);
    print_bytes("searcher", searcher, SEARCHER_BYTES);
    exit(1);
}

/* a letter that the word does not have */
static uint8_t other_letter(const uint8_t *word, size_t m)
{
    uint8_t letter = 0;
    while (memchr(word, letter, m) != NULL)
        letter++;
    return letter;
}

/* Makes it by opening and taking: a letter that the word does not have, as often as bytes were taken before what is kept, and then that.
   Long streams only now and then. */
static void make_again(const uint8_t *searcher)
{
    enum { FILLER = 1 << 16 };
    static uint8_t filler[FILLER];
    uint8_t made[SEARCHER_BYTES];
    size_t m = searcher[AT_LENGTH], kept = searcher[AT_KEPT];
    uint64_t taken = taken_of(searcher), left = taken - kept;
    if (m < 1 || m > MOST_STREAMED || kept > m || kept > taken || taken > MOST_TEXT)
        fail_searcher("a searcher was taken whose fields cannot be", searcher);
    if (left > 300 && below(200) != 0)
        return;
    memset(filler, other_letter(searcher, m), left < FILLER ? left : FILLER);
    run_open(searcher, m, made);
    for (size_t piece; left > 0; left -= piece) {
        piece = left < FILLER ? left : FILLER;
        run_take(made, SEARCHER_BYTES, filler, piece, 0);
    }
    run_take(made, SEARCHER_BYTES, searcher, kept, 0);
    if (memcmp(made, searcher, SEARCHER_BYTES) != 0)
        fail_searcher("a searcher was taken that opening and taking bytes do not make", searcher);
}

/* An empty piece, which shows whether it is refused with 16; then letters of the word, often those that are missing for a find. */
static void try_searcher(const uint8_t *forged)
{
    uint8_t searcher[SEARCHER_BYTES];
    size_t from = below(2) ? forged[AT_KEPT] % 64 : below(64), len = below(2) ? 64 - from : below(65 - from);
    memcpy(searcher, forged, SEARCHER_BYTES);
    if (run_take(searcher, SEARCHER_BYTES, NULL, 0, below(2)).number == 0)
        make_again(searcher);
    run_take(searcher, SEARCHER_BYTES, forged + from, len, some_list(len));
}

/* each byte in turn: with every value, or with near ones, those where a field's limit is, and one by chance */
static void forge_bytes(const uint8_t *made, bool every)
{
    uint8_t forged[SEARCHER_BYTES], m = made[AT_LENGTH];
    memcpy(forged, made, SEARCHER_BYTES);
    for (size_t at = 0; at < SEARCHER_BYTES; at++) {
        uint8_t own = made[at];
        uint8_t puts[] = {(uint8_t)(own + 1), (uint8_t)(own - 1), own ^ 0x80, 0, 1, (uint8_t)(m - 1), m, 64, 65, 255, (uint8_t)chance()};
        for (unsigned i = 0; i < (every ? 256 : sizeof puts); i++) {
            forged[at] = every ? (uint8_t)i : puts[i];
            try_searcher(forged);
        }
        forged[at] = own;
    }
}

/* every length, with the letters and borders that are there, and with those behind it taken away */
static void forge_length(const uint8_t *made)
{
    uint8_t forged[SEARCHER_BYTES];
    for (size_t m = 0; m < 256; m++) {
        memcpy(forged, made, SEARCHER_BYTES);
        forged[AT_LENGTH] = (uint8_t)m;
        try_searcher(forged);
        for (size_t i = m; i < MOST_STREAMED; i++)
            forged[AT_LETTERS + i] = forged[AT_BORDERS + i] = 0;
        try_searcher(forged);
    }
}

/* every length of what is kept, with every number of bytes taken at which something changes */
static void forge_counts(const uint8_t *made)
{
    static const uint64_t takens[] = {0, 1, 64, 255, 256, 65535, 65536, MOST_TEXT - 64, MOST_TEXT - 1, MOST_TEXT, MOST_TEXT + 1,
                                      MOST_TEXT + 256, 2 * MOST_TEXT, UINT32_MAX - MOST_TEXT, UINT32_MAX - 1, UINT32_MAX};
    uint8_t forged[SEARCHER_BYTES];
    size_t m = made[AT_LENGTH];
    memcpy(forged, made, SEARCHER_BYTES);
    for (size_t kept = 0; kept < 256; kept += kept < m + 2 || kept > 250 ? 1 : 1 + below(40)) {
        forged[AT_KEPT] = (uint8_t)kept;
        for (size_t i = 0; i < sizeof takens / sizeof *takens; i++) {
            set_taken(forged, takens[i]);
            try_searcher(forged);
        }
        for (uint64_t taken = kept > 0 ? kept - 1 : 0; taken <= kept + 1; taken++) {
            set_taken(forged, taken);
            try_searcher(forged);
        }
    }
}

/* the borders of another word, none, all moved by a place, two exchanged; a letter changed and the borders made right */
static void forge_borders(const uint8_t *made)
{
    uint8_t forged[SEARCHER_BYTES], other[SEARCHER_BYTES];
    size_t m = made[AT_LENGTH], a = below(m), b = below(m);
    memcpy(forged, made, SEARCHER_BYTES);
    forged[AT_LETTERS + a] = palette[below(256)];
    run_open(forged, m, other);
    memcpy(other + AT_KEPT, made + AT_KEPT, SEARCHER_BYTES - AT_KEPT);
    try_searcher(other);
    memcpy(forged, made, SEARCHER_BYTES);
    memcpy(forged + AT_BORDERS, other + AT_BORDERS, MOST_STREAMED);
    try_searcher(forged);
    memset(forged + AT_BORDERS, 0, MOST_STREAMED);
    try_searcher(forged);
    memcpy(forged + AT_BORDERS + 1, made + AT_BORDERS, MOST_STREAMED - 1);
    try_searcher(forged);
    memcpy(forged, made, SEARCHER_BYTES);
    forged[AT_BORDERS + a] = made[AT_BORDERS + b];
    forged[AT_BORDERS + b] = made[AT_BORDERS + a];
    try_searcher(forged);
}

/* fewer bytes lent than a searcher has, as many, and more; what is behind it stays as it was */
static void forge_lent(const uint8_t *made)
{
    static const size_t lents[] = {0, 1, 63, 64, 127, 128, 129, 130, 132, 133, 134, 135, 136, 200, 268, 1000};
    uint8_t searcher[1000];
    for (size_t i = 0; i < sizeof lents / sizeof *lents; i++)
        for (int turn = 0; turn < 4; turn++) {
            make_noise(searcher, sizeof searcher);
            memcpy(searcher, made, SEARCHER_BYTES);
            searcher[below(SEARCHER_BYTES)] ^= turn == 3;
            run_take(searcher, lents[i], made, turn * 20, turn * 5);
            struct asked a = ask(OPEN, made, made[AT_LENGTH], 0);
            a.len[SEARCHER] = lents[i];
            a.fill = (enum fill)(turn % FILLS);
            compare(&a);
        }
}

static void forge_random(void)
{
    uint8_t forged[SEARCHER_BYTES];
    for (int i = 0; i < 4000; i++) {
        make_noise(forged, SEARCHER_BYTES);
        if (i % 2)
            memset(forged + AT_BORDERS, 0, MOST_STREAMED);
        if (i % 4 > 1)
            set_taken(forged, below(1000));
        forged[AT_LENGTH] = i % 8 > 3 ? (uint8_t)(1 + below(3)) : forged[AT_LENGTH];
        if (i % 16 > 7)
            memset(forged + 2, 0, MOST_STREAMED - 2);
        try_searcher(forged);
    }
    for (int value = 0; value < 256; value++) {
        memset(forged, value, SEARCHER_BYTES);
        try_searcher(forged);
    }
}

/* a searcher just opened, or more often one that took a text and then a beginning of the word */
static void make_searcher(size_t m, enum kind kind, uint8_t *searcher)
{
    uint8_t word[MOST_STREAMED], text[300];
    make_word(word, m, kind);
    make_text(text, sizeof text, word, m, (unsigned)chance());
    run_open(word, m, searcher);
    if (below(4) != 0) {
        run_take(searcher, SEARCHER_BYTES, text, below(sizeof text + 1), 3);
        run_take(searcher, SEARCHER_BYTES, word, below(m + 1), 3);
    }
}

static void forged_searchers(void)
{
    static const size_t lengths[] = {1, 2, 3, 5, 8, 31, 33, 62, 63, 64};
    uint8_t made[SEARCHER_BYTES];
    for (size_t l = 0; l < sizeof lengths / sizeof *lengths; l++)
        for (int kind = 0; kind < KINDS; kind++) {
            choose_palette(kind % 2 ? 2 : 4);
            make_searcher(lengths[l], (enum kind)kind, made);
            forge_bytes(made, kind == BROKEN && l % 3 == 0);
            forge_length(made);
            forge_borders(made);
            forge_lent(made);
            if (kind % 3 == (int)l % 3)
                forge_counts(made);
        }
    forge_random();
}

/* ---- streams at the limit ---- */

/* a stream that has so many bytes left to take: all of them, one more, and fewer and then the rest; then an empty piece and a byte */
static void last_pieces(const uint8_t *made, size_t left, const uint8_t *text)
{
    uint8_t searcher[SEARCHER_BYTES], other[SEARCHER_BYTES];
    size_t first = below(left + 1);
    memcpy(searcher, made, SEARCHER_BYTES);
    set_taken(searcher, MOST_TEXT - left);
    run_take(searcher, SEARCHER_BYTES, text, left + 1, 5);
    memcpy(other, searcher, SEARCHER_BYTES);
    other[below(AT_KEPT)] ^= 1;
    run_take(other, SEARCHER_BYTES, text, left + 1, 5);
    memcpy(other, searcher, SEARCHER_BYTES);
    run_take(other, SEARCHER_BYTES, text, left, left);
    run_take(searcher, SEARCHER_BYTES, text, first, first);
    run_take(searcher, SEARCHER_BYTES, text + first, left - first + 1, left);
    run_take(searcher, SEARCHER_BYTES, text + first, left - first, left);
    if (memcmp(searcher, other, SEARCHER_BYTES) != 0)
        fail_searcher("two pieces leave another searcher than one", searcher);
    run_take(searcher, SEARCHER_BYTES, text, 0, 3);
    run_take(searcher, SEARCHER_BYTES, text, 1, 3);
    run_take(searcher, SEARCHER_BYTES, text, 0, 0);
}

/* the whole of the longest text, in one piece and in some, and what may not follow it */
static void longest_stream(const uint8_t *word, size_t m, uint8_t *text)
{
    uint8_t searcher[SEARCHER_BYTES];
    struct whole w = {.word = word, .text = text, .m = m, .n = MOST_TEXT};
    w.finds = (uint32_t *)(void *)reserve(NULL, MOST_TEXT * sizeof *w.finds);
    find_all(&w);
    run_open(word, m, searcher);
    run_take(searcher, SEARCHER_BYTES, text, MOST_TEXT + 1, 10);
    next_piece(&w, searcher, 0, MOST_TEXT, 1000);
    run_take(searcher, SEARCHER_BYTES, text, 1, 10);
    next_piece(&w, searcher, MOST_TEXT, MOST_TEXT, 10);
    cut_by_chance(&w, MOST_TEXT / 8);
    free(w.finds);
}

static void streams_at_the_limit(void)
{
    static const uint8_t word[] = {7, 1, 1, 7, 1, 7, 7, 1, 7, 1, 1, 1};
    uint8_t made[SEARCHER_BYTES], short_text[300], *text = reserve(NULL, MOST_TEXT + 1);
    for (size_t left = 0; left < 150; left++)
        for (int kind = 0; kind < KINDS; kind++) {
            choose_palette(kind % 2 ? 2 : 4);
            make_searcher(1 + below(MOST_STREAMED), (enum kind)kind, made);
            make_text(short_text, sizeof short_text, made, made[AT_LENGTH], (unsigned)chance());
            memcpy(short_text, made + made[AT_KEPT], made[AT_LENGTH] - made[AT_KEPT]);
            last_pieces(made, left < 70 ? left : 64 + left, short_text);
        }
    for (size_t i = 0; i < MOST_TEXT + 1; i++)
        text[i] = noise[(i * 31 + i / NOISE) % NOISE] % 2 ? 7 : 1;
    memcpy(text, word, sizeof word);
    memcpy(text + MOST_TEXT - sizeof word, word, sizeof word);
    longest_stream(word, sizeof word, text);
    free(text);
}

/* ---- longer words, of each kind over 2, 4 and 256 letters ---- */

static void longer_words(void)
{
    static const size_t lengths[] = {9, 16, 31, 32, 33, 100, 127, 128, 129, 254, 255, 256, 257, 511, 512, 513, 1000, LONG_EDGES};
    static const unsigned alphabets[] = {2, 4, 256};
    static uint8_t word[MOST_LETTERS], text[4 * MOST_LETTERS], file[MOST_FILE];
    for (size_t l = 0; l < sizeof lengths / sizeof *lengths; l++)
        for (unsigned a = 0; a < 3; a++)
            for (int kind = 0; kind < KINDS; kind++) {
                size_t m = lengths[l], n = below(2) ? some_length(sizeof text) : m + below(sizeof text - m);
                choose_palette(alphabets[a]);
                make_word(word, m, (enum kind)kind);
                there_and_back(word, m);
                run_save(1, word, m, ALWAYS_ENOUGH);
                run_save(2, word, m, ALWAYS_ENOUGH + CHECK_BYTES);
                make_text(text, n, word, m, (unsigned)chance());
                each_search(word, m, text, n);
                size_t size = file_in((unsigned)below(2) + 1, word, m, file);
                for (size_t cut = 0; m > 1000 && cut < size; cut += 1 + size / 20)
                    try_file(file, cut, m);
            }
}

/* ---- lists of finds that are too short, exact and too long ---- */

static void lists_of(const char *word, const char *text)
{
    every_list((const uint8_t *)word, strlen(word), (const uint8_t *)text, strlen(text));
}

/* a text shorter than the word, the word itself, none; finds that overlap, touch, or are none; what the oracles of abbbaab and abcacdace
   accept beside their factors, read backwards */
static void short_lists(void)
{
    lists_of("a", "");
    lists_of("a", "a");
    lists_of("a", "b");
    lists_of("aa", "");
    lists_of("aa", "a");
    lists_of("aa", "bb");
    lists_of("abc", "ab");
    lists_of("abc", "abc");
    lists_of("a", "aaaaa");
    lists_of("aa", "aaaa");
    lists_of("aba", "ababa");
    lists_of("abc", "xxabcxabcabcc");
    lists_of("baabbba", "xxxxaba");
    lists_of("baabbba", "bbbbababaabbbabaabbba");
    lists_of("ecadcacba", "xxxxxecac");
    lists_of("ecadcacba", "xxxxxecacxecadcacbaecadcacba");
    every_list((const uint8_t *)"\0\xFF", 2, (const uint8_t *)"\xFF\0\xFF\0\xFF\0", 6);
    every_list((const uint8_t *)"\xFF\0\xFF", 3, (const uint8_t *)"\0\xFF\0\xFF\0\xFF", 6);
}

/* long words: where the text begins, inside it, all of it, more than it; and the text's last letter and last two */
static void long_lists(size_t m)
{
    static uint8_t text[2 * MOST_LETTERS + 100];
    size_t n = 2 * m + 100;
    for (int kind = 0; kind < KINDS; kind++) {
        choose_palette(kind % 2 ? 4 : 2);
        make_word(text, n, (enum kind)kind);
        every_list(text, m, text, n);
        every_list(text + m - 20, m, text, n);
        every_list(text, m, text, m);
        every_list(text, m, text, m - 1);
        every_list(text + n - 1, 1, text, n);
        every_list(text + n - 2, 2, text, n);
    }
}

static void lists(void)
{
    static const size_t lengths[] = {1023, 1024, 1025, 2048, MOST_LETTERS - 1, MOST_LETTERS};
    short_lists();
    for (size_t l = 0; l < sizeof lengths / sizeof *lengths; l++)
        long_lists(lengths[l]);
}

/* ---- rooms: one short, exact, one long, for every buffer; every refusal with what stands in them before ---- */

enum { LONGEST_TRIED = PAST_16_BITS + MOST_LETTERS };

/* the text has fewer than 300 bytes, or so many more than the word */
static void rooms_for(enum entry entry, const uint8_t *input, size_t input_len, size_t m, size_t file_size, const uint8_t *sought)
{
    static uint8_t text[LONGEST_TRIED + 300];
    size_t all = room_choices * room_choices * room_choices * FILLS, n = below(300);
    choose_palette(2);
    make_text(text, m + n, sought, sought != NULL ? m : 0, RANDOM + KINDS);
    for (size_t c = 0; c < all; c++) {
        struct asked a = ask(entry, input, input_len, m);
        a.len[TABLES] = room_choice(entries_for(entry, m), c % room_choices);
        a.len[ROOM] = room_choice(m, c / room_choices % room_choices);
        a.len[OUT] = room_choice(file_size, c / room_choices % room_choices);
        a.len[SETS] = room_choice(sets_for(m), c / room_choices % room_choices);
        a.len[FINDS] = room_choice(3, c / room_choices / room_choices % room_choices);
        a.fill = (enum fill)(c / room_choices / room_choices / room_choices);
        a.text = text;
        a.len[TEXT] = below(2) ? n : m + n;
        compare(&a);
    }
}

/* a file of edition 2 over all rooms: good, without a byte of its check or without all of it, with a byte too many, with a wrong check */
static void rooms_of_checked_file(const uint8_t *word, size_t m)
{
    static uint8_t file[MOST_FILE], mirrored[MOST_LETTERS];
    size_t size = checked_file_of(word, m, file);
    mirror(word, m, mirrored);
    rooms_for(LOAD, file, size, m, 0, NULL);
    rooms_for(SEARCH_FILE, file, size, m, 0, mirrored);
    rooms_for(LOAD, file, size - 1, m, 0, NULL);
    rooms_for(SEARCH_FILE, file, size - CHECK_BYTES, m, 0, mirrored);
    file[size] = 0;
    rooms_for(LOAD, file, size + 1, m, 0, NULL);
    file[size - 1] ^= 1;
    rooms_for(LOAD, file, size, m, 0, NULL);
    rooms_for(SEARCH_FILE, file, size, m, 0, mirrored);
    rooms_for(SEARCH_FILE, file, size + 1, m, 0, mirrored);
}

/* a word at the limit or past it, or an empty one, over all rooms */
static void rooms_of_word(const uint8_t *word, size_t m)
{
    static uint8_t file[MOST_FILE], mirrored[MOST_LETTERS];
    bool good = m >= 1 && m <= MOST_LETTERS;
    size_t size = good ? file_of(word, m, file) : 40;
    rooms_for(BUILD, word, m, m, 0, NULL);
    rooms_for(SAVE, word, m, m, size, NULL);
    rooms_for(SAVE_CHECKED, word, m, m, size + CHECK_BYTES, NULL);
    rooms_for(SAVE_CHECKED, word, m, m, size, NULL);
    rooms_for(SEARCH, word, m, m, 0, word);
    rooms_for(TURBO, word, m, m, 0, word);
    rooms_for(FAILURE_SEARCH, word, m, m, 0, word);
    rooms_for(FAILURE_BUILD, word, m, m, 0, NULL);
    rooms_for(COMPACT_SEARCH, word, m, m, 0, word);
    rooms_for(COMPACT_BUILD, word, m, m, 0, NULL);
    rooms_for(STORACLE_BUILD, word, m, m, 0, NULL);
    if (good) {
        mirror(word, m, mirrored);
        rooms_for(LOAD, file, size, m, 0, NULL);
        rooms_for(SEARCH_FILE, file, size, m, 0, mirrored);
        rooms_for(LOAD, file, size - 1, m, 0, NULL);
        file[size] = 0;
        rooms_for(LOAD, file, size + 1, m, 0, NULL);
        rooms_for(SEARCH_FILE, file, size + 1, m, 0, mirrored);
        rooms_of_checked_file(word, m);
    }
}

/* a file that declares a word past the limit, and has it */
static void rooms_of_long_file(unsigned edition, const uint8_t *word, size_t m)
{
    static uint8_t file[MOST_FILE];
    file[0] = (uint8_t)edition;
    size_t size = 1 + spell_in((uint32_t)m, groups_of((uint32_t)m), file + 1);
    memcpy(file + size, word, m);
    size += m;
    file[size++] = 0;
    if (edition == 2)
        size = seal(file, size);
    rooms_for(LOAD, file, size, m, 0, NULL);
    rooms_for(SEARCH_FILE, file, size, m, 0, NULL);
}

static void rooms(void)
{
    static const size_t lengths[] = {0, 1, 2, 3, 5, 9, 30, 128, LONG_EDGES, MOST_LETTERS + 1, MOST_LETTERS + 2, 2 * MOST_LETTERS,
                                     PAST_16_BITS, PAST_16_BITS + 1, LONGEST_TRIED};
    static uint8_t word[LONGEST_TRIED];
    for (size_t l = 0; l < sizeof lengths / sizeof *lengths; l++)
        for (int turn = 0; turn < (lengths[l] < 100 ? 4 : 1); turn++) {
            choose_palette(turn % 2 ? 4 : 2);
            make_word(word, lengths[l], turn < 2 ? RANDOM : BROKEN);
            rooms_of_word(word, lengths[l]);
            if (lengths[l] > MOST_LETTERS && lengths[l] < PAST_16_BITS)
                for (unsigned edition = 1; edition <= 2; edition++)
                    rooms_of_long_file(edition, word, lengths[l]);
        }
}

/* ---- failure oracles with symbol arrows beside the spine, which few words have ---- */

/* words with one such arrow, two of one state, three of two states, more; found by changing the first step by step */
static const char *const slotted[] = {
    "abadbcaabdbaba",
    "dabadbbecaabddcccddbabaacaddbbbbeebbaab",
    "ebbabbbaadcdabebbdcaababbdbeccaaabbdbade",
    "babbcecbaaeddacceebbbaeceecabbbaacceadb",
    "cecabaabbddbabaebbbadaaedbaaaaaaadaaaaaa",
    "ebhbabbgadbehhbgcdhfebcaagbhedhbhgffgeeabaeefbbhhaefaaadfdbcadhhhgcgdhbahghdfdeaabhfahbghhhahheaeebahhhhhgafcaahbaaefeed"};

enum { SLOTTED = sizeof slotted / sizeof *slotted, LEAST_GROWN = 40 };

/* words of any length from LEAST_GROWN on: a head, then one letter over and over but for another, about in the middle. With the letters the
   arrows beside the spine grow, to about one for two letters. */
static const struct {
    const char *head;
    char often, once;
} grown[] = {{"abaabbcdcbaebbbadaac", 'a', 'd'}, {"bdbabddbadcbbdadbdcdda", 'd', 'c'}, {"befbaffbdfcfebfafbfeecffdd", 'f', 'e'}};

/* so many letters, where that may be: a word from above, as it is, or in front of or behind letters by chance, or one that is grown; now and
   then with a letter changed; its letters then exchanged for others */
static void make_slotted_word(uint8_t *out, size_t m)
{
    uint8_t first = (uint8_t)chance(), step = (uint8_t)(2 * chance() + 1);
    const char *own = slotted[below(SLOTTED)];
    size_t len = strlen(own) < m ? strlen(own) : m, g = below(sizeof grown / sizeof *grown);
    for (size_t i = 0; i < m; i++)
        out[i] = (uint8_t)('a' + below(4));
    memcpy(out + (below(2) ? m - len : 0), own, len);
    if (m >= LEAST_GROWN && (m > 200 || below(2))) {
        size_t head = strlen(grown[g].head), rest = m - head;
        memset(out, grown[g].often, m);
        memcpy(out, grown[g].head, head);
        out[head + rest / 2 - below(rest / 4)] = (uint8_t)grown[g].once;
    }
    if (below(4) == 0)
        out[below(m)] = (uint8_t)('a' + below(6));
    for (size_t i = 0; i < m; i++)
        out[i] = (uint8_t)(first + (out[i] - 'a') * step);
}

/* a letter to go on with from a state: of a slot of it or of a state on its failure path, as far as liked, else the spine's or any */
static unsigned some_letter(const uint16_t *table, size_t m, unsigned state, unsigned liking)
{
    if (below(16) < liking)
        for (unsigned x = state;; x = in_row(table, m, FAILURE_ROW, x)) {
            unsigned slot = in_row(table, m, FIRST_ROW, x), behind = in_row(table, m, BEHIND_ROW, slot);
            if (slot != 0)
                return table[in_row(table, m, TARGET_ROW, behind != 0 && below(2) ? behind : slot)];
            if (in_row(table, m, FAILURE_ROW, x) == 0)
                break;
        }
    return state < m && below(2) ? table[state + 1] : table[1 + below(m)];
}

/* Letters that the oracle of the table reads, from the window's last to its first; whether all m of them. Where it is stuck, the rest of
   the window stays as it is. */
static bool walk_window(uint8_t *window, const uint16_t *table, size_t m)
{
    unsigned state = 0, liking = (unsigned)(below(3) ? 14 + below(3) : below(16));
    for (size_t unread = m; unread > 0; unread--) {
        unsigned letter = 0, next = 0;
        for (int tries = 0; tries < 8 && next == 0; tries++) {
            letter = some_letter(table, m, state, liking);
            next = table_reach(table, m, state, letter);
        }
        if (next == 0)
            return false;
        window[unread - 1] = (uint8_t)letter;
        state = next;
    }
    return true;
}

/* windows that the failure oracle of the word's mirror reads, at the text's first place and at some others; of some only the end */
static void put_walked(uint8_t *text, size_t n, const uint8_t *word, size_t m)
{
    static uint16_t table[10 * (MOST_LETTERS + 1)];
    static uint8_t mirrored[MOST_LETTERS];
    uint64_t answer;
    mirror(word, m, mirrored);
    second_failure_build(mirrored, m, table, 10 * (m + 1), &answer);
    for (size_t windows = m <= n ? 1 + below(1 + n / m) : 0, at = 0; windows > 0; windows--) {
        for (int tries = 0; tries < 32 && !walk_window(text + at, table, m); tries++)
            ;
        at = below(2) && at + 2 * m <= n ? at + m : below(n - m + 1);
    }
}

/* a word of which the failure oracle is made, and its mirror, which is looked for with it */
static void slotted_word(const uint8_t *word, size_t m)
{
    uint8_t sought[MOST_LETTERS];
    static uint8_t text[3 * MOST_LETTERS + 300];
    size_t n = m + below(2 * m + 300);
    mirror(word, m, sought);
    run_plain(FAILURE_BUILD, word, m, m);
    choose_palette(4);
    make_text(text, n, sought, m, (unsigned)chance());
    put_walked(text, n, sought, m);
    run_search(FAILURE_SEARCH, sought, m, m, text, m, below(3));
    run_search(FAILURE_SEARCH, sought, m, m, text, n, below(3) ? n : below(4));
    put_walked(text, n, sought, m);
    memcpy(text + below(n - m + 1), sought, m);
    run_search(FAILURE_SEARCH, sought, m, m, text, n, below(3) ? n : below(4));
}

/* the first word, with every two of its letters changed in every way */
static void changed_slotted_words(void)
{
    size_t m = strlen(slotted[0]);
    uint8_t word[64];
    for (size_t i = 0; i < m; i++)
        for (size_t k = 0; k < i; k++)
            for (unsigned letters = 0; letters < 25; letters++) {
                memcpy(word, slotted[0], m);
                word[i] = (uint8_t)('a' + letters % 5);
                word[k] = (uint8_t)('a' + letters / 5);
                slotted_word(word, m);
            }
}

static void slotted_words(void)
{
    static const size_t lengths[] = {128, 255, 256, 257, 500, LONG_EDGES};
    uint8_t word[MOST_LETTERS], mirrored[MOST_LETTERS];
    for (size_t i = 0; i < SLOTTED; i++)
        for (int turn = 0; turn < 500; turn++)
            slotted_word((const uint8_t *)slotted[i], strlen(slotted[i]));
    changed_slotted_words();
    for (size_t turn = 0; turn < 10000; turn++) {
        make_slotted_word(word, 14 + turn % 110);
        slotted_word(word, 14 + turn % 110);
    }
    for (size_t turn = 0; turn < 5 * sizeof lengths / sizeof *lengths; turn++) {
        size_t m = lengths[turn / 5];
        make_slotted_word(word, m);
        slotted_word(word, m);
        mirror(word, m, mirrored);
        slotted_word(mirrored, m);
    }
}

/* ---- files: cut, changed, bytes put in and taken out, numbers replaced ---- */

static size_t spliced(const uint8_t *file, size_t len, size_t from, size_t to, const uint8_t *put, size_t put_len, uint8_t *out)
{
    memcpy(out, file, from);
    memcpy(out + from, put, put_len);
    memcpy(out + from + put_len, file + to, len - to);
    return from + put_len + (len - to);
}

/* of a long file only some places are damaged: one letter in so many, as another letter makes another oracle, and one other byte in so
   many; but always those where a field begins or ends, and the last ones */
static size_t one_letter_in = 1, one_byte_in = 1;

static bool chosen(size_t at, size_t len, size_t m, size_t letter_in)
{
    size_t letters = 1 + groups_of((uint32_t)m), behind = letters + m;
    bool inside = at > letters && at + 1 < behind;
    return inside ? below(letter_in) == 0 : at < behind + 4 || at + 8 > len || below(one_byte_in) == 0;
}

static void cut_file(const uint8_t *file, size_t len, size_t m)
{
    for (size_t cut = 0; cut <= len; cut++)
        if (chosen(cut, len, m, one_byte_in))
            try_file(file, cut, m);
}

static void change_bytes(const uint8_t *file, size_t len, size_t m, bool every)
{
    static uint8_t other[MOST_FILE];
    static const uint8_t puts[] = {0, 1, 0x0F, 0x10, 0x7F, 0x80, 0x81, 0xFF};
    memcpy(other, file, len);
    for (size_t at = 0; at < len; at++) {
        if (!chosen(at, len, m, one_letter_in))
            continue;
        for (unsigned value = 0; every && value < 256; value++) {
            other[at] = (uint8_t)value;
            try_file(other, len, m);
        }
        for (unsigned turn = 0; !every && turn < 6; turn++) {
            other[at] = turn == 0   ? (uint8_t)(file[at] + 1)
                        : turn == 1 ? (uint8_t)(file[at] - 1)
                        : turn == 2 ? file[at] ^ 0x80
                        : turn == 3 ? (uint8_t)chance()
                                    : puts[below(sizeof puts)];
            try_file(other, len, m);
        }
        other[at] = file[at];
    }
}

static void move_bytes(const uint8_t *file, size_t len, size_t m)
{
    static uint8_t other[2 * MOST_FILE];
    static const uint8_t puts[] = {0, 1, 0x80, 0xFF, 0x61};
    for (size_t at = 0; at <= len; at++) {
        if (!chosen(at, len, m, one_letter_in))
            continue;
        uint8_t put = below(2) ? puts[below(sizeof puts)] : (uint8_t)chance();
        try_file(other, spliced(file, len, at, at, &put, 1, other), m);
        size_t from = below(at);
        try_file(other, spliced(file, len, at, at, file + from, at - from < 4 ? at - from : 4, other), m);
        if (at < len)
            try_file(other, spliced(file, len, at, at + 1, file, 0, other), m);
        if (at + 2 <= len) {
            uint8_t swapped[2] = {file[at + 1], file[at]};
            try_file(other, spliced(file, len, at, at + 2, swapped, 2, other), m);
            try_file(other, spliced(file, len, at, at + 2, file, 0, other), m);
        }
    }
}

/* the number that stands in file[from..to) replaced: by extreme ones, near ones, and by longer spellings of itself and of others */
static void replace_number(const uint8_t *file, size_t len, size_t m, size_t from, size_t to)
{
    static const uint32_t extremes[] = {0,
                                        1,
                                        2,
                                        126,
                                        127,
                                        128,
                                        129,
                                        255,
                                        256,
                                        16383,
                                        16384,
                                        65535,
                                        65536,
                                        65537,
                                        2097151,
                                        2097152,
                                        268435455,
                                        268435456,
                                        2147483647,
                                        1u << 31,
                                        4294967040u,
                                        4294967294u,
                                        4294967295u,
                                        LONG_EDGES,
                                        MOST_LETTERS + 1};
    static const char *const raw[] = {"80",           "8080",         "808080",     "80808080",     "8000",
                                      "808000",       "80808000",     "8080808000", "8080808080",   "8080808010",
                                      "FFFFFFFF10",   "FFFFFFFF1F",   "FFFFFFFF7F", "FFFFFFFF8F",   "FFFFFFFFFF",
                                      "808080808000", "FFFFFFFF8000", "8180808000", "818080808001", "FFFFFFFFFF01"};
    static uint8_t other[2 * MOST_FILE];
    uint8_t put[8];
    uint32_t own = 0;
    for (size_t i = to; i-- > from;)
        own = own * 128 + file[i] % 128;
    for (size_t e = 0; e < sizeof extremes / sizeof *extremes; e++)
        try_file(other, spliced(file, len, from, to, put, spell_in(extremes[e], groups_of(extremes[e]), put), other), m);
    for (uint32_t near = own > 3 ? own - 3 : 0; near < own + 4; near++)
        try_file(other, spliced(file, len, from, to, put, spell_in(near, groups_of(near), put), other), m);
    for (size_t groups = 1; groups <= 6; groups++) {
        try_file(other, spliced(file, len, from, to, put, spell_in(own, groups, put), other), m);
        try_file(other, spliced(file, len, from, to, put, spell_in((uint32_t)chance(), groups, put), other), m);
    }
    for (size_t r = 0; r < sizeof raw / sizeof *raw; r++)
        try_file(other, spliced(file, len, from, to, put, from_hex(raw[r], put), other), m);
    for (size_t r = 0; r < sizeof raw / sizeof *raw; r++) /* and the file ends there */
        try_file(other, spliced(file, to, from, to, put, from_hex(raw[r], put), other), m);
}

/* each number of a good file in turn; of many arrows only some */
static void replace_numbers(const uint8_t *file, size_t len, size_t m)
{
    size_t at = 0, field = 0, behind = file[0] == 2 ? len - CHECK_BYTES : len;
    while (at < behind) {
        size_t to = at;
        while (file[to] >= 128)
            to++;
        to++;
        if (field < 8 || behind - to < 6 || below(len / 16 + 1) == 0)
            replace_number(file, len, m, at, to);
        at = field == 1 ? to + m : to;
        field++;
    }
}

static void damage(unsigned edition, const uint8_t *word, size_t m, bool every_value, size_t letter_in, size_t byte_in)
{
    static uint8_t file[MOST_FILE];
    size_t len = file_in(edition, word, m, file);
    one_letter_in = letter_in;
    one_byte_in = byte_in;
    cut_file(file, len, m);
    change_bytes(file, len, m, every_value);
    move_bytes(file, len, m);
    replace_numbers(file, len, m);
}

/* every byte changed of a file with one byte too many */
static void damage_longer(unsigned edition, const uint8_t *word, size_t m)
{
    static uint8_t file[MOST_FILE];
    size_t len = file_in(edition, word, m, file);
    file[len] = 0;
    change_bytes(file, len + 1, m, true);
}

static void damaged_files(void)
{
    static const char *const short_ones[] = {"a", "aa", "ab", "aaa", "abbbaab", "abcacdace"};
    static const struct {
        size_t m, letter_in, byte_in;
    } longer[] = {{12, 1, 1},
                  {20, 1, 1},
                  {60, 1, 1},
                  {127, 1, 1},
                  {128, 1, 1},
                  {130, 1, 1},
                  {200, 1, 1},
                  {1023, 256, 16},
                  {1024, 64, 4},
                  {1025, 64, 4},
                  {MOST_LETTERS - 1, 4096, 64},
                  {MOST_LETTERS, 2048, 64}};
    static uint8_t word[MOST_LETTERS];
    for (size_t i = 0; i < 2 * sizeof short_ones / sizeof *short_ones; i++) {
        const char *own = short_ones[i / 2];
        damage((unsigned)(i % 2 + 1), (const uint8_t *)own, strlen(own), true, 1, 1);
        damage_longer((unsigned)(i % 2 + 1), (const uint8_t *)own, strlen(own));
    }
    for (size_t i = 0; i < 2 * sizeof longer / sizeof *longer; i++) {
        size_t l = i / 2, m = longer[l].m, fewer = i % 2 && m > 1000 ? 4 : 1;
        choose_palette(l % 2 ? 4 : 2);
        make_word(word, m, l == 4 ? PERIODIC : RANDOM);
        damage((unsigned)(i % 2 + 1), word, m, false, fewer * longer[l].letter_in, fewer * longer[l].byte_in);
    }
}

/* Every file of up to 5 bytes over a few values. Only the least files are taken: twice the same letter, and no arrow. */
static void least_files(void)
{
    static const uint8_t bytes[] = {0, 1, 2, 3, 'a', 0x80, 0x81, 0xFF}, text[] = "\1\1aaa\3\3";
    uint8_t file[LEAST_FILE];
    for (size_t len = 0, many = 1; len <= sizeof file; len++, many *= sizeof bytes)
        for (size_t number = 0; number < many; number++) {
            for (size_t i = 0, rest = number; i < len; i++, rest /= sizeof bytes)
                file[i] = bytes[rest % sizeof bytes];
            bool least = len == sizeof file && file[0] == 1 && file[1] == 2 && file[2] == file[3] && file[4] == 0;
            size_t m = LEAST_SAVED + below(2), list = below(3);
            struct outcome loaded = run_plain(LOAD, file, len, m);
            struct outcome sought = run_search(SEARCH_FILE, file, len, m, text, sizeof text - 1, list);
            expect((loaded.number == 0) == least && (sought.number == 0) == least, "a file of up to 5 bytes");
        }
}

/* ---- files of edition 2: every ending of bodies that are right and wrong, every check, single bits ---- */

static void flip_bit(uint8_t *bytes, size_t bit)
{
    bytes[bit / 8] ^= (uint8_t)(1 << bit % 8);
}

/* a body is a file of edition 2 up to its check, or is like one */
static void try_ending(const uint8_t *body, size_t len, const uint8_t *end, size_t end_len, size_t m)
{
    static uint8_t file[2 * MOST_FILE];
    memcpy(file, body, len);
    memcpy(file + len, end, end_len);
    try_as_it_is(file, len + end_len, m);
}

/* the check of other bytes than it should be of, or made otherwise: of those behind the edition, of all but the last, of the same as
   edition 1; one that starts with FFFF; and behind a wrong one that of all before it */
static void other_checks(const uint8_t *body, size_t len, size_t m)
{
    static uint8_t other[MOST_FILE + 8];
    memcpy(other, body, len);
    seal(other + 1, len - 1);
    try_ending(body, len, other + len, CHECK_BYTES, m);
    seal(other, len - 1);
    try_ending(body, len, other + len - 1, CHECK_BYTES, m);
    memcpy(other, body, len);
    other[0] ^= 3;
    seal(other, len);
    try_ending(body, len, other + len, CHECK_BYTES, m);
    memcpy(other, body, len);
    other[0] ^= 0xFF;
    other[1] ^= 0xFF;
    seal(other, len);
    try_ending(body, len, other + len, CHECK_BYTES, m);
    memcpy(other, body, len);
    seal(other, len);
    flip_bit(other + len, below(8 * CHECK_BYTES));
    seal(other, len + CHECK_BYTES);
    try_ending(body, len, other + len, 2 * CHECK_BYTES, m);
}

/* nothing, one byte, the check, wrong ones, and bytes behind the check and behind wrong ones, also the whole again */
static void every_ending(const uint8_t *body, size_t len, size_t m)
{
    static uint8_t whole[MOST_FILE], end[MOST_FILE + CHECK_BYTES];
    memcpy(whole, body, len);
    size_t size = seal(whole, len);
    uint8_t low = whole[len], high = whole[len + 1], no_low = (uint8_t)~low, no_high = (uint8_t)~high;
    const struct {
        size_t len;
        uint8_t bytes[4];
    } ends[] = {{0, {0}},
                {1, {low}},
                {1, {high}},
                {1, {no_low}},
                {1, {0}},
                {2, {low, high}},
                {2, {high, low}},
                {2, {low, no_high}},
                {2, {no_low, high}},
                {2, {no_low, no_high}},
                {2, {0, 0}},
                {3, {low, high, 0}},
                {3, {low, high, low}},
                {4, {low, high, 0, 0}},
                {4, {low, high, low, high}},
                {3, {low, no_high, 0}},
                {3, {no_low, high, 0}},
                {3, {high, low, high}},
                {4, {no_low, no_high, low, high}},
                {4, {0, 0, low, high}}};
    for (size_t e = 0; e < sizeof ends / sizeof *ends; e++)
        try_ending(body, len, ends[e].bytes, ends[e].len, m);
    memcpy(end, whole + len, CHECK_BYTES);
    for (size_t bit = 0; bit < 8 * CHECK_BYTES; bit++) {
        flip_bit(end, bit);
        try_ending(body, len, end, CHECK_BYTES, m);
        flip_bit(end, bit);
    }
    memcpy(end + CHECK_BYTES, whole, size);
    try_ending(body, len, end, CHECK_BYTES + size, m);
    flip_bit(end, below(8 * CHECK_BYTES));
    try_ending(body, len, end, CHECK_BYTES + size, m);
    other_checks(body, len, m);
}

/* the body of a word's file with other editions, in one group and in two */
static void other_editions(const uint8_t *body, size_t len, size_t m)
{
    static const char *const editions[] = {"00", "01", "03", "04", "12", "42", "7F", "80", "82", "FF", "82 00", "82 01", "81 00", "80 02",
                                           "82 80 00", "FF FF FF FF 0F"};
    static uint8_t other[MOST_FILE];
    uint8_t put[8];
    for (size_t e = 0; e < sizeof editions / sizeof *editions; e++) {
        size_t put_len = from_hex(editions[e], put);
        every_ending(other, spliced(body, len, 0, 1, put, put_len, other), m);
    }
}

/* the body with fewer arrows than its word has, declared so and not, and with one more; of many arrows only some */
static void other_counts(const uint8_t *body, size_t len, size_t m, size_t one_in)
{
    static uint8_t other[MOST_FILE];
    size_t count_at = behind_number(body, len, 1) + m, at = behind_number(body, len, count_at), arrows = small_number(body, count_at);
    for (size_t k = 0, to = at; k <= arrows; k++, to = to < len ? behind_number(body, len, behind_number(body, len, to)) : to) {
        if (k > 1 && k + 2 < arrows && below(one_in) != 0)
            continue;
        memcpy(other, body, count_at);
        size_t behind = count_at + spell_in((uint32_t)k, groups_of((uint32_t)k), other + count_at);
        memcpy(other + behind, body + at, to - at);
        every_ending(other, behind + to - at, m);
        every_ending(body, to, m);
    }
    memcpy(other, body, count_at);
    size_t behind = count_at + spell_in((uint32_t)arrows + 1, groups_of((uint32_t)arrows + 1), other + count_at);
    memcpy(other + behind, body + at, len - at);
    memset(other + behind + len - at, 0, 2);
    every_ending(other, behind + len - at, m);
    every_ending(other, behind + len - at + 2, m);
}

/* every byte of a body changed in some ways, the check made right */
static void other_bytes(const uint8_t *body, size_t len, size_t m)
{
    static uint8_t other[MOST_FILE];
    memcpy(other, body, len);
    for (size_t at = 0; at < len; at++) {
        uint8_t own = other[at];
        for (int turn = 0; turn < 4; turn++) {
            other[at] = turn == 0 ? (uint8_t)(own + 1) : turn == 1 ? (uint8_t)(own - 1) : turn == 2 ? own ^ 0x80 : (uint8_t)chance();
            seal(other, len);
            try_as_it_is(other, len + CHECK_BYTES, m);
        }
        other[at] = own;
    }
}

/* A single bit that is changed is always seen. The check made right again, what is refused is refused for the body. */
static void flip_bits(const uint8_t *word, size_t m)
{
    static uint8_t file[MOST_FILE];
    size_t len = checked_file_of(word, m, file);
    for (size_t bit = 0; bit < 8 * len; bit++) {
        flip_bit(file, bit);
        expect(run_plain(LOAD, file, len, m).number != 0, "a bit that is changed");
        expect(run_search(SEARCH_FILE, file, len, m, word, m, 1).number != 0, "a bit that is changed");
        flip_bit(file, bit);
    }
    for (size_t bit = 0; bit < 8 * (len - CHECK_BYTES); bit++) {
        flip_bit(file, bit);
        seal(file, len - CHECK_BYTES);
        try_as_it_is(file, len, m);
        flip_bit(file, bit);
    }
}

/* Four bits as the check's polynomial has them, from each bit on, and twice: the check does not see it. Where no letter is there twice, the
   changed letters are often another word's, and the file is that one's. */
static void unseen_changes(const uint8_t *word, size_t m)
{
    static const size_t pattern[] = {0, 1, 14, 16};
    static uint8_t file[MOST_FILE];
    for (int turns = 1; turns <= 2; turns++) {
        size_t len = checked_file_of(word, m, file), bits = 8 * len - 16;
        for (size_t from = 0; from < bits; from++) {
            size_t other = turns == 2 ? below(bits) : from;
            for (int i = 0; i < 4 * turns; i++)
                flip_bit(file, (i < 4 ? from : other) + pattern[i % 4]);
            expect(ends_with_check(file, len), "a change that the check does not see");
            try_as_it_is(file, len, m);
            checked_file_of(word, m, file);
        }
    }
}

/* a file that is cut is refused with 5 at its end, in either edition; one that says it is of the other has no check, or one too many */
static void cut_and_exchange(const uint8_t *word, size_t m)
{
    static uint8_t file[MOST_FILE];
    for (unsigned edition = 1; edition <= 2; edition++) {
        size_t len = file_in(edition, word, m, file);
        for (size_t cut = 0; cut < len; cut++) {
            struct outcome o = run_plain(LOAD, file, cut, m);
            expect(o.number == 5 && o.offset == cut, "a file that is cut");
        }
    }
    size_t len = file_of(word, m, file);
    file[0] = 2;
    example_loading(file, len, m, 5, len, "a file of edition 1 that says it is of edition 2");
    example_loading(file, len + 1, m, 5, len + 1, "a file of edition 1 that says it is of edition 2");
    seal(file, len);
    example_loading(file, len + CHECK_BYTES, m, 0, UNTOUCHED, "a file of edition 2");
    file[0] = 1;
    example_loading(file, len + CHECK_BYTES, m, 11, len, "a file of edition 2 that says it is of edition 1");
    example_loading(file, len, m, 0, UNTOUCHED, "a file of edition 1");
    seal(file, len);
    example_loading(file, len + CHECK_BYTES, m, 11, len, "a file of edition 1 with a check");
    file[0] = 3;
    seal(file, len);
    example_loading(file, len + CHECK_BYTES, m, 7, 0, "a file of edition 3");
}

static void checked_word(const uint8_t *word, size_t m)
{
    static uint8_t body[MOST_FILE];
    size_t len = file_of(word, m, body);
    body[0] = 2;
    every_ending(body, len, m);
    other_editions(body, len, m);
    other_counts(body, len, m, 1 + m / 20);
    other_bytes(body, len, m);
    flip_bits(word, m);
    unseen_changes(word, m);
    cut_and_exchange(word, m);
}

/* Every word of two letters, saved, loaded, and loaded with a wrong check. Two letters that differ have a check that no other two have, so
   that nearly all checks are met. */
static void two_letters(void)
{
    static uint8_t file[MOST_FILE];
    for (unsigned number = 0; number < 65536; number++) {
        const uint8_t word[] = {(uint8_t)number, (uint8_t)(number / 256)};
        size_t len = checked_file_of(word, 2, file);
        run_save(2, word, 2, len);
        run_plain(LOAD, file, len, 2);
        flip_bit(file + len - CHECK_BYTES, below(8 * CHECK_BYTES));
        expect(run_plain(LOAD, file, len, 2).number == 13, "a wrong check of two letters");
    }
}

/* Behind a body every two bytes: they are its check once. */
static void every_check(const char *word)
{
    static uint8_t file[MOST_FILE];
    size_t m = strlen(word), len = checked_file_of((const uint8_t *)word, m, file), taken = 0;
    for (unsigned number = 0; number < 65536; number++) {
        file[len - 2] = (uint8_t)number;
        file[len - 1] = (uint8_t)(number / 256);
        struct outcome o = run_plain(LOAD, file, len, m);
        expect(o.number == 0 || (o.number == 13 && o.offset == len - CHECK_BYTES), "every check");
        taken += o.number == 0;
    }
    expect(taken == 1, "every check");
}

/* Every body of up to 5 bytes over a few values, of edition 2, with its check whole, cut and wrong and with a byte behind it. Only the
   least files are taken, of 7 bytes: twice the same letter, no arrow, and the check. */
static void least_checked_files(void)
{
    static const uint8_t bytes[] = {0, 1, 2, 3, 'a', 0x80, 0x81, 0xFF}, text[] = "\1\1aaa\3\3";
    uint8_t file[LEAST_FILE + CHECK_BYTES + 1];
    for (size_t len = 1, many = 1; len <= LEAST_FILE; len++, many *= sizeof bytes)
        for (size_t number = 0; number < 5 * many; number++) {
            file[0] = 2;
            for (size_t i = 1, rest = number / 5; i < len; i++, rest /= sizeof bytes)
                file[i] = bytes[rest % sizeof bytes];
            size_t end = number % 5, all = end == 4 ? len + CHECK_BYTES : len + end, m = LEAST_SAVED + below(2), list = below(3);
            file[seal(file, len)] = 0;
            if (end == 4)
                flip_bit(file + len, below(8 * CHECK_BYTES));
            bool least = all == sizeof file - 1 && file[1] == 2 && file[2] == file[3] && file[4] == 0 && ends_with_check(file, all);
            struct outcome loaded = run_plain(LOAD, file, all, m);
            struct outcome sought = run_search(SEARCH_FILE, file, all, m, text, sizeof text - 1, list);
            expect((loaded.number == 0) == least && (sought.number == 0) == least, "a body of up to 5 bytes and its check");
        }
}

static void checked_files(void)
{
    static const char *const short_ones[] = {"aa", "ab", "aaa", "aba", "abbbaab", "abcacdace", "abcdefghijklm", "\xFF\x80\x01\x7F\x81"};
    static const size_t lengths[] = {12, 40, 127, 128, 200};
    static uint8_t word[MOST_LETTERS], file[MOST_FILE];
    for (size_t i = 0; i < sizeof short_ones / sizeof *short_ones; i++)
        checked_word((const uint8_t *)short_ones[i], strlen(short_ones[i]));
    for (size_t i = 0; i < sizeof lengths / sizeof *lengths; i++) {
        choose_palette(i % 2 ? 4 : 256);
        make_word(word, lengths[i], RANDOM);
        checked_word(word, lengths[i]);
    }
    choose_palette(2);
    make_word(word, MOST_LETTERS, RANDOM);
    size_t len = file_of(word, MOST_LETTERS, file);
    file[0] = 2;
    every_ending(file, len, MOST_LETTERS);
    two_letters();
    every_check("abbbaab");
    least_checked_files();
}

static void random_file(void)
{
    static uint8_t file[200 + CHECK_BYTES];
    size_t len = some_length(199), kept = 0, least = below(8) ? LEAST_SAVED : 1, m = least + some_length(20);
    for (size_t i = 0; i < len; i++)
        file[i] = below(2) ? (uint8_t)chance() : (uint8_t)below(4);
    if (below(8) != 0)
        kept += spell_in((uint32_t)below(2) + 1, 1, file);
    if (kept > 0 && below(8) != 0)
        kept += spell_in((uint32_t)m, 1, file + kept);
    if (kept > 1 && below(8) != 0) {
        choose_palette(2);
        make_word(file + kept, m, RANDOM);
        kept += m;
        kept += spell_in((uint32_t)below(m), 1, file + kept);
    }
    if (kept > 0 && file[0] == 2 && below(2))
        kept = seal(file, kept);
    try_file(file, len > kept && below(4) ? len : kept, m);
}

static void random_files(void)
{
    for (int i = 0; i < 100000; i++)
        random_file();
}

/* ---- long texts, and those that are just not long ---- */

static uint8_t long_text[MOST_TEXT];

static const unsigned wide_alphabets[] = {1, 2, 3, 4, 20, 256};

/* the kinds of words: those of make_word(), those of make_hostile() over the palette that are no such kind, and letters of which none is
   there twice, as far as there are so many */
enum { DISTINCT = KINDS + OF_FIBONACCI - FIRST_B, WORD_KINDS };

static void make_any_word(uint8_t *word, size_t m, unsigned kind)
{
    uint8_t first = (uint8_t)chance(), step = (uint8_t)(2 * chance() + 1);
    if (kind < KINDS) {
        make_word(word, m, (enum kind)kind);
        return;
    }
    if (kind < DISTINCT)
        make_hostile(word, m, (enum hostile)(kind - KINDS + FIRST_B));
    for (size_t i = 0; i < m; i++)
        word[i] = kind == DISTINCT ? (uint8_t)(first + i * step) : palette[word[i] - 'a'];
}

/* letters that the word does not have, one of them or all; where it has them all, its first */
static void put_strangers(uint8_t *out, size_t len, const uint8_t *word, size_t m)
{
    uint8_t strangers[256] = {word[0]};
    size_t many = 0;
    for (int letter = 0; letter < 256; letter++)
        if (memchr(word, letter, m) == NULL)
            strangers[many++] = (uint8_t)letter;
    size_t one = below(many), all = below(2);
    for (size_t i = 0; i < len; i++)
        out[i] = strangers[all ? below(many) : one];
}

/* the word over and over, overlapping or not, with a letter changed here and there, mostly in one bit */
static void put_changed(uint8_t *out, size_t len, const uint8_t *word, size_t m)
{
    make_own_text(out, len, word, m, below(2) ? WHOLE : OVERLAPPING);
    for (size_t at = below(2 * m); at < len; at += 1 + below(4 * m))
        out[at] = below(3) ? out[at] ^ (uint8_t)(1 << below(8)) : palette[below(256)];
}

/* a letter of the word over and over, and another one after about as many as the word has, so that a window's reading ends late */
static void put_runs(uint8_t *out, size_t len, const uint8_t *word, size_t m)
{
    uint8_t often = word[below(m)], seldom = below(2) ? word[below(m)] : palette[below(256)];
    size_t gap = m + below(3), same = below(2);
    memset(out, often, len);
    for (size_t at = below(gap); at < len; at += same ? gap : 1 + below(2 * m))
        out[at] = seldom;
}

/* the kinds of stretches: those of make_word(), those of make_own_text(), and these */
enum { STRANGERS_ALONE = KINDS + OWNS, CHANGED, PIECES, RUNS, STRETCHES };

static void put_stretch(uint8_t *out, size_t len, const uint8_t *word, size_t m, unsigned kind)
{
    if (kind < KINDS)
        make_word(out, len, (enum kind)kind);
    else if (kind < STRANGERS_ALONE)
        make_own_text(out, len, word, m, (enum own)(kind - KINDS));
    else
        (kind == STRANGERS_ALONE ? put_strangers : kind == CHANGED ? put_changed : kind == PIECES ? put_pieces : put_runs)(out, len, word, m);
}

/* stretches of all kinds, from shorter than the word to much longer, so that short and deep readings of windows follow each other */
static void put_stretches(uint8_t *out, size_t n, const uint8_t *word, size_t m)
{
    for (size_t at = 0, len; at < n; at += len) {
        len = 1 + (below(2) ? below(3 * m) : some_length(n / 4));
        len = len < n - at ? len : n - at;
        put_stretch(out + at, len, word, m, (unsigned)below(STRETCHES));
    }
}

/* For a word of many letters: over letters that are read shortly, some copies of the word, whole or with a bit changed, and some
   stretches. Each letter of a stretch may be read m times, so they are bounded. */
static void put_strewn(uint8_t *out, size_t n, const uint8_t *word, size_t m)
{
    put_stretch(out, n, word, m, below(2) && palette[0] != palette[1] ? RANDOM : STRANGERS_ALONE);
    for (size_t copies = below(n / m / 4); copies > 0; copies--) {
        size_t at = below(n - m + 1);
        memcpy(out + at, word, m);
        if (below(3) == 0)
            out[at + below(m)] ^= (uint8_t)(1 << below(8));
    }
    for (size_t left = m + (1 << 22) / m, len; left > 0; left -= len) {
        len = 1 + below(left < 3 * m ? left : 3 * m);
        put_stretch(out + below(n - len + 1), len, word, m, (unsigned)below(STRETCHES));
    }
}

/* all of one kind, or of stretches; often with the word at either end, or cut by the text's end */
static void make_long_text(uint8_t *text, size_t n, const uint8_t *word, size_t m, unsigned kind)
{
    if (m > 64)
        put_strewn(text, n, word, m);
    else if (kind < STRETCHES)
        put_stretch(text, n, word, m, kind);
    else
        put_stretches(text, n, word, m);
    if (below(3) == 0)
        memcpy(text, word, m);
    size_t at_end = below(3) == 0 ? 0 : below(2) ? m : below(m);
    memcpy(text + n - at_end, word, at_end);
}

static void search_long_text(size_t m, size_t n, unsigned letters, unsigned kind)
{
    static uint8_t word[MOST_LETTERS];
    choose_wide_palette(letters);
    make_any_word(word, m, (unsigned)below(WORD_KINDS));
    make_long_text(long_text, n, word, m, kind);
    (below(8) ? each_search : every_list)(word, m, long_text, n);
}

/* one fewer than a long text has, just so many, one more; a few more, up to twice as many; and where it would be long if short words
   were treated as the others */
enum { NEARS = 6 };

static size_t near_long(size_t m, unsigned near)
{
    size_t from = long_from(m);
    return near < 3 ? from - 1 + near : near == 3 ? from + below(2 * m) : near == 4 ? from + below(from) : 512 * m - 1 + below(3);
}

static void long_texts(void)
{
    static const size_t longer[] = {17, 18, 20, 33, 64}, many[] = {65, 100, 127, 128, 129, 255, 256, 257, 1024, MOST_LETTERS};
    for (unsigned c = 0; c < 6 * (STRETCHES + 1) * NEARS; c++) {
        unsigned letters = wide_alphabets[c % 6], kind = c / 6 % (STRETCHES + 1), near = c / 6 / (STRETCHES + 1);
        for (size_t m = 1; m <= 16; m++)
            search_long_text(m, near_long(m, near), letters, kind);
    }
    for (size_t l = 0; l < sizeof longer / sizeof *longer; l++)
        for (unsigned c = 0; c < 3 * (STRETCHES + 1) * NEARS; c++)
            search_long_text(longer[l], near_long(longer[l], c % NEARS), wide_alphabets[below(6)], c / NEARS % (STRETCHES + 1));
    for (size_t l = 0; l < sizeof many / sizeof *many; l++)
        for (unsigned c = 0; c < (many[l] < 1000 ? 24 : 3); c++)
            search_long_text(many[l], near_long(many[l], c % 3), wide_alphabets[below(6)], STRETCHES);
    for (size_t l = 0; l < 45; l++)
        search_long_text(2 + l % 15, 65535 + below(3) + below(2) * below(200000), wide_alphabets[below(6)], STRETCHES);
}

/* the failure search with what few words have, in long texts where it often reads whole windows */
static void long_slotted_texts(void)
{
    static const size_t lengths[] = {14, 15, 20, 39, 40, 64, 65, 120, 257};
    uint8_t word[MOST_LETTERS], sought[MOST_LETTERS];
    for (size_t l = 0; l < sizeof lengths / sizeof *lengths; l++)
        for (unsigned c = 0; c < 3 * NEARS; c++) {
            size_t m = lengths[l], n = near_long(m, c % NEARS);
            choose_wide_palette(4);
            make_slotted_word(word, m);
            mirror(word, m, sought);
            make_long_text(long_text, n, sought, m, STRETCHES);
            put_walked(long_text, n < 40 * m || c < 6 ? n : 40 * m, sought, m);
            run_search(FAILURE_SEARCH, sought, m, m, long_text, n, below(2) ? n : below(50));
        }
}

/* the longest texts, and words of more letters in texts all of one kind, where every letter may be read m times */
static void longest_texts(void)
{
    static const size_t longer[] = {17, 64, 256, 1024, MOST_LETTERS};
    static uint8_t word[MOST_LETTERS];
    for (size_t m = 2; m <= 16; m++)
        search_long_text(m, MOST_TEXT - below(2), wide_alphabets[below(6)], STRETCHES);
    for (size_t l = 0; l < sizeof longer / sizeof *longer; l++)
        search_long_text(longer[l], MOST_TEXT - below(2), wide_alphabets[below(6)], STRETCHES);
    for (unsigned kind = 0; kind < STRETCHES; kind++) {
        size_t m = 65 + below(192), n = near_long(m, kind % 3);
        choose_wide_palette(wide_alphabets[below(6)]);
        make_any_word(word, m, (unsigned)below(WORD_KINDS));
        put_stretch(long_text, n, word, m, kind);
        each_search(word, m, long_text, n);
    }
}

/* ---- compact rows ---- */

/* the letters at the borders of a set's four words */
static const uint8_t border_letters[] = {0, 63, 64, 127, 128, 191, 192, 255};

enum { BORDER_LETTERS = sizeof border_letters };

/* in rooms that are enough, each by itself sometimes more */
static void ask_rows(enum entry entry, const uint8_t *word, size_t m, const uint8_t *text, size_t n, size_t list)
{
    struct asked a = ask(entry, word, m, m);
    a.text = text;
    a.len[TEXT] = n;
    a.len[FINDS] = list;
    a.len[SETS] += below(3);
    a.len[TABLES] += below(3);
    a.fill = (enum fill)below(FILLS);
    compare(&a);
}

/* a word's compact rows, and a search for it, in a text of some kind that may be shorter than the word or empty */
static void rows_of_word(const uint8_t *word, size_t m)
{
    static uint8_t text[4 * MOST_LETTERS];
    size_t n = below(8) == 0 ? below(m + 1) : m + below(3 * m + 1);
    for (size_t i = 0; i < 256; i++)
        palette[i] = word[i % m];
    make_text(text, n, word, m, (unsigned)chance());
    ask_rows(COMPACT_BUILD, word, m, NULL, 0, 0);
    ask_rows(COMPACT_SEARCH, word, m, text, n, below(3) ? n : below(4));
}

/* lists of every length up to some more than there are finds, which overlap */
static void rows_with_every_list(void)
{
    static const uint8_t text[] = "aabaabaaabaabaabaaaabaab";
    for (size_t m = 1; m <= 7; m++)
        for (size_t list = 0; list < sizeof text; list++)
            ask_rows(COMPACT_SEARCH, text, m, text, sizeof text - 1, list);
}

/* every word of 1 to 4 letters at the borders; longer ones by chance, of two of these letters to all */
static void rows_at_the_borders(void)
{
    uint8_t word[300];
    for (size_t m = 1, words = BORDER_LETTERS; m <= 4; m++, words *= BORDER_LETTERS)
        for (size_t number = 0; number < words; number++) {
            for (size_t i = 0, rest = number; i < m; i++, rest /= BORDER_LETTERS)
                word[i] = border_letters[rest % BORDER_LETTERS];
            rows_of_word(word, m);
        }
    for (int turn = 0; turn < 3000; turn++) {
        size_t m = 1 + some_length(sizeof word - 1), first = below(BORDER_LETTERS), letters = 2 + below(BORDER_LETTERS - 1);
        for (size_t i = 0; i < 256; i++)
            palette[i] = border_letters[(first + i % letters) % BORDER_LETTERS];
        make_word(word, m, (enum kind)(turn % KINDS));
        rows_of_word(word, m);
    }
}

/* So many letters, of which so many differ: first each of them, and then some of them by chance, all of them over and over, or one of them;
   read from the other end, or in another order. The letters are neighbours, or far from each other. */
static void make_word_of(uint8_t *word, size_t m, size_t distinct)
{
    uint8_t first = (uint8_t)chance(), step = below(2) ? 1 : (uint8_t)(2 * chance() + 1);
    size_t how = below(4), turned = below(2), mixed = below(4) == 0;
    for (size_t i = 0; i < m; i++) {
        size_t which = i < distinct ? i : how == 0 ? below(distinct) : how == 1 ? i % distinct : how == 2 ? 0 : distinct - 1;
        word[turned ? m - 1 - i : i] = (uint8_t)(first + which * step);
    }
    for (size_t i = 0; i < m && mixed; i++) {
        size_t other = below(m);
        uint8_t own = word[i];
        word[i] = word[other];
        word[other] = own;
    }
}

/* every number of letters that differ, in as many letters, and in more */
static void rows_of_many_letters(void)
{
    static uint8_t word[MOST_LETTERS];
    for (size_t distinct = 1; distinct <= 256; distinct++)
        for (size_t turn = 0; turn < 6; turn++) {
            size_t m = distinct + (turn < 2 ? 0 : some_length(turn < 5 ? 64 : 512));
            make_word_of(word, m, distinct);
            rows_of_word(word, m);
        }
    for (size_t turn = 0; turn < 8; turn++) {
        size_t m = turn < 4 ? MOST_LETTERS - turn : 1000 + below(3000);
        make_word_of(word, m, 256 >> 2 * (turn % 4));
        rows_of_word(word, m);
    }
}

/* Every length of a word, from the empty one to one that is too long, where the one room is one short, and where the other is; lengths of
   up to 300, and some more, where both are enough. */
static void rows_of_every_length(void)
{
    static uint8_t word[MOST_LETTERS + 1];
    choose_palette(4);
    make_word(word, sizeof word, RANDOM);
    for (size_t m = 0; m <= sizeof word; m++) {
        struct asked a = ask(m % 2 ? COMPACT_SEARCH : COMPACT_BUILD, word, m, m);
        a.text = word;
        a.len[TEXT] = below(sizeof word);
        a.len[FINDS] = below(3);
        a.len[SETS]--;
        compare(&a);
        a.len[SETS]++;
        a.len[TABLES]--;
        compare(&a);
        if (m >= 1 && (m <= 300 || m % 101 == 0 || (m + 1 >= MOST_LETTERS && m <= MOST_LETTERS)))
            rows_of_word(word, m);
    }
}

static void short_rows(void)
{
    every_word_of(COMPACT_BUILD, 2, 11);
    every_word_of(COMPACT_BUILD, 4, 6);
    every_word_of(COMPACT_BUILD, 7, 4);
    every_case_of(COMPACT_SEARCH, 3, 4, 6);
    rows_with_every_list();
    rows_at_the_borders();
    rows_of_many_letters();
    rows_of_every_length();
}

static void longer_rows(void)
{
    every_word_of(COMPACT_BUILD, 2, 18);
    every_word_of(COMPACT_BUILD, 4, 9);
    every_case_of(COMPACT_SEARCH, 2, 7, 12);
    every_case_of(COMPACT_SEARCH, 3, 5, 8);
    for (int turn = 0; turn < 20; turn++)
        rows_of_many_letters();
}

/* ---- compact rows in long texts ---- */

/* Windows that are read as deep as is chosen, deep and short in turn or by chance: each has the word's last letters, and before them a
   letter that the word does not have, or now and then one of its own. */
static void put_depths(uint8_t *text, size_t n, const uint8_t *word, size_t m)
{
    put_strangers(text, n, word, m);
    uint8_t stranger = text[0];
    for (size_t s = 0, turn = 0; s + m <= n; turn++) {
        size_t deep = below(3) ? DEEP - 2 + below(6) : below(m + 1);
        size_t depth = shorter((below(4) ? turn % 2 : below(2)) ? deep : below(4), m), unread = m - depth;
        memcpy(text + s + unread, word + unread, depth);
        if (unread > 0)
            text[s + unread - 1] = below(8) ? stranger : word[below(m)];
        s += unread > 0 ? unread : m;
    }
}

/* a word of so many letters, of which so many differ, in a text of so many; often it stands at the end */
static void rows_in_long_text(size_t m, size_t distinct, size_t n)
{
    static uint8_t word[MOST_LETTERS];
    make_word_of(word, m, distinct);
    for (size_t i = 0; i < 256; i++)
        palette[i] = word[i % m];
    if (below(2) || 3 * m > n)
        put_depths(long_text, n, word, m);
    else
        make_long_text(long_text, n, word, m, (unsigned)below(STRETCHES + 1));
    if (below(2))
        memcpy(long_text + n - m, word, m);
    run_search(COMPACT_SEARCH, word, m, m, long_text, n, below(2) ? n : below(20));
}

/* one letter fewer than a text has that is long for a word of m letters, just so many, one more; or many more */
static size_t near_long_for_rows(size_t m)
{
    return long_for_rows(m) + (below(4) ? below(3) - 1 : below(8192));
}

/* words with as many states as fit where each has an entry for every letter of the word, or for one letter more, and with some fewer and
   some more; or where these are fewer than the letters, with as many as that needs */
static void rows_that_fit(size_t distinct)
{
    for (size_t entries = distinct; entries <= distinct + 1; entries++)
        for (size_t states = PREPARED / entries - 2; states <= PREPARED / entries + 2; states++) {
            size_t m = states > distinct + 1 ? states - 1 : distinct;
            rows_in_long_text(m, distinct, near_long_for_rows(m));
            rows_in_long_text(m, distinct, long_for_rows(m) + below(2));
        }
}

/* words about as long as a deep reading; longer ones, of few letters and of many; longer texts */
static void rows_in_long_texts(void)
{
    static const size_t distinct[] = {1, 2, 3, 4, 5, 7, 8, 12, 16, 20, 24, 30, 31, 32, 33, 48, 64, 85, 102, 127, 128, 170, 204, 255, 256};
    static const size_t longer[] = {65, 100, 127, 128, 129, 255, 256, 257, LONG_EDGES};
    for (size_t i = 0; i < sizeof distinct / sizeof *distinct; i++)
        rows_that_fit(distinct[i]);
    for (size_t m = 1; m <= 48; m++)
        for (int turn = 0; turn < 12; turn++)
            rows_in_long_text(m, 1 + below(turn % 2 ? m : shorter(m, 4)), near_long_for_rows(m));
    for (size_t i = 0; i < 3 * sizeof longer / sizeof *longer; i++) {
        size_t m = longer[i / 3];
        rows_in_long_text(m, 1 + below(i % 3 ? shorter(m, 256) : 4), near_long_for_rows(m));
    }
    for (int turn = 0; turn < 12; turn++)
        rows_in_long_text(2 + below(60), 2, 65535 + below(3) + below(2) * below(200000));
}

static void more_rows_in_long_texts(void)
{
    for (int turn = 0; turn < 20; turn++)
        rows_in_long_texts();
    for (size_t m = 2; m <= 256; m *= 2)
        rows_in_long_text(m, m, MOST_TEXT - below(2));
}

/* the most bytes and one more, with each room too short by itself, both, and neither */
static void rows_at_the_limit(void)
{
    uint8_t *text = reserve(NULL, MOST_TEXT + 1);
    put_depths(text, MOST_TEXT + 1, (const uint8_t *)"abbbaab", 7);
    for (size_t c = 0; c < 8; c++) {
        struct asked a = ask(COMPACT_SEARCH, (const uint8_t *)"abbbaab", 7, 7);
        a.text = text;
        a.len[TEXT] = MOST_TEXT + c / 4;
        a.len[SETS] -= c % 2;
        a.len[TABLES] -= c / 2 % 2;
        a.len[FINDS] = 5;
        expect(compare(&a).number == (c >= 4 ? 4 : c > 0 ? 3 : 0), "compact rows and the longest text");
    }
    free(text);
}

/* ---- rides by their FIT headers ---- */

/* What a header may declare that begins at a place of a text of n bytes: what lets the ride end with the text, little less and little more,
   and that with a bit too many or with its bytes at other places; what lets it end at 2^32, or a part of the sum; little, and much. */
enum { DECLARED = 32 };

static uint32_t declared(size_t n, size_t start, size_t size, size_t which)
{
    uint32_t before = (uint32_t)(start + size + RIDE_CHECK_BYTES), exact = (uint32_t)n - before;
    const uint32_t sizes[DECLARED] = {exact,
                                      exact - 1,
                                      exact - 2,
                                      exact - 3,
                                      exact + 1,
                                      exact + 2,
                                      exact + 3,
                                      exact + 12,
                                      exact + 14,
                                      exact + (1u << 8),
                                      exact + (1u << 16),
                                      exact + (1u << 24),
                                      exact + (1u << 31),
                                      exact << 8,
                                      exact << 24,
                                      exact << 24 | (exact & 0xFF00) << 8 | (exact >> 8 & 0xFF00) | exact >> 24,
                                      0 - before,
                                      1 - before,
                                      0 - before - 1,
                                      0 - (uint32_t)size - RIDE_CHECK_BYTES,
                                      0 - (uint32_t)RIDE_CHECK_BYTES,
                                      0 - (uint32_t)size,
                                      0,
                                      1,
                                      2,
                                      256,
                                      65536,
                                      MOST_TEXT,
                                      MOST_TEXT + 1,
                                      INT32_MAX,
                                      1u << 31,
                                      UINT32_MAX};
    return sizes[which % DECLARED];
}

/* lists that are long enough for every .FIT of the text, or too short, each by itself */
static struct outcome try_rides(const uint8_t *text, size_t n)
{
    size_t enough = n / RIDE_MARK_BYTES + below(3), starts = below(4) ? enough : below(4), kinds = below(4) ? enough : below(4);
    return run_salvage(text, n, starts, kinds);
}

/* .FIT at q, so that below 8 the text begins inside the header; the text cut at every byte */
static void one_header(size_t q, size_t size)
{
    uint8_t around[64], *header = around + 32, *text = header + AT_RIDE_MARK - q;
    make_noise(around, sizeof around);
    if (below(4))
        memset(around, below(3) ? 0 : below(2) ? SHORT_HEADER : LONG_HEADER, sizeof around);
    for (size_t n = 0; n <= q + 12; n++)
        for (size_t which = 0; which < (n < q + RIDE_MARK_BYTES ? 1 : DECLARED); which++) {
            put_header(header, size, declared(n, q - AT_RIDE_MARK, size, which));
            try_rides(text, n);
        }
}

/* each byte of a header, and of some bytes around it, with every value; the text ends so many bytes behind the header */
static void every_value(size_t size, size_t behind)
{
    uint8_t text[32] = {0};
    size_t n = 2 + size + behind;
    for (size_t c = 0; c < 256 * n; c++) {
        memset(text, 0, sizeof text);
        put_header(text + 2, size, 1);
        text[c / 256] = (uint8_t)c;
        try_rides(text, n);
    }
}

/* in the place of .FIT its letters changed in one bit or another, or exchanged, some of them or all */
static void other_marks(size_t size)
{
    static const uint8_t bits[] = {0, 0x20, 0x80, 1};
    uint8_t text[32] = {0}, *mark = text + AT_RIDE_MARK;
    for (size_t number = 0; number < 8 * 8 * 8 * 8; number++) {
        put_header(text, size, 0);
        for (size_t i = 0, rest = number; i < RIDE_MARK_BYTES; i++, rest /= 8)
            mark[i] = rest % 8 < 4 ? mark[i] ^ bits[rest % 8] : (uint8_t)RIDE_MARK[rest % 8 - 4];
        try_rides(text, size + RIDE_CHECK_BYTES);
    }
}

static void single_headers(void)
{
    static const uint8_t sizes[] = {0, 1, 8, 10, 11, 12, 13, 14, 15, 16, 28, 30, '.', 140, 142, 255};
    for (size_t q = 0; q <= 20; q++)
        for (size_t i = 0; i < sizeof sizes; i++)
            one_header(q, sizes[i]);
    for (size_t behind = 0; behind <= 4; behind++) {
        every_value(SHORT_HEADER, behind);
        every_value(LONG_HEADER, behind);
    }
    other_marks(SHORT_HEADER);
    other_marks(LONG_HEADER);
}

struct piece {
    const char *bytes;
    size_t len;
};

/* every text of up to so many pieces, each of them one of a few, behind so many bytes that stay */
static void every_text_of(const struct piece *pieces, size_t many, size_t longest, const char *front, size_t front_len)
{
    uint8_t text[128];
    memcpy(text, front, front_len);
    for (size_t k = 0, texts = 1; k <= longest; k++, texts *= many)
        for (size_t number = 0; number < texts; number++) {
            size_t n = front_len;
            for (size_t i = 0, rest = number; i < k; i++, rest /= many) {
                memcpy(text + n, pieces[rest % many].bytes, pieces[rest % many].len);
                n += pieces[rest % many].len;
            }
            try_rides(text, n);
        }
}

/* Five pieces of the first kind can be a header, and six a ride; of the second and the third, headers can overlap, and .FIT can be what one
   declares; the last are letters where a header has .FIT. */
static void texts_of_pieces(size_t more)
{
    static const struct piece rides[] = {{"\x0C", 1}, {"\x0E", 1}, {"\0\0\0", 3}, {"\1", 1}, {RIDE_MARK, RIDE_MARK_BYTES}};
    static const struct piece short_ones[] = {{"\x0C", 1}, {"\0", 1}, {RIDE_MARK, RIDE_MARK_BYTES}};
    static const struct piece long_ones[] = {{"\x0E", 1}, {"\2", 1}, {RIDE_MARK, RIDE_MARK_BYTES}};
    static const struct piece letters[] = {{".", 1}, {"F", 1}, {"I", 1}, {"T", 1}, {"\x0C", 1}};
    every_text_of(rides, 5, 8 + more, "", 0);
    every_text_of(short_ones, 3, 11 + 2 * more, "", 0);
    every_text_of(long_ones, 3, 11 + 2 * more, "", 0);
    every_text_of(letters, 5, 6 + 2 * more, "\x0C\0\0\0\0\0\0\0", 8);
}

static void short_ride_texts(void)
{
    texts_of_pieces(0);
}

static void longer_ride_texts(void)
{
    texts_of_pieces(1);
}

/* ---- files of rides, one behind the other ---- */

/* A ride file: its length. Its data are bytes by chance, now and then with a header or with .FIT among them; its check is right now and
   then, and so is that of a header of 14. */
static size_t put_ride(uint8_t *out, size_t data)
{
    size_t size = below(2) ? SHORT_HEADER : LONG_HEADER, room = data >= SHORT_HEADER ? data - SHORT_HEADER : 0;
    make_noise(out, size + data + RIDE_CHECK_BYTES);
    if (data >= SHORT_HEADER && below(3) == 0)
        put_header(out + size + below(room + 1), below(2) ? SHORT_HEADER : LONG_HEADER, (uint32_t)below(2 * data));
    if (data >= RIDE_MARK_BYTES && below(6) == 0)
        memcpy(out + size + below(data - RIDE_MARK_BYTES + 1), RIDE_MARK, RIDE_MARK_BYTES);
    put_header(out, size, (uint32_t)data);
    if (size == LONG_HEADER && below(2))
        seal(out, SHORT_HEADER);
    return below(2) ? seal(out, size + data) : size + data + RIDE_CHECK_BYTES;
}

static size_t put_rides(uint8_t *out, size_t rides, size_t most_data)
{
    size_t n = 0;
    for (size_t i = 0; i < rides; i++)
        n += put_ride(out + n, some_length(most_data));
    return n;
}

/* cut at the end and at the front at every byte, every byte taken away, and every byte changed, in a bit and to any */
static void break_rides(uint8_t *text, size_t n)
{
    uint8_t other[400];
    for (size_t at = 0; at < n; at++) {
        uint8_t own = text[at];
        try_rides(text, at);
        try_rides(text + at, n - at);
        memcpy(other, text, at);
        memcpy(other + at, text + at + 1, n - at - 1);
        try_rides(other, n - 1);
        text[at] = own ^ (uint8_t)(1 << below(8));
        try_rides(text, n);
        text[at] = (uint8_t)chance();
        try_rides(text, n);
        text[at] = own;
    }
}

static void chained_rides(void)
{
    uint8_t text[400];
    for (int i = 0; i < 400; i++)
        break_rides(text, put_rides(text, 1 + below(5), 60));
}

/* lists of every length up to some more than there are rides, each by itself */
static void every_ride_list(const uint8_t *text, size_t n, size_t count)
{
    size_t all = count + 4;
    for (size_t c = 0; c < all * all * FILLS; c++) {
        struct asked a = ask(SALVAGE, NULL, 0, RIDE_MARK_BYTES);
        a.text = text;
        a.len[TEXT] = n;
        a.len[FINDS] = c % all;
        a.len[RIDE_KINDS] = c / all % all;
        a.fill = (enum fill)(c / all / all);
        a.nulls = below(2);
        compare(&a);
    }
}

/* a text, which may be empty, with tables of 0 to some more entries than are needed, and where more than 16 bits count them */
static void rooms_around(const uint8_t *text, size_t n)
{
    static const size_t many[] = {65535, 65536, 65536 + 5, 65536 + 29, 65536 + 30, 131072};
    for (size_t c = 0; c < (50 + sizeof many / sizeof *many) * FILLS * 9; c++) {
        size_t tables = c / 9 / FILLS;
        struct asked a = ask(SALVAGE, NULL, 0, RIDE_MARK_BYTES);
        a.text = text;
        a.len[TEXT] = n;
        a.len[TABLES] = tables < 50 ? tables : many[tables - 50];
        a.len[FINDS] = c % 3 * 2;
        a.len[RIDE_KINDS] = c / 3 % 3 * 2;
        a.fill = (enum fill)(c / 9 % FILLS);
        a.nulls = below(2);
        compare(&a);
    }
}

static void rooms_of_rides(void)
{
    uint8_t text[200];
    rooms_around(NULL, 0);
    rooms_around((const uint8_t *)"no ride is here", 15);
    rooms_around((const uint8_t *)"\x0C.FIT", 5);
    rooms_around(text, put_overlapping(text, 3));
    rooms_around(text, put_rides(text, 3, 20));
}

/* lists for no ride to nine, and tables */
static void ride_lists_and_rooms(void)
{
    uint8_t text[2000];
    rooms_of_rides();
    for (size_t rides = 0; rides <= 9; rides++) {
        every_ride_list(text, put_overlapping(text, rides), rides);
        size_t n = put_rides(text, rides, 100);
        every_ride_list(text, n, (size_t)run_salvage(text, n, 0, 0).answer[0]);
    }
}

/* ---- many rides, and many .FIT ---- */

/* exactly so many rides, behind one another, or overlapping; lists one short, exact, and one longer */
static void so_many_rides(size_t rides, bool overlapping)
{
    size_t n = overlapping ? put_overlapping(long_text, rides) : 0;
    for (size_t i = 0; i < rides && !overlapping; i++) {
        memset(long_text + n, 0, 20);
        put_header(long_text + n, i % 3 ? SHORT_HEADER : LONG_HEADER, i % 5 ? 2 : UINT32_MAX);
        n += i % 3 ? 16 : 18;
    }
    size_t starts = rides + below(3), kinds = rides + below(3);
    struct outcome o = run_salvage(long_text, n, starts > 0 ? starts - 1 : 0, kinds > 0 ? kinds - 1 : 0);
    expect(o.answer[0] == rides, "so many rides");
}

/* .FIT over and over; behind so many of them a size is put before the next but one, which makes it a header's */
static void dense_marks(size_t before, size_t behind, size_t size)
{
    size_t n = 0;
    for (size_t i = 0; i < before + behind + 1; i++, n += RIDE_MARK_BYTES)
        memcpy(long_text + n, RIDE_MARK, RIDE_MARK_BYTES);
    memset(long_text + RIDE_MARK_BYTES * before, 0, RIDE_MARK_BYTES);
    long_text[RIDE_MARK_BYTES * before] = (uint8_t)size;
    struct outcome o = run_salvage(long_text, n, below(3), below(3));
    expect(o.answer[0] == (n - RIDE_MARK_BYTES * before >= size && behind >= 2), ".FIT over and over");
}

static void many_rides(void)
{
    for (size_t rides = 0; rides <= 520; rides++)
        so_many_rides(rides, rides % 2);
    for (size_t power = 1024; power <= 65536; power *= 2)
        for (size_t rides = power - 2; rides <= power + 2; rides++)
            so_many_rides(rides, power > 8192 || below(2));
    for (size_t before = 0; before <= 2100; before++)
        dense_marks(before, below(8) ? 2 + below(3) : below(2000), before % 3 ? SHORT_HEADER : LONG_HEADER);
    for (size_t power = 4096; power <= 65536; power *= 2)
        for (size_t before = power / 4 - 5; before <= power / 4 + 2; before++)
            dense_marks(before, 2 + below(3), SHORT_HEADER);
    for (int i = 0; i < 60; i++)
        dense_marks(below(40000), below(3000), SHORT_HEADER);
}

/* ---- headers near the seams of a text that is gone through in parts, wherever these are ---- */

/* bytes without a ride */
static void put_filler(uint8_t *out, size_t n)
{
    if (below(4) == 0)
        memset(out, below(2) ? 0 : SHORT_HEADER, n);
    else
        make_noise(out, n);
}

/* a header that begins at a place of a text of n bytes, mostly of a ride that ends with the text */
static void put_some_header(uint8_t *text, size_t n, size_t at)
{
    size_t size = below(2) ? SHORT_HEADER : LONG_HEADER;
    put_header(text + at, size, declared(n, at, size, below(2) ? 0 : below(DECLARED)));
}

/* headers at a place and every so many bytes behind it */
static void comb(size_t n, size_t first, size_t step)
{
    size_t enough = n / step + 2;
    put_filler(long_text, n);
    for (size_t at = first; at + SHORT_HEADER <= n; at += step)
        put_some_header(long_text, n, at);
    run_salvage(long_text, n, below(8) ? enough : below(enough), below(8) ? enough : below(enough));
}

/* one header by itself at each of these places, or with steps by chance between them, in a text that ends with it or a little behind it */
static void sweep(size_t from, size_t to, size_t longest_step)
{
    enum { MOST_BEHIND = 40 };
    put_filler(long_text, to + SHORT_HEADER + MOST_BEHIND);
    for (size_t at = from; at < to; at += 1 + below(longest_step)) {
        uint8_t kept[SHORT_HEADER];
        size_t n = at + SHORT_HEADER + below(below(2) ? 5 : MOST_BEHIND + 1);
        memcpy(kept, long_text + at, sizeof kept);
        put_some_header(long_text, n, at);
        run_salvage(long_text, n, 1 + below(2), 1 + below(2));
        memcpy(long_text + at, kept, sizeof kept);
    }
}

/* Around every multiple of so many bytes a header, as far from it in each of them: from wholly before it to wholly behind it. */
static void around_multiples(size_t part, size_t n)
{
    for (size_t before = 0; before <= 2 * LONG_HEADER; before++) {
        put_filler(long_text, n);
        for (size_t seam = part; seam + LONG_HEADER + SHORT_HEADER <= n; seam += part)
            put_some_header(long_text, n, seam + LONG_HEADER - before);
        run_salvage(long_text, n, n / part, n / part);
    }
}

/* Texts that end with a multiple of so many bytes, or some bytes before or behind it, where a header is just inside them, or a ride. */
static void ends_near(size_t multiple)
{
    put_filler(long_text, multiple + LONG_HEADER);
    for (size_t n = multiple - LONG_HEADER; n <= multiple + LONG_HEADER; n++)
        for (size_t behind = 0; behind <= 4; behind += 2) {
            uint8_t kept[SHORT_HEADER], *header = long_text + n - SHORT_HEADER - behind;
            memcpy(kept, header, sizeof kept);
            put_some_header(long_text, n, n - SHORT_HEADER - behind);
            run_salvage(long_text, n, 1, 1);
            memcpy(header, kept, sizeof kept);
        }
}

/* A header at every place up to 140,000 with others at several distances, up to 41,000 with few others; and by itself around powers of two
   and their multiples, and at one place of four up to 40,000. */
static void ride_seams(void)
{
    static const size_t steps[] = {12, 13, 14, 15, 16, 17, 31, 61};
    for (size_t i = 0; i < sizeof steps / sizeof *steps; i++)
        for (size_t first = 0; first < steps[i]; first++)
            comb(140000 + below(100), first, steps[i]);
    for (size_t first = 0; first < 1013; first++)
        comb(41000 + below(100), first, 1013);
    for (size_t part = 256; part <= 131072; part *= 2) {
        around_multiples(part, 2 * part < 140000 ? 140000 : 3 * part);
        for (size_t multiple = part; multiple <= 3 * part && multiple <= 131072; multiple += part) {
            sweep(multiple - 32, multiple + 20, 1);
            ends_near(multiple);
        }
    }
    for (size_t multiple = 4 * 4096; multiple <= 10 * 4096; multiple += 4096)
        sweep(multiple - 32, multiple + 20, 1);
    sweep(0, 40000, 7);
}

static void every_place(void)
{
    sweep(0, 70000, 1);
}

/* ---- texts with rides by chance ---- */

enum { LONGEST_PIECE = 4096 };

/* a ride, a header, a beginning of one, .FIT, or other bytes, at a place of a text of n bytes, and maybe behind its end; its length */
static size_t put_ride_piece(uint8_t *text, size_t n, size_t at)
{
    uint8_t *out = text + at;
    size_t len = some_length(60), far = some_length(LONGEST_PIECE), size = below(2) ? SHORT_HEADER : LONG_HEADER;
    switch (below(10)) {
    case 0: make_noise(out, len); return len;
    case 1: memset(out, below(2) ? 0 : (int)size, len); return len;
    case 2: make_noise(out, far); return far;
    case 3: put_header(out, 10 + below(7), (uint32_t)below(100)); return SHORT_HEADER + below(3);
    case 4: memcpy(out, RIDE_MARK, RIDE_MARK_BYTES); return RIDE_MARK_BYTES;
    case 5: put_some_header(text, n, at); return below(SHORT_HEADER);
    case 6: return put_overlapping(out, below(12)) - 2;
    case 7: return put_ride(out, len);
    case 8: put_header(out, size, (uint32_t)len); return size;
    default: put_some_header(text, n, at); return SHORT_HEADER + below(5);
    }
}

/* pieces one behind the other; there is room for one behind the text's end */
static void make_ride_text(uint8_t *out, size_t n)
{
    for (size_t at = 0; at < n;)
        at += put_ride_piece(out, n, at);
}

/* ---- the longest texts with rides ---- */

/* headers near every multiple of 1,048,576, as far from it as is said, and one that ends with the text, or just not */
static void rides_in_longest(uint8_t *text, size_t before, size_t size, size_t behind)
{
    make_noise(text, MOST_TEXT);
    for (size_t seam = 1 << 20; seam < MOST_TEXT; seam += 1 << 20)
        put_some_header(text, MOST_TEXT, seam - before);
    size_t at = MOST_TEXT - SHORT_HEADER - behind;
    put_header(text + at, size, declared(MOST_TEXT, at, size, 0));
    run_salvage(text, MOST_TEXT, 20, 16 + below(5));
}

/* refused with 4 whatever the tables are */
static void rides_past_longest(const uint8_t *text)
{
    static const size_t tables[] = {0, 29, 30, 31};
    for (size_t i = 0; i < sizeof tables / sizeof *tables; i++) {
        struct asked a = ask(SALVAGE, NULL, 0, RIDE_MARK_BYTES);
        a.text = text;
        a.len[TEXT] = MOST_TEXT + 1;
        a.len[TABLES] = tables[i];
        a.len[FINDS] = a.len[RIDE_KINDS] = 5;
        expect(compare(&a).number == 4, "a text that is too long");
    }
}

/* the longest text, full of rides whose headers overlap, and full of .FIT alone */
static void most_rides(uint8_t *text)
{
    size_t rides = (MOST_TEXT - 8) / 6, n = put_overlapping(text, rides);
    memset(text + n, 0, MOST_TEXT - n);
    expect(run_salvage(text, MOST_TEXT, rides, rides + 1).answer[0] == rides, "overlapping rides in the longest text");
    expect(run_salvage(text, MOST_TEXT, 2000, 1000).answer[0] == rides, "overlapping rides in the longest text");
    for (size_t at = 0; at < MOST_TEXT; at += RIDE_MARK_BYTES)
        memcpy(text + at, RIDE_MARK, RIDE_MARK_BYTES);
    expect(run_salvage(text, MOST_TEXT, 3, 3).answer[0] == 0, ".FIT alone in the longest text");
}

static void longest_rides(void)
{
    static const size_t behind[] = {0, 1, 2, 3, 4, 8};
    uint8_t *text = reserve(NULL, MOST_TEXT + LONGEST_PIECE);
    for (size_t i = 0; i < sizeof behind / sizeof *behind; i++)
        rides_in_longest(text, 3 * i, i % 3 ? SHORT_HEADER : LONG_HEADER, behind[i]);
    make_ride_text(text, MOST_TEXT);
    run_salvage(text, MOST_TEXT, MOST_TEXT / 100, MOST_TEXT / 100);
    rides_past_longest(text);
    most_rides(text);
    free(text);
}

/* a header at each of the last places of the longest text, others at each place before a multiple of 1,048,576; and rides by chance */
static void more_longest_rides(void)
{
    uint8_t *text = reserve(NULL, MOST_TEXT + LONGEST_PIECE);
    for (size_t i = 0; i <= 40; i++) {
        rides_in_longest(text, i, i % 2 ? SHORT_HEADER : LONG_HEADER, i / 2);
        make_ride_text(text, MOST_TEXT - below(100));
        run_salvage(text, MOST_TEXT - below(2), MOST_TEXT / 100, MOST_TEXT / 100);
    }
    free(text);
}

/* ---- texts at the limit and one past it ---- */

static void texts_at_the_limit(void)
{
    static const uint8_t word[] = {7, 1, 1, 7, 1, 7, 7, 1, 7, 1, 1, 1};
    uint8_t mirrored[sizeof word], file[MOST_FILE], checked[MOST_FILE], one_letter[4], *text = reserve(NULL, MOST_TEXT + 1);
    size_t m = sizeof word, one_size = file_of(word, 1, one_letter);
    mirror(word, m, mirrored);
    size_t size = file_of(mirrored, m, file), checked_size = checked_file_of(mirrored, m, checked);
    for (size_t i = 0; i < MOST_TEXT + 1; i++)
        text[i] = noise[(i * 31 + i / NOISE) % NOISE] % 2 ? 7 : 1;
    memcpy(text, word, m);
    memcpy(text + MOST_TEXT - m, word, m);
    for (size_t past = 0; past <= 1; past++) {
        for (int i = 0; i < 4; i++) {
            enum entry entry = i == 0 ? SEARCH : i == 1 ? TURBO : i == 2 ? FAILURE_SEARCH : COMPACT_SEARCH;
            run_search(entry, word, m, m, text, MOST_TEXT + past, 10000);
            run_search(entry, word, m, m - 1, text, MOST_TEXT + past, 10);
            run_search(entry, word, 0, m, text, MOST_TEXT + past, 10);
            run_search(entry, text, MOST_LETTERS + 1, m, text, MOST_TEXT + past, 10);
        }
        run_search(SEARCH_FILE, file, size, m, text, MOST_TEXT + past, 10000);
        run_search(SEARCH_FILE, file, size - 1, m, text, MOST_TEXT + past, 10);
        run_search(SEARCH_FILE, file, size, m - 1, text, MOST_TEXT + past, 10);
        run_search(SEARCH_FILE, one_letter, one_size, 1, text, MOST_TEXT + past, 10);
        run_search(SEARCH_FILE, checked, checked_size, m, text, MOST_TEXT + past, 10000);
        run_search(SEARCH_FILE, checked, checked_size - 1, m, text, MOST_TEXT + past, 10);
        run_search(SEARCH_FILE, checked, checked_size, m - 1, text, MOST_TEXT + past, 10);
        checked[checked_size - 1] ^= 1;
        run_search(SEARCH_FILE, checked, checked_size, m, text, MOST_TEXT + past, 10);
        checked[checked_size - 1] ^= 1;
    }
    each_search(text + MOST_TEXT - 1025, 1025, text, MOST_TEXT);
    each_search(text + MOST_TEXT - MOST_LETTERS, MOST_LETTERS, text, MOST_TEXT);
    memset(text, 'a', MOST_TEXT);
    run_search(SEARCH, text, 4, 4, text, MOST_TEXT, 1000);
    run_search(TURBO, text, 4, 4, text, MOST_TEXT, 1000);
    run_search(FAILURE_SEARCH, text, 4, 4, text, MOST_TEXT, 1000);
    run_search(COMPACT_SEARCH, text, 4, 4, text, MOST_TEXT, 1000);
    free(text);
}

/* a's in a text of a's alone: the letters read pass 32 bits; every find has its entry */
static void hostile(enum entry entry, size_t m, size_t n, uint64_t letters)
{
    uint8_t *text = reserve(NULL, n);
    memset(text, 'a', n);
    expect(run_search(entry, text, m, m, text, n, n).answer[1] == letters, "letters read past 32 bits");
    free(text);
}

static void hostile_text(void)
{
    hostile(SEARCH, 300, MOST_TEXT, UINT64_C(5033075100));
    hostile(FAILURE_SEARCH, 300, MOST_TEXT, UINT64_C(5033075100));
    hostile(COMPACT_SEARCH, 300, MOST_TEXT, UINT64_C(5033075100));
}

static void hostile_word(void)
{
    hostile(SEARCH, 4096, 2097152, UINT64_C(8573161472));
}

/* ---- lengths past 32 bits, over memory that is asked for and hardly touched ---- */

static void *vast(size_t bytes)
{
    void *p = mmap(NULL, bytes, PROT_READ | PROT_WRITE, MAP_PRIVATE | MAP_ANONYMOUS | MAP_NORESERVE, -1, 0);
    if (p == MAP_FAILED) {
        fprintf(stderr, "compare: %zu bytes of address space are not to be had\n", bytes);
        exit(2);
    }
    return p;
}

/* one slice of the entry is 2^32 elements long and so many more; the first 65,536 bytes of it are compared */
static void vast_slice(enum entry entry, int slice, size_t more, const uint8_t *input, size_t input_len, size_t m)
{
    enum { LOOKED_AT = 65536 };
    static _Alignas(64) uint8_t room[2][LOOKED_AT * SLICES];
    uint8_t rides[64];
    size_t len = (UINT64_C(1) << 32) + more, bytes = len * slice_width[slice], rides_len = put_overlapping(rides, 3);
    const uint8_t *text = entry == SALVAGE ? rides : (const uint8_t *)"abcabbba";
    struct asked a = ask(entry, input, input_len, m);
    struct lent l[2];
    struct outcome o[2];
    size_t text_len = a.len[TEXT] = entry == SALVAGE ? rides_len : 8;
    a.len[FINDS] = a.len[RIDE_KINDS] = 8;
    a.len[OUT] = 4096;
    a.len[slice] = len;
    cases++;
    for (int side = 0; side < 2; side++) {
        for (int s = 0; s < SLICES; s++) {
            l[side].at[s] = s == slice ? vast(bytes) : memset(room[side] + s * LOOKED_AT, 0, LOOKED_AT);
            l[side].len[s] = a.len[s];
        }
        memcpy(l[side].at[INPUT], input, input_len);
        memcpy(l[side].at[TEXT], text, text_len);
        if (entry == TAKE)
            second_open(input, input_len, l[side].at[SEARCHER], SEARCHER_BYTES);
        o[side] = side == 0 ? ask_marks(entry, &l[side]) : ask_second(entry, &l[side]);
    }
    if (!same_outcome(&o[0], &o[1]))
        fail(&a, "the number, the answers or the offset, with a slice past 32 bits", &o[0], &o[1]);
    for (int s = 0; s < SLICES; s++)
        if (memcmp(l[0].at[s], l[1].at[s], LOOKED_AT) != 0)
            fail(&a, "a buffer, with a slice past 32 bits", &o[0], &o[1]);
    for (int side = 0; side < 2; side++)
        munmap(l[side].at[slice], bytes);
    seen[column_of(entry, input, input_len)][o[0].number]++;
}

/* Also files of edition 2 of which 0, 1 or 2 bytes would be left behind the arrows, where the check is wrong, or 0 behind the check, if
   they were counted in 32 bits; lists that would be too short for three rides, and other slices that would do; and rooms of compact rows
   and of a storacle that would be too short. */
static void vast_slices(void)
{
    uint8_t file[MOST_FILE], checked[MOST_FILE];
    const uint8_t *word = (const uint8_t *)"abbbaab";
    size_t m = 7, size = file_of(word, m, file), checked_size = checked_file_of(word, m, checked);
    for (int e = 0; e < ENTRIES; e++)
        for (int s = 0; s < SLICES; s++)
            if (lent_slices[e] & 1u << s) {
                enum entry entry = (enum entry)e;
                bool from_file = reads_file(entry);
                vast_slice(entry, s, 8, from_file ? file : word, from_file ? size : m, m);
                if (from_file)
                    vast_slice(entry, s, 8, checked, checked_size, m);
            }
    for (size_t more = size; more <= checked_size; more++) {
        vast_slice(LOAD, INPUT, more, checked, size, m);
        vast_slice(SEARCH_FILE, INPUT, more, checked, checked_size, m);
    }
    for (size_t more = 0; more <= 30; more++)
        for (int s = 0; s < SLICES; s++)
            if (lent_slices[SALVAGE] & 1u << s)
                vast_slice(SALVAGE, s, more, word, m, RIDE_MARK_BYTES);
    for (int i = 0; i < 5; i++) {
        enum entry entry = i == 4 ? STORACLE_BUILD : i % 2 ? COMPACT_SEARCH : COMPACT_BUILD;
        int slice = i / 2 == 1 ? SETS : TABLES;
        size_t need = slice == SETS ? sets_for(m) : entries_for(entry, m), more[] = {0, 1, need - 1, need, need + 1};
        for (size_t k = 0; k < sizeof more / sizeof *more; k++)
            vast_slice(entry, slice, more[k], word, m, m);
    }
}

/* ---- null pointers with length 0 ---- */

static void nulls_around(unsigned edition, const uint8_t *word, size_t m)
{
    uint8_t file[MOST_FILE], searcher[SEARCHER_BYTES];
    const uint8_t *text = (const uint8_t *)"babbbaabbbaab";
    size_t size = file_in(edition, word, m, file);
    second_open(word, m, searcher, sizeof searcher);
    for (int entry = 0; entry < ENTRIES; entry++)
        for (unsigned empty = 0; empty < 1u << SLICES; empty++) {
            bool from_file = reads_file((enum entry)entry);
            struct asked a = ask((enum entry)entry, from_file ? file : word, from_file ? size : m, m);
            a.text = text;
            a.searcher = entry == TAKE ? searcher : NULL;
            a.len[TEXT] = 13;
            a.len[OUT] = size;
            a.len[FINDS] = a.len[RIDE_KINDS] = 2;
            a.nulls = true;
            for (int s = 0; s < SLICES; s++)
                if (empty & 1u << s)
                    a.len[s] = 0;
            compare(&a);
        }
}

static void null_pointers(void)
{
    for (unsigned edition = 1; edition <= 2; edition++) {
        nulls_around(edition, (const uint8_t *)"abbbaab", 7);
        nulls_around(edition, (const uint8_t *)"a", 1);
    }
}

/* ---- everything mixed ---- */

static size_t some_room(size_t need)
{
    return below(6) != 0 ? need + (below(3) == 0 ? below(50) : 0) : room_choice(need, below(room_choices));
}

/* some damage, or none, to a file of len bytes; its length afterwards */
static size_t damage_some(uint8_t *file, size_t len)
{
    static uint8_t other[2 * MOST_FILE];
    uint8_t put[8];
    for (size_t turns = below(3); turns > 0; turns--) {
        size_t at = below(2) || len < 8 ? below(len + 1) : len - below(9), to = at + below(below(2) ? 2 : 6);
        size_t groups = 1 + below(below(4) ? 2 : 6);
        spell_in((uint32_t)(chance() >> below(64)), groups, put);
        len = spliced(file, len, at, to < len ? to : len, put, below(3) ? groups : 0, other);
        len = len < MOST_FILE ? len : MOST_FILE;
        memcpy(file, other, len);
    }
    return below(10) == 0 ? below(len + 1) : len;
}

/* mostly short, sometimes long, now and then at the limit or around a power of two; for a file seldom one letter, which has none */
static size_t some_word_length(bool for_file)
{
    static const size_t edges[] = {127, 128, LONG_EDGES};
    if (below(2000) == 0)
        return edges[below(sizeof edges / sizeof *edges)];
    size_t m = 1 + some_length(below(40) ? 200 : below(2) ? 1023 : MOST_LETTERS - 1);
    return m == 1 && for_file && below(8) ? LEAST_SAVED : m;
}

/* one or two bytes changed, mostly by little */
static void forge_some(uint8_t *searcher)
{
    for (size_t turns = 1 + below(2); turns > 0; turns--) {
        uint8_t *byte = searcher + (below(3) ? below(SEARCHER_BYTES) : AT_LENGTH + below(SEARCHER_BYTES - AT_LENGTH));
        *byte = below(2) ? (uint8_t)(*byte + 1 - 2 * below(2)) : (uint8_t)chance();
    }
}

/* a stream in pieces by chance; now and then near its end from the start, and now and then a searcher that a stranger changed */
static void mixed_stream(void)
{
    static uint8_t text[2000];
    static const unsigned alphabets[] = {2, 2, 3, 4, 256};
    uint8_t word[MOST_STREAMED + 8], searcher[SEARCHER_BYTES + 66], forged[sizeof searcher];
    size_t m = below(40) ? 1 + some_length(MOST_STREAMED - 1) : below(sizeof word), n = some_length(sizeof text);
    struct asked a = ask(OPEN, word, m, m);
    choose_palette(alphabets[below(5)]);
    make_word(word, m, (enum kind)below(KINDS));
    make_text(text, n, word, m, (unsigned)below(1000));
    a.len[SEARCHER] = some_room(SEARCHER_BYTES);
    a.fill = (enum fill)below(FILLS);
    if (compare(&a).number != 0)
        return;
    memcpy(searcher, zones[SEARCHER].marks + zones[SEARCHER].at, a.len[SEARCHER]);
    if (below(8) == 0)
        set_taken(searcher, MOST_TEXT - some_length(sizeof text));
    for (size_t at = 0, piece; at < n && below(20) != 0; at += piece) {
        piece = some_length(n - at);
        make_noise(forged, sizeof forged);
        memcpy(forged, searcher, SEARCHER_BYTES);
        forge_some(forged);
        size_t lent = some_room(SEARCHER_BYTES);
        if (below(4) == 0)
            run_take(forged, lent, text + at, piece, below(4));
        run_take(searcher, a.len[SEARCHER], text + at, piece, some_list(piece));
    }
}

/* a word, or its file, damaged or not, and a text; rooms, list and what stands in them by chance */
static void ask_mixed(enum entry entry, const uint8_t *word, size_t m, const uint8_t *text, size_t n)
{
    static uint8_t file[MOST_FILE];
    struct asked a = ask(entry, word, m, m);
    unsigned edition = entry == SAVE ? 1 : entry == SAVE_CHECKED ? 2 : (unsigned)below(2) + 1;
    size_t size = writes_file(entry) || reads_file(entry) ? file_in(edition, word, m, file) : 0;
    a.text = text;
    a.len[TEXT] = n;
    a.len[TABLES] = some_room(entries_for(entry, m));
    a.len[ROOM] = some_room(m);
    a.len[OUT] = some_room(size);
    a.len[FINDS] = some_length(n);
    a.len[SETS] = some_room(sets_for(m));
    a.fill = (enum fill)below(FILLS);
    a.inside = entry >= SEARCH && entry <= COMPACT_SEARCH && entry != SEARCH_FILE && m <= n && below(20) == 0;
    if (a.inside)
        a.input = text;
    if (reads_file(entry)) {
        a.input = file;
        a.len[INPUT] = damage_some(file, size);
        if (edition == 2 && a.len[INPUT] > CHECK_BYTES && below(3) == 0)
            seal(file, a.len[INPUT] - CHECK_BYTES);
    }
    compare(&a);
}

static void mixed_case(void)
{
    static uint8_t word[MOST_LETTERS + 8], mirrored[MOST_LETTERS], text[4 * MOST_LETTERS];
    static const unsigned alphabets[] = {2, 2, 3, 4, 256};
    enum entry entry = (enum entry)below(OPEN); /* the entries over whole texts */
    size_t m = some_word_length(writes_file(entry) || reads_file(entry)), n = some_length(below(8) ? 600 : sizeof text);
    if (m > 600 && below(2))
        n = m + some_length(sizeof text - m);
    bool walked = makes_failure_oracle(entry) && below(3) == 0;
    choose_palette(alphabets[below(5)]);
    make_word(word, m, (enum kind)below(KINDS));
    if (walked)
        make_slotted_word(word, m);
    mirror(word, m, mirrored);
    if (walked && entry == FAILURE_SEARCH)
        memcpy(word, mirrored, m);
    make_text(text, n, entry == SEARCH_FILE ? mirrored : word, m, (unsigned)below(1000));
    if (walked && entry == FAILURE_SEARCH && m < 1000)
        put_walked(text, n, word, m);
    ask_mixed(entry, word, m, text, n);
}

/* rides in a text of at most so many bytes; tables, lists and what stands in them by chance */
static void mixed_rides(size_t most)
{
    static uint8_t text[400000 + LONGEST_PIECE];
    struct asked a = ask(SALVAGE, NULL, 0, RIDE_MARK_BYTES);
    size_t n = some_length(most), enough = n / 20;
    make_ride_text(text, n);
    a.text = text;
    a.len[TEXT] = n;
    a.len[TABLES] = below(10) ? some_room(a.len[TABLES]) : below(60);
    a.len[FINDS] = below(2) ? enough : some_length(enough);
    a.len[RIDE_KINDS] = below(2) ? enough : some_length(enough);
    a.fill = (enum fill)below(FILLS);
    a.nulls = below(2);
    compare(&a);
}

/* a search in a text that is long, or not quite */
static void mixed_long_case(void)
{
    uint8_t word[MOST_LETTERS], mirrored[MOST_LETTERS];
    enum entry entry = (enum entry)(SEARCH + below(COMPACT_SEARCH - SEARCH + 1));
    size_t m = 1 + (below(8) ? below(16) : below(20) ? below(64) : below(300)), n = near_long(m, (unsigned)below(NEARS));
    choose_wide_palette(wide_alphabets[below(6)]);
    make_any_word(word, m, (unsigned)below(WORD_KINDS));
    mirror(word, m, mirrored);
    make_long_text(long_text, n, entry == SEARCH_FILE ? mirrored : word, m, (unsigned)below(STRETCHES + 1));
    ask_mixed(entry, word, m, long_text, n);
}

/* ---- the run ---- */

static double seconds(void)
{
    struct timespec t;
    clock_gettime(CLOCK_MONOTONIC, &t);
    return (double)t.tv_sec + (double)t.tv_nsec / 1e9;
}

static double begun;

static void part(const char *name, void (*run)(void))
{
    uint64_t before = cases;
    double from = seconds();
    run();
    printf("%9" PRIu64 " cases, %5.1f s: %s\n", cases - before, seconds() - from, name);
    fflush(stdout);
}

static void mixed_cases(void)
{
    for (int i = 0; i < 500000; i++) {
        mixed_case();
        if (i % 20 == 0)
            mixed_stream();
        if (i % 5 == 0)
            mixed_rides(600);
    }
}

static void mixed_long_cases(void)
{
    for (int i = 0; i < 20000; i++) {
        mixed_long_case();
        if (i % 10 == 0)
            mixed_rides(i % 100 == 0 ? 400000 : 70000);
    }
}

static double until;

static void more_mixed_cases(void)
{
    while (seconds() - begun < until)
        for (int i = 0; i < 100; i++) {
            mixed_case();
            mixed_stream();
            mixed_rides(600);
            if (i % 10 == 0) {
                mixed_long_case();
                mixed_rides(70000);
            }
        }
}

static void long_damaged_files(void)
{
    static uint8_t word[MOST_LETTERS];
    choose_palette(2);
    make_word(word, MOST_LETTERS, RANDOM);
    damage(1, word, MOST_LETTERS, false, 32, 1);
    damage(1, word, 1025, false, 1, 1);
    damage(2, word, 1025, false, 8, 2);
    choose_palette(4);
    make_word(word, MOST_LETTERS / 2, RANDOM);
    damage(1, word, MOST_LETTERS / 2, false, 8, 1);
    damage(2, word, MOST_LETTERS, false, 128, 8);
}

/* 7 is not for files of edition 2, and 13 for no others */
static bool can_be_seen(int column, unsigned number)
{
    enum entry entry = column == LOAD_2 ? LOAD : column == SEARCH_FILE_2 ? SEARCH_FILE : (enum entry)column;
    return (can_give[entry] & 1u << number) && number != (column < ENTRIES ? 13 : 7);
}

static bool any_gives(unsigned number)
{
    bool any = false;
    for (int c = 0; c < COLUMNS; c++)
        any = any || can_be_seen(c, number);
    return any;
}

/* how often each entry gave each number; whether one that it can give is missing */
static bool print_seen(void)
{
    bool missing = false;
    printf("%-10s", "number");
    for (int c = 0; c < COLUMNS; c++)
        printf(" %12s", c == LOAD_2 ? "load ed. 2" : c == SEARCH_FILE_2 ? "search ed. 2" : entry_name[c]);
    for (unsigned number = 0; number < NUMBERS; number++) {
        if (!any_gives(number))
            continue;
        printf("\n%-10u", number);
        for (int c = 0; c < COLUMNS; c++)
            if (!can_be_seen(c, number))
                printf(" %12s", "-");
            else if (seen[c][number] == 0) {
                printf(" %12s", "NEVER SEEN");
                missing = true;
            } else
                printf(" %12" PRIu64, seen[c][number]);
    }
    printf("\n");
    return missing;
}

/* how many files of edition 2 had each of their endings; whether one was not met */
static bool print_endings(void)
{
    bool missing = false;
    printf("files of edition 2, loaded and searched with:");
    for (int e = 0; e < ENDINGS; e++) {
        printf("%s %s %" PRIu64 " and %" PRIu64, e == 0 ? "" : ";", ending_name[e], endings[e][0], endings[e][1]);
        missing = missing || endings[e][0] == 0 || endings[e][1] == 0;
    }
    printf("\n");
    return missing;
}

/* how often what .FIT can be of was met; whether something was not */
static bool print_met(void)
{
    bool missing = false;
    printf("salvaged:");
    for (int i = 0; i < METS; i++) {
        printf("%s %s %" PRIu64, i == 0 ? "" : ";", met_name[i], met[i]);
        missing = missing || met[i] == 0;
    }
    printf("\n");
    return missing;
}

/* how many failure oracles had what few words have, and how many windows were read whole without a find; whether there was none */
static bool print_rare(void)
{
    uint64_t windows = second_read_without_find();
    printf("failure oracles with a symbol arrow beside the spine: %" PRIu64 " searched with and %" PRIu64 " built, with two at one state: %" PRIu64
           " and %" PRIu64 "; windows read whole without a find: %" PRIu64 "\n",
           with_slots[FAILURE_SEARCH], with_slots[FAILURE_BUILD], with_chains[FAILURE_SEARCH], with_chains[FAILURE_BUILD], windows);
    return with_slots[FAILURE_SEARCH] == 0 || with_slots[FAILURE_BUILD] == 0 || with_chains[FAILURE_SEARCH] == 0 ||
           with_chains[FAILURE_BUILD] == 0 || windows == 0;
}

/* how many storacles had more than 3m arrows; whether there was none */
static bool print_storacles(void)
{
    printf("storacles with more than 3m arrows: %" PRIu64 "\n", storacles_past_3m);
    return storacles_past_3m == 0;
}

/* how often compact rows showed what they can, and windows in long texts were read deep and short in turn; whether something was not met */
static bool print_row_met(void)
{
    uint64_t changes = second_changes_of_depth();
    bool missing = changes == 0;
    printf("compact rows, built and searched with:");
    for (int i = 0; i < ROW_METS; i++) {
        printf("%s %s ", i == 0 ? "" : i == FIRST_OF_SEARCHES ? "; searched with:" : ";", row_met_name[i]);
        if (i < FIRST_OF_SEARCHES)
            printf("%" PRIu64 " and ", row_met[i][0]);
        printf("%" PRIu64, row_met[i][1]);
        missing = missing || row_met[i][1] == 0 || (i < FIRST_OF_SEARCHES && row_met[i][0] == 0);
    }
    printf("; windows read deep behind short ones, or the other way round %" PRIu64 "\n", changes);
    return missing;
}

static void all_parts(bool costly)
{
    part("the worked examples", examples);
    if (SLIP == 31)
        return;
    past_examples = true;
    part("storacles: every word of 1 to 15 letters over 2, of 1 to 10 over 3, of 1 to 8 over 4, of 1 to 5 over 7", short_storacles);
    part("storacles: words of 1 letter to 12 more than the most, over 2, 3, 4, 20 and 256 letters; with many arrows", longer_storacles);
    part("compact rows: every word of 1 to 11 letters over 2, of 1 to 6 over 4, of 1 to 4 over 7, of 1 to 4 at the borders of 64; every "
         "number of letters; every length; every word of 1 to 4 over 3 in every text of up to 6",
         short_rows);
    part("compact rows: long texts, and those that are just not long", rows_in_long_texts);
    part("compact rows: texts of the most bytes and of one more", rows_at_the_limit);
    part("rides: .FIT at 0 to 20, headers of each size, cut at each byte, with each size of the data, each byte with every value",
         single_headers);
    part("rides: every text of up to 8 of five pieces, of up to 11 of three, of up to 6 letters behind a header's beginning",
         short_ride_texts);
    part("rides: files one behind the other, cut, short of a byte and changed at every byte", chained_rides);
    part("rides: lists and tables too short, exact and too long", ride_lists_and_rooms);
    part("rides: as many as 520, and around powers of two; .FIT over and over", many_rides);
    part("rides: headers at every place up to 140,000; by themselves around powers of two and their multiples", ride_seams);
    part("rides: texts of the most bytes and of one more", longest_rides);
    part("every word of 1 to 8 letters over 3: build, also compact rows, save, load back, search", short_words);
    part("files of edition 2: every ending, every check, single bits, what a check does not see", checked_files);
    part("every word of 1 to 6 letters over 2 in every text of up to 10: search, with a file and with compact rows too, and failure search",
         short_texts);
    part("every word of 1 to 7 letters over 2 in every text of up to 12: turbo", short_texts_turbo);
    part("every word of 1 to 4 letters over 3 in every text of up to 8: turbo", short_texts_over_3);
    part("every word of 1 to 4 letters over 3 in every text of up to 7, of 1 to 3 over 4 in every one of up to 6: failure search",
         short_texts_failure);
    part("every word of 1 to 14 letters over 2, of 1 to 9 over 3, of 1 to 7 over 4, of 1 to 5 over 7: failure oracle", short_failure_oracles);
    part("failure oracles with symbol arrows beside the spine", slotted_words);
    part("words of 1 to 64 letters, of every period, and longer ones, in texts of the same period", same_periods);
    part("words of 1 letter to the most, and texts, by strangers: turbo and, where that is not slow, failure search", hostile_words);
    part("openings of streams", openings);
    part("every text of 8 letters over 2 cut in every way, words of 1 to 5", short_texts_cut);
    part("texts of 12 letters over 2 cut in every way, words of 1 to 8", texts_of_12_cut);
    part("texts of up to 200,000 bytes cut by chance, words of 1 to 64 letters", long_texts_cut);
    part("searchers by strangers", forged_searchers);
    part("streams of the most bytes and of one more", streams_at_the_limit);
    part("null pointers with length 0", null_pointers);
    part("rooms too short, exact and too long; words empty and too long", rooms);
    part("damaged files", damaged_files);
    part("every file of up to 5 bytes over 8 values", least_files);
    part("files of random bytes", random_files);
    part("words of 9 letters to the most, of each kind over 2, 4 and 256 letters", longer_words);
    part("lists of finds too short, exact and too long", lists);
    part("texts of the most bytes and of one more", texts_at_the_limit);
    part("slices of more than 4,294,967,296 elements", vast_slices);
    part("all of it mixed", mixed_cases);
    part("long texts, and those that are just not long: the searches", long_texts);
    part("failure searches in long texts, with symbol arrows beside the spine", long_slotted_texts);
    part("searches in long texts mixed", mixed_long_cases);
    if (costly) {
        part("damaged files of the most letters, of half as many, and of 1,025", long_damaged_files);
        part("every text of 12 letters over 2 cut in every way, words of 1 to 3", every_text_of_12_cut);
        part("words of 1 to 8 letters over 2 in every text of up to 14, of 1 to 5 over 3 in every one of up to 9: turbo", longer_texts_turbo);
        part("words of 1 to 20 letters over 2, of 1 to 12 over 3, of 1 to 10 over 4; of 1 to 8 over 2 in every text of up to 13, of 1 to 5 "
             "over 3 in every one of up to 8: failure oracle and search",
             longer_failure_oracles);
        part("compact rows: words of 1 to 18 letters over 2, of 1 to 9 over 4, of 1 to 7 over 2 in every text of up to 12, of 1 to 5 over "
             "3 in every one of up to 8; more of many letters",
             longer_rows);
        part("compact rows: more long texts, up to the most bytes", more_rows_in_long_texts);
        part("words of the most letters and texts of the most bytes, by strangers: turbo", longest_hostiles);
        part("words of 2 to 16 letters, and longer ones, in long texts up to the most bytes", longest_texts);
        part("rides: every text of up to 9 of five pieces, of up to 13 of three, of up to 8 letters behind a header's beginning",
             longer_ride_texts);
        part("rides: one header by itself at every place up to 70,000", every_place);
        part("rides: more texts of the most bytes", more_longest_rides);
        part("300 a's in the longest text, of a's alone", hostile_text);
        part("4,096 a's in a text of 2,097,152 a's", hostile_word);
    }
    if (until > 0)
        part("more of it mixed", more_mixed_cases);
}

int main(int argc, char **argv)
{
    uint64_t seed = 1;
    bool costly = false;
    for (int i = 1; i < argc; i++)
        if (strcmp(argv[i], "--long") == 0)
            costly = true;
        else if (strcmp(argv[i], "--seed") == 0 && i + 1 < argc)
            seed = strtoull(argv[++i], NULL, 10);
        else if (strcmp(argv[i], "--seconds") == 0 && i + 1 < argc)
            until = strtod(argv[++i], NULL);
        else {
            fprintf(stderr, "compare [--seed N] [--seconds N] [--long]\n");
            return 2;
        }
    begun = seconds();
    chance_state = seed;
    for (size_t i = 0; i < NOISE; i++)
        noise[i] = (uint8_t)chance();
    all_parts(costly);
    bool missing = print_seen(), unmet = print_endings(), rare = print_rare(), other = print_met(), rows = print_row_met();
    bool few_arrows = print_storacles();
    if (missing)
        printf("DIFFERENT: a refusal that can be given was never seen\n");
    else if (unmet)
        printf("DIFFERENT: a way in which a file of edition 2 can end was never met\n");
    else if (rare)
        printf("DIFFERENT: no failure oracle was seen that few words have, or no window that is read whole without a find\n");
    else if (other)
        printf("DIFFERENT: something that .FIT in a text can be of, or a list or text that salvage can be lent, was never met\n");
    else if (rows)
        printf("DIFFERENT: something that compact rows can show, or a room or text that they can be lent, was never met\n");
    else if (few_arrows)
        printf("DIFFERENT: no storacle had more than 3m arrows\n");
    else
        printf("second opinion: seed %" PRIu64 ", %" PRIu64 " cases, no difference, %.1f s\n", seed, cases, seconds() - begun);
    return missing || unmet || rare || other || rows || few_arrows ? 1 : 0;
}
