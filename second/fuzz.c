/* A target for a coverage-guided fuzzer (libFuzzer): its bytes become one call of one of the fifteen entries, which the proved library and
   the second implementation both answer; whole outcomes must agree.

   What sees a stray access: the second implementation and this file are compiled with AddressSanitizer and UndefinedBehaviorSanitizer,
   and the second side is lent heap buffers of exactly the length that it is told. The proved code is compiled from the kit's bitcode with
   the fuzzer's coverage counters and no memory checker; so the library is lent each buffer against an inaccessible page, behind it or
   before it, and reads its inputs through a mapping that cannot be written. An access past that page's edge stops the process, reads too.
   On the other side of a buffer 256 bytes are looked at afterwards.

   With --seeds DIR it writes its first inputs to DIR and ends. tools/attack builds and runs it.

   Mistakes on purpose (-DSLIP=n) as in second.c, and
     slip 33: the library's tables are lent one entry too far up, so that it writes past the edge
     slip 34: the library's text is lent one byte too far up, so that it reads past the edge
     slip 70: the library's searcher is lent one byte too far up, so that it reads past the edge
     slip 358: the library's kinds are lent one byte too far up, so that it writes past the edge
     slip 395: the library's sets are lent one word too far up, so that it writes past the edge */
#define _GNU_SOURCE
#include "entries.h"

#include <stdlib.h>
#include <string.h>
#include <sys/mman.h>
#include <unistd.h>

#ifndef SLIP
#define SLIP 0
#endif

enum { MOST_INPUT = MOST_FILE, ROOM_BYTES = 262144, LONGEST_STRETCHED = 65536, BESIDE = 256 };

/* ---- memory for the library: between two inaccessible pages ---- */

static struct {
    uint8_t *write; /* where the target fills it */
    uint8_t *lent;  /* the same bytes as the library sees them: inputs cannot be written there */
    size_t at;      /* where the lent part begins */
} region[SLICES];

static uint8_t *whole_text; /* one byte too many, which a search must refuse without reading */

static void *must(void *p)
{
    if (p == MAP_FAILED || p == NULL) {
        perror("fuzz: no memory");
        exit(2);
    }
    return p;
}

static void make_regions(void)
{
    size_t page = (size_t)sysconf(_SC_PAGESIZE), all = ROOM_BYTES + 2 * page;
    for (int s = 0; s < SLICES; s++) {
        int fd = memfd_create(slice_name[s], 0);
        if (fd < 0 || ftruncate(fd, ROOM_BYTES) != 0)
            must(NULL);
        region[s].write = must(mmap(NULL, ROOM_BYTES, PROT_READ | PROT_WRITE, MAP_SHARED, fd, 0));
        uint8_t *around = must(mmap(NULL, all, PROT_NONE, MAP_PRIVATE | MAP_ANONYMOUS, -1, 0));
        int rights = read_slices & 1u << s ? PROT_READ : PROT_READ | PROT_WRITE;
        region[s].lent = must(mmap(around + page, ROOM_BYTES, rights, MAP_SHARED | MAP_FIXED, fd, 0));
        close(fd);
    }
    whole_text = must(mmap(NULL, MOST_TEXT + 1, PROT_NONE, MAP_PRIVATE | MAP_ANONYMOUS | MAP_NORESERVE, -1, 0));
}

/* what stands where nothing was put: a number for each place, not the same from one slice to the next */
static uint8_t stranger(int s, size_t i, uint8_t fill)
{
    return (uint8_t)(fill + i * 37 + i / 251 + (size_t)s * 101);
}

/* where the 256 bytes beside a lent part begin and end */
static void beside(int s, size_t bytes, size_t *from, size_t *to)
{
    bool behind = region[s].at == 0;
    *from = behind ? bytes : region[s].at > BESIDE ? region[s].at - BESIDE : 0;
    *to = behind ? (bytes + BESIDE < ROOM_BYTES ? bytes + BESIDE : ROOM_BYTES) : region[s].at;
}

/* ---- one call ---- */

struct asked {
    enum entry entry;
    const uint8_t *content[SLICES]; /* of the inputs, and of a searcher that takes */
    size_t len[SLICES];
    uint8_t fill;
    bool front; /* against the page before, not the one behind */
    bool nulls; /* length 0 is a null pointer */
    bool whole; /* the text is one byte too long */
};

/* what stands in a lent slice before the call */
static uint8_t before(const struct asked *a, int s, size_t i)
{
    return a->content[s] != NULL ? a->content[s][i] : stranger(s, i, a->fill);
}

static void lend_library(const struct asked *a, int s, struct lent *l)
{
    size_t bytes = a->len[s] * slice_width[s], from, to;
    region[s].at = a->front ? 0 : ROOM_BYTES - bytes;
    beside(s, bytes, &from, &to);
    for (size_t i = from; i < to; i++)
        region[s].write[i] = stranger(s, i, a->fill);
    for (size_t i = 0; i < bytes; i++)
        region[s].write[region[s].at + i] = before(a, s, i);
    bool slips = (SLIP == 33 && s == TABLES) || (SLIP == 34 && s == TEXT) || (SLIP == 70 && s == SEARCHER);
    slips = slips || (SLIP == 358 && s == RIDE_KINDS) || (SLIP == 395 && s == SETS);
    l->at[s] = a->nulls && bytes == 0 ? NULL : region[s].lent + region[s].at + (slips && !a->front ? slice_width[s] : 0);
}

static void lend_second(const struct asked *a, int s, struct lent *l)
{
    size_t bytes = a->len[s] * slice_width[s];
    uint8_t *p = must(malloc(bytes > 0 ? bytes : 1));
    for (size_t i = 0; i < bytes; i++)
        p[i] = before(a, s, i);
    l->at[s] = p;
}

static void stop(const struct asked *a, const char *what, int s, const struct outcome *m, const struct outcome *o)
{
    printf("DIFFERENT: %s: %s%s\n", entry_name[a->entry], what, s < 0 ? "" : slice_name[s]);
    print_outcome("  library", m);
    print_outcome("; second opinion", o);
    printf("\n");
    for (int i = 0; i < SLICES; i++)
        if (lent_slices[a->entry] & 1u << i)
            printf("  %s: %zu elements\n", slice_name[i], a->len[i]);
    fflush(stdout);
    abort();
}

static bool is_lent(const struct asked *a, int s)
{
    return (lent_slices[a->entry] & 1u << s) && !(a->whole && s == TEXT);
}

static void check_slice(const struct asked *a, int s, const struct lent *second, const struct outcome *m, const struct outcome *o)
{
    size_t bytes = a->len[s] * slice_width[s], from, to;
    if (memcmp(region[s].write + region[s].at, second->at[s], bytes) != 0)
        stop(a, "left otherwise: ", s, m, o);
    for (size_t i = may_write(a->entry, s, a->len, m) * slice_width[s]; i < bytes; i++)
        if (region[s].write[region[s].at + i] != before(a, s, i))
            stop(a, "written where that may not be: ", s, m, o);
    beside(s, bytes, &from, &to);
    for (size_t i = from; i < to; i++)
        if (region[s].write[i] != stranger(s, i, a->fill))
            stop(a, "written beside: ", s, m, o);
}

/* whether turbo, after success on the second side, has the places where the word stands, and is the same where h is carried */
static bool turbo_agrees(const struct lent *l, const struct outcome *o)
{
    static uint16_t tables[6 * (MOST_LETTERS + 1)];
    uint64_t count = 0, letters = 0;
    second_turbo_carried(l->at[INPUT], l->len[INPUT], l->at[TEXT], l->len[TEXT], tables, sizeof tables / sizeof *tables, NULL, 0, &count,
                         &letters);
    return count == o->answer[0] && letters == o->answer[1] && lists_places(l, count);
}

/* what is wrong with a failure oracle's table, or with the finds of a search with it, after success on the second side; NULL for nothing */
static const char *wrong_with_failure(const struct asked *a, const struct lent *l, const struct outcome *o)
{
    if (a->entry == FAILURE_SEARCH && !lists_places(l, o->answer[0]))
        return "both sides find other places than those where the word stands";
    return wrong_failure_table(l->at[TABLES], l->at[INPUT], l->len[INPUT], a->entry == FAILURE_SEARCH);
}

/* what is wrong with compact rows, or with the answers of a search with them, after success on the second side, beside its own first form;
   NULL for nothing */
static const char *wrong_with_rows(const struct asked *a, const struct lent *l, const struct outcome *o)
{
    static uint16_t first[6 * (MOST_LETTERS + 1)];
    struct lent by_first = *l;
    by_first.at[TABLES] = first;
    by_first.len[TABLES] = sizeof first / sizeof *first;
    if (a->entry == COMPACT_SEARCH && !lists_places(l, o->answer[0]))
        return "both sides find other places than those where the word stands";
    struct outcome right = ask_second(a->entry == COMPACT_SEARCH ? SEARCH : BUILD, &by_first);
    if (!same_outcome(o, &right))
        return "both sides answer otherwise with compact rows than with the first form";
    return wrong_rows(l->at[SETS], l->at[TABLES], first, l->len[INPUT]);
}

/* whether the check of edition 2 is as it should be in a file that was written, or as the answer to one that was read says; found by
   dividing */
static bool check_agrees(enum entry entry, const struct lent *l, const struct outcome *o)
{
    const uint8_t *out = l->at[OUT];
    if (entry == SAVE_CHECKED && o->number == 0)
        return out[0] == 2 && ends_with_check(out, (size_t)o->answer[0]);
    return !reads_file(entry) || l->len[INPUT] == 0 || check_is_so(l->at[INPUT], l->len[INPUT], o->number, (size_t)o->offset);
}

static void call_both(const struct asked *a)
{
    struct lent library = {0}, second = {0};
    for (int s = 0; s < SLICES; s++) {
        library.len[s] = second.len[s] = lent_slices[a->entry] & 1u << s ? a->len[s] : 0;
        if (is_lent(a, s)) {
            lend_library(a, s, &library);
            lend_second(a, s, &second);
        }
    }
    if (a->whole)
        library.at[TEXT] = second.at[TEXT] = whole_text;
    struct outcome m = ask_marks(a->entry, &library), o = ask_second(a->entry, &second);
    if (!same_outcome(&m, &o))
        stop(a, "the number, the answers or the offset", -1, &m, &o);
    const char *wrong = wrong_in_itself(a->entry, &m, a->len);
    if (wrong != NULL)
        stop(a, wrong, -1, &m, &o);
    if (a->entry == TURBO && m.number == 0 && !turbo_agrees(&second, &o))
        stop(a, "other places than those where the word stands, or another outcome where h is carried", -1, &m, &o);
    if (!check_agrees(a->entry, &second, &o))
        stop(a, "the check of a file of edition 2 is not as both sides say", -1, &m, &o);
    for (int s = 0; s < SLICES; s++)
        if (is_lent(a, s))
            check_slice(a, s, &second, &m, &o);
    if (a->entry == SALVAGE && m.number == 0 && !lists_rides(&second, o.answer[0]))
        stop(a, "both sides list other rides than those whose headers are in the text", -1, &m, &o);
    if (makes_failure_oracle(a->entry) && m.number == 0 && (wrong = wrong_with_failure(a, &second, &o)) != NULL)
        stop(a, wrong, -1, &m, &o);
    size_t arrows;
    bool storacle = a->entry == STORACLE_BUILD && m.number == 0;
    if (storacle && (wrong = wrong_storacle_table(second.at[TABLES], second.at[INPUT], second.len[INPUT], &arrows)) != NULL)
        stop(a, wrong, -1, &m, &o);
    if (makes_rows(a->entry) && m.number == 0 && (wrong = wrong_with_rows(a, &second, &o)) != NULL)
        stop(a, wrong, -1, &m, &o);
    for (int s = 0; s < SLICES; s++)
        if (is_lent(a, s))
            free(second.at[s]);
}

/* ---- from the fuzzer's bytes to a call ---- */

/* the head: which call; flags; choices of tables, of word room or kinds or sets, of output or searcher or a long or made text's length, and
   list; length of word, file or searcher, two bytes */
enum { WHICH, FLAGS, TABLES_CHOICE, ROOM_CHOICE, OUT_CHOICE, LIST, INPUT_LOW, INPUT_HIGH, HEAD };

/* the calls: fifteen entries on what is there; two on the file of a word in either edition, and one on the searcher of a word, changed at
   a few places; two on a file that is there but for its check; one on a text that is made of rides and headers, as is said there */
enum {
    LOAD_CHANGED = ENTRIES,
    SEARCH_FILE_CHANGED,
    LOAD_CHANGED_2,
    SEARCH_FILE_CHANGED_2,
    LOAD_SEALED,
    SEARCH_FILE_SEALED,
    TAKE_CHANGED,
    SALVAGE_MADE,
    CALLS
};

static enum entry entry_of(unsigned call)
{
    switch (call) {
    case LOAD_CHANGED:
    case LOAD_CHANGED_2:
    case LOAD_SEALED: return LOAD;
    case SEARCH_FILE_CHANGED:
    case SEARCH_FILE_CHANGED_2:
    case SEARCH_FILE_SEALED: return SEARCH_FILE;
    case TAKE_CHANGED: return TAKE;
    case SALVAGE_MADE: return SALVAGE;
    default: return (enum entry)call;
    }
}

enum { EXACT, ONE_SHORT, LONGER, SO_MANY, CHOICES };

static size_t chosen(size_t need, uint8_t choice)
{
    switch (choice % CHOICES) {
    case EXACT: return need;
    case ONE_SHORT: return need > 0 ? need - 1 : 0;
    case LONGER: return need + 1 + choice / CHOICES;
    default: return choice / CHOICES;
    }
}

/* the m that a file declares, as far as it can be seen, so that the rooms can be chosen near it */
static size_t declared(const uint8_t *file, size_t len)
{
    size_t m = len > 1 ? file[1] % 128 : 0;
    if (len > 2 && file[1] >= 128)
        m += (size_t)(file[2] % 128) * 128;
    return m <= MOST_LETTERS + 1 ? m : 3;
}

/* in the number of changes: the last two bytes are made the check of those before when all are done */
enum { SEALED_AFTER = 0x80 };

/* the changes: how many, then for each what is done, where (two bytes), and a value; says how many bytes they took */
static size_t change(uint8_t *file, size_t *len, const uint8_t *rest, size_t rest_len)
{
    size_t changes = rest_len > 0 ? rest[0] % 4 : 0, took = rest_len > 0 ? 1 : 0;
    for (; changes > 0 && rest_len - took >= 4; changes--, took += 4) {
        size_t at = ((size_t)rest[took + 1] * 256 + rest[took + 2]) % (*len + 1);
        uint8_t value = rest[took + 3];
        if (rest[took] % 4 == 0 && at < *len)
            file[at] = value;
        else if (rest[took] % 4 == 1 && *len < MOST_FILE) {
            memmove(file + at + 1, file + at, *len - at);
            file[at] = value;
            *len += 1;
        } else if (rest[took] % 4 == 2 && at < *len) {
            memmove(file + at, file + at + 1, *len - at - 1);
            *len -= 1;
        } else if (rest[took] % 4 == 3)
            *len = at;
    }
    if (rest_len > 0 && (rest[0] & SEALED_AFTER) && *len > CHECK_BYTES)
        seal(file, *len - CHECK_BYTES);
    return took;
}

static void set_taken(uint8_t *searcher, uint32_t taken)
{
    for (int i = 0; i < 4; i++)
        searcher[AT_TAKEN + i] = (uint8_t)(taken >> (8 * i));
}

enum { SET_BYTE, SET_KEPT, SET_TAKEN, SET_LEFT, SEARCHER_CHANGES };

/* the changes as for a file, but of a searcher: a byte, so many letters kept, so many bytes taken with them, so many left to take; the last
   three leave one that can be made, of any word */
static size_t change_searcher(uint8_t *searcher, const uint8_t *rest, size_t rest_len)
{
    size_t changes = rest_len > 0 ? rest[0] % 4 : 0, took = rest_len > 0 ? 1 : 0;
    for (; changes > 0 && rest_len - took >= 4; changes--, took += 4) {
        uint32_t number = rest[took + 1] * 256u + rest[took + 2];
        uint8_t value = rest[took + 3], m = searcher[AT_LENGTH];
        switch (rest[took] % SEARCHER_CHANGES) {
        case SET_BYTE: searcher[number % SEARCHER_BYTES] = value; break;
        case SET_KEPT:
            searcher[AT_KEPT] = m > 0 ? value % m : 0;
            set_taken(searcher, searcher[AT_KEPT]);
            break;
        case SET_TAKEN: set_taken(searcher, searcher[AT_KEPT] + number); break;
        case SET_LEFT: set_taken(searcher, MOST_TEXT - number); break;
        }
    }
    return took;
}

/* the searcher of the call and the piece behind it: as it is there, or opened for the word that is there and then changed */
static void understand_searcher(const uint8_t *data, size_t size, unsigned call, struct asked *a)
{
    enum { MOST_LENT = SEARCHER_BYTES + 64 };
    static uint8_t searcher[MOST_LENT];
    size_t rest = size - HEAD, input = (data[INPUT_LOW] + 256u * data[INPUT_HIGH]) % (rest + 1), took = 0;
    a->content[SEARCHER] = data + HEAD;
    a->len[SEARCHER] = input;
    if (call == TAKE_CHANGED) {
        input = input <= MOST_STREAMED ? input : MOST_STREAMED;
        for (size_t i = 0; i < MOST_LENT; i++)
            searcher[i] = stranger(SEARCHER, i, data[FLAGS]);
        second_open(data + HEAD, input, searcher, SEARCHER_BYTES);
        took = change_searcher(searcher, data + HEAD + input, rest - input);
        a->content[SEARCHER] = searcher;
        a->len[SEARCHER] = chosen(SEARCHER_BYTES, data[OUT_CHOICE]);
    }
    a->content[TEXT] = data + HEAD + input + took;
    a->len[TEXT] = rest - input - took;
}

/* the word or file of the call, the text behind it, and the length m that its rooms are chosen near */
static size_t understand_input(const uint8_t *data, size_t size, unsigned call, struct asked *a)
{
    static uint8_t file[MOST_FILE + 8];
    size_t rest = size - HEAD, input = (data[INPUT_LOW] + 256u * data[INPUT_HIGH]) % (rest + 1), took = 0, m = input;
    a->content[INPUT] = data + HEAD;
    a->len[INPUT] = input;
    bool sealed = call == LOAD_SEALED || call == SEARCH_FILE_SEALED;
    if (call >= LOAD_CHANGED && !sealed && input >= 1 && input <= MOST_LETTERS) {
        a->len[INPUT] = file_in(call >= LOAD_CHANGED_2 ? 2 : 1, data + HEAD, input, file);
        a->content[INPUT] = file;
        took = change(file, &a->len[INPUT], data + HEAD + input, rest - input);
    } else if (reads_file(a->entry))
        m = declared(data + HEAD, input);
    if (sealed) {
        memcpy(file, data + HEAD, input);
        a->len[INPUT] = seal(file, input);
        a->content[INPUT] = file;
    }
    a->content[TEXT] = data + HEAD + input + took;
    a->len[TEXT] = rest - input - took;
    return m;
}

/* what four bytes make of a text: a byte over and over, a header with a size and with what it declares, .FIT, headers that overlap, a
   header of a ride that ends with the text, or so many bytes before or behind it, one of a ride that ends so many bytes behind 2^32 */
enum { PUT_FILLER, PUT_HEADER, PUT_MARK, PUT_OVERLAPPING, PUT_ENDING, PUT_WRAPPING, PIECES, LONGEST_PIECE = 20000 };

/* puts a piece at a place of a text that will have n bytes: what, a number of two bytes, a value; its length */
static size_t put_piece(uint8_t *text, size_t at, size_t n, const uint8_t *piece)
{
    uint32_t number = piece[1] * 256u + piece[2];
    size_t size = number % 2 ? LONG_HEADER : SHORT_HEADER;
    uint8_t *out = text + at, value = piece[3];
    uint32_t before = (uint32_t)(at + size + RIDE_CHECK_BYTES);
    memset(out, 0, SHORT_HEADER); /* what a header leaves is not what an input before left */
    switch (piece[0] % PIECES) {
    case PUT_FILLER: memset(out, value, number % LONGEST_PIECE); return number % LONGEST_PIECE;
    case PUT_HEADER: put_header(out, value, number); return SHORT_HEADER;
    case PUT_MARK: memcpy(out, RIDE_MARK, RIDE_MARK_BYTES); return RIDE_MARK_BYTES;
    case PUT_OVERLAPPING: return put_overlapping(out, number % (LONGEST_PIECE / 6 - 1)) - 2;
    case PUT_ENDING: put_header(out, size, (uint32_t)n - before + value - 128); return SHORT_HEADER;
    default: put_header(out, size, 0 - before + value); return SHORT_HEADER;
    }
}

/* all pieces, as far as there is room, in a text that will have n bytes; how many bytes it has */
static size_t put_pieces(uint8_t *text, size_t n, const uint8_t *pieces, size_t pieces_len)
{
    size_t at = 0;
    for (; pieces_len >= 4 && at < LONGEST_STRETCHED; pieces += 4, pieces_len -= 4)
        at += put_piece(text, at, n, pieces);
    return at < LONGEST_STRETCHED ? at : LONGEST_STRETCHED;
}

/* the text of a salvage: as it is there, or made of pieces and then short of a few bytes, by the choice of output */
static void understand_rides(const uint8_t *data, size_t size, unsigned call, struct asked *a)
{
    static uint8_t text[LONGEST_STRETCHED + LONGEST_PIECE];
    a->content[TEXT] = data + HEAD;
    a->len[TEXT] = size - HEAD;
    if (call == SALVAGE_MADE) {
        size_t all = put_pieces(text, 0, data + HEAD, size - HEAD), cut = data[OUT_CHOICE] % 32;
        a->content[TEXT] = text;
        a->len[TEXT] = all > cut ? all - cut : all;
        put_pieces(text, a->len[TEXT], data + HEAD, size - HEAD);
    }
}

/* flags that ask for a long text */
enum { STRETCHED = 0x0C };

/* The fuzzer's text over and over, until it is long for the word, or for compact rows, or all but a letter, or longer by up to 254. It
   stays as it is where it is empty or so long already, or where the room is too small. */
static void stretch_text(struct asked *a, size_t m, uint8_t choice)
{
    static uint8_t text[LONGEST_STRETCHED];
    size_t own = a->len[TEXT], n = (makes_rows(a->entry) ? long_for_rows(m) : long_from(m)) - 1 + (choice + 1u) % 256;
    if (own == 0 || own >= n || n > LONGEST_STRETCHED)
        return;
    for (size_t i = 0; i < n; i++)
        text[i] = a->content[TEXT][i % own];
    a->content[TEXT] = text;
    a->len[TEXT] = n;
}

static void understand(const uint8_t *data, size_t size, struct asked *a)
{
    static uint8_t file[MOST_FILE];
    unsigned call = data[WHICH] % CALLS;
    a->entry = entry_of(call);
    a->len[SEARCHER] = chosen(SEARCHER_BYTES, data[OUT_CHOICE]);
    size_t m = a->entry == SALVAGE ? RIDE_MARK_BYTES : 0;
    if (a->entry == TAKE)
        understand_searcher(data, size, call, a);
    else if (a->entry == SALVAGE)
        understand_rides(data, size, call, a);
    else
        m = understand_input(data, size, call, a);
    a->len[TABLES] = chosen(entries_for(a->entry, m), data[TABLES_CHOICE]) % (ROOM_BYTES / 2);
    a->len[ROOM] = chosen(m, data[ROOM_CHOICE]);
    bool has_file = writes_file(a->entry) && m >= 1 && m <= MOST_LETTERS;
    a->len[OUT] = chosen(has_file ? file_in(a->entry == SAVE ? 1 : 2, data + HEAD, m, file) : 12, data[OUT_CHOICE]);
    a->len[FINDS] = data[LIST];
    a->len[RIDE_KINDS] = chosen(data[LIST], data[ROOM_CHOICE]);
    a->len[SETS] = chosen(sets_for(m), data[ROOM_CHOICE]) % (ROOM_BYTES / 8);
    a->fill = data[FLAGS];
    a->front = data[FLAGS] & 1;
    a->nulls = data[FLAGS] & 2;
    bool searches = a->entry >= SEARCH && a->entry <= COMPACT_SEARCH;
    if ((data[FLAGS] & STRETCHED) == STRETCHED && (searches || a->entry == SALVAGE))
        stretch_text(a, m, data[OUT_CHOICE]);
    a->whole = (data[FLAGS] & 0xF0) == 0xF0 && (lent_slices[a->entry] & 1 << TEXT);
    if (a->whole)
        a->len[TEXT] = MOST_TEXT + 1;
}

/* ---- first inputs ---- */

static const char *seed_dir;
static unsigned seeds;

/* the tables by choice, and word room, sets and output */
static void seed_in(uint8_t tables, uint8_t room, unsigned call, uint8_t flags, const uint8_t *input, size_t input_len, const uint8_t *tail,
                    size_t tail_len)
{
    static uint8_t bytes[MOST_INPUT];
    char path[4096];
    uint8_t head[HEAD] = {(uint8_t)call, flags, tables, room, room, 4, (uint8_t)(input_len % 256), (uint8_t)(input_len / 256)};
    if (HEAD + input_len + tail_len > MOST_INPUT) {
        fprintf(stderr, "fuzz: a seed of %zu bytes would not be run\n", HEAD + input_len + tail_len);
        exit(2);
    }
    memcpy(bytes, head, HEAD);
    memcpy(bytes + HEAD, input, input_len);
    if (tail_len > 0)
        memcpy(bytes + HEAD + input_len, tail, tail_len);
    snprintf(path, sizeof path, "%s/%05u", seed_dir, seeds++);
    FILE *f = must(fopen(path, "wb"));
    fwrite(bytes, 1, HEAD + input_len + tail_len, f);
    fclose(f);
}

static void seed(unsigned call, uint8_t flags, const uint8_t *input, size_t input_len, const uint8_t *tail, size_t tail_len)
{
    seed_in(EXACT, EXACT, call, flags, input, input_len, tail, tail_len);
}

/* the text of a seed: the word and its mirror */
static size_t seed_text(const uint8_t *word, size_t m, uint8_t *text)
{
    for (size_t i = 0; i < 2 * m; i++)
        text[i] = i < m ? word[i] : word[2 * m - 1 - i];
    return 2 * m;
}

/* a searcher's own bytes, and pieces: none, the text, and one byte too many to be read */
static void seed_searcher(const uint8_t *searcher, const uint8_t *text, size_t n)
{
    seed(TAKE, 0, searcher, SEARCHER_BYTES, text, 0);
    seed(TAKE, 1, searcher, SEARCHER_BYTES, text, n);
    seed(TAKE, 0xF0, searcher, SEARCHER_BYTES, text, 0);
}

/* one byte of a searcher changed, as it is there and as change_searcher() understands it */
static void seed_forged(const uint8_t *made, size_t at, uint8_t value, const uint8_t *text, size_t n)
{
    uint8_t forged[SEARCHER_BYTES], tail[5 + 3 * MOST_STREAMED] = {1, SET_BYTE, 0, (uint8_t)at, value};
    memcpy(forged, made, SEARCHER_BYTES);
    forged[at] = value;
    seed(TAKE, 0, forged, SEARCHER_BYTES, text, n);
    memcpy(tail + 5, text, n);
    seed(TAKE_CHANGED, 0, made, made[AT_LENGTH], tail, 5 + n);
}

/* a stream that can take so many bytes more and keeps so many letters, and a text: it fits or not */
static void seed_left(const uint8_t *made, uint8_t kept, uint16_t left, const uint8_t *text, size_t n)
{
    uint8_t other[SEARCHER_BYTES];
    uint8_t tail[9 + 3 * MOST_STREAMED] = {2, SET_KEPT, 0, 0, kept, SET_LEFT, (uint8_t)(left / 256), (uint8_t)(left % 256), 0};
    memcpy(other, made, SEARCHER_BYTES);
    other[AT_KEPT] = kept;
    set_taken(other, MOST_TEXT - left);
    seed(TAKE, 0, other, SEARCHER_BYTES, text, n);
    memcpy(tail + 9, text, n);
    seed(TAKE_CHANGED, 1, made, made[AT_LENGTH], tail, 9 + n);
}

/* a word's searcher, opened and after a text; each field of it by a stranger; near the last byte that it may take */
static void seed_stream(const uint8_t *word, size_t m)
{
    uint8_t made[SEARCHER_BYTES + 1] = {0}, text[3 * MOST_STREAMED], half = (uint8_t)(m / 2);
    uint32_t finds[3];
    uint64_t count;
    size_t n = m + seed_text(word, m, text + m);
    memcpy(text, word, m);
    second_open(word, m, made, SEARCHER_BYTES);
    seed_searcher(made, text, n);
    seed(TAKE, 0, made, SEARCHER_BYTES - 1, text, 0);
    seed(TAKE, 1, made, SEARCHER_BYTES + 1, text, 0);
    second_take(made, SEARCHER_BYTES, text, m + half, finds, 3, &count);
    seed_searcher(made, text + m + half, n - m - half);
    const uint8_t forged[][2] = {
        {AT_LENGTH, 0},        {AT_LENGTH, 65},          {AT_LENGTH, 255},
        {AT_KEPT, (uint8_t)m}, {AT_KEPT, 255},           {AT_TAKEN, 0},
        {AT_TAKEN + 3, 1},     {AT_TAKEN + 3, 255},      {AT_LETTERS, (uint8_t)(word[0] + 1)},
        {AT_BORDERS, 1},       {AT_BORDERS + half, 200}, {(uint8_t)(AT_BORDERS + m - 1), made[AT_BORDERS + m - 1] + 1},
        {AT_BORDERS - 1, 7},   {AT_LENGTH - 1, 9}};
    for (size_t i = 0; i < sizeof forged / sizeof *forged; i++)
        seed_forged(made, forged[i][0], forged[i][1], text, n);
    const size_t left[] = {0, 1, n - 1, n, n + 1};
    for (size_t i = 0; i < sizeof left / sizeof *left; i++)
        seed_left(made, i % 2 ? half : 0, (uint16_t)left[i], text, n);
    seed_left(made, half, (uint16_t)(m - half), text + half, m - half);
}

/* A word's file in edition 2: good, with a wrong check, without its last byte; of a word that is not long also without its check, with
   bytes behind either check, with the other edition, and the body alone, to be sealed. */
static void seed_endings(const uint8_t *word, size_t m, const uint8_t *text, size_t n)
{
    uint8_t file[MOST_FILE];
    size_t size = checked_file_of(word, m, file), body = size - CHECK_BYTES;
    seed(SEARCH_FILE, 1, file, size, text, n);
    seed(LOAD, 1, file, size - 1, text, 0);
    file[size - 1] ^= 0x80;
    seed(LOAD, 0, file, size, text, 0);
    file[size] = 0;
    if (m > 300)
        return;
    seed(SEARCH_FILE, 0, file, size + 1, text, n);
    file[size - 1] ^= 0x80;
    seed(LOAD, 0, file, size + 1, text, 0);
    seed(LOAD, 0, file, size, text, 0);
    seed(SEARCH_FILE, 0xF1, file, size, text, 0);
    seed(SEARCH_FILE, 0, file, body, text, n);
    seed(LOAD_SEALED, 0, file, body, text, 0);
    seed(SEARCH_FILE_SEALED, 1, file, body, text, n);
    file[0] = 1;
    seed(LOAD, 0, file, size, text, 0);
}

static void seed_word(const uint8_t *word, size_t m)
{
    uint8_t file[MOST_FILE], text[2 * (MOST_LETTERS + 1)] = {0};
    size_t size = m >= 1 && m <= MOST_LETTERS ? file_of(word, m, file) : 0, n = seed_text(word, m, text);
    static const uint8_t changes[] = {2, 0, 0, 3, 'b', 1, 255, 255, 0};
    seed(BUILD, 0, word, m, text, 0);
    seed(SAVE, 1, word, m, text, 0);
    seed(SAVE_CHECKED, 0, word, m, text, 0);
    seed(OPEN, 1, word, m, text, 0);
    seed(SEARCH, 0, word, m, text, n);
    seed(SEARCH, 0xF0, word, m, text, 0);
    seed(TURBO, 0, word, m, text, n);
    seed(TURBO, 0xF0, word, m, text, 0);
    seed(FAILURE_BUILD, 0, word, m, text, 0);
    seed(FAILURE_SEARCH, 0, word, m, text, n);
    seed(FAILURE_SEARCH, 0xF0, word, m, text, 0);
    seed(COMPACT_BUILD, 1, word, m, text, 0);
    seed(STORACLE_BUILD, 0, word, m, text, 0);
    seed(COMPACT_SEARCH, 0, word, m, text, n);
    seed(COMPACT_SEARCH, 0xF0, word, m, text, 0);
    if (size > 0 && m <= MOST_STREAMED)
        seed_stream(word, m);
    if (size == 0)
        return;
    seed(LOAD, 0, file, size, text, 0);
    seed(SEARCH_FILE, 1, file, size, text, n);
    seed(SEARCH_FILE, 0xF1, file, size, text, 0);
    seed(LOAD_CHANGED, 0, word, m, changes, sizeof changes);
    seed(LOAD_CHANGED_2, 0, word, m, changes, sizeof changes);
    text[0] = 0;
    seed(SEARCH_FILE_CHANGED, 0, word, m, text, n);
    seed(SEARCH_FILE_CHANGED_2, 1, word, m, text, n);
    seed_text(word, m, text);
    seed_endings(word, m, text, n);
}

/* one change of a word's file, as change() understands it; in edition 2 the check is made right */
static void seed_change(const uint8_t *word, size_t m, uint8_t what, size_t at, uint8_t value)
{
    uint8_t tail[5 + 2 * MOST_LETTERS] = {1, what, (uint8_t)(at / 256), (uint8_t)(at % 256), value};
    seed(LOAD_CHANGED, 1, word, m, tail, 5);
    seed(SEARCH_FILE_CHANGED, 0, word, m, tail, 5 + seed_text(word, m, tail + 5));
    tail[0] |= SEALED_AFTER;
    seed(LOAD_CHANGED_2, 0, word, m, tail, 5);
}

/* a file that declares m letters in two groups, has them, and no arrow behind; and the same with one letter fewer */
static void seed_declared(const uint8_t *word, size_t m)
{
    uint8_t file[MOST_FILE] = {1, (uint8_t)(128 + m % 128), (uint8_t)(m / 128)}, text[2 * (MOST_LETTERS + 1)];
    size_t n = seed_text(word, m, text), behind = 3 + m;
    memcpy(file + 3, word, m);
    seed(LOAD, 0, file, behind + 1, text, 0);
    seed(SEARCH_FILE, 0, file, behind + 1, text, n);
    seed(LOAD, 1, file, behind - 1, text, 0);
    file[0] = 2;
    seed(LOAD_SEALED, 1, file, behind + 1, text, 0);
}

/* a word of 128 letters or more, and with arrows: its file, cut before, inside and behind each field, and each field changed */
static void seed_long(const uint8_t *word, size_t m)
{
    uint8_t file[MOST_FILE];
    seed_declared(word, m);
    if (m > MOST_LETTERS)
        return;
    size_t size = file_of(word, m, file), behind = 3 + m, middle = (behind + size) / 2;
    const size_t cuts[] = {1, 2, 3, behind - 1, behind, behind + 1, behind + 3, middle, size - 1};
    for (size_t i = 0; i < sizeof cuts / sizeof *cuts; i++)
        seed(LOAD, 0, file, cuts[i], file, 0);
    for (int more = -1; more <= 1; more += 2) {
        seed_change(word, m, 0, 1, (uint8_t)(file[1] + more) | 128);
        seed_change(word, m, 0, 2, (uint8_t)(file[2] + more));
        seed_change(word, m, 0, behind, (uint8_t)(file[behind] + more));
        seed_change(word, m, 0, middle, (uint8_t)(file[middle] + more));
    }
    seed_change(word, m, 0, behind - 1, (uint8_t)(word[m - 1] + 1));
    seed_change(word, m, 1, behind, 0);
    seed_change(word, m, 1, size, 0);
    seed_change(word, m, 2, behind - 1, 0);
    seed_change(word, m, 3, size - 2, 0);
}

/* a word whose longest border has m - period letters, in a text where it stands four times, each overlapping the one before by that
   border; by itself and by the file of its mirror */
static void seed_periodic(size_t m, size_t period)
{
    uint8_t text[4 * MOST_LETTERS], mirrored[MOST_LETTERS], file[MOST_FILE];
    size_t n = m + 3 * period;
    for (size_t i = 0; i < n; i++)
        text[i] = i % period + 1 < period ? 'a' : 'b';
    for (size_t i = 0; i < m; i++)
        mirrored[i] = text[m - 1 - i];
    seed(SEARCH, 0, text, m, text, n);
    seed(TURBO, 1, text, m, text, n);
    seed(FAILURE_SEARCH, 0, text, m, text, n);
    seed(COMPACT_SEARCH, 1, text, m, text, n);
    seed(SEARCH_FILE, 1, file, file_of(mirrored, m, file), text, n);
    seed(SEARCH_FILE, 0, file, checked_file_of(mirrored, m, file), text, n);
}

/* a's, with a b in the first place, or the last, or every second one, or where a Fibonacci word has it */
static void make_hostile(uint8_t *word, size_t m, unsigned kind)
{
    memset(word, 'a', m);
    if (kind == 1 || kind == 2)
        word[kind == 1 ? 0 : m - 1] = 'b';
    for (size_t i = 1; i < m && kind == 3; i += 2)
        word[i] = 'b';
    for (size_t before = 1, last = 2, i = 1; i < m && kind == 4; i++) {
        if (i == before + last) {
            before = last;
            last = i;
        }
        word[i] = i == 1 ? 'b' : word[i - last];
    }
}

/* words and texts by strangers: each word in a's, in itself over and over, and in a Fibonacci text, against either page */
static void seed_hostile(size_t m)
{
    uint8_t word[MOST_LETTERS], text[4 * MOST_LETTERS];
    size_t n = 4 * m;
    for (unsigned kind = 0; kind < 5; kind++) {
        make_hostile(word, m, kind);
        memset(text, 'a', n);
        seed(TURBO, 0, word, m, text, n);
        seed(FAILURE_SEARCH, 1, word, m, text, m <= 256 ? n : m + 8);
        for (size_t i = 0; i < n; i++)
            text[i] = word[i % m];
        seed(TURBO, 1, word, m, text, n);
        make_hostile(text, n, 4);
        seed(TURBO, 0, word, m, text, n);
        seed(FAILURE_SEARCH, 0, word, m, text, m <= 256 ? n : m + 8);
    }
}

/* a word in long texts: in itself, and in a text that changes from a's to other letters, the word, its beginning and a Fibonacci text */
static void seed_stretched(size_t m)
{
    uint8_t word[MOST_LETTERS], mirrored[MOST_LETTERS], file[MOST_FILE], text[8 * MOST_LETTERS];
    for (unsigned kind = 0; kind < 5; kind++) {
        make_hostile(word, m, kind);
        for (size_t i = 0; i < m; i++)
            mirrored[i] = word[m - 1 - i];
        memset(text, 'a', 2 * m);
        memset(text + 2 * m, 'c', m + 1);
        memcpy(text + 3 * m + 1, word, m);
        memcpy(text + 4 * m + 1, word, m - 1);
        make_hostile(text + 5 * m, 3 * m, 4);
        seed(SEARCH, STRETCHED, word, m, text, 8 * m);
        seed(TURBO, STRETCHED + 1, word, m, text, 8 * m);
        seed(FAILURE_SEARCH, STRETCHED, word, m, text, 8 * m);
        seed(COMPACT_SEARCH, STRETCHED + 1, word, m, text, 8 * m);
        seed(SEARCH_FILE, STRETCHED, file, file_of(mirrored, m, file), text, 8 * m);
        seed(SEARCH_FILE, STRETCHED + 1, file, checked_file_of(mirrored, m, file), text, 8 * m);
        seed(SEARCH, STRETCHED + 1, word, m, word, m);
        seed(TURBO, STRETCHED, word, m, word, m);
    }
}

/* A word of whose mirror the failure oracle has symbol arrows beside the spine, and a window that it reads whole without the word: both in
   every choice of tables, the text also longer, and over and over until it is long. */
static void seed_read_whole(const char *word, const char *window)
{
    uint8_t mirrored[256], text[512];
    const uint8_t *w = (const uint8_t *)word;
    size_t m = strlen(word);
    for (size_t i = 0; i < m; i++)
        mirrored[i] = w[m - 1 - i];
    memcpy(text, window, m);
    memcpy(text + m, word, m);
    for (uint8_t c = 0; c < CHOICES; c++) {
        seed_in(c, EXACT, FAILURE_BUILD, c % 2, mirrored, m, text, 0);
        seed_in(c, EXACT, FAILURE_SEARCH, c % 2, w, m, text, m);
    }
    seed(FAILURE_SEARCH, 1, w, m, text, 2 * m);
    seed(FAILURE_SEARCH, STRETCHED, w, m, text, 2 * m);
    seed(FAILURE_BUILD, 0, w, m, text, 0);
}

/* a word's compact rows in every choice of targets and sets, where no room is a null pointer; a search with them in the word and its
   mirror, and in a text that is too long */
static void seed_rooms_of_rows(const uint8_t *word, size_t m)
{
    uint8_t text[2 * MOST_STREAMED];
    size_t n = seed_text(word, m, text);
    for (uint8_t c = 0; c < CHOICES * CHOICES; c++) {
        seed_in(c % CHOICES, c / CHOICES, COMPACT_BUILD, 2 + c % 2, word, m, text, 0);
        seed_in(c % CHOICES, c / CHOICES, COMPACT_SEARCH, 2 + c % 2, word, m, text, n);
        seed_in(c % CHOICES, c / CHOICES, COMPACT_SEARCH, 0xF0 + c % 2, word, m, text, 0);
    }
}

/* a word's compact rows, and a search with them in the word and its mirror, as these are, and over and over until that is long */
static void seed_rows(const uint8_t *word, size_t m)
{
    uint8_t text[2 * MOST_LETTERS];
    size_t n = seed_text(word, m, text);
    seed(COMPACT_BUILD, 0, word, m, text, 0);
    seed(COMPACT_SEARCH, 1, word, m, text, n);
    seed(COMPACT_SEARCH, STRETCHED, word, m, text, n);
    seed_in(EXACT, LONGER, COMPACT_SEARCH, STRETCHED + 1, word, m, text, n);
}

/* words of the letters at the borders of 64; then of so many letters that differ, rising, falling and by a step, once and then by chance */
static void seed_letters(void)
{
    static const uint8_t borders[] = {0, 63, 64, 127, 128, 191, 192, 255, 0, 255, 64, 63, 192, 128, 191, 127, 255, 0};
    static const size_t distinct[] = {2, 31, 32, 33, 63, 64, 65, 128, 255, 256};
    uint8_t word[600];
    uint32_t state = 7;
    seed_rooms_of_rows((const uint8_t *)"abbbaab", 7);
    seed_rooms_of_rows((const uint8_t *)"a", 1);
    for (size_t m = 2; m <= sizeof borders; m += 4)
        seed_rows(borders, m);
    for (size_t d = 0; d < sizeof distinct / sizeof *distinct; d++)
        for (size_t step = 1; step < 256; step += step == 1 ? 100 : 154) {
            for (size_t i = 0; i < 2 * distinct[d] + 40; i++) {
                state = state * 1664525 + 1013904223;
                word[i] = (uint8_t)((i < distinct[d] ? i : (state >> 24) % distinct[d]) * step);
            }
            seed_rows(word, distinct[d]);
            seed_rows(word, 2 * distinct[d] + 40);
        }
}

/* Storacles in every choice of tables: of no letter and of few, one with more than 3m arrows; of the most letters, one fewer, and more. */
static void seed_storacles(void)
{
    static const char *const words[] = {"", "a", "ab", "aab", "abcacdace", "abcdaebcdacbadbddcaabbf"};
    static const size_t lengths[] = {MOST_STORACLE - 1, MOST_STORACLE, MOST_STORACLE + 1, 256, 257, 300};
    uint8_t word[300];
    uint32_t state = 5;
    for (uint8_t c = 0; c < CHOICES; c++) {
        for (size_t i = 0; i < sizeof words / sizeof *words; i++)
            seed_in(c, EXACT, STORACLE_BUILD, 2 + c % 2, (const uint8_t *)words[i], strlen(words[i]), word, 0);
        for (size_t l = 0; l < sizeof lengths / sizeof *lengths; l++)
            for (unsigned letters = 2; letters <= 128; letters *= 4) {
                for (size_t i = 0; i < lengths[l]; i++) {
                    state = state * 1664525 + 1013904223;
                    word[i] = (uint8_t)((state >> 24) % letters);
                }
                seed_in(c, EXACT, STORACLE_BUILD, 2 + c % 2, word, lengths[l], word, 0);
            }
    }
}

static void seed_hex(const char *hex)
{
    uint8_t file[64];
    size_t len = 0;
    for (unsigned byte; sscanf(hex, "%2x", &byte) == 1; hex += 2)
        file[len++] = (uint8_t)byte;
    seed(LOAD, 0, file, len, file, 0);
    seed(SEARCH_FILE, 0, file, len, (const uint8_t *)"abaab", 5);
}

/* A letter, which has no file, and the same letter twice, which has the least one: saved, loaded and searched with, in every choice of
   rooms, where no room is a null pointer; their files also cut and with a byte too many. */
static void seed_least(void)
{
    static const uint8_t aa[] = "aa", one[] = {1, 1, 'a', 0}, two[] = {1, 2, 'a', 'a', 0}, checked[] = {2, 2, 'a', 'a', 0, 0, 0x36};
    static const char *const broken[] = {"010161",       "0101610000", "0102",       "01026161",
                                         "010261610000", "02016100",   "0202616100", "020261610000"};
    for (uint8_t c = 0; c < CHOICES * CHOICES; c++) {
        uint8_t tables = c % CHOICES, room = c / CHOICES, flags = 2 + c % 2;
        seed_in(tables, room, SAVE, flags, aa, 1, aa, 0);
        seed_in(tables, room, SAVE, flags, aa, 2, aa, 0);
        seed_in(tables, room, SAVE_CHECKED, flags, aa, 1, aa, 0);
        seed_in(tables, room, SAVE_CHECKED, flags, aa, 2, aa, 0);
        seed_in(tables, room, LOAD, flags, one, sizeof one, aa, 0);
        seed_in(tables, room, LOAD, flags, two, sizeof two, aa, 0);
        seed_in(tables, room, SEARCH_FILE, flags, one, sizeof one, aa, 2);
        seed_in(tables, room, SEARCH_FILE, flags, two, sizeof two, aa, 2);
        seed_in(tables, room, LOAD, flags, checked, sizeof checked, aa, 0);
        seed_in(tables, room, SEARCH_FILE, flags, checked, sizeof checked, aa, 2);
    }
    for (size_t i = 0; i < sizeof broken / sizeof *broken; i++)
        seed_hex(broken[i]);
}

/* the file of a word with each of its numbers replaced by each of some spellings; the rest of the file behind it, or not; and as a body of
   edition 2, or of another, to be sealed */
static void seed_spellings(const uint8_t *word, size_t m)
{
    static const uint8_t put[][6] = {{0x80, 0},
                                     {0x81, 1},
                                     {0xFF, 0x80, 0},
                                     {0xFF, 0xFF, 1},
                                     {0x80, 0x80, 0x80, 0},
                                     {0x80, 0x80, 0x80, 1},
                                     {0xFF, 0xFF, 0xFF, 0xFF, 0},
                                     {0xFF, 0xFF, 0xFF, 0xFF, 0x0F},
                                     {0xFF, 0xFF, 0xFF, 0xFF, 0x10},
                                     {0xFF, 0xFF, 0xFF, 0xFF, 0x8F, 1}};
    static const size_t put_len[] = {2, 2, 3, 3, 4, 4, 5, 5, 5, 6};
    uint8_t file[MOST_FILE], other[MOST_FILE];
    size_t len = file_of(word, m, file), at = 0;
    for (unsigned field = 0; at < len; field++) {
        for (size_t i = 0; i < sizeof put_len / sizeof *put_len; i++) {
            memcpy(other, file, at);
            memcpy(other + at, put[i], put_len[i]);
            memcpy(other + at + put_len[i], file + at + 1, len - at - 1);
            seed(LOAD, 0, other, len - 1 + put_len[i], other, 0);
            seed(LOAD, 1, other, at + put_len[i] - 1, other, 0);
            if (at > 0)
                other[0] = 2;
            seed(LOAD_SEALED, 0, other, len - 1 + put_len[i], other, 0);
        }
        at += field == 1 ? 1 + m : 1; /* each number of a short word's file is one byte */
    }
}

/* A text with rides as it is, in every choice of tables and kinds, where no room is a null pointer; cut before its end and behind its
   beginning; and with one byte too many to be read. */
static void seed_salvaged(const uint8_t *text, size_t n)
{
    for (uint8_t c = 0; c < CHOICES * CHOICES; c++)
        seed_in(c % CHOICES, c / CHOICES, SALVAGE, 2 + c % 2, text, n, text, 0);
    for (size_t cut = 1; cut < n && cut <= 20; cut++) {
        seed(SALVAGE, 0, text, n - cut, text, 0);
        seed(SALVAGE, 1, text + cut, n - cut, text, 0);
    }
    seed(SALVAGE, 0xF0, text, n, text, 0);
    seed_in(ONE_SHORT, EXACT, SALVAGE, 0xF0, text, n, text, 0);
    seed(SALVAGE, STRETCHED, text, n, text, 0);
}

/* a ride file: a header of either size, data that begin somewhat as devices write them, a check that is made as that of edition 2 */
static size_t put_file(uint8_t *out, size_t size, size_t data)
{
    static const uint8_t front[] = {0x40, 0, 0, 0, 0, 4, 3, 4, 0x8C, 4, 4, 0x86, 1, 2, 0x84, 0, 1, 0, 0, 1, 0, 0, 0, 2, 0, 0, 0, 1, 0, 4};
    for (size_t i = 0; i < size + data; i++)
        out[i] = i >= size && i - size < sizeof front ? front[i - size] : stranger(TEXT, i, 0);
    put_header(out, size, (uint32_t)data);
    if (size == LONG_HEADER)
        seal(out, SHORT_HEADER);
    return seal(out, size + data);
}

/* headers of every size near those that there are, with sizes of the data that must not be believed or that wrap */
static void seed_headers(void)
{
    static const uint32_t declared[] = {0, 1, 3, 255, 65536, 0x80000000, 0xFFFFFFF0, 0xFFFFFFF2, 0xFFFFFFFE, 0xFFFFFFFF};
    uint8_t text[32] = {0};
    for (size_t i = 0; i < sizeof declared / sizeof *declared; i++)
        for (size_t size = SHORT_HEADER - 1; size <= LONG_HEADER + 1; size++) {
            size_t front = i % 3, data = declared[i] < 4 ? declared[i] : 0;
            memset(text, 0, sizeof text);
            put_header(text + front, size, declared[i]);
            seed(SALVAGE, i % 2, text, front + size - 1, text, 0);
            seed(SALVAGE, i % 2, text, front + size, text, 0);
            seed(SALVAGE, i % 2, text, front + size + data + RIDE_CHECK_BYTES - 1, text, 0);
            seed(SALVAGE, i % 2, text, front + size + data + RIDE_CHECK_BYTES, text, 0);
        }
}

/* a header of a ride that ends with the text, around a power of two */
static void seed_far(size_t power)
{
    for (size_t at = power - 30; at <= power + 10; at++) {
        size_t half = at / 2, rest = at - half;
        const uint8_t far[] = {PUT_FILLER, (uint8_t)(half / 256), (uint8_t)half, 0, PUT_FILLER, (uint8_t)(rest / 256), (uint8_t)rest, 12,
                               PUT_ENDING, 0, (uint8_t)at, 128};
        seed(SALVAGE_MADE, at % 2, far, sizeof far, far, 0);
    }
}

/* Texts with rides: files one behind the other, with a header inside another's data, headers that overlap, and all of it as pieces. */
static void seed_rides(void)
{
    static const uint8_t made[] = {PUT_HEADER, 0, 2, 12, PUT_FILLER, 0, 4, 7, PUT_ENDING, 0, 0, 128, PUT_ENDING, 0, 1, 129, PUT_MARK, 0,
                                   0, 0, PUT_OVERLAPPING, 0, 3, 0, PUT_WRAPPING, 0, 0, 0, PUT_WRAPPING, 0, 1, 20, PUT_HEADER, 0, 9, 13,
                                   PUT_FILLER, 0, 20, 12, PUT_ENDING, 0, 0, 127, PUT_FILLER, 0, 2, 0};
    uint8_t text[256];
    size_t n = put_file(text, LONG_HEADER, 40);
    n += put_file(text + n, SHORT_HEADER, 60);
    put_header(text + 20, SHORT_HEADER, UINT32_MAX);
    seed_salvaged(text, n);
    seed_salvaged(text, put_overlapping(text, 6));
    seed_headers();
    for (size_t len = 4; len <= sizeof made; len += 4) {
        seed(SALVAGE_MADE, len % 8 == 0, made, len, made, 0);
        seed(SALVAGE_MADE, STRETCHED, made + sizeof made - len, len, made, 0);
    }
    for (size_t power = 4096; power <= 32768; power *= 2)
        seed_far(power);
}

static void write_seeds(void)
{
    static const char *const words[] = {"", "a", "ab", "aa", "aaa", "aba", "abc", "abbbaab", "abcacdace", "abaababaabaab"};
    static const char *const files[] = {"",
                                        "01",
                                        "0100",
                                        "0101",
                                        "01FFFFFFFF0F",
                                        "0180808080",
                                        "8100",
                                        "00",
                                        "02",
                                        "FFFFFFFF0F",
                                        "018008",
                                        "018108",
                                        "01FF1F",
                                        "018020",
                                        "018120",
                                        "01830061616100",
                                        "010361616103",
                                        "0103616161",
                                        "0103616161010000",
                                        "01036161610000",
                                        "0102616200",
                                        "01026162010000",
                                        "010761626262616162040000010201010100",
                                        "010761626262616162030000010301010100",
                                        "0107616262626161620500000103010101000000",
                                        "03",
                                        "8200",
                                        "8201",
                                        "0200",
                                        "028120",
                                        "02026161000036",
                                        "02026161003600",
                                        "0202616100003600",
                                        "0202616100003700",
                                        "02026162010000D192",
                                        "02026162010000D1",
                                        "0202616200",
                                        "020261620000",
                                        "020261620000C6",
                                        "02076162626261616203000001030101",
                                        "02076162626261616203000001030101DE6A",
                                        "020761626262616162040000010401010100FE2F",
                                        "0207616262626161620400000103010101004BEF"};
    static const char *const read_whole[][2] = {
        {"ababdbaacbdaba", "abbbbbbbabdbaa"},
        {"ababdbaacbdaba", "bbbbbbbbbbbabd"},
        {"baabbeebbbbddacaababddcccddbaacebbdabad", "bbbbbbbbbbbbbbbbbbbbbbbbbbbbbbbabddcaba"},
        {"edabdbbaaaccebdbbabaacdbbebadcdaabbbabbe", "bdbbdbbdbbdbbdbbdbbdbbdbbdbbdbbdbbdbbaac"},
        {"bdaeccaabbbaceeceabbbeeccaddeaabcecbbab", "eeeeeeceaeeeeeeeeeeeeeeeeeeeeeeeceaeccb"},
        {"aaaaaadaaaaaaabdeaadabbbeababddbbaabacec", "aaaaaaaaaaaaaaaaaaaaaaaaaaaaaaaaababdbac"}};
    static const size_t lengths[] = {16, 64, 65, 127, 128, 129, 300, 1024, 1025, MOST_LETTERS - 1, MOST_LETTERS, MOST_LETTERS + 1};
    static const size_t periodic[][2] = {{1, 1}, {3, 1}, {3, 2}, {4, 4}, {7, 3}, {8, 5}, {64, 8}, {256, 64}, {MOST_LETTERS, 2},
                                         {MOST_LETTERS, MOST_LETTERS / 2}};
    static const size_t hostile[] = {1, 2, 3, 4, 5, 8, 13, 64, 256, MOST_LETTERS}, stretched[] = {2, 3, 4, 5, 7, 8, 13, 16, 17, 20, 33, 64};
    uint8_t word[MOST_LETTERS + 1];
    uint32_t state = 1;
    for (size_t i = 0; i < sizeof words / sizeof *words; i++)
        seed_word((const uint8_t *)words[i], strlen(words[i]));
    for (size_t i = 0; i < sizeof files / sizeof *files; i++)
        seed_hex(files[i]);
    seed_least();
    for (size_t i = 0; i < sizeof read_whole / sizeof *read_whole; i++)
        seed_read_whole(read_whole[i][0], read_whole[i][1]);
    seed_spellings((const uint8_t *)"abbbaab", 7);
    seed_letters();
    seed_storacles();
    seed_rides();
    for (size_t i = 0; i < sizeof periodic / sizeof *periodic; i++)
        seed_periodic(periodic[i][0], periodic[i][1]);
    for (size_t i = 0; i < sizeof hostile / sizeof *hostile; i++)
        seed_hostile(hostile[i]);
    for (size_t i = 0; i < sizeof stretched / sizeof *stretched; i++)
        seed_stretched(stretched[i]);
    for (size_t l = 0; l < sizeof lengths / sizeof *lengths; l++)
        for (unsigned kind = 0; kind < (lengths[l] <= 300 || lengths[l] == MOST_LETTERS ? 4 : 1); kind++) {
            for (size_t i = 0; i < lengths[l]; i++) {
                state = state * 1664525 + 1013904223;
                word[i] = kind == 1             ? 'a'
                          : kind == 2 && i >= 5 ? word[i - 5]
                          : kind == 3           ? (uint8_t)(state >> 24)
                                                : (uint8_t)('a' + (state >> 24) % 2);
            }
            seed_word(word, lengths[l]);
            if (lengths[l] > 300 && kind == 0)
                seed_long(word, lengths[l]);
        }
}

/* ---- how much of the proved code was reached ---- */

/* the coverage counters of the proved code, which stands in a shared object of its own with counters.c */
uint8_t *proved_counters(size_t *many);

static uint8_t reached[1 << 16];

/* libFuzzer clears the counters before each input, so they are gathered after it */
static void gather(void)
{
    size_t many;
    const uint8_t *counters = proved_counters(&many);
    for (size_t i = 0; i < many && i < sizeof reached; i++)
        reached[i] |= counters[i];
}

static void print_reached(void)
{
    size_t many, yes = 0;
    proved_counters(&many);
    for (size_t i = 0; i < many && i < sizeof reached; i++)
        yes += reached[i] != 0;
    printf("proved code: %zu of %zu edges reached\n", yes, many);
}

/* ---- what libFuzzer calls ---- */

int LLVMFuzzerInitialize(int *argc, char ***argv)
{
    if (*argc == 3 && strcmp((*argv)[1], "--seeds") == 0) {
        seed_dir = (*argv)[2];
        write_seeds();
        exit(0);
    }
    make_regions();
    atexit(print_reached);
    return 0;
}

int LLVMFuzzerTestOneInput(const uint8_t *data, size_t size)
{
    struct asked a = {0};
    if (size < HEAD || size > MOST_INPUT)
        return 0;
    understand(data, size, &a);
    call_both(&a);
    gather();
    return 0;
}
