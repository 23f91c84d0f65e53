/* What only a caller in C can hand over, a null pointer with length 0 for each buffer; turbo, the failure oracle and the storacle at their
 * edges; one letter, which has no file; files of edition 2, whose check is cut, wrong or not their last bytes; rides that are whole, that
 * are cut, and whose headers are; compact rows at their edges, each room by itself; and the deepest calls there are, every entry on eight
 * threads at once. Each thread has a stack of 64 KiB, or the least that the system gives where that is more, above a page that nobody may
 * touch. It is painted before, and less than 64 KiB of it may be touched, by the calls and by what a thread needs of its own. Compact rows
 * are for little stack: each of their calls, alone on such a thread, may touch less than 16 KiB more than a thread without a call does. */
#define _DEFAULT_SOURCE
#include <inttypes.h>
#include <pthread.h>
#include <stdio.h>
#include <string.h>
#include <sys/mman.h>
#include <unistd.h>

#include "marks.h"

enum { THREADS = 8, MOST = 64 * 1024, LITTLE = 16 * 1024, GUARD = MOST, PAINT = 0xa5, TEXT = 65536, RIDES = 3 };

static uint16_t tables[MARKS_FAILURE_TABLES(MARKS_LEAST_SAVED)], all_tables[MARKS_MOST_FAILURE_TABLES];
static uint8_t room[MARKS_LEAST_SAVED], out[8], searcher[MARKS_SEARCHER], long_text[MARKS_LONGEST_TEXT + 1];
static uint16_t ride_tables[MARKS_RIDE_TABLES + 1], targets[MARKS_COMPACT_TARGETS(2) + 1], all_targets[MARKS_MOST_COMPACT_TARGETS];
static uint64_t sets[MARKS_COMPACT_SETS(2) + 1], all_sets[MARKS_MOST_COMPACT_SETS];
static uint8_t kinds[RIDES];
static uint32_t finds[2], starts[RIDES];
static uint64_t count, letters, failures, offset, told;
static const uint64_t nowhere = UINT64_MAX;

/* what was said, and at which offset where one was written */
static void print_number(const char *what, uint32_t said)
{
    printf("%s: %" PRIu32, what, said);
    if (offset != nowhere)
        printf(" at %" PRIu64, offset);
    offset = nowhere;
}

/* the same, and the answers of a search */
static void print_said(const char *what, uint32_t said)
{
    print_number(what, said);
    if (said == MARKS_OK)
        printf(", %" PRIu64 " places, %" PRIu64 " letters", count, letters);
    printf("\n");
}

/* the same, and the answer of saving, in bytes, or of loading, in letters */
static void print_size(const char *what, uint32_t said, const char *unit)
{
    print_number(what, said);
    if (said == MARKS_OK)
        printf(", %" PRIu64 " %s", told, unit);
    printf("\n");
}

static void null_buffers(void)
{
    const uint8_t *a = (const uint8_t *)"a", *aa = (const uint8_t *)"aa", *file = (const uint8_t *)"\1\2aa";
    uint64_t n;
    offset = nowhere;
    print_said("build, no word", marks_build(NULL, 0, tables, 12, &n));
    print_said("build, no tables", marks_build(a, 1, NULL, 0, &n));
    print_said("save, no word", marks_save(NULL, 0, tables, 18, out, 5, &n));
    print_said("save, no tables", marks_save(aa, 2, NULL, 0, out, 5, &n));
    print_said("save, no output", marks_save(aa, 2, tables, 18, NULL, 0, &n));
    print_said("save checked, no word", marks_save_checked(NULL, 0, tables, 18, out, 7, &n));
    print_said("save checked, no tables", marks_save_checked(aa, 2, NULL, 0, out, 7, &n));
    print_said("save checked, no output", marks_save_checked(aa, 2, tables, 18, NULL, 0, &n));
    print_said("load, no file", marks_load(NULL, 0, room, 2, tables, 18, &n, &offset));
    print_said("load, no room", marks_load(file, 5, NULL, 0, tables, 18, &n, &offset));
    print_said("load, no tables", marks_load(file, 5, room, 2, NULL, 0, &n, &offset));
    print_said("search, no word", marks_search(NULL, 0, aa, 2, tables, 12, finds, 2, &count, &letters));
    print_said("search, no tables", marks_search(a, 1, aa, 2, NULL, 0, finds, 2, &count, &letters));
    print_said("search, no text", marks_search(a, 1, NULL, 0, tables, 12, finds, 2, &count, &letters));
    print_said("search, no list", marks_search(a, 1, aa, 2, tables, 12, NULL, 0, &count, &letters));
    print_said("turbo, no word", marks_turbo(NULL, 0, aa, 2, tables, 12, finds, 2, &count, &letters));
    print_said("turbo, no tables", marks_turbo(a, 1, aa, 2, NULL, 0, finds, 2, &count, &letters));
    print_said("turbo, no text", marks_turbo(a, 1, NULL, 0, tables, 12, finds, 2, &count, &letters));
    print_said("turbo, no list", marks_turbo(a, 1, aa, 2, tables, 12, NULL, 0, &count, &letters));
    print_said("with a file, no file", marks_search_file(NULL, 0, aa, 2, room, 2, tables, 18, finds, 2, &count, &letters, &offset));
    print_said("with a file, no room", marks_search_file(file, 5, aa, 2, NULL, 0, tables, 18, finds, 2, &count, &letters, &offset));
    print_said("with a file, no tables", marks_search_file(file, 5, aa, 2, room, 2, NULL, 0, finds, 2, &count, &letters, &offset));
    print_said("with a file, no text", marks_search_file(file, 5, NULL, 0, room, 2, tables, 18, finds, 2, &count, &letters, &offset));
    print_said("with a file, no list", marks_search_file(file, 5, aa, 2, room, 2, tables, 18, NULL, 0, &count, &letters, &offset));
    print_said("with a file, no file and too long a text",
               marks_search_file(NULL, 0, long_text, sizeof long_text, room, 2, tables, 18, finds, 2, &count, &letters, &offset));
}

/* a word in a text by its failure oracle; a list of two entries is lent, or none of it */
static void failure_in(const char *word, const char *text, size_t list)
{
    const uint8_t *w = (const uint8_t *)word, *t = (const uint8_t *)text;
    const size_t room = MARKS_FAILURE_TABLES(strlen(word));
    uint32_t said = marks_failure_search(w, strlen(word), t, strlen(text), all_tables, room, finds, list, &count, &letters, &failures);
    printf("failure search, %s in %s, list of %zu: %" PRIu32 ", %" PRIu64 " letters, %" PRIu64 " failure arrows, %" PRIu64 " places:", word, text, list, said,
           letters, failures, count);
    for (size_t i = 0; i < count && i < list; i++)
        printf(" %" PRIu32, finds[i]);
    printf("\n");
}

/* the failure arrows of a word and its symbol arrows beside the spine, each with its target */
static void failure_arrows(const char *word)
{
    size_t m = strlen(word), n = m + 1;
    uint64_t answer = 0;
    printf("failure oracle of %s: %" PRIu32, word, marks_failure_build((const uint8_t *)word, m, all_tables, MARKS_FAILURE_TABLES(m), &answer));
    printf(", %" PRIu64 " letters", answer);
    for (size_t x = 0; x <= m; x++)
        if (all_tables[n + x] != 0)
            printf(", %zu-%d", x, all_tables[n + x]);
    for (size_t x = 0; x <= m; x++)
        for (size_t slot = all_tables[2 * n + x]; slot != 0; slot = all_tables[3 * n + slot])
            printf(", %zu-%c-%d", x, word[all_tables[4 * n + slot] - 1], all_tables[4 * n + slot]);
    printf("\n");
}

static void failure_refusals(void)
{
    const uint8_t *aa = (const uint8_t *)"aa", *zeros = long_text;
    const size_t longer = MARKS_LONGEST_WORD + 1, too_long = sizeof long_text, most = MARKS_LONGEST_TEXT;
    const size_t longest_room = MARKS_MOST_FAILURE_TABLES;
    uint64_t n;
    print_said("failure build, no word and no tables", marks_failure_build(NULL, 0, NULL, 0, &n));
    print_said("failure build, too long a word, no tables", marks_failure_build(zeros, longer, NULL, 0, &n));
    print_said("failure build, no tables", marks_failure_build(aa, 1, NULL, 0, &n));
    print_said("failure build, a table entry too few", marks_failure_build(aa, 1, tables, 19, &n));
    print_said("failure build, room for the other oracle", marks_failure_build(aa, 2, tables, MARKS_TABLES(2), &n));
    print_said("failure build, the longest word, a table entry too few", marks_failure_build(zeros, longer - 1, all_tables, longest_room - 1, &n));
    print_said("failure search, no word, too long a text, no tables",
               marks_failure_search(NULL, 0, zeros, too_long, NULL, 0, finds, 2, &count, &letters, &failures));
    print_said("failure search, too long a word and a text, no tables",
               marks_failure_search(zeros, longer, zeros, too_long, NULL, 0, finds, 2, &count, &letters, &failures));
    print_said("failure search, too long a text, a table entry too few",
               marks_failure_search(aa, 1, zeros, too_long, tables, 19, finds, 2, &count, &letters, &failures));
    print_said("failure search, a table entry too few", marks_failure_search(aa, 1, zeros, most, tables, 19, finds, 2, &count, &letters, &failures));
    print_said("failure search, no tables", marks_failure_search(aa, 1, aa, 2, NULL, 0, finds, 2, &count, &letters, &failures));
    print_said("failure search, no text", marks_failure_search(aa, 1, NULL, 0, tables, 20, finds, 2, &count, &letters, &failures));
    print_said("failure search, no list", marks_failure_search(aa, 1, aa, 2, tables, 20, NULL, 0, &count, &letters, &failures));
}

/* The longest word, a one and zeros: in the longest text without either, where each window fails at its last letter, after a failure arrow; and in the longest
 * text of nothing but itself, where each window is read along the spine. */
static void longest_failure(void)
{
    const size_t m = MARKS_LONGEST_WORD, room = MARKS_MOST_FAILURE_TABLES;
    static uint8_t word[MARKS_LONGEST_WORD] = {1};
    uint64_t n = 0;
    printf("failure build, the longest word: %" PRIu32, marks_failure_build(word, m, all_tables, room, &n));
    printf(", %" PRIu64 " letters\n", n);
    memset(long_text, 2, MARKS_LONGEST_TEXT);
    print_said("failure search, the longest word in the longest text without it",
               marks_failure_search(word, m, long_text, MARKS_LONGEST_TEXT, all_tables, room, finds, 2, &count, &letters, &failures));
    printf("failure arrows taken: %" PRIu64 "\n", failures);
    for (size_t at = 0; at < MARKS_LONGEST_TEXT; at += m)
        memcpy(long_text + at, word, m);
    print_said("failure search, the longest word in the longest text of nothing else",
               marks_failure_search(word, m, long_text, MARKS_LONGEST_TEXT, all_tables, room, finds, 2, &count, &letters, &failures));
    printf("failure arrows taken: %" PRIu64 ", the second place: %" PRIu32 "\n", failures, finds[1]);
    memset(long_text, 0, MARKS_LONGEST_TEXT);
}

/* each refusal where the later ones would be given too; the examples; a text shorter than the word, and as long; the longest word in the longest text */
static void failure_edges(void)
{
    failure_refusals();
    failure_arrows("a");
    failure_arrows("abcacdace");
    failure_arrows("abadbcaabdbaba");
    failure_in("aba", "ababa", 2);
    failure_in("aba", "ababa", 1);
    failure_in("aba", "ababa", 0);
    failure_in("ab", "ac", 2);
    failure_in("abc", "ab", 2);
    failure_in("ab", "ab", 2);
    failure_in("ababdbaacbdaba", "abbbbbbbabdbaa", 2);
    failure_in("ababdbaacbdaba", "ababdbaacbdaba", 2);
    longest_failure();
}

/* how many entries of the tables were written, up to the last one that is not painted */
static size_t written(void)
{
    size_t end = MARKS_MOST_FAILURE_TABLES;
    while (end > 0 && all_tables[end - 1] == PAINT * 257)
        end--;
    return end;
}

/* a null pointer is handed over where nothing is lent of the tables */
static void storacle_in(const char *what, const uint8_t *word, size_t m, size_t lent)
{
    told = nowhere;
    memset(all_tables, PAINT, sizeof all_tables);
    printf("storacle build, ");
    print_number(what, marks_storacle_build(word, m, lent > 0 ? all_tables : NULL, lent, &told));
    if (told != nowhere)
        printf(", %" PRIu64 " letters", told);
    printf("; written: %zu entries\n", written());
}

/* each refusal where the later ones would be given too; rooms that are just enough, and longer ones */
static void storacle_refusals(void)
{
    const uint8_t *nine = (const uint8_t *)"abcacdace", *zeros = long_text;
    const size_t longest = MARKS_LONGEST_STORACLE, most = MARKS_MOST_STORACLE_TABLES;
    storacle_in("no word and no tables", NULL, 0, 0);
    storacle_in("no word", NULL, 0, most);
    storacle_in("too long a word, no tables", zeros, longest + 1, 0);
    storacle_in("too long a word", zeros, longest + 1, MARKS_STORACLE_TABLES(longest + 1));
    storacle_in("the longest word of the oracles", zeros, MARKS_LONGEST_WORD, MARKS_MOST_FAILURE_TABLES);
    storacle_in("no tables", nine, 1, 0);
    storacle_in("a table entry too few", nine, 1, 13);
    storacle_in("room for the oracle", nine, 9, MARKS_TABLES(9));
    storacle_in("room for the failure oracle", nine, 9, MARKS_FAILURE_TABLES(9));
    storacle_in("the longest word, a table entry too few", zeros, longest, most - 1);
    storacle_in("tables just enough", nine, 1, 14);
    storacle_in("more tables than needed", nine, 1, 15);
    storacle_in("the longest word, tables just enough", zeros, longest, most);
    storacle_in("the longest word, more tables than needed", zeros, longest, MARKS_MOST_FAILURE_TABLES);
}

/* the arrows in the rows of the states of a storacle */
static size_t storacle_count(size_t m)
{
    size_t arrows = 0, n = m + 1;
    for (size_t i = 2 * n; i < (m + 3) * n; i++)
        arrows += all_tables[i] != 0;
    return arrows;
}

/* the arrows of a word by its storacle: from each state on each letter, by its column */
static void storacle_arrows(const char *word)
{
    size_t m = strlen(word), n = m + 1;
    printf("storacle of %s: %" PRIu32, word, marks_storacle_build((const uint8_t *)word, m, all_tables, MARKS_STORACLE_TABLES(m), &told));
    printf(", %" PRIu64 " letters, %zu arrows", told, storacle_count(m));
    for (size_t x = 0; x <= m; x++)
        for (size_t i = 1; i <= m; i++)
            if (all_tables[(2 + x) * n + i] != 0)
                printf(", %zu-%c-%d", x, word[i - 1], all_tables[(2 + x) * n + i]);
    printf("\n");
}

/* the longest word of different letters, and that of zeros and a one */
static void longest_storacles(void)
{
    static uint8_t different[MARKS_LONGEST_STORACLE], one[MARKS_LONGEST_STORACLE];
    const size_t m = MARKS_LONGEST_STORACLE;
    one[m - 1] = 1;
    for (size_t i = 0; i < m; i++)
        different[i] = (uint8_t)(255 - i);
    storacle_in("the longest word of different letters", different, m, MARKS_MOST_STORACLE_TABLES);
    printf("arrows: %zu, the last from state 0 to %d\n", storacle_count(m), all_tables[2 * (m + 1) + m]);
    storacle_in("the longest word of zeros and a one", one, m, MARKS_MOST_STORACLE_TABLES);
    printf("arrows: %zu, the last from state 0 to %d\n", storacle_count(m), all_tables[2 * (m + 1) + m]);
}

static void storacle_edges(void)
{
    storacle_refusals();
    storacle_arrows("a");
    storacle_arrows("ba");
    storacle_arrows("abcacdace");
    storacle_arrows("abcdabcdbacbbdaddccaae");
    longest_storacles();
}

/* refused before the rooms, so as well where there are none */
static void one_letter(void)
{
    const uint8_t *a = (const uint8_t *)"a", *file = (const uint8_t *)"\1\1a", *checked = (const uint8_t *)"\2\1a";
    uint64_t n;
    print_said("save, one letter, no tables", marks_save(a, 1, NULL, 0, out, 5, &n));
    print_said("save, one letter, no output", marks_save(a, 1, tables, 12, NULL, 0, &n));
    print_said("save, one letter, no tables and no output", marks_save(a, 1, NULL, 0, NULL, 0, &n));
    print_said("save checked, one letter, no tables", marks_save_checked(a, 1, NULL, 0, out, 7, &n));
    print_said("save checked, one letter, no output", marks_save_checked(a, 1, tables, 12, NULL, 0, &n));
    print_said("save checked, one letter, no tables and no output", marks_save_checked(a, 1, NULL, 0, NULL, 0, &n));
    print_said("load, one letter, no room and no tables", marks_load(file, 4, NULL, 0, NULL, 0, &n, &offset));
    print_said("load, one letter, edition 2, no room and no tables", marks_load(checked, 4, NULL, 0, NULL, 0, &n, &offset));
    print_said("with a file, one letter, no room, no tables and no list",
               marks_search_file(file, 4, a, 1, NULL, 0, NULL, 0, NULL, 0, &count, &letters, &offset));
    print_said("with a file, one letter, too long a text",
               marks_search_file(file, 4, long_text, sizeof long_text, room, 1, tables, 12, finds, 2, &count, &letters, &offset));
}

/* an output of so many bytes, of which all that are there are shown */
static void save_checked_in(const char *what, size_t lent)
{
    memset(out, PAINT, sizeof out);
    print_size(what, marks_save_checked((const uint8_t *)"aa", 2, tables, 18, out, lent, &told), "bytes");
    printf("output:");
    for (size_t i = 0; i < sizeof out; i++)
        printf(" %02x", out[i]);
    printf("\n");
}

/* each refusal where the later ones would be given too, but for that of one letter; the room that the least file needs */
static void save_checked_edges(void)
{
    const uint8_t *aa = (const uint8_t *)"aa";
    print_size("save checked, no word, no tables and no output", marks_save_checked(NULL, 0, NULL, 0, NULL, 0, &told), "bytes");
    print_size("save checked, too long a word, no tables and no output",
               marks_save_checked(long_text, MARKS_LONGEST_WORD + 1, NULL, 0, NULL, 0, &told), "bytes");
    print_size("save checked, a table entry too few and no output", marks_save_checked(aa, 2, tables, 17, NULL, 0, &told), "bytes");
    save_checked_in("save checked, output two bytes short", 5);
    save_checked_in("save checked, output a byte short", 6);
    save_checked_in("save checked, output just enough", 7);
    save_checked_in("save checked, output a byte longer", 8);
}

/* what is lent of each file, which is that of aa where its name has no other word */
static const struct {
    const char *what;
    size_t length;
    uint8_t bytes[9];
} checked_files[] = {
    {"edition 2, good", 7, {2, 2, 'a', 'a', 0, 0x00, 0x36}},
    {"edition 2, nothing behind its number", 1, {2}},
    {"edition 2, none of its check left", 5, {2, 2, 'a', 'a', 0}},
    {"edition 2, a byte of its check left", 6, {2, 2, 'a', 'a', 0, 0x00}},
    {"edition 2, a wrong byte of its check left", 6, {2, 2, 'a', 'a', 0, 0x01}},
    {"edition 2, bad check in its low byte", 7, {2, 2, 'a', 'a', 0, 0x01, 0x36}},
    {"edition 2, bad check in its high byte", 7, {2, 2, 'a', 'a', 0, 0x00, 0xb6}},
    {"edition 2, its check high byte first", 7, {2, 2, 'a', 'a', 0, 0x36, 0x00}},
    {"edition 2, bad check and a byte behind", 8, {2, 2, 'a', 'a', 0, 0x01, 0x36, 0}},
    {"edition 2, good check and a byte behind", 8, {2, 2, 'a', 'a', 0, 0x00, 0x36, 0}},
    {"edition 2, ab", 9, {2, 2, 'a', 'b', 1, 0, 0, 0xd1, 0x92}},
    {"edition 2, ab that became cb by a flipped bit", 9, {2, 2, 'c', 'b', 1, 0, 0, 0xd1, 0x92}},
    {"edition 2, ab that became aa, an arrow too many before a bad check", 9, {2, 2, 'a', 'a', 1, 0, 0, 0xd1, 0x92}},
    {"edition 1, a check behind it", 7, {1, 2, 'a', 'a', 0, 0x00, 0x36}},
    {"edition 3, a check behind it", 7, {3, 2, 'a', 'a', 0, 0x00, 0x36}},
    {"edition 2, its number misspelled", 8, {0x82, 0, 2, 'a', 'a', 0, 0x00, 0x36}},
};

static int all_are(const void *buffer, size_t length, uint8_t value)
{
    const uint8_t *bytes = buffer;
    size_t at = 0;
    while (at < length && bytes[at] == value)
        at++;
    return at == length;
}

/* each file is loaded and searched with, in rooms that are painted before loading */
static void load_checked_edges(void)
{
    const uint8_t *text = (const uint8_t *)"baab";
    const size_t table = MARKS_TABLES(2) * sizeof *tables;
    for (size_t i = 0; i < sizeof checked_files / sizeof *checked_files; i++) {
        const uint8_t *file = checked_files[i].bytes;
        const size_t length = checked_files[i].length;
        memset(room, PAINT, 2);
        memset(tables, PAINT, table);
        printf("load, ");
        print_size(checked_files[i].what, marks_load(file, length, room, 2, tables, 18, &told, &offset), "letters");
        if (all_are(room, 2, PAINT) && all_are(tables, table, PAINT))
            printf("room and tables: as they were\n");
        else if (all_are(room, 2, 0) && all_are(tables, table, 0))
            printf("room and tables: zero\n");
        else
            printf("room: %.2s\n", (const char *)room);
        printf("with a file, ");
        print_said(checked_files[i].what,
                   marks_search_file(file, length, text, 4, room, 2, tables, 18, finds, 2, &count, &letters, &offset));
    }
}

/* the rooms are judged before the check, and the text before the file */
static void checked_order(void)
{
    const uint8_t *file = (const uint8_t *)"\2\2aa\0\1\66";
    print_size("load, edition 2, no room, bad check", marks_load(file, 7, NULL, 0, tables, 18, &told, &offset), "letters");
    print_size("load, edition 2, no tables, bad check", marks_load(file, 7, room, 2, NULL, 0, &told, &offset), "letters");
    print_size("load, edition 2, a byte of room too few, bad check", marks_load(file, 7, room, 1, tables, 18, &told, &offset), "letters");
    print_size("load, edition 2, a table entry too few, bad check", marks_load(file, 7, room, 2, tables, 17, &told, &offset), "letters");
    print_said("with a file, edition 2, too long a text, bad check",
               marks_search_file(file, 7, long_text, sizeof long_text, room, 2, tables, 18, finds, 2, &count, &letters, &offset));
}

/* the longest word, zeros and a one, which has as many arrows as a word can have */
static void longest_checked(void)
{
    static uint8_t word[MARKS_LONGEST_WORD], file[MARKS_MOST_FILE], again[MARKS_LONGEST_WORD];
    const size_t m = MARKS_LONGEST_WORD, lent = MARKS_MOST_TABLES;
    size_t length;
    word[m - 1] = 1;
    memset(file, PAINT, sizeof file);
    print_size("save checked, the longest word", marks_save_checked(word, m, all_tables, lent, file, MARKS_MOST_FILE, &told), "bytes");
    length = told;
    printf("behind them: %s\n", all_are(file + length, sizeof file - length, PAINT) ? "as it was" : "written");
    print_size("load, edition 2, the longest word", marks_load(file, length, again, m, all_tables, lent, &told, &offset), "letters");
    printf("the word: %s\n", memcmp(word, again, m) == 0 ? "the same" : "another");
    print_size("load, edition 2, the longest word, a byte of its check left",
               marks_load(file, length - 1, again, m, all_tables, lent, &told, &offset), "letters");
    file[length - 1] ^= 0x80;
    print_size("load, edition 2, the longest word, its last bit flipped",
               marks_load(file, length, again, m, all_tables, lent, &told, &offset), "letters");
    print_size("save checked, the longest word, output a byte short",
               marks_save_checked(word, m, all_tables, lent, file, length - 1, &told), "bytes");
    print_size("save checked, the longest word, output just enough",
               marks_save_checked(word, m, all_tables, lent, file, length, &told), "bytes");
}

static void checked_edges(void)
{
    save_checked_edges();
    load_checked_edges();
    checked_order();
    longest_checked();
}

/* the table of a search for .FIT and nothing behind it, or nothing at all */
static const char *ride_tables_left(void)
{
    uint16_t searched[MARKS_RIDE_TABLES];
    uint64_t places;
    if (all_are(ride_tables, sizeof ride_tables, PAINT))
        return "as they were";
    if (marks_search((const uint8_t *)".FIT", 4, NULL, 0, searched, MARKS_RIDE_TABLES, NULL, 0, &places, &letters) == MARKS_OK &&
        memcmp(ride_tables, searched, sizeof searched) == 0 && all_are(ride_tables + MARKS_RIDE_TABLES, sizeof *ride_tables, PAINT))
        return "as by a search";
    return "others";
}

/* the rides that a call listed, what is behind them in both lists, and the tables; all of it was painted before, and the count was nowhere */
static void print_rides(const char *what, uint32_t said)
{
    size_t i = 0;
    int rest_kept;
    printf("salvage, %s: %" PRIu32, what, said);
    if (count != nowhere)
        printf(", %" PRIu64 " rides", count);
    for (; i < RIDES && kinds[i] != PAINT; i++)
        printf(", %" PRIu32 " %s", starts[i], kinds[i] == MARKS_RIDE_WHOLE ? "whole" : kinds[i] == MARKS_RIDE_CUT ? "cut" : "of no kind");
    rest_kept = all_are(starts + i, (RIDES - i) * sizeof *starts, PAINT) && all_are(kinds + i, RIDES - i, PAINT);
    printf("; lists: %s; tables: %s\n", !rest_kept ? "more" : i == 0 ? "as they were" : "no more", ride_tables_left());
}

/* null pointers are handed over for tables and lists of which nothing is lent */
static void salvage_in(const char *what, const uint8_t *text, size_t length, size_t tables_lent, size_t starts_lent, size_t kinds_lent)
{
    memset(ride_tables, PAINT, sizeof ride_tables);
    memset(starts, PAINT, sizeof starts);
    memset(kinds, PAINT, sizeof kinds);
    count = nowhere;
    print_rides(what, marks_salvage(text, length, tables_lent > 0 ? ride_tables : NULL, tables_lent, starts_lent > 0 ? starts : NULL, starts_lent,
                                    kinds_lent > 0 ? kinds : NULL, kinds_lent, &count));
}

/* what is lent of each text; in most it is one header, whose first byte is 12 or 14, \14 or \16 here, and whose data size is in its bytes 4 to 7 */
static const struct {
    const char *what;
    size_t length;
    const char *bytes;
} ride_texts[] = {
    {"header of 12, no data, check", 14, "\14---\0\0\0\0.FIT\0\0"},
    {"header of 12, no data, a byte of its check left", 13, "\14---\0\0\0\0.FIT\0"},
    {"header of 12 alone", 12, "\14---\0\0\0\0.FIT"},
    {"header of 12, its last byte cut", 11, "\14---\0\0\0\0.FI"},
    {"header of 14, no data, check", 16, "\16---\0\0\0\0.FIT\0\0\0\0"},
    {"header of 14, no data, a byte of its check left", 15, "\16---\0\0\0\0.FIT\0\0\0"},
    {"header of 14 alone", 14, "\16---\0\0\0\0.FIT\0\0"},
    {"header of 14, its last byte cut", 13, "\16---\0\0\0\0.FIT\0"},
    {"header of 14, its last two bytes cut", 12, "\16---\0\0\0\0.FIT"},
    {"header of 13", 16, "\15---\0\0\0\0.FIT\0\0\0\0"},
    {"header of 0", 16, "\0---\0\0\0\0.FIT\0\0\0\0"},
    {".FIT at 7, 12 at 0", 13, "\14--\0\0\0\0.FIT\0\0"},
    {".FIT at 9, 12 at 0", 15, "\14----\0\0\0\0.FIT\0\0"},
    {".FIT at 8, 12 at 7 and 1", 14, "-\14-----\14.FIT\0\0"},
    {"data of 1, all there", 15, "\14---\1\0\0\0.FITx\0\0"},
    {"data of 1, none there", 14, "\14---\1\0\0\0.FIT\0\0"},
    {"data of 256, none there", 14, "\14---\0\1\0\0.FIT\0\0"},
    {"data of 65,536, none there", 14, "\14---\0\0\1\0.FIT\0\0"},
    {"data of 16,777,216, none there", 14, "\14---\0\0\0\1.FIT\0\0"},
    {"data of FF FF FF FF", 14, "\14---\377\377\377\377.FIT\0\0"},
    {"data of FF FF FF F2, so that all is 2 to the 32nd", 14, "\14---\362\377\377\377.FIT\0\0"},
    {"data of FF FF FF FF behind another ride", 30, "\14---\0\0\0\0.FIT\0\0\16---\377\377\377\377.FIT\0\0\0\0"},
    {"a ride in the data of another", 30, "\14---\20\0\0\0.FIT\16---\0\0\0\0.FIT\0\0\0\0\0\0"},
    {"a cut ride in the data of another", 30, "\14---\20\0\0\0.FIT\16---\4\0\0\0.FIT\0\0\0\0\0\0"},
    {"two marks and no header", 16, "----.FIT.FIT----"},
};

/* both lists get as many rides as fit the shorter one, here of three: one of 12 that is whole, one of 14, and one of 12 that is cut */
static void salvage_lists(void)
{
    const uint8_t *three = (const uint8_t *)"\14---\0\0\0\0.FIT\0\0\16---\0\0\0\0.FIT\0\0\0\0\14---\0\0\0\0.FIT\0";
    const size_t length = 43, room = MARKS_RIDE_TABLES;
    salvage_in("three rides, lists of 3", three, length, room, 3, 3);
    salvage_in("three rides, starts for 2 and kinds for 3", three, length, room, 2, 3);
    salvage_in("three rides, starts for 3 and kinds for 2", three, length, room, 3, 2);
    salvage_in("three rides, starts for 1 and kinds for 3", three, length, room, 1, 3);
    salvage_in("three rides, starts for 3 and kinds for 1", three, length, room, 3, 1);
    salvage_in("three rides, no starts", three, length, room, 0, 3);
    salvage_in("three rides, no kinds", three, length, room, 3, 0);
    salvage_in("three rides, no lists", three, length, room, 0, 0);
    salvage_in("three rides, more tables than needed", three, length, room + 1, 3, 3);
}

static void salvage_refusals(void)
{
    const uint8_t *ride = (const uint8_t *)"\14---\0\0\0\0.FIT\0\0";
    const size_t room = MARKS_RIDE_TABLES;
    salvage_in("too long a text, no tables, no lists", long_text, sizeof long_text, 0, 0, 0);
    salvage_in("too long a text, a table entry too few", long_text, sizeof long_text, room - 1, 3, 3);
    salvage_in("too long a text", long_text, sizeof long_text, room, 3, 3);
    salvage_in("the longest text, a table entry too few", long_text, MARKS_LONGEST_TEXT, room - 1, 3, 3);
    salvage_in("a table entry too few", ride, 14, room - 1, 3, 3);
    salvage_in("no tables", ride, 14, 0, 3, 3);
    salvage_in("no text, no tables, no lists", NULL, 0, 0, 0, 0);
    salvage_in("no text, no lists", NULL, 0, room, 0, 0);
    salvage_in("no text", NULL, 0, room, 3, 3);
}

/* In the longest text one ride reaches to the last byte, and the next declares a byte more than is left; the last header begins 12 bytes before the end, and is
 * listed where it has 12 bytes, not where it has 14. Then the first declares as many bytes as there are in all. */
static void longest_salvage(void)
{
    const size_t most = MARKS_LONGEST_TEXT, last = most - 12, room = MARKS_RIDE_TABLES;
    memcpy(long_text, "\14---\362\377\377\0.FIT", 12);
    memcpy(long_text + 12, "\14---\347\377\377\0.FIT", 12);
    memcpy(long_text + last, "\14---\0\0\0\0.FIT", 12);
    salvage_in("the longest text", long_text, most, room, 3, 3);
    salvage_in("the longest text but for its last byte", long_text, most - 1, room, 3, 3);
    long_text[last] = 14;
    salvage_in("the longest text, its last header two bytes short", long_text, most, room, 3, 3);
    memcpy(long_text + 4, "\0\0\0\1", 4);
    salvage_in("the longest text, data of 16,777,216", long_text, most, room, 3, 3);
    memset(long_text, 0, 24);
    memset(long_text + last, 0, 12);
}

/* what stands before a text that is lent would make a header of what is lent */
static void salvage_behind(void)
{
    const uint8_t *ride = (const uint8_t *)"\14---\0\0\0\0.FIT\0\0";
    salvage_in("a ride from its second byte on", ride + 1, 13, MARKS_RIDE_TABLES, RIDES, RIDES);
    salvage_in("a ride from .FIT on", ride + 8, 6, MARKS_RIDE_TABLES, RIDES, RIDES);
}

static void salvage_edges(void)
{
    salvage_refusals();
    for (size_t i = 0; i < sizeof ride_texts / sizeof *ride_texts; i++)
        salvage_in(ride_texts[i].what, (const uint8_t *)ride_texts[i].bytes, ride_texts[i].length, MARKS_RIDE_TABLES, RIDES, RIDES);
    salvage_behind();
    salvage_lists();
    longest_salvage();
}

/* the compact rows of ba and nothing behind them, or nothing at all */
static const char *rooms_left(void)
{
    uint64_t built_sets[MARKS_COMPACT_SETS(2)], m;
    uint16_t built_targets[MARKS_COMPACT_TARGETS(2)];
    if (all_are(sets, sizeof sets, PAINT) && all_are(targets, sizeof targets, PAINT))
        return "as they were";
    if (marks_compact_build((const uint8_t *)"ba", 2, built_sets, 12, built_targets, 30, &m) == MARKS_OK &&
        memcmp(sets, built_sets, sizeof built_sets) == 0 && memcmp(targets, built_targets, sizeof built_targets) == 0 &&
        all_are(sets + 12, sizeof *sets, PAINT) && all_are(targets + 30, sizeof *targets, PAINT))
        return "those of ba";
    return "others";
}

static void paint_rooms(void)
{
    memset(sets, PAINT, sizeof sets);
    memset(targets, PAINT, sizeof targets);
}

/* null pointers are handed over for rooms of which nothing is lent */
static void compact_build_in(const char *what, const uint8_t *word, size_t m, size_t sets_lent, size_t targets_lent)
{
    told = nowhere;
    paint_rooms();
    printf("compact build, ");
    print_number(what, marks_compact_build(word, m, sets_lent > 0 ? sets : NULL, sets_lent, targets_lent > 0 ? targets : NULL, targets_lent, &told));
    if (told != nowhere)
        printf(", %" PRIu64 " letters", told);
    printf("; rooms: %s\n", rooms_left());
}

/* the same of a search, with a list of two entries */
static void compact_search_in(const char *what, const uint8_t *word, size_t m, const uint8_t *text, size_t length, size_t sets_lent, size_t targets_lent)
{
    count = letters = nowhere;
    memset(finds, PAINT, sizeof finds);
    paint_rooms();
    printf("compact search, ");
    print_number(what, marks_compact_search(word, m, text, length, sets_lent > 0 ? sets : NULL, sets_lent, targets_lent > 0 ? targets : NULL, targets_lent,
                                            finds, 2, &count, &letters));
    if (count != nowhere || letters != nowhere)
        printf(", %" PRIu64 " places, %" PRIu64 " letters", count, letters);
    printf("; list: %s; rooms: %s\n", all_are(finds, sizeof finds, PAINT) ? "as it was" : "written", rooms_left());
}

/* each refusal where the later ones would be given too; each room too short by itself */
static void compact_refusals(void)
{
    const uint8_t *ba = (const uint8_t *)"ba", *ab = (const uint8_t *)"ab", *zeros = long_text;
    const size_t longer = MARKS_LONGEST_WORD + 1, too_long = sizeof long_text, most = MARKS_LONGEST_TEXT;
    compact_build_in("no word and no rooms", NULL, 0, 0, 0);
    compact_build_in("too long a word and no rooms", zeros, longer, 0, 0);
    compact_build_in("no rooms", ba, 2, 0, 0);
    compact_build_in("no sets", ba, 2, 0, 30);
    compact_build_in("no targets", ba, 2, 12, 0);
    compact_build_in("a word of sets too few", ba, 2, 11, 30);
    compact_build_in("an entry of targets too few", ba, 2, 12, 29);
    compact_build_in("targets as long as the other table", ba, 2, 12, MARKS_TABLES(2));
    compact_build_in("rooms just enough", ba, 2, 12, 30);
    compact_build_in("rooms longer than needed", ba, 2, 13, 31);
    compact_search_in("no word, too long a text, no rooms", NULL, 0, zeros, too_long, 0, 0);
    compact_search_in("too long a word and a text, no rooms", zeros, longer, zeros, too_long, 0, 0);
    compact_search_in("too long a text, no rooms", ab, 2, zeros, too_long, 0, 0);
    compact_search_in("too long a text", ab, 2, zeros, too_long, 12, 30);
    compact_search_in("the longest text, no sets", ab, 2, zeros, most, 0, 30);
    compact_search_in("the longest text, no targets", ab, 2, zeros, most, 12, 0);
    compact_search_in("a word of sets too few", ab, 2, ab, 2, 11, 30);
    compact_search_in("an entry of targets too few", ab, 2, ab, 2, 12, 29);
    compact_search_in("no text", ab, 2, NULL, 0, 12, 30);
    compact_search_in("a text shorter than the word", ab, 2, ab, 1, 12, 30);
    compact_search_in("rooms just enough", ab, 2, ab, 2, 12, 30);
    compact_search_in("rooms longer than needed", ab, 2, ab, 2, 13, 31);
}

static size_t ones(uint64_t word)
{
    size_t found = 0;
    for (; word != 0; word &= word - 1)
        found++;
    return found;
}

/* the arrows of a word by its compact rows: from each state on each letter of its set, to the target whose place is found by counting */
static void compact_arrows(const char *word)
{
    size_t m = strlen(word), n = m + 1;
    printf("compact rows of %s: %" PRIu32, word,
           marks_compact_build((const uint8_t *)word, m, all_sets, MARKS_COMPACT_SETS(m), all_targets, MARKS_COMPACT_TARGETS(m), &told));
    printf(", %" PRIu64 " letters", told);
    for (size_t x = 0; x <= m; x++)
        for (int c = 0, below = 0; c < 256; c++)
            if (all_sets[4 * x + c / 64] >> c % 64 & 1)
                printf(", %zu-%c-%d", x, c, all_targets[8 * n + all_targets[4 * n + 4 * x] + below++]);
    printf("\n");
}

/* a word in a text; a list of two entries is lent, or none of it */
static void compact_in(const char *word, const char *text, size_t list)
{
    const uint8_t *w = (const uint8_t *)word, *t = (const uint8_t *)text;
    const size_t m = strlen(word);
    uint32_t said = marks_compact_search(w, m, t, strlen(text), all_sets, MARKS_COMPACT_SETS(m), all_targets, MARKS_COMPACT_TARGETS(m), list > 0 ? finds : NULL,
                                         list, &count, &letters);
    printf("compact search, %s in %s, list of %zu: %" PRIu32 ", %" PRIu64 " letters, %" PRIu64 " places:", word, text, list, said, letters, count);
    for (size_t i = 0; i < count && i < list; i++)
        printf(" %" PRIu32, finds[i]);
    printf("\n");
}

/* the longest word, zeros and a one, which has as many arrows as a word can have: each room too short by itself, both just enough, and its arrows counted in
 * the sets and in the targets */
static void longest_compact_build(void)
{
    static uint8_t word[MARKS_LONGEST_WORD];
    const size_t m = MARKS_LONGEST_WORD, n = m + 1, lent = MARKS_MOST_COMPACT_SETS, entries = MARKS_MOST_COMPACT_TARGETS;
    size_t arrows = 0;
    word[m - 1] = 1;
    print_size("compact build, the longest word, a word of sets too few",
               marks_compact_build(word, m, all_sets, lent - 1, all_targets, entries, &told), "letters");
    print_size("compact build, the longest word, an entry of targets too few",
               marks_compact_build(word, m, all_sets, lent, all_targets, entries - 1, &told), "letters");
    print_size("compact build, the longest word", marks_compact_build(word, m, all_sets, lent, all_targets, entries, &told), "letters");
    for (size_t i = 0; i < lent; i++)
        arrows += ones(all_sets[i]);
    printf("arrows: %zu in the sets, %d before their last word; the last leads to %d, and behind it is %d\n", arrows, all_targets[8 * n - 1],
           all_targets[8 * n + arrows - 1], all_targets[8 * n + arrows]);
}

/* Its mirror: in the longest text without its letters, where each window fails at its last one; and in the longest text of nothing but itself. */
static void longest_compact_search(void)
{
    static uint8_t word[MARKS_LONGEST_WORD] = {1};
    const size_t m = MARKS_LONGEST_WORD, lent = MARKS_MOST_COMPACT_SETS, entries = MARKS_MOST_COMPACT_TARGETS, most = MARKS_LONGEST_TEXT;
    memset(long_text, 2, most);
    print_said("compact search, the longest word in the longest text without it",
               marks_compact_search(word, m, long_text, most, all_sets, lent, all_targets, entries, finds, 2, &count, &letters));
    for (size_t at = 0; at < most; at += m)
        memcpy(long_text + at, word, m);
    print_said("compact search, the longest word in the longest text of nothing else",
               marks_compact_search(word, m, long_text, most, all_sets, lent, all_targets, entries, finds, 2, &count, &letters));
    printf("the second place: %" PRIu32 "\n", finds[1]);
    memset(long_text, 0, most);
}

static void compact_edges(void)
{
    compact_refusals();
    compact_arrows("a");
    compact_arrows("abcacdace");
    compact_in("aba", "ababa", 2);
    compact_in("aba", "ababa", 1);
    compact_in("aba", "ababa", 0);
    compact_in("ab", "abxa", 2);
    longest_compact_build();
    longest_compact_search();
}

static void null_buffers_of_streams(void)
{
    const uint8_t *a = (const uint8_t *)"a", *aa = (const uint8_t *)"aa";
    printf("open, no word: %" PRIu32 "\n", marks_open(NULL, 0, searcher, MARKS_SEARCHER));
    printf("open, no searcher: %" PRIu32 "\n", marks_open(a, 1, NULL, 0));
    printf("take, searcher of zeros: %" PRIu32 "\n", marks_take(searcher, MARKS_SEARCHER, aa, 2, finds, 2, &count));
    printf("take, no searcher: %" PRIu32 "\n", marks_take(NULL, 0, aa, 2, finds, 2, &count));
    printf("open: %" PRIu32 "\n", marks_open(a, 1, searcher, MARKS_SEARCHER));
    printf("take, no piece: %" PRIu32, marks_take(searcher, MARKS_SEARCHER, NULL, 0, finds, 2, &count));
    printf(", %" PRIu64 " places\n", count);
    printf("take, no list: %" PRIu32, marks_take(searcher, MARKS_SEARCHER, aa, 2, NULL, 0, &count));
    printf(", %" PRIu64 " places\n", count);
    printf("take, no piece and no list: %" PRIu32, marks_take(searcher, MARKS_SEARCHER, NULL, 0, NULL, 0, &count));
    printf(", %" PRIu64 " places\n", count);
}

/* a word in a text; a list of two entries is lent, or none of it */
static void turbo_in(const char *word, const char *text, size_t list)
{
    uint32_t said = marks_turbo((const uint8_t *)word, strlen(word), (const uint8_t *)text, strlen(text), all_tables, MARKS_MOST_TABLES, finds, list, &count,
                                &letters);
    printf("turbo, %s in %s, list of %zu: %" PRIu32 ", %" PRIu64 " letters, %" PRIu64 " places:", word, text, list, said, letters, count);
    for (size_t i = 0; i < count && i < list; i++)
        printf(" %" PRIu32, finds[i]);
    printf("\n");
}

/* each refusal where the later ones would be given too; the examples; a text shorter than the word; the longest word in the longest text, both zeros */
static void turbo_edges(void)
{
    const uint8_t *aa = (const uint8_t *)"aa", *zeros = long_text;
    const size_t longer = MARKS_LONGEST_WORD + 1, too_long = sizeof long_text, most = MARKS_LONGEST_TEXT;
    print_said("turbo, empty word, too long a text, no tables", marks_turbo(aa, 0, zeros, too_long, tables, 0, finds, 2, &count, &letters));
    print_said("turbo, too long a word and a text, no tables", marks_turbo(zeros, longer, zeros, too_long, tables, 0, finds, 2, &count, &letters));
    print_said("turbo, too long a text, a table entry too few", marks_turbo(aa, 1, zeros, too_long, tables, 11, finds, 2, &count, &letters));
    print_said("turbo, a table entry too few", marks_turbo(aa, 1, zeros, most, tables, 11, finds, 2, &count, &letters));
    turbo_in("aba", "ababa", 2);
    turbo_in("aba", "ababa", 1);
    turbo_in("aba", "ababa", 0);
    turbo_in("aaaa", "abaaa", 2);
    turbo_in("aa", "ba", 2);
    turbo_in("ab", "ab", 2);
    turbo_in("abc", "ab", 2);
    print_said("turbo, the longest word in the longest text",
               marks_turbo(zeros, MARKS_LONGEST_WORD, zeros, most, all_tables, MARKS_MOST_TABLES, finds, 2, &count, &letters));
}

/* the longest word of a's and one b: its last letter climbs over every state, and does so too where the mirror is looked for, which stands in the text at a
 * place of the thread's own; the first letters of the mirror, as many as a stream's word can have, are looked for in two pieces, cut inside of the find; of
 * as many as can be a storacle is built. In the longest text, zeros, a search prepares arrows on the stack, as many as it ever does */
struct work {
    uint8_t word[MARKS_LONGEST_WORD], mirror[MARKS_LONGEST_WORD], text[TEXT], room[MARKS_LONGEST_WORD];
    uint8_t file[MARKS_MOST_FILE], checked[MARKS_MOST_FILE];
    uint16_t tables[MARKS_MOST_FAILURE_TABLES], targets[MARKS_MOST_COMPACT_TARGETS];
    uint8_t searcher[MARKS_SEARCHER], ride_kinds[2];
    uint32_t finds[2], turbo_finds[2], failure_finds[2], compact_finds[2], file_finds[2], checked_finds[2], stream_finds[2], rides[2], said;
    uint64_t m, length, checked_length, count, turbo_count, failure_count, compact_count, file_count, checked_count, before_cut, stream_count;
    uint64_t letters, failures, offset, ride_count, storacle_m, in_zeros[7], sets[MARKS_MOST_COMPACT_SETS];
    size_t cut;
    uint8_t *stack;
};

static struct work works[THREADS];

static size_t stack_size(void)
{
    long least = sysconf(_SC_THREAD_STACK_MIN);
    return least > MOST ? (size_t)least : MOST;
}

/* a stack grows towards its first byte */
static size_t touched(const uint8_t *stack)
{
    size_t at = 0, size = stack_size();
    while (at < size && stack[at] == PAINT)
        at++;
    return size - at;
}

/* the calls whose stack is counted alone */
static void *no_call(void *mine)
{
    return mine;
}

static void *search_alone(void *mine)
{
    struct work *w = mine;
    w->said += marks_search(w->mirror, MARKS_LONGEST_WORD, long_text, MARKS_LONGEST_TEXT, w->tables, MARKS_MOST_TABLES, NULL, 0, &w->in_zeros[0], &w->letters);
    return NULL;
}

static void *compact_build_alone(void *mine)
{
    struct work *w = mine;
    w->said += marks_compact_build(w->word, MARKS_LONGEST_WORD, w->sets, MARKS_MOST_COMPACT_SETS, w->targets, MARKS_MOST_COMPACT_TARGETS, &w->m);
    return NULL;
}

static void *compact_search_alone(void *mine)
{
    struct work *w = mine;
    w->said += marks_compact_search(w->mirror, MARKS_LONGEST_WORD, long_text, MARKS_LONGEST_TEXT, w->sets, MARKS_MOST_COMPACT_SETS, w->targets,
                                    MARKS_MOST_COMPACT_TARGETS, NULL, 0, &w->in_zeros[6], &w->letters);
    return NULL;
}

static void *deepest(void *mine)
{
    struct work *w = mine;
    const size_t failure_tables = MARKS_MOST_FAILURE_TABLES;
    w->said = marks_build(w->word, MARKS_LONGEST_WORD, w->tables, MARKS_MOST_TABLES, &w->m);
    w->said += marks_save(w->word, MARKS_LONGEST_WORD, w->tables, MARKS_MOST_TABLES, w->file, MARKS_MOST_FILE, &w->length);
    w->said += marks_load(w->file, w->length, w->room, MARKS_LONGEST_WORD, w->tables, MARKS_MOST_TABLES, &w->m, &w->offset);
    w->said += marks_search(w->mirror, MARKS_LONGEST_WORD, w->text, TEXT, w->tables, MARKS_MOST_TABLES, w->finds, 2, &w->count, &w->letters);
    w->said += marks_turbo(w->mirror, MARKS_LONGEST_WORD, w->text, TEXT, w->tables, MARKS_MOST_TABLES, w->turbo_finds, 2, &w->turbo_count, &w->letters);
    w->said += marks_search_file(w->file, w->length, w->text, TEXT, w->room, MARKS_LONGEST_WORD, w->tables, MARKS_MOST_TABLES, w->file_finds, 2,
                                 &w->file_count, &w->letters, &w->offset);
    w->said += marks_save_checked(w->word, MARKS_LONGEST_WORD, w->tables, MARKS_MOST_TABLES, w->checked, MARKS_MOST_FILE,
                                  &w->checked_length);
    w->said += marks_load(w->checked, w->checked_length, w->room, MARKS_LONGEST_WORD, w->tables, MARKS_MOST_TABLES, &w->m, &w->offset);
    w->said += marks_search_file(w->checked, w->checked_length, w->text, TEXT, w->room, MARKS_LONGEST_WORD, w->tables, MARKS_MOST_TABLES,
                                 w->checked_finds, 2, &w->checked_count, &w->letters, &w->offset);
    w->said += marks_failure_build(w->word, MARKS_LONGEST_WORD, w->tables, failure_tables, &w->m);
    w->said += marks_failure_search(w->mirror, MARKS_LONGEST_WORD, w->text, TEXT / 4, w->tables, failure_tables, w->failure_finds, 2, &w->failure_count,
                                    &w->letters, &w->failures);
    w->said += marks_compact_search(w->mirror, MARKS_LONGEST_WORD, w->text, TEXT / 4, w->sets, MARKS_MOST_COMPACT_SETS, w->targets,
                                    MARKS_MOST_COMPACT_TARGETS, w->compact_finds, 2, &w->compact_count, &w->letters);
    w->said += marks_storacle_build(w->mirror, MARKS_LONGEST_STORACLE, w->tables, MARKS_MOST_STORACLE_TABLES, &w->storacle_m);
    search_alone(w);
    compact_build_alone(w);
    compact_search_alone(w);
    w->said += marks_turbo(w->mirror, MARKS_LONGEST_WORD, long_text, MARKS_LONGEST_TEXT, w->tables, MARKS_MOST_TABLES, NULL, 0, &w->in_zeros[1], &w->letters);
    w->said += marks_search_file(w->file, w->length, long_text, MARKS_LONGEST_TEXT, w->room, MARKS_LONGEST_WORD, w->tables, MARKS_MOST_TABLES, NULL, 0,
                                 &w->in_zeros[2], &w->letters, &w->offset);
    w->said += marks_failure_search(w->mirror, MARKS_LONGEST_WORD, long_text, MARKS_LONGEST_TEXT, w->tables, failure_tables, NULL, 0, &w->in_zeros[3],
                                    &w->letters, &w->failures);
    w->said += marks_search_file(w->checked, w->checked_length, long_text, MARKS_LONGEST_TEXT, w->room, MARKS_LONGEST_WORD, w->tables,
                                 MARKS_MOST_TABLES, NULL, 0, &w->in_zeros[4], &w->letters, &w->offset);
    w->said += marks_salvage(w->text, TEXT, w->tables, MARKS_RIDE_TABLES, w->rides, 2, w->ride_kinds, 2, &w->ride_count);
    w->said += marks_salvage(long_text, MARKS_LONGEST_TEXT, w->tables, MARKS_RIDE_TABLES, NULL, 0, NULL, 0, &w->in_zeros[5]);
    w->said += marks_open(w->mirror, MARKS_LONGEST_STREAMED, w->searcher, MARKS_SEARCHER);
    w->said += marks_take(w->searcher, MARKS_SEARCHER, w->text, w->cut, w->stream_finds, 2, &w->before_cut);
    w->said += marks_take(w->searcher, MARKS_SEARCHER, w->text + w->cut, TEXT - w->cut, w->stream_finds, 2, &w->stream_count);
    return NULL;
}

static int start(pthread_t *thread, struct work *w, void *(*calls)(void *))
{
    pthread_attr_t painted;
    uint8_t *guard = mmap(NULL, GUARD + stack_size(), PROT_READ | PROT_WRITE, MAP_PRIVATE | MAP_ANONYMOUS, -1, 0);
    if (guard == MAP_FAILED || mprotect(guard, GUARD, PROT_NONE) != 0 || pthread_attr_init(&painted) != 0)
        return 1;
    w->stack = guard + GUARD;
    memset(w->stack, PAINT, stack_size());
    return pthread_attr_setstack(&painted, w->stack, stack_size()) != 0 || pthread_create(thread, &painted, calls, w) != 0;
}

static void print_work(int i, const struct work *w)
{
    printf("thread %d: %" PRIu32 ", file of %" PRIu64 " bytes", i, w->said, w->length);
    printf(", %" PRIu64 " place at %" PRIu32, w->count, w->finds[0]);
    printf(", with the file %" PRIu64 " at %" PRIu32, w->file_count, w->file_finds[0]);
    printf(", checked file of %" PRIu64 " bytes, with it %" PRIu64 " at %" PRIu32, w->checked_length, w->checked_count,
           w->checked_finds[0]);
    printf(", by turbo %" PRIu64 " at %" PRIu32, w->turbo_count, w->turbo_finds[0]);
    printf(", by failures %" PRIu64 " at %" PRIu32, w->failure_count, w->failure_finds[0]);
    printf(", by compact rows %" PRIu64 " at %" PRIu32, w->compact_count, w->compact_finds[0]);
    printf(", storacle of %" PRIu64 " letters", w->storacle_m);
    printf(", in pieces %" PRIu64 " and %" PRIu64 " at %" PRIu32, w->before_cut, w->stream_count, w->stream_finds[0]);
    printf(", %" PRIu64 " ride at %" PRIu32 " of kind %d", w->ride_count, w->rides[0], w->ride_kinds[0]);
    printf(", in zeros %" PRIu64 ", %" PRIu64 ", %" PRIu64 ", %" PRIu64, w->in_zeros[0], w->in_zeros[1], w->in_zeros[2], w->in_zeros[3]);
    printf(", %" PRIu64 ", %" PRIu64 " and %" PRIu64 "\n", w->in_zeros[4], w->in_zeros[5], w->in_zeros[6]);
}

/* how many bytes of stack a thread touches that makes these calls and no others; more than it has where it cannot be started */
static size_t touched_by(void *(*calls)(void *))
{
    pthread_t thread;
    if (start(&thread, &works[0], calls) != 0 || pthread_join(thread, NULL) != 0)
        return 2 * stack_size();
    return touched(works[0].stack);
}

/* whether the calls of compact rows touch little, beyond what a thread needs of its own */
static int compact_touches_little(void)
{
    const size_t idle = touched_by(no_call), search = touched_by(search_alone);
    const size_t compact = touched_by(compact_search_alone), build = touched_by(compact_build_alone);
    fprintf(stderr, "edges: a thread that calls nothing touched %zu bytes of stack, one that calls marks_search %zu, marks_compact_search %zu,"
                    " marks_compact_build %zu\n", idle, search, compact, build);
    return idle < LITTLE && compact < idle + LITTLE && build < idle + LITTLE;
}

int main(void)
{
    pthread_t threads[THREADS];
    size_t most = 0;
    null_buffers();
    null_buffers_of_streams();
    turbo_edges();
    failure_edges();
    storacle_edges();
    one_letter();
    checked_edges();
    salvage_edges();
    compact_edges();
    for (int i = 0; i < THREADS; i++) {
        memset(works[i].word, 'a', MARKS_LONGEST_WORD - 1);
        works[i].word[MARKS_LONGEST_WORD - 1] = 'b';
        memset(works[i].mirror, 'a', MARKS_LONGEST_WORD);
        works[i].mirror[0] = 'b';
        memset(works[i].text, 'a', TEXT);
        works[i].text[1000 * i] = 'b';
        memcpy(works[i].text + TEXT / 2 + 1000 * i, "\14---\0\0\0\0.FIT", 12);
        works[i].cut = 1000 * (size_t)i + MARKS_LONGEST_STREAMED / 2;
        if (start(&threads[i], &works[i], deepest) != 0)
            return 1;
    }
    for (int i = 0; i < THREADS; i++) {
        if (pthread_join(threads[i], NULL) != 0)
            return 1;
        print_work(i, &works[i]);
        most = touched(works[i].stack) > most ? touched(works[i].stack) : most;
    }
    fprintf(stderr, "edges: a thread touched at most %zu of its %zu bytes of stack\n", most, stack_size());
    return most >= MOST || !compact_touches_little();
}
