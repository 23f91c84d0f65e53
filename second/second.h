/* A second opinion on the library: the same fifteen entries, written once more from the scope document and the requests, and from
   docs/TABLE.md and docs/FILE.md where those leave the layout of the tables and of a searcher open, as plainly as can be.
   It shares no code and no definition with the proved library, is quadratic where that is simpler, and keeps its oracles in static
   memory (one caller at a time). Each answers the refusal's number, 0 for success; what is answered beside it goes through the last
   pointers, which a refusal leaves alone. The offset is the other way round: a refusal that shows at a place in the file writes it, and
   nothing else does. */
#ifndef SECOND_H
#define SECOND_H

#include <stddef.h>
#include <stdint.h>

/* The limits of the scope document and of the requests. Nothing else in second/ rests on their values, but for some examples and seeds. */
enum {
    MOST_LETTERS = 4096,          /* of a word */
    LEAST_SAVED = 2,              /* letters of a word that has a file */
    MOST_STREAMED = 64,           /* letters of a word that a stream is opened for */
    MOST_STORACLE = 128,          /* letters of a word that a storacle is built of */
    MOST_TEXT = 16777216,         /* bytes of a text, and of a stream */
    SEARCHER_BYTES = 134,         /* of a searcher; more may be lent */
    LEAST_FILE = LEAST_SAVED + 3, /* bytes of a file of edition 1: the edition, the length, the letters and a count of no arrows */
    ALWAYS_ENOUGH = 20481,        /* bytes of output, for the file of any word in edition 1 */
    CHECK_BYTES = 2,              /* how many bytes more a file of edition 2 has */
    MOST_FILE = 8 * MOST_LETTERS  /* a room of our own for a file: more than any has */
};

/* m times n, up to which second_turbo looks for h by comparing the word's beginnings with the text; above, it carries h along the word's
   borders, as second_turbo_carried always does. The two must agree. */
enum { MOST_LOOKED_FOR = 1 << 22 };

/* From how many letters on a text is long for a word of m letters: the library takes another way there, with the same answers. Only cases
   and mistakes on purpose look at this. */
static inline size_t long_from(size_t m)
{
    return m > 16 ? 512 * m : 8192;
}

/* The same for a search with compact rows; for how many entries the library then prepares arrows, by states and by the letters that the
   word has; and from how many letters on the reading of a window is deep. Only cases, counters and mistakes on purpose look at these. */
static inline size_t long_for_rows(size_t m)
{
    return 200 * m;
}

enum { PREPARED = 1024, DEEP = 32 };

/* Where a searcher has the word's letters, the longest border of each of the word's beginnings, how many letters the word has, how many
   of them are kept, and how many bytes were taken, low byte first. Kept is the longest beginning of the word, short of all of it, that
   ends with the last byte taken. */
enum { AT_LETTERS = 0, AT_BORDERS = 64, AT_LENGTH = 128, AT_KEPT = 129, AT_TAKEN = 130 };

/* A ride file, as far as the request tells it: a header of 12 or 14 bytes, whose first byte is that size, has at bytes 4 to 7 how many
   bytes of data follow it, low byte first, and .FIT at bytes 8 to 11; two bytes of a check are behind the data. Then the kinds of rides. */
enum { SHORT_HEADER = 12, LONG_HEADER = 14, AT_DATA_SIZE = 4, AT_RIDE_MARK = 8, RIDE_MARK_BYTES = 4, RIDE_CHECK_BYTES = 2 };
#define RIDE_MARK ".FIT"
enum { CUT_RIDE = 0, WHOLE_RIDE = 1 };

uint32_t second_build(const uint8_t *word, size_t word_len, uint16_t *tables, size_t tables_len, uint64_t *m);

uint32_t second_save(const uint8_t *word, size_t word_len, uint16_t *tables, size_t tables_len, uint8_t *out, size_t out_len,
                     uint64_t *length);

uint32_t second_save_checked(const uint8_t *word, size_t word_len, uint16_t *tables, size_t tables_len, uint8_t *out, size_t out_len,
                             uint64_t *length);

uint32_t second_load(const uint8_t *file, size_t file_len, uint8_t *room, size_t room_len, uint16_t *tables, size_t tables_len,
                     uint64_t *m, uint64_t *offset);

uint32_t second_search(const uint8_t *word, size_t word_len, const uint8_t *text, size_t text_len, uint16_t *tables, size_t tables_len,
                       uint32_t *finds, size_t finds_len, uint64_t *count, uint64_t *letters);

uint32_t second_turbo(const uint8_t *word, size_t word_len, const uint8_t *text, size_t text_len, uint16_t *tables, size_t tables_len,
                      uint32_t *finds, size_t finds_len, uint64_t *count, uint64_t *letters);

uint32_t second_turbo_carried(const uint8_t *word, size_t word_len, const uint8_t *text, size_t text_len, uint16_t *tables,
                              size_t tables_len, uint32_t *finds, size_t finds_len, uint64_t *count, uint64_t *letters);

uint32_t second_search_file(const uint8_t *file, size_t file_len, const uint8_t *text, size_t text_len, uint8_t *room, size_t room_len,
                            uint16_t *tables, size_t tables_len, uint32_t *finds, size_t finds_len, uint64_t *count, uint64_t *letters,
                            uint64_t *offset);

uint32_t second_failure_build(const uint8_t *word, size_t word_len, uint16_t *tables, size_t tables_len, uint64_t *m);

uint32_t second_failure_search(const uint8_t *word, size_t word_len, const uint8_t *text, size_t text_len, uint16_t *tables,
                               size_t tables_len, uint32_t *finds, size_t finds_len, uint64_t *count, uint64_t *letters,
                               uint64_t *failures);

uint32_t second_storacle_build(const uint8_t *word, size_t word_len, uint16_t *tables, size_t tables_len, uint64_t *m);

/* how many windows the search with a failure oracle has read to their first letter so far, in all calls, without a find there */
uint64_t second_read_without_find(void);

uint32_t second_compact_build(const uint8_t *word, size_t word_len, uint64_t *sets, size_t sets_len, uint16_t *targets, size_t targets_len,
                              uint64_t *m);

uint32_t second_compact_search(const uint8_t *word, size_t word_len, const uint8_t *text, size_t text_len, uint64_t *sets, size_t sets_len,
                               uint16_t *targets, size_t targets_len, uint32_t *finds, size_t finds_len, uint64_t *count,
                               uint64_t *letters);

/* how many windows the search with compact rows has read deep behind one that was not, or the other way round, in long texts so far */
uint64_t second_changes_of_depth(void);

uint32_t second_salvage(const uint8_t *text, size_t text_len, uint16_t *tables, size_t tables_len, uint32_t *starts, size_t starts_len,
                        uint8_t *kinds, size_t kinds_len, uint64_t *count);

uint32_t second_open(const uint8_t *word, size_t word_len, uint8_t *searcher, size_t searcher_len);

uint32_t second_take(uint8_t *searcher, size_t searcher_len, const uint8_t *piece, size_t piece_len, uint32_t *finds, size_t finds_len,
                     uint64_t *count);

#endif
