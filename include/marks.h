/* Finding marks in broken ride files, for C99 and C++.
 *
 * A mark is a word of 1 to 4,096 bytes. marks_search lists every place where it stands in a text; so does marks_turbo, in linear time whatever the text.
 * marks_save writes its index to a file of 5 to 20,481 bytes, but not that of a single letter, with which everybody would drown in finds; marks_save_checked
 * to one of two bytes more, edition 2, which ends with a check of all bytes before it, so that bits which were lost are noticed. marks_load reads either
 * edition, and marks_search_file searches with either. For a text that comes in pieces there are marks_open and marks_take, for marks of 1 to 64 bytes.
 * marks_salvage lists the rides in an upload by their FIT headers, also where they were cut.
 * Programs to start from: c/find.c; c/parts.c, for more than 16 MiB and more finds than there is room for; c/pieces.c; c/salvage.c, for rides that were cut.
 *
 * Which search: marks_turbo where strangers choose the text or the mark, as it reads no more than two letters for each letter of the text. marks_search
 * where you know both, as it is quicker on most texts, where letters are many up to five and a half times, but may read m letters for each of a hostile one.
 * marks_compact_search where the stack is small, as on a board with little memory: the same places and letters as marks_search, but in a long text some 3 KiB
 * of stack for what it prepares, in the place of some 42 KiB. Its rooms are larger, 52(m+1) bytes in the place of 12(m+1), so in a long text it takes less
 * memory in all for a mark of up to some 800 letters. It may read m letters for each of a hostile text, too.
 * marks_failure_search is there for its fewer arrows and for comparing: never for strangers, as it may read m letters for each of a hostile text, too, and
 * its table alone takes up to m*m/2 letters to make, for a word that repeats itself.
 *
 * Any bytes and any lengths may be handed to every entry. It returns MARKS_OK and writes its answers through the last pointers; or it refuses: it returns
 * the number of the first refusal in the order given below, and leaves those pointers alone, but for an offset, which only a refusal writes. What is not
 * named below keeps its value: the rest of every buffer, on success too, and the word, the text and the file always. docs/RULES.md has all of this as rules,
 * docs/PROMISES.md says what is proved of them.
 *
 * There is no state and no heap. Calls on buffers of their own may run at the same time from many threads; what is only read may be shared. A call takes
 * less than 64 KiB of stack, and the most that was seen is 53 KiB, of a search in a long text; those of compact rows take less than 16 KiB. The archive needs
 * memset and memcpy of the C library and nothing else.
 *
 * Wrong use, which no entry can see and of which nothing is promised:
 *   - a pointer and a length that do not describe memory of the caller's, so many elements long, which nobody else changes during the call
 *   - buffers or answers that overlap where one of them is written
 *   - a null pointer with a length other than 0 (with length 0 it is fine)
 *   - a pointer that is not aligned for its type
 *   - a null pointer for an answer or an offset
 */
#ifndef MARKS_H
#define MARKS_H

#include <stddef.h>
#include <stdint.h>

/* The version of the library: as numbers, and as text. */
#define MARKS_VERSION_MAJOR 0
#define MARKS_VERSION_MINOR 7
#define MARKS_VERSION_PATCH 0
#define MARKS_VERSION "0.7.0"

/* What an entry returns: a number, and when exactly it is given. m is the number of letters of the word, for a file the one that it declares. */
/* begin refusals: as tools/refusals writes them */
enum {
    MARKS_OK = 0,            /* done */
    MARKS_EMPTY_WORD = 1,    /* the word is empty */
    MARKS_LONG_WORD = 2,     /* the word is longer than 4,096 bytes, for a storacle than 128, for a stream than 64 */
    MARKS_SHORT_ROOM = 3,    /* too little room: 6(m+1) entries, storacle (m+1)(m+6), failure oracle 10(m+1), compact rows also 4(m+1) words, file m bytes, stream 134 */
    MARKS_LONG_TEXT = 4,     /* the text is longer than 16,777,216 bytes, or the stream would be with this piece */
    MARKS_CUT_FILE = 5,      /* the file ends before or inside a number, or before the last of its letters or of its check */
    MARKS_BAD_NUMBER = 6,    /* a number in the file is misspelled: the last of its several groups is zero, or its fifth byte is above 15 */
    MARKS_OTHER_EDITION = 7, /* the file's edition is neither 1 nor 2 */
    MARKS_BAD_LENGTH = 8,    /* the file declares fewer than 2 letters, or more than 4,096 */
    MARKS_BAD_COUNT = 9,     /* the file declares more arrows than its letters less 1 */
    MARKS_WRONG_ARROW = 10,  /* an arrow in the file is not its word's own at that place, or arrows are missing */
    MARKS_LEFTOVERS = 11,    /* bytes follow the file's last arrow, or in edition 2 its check */
    MARKS_SHORT_OUTPUT = 12, /* the room lent for the file is below its size */
    MARKS_BAD_CHECK = 13,    /* the file's check is not that of the bytes before it */
    MARKS_UNMADE = 16,       /* opening and taking bytes could never have made the searcher */
    MARKS_SHORT_WORD = 17,   /* the word to be saved has one letter */
};

/* The same as text. */
static inline const char *marks_meaning(uint32_t said)
{
    switch (said) {
    case MARKS_OK: return "done";
    case MARKS_EMPTY_WORD: return "the word is empty";
    case MARKS_LONG_WORD: return "the word is longer than 4,096 bytes, for a storacle than 128, for a stream than 64";
    case MARKS_SHORT_ROOM: return "too little room: 6(m+1) entries, storacle (m+1)(m+6), failure oracle 10(m+1), compact rows also 4(m+1) words, file m bytes, stream 134";
    case MARKS_LONG_TEXT: return "the text is longer than 16,777,216 bytes, or the stream would be with this piece";
    case MARKS_CUT_FILE: return "the file ends before or inside a number, or before the last of its letters or of its check";
    case MARKS_BAD_NUMBER: return "a number in the file is misspelled: the last of its several groups is zero, or its fifth byte is above 15";
    case MARKS_OTHER_EDITION: return "the file's edition is neither 1 nor 2";
    case MARKS_BAD_LENGTH: return "the file declares fewer than 2 letters, or more than 4,096";
    case MARKS_BAD_COUNT: return "the file declares more arrows than its letters less 1";
    case MARKS_WRONG_ARROW: return "an arrow in the file is not its word's own at that place, or arrows are missing";
    case MARKS_LEFTOVERS: return "bytes follow the file's last arrow, or in edition 2 its check";
    case MARKS_SHORT_OUTPUT: return "the room lent for the file is below its size";
    case MARKS_BAD_CHECK: return "the file's check is not that of the bytes before it";
    case MARKS_UNMADE: return "opening and taking bytes could never have made the searcher";
    case MARKS_SHORT_WORD: return "the word to be saved has one letter";
    default: return "no number of the table";
    }
}
/* end refusals */

/* Room, in elements of the buffer that it is for. A text may be empty, and a list of finds may have any length, 0 too. */
#define MARKS_LONGEST_WORD 4096                                             /* also word room for every file */
#define MARKS_LONGEST_TEXT 16777216
#define MARKS_LEAST_SAVED 2                                                 /* the fewest bytes of a word that is saved */
#define MARKS_TABLES(m) (6 * ((m) + 1))                                     /* table entries for a word of m letters */
#define MARKS_MOST_TABLES MARKS_TABLES(MARKS_LONGEST_WORD)                  /* table entries for every word */
#define MARKS_FAILURE_TABLES(m) (10 * ((m) + 1))                            /* table entries for the failure oracle of a word of m letters */
#define MARKS_MOST_FAILURE_TABLES MARKS_FAILURE_TABLES(MARKS_LONGEST_WORD)  /* and for that of every word */
#define MARKS_LONGEST_STORACLE 128                                          /* bytes of a word that has a storacle here */
#define MARKS_STORACLE_TABLES(m) (((m) + 1) * ((m) + 6))                    /* table entries for the storacle of a word of m letters, and for every such */
#define MARKS_MOST_STORACLE_TABLES MARKS_STORACLE_TABLES(MARKS_LONGEST_STORACLE)
#define MARKS_COMPACT_SETS(m) (4 * ((m) + 1))                               /* elements of sets for the compact rows of a word of m letters */
#define MARKS_MOST_COMPACT_SETS MARKS_COMPACT_SETS(MARKS_LONGEST_WORD)      /* and for those of every word */
#define MARKS_COMPACT_TARGETS(m) (10 * ((m) + 1))                           /* elements of targets for the same */
#define MARKS_MOST_COMPACT_TARGETS MARKS_COMPACT_TARGETS(MARKS_LONGEST_WORD)
#define MARKS_MOST_FILE (5 * MARKS_LONGEST_WORD + 3)                        /* output for the file of every word, in either edition */
#define MARKS_LONGEST_STREAMED 64                                           /* bytes of a word that a stream is opened for */
#define MARKS_SEARCHER 134                                                  /* bytes of a searcher */

/* What marks_salvage lists, and the room that it needs. */
#define MARKS_RIDE_CUT 0                                                    /* the text ends before the ride does */
#define MARKS_RIDE_WHOLE 1                                                  /* header, data and check end within the text */
#define MARKS_RIDE_TABLES MARKS_TABLES(4)                                   /* table entries for .FIT: 30 */

/* A result that is dropped is a refusal that nobody sees: compilers warn of it. */
#if (defined(__cplusplus) && __cplusplus >= 201703L) || (defined(__STDC_VERSION__) && __STDC_VERSION__ >= 202311L)
#define MARKS_CHECKED [[nodiscard]]
#elif defined(__GNUC__)
#define MARKS_CHECKED __attribute__((warn_unused_result))
#else
#define MARKS_CHECKED
#endif

#ifdef __cplusplus
extern "C" {
#endif

/* The table of the word's index, in the first MARKS_TABLES(m) entries of tables; docs/TABLE.md has the use of each. The answer is m.
 * Refusals: 1, 2, 3. They change nothing. */
MARKS_CHECKED uint32_t marks_build(const uint8_t *word, size_t word_len, uint16_t *tables, size_t tables_len, uint64_t *m);

/* The file of the word in edition 1, at the start of out; tables are left as by marks_build. The answer is the file's length. docs/FILE.md has its layout.
 * Refusals: 1, 2, 17, 3, 12. 12 leaves the first MARKS_TABLES(m) entries of tables zero, and out as it was; the others change nothing. */
MARKS_CHECKED uint32_t marks_save(const uint8_t *word, size_t word_len, uint16_t *tables, size_t tables_len, uint8_t *out, size_t out_len,
                                  uint64_t *length);

/* The same in edition 2: two bytes more, and another first byte. A library from before edition 2 refuses it with 7.
 * Refusals: 1, 2, 17, 3, 12, as marks_save. */
MARKS_CHECKED uint32_t marks_save_checked(const uint8_t *word, size_t word_len, uint16_t *tables, size_t tables_len, uint8_t *out, size_t out_len,
                                          uint64_t *length);

/* The file's word in the first m bytes of room, and its table, as marks_build makes it, in the first MARKS_TABLES(m) entries of tables. The answer is m.
 * Refusals, field by field: the edition (5 or 6, then 7), m (5 or 6, then 8), the letters (5), the rooms (3), the number of arrows (5 or 6, then 9), each
 * arrow (5 or 6, then 10), missing arrows (10), in edition 2 the check (5, then 13), bytes behind (11). Those up to 3 in this order leave room and tables as
 * they were; the others leave the first m bytes of room and the first MARKS_TABLES(m) entries of tables zero.
 * 5 to 11 and 13 also write to offset where in the file they show, counted from 0: the first byte of the faulty field, where an arrow's two numbers are one
 * field, and so are the check's two bytes; for 5 the file's length; for 6 the byte that is refused; for missing arrows the first byte behind those that are
 * there; for 11 the first byte too many. Nothing else writes it: 3 shows nowhere in a file. docs/FILE.md has an example of each. */
MARKS_CHECKED uint32_t marks_load(const uint8_t *file, size_t file_len, uint8_t *room, size_t room_len, uint16_t *tables, size_t tables_len,
                                  uint64_t *m, uint64_t *offset);

/* Every place where the word stands in the text, overlaps included. finds gets the first of them, rising, as many as fit; the first MARKS_TABLES(m)
 * entries of tables get the table of the word's mirror. The answers are how many places there are, fitting or not, and how many letters were read.
 * Refusals: 1, 2, 4, 3. They change nothing. */
MARKS_CHECKED uint32_t marks_search(const uint8_t *word, size_t word_len, const uint8_t *text, size_t text_len, uint16_t *tables, size_t tables_len,
                                    uint32_t *finds, size_t finds_len, uint64_t *count, uint64_t *letters);

/* The same, but that at most two letters are read for each letter of the text, whatever the word and the text. Only the answer letters differs.
 * Refusals: 1, 2, 4, 3. They change nothing. */
MARKS_CHECKED uint32_t marks_turbo(const uint8_t *word, size_t word_len, const uint8_t *text, size_t text_len, uint16_t *tables, size_t tables_len,
                                   uint32_t *finds, size_t finds_len, uint64_t *count, uint64_t *letters);

/* As marks_search, for the mirror of the file's word: to look for a mark with a file, save the mark's letters from last to first. room and tables are left
 * as by marks_load.
 * Refusals: 4, which changes nothing, then as marks_load, with what they leave there and what they write to offset; finds are as they were. */
MARKS_CHECKED uint32_t marks_search_file(const uint8_t *file, size_t file_len, const uint8_t *text, size_t text_len, uint8_t *room, size_t room_len,
                                         uint16_t *tables, size_t tables_len, uint32_t *finds, size_t finds_len, uint64_t *count, uint64_t *letters,
                                         uint64_t *offset);

/* The table of the word's failure oracle, in the first MARKS_FAILURE_TABLES(m) entries of tables; docs/TABLE.md has the use of each. The answer is m. In this
 * automaton a state may have one failure arrow, taken only where no arrow on the letter leaves it, and consuming none; it has m to 2m-1 arrows in all. To
 * make it, up to m*m/2 letters are walked of a word that repeats itself, 8.4 million of one of 4,096.
 * Refusals: 1, 2, 3 (fewer than MARKS_FAILURE_TABLES(m) entries). They change nothing. */
MARKS_CHECKED uint32_t marks_failure_build(const uint8_t *word, size_t word_len, uint16_t *tables, size_t tables_len, uint64_t *m);

/* As marks_search, with the failure oracle: the same places and the same list. The first MARKS_FAILURE_TABLES(m) entries of tables get the table of the
 * failure oracle of the word's mirror. The answers are how many places there are, how many letters were read, at most m(n-m+1) for a text of n, and how many
 * failure arrows were taken, which are counted apart, at most m for each letter read. It makes its table anew in each call, as marks_failure_build does, and
 * may read m letters for each place of a hostile text: it is there for its fewer arrows and for comparing.
 * Refusals: 1, 2, 4, 3 (fewer than MARKS_FAILURE_TABLES(m) entries). They change nothing. */
MARKS_CHECKED uint32_t marks_failure_search(const uint8_t *word, size_t word_len, const uint8_t *text, size_t text_len, uint16_t *tables, size_t tables_len,
                                            uint32_t *finds, size_t finds_len, uint64_t *count, uint64_t *letters, uint64_t *failures);

/* The table of the word's storacle, in the first MARKS_STORACLE_TABLES(m) entries of tables; docs/TABLE.md has the use of each. The answer is m. Each arrow of
 * this automaton leads to the first later state that has its letter; every factor of the word is walked in it, and no other word as long as the word. It has
 * m to m(m+1)/2 arrows, seldom fewer than the oracle has: it is there for comparing, and for words of up to MARKS_LONGEST_STORACLE letters.
 * Refusals: 1, 2 (more than MARKS_LONGEST_STORACLE bytes), 3 (fewer than MARKS_STORACLE_TABLES(m) entries). They change nothing. */
MARKS_CHECKED uint32_t marks_storacle_build(const uint8_t *word, size_t word_len, uint16_t *tables, size_t tables_len, uint64_t *m);

/* The word's index as compact rows, a second form of what marks_build makes, with the same arrows. The first MARKS_COMPACT_SETS(m) elements of sets have for
 * each state a set of 256 bits, the letters on which an arrow leaves it: bit d of sets[4x+k] is 1 exactly if one on the letter 64k+d leaves state x. The first
 * MARKS_COMPACT_TARGETS(m) elements of targets have where the arrows lead, in one row that begins at 8(m+1): the one from state x on a letter of its set leads
 * to targets[8(m+1) + targets[4(m+1)+4x] + b], where b letters of that set are below it. docs/TABLE.md has the use of each element. The answer is m.
 * Refusals: 1, 2, 3 (sets below MARKS_COMPACT_SETS(m) or targets below MARKS_COMPACT_TARGETS(m)). They change nothing. */
MARKS_CHECKED uint32_t marks_compact_build(const uint8_t *word, size_t word_len, uint64_t *sets, size_t sets_len, uint16_t *targets, size_t targets_len,
                                           uint64_t *m);

/* As marks_search, with compact rows: the same places, the same list and the same answers. The first MARKS_COMPACT_SETS(m) elements of sets and the first
 * MARKS_COMPACT_TARGETS(m) of targets get the compact rows of the word's mirror.
 * Refusals: 1, 2, 4, 3 (sets below MARKS_COMPACT_SETS(m) or targets below MARKS_COMPACT_TARGETS(m)). They change nothing. */
MARKS_CHECKED uint32_t marks_compact_search(const uint8_t *word, size_t word_len, const uint8_t *text, size_t text_len, uint64_t *sets, size_t sets_len,
                                            uint16_t *targets, size_t targets_len, uint32_t *finds, size_t finds_len, uint64_t *count,
                                            uint64_t *letters);

/* The rides in a text by their FIT headers, also where files were cut or stand one behind the other. A header is 12 or 14 bytes: its first byte is that
 * size, bytes 4 to 7 say how many bytes of data follow it, low byte first, and bytes 8 to 11 are `.FIT`; behind the data is a check of two bytes. Each
 * header that is wholly inside the text is listed: starts gets where it begins, kinds whether header, data and check end within the text,
 * MARKS_RIDE_WHOLE, or not, MARKS_RIDE_CUT. Both lists get the first of them, rising, as many as fit the shorter one. What a header declares decides its
 * kind and nothing else, and the check's value is not tested: a stranger may have written both. The first MARKS_RIDE_TABLES entries of tables are left as
 * by marks_search for `.FIT`. The answer is how many headers are listed, fitting or not.
 * Refusals: 4, 3 (fewer than MARKS_RIDE_TABLES entries). They change nothing. */
MARKS_CHECKED uint32_t marks_salvage(const uint8_t *text, size_t text_len, uint16_t *tables, size_t tables_len, uint32_t *starts, size_t starts_len,
                                     uint8_t *kinds, size_t kinds_len, uint64_t *count);

/* Opens a stream: a searcher for a word of 1 to 64 bytes that has taken nothing, in the first MARKS_SEARCHER bytes of searcher.
 * Refusals: 1, 2 (longer than 64), 3 (fewer bytes lent). They change nothing. */
MARKS_CHECKED uint32_t marks_open(const uint8_t *word, size_t word_len, uint8_t *searcher, size_t searcher_len);

/* Takes the next piece of the stream, empty ones too: the first MARKS_SEARCHER bytes of searcher become the searcher after the piece. finds gets the starts
 * of the finds that end in this piece, counted from the stream's first byte, rising, the first of them, as many as fit. The answer is how many end in it,
 * fitting or not; a piece of k bytes has k at most. However a text is cut, the finds of its pieces together are those of the whole.
 * The bytes of a searcher hold everything, and may be copied, kept and sent anywhere; docs/FILE.md has their layout.
 * Refusals: 16 (also where fewer bytes are lent), then 4 where more than 16,777,216 bytes would be taken in all. They change nothing. */
MARKS_CHECKED uint32_t marks_take(uint8_t *searcher, size_t searcher_len, const uint8_t *piece, size_t piece_len, uint32_t *finds, size_t finds_len,
                                  uint64_t *count);

#ifdef __cplusplus
}
#endif

#endif
