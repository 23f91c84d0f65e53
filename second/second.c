/* The second implementation: what an oracle is by the suffix rule, a supply by 001's definition, an occurrence by comparing bytes at
   each place, a border by comparing the word's beginning with its end, the letters read by going through the published steps, what a
   stream, or a text read so far, ends with by comparing the word's beginnings, the longest first; a failure oracle is the list of the
   arrows that its rule adds, in their order, and so is a storacle; compact rows are written letter by letter from the oracle's arrows, and
   searched with by counting ones; a file's check goes through its bits; a ride is looked for at every place of the text. Nothing here is
   clever, so that it can be held against the scope document and the requests line by line.

   Compiled with -DSLIP=n it has one mistake on purpose, to show that the comparison finds it (tools/second-opinion --slips). The mistakes:
     slip 1: the letters of a file are asked for after the rooms (5 and 3 exchanged)
     slip 2: 83 00 is read as 3
     slip 3: the supply of the last state is one too small
     slip 4: the last place of the text is not looked at
     slip 5: a refusal behind 3 leaves the tables as they were
     slip 6: the failing letter is not counted
     slip 7: the window moves past f+1
     slip 8: search judges 3 before 4
     slip 9: an arrow is judged before its second number is read
     slip 10: bytes behind the last arrow are let through
     slip 11: a word one letter too long is taken by build
     slip 12: a fifth byte of 16 is read
     slip 13: missing arrows are let through
     slip 14: a refusal behind 3 leaves the word room as it was
     slip 15: a text one byte too long is taken
     slip 16: the count stops at the end of the list
     slip 17: search leaves the tables of the word and not of its mirror
     slip 18: the new arrow points at the nearest state with the letter
     slip 19: saving writes a byte behind the file
     slip 20: an entry behind the tables is cleared
     slip 21: loading writes to the file
     slip 22: 12 touches the output
     slip 23: a refusal writes an answer
     slip 24: a find is listed behind the list's end
     slip 25: leftovers (11) are judged before missing arrows (10)
     slip 26: the longest word that may be declared is refused
     slip 27: the edition is not judged
     slip 28: searching with a file looks for the file's word and not for its mirror
     slip 29: a short text is answered before the tables are filled
     slip 30: one arrow of the table is lost when it ends in the last state
     slip 35: the window moves one place after a find
     slip 36: the window moves by m after a find
     slip 37: the window moves by the longest border after a find, one place where that is empty
     slip 38: the border is of the word without its last letter
     slip 39: the shortest border that is not empty is taken for the longest
     slip 40: a border is at most half of the word
     slip 41: a stream is opened for a word of 65 letters
     slip 42: opening judges 3 before 2
     slip 43: opening leaves what stood behind the word's letters
     slip 44: taking forgets what hung over from the pieces before
     slip 45: all of the word is kept after a find, which is counted once more at the cut
     slip 46: starts are counted from the piece
     slip 47: taking judges 4 before 16
     slip 48: a searcher that keeps all of its word is taken
     slip 49: a border that is not the word's own is taken
     slip 50: a letter behind the word is taken
     slip 51: a border behind those of the word is taken
     slip 52: a searcher that keeps more letters than were taken is taken
     slip 53: a searcher of 65 letters is taken
     slip 54: a searcher that took one byte too many is refused with 4
     slip 55: nothing is kept after a find
     slip 56: what is kept is looked for in the piece alone
     slip 57: a stream of exactly as many bytes as may be is refused
     slip 58: a byte behind the searcher is written
     slip 59: taking clears the list where it refuses
     slip 60: a piece's finds are counted as far as they fit
     slip 61: 4 forgets what is kept
     slip 62: an empty piece forgets what is kept
     slip 63: the bytes taken are written in three bytes
     slip 64: a searcher is refused where more bytes are lent than it needs
     slip 65: the shortest beginning that is not empty is kept, not the longest
     slip 66: a find that ends with the piece's last byte is not counted
     slip 71: an arrow whose second number alone differs shows at that number
     slip 72: 8 shows behind the declared length
     slip 73: 9 shows behind the count
     slip 74: 6 shows at the first byte of its number
     slip 75: 5 shows at the file's last byte
     slip 76: a number that is cut shows at its first byte
     slip 77: missing letters show at the first letter
     slip 78: missing arrows show at the count
     slip 79: leftovers show at the file's end
     slip 80: 3 writes an offset of 0
     slip 81: success writes an offset of 0
     slip 82: a search with a file writes no offset
     slip 83: 4 writes an offset of 0
     slip 86: turbo reads backward to the window's start, below c
     slip 87: turbo forgets h after a find
     slip 88: turbo does not count what it reads forward
     slip 89: turbo moves c past f+1
     slip 90: turbo keeps h where an arrow is missing
     slip 91: turbo goes on forward while 2h is above m
     slip 92: turbo goes on forward while h is at least m/2, rounded down
     slip 93: turbo goes on forward only while the window at hand ends inside the text
     slip 94: turbo looks at the next window's end before it reads forward
     slip 95: turbo goes on forward past the text
     slip 96: turbo never goes on past the window's end
     slip 97: turbo reads nothing forward where an arrow is missing
     slip 98: turbo leaves c where it is when an arrow is missing
     slip 99: turbo lets h be all of the word after a find
     slip 100: turbo's h after a find is the longest border's own longest border
     slip 101: turbo starts its window at c
     slip 102: turbo does not count the letter without an arrow
     slip 103: turbo does not look at a window that ends with the text
     slip 104: turbo lists no find that ends past its window
     slip 105: turbo reads with the arrows of the word and not of its mirror
     slip 106: turbo leaves the tables of the word and not of its mirror
     slip 107: turbo answers a short text before the tables are filled
     slip 108: turbo judges 3 before 4
     slip 109: turbo judges 4 before 2
     slip 110: turbo takes a text one byte too long
     slip 111: turbo counts finds as far as they fit
     slip 112: turbo lists a find behind the list's end
     slip 113: turbo answers beside 4
     slip 114: turbo takes one beginning too short, where h is looked for
     slip 115: turbo falls to one border only, where h is carried
     slip 121: saving takes one letter
     slip 122: saving judges 3 before 17
     slip 123: saving judges 17 last, after 12
     slip 124: saving refuses one letter with 8
     slip 125: saving refuses the empty word with 17
     slip 126: saving refuses two letters with 17
     slip 127: 17 clears the tables
     slip 128: 17 touches the output
     slip 129: build refuses one letter with 17
     slip 130: search refuses one letter with 17
     slip 131: turbo refuses one letter with 17
     slip 132: opening refuses one letter with 17
     slip 133: a file of one letter is loaded
     slip 134: searching with a file takes one letter
     slip 135: a file of two letters is refused with 8
     slip 136: a declared length of 1 is judged after the letters
     slip 137: a declared length of 1 is judged after the rooms
     slip 138: a declared length of 1 clears the word room
     slip 139: searching with a file judges a declared length of 1 before the text
     slip 145: in a text that is just long the search reads one letter fewer for a word of 2 to 16
     slip 146: in a long text the search does not look at the last place for a word of 33 to 1,024
     slip 147: in a text that is longer by one than just long turbo reads one letter more for a word of 8 to 16
     slip 148: in a long text, behind 16 windows in a row that fail at their first letter, one letter is not counted for a word of 33 or more
     slip 149: the failure oracle is built with failure arrows taken although a symbol arrow fits
     slip 150: the failure search takes a failure arrow although a symbol arrow fits
     slip 151: the failure oracle is built by walks along symbol arrows alone
     slip 152: where a failure arrow would not climb, no arrow is added
     slip 153: where a failure arrow would not climb, the symbol arrow leads to k
     slip 154: where a failure arrow would not climb, the symbol arrow leads from j
     slip 155: where a failure arrow would not climb, it is added all the same, unless that would close a circle
     slip 156: the failure arrow leads from j, not from the end of its failure path
     slip 157: the failure path from j is followed by one arrow only
     slip 158: the failure arrow leads to k+1
     slip 159: the walk of the last letter is left out
     slip 160: a new slot goes behind the others of its state
     slip 161: slots count from 0
     slip 162: rows 5 to 9 keep what stood there
     slip 163: building a failure oracle judges 3 at 6(m+1)
     slip 164: building a failure oracle clears an entry behind its table
     slip 165: building a failure oracle judges 3 before 2
     slip 166: the failure search takes m letters as a find
     slip 167: the failure search counts failure arrows as letters
     slip 168: the failure search does not count the failure arrows taken on a letter that finally fails
     slip 169: the failure search does not count the letter that fails
     slip 170: the failure search moves one place after a find
     slip 171: the failure search moves as after a find where m letters are none
     slip 172: the failure search moves past f+1
     slip 173: the failure search walks the oracle of the word and not of its mirror
     slip 174: the failure search leaves the table of the word and not of its mirror
     slip 175: the failure search answers a short text before its table is filled
     slip 176: the failure search judges 3 at 6(m+1)
     slip 177: the failure search judges 3 before 4
     slip 178: the failure search takes a text one byte too long
     slip 179: the failure search counts finds as far as they fit
     slip 180: the failure search answers beside 4
     slip 181: the failure search exchanges its two counts
     slip 191: the check stands high byte first
     slip 192: the edition is left out of the check
     slip 193: the last byte before the check is left out of it
     slip 194: the check starts with FFFF
     slip 195: the check's polynomial is taken as it is and not reflected
     slip 196: the check covers 4,096 bytes at most
     slip 197: the check is that of the file of edition 1
     slip 198: saving with a check writes edition 1
     slip 199: saving without a check writes one
     slip 200: saving with a check judges 12 by the file of edition 1
     slip 201: saving with a check refuses output that is just enough
     slip 202: saving with a check answers the length without it
     slip 203: saving with a check writes a byte behind it
     slip 204: saving with a check judges 3 before 17
     slip 205: saving with a check leaves the tables as they were where it refuses with 12
     slip 206: saving with a check touches the output where it refuses with 12
     slip 207: edition 2 is refused with 7
     slip 208: searching with a file refuses edition 2 with 7
     slip 209: edition 3 is read as edition 2
     slip 210: edition 0 is read as edition 1
     slip 211: a file of edition 1 with its check behind it is taken
     slip 212: a file of edition 2 without its check is taken
     slip 213: the check is not judged
     slip 214: a check of which one byte is left is refused with 13
     slip 215: a check that is cut shows at its first byte
     slip 216: the check is judged before missing arrows (10)
     slip 217: a check that is cut is judged before missing arrows (10)
     slip 218: leftovers (11) are judged before the check
     slip 219: bytes behind the check are let through
     slip 220: leftovers behind the check show at the check
     slip 221: 13 shows one byte late
     slip 222: 13 writes no offset
     slip 223: the check is looked for at the file's end
     slip 224: of the check only the low byte is compared
     slip 225: of the check only the high byte is compared
     slip 226: a check of zeros is taken, whatever the bytes are
     slip 227: 13 leaves the rooms as they were
     slip 228: 13 leaves the file's word in the word room
     slip 229: the file's last two bytes are judged as the check before the rooms
     slip 230: the file's last two bytes are judged as the check before the arrows
     slip 240: the size of a header is not judged
     slip 241: a header of 13 bytes is listed
     slip 242: a header of 15 bytes is listed
     slip 243: a header of 11 bytes is listed
     slip 244: a header of 12 bytes is not listed
     slip 245: a header of 14 bytes is not listed
     slip 246: of a header's size only the low four bits are looked at
     slip 247: a header's size is looked for one byte late
     slip 248: for .FIT below 8 a header's size is looked for before the text
     slip 249: .FIT below 8 is taken for that of a header at the text's start
     slip 250: .FIT at 8 is taken for one below 8
     slip 251: of .FIT the point is not compared
     slip 252: of .FIT the last letter is not compared
     slip 253: .fit is taken for .FIT
     slip 254: a header whose second byte is zero is not listed
     slip 255: a header of 14 bytes with a wrong check of its own is not listed
     slip 256: a header that says there is no data is not listed
     slip 257: a header that declares more data than a text may have is not listed
     slip 258: a header of 14 bytes that ends behind the text is listed as cut
     slip 259: a header that ends with the text is not listed
     slip 260: a header of 12 bytes is not listed where fewer than 14 are inside the text
     slip 261: a header of 14 bytes is listed where 13 are inside the text
     slip 262: where a ride ends is counted in 32 bits
     slip 263: data and check of a ride are added in 32 bits
     slip 264: the data size is read as a signed number
     slip 265: the data size is read high byte first
     slip 266: of the data size three bytes are read
     slip 267: of the data size two bytes are read
     slip 268: the data size is read one byte late
     slip 269: a ride that ends with the text is cut
     slip 270: a ride of which one byte is missing is whole
     slip 271: a ride ends before its check
     slip 272: where a ride ends its header is left out
     slip 273: where a ride ends its header counts 12 bytes, whatever it says
     slip 274: where a ride ends its header counts 14 bytes, whatever it says
     slip 275: where a ride ends its start is left out
     slip 276: a ride is whole only where it ends with the text
     slip 277: a ride is whole only where its check is right
     slip 278: a ride without data is cut
     slip 279: a ride with another header in its data is cut
     slip 280: whole and cut are exchanged
     slip 281: a ride with a header of 12 bytes is cut
     slip 282: headers inside the data of a whole ride are not listed
     slip 283: headers that begin inside another header are not listed
     slip 284: nothing is listed behind a cut ride
     slip 285: starts are the places of .FIT
     slip 286: cut rides are not listed
     slip 287: behind .FIT twelve bytes are passed over
     slip 288: kinds are filled where there is no room for the starts
     slip 289: starts are filled where there is no room for the kinds
     slip 290: the last entry of a full list of rides is written over
     slip 291: the last rides are listed and not the first
     slip 292: rides are counted as far as they fit
     slip 293: every .FIT is counted
     slip 294: the entry behind the last start is cleared
     slip 295: the entry behind the last kind is cleared
     slip 296: a start is listed behind the end of the shorter list
     slip 297: a kind is listed behind the end of the shorter list
     slip 298: lists that are too short for the rides are refused with 3
     slip 299: the length of the starts is taken in 32 bits
     slip 300: the length of the kinds is taken in 32 bits
     slip 301: salvaging judges 3 before 4
     slip 302: salvaging takes a text one byte too long
     slip 303: salvaging refuses a text of just as many bytes as may be
     slip 304: salvaging judges 3 at 24 table entries
     slip 305: salvaging refuses 30 table entries
     slip 306: salvaging clears the tables where it refuses with 3
     slip 307: salvaging clears the starts where it refuses with 3
     slip 308: salvaging clears the kinds where it refuses with 4
     slip 309: salvaging answers beside 3
     slip 310: salvaging answers beside 4
     slip 311: salvaging takes the text's length in 32 bits
     slip 312: salvaging takes the tables' length in 32 bits
     slip 313: salvaging takes the tables' length in 16 bits
     slip 314: salvaging leaves the tables as they were
     slip 315: salvaging leaves the tables of .FIT and not of its mirror
     slip 316: salvaging clears an entry behind its tables
     slip 317: salvaging answers a text shorter than a header before the tables are filled
     slip 318: salvaging leaves the tables as they were where there is no ride
     slip 319: salvaging leaves the tables as they were where a list has no entry
     slip 320: salvaging leaves what stood in the tables' last two rows
     slip 321: .FIT across a multiple of 4,096 is lost
     slip 322: a header across a multiple of 8,192 is lost
     slip 323: .FIT whose last byte is at a multiple of 16,384 is lost
     slip 324: a header whose first byte is just before a multiple of 32,768 is lost
     slip 325: .FIT across a multiple of 65,536 is lost
     slip 326: a header across a multiple of 1,000 is lost
     slip 327: a header across a multiple of 4,093 is lost
     slip 328: a header across the place 37,777 is lost
     slip 329: .FIT at a multiple of 4,096 is listed twice
     slip 330: .FIT that ends before a multiple of 8,192 is listed twice
     slip 331: a header in the last 14 bytes before a multiple of 16,384 is listed twice
     slip 332: .FIT across a multiple of 65,536 is listed twice
     slip 333: a data size across a multiple of 4,096 is read up to there
     slip 334: a ride is judged by the next multiple of 32,768 and not by the text's end
     slip 335: a ride whose header is across a multiple of 2,048 is cut
     slip 336: starts are counted in 16 bits
     slip 337: starts are counted from the multiple of 16,384 before them
     slip 338: less than 12 bytes behind the last multiple of 4,096 are not looked at
     slip 339: the last header of a text of a multiple of 8,192 bytes is lost
     slip 340: nothing is listed from 65,536 on
     slip 341: a header across a multiple of 1,048,576 is lost
     slip 342: the last header of the longest text is lost
     slip 343: of every 4,096 bytes 256 .FIT are looked at
     slip 344: of every 4,096 bytes 1,022 .FIT are looked at
     slip 345: the only .FIT of a text is lost where it is across a multiple of 4,096
     slip 346: at most 255 rides are counted
     slip 347: rides are counted in 16 bits
     slip 359: where a target is looked for in compact rows, the letter itself is counted among the ones below it
     slip 360: where a target is looked for in compact rows, the ones of the state's lower words are not counted
     slip 361: in compact rows the four words of a state stand the other way round
     slip 362: in compact rows the sets leave out the spine
     slip 363: in compact rows the targets of a state rise, whatever their letters
     slip 364: in compact rows the ones are counted anew for each state
     slip 365: in compact rows a word's own ones are counted among those before it
     slip 366: in compact rows the last bit of each word stays zero
     slip 367: compact rows judge 3 by the targets alone
     slip 368: compact rows judge 3 by the sets alone
     slip 369: the search with compact rows judges 3 before 4
     slip 370: building compact rows judges 3 before 2
     slip 371: the search with compact rows leaves those of the word and not of its mirror
     slip 372: the search with compact rows walks along those of the word and not of its mirror
     slip 373: compact rows clear a word behind the sets
     slip 374: compact rows clear an entry behind the targets
     slip 375: compact rows leave out the supplies
     slip 376: compact rows keep what stood in rows 2 and 3
     slip 377: compact rows keep what stood behind the last target
     slip 378: compact rows clear the sets where only the targets have too little room
     slip 379: the search with compact rows answers a short text before the rooms are filled
     slip 380: the search with compact rows takes a text one byte too long
     slip 381: compact rows take the length of the sets in 32 bits
     slip 382: compact rows take the length of the targets in 16 bits
     slip 383: in a long text the search with compact rows does not count a letter of a short window behind a deep one
     slip 384: in a long text the search with compact rows reads a letter more for a word with one state too many for 1,024 entries
     slip 396: an arrow of a storacle leads to the last later state with its letter
     slip 397: a storacle gets one arrow for each suffix, and the suffix is not walked again
     slip 398: an arrow of a storacle leads to k+1, as the oracle's does
     slip 399: an arrow of a storacle leads to the first state with its letter from j on, where j counts
     slip 400: an arrow of a storacle leads to the first state with its letter from 0 on
     slip 401: of a storacle the longest suffix is not walked
     slip 402: of a storacle the shortest suffix is not walked
     slip 403: a storacle has at most 3m arrows
     slip 404: a storacle's table leaves out the spine
     slip 405: in a storacle's table the column of a letter is the last state that has it
     slip 406: in a storacle's table an arrow stands at every state with its letter
     slip 407: in a storacle's table the last row keeps what stood there
     slip 408: in a storacle's table the row of the last state keeps what stood there
     slip 409: in a storacle's table the first entry of each row keeps what stood there
     slip 410: a storacle of 129 letters is built
     slip 411: a storacle of 128 letters is refused with 2
     slip 412: building a storacle judges 3 before 2
     slip 413: building a storacle takes a room of one entry too few
     slip 414: building a storacle refuses a room that is just enough
     slip 415: building a storacle judges 3 at 10(m+1)
     slip 416: building a storacle takes the length of the tables in 16 bits
     slip 417: building a storacle takes the length of the tables in 32 bits
     slip 418: building a storacle takes the length of the word in 8 bits
     slip 419: building a storacle answers beside 2
     slip 420: building a storacle answers beside 3
     slip 421: building a storacle clears the tables where it refuses with 3
     slip 422: building a storacle clears an entry behind its table
   slip 31, slip 32, slip 67, slip 68, slip 69, slip 84, slip 85, slip 116 to slip 120, slip 140 to slip 144, slip 182 to slip 190,
   slip 231 to slip 239, slip 348 to slip 357, slip 385 to slip 394 and slip 423 to slip 434 stand in compare.c, slip 33, slip 34, slip 70,
   slip 358 and slip 395 in fuzz.c. */
#include "second.h"

#include <stdbool.h>
#include <string.h>

#ifndef SLIP
#define SLIP 0
#endif

enum { STATES = MOST_LETTERS + 1 + (SLIP == 11), LONGEST_TEXT = MOST_TEXT + (SLIP == 15) };

/* ---- the oracle at hand: one at a time ---- */

/* its word: the arrow of the spine from i to i+1 carries spine[i] */
static uint8_t spine[STATES];
static size_t spine_len;

/* where the extra arrow of a state on a letter leads; 0 for none, as no arrow leads to 0 */
static uint16_t leads[STATES][256];

/* supply[i] for i from 1 to m */
static uint16_t supply[STATES];

/* the extra arrows in the file's order: by rising source, then rising target */
static struct {
    uint16_t source, target;
} extra[STATES];
static size_t extras;

/* where the arrow of a state on a letter leads, the spine's or an extra one; 0 for none */
static unsigned arrow(unsigned state, uint8_t letter)
{
    return state < spine_len && spine[state] == letter ? state + 1 : leads[state][letter];
}

/* walks the letters p[from] .. p[to-1] from state 0 as far as arrows go; says where it ends, *stop is the place of the first letter not
   spelled */
static unsigned walk(const uint8_t *p, size_t from, size_t to, size_t *stop)
{
    unsigned state = 0, next;
    size_t at = from;
    while (at < to && (next = arrow(state, p[at])) != 0) {
        state = next;
        at++;
    }
    *stop = at;
    return state;
}

/* adds an extra arrow, which carries its target's letter, and lists it at its place */
static void add_arrow(unsigned source, size_t target)
{
    size_t at = extras++;
    leads[source][spine[target - 1]] = (uint16_t)target;
    for (; at > 0 && (extra[at - 1].source > source || (extra[at - 1].source == source && extra[at - 1].target > target)); at--)
        extra[at] = extra[at - 1];
    extra[at].source = (uint16_t)source;
    extra[at].target = (uint16_t)target;
}

/* the suffix rule: the spine, then a walk of every suffix, from the second letter's to the last's */
static void make_arrows(const uint8_t *p, size_t m)
{
    memcpy(spine, p, m);
    spine_len = m;
    memset(leads, 0, (m + 1) * sizeof leads[0]);
    extras = 0;
    for (size_t i = 1; i < m; i++) {
        size_t k;
        unsigned j = walk(p, i, m, &k);
        if (k == m)
            continue;
        size_t target = k + 1;
#if SLIP == 18
        for (size_t near = j; near < k; near++)
            if (p[near] == p[k]) {
                target = near + 1;
                break;
            }
#endif
        add_arrow(j, target);
    }
}

/* common[e] is the length of the longest common end of p1..pe and p1..pi, so the longest end of p1..pi that stands there twice is as
   long as the greatest of them for e below i; the supply is where it is walked to */
static void find_supplies(const uint8_t *p, size_t m)
{
    static uint16_t common[STATES];
    memset(common, 0, sizeof common);
    for (size_t i = 1; i <= m; i++) {
        size_t longest = 0, end;
        for (size_t e = i - 1; e >= 1; e--) {
            common[e] = p[e - 1] == p[i - 1] ? (uint16_t)(common[e - 1] + 1) : 0;
            if (common[e] > longest)
                longest = common[e];
        }
        supply[i] = (uint16_t)walk(p, i - longest, i, &end);
    }
    if (SLIP == 3 && supply[m] > 0)
        supply[m]--;
}

/* it depends on the word alone, so the one at hand is kept where it is of this word already */
static void make_oracle(const uint8_t *p, size_t m)
{
    if (m == spine_len && memcmp(p, spine, m) == 0)
        return;
    make_arrows(p, m);
    find_supplies(p, m);
}

/* ---- the tables, as docs/TABLE.md lays them out ---- */

static size_t entries(size_t m)
{
    return 6 * (m + 1);
}

static void clear(void *at, size_t bytes)
{
    if (bytes > 0)
        memset(at, 0, bytes);
}

static void write_tables(const uint8_t *p, size_t m, uint16_t *tables)
{
    size_t n = m + 1, e = 0;
    clear(tables, entries(m) * sizeof *tables);
    for (size_t i = 1; i <= m; i++) {
        tables[i] = p[i - 1];
        tables[n + i] = supply[i];
    }
    for (size_t k = 0; k <= m; k++) {
        tables[2 * n + k] = (uint16_t)e;
        while (e < extras && extra[e].source == k) {
            tables[3 * n + e] = SLIP == 30 && extra[e].target == m ? 0 : extra[e].target;
            e++;
        }
    }
}

/* ---- compact rows: the same oracle in sets of letters, and all its targets in one row ---- */

struct rows {
    uint64_t *sets;
    uint16_t *targets;
    size_t n; /* states */
};

static size_t words_of_sets(size_t m)
{
    return 4 * (m + 1);
}

static size_t entries_of_targets(size_t m)
{
    return 10 * (m + 1);
}

/* each step takes the lowest of them away */
static size_t ones_in(uint64_t bits)
{
    size_t ones = 0;
    for (; bits != 0; bits &= bits - 1)
        ones++;
    return ones;
}

/* Row 0 has the letters, row 1 the supplies, and what is not written afterwards is zero. */
static void write_front_rows(const uint8_t *p, const struct rows *r)
{
    for (size_t i = 0; i < 10 * r->n; i++)
        if (!(SLIP == 376 && i / r->n >= 2 && i / r->n <= 3) && !(SLIP == 377 && i / r->n >= 8))
            r->targets[i] = 0;
    for (size_t i = 1; i < r->n; i++) {
        r->targets[i] = p[i - 1];
        r->targets[r->n + i] = SLIP == 375 ? 0 : supply[i];
    }
}

/* puts so many targets in order */
static void slip_rising(uint16_t *targets, size_t many)
{
    for (size_t i = 0; i < many; i++)
        for (size_t k = i; k > 0 && targets[k - 1] > targets[k]; k--) {
            uint16_t lower = targets[k];
            targets[k] = targets[k - 1];
            targets[k - 1] = lower;
        }
}

/* State by state and letter by letter: bit d of word 4x+k of the sets is the arrow from x on 64k+d; its target goes behind those so far, in
   rows 8 and 9. */
static void write_arrows(const struct rows *r)
{
    size_t many = 0;
    for (unsigned x = 0; x < r->n; x++) {
        size_t before = many;
        for (unsigned letter = 0; letter < 256; letter++) {
            unsigned target = arrow(x, (uint8_t)letter), k = SLIP == 361 ? 3 - letter / 64 : letter / 64;
            if (target == 0 || (SLIP == 362 && target == x + 1) || (SLIP == 366 && letter % 64 == 63))
                continue;
            r->sets[4 * x + k] |= UINT64_C(1) << letter % 64;
            r->targets[8 * r->n + many++] = (uint16_t)target;
        }
        if (SLIP == 363)
            slip_rising(r->targets + 8 * r->n + before, many - before);
    }
}

/* rows 4 to 7 have for each word of the sets how many ones the words before it have together */
static void write_counts(const struct rows *r)
{
    size_t ones = 0;
    for (size_t w = 0; w < 4 * r->n; w++) {
        if (SLIP == 364 && w % 4 == 0)
            ones = 0;
        r->targets[4 * r->n + w] = (uint16_t)(ones + (SLIP == 365 ? ones_in(r->sets[w]) : 0));
        ones += ones_in(r->sets[w]);
    }
}

/* the oracle at hand, which is of these letters */
static void write_rows(const uint8_t *p, const struct rows *r)
{
    clear(r->sets, 4 * r->n * sizeof *r->sets);
    write_front_rows(p, r);
    write_arrows(r);
    write_counts(r);
}

/* Where the arrow of a state on a letter leads, 0 for none: its target stands behind those of the ones below it, which are counted up to
   the letter's word already. */
static unsigned rows_arrow(const struct rows *r, unsigned x, uint8_t letter)
{
    size_t word = 4 * x + letter / 64, ones = r->targets[4 * r->n + (SLIP == 360 ? 4 * x : word)];
    uint64_t own = UINT64_C(1) << letter % 64, below = SLIP == 359 ? 2 * own - 1 : own - 1;
    if ((r->sets[word] & own) == 0)
        return 0;
    return r->targets[8 * r->n + ones + ones_in(r->sets[word] & below)];
}

/* ---- the failure oracle at hand: one at a time, besides the other oracle ---- */

/* its word, and of each state where its failure arrow leads and where its symbol arrow on a letter leads, the spine left out; 0 for none, as
   no arrow leads to 0 */
static uint8_t failing[STATES];
static size_t failing_len;
static uint16_t falls[STATES];
static uint16_t besides[STATES][256];

/* the symbol arrows beside the spine in the order in which the rule adds them */
static struct {
    uint16_t source, target;
} added[STATES];
static size_t adds;

/* where the symbol arrow of a state on a letter leads; 0 for none */
static unsigned symbol(unsigned state, uint8_t letter)
{
    return state < failing_len && failing[state] == letter ? state + 1 : besides[state][letter];
}

/* Where a letter leads from a state by both kinds of arrow, 0 where it is stuck; *taken grows by the failure arrows taken to find out. A
   state answers by its symbol arrow, else as the state does that its failure arrow leads to. */
static unsigned reach(unsigned state, uint8_t letter, bool falls_first, uint64_t *taken)
{
    unsigned next = symbol(state, letter);
    if ((next != 0 && !(falls_first && falls[state] != 0)) || falls[state] == 0)
        return next;
    ++*taken;
    return reach(falls[state], letter, falls_first, taken);
}

/* where the failure path of a state ends */
static unsigned end_of_path(unsigned state)
{
    while (falls[state] != 0) {
        state = falls[state];
        if (SLIP == 157)
            break;
    }
    return state;
}

static void add_symbol(unsigned source, size_t target)
{
    besides[source][failing[target - 1]] = (uint16_t)target;
    added[adds].source = (uint16_t)source;
    added[adds].target = (uint16_t)target;
    adds++;
}

/* One step of the rule: the walk of p[from] .. p[m-1], and the arrow that it asks for. k letters of the word come before the one where the
   walk is stuck. */
static void walk_suffix(const uint8_t *p, size_t from, size_t m)
{
    unsigned j = 0, next;
    uint64_t taken = 0;
    size_t k = from;
    for (; k < m; k++, j = next) {
        next = SLIP == 151 ? symbol(j, p[k]) : reach(j, p[k], SLIP == 149, &taken);
        if (next == 0)
            break;
    }
    unsigned last = end_of_path(j), source = SLIP == 156 ? j : last;
    if (k == m)
        return;
    if (k > source)
        falls[source] = (uint16_t)(k + (SLIP == 158));
    else if (SLIP == 155 && end_of_path((unsigned)k) != source)
        falls[source] = (uint16_t)k;
    else if (SLIP != 152)
        add_symbol(SLIP == 154 ? j : source, SLIP == 153 ? k : k + 1);
}

/* it depends on the word alone, so the one at hand is kept where it is of this word already */
static void make_failure_oracle(const uint8_t *p, size_t m)
{
    if (m == failing_len && memcmp(p, failing, m) == 0)
        return;
    memcpy(failing, p, m);
    failing_len = m;
    memset(falls, 0, (m + 1) * sizeof falls[0]);
    memset(besides, 0, (m + 1) * sizeof besides[0]);
    adds = 0;
    for (size_t from = 1; from < m - (SLIP == 159); from++)
        walk_suffix(p, from, m);
}

static size_t failure_entries(size_t m)
{
    return 10 * (m + 1);
}

/* Ten rows of m+1 entries. A state's first slot is its newest, and behind a slot comes the next older one of the same state. */
static void write_failure_table(size_t m, uint16_t *table)
{
    size_t n = m + 1;
    uint16_t *letter = table, *failure = table + n, *first = table + 2 * n, *behind = table + 3 * n, *target = table + 4 * n;
    clear(table, (SLIP == 162 ? 5 * n : failure_entries(m)) * sizeof *table);
    for (size_t i = 1; i <= m; i++)
        letter[i] = failing[i - 1];
    for (size_t x = 0; x <= m; x++)
        failure[x] = falls[x];
    for (size_t a = 0; a < adds; a++) {
        uint16_t slot = (uint16_t)(a + (SLIP != 161));
        size_t older = a;
        while (older > 0 && added[older - 1].source != added[a].source)
            older--;
        target[slot] = added[a].target;
        if (SLIP == 160 && older > 0) {
            behind[older] = slot;
            continue;
        }
        behind[slot] = (uint16_t)older;
        first[added[a].source] = slot;
    }
}

/* ---- the storacle at hand: one at a time, besides the other oracles ---- */

enum { STORACLE_STATES = MOST_STORACLE + 1 + (SLIP == 410) };

/* its arrows in the order in which the rule adds them, those of the spine first; each carries the letter of its target */
static struct {
    uint16_t source, target;
} built[STORACLE_STATES * STORACLE_STATES];
static size_t builds;

static void build_arrow(size_t source, size_t target)
{
    built[builds].source = (uint16_t)source;
    built[builds].target = (uint16_t)target;
    builds++;
}

/* walks the letters p[from] .. p[m-1] from state 0 as far as arrows go; says where it ends, *k is the place of the first one not spelled */
static size_t walk_storacle(const uint8_t *p, size_t from, size_t m, size_t *k)
{
    size_t state = 0;
    for (*k = from; *k < m; ++*k) {
        size_t a = 0;
        while (a < builds && (built[a].source != state || p[built[a].target - 1] != p[*k]))
            a++;
        if (a == builds)
            break;
        state = built[a].target;
    }
    return state;
}

/* the first state later than j whose incoming letter is that one; 0 for none, which only mistakes on purpose meet */
static size_t first_later(const uint8_t *p, size_t m, size_t j, uint8_t letter)
{
    for (size_t l = j + 1; l <= m; l++)
        if (p[l - 1] == letter)
            return l;
    return 0;
}

static size_t last_later(const uint8_t *p, size_t m, size_t j, uint8_t letter)
{
    for (size_t l = m; l > j; l--)
        if (p[l - 1] == letter)
            return l;
    return 0;
}

/* where the arrow leads that is added from j on p[k] */
static size_t target_from(const uint8_t *p, size_t m, size_t j, size_t k)
{
    switch (SLIP) {
    case 396: return last_later(p, m, j, p[k]);
    case 398: return k + 1;
    case 399: return first_later(p, m, j > 0 ? j - 1 : 0, p[k]);
    case 400: return first_later(p, m, 0, p[k]);
    case 403: return builds < 3 * m ? first_later(p, m, j, p[k]) : 0;
    default: return first_later(p, m, j, p[k]);
    }
}

/* the spine, then every suffix from the second letter's to the last's: while it is not walked to its end, an arrow, and the walk again */
static void make_storacle(const uint8_t *p, size_t m)
{
    builds = 0;
    for (size_t i = 0; i < m; i++)
        build_arrow(i, i + 1);
    for (size_t i = 1 + (SLIP == 401); i < m - (SLIP == 402); i++) {
        size_t k, j = walk_storacle(p, i, m, &k), target;
        while (k < m && (target = target_from(p, m, j, k)) != 0) {
            build_arrow(j, target);
            j = walk_storacle(p, i, m, &k);
            if (SLIP == 397)
                break;
        }
    }
}

static size_t storacle_entries(size_t m)
{
    return (m + 1) * (m + 6);
}

/* m+6 rows of m+1 entries: the letters, the columns, a row for each state, and three more */
static void write_storacle_table(const uint8_t *p, size_t m, uint16_t *table)
{
    size_t n = m + 1;
    for (size_t i = 0; i < storacle_entries(m); i++)
        if (!(SLIP == 407 && i / n == m + 5) && !(SLIP == 408 && i / n == 2 + m) && !(SLIP == 409 && i % n == 0))
            table[i] = 0;
    for (size_t i = 1; i <= m; i++) {
        table[i] = p[i - 1];
        table[n + i] = (uint16_t)(SLIP == 405 ? last_later(p, m, 0, p[i - 1]) : first_later(p, m, 0, p[i - 1]));
    }
    for (size_t a = SLIP == 404 ? m : 0; a < builds; a++) {
        uint16_t *row = table + (2 + built[a].source) * n, target = built[a].target;
        row[table[n + target]] = target;
        for (size_t i = 1; i <= m && SLIP == 406; i++)
            if (p[i - 1] == p[target - 1])
                row[i] = target;
    }
}

/* ---- the file ---- */

static size_t spell_number(uint32_t number, uint8_t *out)
{
    size_t groups = 0;
    for (; number >= 128; number /= 128)
        out[groups++] = (uint8_t)(128 + number % 128);
    out[groups++] = (uint8_t)number;
    return groups;
}

/* The check of edition 2, the CRC-16 known as ARC: what is left of the bytes, bit by bit, each byte's lowest first. The reflected
   polynomial takes the lowest bit out. */
static unsigned check_of(const uint8_t *bytes, size_t len)
{
    unsigned left = SLIP == 194 ? 0xFFFF : 0;
    size_t first = SLIP == 192 ? 1 : 0, behind = SLIP == 193 ? len - 1 : SLIP == 196 && len > 4096 ? 4096 : len;
    for (size_t i = first; i < behind; i++) {
        left ^= SLIP == 197 && i == 0 ? 1 : bytes[i];
        for (int bit = 0; bit < 8; bit++)
            left = left % 2 == 1 ? left / 2 ^ (SLIP == 195 ? 0x8005 : 0xA001) : left / 2;
    }
    return left;
}

/* the check of so many bytes of a file as it stands behind them */
static void spell_check(const uint8_t *file, size_t len, uint8_t out[CHECK_BYTES])
{
    unsigned check = check_of(file, len);
    out[SLIP == 191 ? 1 : 0] = (uint8_t)(check % 256);
    out[SLIP == 191 ? 0 : 1] = (uint8_t)(check / 256);
}

/* edition 1 ends with the arrows, edition 2 with a check of all that is before it */
static size_t spell_file(unsigned edition, const uint8_t *p, size_t m, uint8_t *out)
{
    unsigned source = 0;
    size_t at = spell_number(SLIP == 198 ? 1 : edition, out);
    at += spell_number((uint32_t)m, out + at);
    memcpy(out + at, p, m);
    at += m;
    at += spell_number((uint32_t)extras, out + at);
    for (size_t e = 0; e < extras; e++) {
        at += spell_number((uint32_t)(extra[e].source - source), out + at);
        at += spell_number((uint32_t)(extra[e].target - extra[e].source - 2), out + at);
        source = extra[e].source;
    }
    if (edition == 2 || SLIP == 199) {
        spell_check(out, at, out + at);
        at += CHECK_BYTES;
    }
    return at;
}

/* a refusal that shows at a place in the file */
static uint32_t shows(uint32_t number, size_t place, uint64_t *offset)
{
    *offset = place;
    return number;
}

/* Reads a number at *at, which is then behind it: 0, or the refusal 5 or 6, whichever its bytes show first. 5 shows where the file ends,
   6 at the byte that no number has there. */
static uint32_t read_number(const uint8_t *file, size_t file_len, size_t *at, uint32_t *number, uint64_t *offset)
{
    size_t first = *at;
    *number = 0;
    for (unsigned group = 0;; group++) {
        if (*at >= file_len)
            return shows(5, SLIP == 75 && file_len > 0 ? file_len - 1 : SLIP == 76 ? first : file_len, offset);
        uint8_t byte = file[*at];
        bool too_great = group == 4 && byte > (SLIP == 12 ? 16 : 15), too_long = group > 0 && byte == 0 && SLIP != 2;
        if (too_great || too_long)
            return shows(6, SLIP == 74 ? first : *at, offset);
        *number |= (uint32_t)(byte % 128) << (7 * group);
        (*at)++;
        if (byte < 128)
            return 0;
    }
}

/* whether the two bytes at a place are another check than that of the bytes before */
static bool other_check(const uint8_t *file, size_t at)
{
    uint8_t right[CHECK_BYTES];
    spell_check(file, at, right);
    bool low = file[at] != right[0] && SLIP != 225, high = file[at + 1] != right[1] && SLIP != 224;
    if (SLIP == 226 && file[at] == 0 && file[at + 1] == 0)
        return false;
    return (low || high) && SLIP != 213;
}

/* Reads edition, m and letters, and judges the rooms; on 0 *at is behind the letters. Only 3, the rooms' refusal, shows nowhere. */
static uint32_t read_front(const uint8_t *file, size_t file_len, size_t room_len, size_t tables_len, size_t *at, uint32_t *edition,
                           size_t *m, uint64_t *offset)
{
    uint32_t no, number;
    *at = 0;
    if ((no = read_number(file, file_len, at, edition, offset)) != 0)
        return no;
    if ((SLIP == 209 && *edition == 3) || (SLIP == 210 && *edition == 0))
        *edition = *edition == 3 ? 2 : 1;
    if (*edition != 1 && (*edition != 2 || SLIP == 207) && SLIP != 27)
        return shows(7, 0, offset);
    size_t length_at = *at;
    if ((no = read_number(file, file_len, at, &number, offset)) != 0)
        return no;
    bool too_few = number < LEAST_SAVED + (SLIP == 135), judged_later = number == 1 && (SLIP == 133 || SLIP == 136 || SLIP == 137);
    if ((too_few && !judged_later) || number > MOST_LETTERS - (SLIP == 26))
        return shows(8, SLIP == 72 ? *at : length_at, offset);
    *m = number;
    bool short_room = tables_len < entries(*m) || room_len < *m;
    if (SLIP == 1 && short_room)
        return 3;
    if (file_len - *at < *m)
        return shows(5, SLIP == 77 ? *at : file_len, offset);
    if (SLIP == 136 && too_few)
        return shows(8, length_at, offset);
    if (SLIP == 229 && *edition == 2 && file_len - *at - *m > CHECK_BYTES && other_check(file, file_len - CHECK_BYTES))
        return shows(13, file_len - CHECK_BYTES, offset);
    if (short_room)
        return SLIP == 80 ? shows(3, 0, offset) : 3;
    if (SLIP == 137 && too_few)
        return shows(8, length_at, offset);
    *at += *m;
    return 0;
}

/* Reads what stands behind the arrows: in edition 2 the check, in both then nothing. */
static uint32_t read_end(const uint8_t *file, size_t file_len, size_t at, bool checked, uint64_t *offset)
{
    size_t left = file_len - at, check_at = SLIP == 223 && left > CHECK_BYTES ? file_len - CHECK_BYTES : at;
    if (SLIP == 211 && !checked && left == CHECK_BYTES && !other_check(file, at))
        return 0;
    if (checked && !(SLIP == 212 && left == 0)) {
        if (SLIP == 218 && left > CHECK_BYTES)
            return shows(11, at + CHECK_BYTES, offset);
        if (left < CHECK_BYTES)
            return SLIP == 214 && left == 1 ? shows(13, at, offset) : shows(5, SLIP == 215 ? at : file_len, offset);
        if (other_check(file, check_at))
            return SLIP == 222 ? 13 : shows(13, SLIP == 221 ? check_at + 1 : check_at, offset);
        at = check_at + CHECK_BYTES;
    }
    if (at == file_len || SLIP == 10 || (SLIP == 219 && checked))
        return 0;
    return shows(11, SLIP == 79 ? file_len : SLIP == 220 && checked ? check_at : at, offset);
}

/* Reads the count, the arrows and what stands behind them from at on, against the oracle at hand. An arrow is one field, so it shows at its
   first number. */
static uint32_t read_arrows(const uint8_t *file, size_t file_len, size_t at, bool checked, size_t m, uint64_t *offset)
{
    uint32_t no, count, up, over;
    unsigned source = 0;
    size_t count_at = at;
    if (SLIP == 230 && checked && file_len - at > CHECK_BYTES && other_check(file, file_len - CHECK_BYTES))
        return shows(13, file_len - CHECK_BYTES, offset);
    if ((no = read_number(file, file_len, &at, &count, offset)) != 0)
        return no;
    if (count > m - 1)
        return shows(9, SLIP == 73 ? at : count_at, offset);
    for (size_t e = 0; e < count; e++) {
        size_t arrow_at = at;
        if ((no = read_number(file, file_len, &at, &up, offset)) != 0)
            return no;
        bool differs = e >= extras || up != (unsigned)(extra[e].source - source);
        if (SLIP == 9 && differs)
            return shows(10, arrow_at, offset);
        if (SLIP == 71 && !differs)
            arrow_at = at;
        if ((no = read_number(file, file_len, &at, &over, offset)) != 0)
            return no;
        if (differs || over != (unsigned)(extra[e].target - extra[e].source - 2))
            return shows(10, arrow_at, offset);
        source = extra[e].source;
    }
    if (SLIP == 25 && at < file_len && !checked)
        return shows(11, at, offset);
    if (SLIP == 216 && checked && file_len - at >= CHECK_BYTES && other_check(file, at))
        return shows(13, at, offset);
    if (SLIP == 217 && checked && file_len - at < CHECK_BYTES)
        return shows(5, file_len, offset);
    if (count < extras && SLIP != 13)
        return shows(10, SLIP == 78 ? count_at : at, offset);
    return read_end(file, file_len, at, checked, offset);
}

/* ---- the search ---- */

/* whether the first k letters of a word are its last k */
static bool is_border(const uint8_t *word, size_t m, size_t k)
{
    return memcmp(word, word + m - k, k) == 0;
}

/* the longest k below m that is a border; the empty one always is */
static size_t longest_border(const uint8_t *word, size_t m)
{
    size_t k = SLIP == 40 ? m / 2 : m - 1;
#if SLIP == 39
    for (size_t least = 1; least < m; least++)
        if (is_border(word, m, least))
            return least;
#endif
    while (!is_border(word, m, k))
        k--;
    return k;
}

static size_t step_after_find(const uint8_t *word, size_t m)
{
    size_t border = SLIP == 38 && m > 1 ? longest_border(word, m - 1) : longest_border(word, m);
    if (SLIP == 35)
        return 1;
    if (SLIP == 36)
        return m;
    if (SLIP == 37)
        return border > 0 ? border : 1;
    return m - border;
}

static uint64_t changes_of_depth;

uint64_t second_changes_of_depth(void)
{
    return changes_of_depth;
}

/* whether a window was read deep; counts those that were where the one before was not, or the other way round */
static bool is_deep(size_t read, bool before)
{
    bool deep = read >= DEEP;
    changes_of_depth += deep != before;
    return deep;
}

/* The letters that the published steps read, with the oracle at hand, which is of the mirror of the word, or with compact rows of it. */
static uint64_t letters_read(const uint8_t *word, size_t m, const uint8_t *text, size_t n, const struct rows *rows)
{
    uint64_t letters = 0;
    size_t s = 0, after_find = step_after_find(word, m), late = 0;
    bool prepares = rows != NULL && n >= long_for_rows(m), deep = false;
    while (s + m <= n) {
        unsigned state = 0;
        size_t unread = m; /* the letter to read next stands at s + unread - 1 */
        while (unread > 0) {
            uint8_t letter = text[s + unread - 1];
            letters++;
            state = rows != NULL ? rows_arrow(rows, state, letter) : arrow(state, letter);
            if (state == 0)
                break;
            unread--;
        }
        letters -= SLIP == 383 && deep && m - unread < DEEP;
        deep = prepares && is_deep(m - unread, deep);
        if (SLIP == 6 && unread > 0)
            letters--;
        letters -= SLIP == 148 && m > 32 && n >= long_from(m) && late >= 16 && unread > 1;
        late = unread == 1 ? late + 1 : 0;
        if (unread > 0)
            s = s + unread + (SLIP == 7 ? 1 : 0); /* f is s + unread - 1 */
        else
            s = s + after_find;
    }
    return letters - (SLIP == 145 && m > 1 && m <= 16 && n == long_from(m));
}

/* the text's own first letter stands at the place first */
static uint64_t list_occurrences(const uint8_t *word, size_t m, const uint8_t *text, size_t n, uint64_t first, uint32_t *finds,
                                 size_t finds_len)
{
    uint64_t count = 0;
    for (size_t s = 0; s + m + (SLIP == 4 ? 1 : 0) <= n; s++)
        if (memcmp(text + s, word, m) == 0) {
            if (count < finds_len + (SLIP == 24 && finds_len > 0))
                finds[count] = (uint32_t)(first + s);
            if (SLIP != 16 || count < finds_len)
                count++;
        }
    return count;
}

/* how much of the text is searched: all of it */
static size_t searched(size_t m, size_t n)
{
    return n - (SLIP == 146 && m > 32 && m <= 1024 && n >= long_from(m));
}

static void mirror(const uint8_t *word, size_t m, uint8_t *out)
{
    for (size_t i = 0; i < m; i++)
        out[i] = word[m - 1 - i];
}

/* ---- the search that is linear on hostile text ---- */

struct turbo {
    const uint8_t *word, *text;
    size_t m, n;
    bool looks;       /* h is looked for; else it is carried along the borders */
    size_t border;    /* the word's longest */
    size_t c, h, low; /* low is the last f+1 */
    uint64_t letters, count;
    uint32_t *finds;
    size_t finds_len;
};

/* the longest beginning of the word, all of it too, that ends at c and starts no sooner than low */
static size_t look_for_h(const struct turbo *t)
{
    size_t k = t->c - t->low < t->m ? t->c - t->low : t->m;
    while (memcmp(t->word, t->text + t->c - k, k) != 0)
        k--;
    return SLIP == 114 && k > 2 && k < t->m ? k - 1 : k;
}

/* h after one letter more, where borders[k] is the longest border of the word's first k letters, known up to h */
static size_t carry_h(const uint8_t *word, const uint16_t *borders, size_t h, uint8_t letter)
{
    while (h > 0 && word[h] != letter) {
        h = borders[h];
        if (SLIP == 115)
            break;
    }
    return word[h] == letter ? h + 1 : 0;
}

static const uint16_t *all_borders(const uint8_t *word, size_t m)
{
    static uint16_t borders[STATES];
    borders[0] = borders[1] = 0;
    for (size_t k = 2; k <= m; k++)
        borders[k] = (uint16_t)carry_h(word, borders, borders[k - 1], word[k - 1]);
    return borders;
}

/* from the window's end down to c; whether an arrow is missing */
static bool read_backward(struct turbo *t, size_t end)
{
    unsigned state = 0;
    for (size_t f = end; f-- > (SLIP == 86 ? end - t->m : t->c);) {
        t->letters++;
        state = arrow(state, t->text[f]);
        if (state != 0)
            continue;
        t->letters -= SLIP == 102;
        if (SLIP != 98)
            t->c = t->low = f + 1 + (SLIP == 89);
        if (SLIP != 90)
            t->h = 0;
        return true;
    }
    return false;
}

static void turbo_find(struct turbo *t, size_t end)
{
    if (SLIP == 104 && t->c > end)
        return;
    if (t->count < t->finds_len + (SLIP == 112 && t->finds_len > 0))
        t->finds[t->count] = (uint32_t)(t->c - t->m);
    if (SLIP != 111 || t->count < t->finds_len)
        t->count++;
}

/* whether to read on behind the window's end */
static bool goes_on(const struct turbo *t)
{
    bool far = SLIP == 91 ? 2 * t->h > t->m : SLIP == 92 ? t->h >= t->m / 2 : 2 * t->h >= t->m;
    if (SLIP == 93 && t->c - t->h + t->m > t->n)
        return false;
    return far && SLIP != 96 && t->c < t->n + (SLIP == 95);
}

/* from c to the window's end, and on */
static void read_forward(struct turbo *t, size_t end, const uint16_t *borders)
{
    while (t->c < end || goes_on(t)) {
        t->letters += SLIP != 88;
        t->c++;
        t->h = t->looks ? look_for_h(t) : carry_h(t->word, borders, t->h, t->text[t->c - 1]);
        if (t->h == t->m) {
            turbo_find(t, end);
            t->h = SLIP == 87 ? 0 : SLIP == 99 && t->c < t->n ? t->m : t->border;
        }
    }
}

/* the steps, with the oracle at hand, which is of the mirror of the word */
static void turbo_steps(struct turbo *t)
{
    const uint16_t *borders = t->looks ? NULL : all_borders(t->word, t->m);
    t->border = longest_border(t->word, t->m);
    if (SLIP == 100 && t->border > 0)
        t->border = longest_border(t->word, t->border);
    for (;;) {
        size_t end = t->c - (SLIP == 101 ? 0 : t->h) + t->m;
        if (end + (SLIP == 103) > t->n)
            return;
        bool missing = read_backward(t, end);
        if (SLIP == 94 && t->c - t->h + t->m > t->n)
            return;
        if (SLIP != 97 || !missing)
            read_forward(t, end, borders);
    }
}

/* ---- the search with a failure oracle ---- */

struct failure_search {
    const uint8_t *word, *text;
    size_t m, n;
    uint64_t letters, failures, count;
    uint32_t *finds;
    size_t finds_len;
};

static uint64_t windows_without_find;

uint64_t second_read_without_find(void)
{
    return windows_without_find;
}

/* Reads the window at s from its last letter on. How many of its letters were left unread when one had no arrow, that one among them; 0
   where all m were read. */
static size_t read_window(struct failure_search *f, size_t s)
{
    unsigned state = 0;
    for (size_t unread = f->m; unread > 0; unread--) {
        uint64_t taken = 0;
        state = reach(state, f->text[s + unread - 1], SLIP == 150, &taken);
        f->letters += 1 + (SLIP == 167 ? taken : 0);
        f->failures += SLIP == 167 || (SLIP == 168 && state == 0) ? 0 : taken;
        if (state == 0) {
            f->letters -= SLIP == 169;
            return unread;
        }
    }
    return 0;
}

static void failure_find(struct failure_search *f, size_t s)
{
    if (f->count < f->finds_len)
        f->finds[f->count] = (uint32_t)s;
    if (SLIP != 179 || f->count < f->finds_len)
        f->count++;
}

/* the steps, with the failure oracle at hand, which is of the mirror of the word */
static void failure_steps(struct failure_search *f)
{
    size_t s = 0, after_find = step_after_find(f->word, f->m);
    while (s + f->m <= f->n) {
        size_t unread = read_window(f, s);
        bool stands = unread == 0 && memcmp(f->text + s, f->word, f->m) == 0;
        windows_without_find += unread == 0 && !stands;
        if (stands || (SLIP == 166 && unread == 0))
            failure_find(f, s);
        if (unread > 0)
            s += unread + (SLIP == 172); /* its letter stands at s + unread - 1 */
        else
            s += (stands && SLIP != 170) || SLIP == 171 ? after_find : 1;
    }
}

/* ---- rides by their headers ---- */

struct rides {
    const uint8_t *text;
    size_t n;
    uint32_t *starts;
    size_t starts_len;
    uint8_t *kinds;
    size_t kinds_len;
    uint64_t count;
    uint64_t from; /* no ride that begins before is listed; only mistakes on purpose change it */
};

/* whether a multiple of so many bytes parts the bytes from .. to-1; only mistakes on purpose go through a text in parts */
static bool crosses(size_t from, size_t to, size_t part)
{
    return from / part != (to - 1) / part;
}

static bool is_ride_mark(const uint8_t *at)
{
    switch (SLIP) {
    case 251: return memcmp(at + 1, "FIT", 3) == 0;
    case 252: return memcmp(at, ".FI", 3) == 0;
    case 253: return memcmp(at, ".FIT", 4) == 0 || memcmp(at, ".fit", 4) == 0;
    default: return memcmp(at, RIDE_MARK, RIDE_MARK_BYTES) == 0;
    }
}

static bool is_header_size(size_t size)
{
    switch (SLIP) {
    case 240: return true;
    case 241: return size >= 12 && size <= 14;
    case 242: return size == 12 || size == 14 || size == 15;
    case 243: return size == 12 || size == 14 || size == 11;
    case 244: return size == 14;
    case 245: return size == 12;
    case 246: return size % 16 == 12 || size % 16 == 14;
    default: return size == SHORT_HEADER || size == LONG_HEADER;
    }
}

/* how many bytes of a header are asked for inside the text: all of it */
static size_t bytes_inside(size_t size)
{
    switch (SLIP) {
    case 246: return size % 16;
    case 258: return 12;
    case 259: return size + 1;
    case 260: return 14;
    case 261: return size == 14 ? 13 : size;
    default: return size;
    }
}

/* how many bytes of data a header declares, low byte first */
static uint64_t data_size(const struct rides *r, size_t start)
{
    const uint8_t *bytes = r->text + start + AT_DATA_SIZE + (SLIP == 268);
    size_t at = start + AT_DATA_SIZE, many = SLIP == 266 ? 3 : SLIP == 267 ? 2 : 4;
    uint64_t size = 0;
    for (size_t i = 0; i < many; i++)
        if (SLIP != 333 || !crosses(at, at + i + 1, 4096))
            size += (uint64_t)bytes[i] << 8 * (SLIP == 265 ? 3 - i : i);
    return SLIP == 264 ? (uint64_t)(int32_t)size : size;
}

/* where a ride ends, as its header says: behind header, data and check */
static uint64_t ride_end(const struct rides *r, size_t start)
{
    uint64_t header = r->text[start], data = data_size(r, start), end = start + header + data + RIDE_CHECK_BYTES;
    switch (SLIP) {
    case 262: return (uint32_t)end;
    case 263: return start + header + (uint32_t)(data + RIDE_CHECK_BYTES);
    case 269: return end + 1;
    case 270: return end - 1;
    case 271: return end - RIDE_CHECK_BYTES;
    case 272: return end - header;
    case 273: return end - header + 12;
    case 274: return end - header + 14;
    case 275: return end - start;
    default: return end;
    }
}

/* the mistakes that call a whole ride cut */
static bool is_called_cut(const struct rides *r, size_t start, uint64_t end)
{
    const uint8_t *ride = r->text + start;
    switch (SLIP) {
    case 276: return end != r->n;
    case 277: return other_check(ride, (size_t)end - RIDE_CHECK_BYTES - start);
    case 278: return data_size(r, start) == 0;
    case 279:
        for (size_t q = start + ride[0]; q + 4 + RIDE_CHECK_BYTES <= end; q++)
            if (is_ride_mark(r->text + q) && is_header_size(r->text[q - 8]))
                return true;
        return false;
    case 281: return ride[0] == 12;
    case 334: return end > (start / 32768 + 1) * 32768;
    case 335: return crosses(start, start + 12, 2048);
    default: return false;
    }
}

static bool is_whole(const struct rides *r, size_t start)
{
    uint64_t end = ride_end(r, start);
    return (end <= r->n && !is_called_cut(r, start, end)) != (SLIP == 280);
}

/* the mistakes that leave a header out for what it says */
static bool is_left_out(const struct rides *r, size_t start)
{
    const uint8_t *header = r->text + start;
    switch (SLIP) {
    case 254: return header[1] == 0;
    case 255: return header[0] == 14 && (header[12] != 0 || header[13] != 0) && other_check(header, 12);
    case 256: return data_size(r, start) == 0;
    case 257: return data_size(r, start) > MOST_TEXT;
    case 286: return !is_whole(r, start);
    default: return start < r->from;
    }
}

/* where the header of the .FIT at q begins */
static size_t start_of(size_t q)
{
    return SLIP == 249 && q < 8 ? 0 : q - AT_RIDE_MARK;
}

/* whether the .FIT at q is that of a header, wholly inside the text */
static bool has_header(const struct rides *r, size_t q)
{
    if (q < AT_RIDE_MARK + (SLIP == 250) && SLIP != 248 && SLIP != 249)
        return false;
    size_t start = start_of(q), size = r->text[start + (SLIP == 247)];
    return is_header_size(size) && start + bytes_inside(size) <= r->n && !is_left_out(r, start);
}

/* how many .FIT there are from a place on and before another */
static size_t marks_between(const struct rides *r, size_t from, size_t to)
{
    size_t many = 0;
    for (size_t q = from; q < to; q++)
        many += is_ride_mark(r->text + q);
    return many;
}

/* the mistakes that lose a header for its place in the text */
static bool is_lost(const struct rides *r, size_t q)
{
    size_t start = q - 8, behind = q + 4, n = r->n;
    switch (SLIP) {
    case 321: return crosses(q, behind, 4096);
    case 322: return crosses(start, behind, 8192);
    case 323: return (q + 3) % 16384 == 0;
    case 324: return (start + 1) % 32768 == 0;
    case 325: return crosses(q, behind, 65536);
    case 326: return crosses(start, behind, 1000);
    case 327: return crosses(start, behind, 4093);
    case 328: return start < 37777 && behind > 37777;
    case 338: return n % 4096 < 12 && behind > n - n % 4096;
    case 339: return n % 8192 == 0 && q + 12 > n;
    case 340: return q >= 65536;
    case 341: return crosses(start, behind, 1048576);
    case 342: return n == MOST_TEXT && q + 12 > n;
    case 343: return marks_between(r, q - q % 4096, q) >= 256;
    case 344: return marks_between(r, q - q % 4096, q) >= 1022;
    case 345: return crosses(q, behind, 4096) && marks_between(r, 0, n - 3) == 1;
    default: return false;
    }
}

/* the mistakes that list a header twice */
static bool is_doubled(size_t q)
{
    switch (SLIP) {
    case 329: return q % 4096 == 0;
    case 330: return (q + 4) % 8192 == 0;
    case 331: return (q - 8) % 16384 >= 16384 - 14 && (q + 3) % 16384 >= 16384 - 14;
    case 332: return crosses(q, q + 4, 65536);
    default: return false;
    }
}

/* before which place no ride is listed any more behind this one */
static uint64_t passed_over(const struct rides *r, size_t start)
{
    switch (SLIP) {
    case 282: return is_whole(r, start) ? ride_end(r, start) : 0;
    case 283: return start + r->text[start];
    case 284: return is_whole(r, start) ? 0 : UINT64_MAX;
    default: return 0;
    }
}

static uint32_t listed_start(size_t start)
{
    switch (SLIP) {
    case 285: return (uint32_t)(start + 8);
    case 336: return (uint16_t)start;
    case 337: return (uint32_t)(start % 16384);
    default: return (uint32_t)start;
    }
}

/* makes room at the end of a full list by leaving out its first entry, where the last rides are listed */
static void move_up(struct rides *r, size_t fit)
{
    memmove(r->starts, r->starts + 1, (fit - 1) * sizeof *r->starts);
    memmove(r->kinds, r->kinds + 1, fit - 1);
}

/* the shorter list decides */
static void list_ride(struct rides *r, size_t start)
{
    size_t fit = r->starts_len < r->kinds_len ? r->starts_len : r->kinds_len, at = (size_t)r->count;
    if ((SLIP == 290 || SLIP == 291) && fit > 0 && at >= fit) {
        if (SLIP == 291)
            move_up(r, fit);
        at = fit - 1;
    }
    if (at < (SLIP == 289 ? r->starts_len : fit + (SLIP == 296 && fit > 0)))
        r->starts[at] = listed_start(start);
    if (at < (SLIP == 288 ? r->kinds_len : fit + (SLIP == 297 && fit > 0)))
        r->kinds[at] = is_whole(r, start) ? WHOLE_RIDE : CUT_RIDE;
    if ((SLIP != 292 || r->count < fit) && (SLIP != 346 || r->count < 255))
        r->count++;
    r->from = passed_over(r, start);
}

static void list_rides(struct rides *r)
{
    for (size_t q = 0; q + RIDE_MARK_BYTES <= r->n; q++) {
        if (!is_ride_mark(r->text + q) || !has_header(r, q) || is_lost(r, q))
            continue;
        list_ride(r, start_of(q));
        if (is_doubled(q))
            list_ride(r, start_of(q));
        if (SLIP == 287)
            q += 11;
    }
}

/* ---- streams ---- */

static uint64_t bytes_taken(const uint8_t *searcher)
{
    uint64_t taken = 0;
    for (size_t i = 0; i < 4; i++)
        taken += (uint64_t)searcher[AT_TAKEN + i] << (8 * i);
    return taken;
}

static void write_taken(uint8_t *searcher, uint64_t taken)
{
    for (size_t i = 0; i < 4; i++)
        searcher[AT_TAKEN + i] = SLIP == 63 && i == 3 ? 0 : (uint8_t)(taken >> (8 * i));
}

static void write_opened(const uint8_t *word, size_t m, uint8_t *searcher)
{
    for (size_t i = 0; i < SEARCHER_BYTES; i++)
        if (SLIP != 43 || i >= AT_BORDERS)
            searcher[i] = 0;
    memcpy(searcher + AT_LETTERS, word, m);
    for (size_t i = 1; i <= m; i++)
        searcher[AT_BORDERS + i - 1] = (uint8_t)longest_border(word, i);
    searcher[AT_LENGTH] = (uint8_t)m;
}

/* Whether opening and taking bytes can make it: its letters, borders and length are as opening leaves them, and what it keeps can end a
   stream of so many bytes. */
static bool can_be_made(const uint8_t *searcher, size_t searcher_len)
{
    uint8_t opened[SEARCHER_BYTES] = {0};
    if (searcher_len < SEARCHER_BYTES || (SLIP == 64 && searcher_len > SEARCHER_BYTES))
        return false;
    size_t m = searcher[AT_LENGTH], kept = searcher[AT_KEPT];
    if (m < 1 || m > MOST_STREAMED + (SLIP == 53))
        return false;
    if (kept >= m + (SLIP == 45 || SLIP == 48))
        return false;
    if ((kept > bytes_taken(searcher) && SLIP != 52) || bytes_taken(searcher) > MOST_TEXT + (SLIP == 54))
        return false;
    write_opened(searcher + AT_LETTERS, m, opened);
    if (SLIP == 49)
        memcpy(opened + AT_BORDERS, searcher + AT_BORDERS, m);
    if (SLIP == 50)
        memcpy(opened + AT_LETTERS + m, searcher + AT_LETTERS + m, MOST_STREAMED - m);
    if (SLIP == 51)
        memcpy(opened + AT_BORDERS + m, searcher + AT_BORDERS + m, MOST_STREAMED - m);
    return memcmp(opened, searcher, AT_KEPT) == 0;
}

static uint32_t refuse_taking(const uint8_t *searcher, size_t searcher_len, size_t piece_len)
{
    if (SLIP == 47 && searcher_len >= SEARCHER_BYTES && bytes_taken(searcher) + piece_len > MOST_TEXT)
        return 4;
    if (!can_be_made(searcher, searcher_len))
        return 16;
    return bytes_taken(searcher) + piece_len > MOST_TEXT - (SLIP == 57) ? 4 : 0;
}

/* the longest beginning of the word, short of all of it, that the text ends with */
static size_t longest_ending(const uint8_t *word, size_t m, const uint8_t *text, size_t n)
{
    size_t k = SLIP == 45 ? m : m - 1;
    if (SLIP == 55 && n >= m && memcmp(word, text + n - m, m) == 0)
        return 0;
#if SLIP == 65
    for (size_t least = 1; least < m && least <= n; least++)
        if (memcmp(word, text + n - least, least) == 0)
            return least;
#endif
    if (k > n)
        k = n;
    while (memcmp(word, text + n - k, k) != 0)
        k--;
    return k;
}

/* The letters that are kept stand for all of the stream before the piece: a find that ends in the piece begins with one of them or in the
   piece itself, and all that can be kept after it too. */
static uint64_t take_piece(uint8_t *searcher, const uint8_t *piece, size_t piece_len, uint32_t *finds, size_t finds_len)
{
    static uint8_t heard[MOST_STREAMED + MOST_TEXT];
    const uint8_t *word = searcher + AT_LETTERS;
    bool forgets = SLIP == 44 || (SLIP == 62 && piece_len == 0);
    size_t m = searcher[AT_LENGTH], kept = forgets ? 0 : searcher[AT_KEPT], heard_len = kept + piece_len;
    uint64_t taken = bytes_taken(searcher), first = SLIP == 46 ? 0 : taken - kept;
    memcpy(heard, word, kept);
    if (piece_len > 0)
        memcpy(heard + kept, piece, piece_len);
    uint64_t count = list_occurrences(word, m, heard, heard_len - (SLIP == 66 && heard_len > 0), first, finds, finds_len);
    size_t unheard = SLIP == 56 && piece_len > 0 ? kept : 0;
    searcher[AT_KEPT] = (uint8_t)longest_ending(word, m, heard + unheard, heard_len - unheard);
    write_taken(searcher, taken + piece_len);
    return SLIP == 60 && count > finds_len ? finds_len : count;
}

/* ---- the fifteen entries ---- */

uint32_t second_build(const uint8_t *word, size_t word_len, uint16_t *tables, size_t tables_len, uint64_t *m)
{
    if (word_len == 0)
        return 1;
    if (word_len > MOST_LETTERS + (SLIP == 11))
        return 2;
    if (SLIP == 129 && word_len < LEAST_SAVED)
        return 17;
    if (tables_len < entries(word_len))
        return 3;
    make_oracle(word, word_len);
    write_tables(word, word_len, tables);
    if (SLIP == 20 && tables_len > entries(word_len))
        tables[entries(word_len)] = 0;
    *m = word_len;
    return 0;
}

/* the refusals of saving that come before the rooms */
static uint32_t refuse_saving(size_t word_len)
{
    if (word_len == 0)
        return SLIP == 125 ? 17 : 1;
    if (word_len > MOST_LETTERS)
        return 2;
    if (word_len < LEAST_SAVED + (SLIP == 126) && SLIP != 121)
        return SLIP == 124 ? 8 : 17;
    return 0;
}

static uint32_t save(unsigned edition, const uint8_t *word, size_t word_len, uint16_t *tables, size_t tables_len, uint8_t *out,
                     size_t out_len, uint64_t *length)
{
    uint8_t file[MOST_FILE];
    bool checked = edition == 2;
    uint32_t no = refuse_saving(word_len);
    if (SLIP == 127 && no == 17 && tables_len >= entries(word_len))
        clear(tables, entries(word_len) * sizeof *tables);
    if (SLIP == 128 && no == 17 && out_len > 0)
        out[0] = 1;
    if (no != 0 && !(no == 17 && (SLIP == 122 || SLIP == 123 || (SLIP == 204 && checked))))
        return no;
    if (tables_len < entries(word_len))
        return 3;
    if ((SLIP == 122 || SLIP == 204) && no != 0)
        return no;
    make_oracle(word, word_len);
    size_t size = spell_file(edition, word, word_len, file), need = size;
    if (SLIP == 200 && checked)
        need -= CHECK_BYTES;
    if (SLIP == 201 && checked)
        need++;
    if (out_len < need) {
        if (SLIP != 205 || !checked)
            clear(tables, entries(word_len) * sizeof *tables);
        if ((SLIP == 22 || (SLIP == 206 && checked)) && out_len > 0)
            out[0] = file[0];
        if (SLIP == 23)
            *length = size;
        return 12;
    }
    if (SLIP == 123 && no != 0)
        return no;
    write_tables(word, word_len, tables);
    memcpy(out, file, SLIP == 200 && out_len < size ? out_len : size);
    if ((SLIP == 19 || (SLIP == 203 && checked)) && out_len > size)
        out[size] = 0;
    *length = SLIP == 202 && checked ? size - CHECK_BYTES : size;
    return 0;
}

uint32_t second_save(const uint8_t *word, size_t word_len, uint16_t *tables, size_t tables_len, uint8_t *out, size_t out_len,
                     uint64_t *length)
{
    return save(1, word, word_len, tables, tables_len, out, out_len, length);
}

uint32_t second_save_checked(const uint8_t *word, size_t word_len, uint16_t *tables, size_t tables_len, uint8_t *out, size_t out_len,
                             uint64_t *length)
{
    return save(2, word, word_len, tables, tables_len, out, out_len, length);
}

uint32_t second_load(const uint8_t *file, size_t file_len, uint8_t *room, size_t room_len, uint16_t *tables, size_t tables_len,
                     uint64_t *m, uint64_t *offset)
{
    size_t at, letters = 0;
    uint32_t edition, no = read_front(file, file_len, room_len, tables_len, &at, &edition, &letters, offset);
    if (SLIP == 138 && no == 8 && file[1] == 1)
        clear(room, room_len);
    if (no != 0)
        return no;
    const uint8_t *word = file + at - letters;
    make_oracle(word, letters);
    no = read_arrows(file, file_len, at, edition == 2, letters, offset);
    if (SLIP == 228 && no == 13)
        memcpy(room, word, letters);
    if (no != 0) {
        if (SLIP != 14 && !((SLIP == 227 || SLIP == 228) && no == 13))
            clear(room, letters);
        if (SLIP != 5 && !(SLIP == 227 && no == 13))
            clear(tables, entries(letters) * sizeof *tables);
        return no;
    }
    memcpy(room, word, letters);
    write_tables(word, letters, tables);
#if SLIP == 21
    ((uint8_t *)file)[file_len - 1] ^= 1;
#endif
    if (SLIP == 81)
        *offset = 0;
    *m = letters;
    return 0;
}

uint32_t second_search(const uint8_t *word, size_t word_len, const uint8_t *text, size_t text_len, uint16_t *tables, size_t tables_len,
                       uint32_t *finds, size_t finds_len, uint64_t *count, uint64_t *letters)
{
    uint8_t mirrored[MOST_LETTERS];
    if (word_len == 0)
        return 1;
    if (word_len > MOST_LETTERS)
        return 2;
    if (SLIP == 130 && word_len < LEAST_SAVED)
        return 17;
    if (SLIP == 8 && tables_len < entries(word_len))
        return 3;
    if (text_len > LONGEST_TEXT)
        return 4;
    if (tables_len < entries(word_len))
        return 3;
    mirror(word, word_len, mirrored);
    if (SLIP == 17) {
        make_oracle(word, word_len);
        write_tables(word, word_len, tables);
    }
    make_oracle(mirrored, word_len);
    if (SLIP != 17 && !(SLIP == 29 && text_len < word_len))
        write_tables(mirrored, word_len, tables);
    *count = list_occurrences(word, word_len, text, searched(word_len, text_len), 0, finds, finds_len);
    *letters = letters_read(word, word_len, text, text_len, NULL);
    return 0;
}

static uint32_t turbo(bool looks, const uint8_t *word, size_t word_len, const uint8_t *text, size_t text_len, uint16_t *tables,
                      size_t tables_len, uint32_t *finds, size_t finds_len, uint64_t *count, uint64_t *letters)
{
    uint8_t mirrored[MOST_LETTERS];
    struct turbo t = {.word = word, .text = text, .m = word_len, .n = text_len, .looks = looks, .finds = finds, .finds_len = finds_len};
    if (word_len == 0)
        return 1;
    if (SLIP == 109 && text_len > MOST_TEXT)
        return 4;
    if (word_len > MOST_LETTERS)
        return 2;
    if (SLIP == 131 && word_len < LEAST_SAVED)
        return 17;
    if (SLIP == 108 && tables_len < entries(word_len))
        return 3;
    if (text_len > MOST_TEXT + (SLIP == 110)) {
        if (SLIP == 113)
            *count = 0;
        return 4;
    }
    if (tables_len < entries(word_len))
        return 3;
    mirror(word, word_len, mirrored);
    make_oracle(SLIP == 106 ? word : mirrored, word_len);
    if (SLIP != 107 || text_len >= word_len)
        write_tables(SLIP == 106 ? word : mirrored, word_len, tables);
    make_oracle(SLIP == 105 ? word : mirrored, word_len);
    turbo_steps(&t);
    *count = t.count;
    *letters = t.letters + (SLIP == 147 && word_len >= 8 && word_len <= 16 && text_len == long_from(word_len) + 1);
    return 0;
}

uint32_t second_turbo(const uint8_t *word, size_t word_len, const uint8_t *text, size_t text_len, uint16_t *tables, size_t tables_len,
                      uint32_t *finds, size_t finds_len, uint64_t *count, uint64_t *letters)
{
    bool looks = (uint64_t)word_len * text_len <= MOST_LOOKED_FOR;
    return turbo(looks, word, word_len, text, text_len, tables, tables_len, finds, finds_len, count, letters);
}

uint32_t second_turbo_carried(const uint8_t *word, size_t word_len, const uint8_t *text, size_t text_len, uint16_t *tables,
                              size_t tables_len, uint32_t *finds, size_t finds_len, uint64_t *count, uint64_t *letters)
{
    return turbo(false, word, word_len, text, text_len, tables, tables_len, finds, finds_len, count, letters);
}

uint32_t second_search_file(const uint8_t *file, size_t file_len, const uint8_t *text, size_t text_len, uint8_t *room, size_t room_len,
                            uint16_t *tables, size_t tables_len, uint32_t *finds, size_t finds_len, uint64_t *count, uint64_t *letters,
                            uint64_t *offset)
{
    uint8_t sought[MOST_LETTERS];
    uint64_t m, kept_here;
    bool one_letter = file_len > 2 && file[0] == 1 && file[1] == 1;
    if (SLIP == 139 && one_letter)
        return shows(8, 1, offset);
    if (text_len > LONGEST_TEXT)
        return SLIP == 83 ? shows(4, 0, offset) : 4;
    if (SLIP == 134 && one_letter) {
        *count = list_occurrences(file + 2, 1, text, text_len, 0, finds, finds_len);
        *letters = text_len;
        return 0;
    }
    if (SLIP == 208 && file_len > 0 && file[0] == 2)
        return shows(7, 0, offset);
    uint32_t no = second_load(file, file_len, room, room_len, tables, tables_len, &m, SLIP == 82 ? &kept_here : offset);
    if (no != 0)
        return no;
    mirror(room, m, sought); /* the oracle at hand is of the file's word, so of the mirror of what is sought */
    *count = list_occurrences(SLIP == 28 ? room : sought, m, text, searched(m, text_len), 0, finds, finds_len);
    *letters = letters_read(sought, m, text, text_len, NULL);
    return 0;
}

uint32_t second_failure_build(const uint8_t *word, size_t word_len, uint16_t *tables, size_t tables_len, uint64_t *m)
{
    bool too_small = tables_len < (SLIP == 163 ? entries(word_len) : failure_entries(word_len));
    if (word_len == 0)
        return 1;
    if (SLIP == 165 && too_small)
        return 3;
    if (word_len > MOST_LETTERS)
        return 2;
    if (too_small)
        return 3;
    make_failure_oracle(word, word_len);
    if (SLIP != 163 || tables_len >= failure_entries(word_len))
        write_failure_table(word_len, tables);
    if (SLIP == 164 && tables_len > failure_entries(word_len))
        tables[failure_entries(word_len)] = 0;
    *m = word_len;
    return 0;
}

/* the refusals of building a storacle, in their order */
static uint32_t refuse_storacle(size_t word_len, size_t tables_len)
{
    size_t need = SLIP == 415 ? 10 * (word_len + 1) : storacle_entries(word_len) - (SLIP == 413) + (SLIP == 414);
    bool too_small = (SLIP == 416 ? (uint16_t)tables_len : SLIP == 417 ? (uint32_t)tables_len : tables_len) < need;
    if (word_len == 0)
        return 1;
    if (SLIP == 412 && too_small)
        return 3;
    if ((SLIP == 418 ? (uint8_t)word_len : word_len) > MOST_STORACLE + (SLIP == 410) - (SLIP == 411))
        return 2;
    return too_small ? 3 : 0;
}

uint32_t second_storacle_build(const uint8_t *word, size_t word_len, uint16_t *tables, size_t tables_len, uint64_t *m)
{
    uint32_t no = refuse_storacle(word_len, tables_len);
    if ((SLIP == 419 && no == 2) || (SLIP == 420 && no == 3))
        *m = word_len;
    if (SLIP == 421 && no == 3)
        clear(tables, tables_len * sizeof *tables);
    if (no != 0)
        return no;
    *m = word_len;
    if (tables_len < storacle_entries(word_len)) /* only mistakes on purpose come here */
        return 0;
    make_storacle(word, word_len);
    write_storacle_table(word, word_len, tables);
    if (SLIP == 422 && tables_len > storacle_entries(word_len))
        tables[storacle_entries(word_len)] = 0;
    return 0;
}

/* the refusals of the search with a failure oracle, in their order */
static uint32_t refuse_failure_search(size_t word_len, size_t text_len, size_t tables_len)
{
    bool too_small = tables_len < (SLIP == 176 ? entries(word_len) : failure_entries(word_len));
    if (word_len == 0)
        return 1;
    if (word_len > MOST_LETTERS)
        return 2;
    if (SLIP == 177 && too_small)
        return 3;
    if (text_len > MOST_TEXT + (SLIP == 178))
        return 4;
    return too_small ? 3 : 0;
}

uint32_t second_failure_search(const uint8_t *word, size_t word_len, const uint8_t *text, size_t text_len, uint16_t *tables,
                               size_t tables_len, uint32_t *finds, size_t finds_len, uint64_t *count, uint64_t *letters,
                               uint64_t *failures)
{
    uint8_t mirrored[MOST_LETTERS];
    struct failure_search f = {.word = word, .text = text, .m = word_len, .n = text_len, .finds = finds, .finds_len = finds_len};
    uint32_t no = refuse_failure_search(word_len, text_len, tables_len);
    if (SLIP == 180 && no == 4)
        *failures = 0;
    if (no != 0)
        return no;
    mirror(word, word_len, mirrored);
    make_failure_oracle(SLIP == 174 ? word : mirrored, word_len);
    if (!(SLIP == 175 && text_len < word_len) && (SLIP != 176 || tables_len >= failure_entries(word_len)))
        write_failure_table(word_len, tables);
    make_failure_oracle(SLIP == 173 ? word : mirrored, word_len);
    failure_steps(&f);
    *count = f.count;
    *letters = SLIP == 181 ? f.failures : f.letters;
    *failures = SLIP == 181 ? f.letters : f.failures;
    return 0;
}

/* whether either room of compact rows is too short */
static bool too_short_for_rows(size_t m, size_t sets_len, size_t targets_len)
{
    bool sets = (SLIP == 381 ? (uint32_t)sets_len : sets_len) < words_of_sets(m);
    bool targets = (SLIP == 382 ? (uint16_t)targets_len : targets_len) < entries_of_targets(m);
    return (sets && SLIP != 367) || (targets && SLIP != 368);
}

/* the mistake of a refusal that changes something */
static void slip_short_targets(size_t m, uint64_t *sets, size_t sets_len)
{
    if (SLIP == 378 && sets_len >= words_of_sets(m))
        clear(sets, words_of_sets(m) * sizeof *sets);
}

/* the compact rows of the letters, in both rooms, which are long enough but for mistakes on purpose */
static void leave_rows(const uint8_t *p, size_t m, const struct rows *r, size_t sets_len, size_t targets_len)
{
    make_oracle(p, m);
    if (sets_len < words_of_sets(m) || targets_len < entries_of_targets(m))
        return;
    write_rows(p, r);
    if (SLIP == 373 && sets_len > words_of_sets(m))
        r->sets[words_of_sets(m)] = 0;
    if (SLIP == 374 && targets_len > entries_of_targets(m))
        r->targets[entries_of_targets(m)] = 0;
}

uint32_t second_compact_build(const uint8_t *word, size_t word_len, uint64_t *sets, size_t sets_len, uint16_t *targets, size_t targets_len,
                              uint64_t *m)
{
    struct rows rows = {.sets = sets, .targets = targets, .n = word_len + 1};
    if (word_len == 0)
        return 1;
    if (SLIP == 370 && too_short_for_rows(word_len, sets_len, targets_len))
        return 3;
    if (word_len > MOST_LETTERS)
        return 2;
    if (too_short_for_rows(word_len, sets_len, targets_len)) {
        slip_short_targets(word_len, sets, sets_len);
        return 3;
    }
    leave_rows(word, word_len, &rows, sets_len, targets_len);
    *m = word_len;
    return 0;
}

/* the refusals of the search with compact rows, in their order */
static uint32_t refuse_compact_search(size_t word_len, size_t text_len, size_t sets_len, size_t targets_len)
{
    if (word_len == 0)
        return 1;
    if (word_len > MOST_LETTERS)
        return 2;
    bool too_short = too_short_for_rows(word_len, sets_len, targets_len);
    if (SLIP == 369 && too_short)
        return 3;
    if (text_len > MOST_TEXT + (SLIP == 380))
        return 4;
    return too_short ? 3 : 0;
}

/* how many letters more are read than by the steps: none */
static uint64_t slip_letters(const uint8_t *word, size_t m, size_t n)
{
    size_t distinct = 0;
    for (size_t i = 0; i < m && SLIP == 384; i++)
        distinct += memchr(word, word[i], i) == NULL;
    return n >= long_for_rows(m) && distinct * (m + 1) > PREPARED && distinct * m <= PREPARED;
}

uint32_t second_compact_search(const uint8_t *word, size_t word_len, const uint8_t *text, size_t text_len, uint64_t *sets, size_t sets_len,
                               uint16_t *targets, size_t targets_len, uint32_t *finds, size_t finds_len, uint64_t *count,
                               uint64_t *letters)
{
    uint8_t mirrored[MOST_LETTERS];
    struct rows rows = {.sets = sets, .targets = targets, .n = word_len + 1};
    uint32_t no = refuse_compact_search(word_len, text_len, sets_len, targets_len);
    if (no == 3)
        slip_short_targets(word_len, sets, sets_len);
    if (no != 0)
        return no;
    mirror(word, word_len, mirrored);
    if (SLIP != 379 || text_len >= word_len)
        leave_rows(SLIP == 371 ? word : mirrored, word_len, &rows, sets_len, targets_len);
    make_oracle(SLIP == 372 ? word : mirrored, word_len);
    bool by_rows = SLIP < 367 || SLIP > 372; /* those mistakes have no rows of the mirror to walk along */
    *count = list_occurrences(word, word_len, text, text_len, 0, finds, finds_len);
    *letters = letters_read(word, word_len, text, text_len, by_rows ? &rows : NULL) + slip_letters(word, word_len, text_len);
    return 0;
}

static uint32_t refuse_salvaging(size_t text_len, size_t tables_len)
{
    size_t need = SLIP == 304 ? 24 : entries(RIDE_MARK_BYTES) + (SLIP == 305);
    bool too_small = (SLIP == 312 ? (uint32_t)tables_len : SLIP == 313 ? (uint16_t)tables_len : tables_len) < need;
    if (SLIP == 301 && too_small)
        return 3;
    if ((SLIP == 311 ? (uint32_t)text_len : text_len) > MOST_TEXT + (SLIP == 302) - (SLIP == 303))
        return 4;
    return too_small ? 3 : 0;
}

/* the mistakes of a refusal that changes something */
static void slip_refused(uint32_t no, const struct rides *r, uint16_t *tables, size_t tables_len, uint64_t *count)
{
    if (SLIP == 306 && no == 3)
        clear(tables, tables_len * sizeof *tables);
    if (SLIP == 307 && no == 3)
        clear(r->starts, r->starts_len * sizeof *r->starts);
    if (SLIP == 308 && no == 4)
        clear(r->kinds, r->kinds_len);
    if ((SLIP == 309 && no == 3) || (SLIP == 310 && no == 4))
        *count = 0;
}

/* whether the tables are filled: always */
static bool fills_tables(const struct rides *r, size_t tables_len)
{
    switch (SLIP) {
    case 304: return tables_len >= entries(RIDE_MARK_BYTES);
    case 314: return false;
    case 317: return r->n >= 12;
    case 318: return r->count > 0;
    case 319: return r->starts_len > 0 && r->kinds_len > 0;
    default: return true;
    }
}

/* the tables, as a search for .FIT leaves them */
static void leave_ride_tables(uint16_t *tables, size_t tables_len)
{
    const uint8_t *mark = (const uint8_t *)RIDE_MARK;
    uint8_t mirrored[RIDE_MARK_BYTES];
    uint16_t own[6 * (RIDE_MARK_BYTES + 1)];
    mirror(mark, RIDE_MARK_BYTES, mirrored);
    make_oracle(SLIP == 315 ? mark : mirrored, RIDE_MARK_BYTES);
    write_tables(SLIP == 315 ? mark : mirrored, RIDE_MARK_BYTES, own);
    memcpy(tables, own, (SLIP == 320 ? 20 : entries(RIDE_MARK_BYTES)) * sizeof *own);
    if (SLIP == 316 && tables_len > entries(RIDE_MARK_BYTES))
        tables[entries(RIDE_MARK_BYTES)] = 0;
}

uint32_t second_salvage(const uint8_t *text, size_t text_len, uint16_t *tables, size_t tables_len, uint32_t *starts, size_t starts_len,
                        uint8_t *kinds, size_t kinds_len, uint64_t *count)
{
    struct rides r = {.text = text, .n = text_len, .starts = starts, .starts_len = starts_len, .kinds = kinds, .kinds_len = kinds_len};
    uint32_t no = refuse_salvaging(text_len, tables_len);
    if (no != 0) {
        slip_refused(no, &r, tables, tables_len, count);
        return no;
    }
    if (SLIP == 299)
        r.starts_len = (uint32_t)starts_len;
    if (SLIP == 300)
        r.kinds_len = (uint32_t)kinds_len;
    list_rides(&r);
    if (fills_tables(&r, tables_len))
        leave_ride_tables(tables, tables_len);
    if (SLIP == 294 && r.count < starts_len)
        starts[r.count] = 0;
    if (SLIP == 295 && r.count < kinds_len)
        kinds[r.count] = 0;
    if (SLIP == 298 && (r.count > starts_len || r.count > kinds_len))
        return 3;
    *count = SLIP == 293 ? marks_between(&r, 0, text_len < 3 ? 0 : text_len - 3) : SLIP == 347 ? (uint16_t)r.count : r.count;
    return 0;
}

uint32_t second_open(const uint8_t *word, size_t word_len, uint8_t *searcher, size_t searcher_len)
{
    if (word_len == 0)
        return 1;
    if (SLIP == 42 && searcher_len < SEARCHER_BYTES)
        return 3;
    if (word_len > MOST_STREAMED + (SLIP == 41))
        return 2;
    if (SLIP == 132 && word_len < LEAST_SAVED)
        return 17;
    if (searcher_len < SEARCHER_BYTES)
        return 3;
    write_opened(word, word_len, searcher);
    return 0;
}

uint32_t second_take(uint8_t *searcher, size_t searcher_len, const uint8_t *piece, size_t piece_len, uint32_t *finds, size_t finds_len,
                     uint64_t *count)
{
    uint32_t no = refuse_taking(searcher, searcher_len, piece_len);
    if (SLIP == 59 && no != 0)
        clear(finds, finds_len * sizeof *finds);
    if (SLIP == 61 && no == 4)
        searcher[AT_KEPT] = 0;
    if (SLIP == 58 && no == 0 && searcher_len > SEARCHER_BYTES)
        searcher[SEARCHER_BYTES] = 0;
    if (no == 0)
        *count = take_piece(searcher, piece, piece_len, finds, finds_len);
    return no;
}
