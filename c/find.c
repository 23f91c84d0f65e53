/* A program to start from: an index is built, saved, loaded and searched with, and a damaged file is refused, with the offset where it is broken. All room
 * is the caller's own, and enough for every word and every file. */
#include <inttypes.h>
#include <stdio.h>

#include "marks.h"

enum { MARK = 7, LIST = 2 };

static const uint8_t mark[] = "lap-lap";
static const uint8_t text[] = "lap-lap-lap-lap 12:07 lap-lap";
static const size_t text_len = sizeof text - 1;
static const uint64_t nowhere = UINT64_MAX; /* an offset that no file has */

struct rooms {
    uint8_t word[MARKS_LONGEST_WORD];
    uint16_t tables[MARKS_MOST_TABLES];
    uint32_t finds[LIST];
};

static int refused(const char *what, uint32_t said)
{
    if (said != MARKS_OK)
        printf("%s: refused with %" PRIu32 ", %s\n", what, said, marks_meaning(said));
    return said != MARKS_OK;
}

/* The offset was nowhere before the call, and still is where nothing in the file is to blame: the text may be too long, or the rooms too short. */
static int file_refused(const char *what, uint32_t said, const uint64_t *offset)
{
    int no = refused(what, said);
    if (*offset != nowhere)
        printf("%s: the file is broken at offset %" PRIu64 "\n", what, *offset);
    return no;
}

static void print_finds(const struct rooms *rooms, uint64_t count, uint64_t letters)
{
    printf("found: %" PRIu64 " places, %" PRIu64 " letters read; the first:", count, letters);
    for (uint64_t i = 0; i < count && i < LIST; i++)
        printf(" %" PRIu32, rooms->finds[i]);
    printf("\n");
}

static uint32_t search_with(const uint8_t *file, size_t length, struct rooms *rooms, uint64_t *offset)
{
    uint64_t count, letters;
    uint32_t said = marks_search_file(file, length, text, text_len, rooms->word, MARKS_LONGEST_WORD, rooms->tables, MARKS_MOST_TABLES,
                                      rooms->finds, LIST, &count, &letters, offset);
    if (said == MARKS_OK)
        print_finds(rooms, count, letters);
    return said;
}

int main(void)
{
    struct rooms rooms;
    uint8_t mirror[MARK], file[MARKS_MOST_FILE];
    uint64_t m, length, count, letters, offset = nowhere;

    if (refused("build", marks_build(mark, MARK, rooms.tables, MARKS_MOST_TABLES, &m)))
        return 1;
    printf("built: %" PRIu64 " letters, %" PRIu64 " table entries\n", m, MARKS_TABLES(m));
    if (refused("search", marks_search(mark, MARK, text, text_len, rooms.tables, MARKS_MOST_TABLES, rooms.finds, LIST, &count, &letters)))
        return 1;
    print_finds(&rooms, count, letters);

    /* a file is used to look for the mirror of its word, so the mark is saved from its last letter to its first */
    for (int i = 0; i < MARK; i++)
        mirror[i] = mark[MARK - 1 - i];
    if (refused("save", marks_save(mirror, MARK, rooms.tables, MARKS_MOST_TABLES, file, MARKS_MOST_FILE, &length)))
        return 1;
    printf("saved: %" PRIu64 " bytes\n", length);
    if (file_refused("load", marks_load(file, length, rooms.word, MARKS_LONGEST_WORD, rooms.tables, MARKS_MOST_TABLES, &m, &offset), &offset))
        return 1;
    printf("loaded: %.*s\n", (int)m, (const char *)rooms.word);
    if (file_refused("search with the file", search_with(file, length, &rooms, &offset), &offset))
        return 1;

    /* The last byte, an arrow's number here, becomes another, and that shows. Where a letter does, a file of edition 1 may be that of another mark: to
     * notice this too, save with marks_save_checked, where all who load the file know edition 2. */
    file[length - 1] ^= 1;
    return !file_refused("search with a damaged file", search_with(file, length, &rooms, &offset), &offset);
}
