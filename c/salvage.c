/* A program to start from where uploads were cut: it lists the rides of one by their headers. The upload is made here, by the public FIT protocol
 * description: two rides, one behind the other, of which the second lost its end.
 *
 * A text longer than MARKS_LONGEST_TEXT is listed in parts that have 13 bytes in common, one fewer than the longest header has. A header that begins before
 * those is taken from the first part, any other from the next, and a ride that is cut in its part may still end within the text. */
#include <inttypes.h>
#include <stdio.h>
#include <string.h>

#include "marks.h"

/* what there is between header and check: the definition of a file_id message, and one, which says that the file is an activity */
static const uint8_t data[] = {0x40, 0, 0, 0, 0, 1, 0, 1, 0, 0, 4};

enum { HEADER = 14, CHECK = 2, RIDE = HEADER + sizeof data + CHECK, LOST = 6, LIST = 16 };

/* the check of FIT, a CRC-16, behind the bytes that it is of; marks_salvage does not test it */
static void put_check(uint8_t *bytes, size_t length)
{
    unsigned rest = 0;
    for (size_t bit = 0; bit < 8 * length; bit++) {
        rest ^= bit % 8 == 0 ? bytes[bit / 8] : 0;
        rest = rest >> 1 ^ (rest & 1 ? 0xa001 : 0);
    }
    bytes[length] = rest & 0xff;
    bytes[length + 1] = rest >> 8;
}

static void put_ride(uint8_t *ride)
{
    static const uint8_t header[HEADER - CHECK] = {HEADER, 0x20, 0x54, 0x08, sizeof data, 0, 0, 0, '.', 'F', 'I', 'T'};
    memcpy(ride, header, sizeof header);
    put_check(ride, sizeof header);
    memcpy(ride + HEADER, data, sizeof data);
    put_check(ride, HEADER + sizeof data);
}

int main(void)
{
    uint8_t upload[2 * RIDE], kinds[LIST];
    uint16_t tables[MARKS_RIDE_TABLES];
    uint32_t starts[LIST], said;
    uint64_t count;

    put_ride(upload);
    put_ride(upload + RIDE);
    said = marks_salvage(upload, sizeof upload - LOST, tables, MARKS_RIDE_TABLES, starts, LIST, kinds, LIST, &count);
    if (said != MARKS_OK) {
        printf("salvage: refused with %" PRIu32 ", %s\n", said, marks_meaning(said));
        return 1;
    }
    printf("%" PRIu64 " rides in %zu bytes\n", count, sizeof upload - LOST);
    for (uint64_t i = 0; i < count && i < LIST; i++)
        printf("at %" PRIu32 ": %s\n", starts[i], kinds[i] == MARKS_RIDE_WHOLE ? "whole" : "cut");
    return 0;
}
