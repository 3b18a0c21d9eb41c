#include "refusal.h"

#include <inttypes.h>
#include <stdio.h>

#include "common.h"

static const char *const MEANINGS[] = {
    [1] = "width has to be 1 to 4096, height 0 to 4096",
    [2] = "the picture has to have 3 bytes for each pixel",
    [3] = "the indices have to be a byte for each pixel",
    [4] = "the pin mask has to be empty or a byte for each pixel",
    [5] = "the palette has to have 1 to 256 inks of 3 bytes",
    [6] = "an index names no ink",
    [7] = "pixels per inch have to be finite and above 0",
    [8] = "the viewing distance has to be finite and above 0",
    [9] = "the eye's blur is outside its limits at this distance and resolution",
    [10] = "at most 1000 passes",
    [11] = "a buffer has the wrong length",
    [12] = "the job record holds a value outside its limits, or the count put back is too large",
    [13] = "the tile is not in this phase",
    [14] = "the tile to take is not waiting, or the tile to put back or recall is not out",
    [15] = "a tile of this phase is not back",
    [16] = "the job is finished",
    [17] = "a byte of the pin mask is neither 0 nor 1, in a PGM file neither 0 nor 255",
};

static const char *const BUFFERS[] = {
    [1] = "cpe", [2] = "cpp", [3] = "accepted_per_pass", [4] = "tile_states", [5] = "deltas",
    [6] = "copy_cpe", [7] = "copy_indices", [8] = "inks",
};

enum { MEANINGS_LEN = sizeof MEANINGS / sizeof MEANINGS[0], BUFFERS_LEN = sizeof BUFFERS / sizeof BUFFERS[0] };

/* What a place means, for the numbers whose place says something. */
static void describe_place(uint64_t number, uint64_t place, uint64_t width, char *text, size_t size)
{
    text[0] = '\0';
    if ((number == 6 || number == 17) && width > 0)
        snprintf(text, size, ": pixel %" PRIu64 ", in column %" PRIu64 " of row %" PRIu64 " from 0", place,
                 place % width, place / width);
    else if (number == 9)
        snprintf(text, size, ": %s", place == 0 ? "luminance, too narrow" : "chrominance, too wide");
    else if (number == 11 && place > 0 && place < BUFFERS_LEN)
        snprintf(text, size, ": %s", BUFFERS[place]);
    else if (number == 15)
        snprintf(text, size, ": tile %" PRIu64, place);
}

bool accepted(const char *call, uint64_t number, uint64_t place, uint64_t width)
{
    if (number == 0)
        return true;
    char where[120];
    describe_place(number, place, width, where, sizeof where);
    complain("%s refused with number %" PRIu64 ", place %" PRIu64 ": %s%s", call, number, place,
             number < MEANINGS_LEN ? MEANINGS[number] : "a number that this host does not know", where);
    return false;
}
