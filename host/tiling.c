#include "tiling.h"

#include "dbs.h"

enum { MIN_SIDE = 64 };

static uint64_t smaller(uint64_t a, uint64_t b) { return a < b ? a : b; }
static uint64_t larger(uint64_t a, uint64_t b) { return a > b ? a : b; }

struct tiling tiling_of_radius(uint64_t width, uint64_t height, uint64_t radius)
{
    uint64_t margin = radius + 1;   /* a swap's neighbour lies one pixel further */
    uint64_t side = larger(MIN_SIDE, 2 * margin + 1);
    return (struct tiling){
        .width = width, .height = height, .margin = margin, .side = side,
        .columns = (width + side - 1) / side, .rows = (height + side - 1) / side,
    };
}

struct tiling tiling_of_record(const uint64_t *record)
{
    return tiling_of_radius(record[DBS_WIDTH], record[DBS_HEIGHT],
                            larger(record[DBS_LUMINANCE_RADIUS], record[DBS_CHROMINANCE_RADIUS]));
}

size_t tile_count(const struct tiling *tiling)
{
    return (size_t)(tiling->columns * tiling->rows);
}

uint64_t tile_phase(const struct tiling *tiling, uint64_t tile)
{
    return tile % tiling->columns % 2 + 2 * (tile / tiling->columns % 2);
}

/* Length of the region of tile number i of a row or column of tiles. */
static uint64_t region_length(const struct tiling *tiling, uint64_t i, uint64_t limit)
{
    uint64_t start = i * tiling->side, end = smaller(start + tiling->side, limit);
    return smaller(end + tiling->margin, limit) - (start - smaller(start, tiling->margin));
}

size_t region_pixels(const struct tiling *tiling, uint64_t tile)
{
    return (size_t)(region_length(tiling, tile % tiling->columns, tiling->width)
                    * region_length(tiling, tile / tiling->columns, tiling->height));
}

size_t most_region_pixels(const struct tiling *tiling)
{
    uint64_t most = tiling->side + 2 * tiling->margin;
    return (size_t)(smaller(most, tiling->width) * smaller(most, tiling->height));
}
