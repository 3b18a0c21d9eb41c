/* Tiles of an image: their number, their phases and the sizes of their regions, from a job record. */
#ifndef TILING_H
#define TILING_H

#include <stdbool.h>
#include <stddef.h>
#include <stdint.h>

struct tiling { uint64_t width, height, margin, side, columns, rows; };

/* The tiling of an image whose larger kernel radius is this. */
struct tiling tiling_of_radius(uint64_t width, uint64_t height, uint64_t radius);

struct tiling tiling_of_record(const uint64_t *record);

size_t tile_count(const struct tiling *tiling);

uint64_t tile_phase(const struct tiling *tiling, uint64_t tile);

/* Pixels of a tile's region: the tile widened by the margin, cut at the image. */
size_t region_pixels(const struct tiling *tiling, uint64_t tile);

/* The most pixels that a region has. */
size_t most_region_pixels(const struct tiling *tiling);

#endif
