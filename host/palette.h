/* Inks, three sRGB bytes each. */
#ifndef PALETTE_H
#define PALETTE_H

#include <stdbool.h>

#include "common.h"

/* The inks of a palette file, or of a seven-ink panel where name is null. False after a message. */
bool load_palette(const char *name, struct bytes *palette);

/* For each pixel the ink with the least sum of squared differences of its sRGB bytes; of equal ones the first. */
void nearest_inks(const struct bytes *pixels, const struct bytes *palette, uint8_t *indices);

#endif
