/* Binary netpbm files of one byte a sample: PPM (P6), three samples a pixel, and PGM (P5), one. */
#ifndef NETPBM_H
#define NETPBM_H

#include <stdbool.h>
#include <stdio.h>

#include "common.h"

/* Width and height from the header of a P6 or P5 file. False after a message. */
bool read_netpbm_header(FILE *file, const char *name, char kind, uint64_t *width, uint64_t *height);

/* The `len` samples after the header, which have to end the file. False after a message. */
bool read_netpbm_samples(FILE *file, const char *name, size_t len, struct bytes *samples);

/* A P6 file: each index in the colour of its ink. False after a message. */
bool halftone_ppm(uint64_t width, uint64_t height, const uint8_t *indices, const uint8_t *palette, struct bytes *file);

#endif
