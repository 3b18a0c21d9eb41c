/* What is refined: a picture, inks, a start, pins, an eye. */
#ifndef INPUT_H
#define INPUT_H

#include <stdbool.h>

#include "common.h"
#include "dbs.h"
#include "options.h"

struct input {
    uint64_t width, height;
    struct bytes pixels, palette, indices, pinned;
    double ppi, viewing_distance_cm;
    uint64_t max_passes;
};

/* Reads what the options name; the library has then nothing to say against it. False after a message. */
bool load_input(const struct options *options, struct input *input);

void free_input(struct input *input);

#endif
