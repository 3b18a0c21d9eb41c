#include "input.h"

#include <errno.h>
#include <inttypes.h>
#include <stdio.h>
#include <stdlib.h>
#include <string.h>

#include "files.h"
#include "netpbm.h"
#include "palette.h"
#include "refusal.h"

/* A size outside the limits is refused before its samples are read. Any other gets another refusal here. */
static bool size_taken(uint64_t width, uint64_t height)
{
    const uint8_t none[1] = { 0 };
    dbs_measured answer = perceived_error(none, 0, width, height, none, 0, none, 0, 1, 1);
    return answer.number != 1 || accepted("perceived_error", answer.number, answer.place, 0);
}

/* What the library says of an input while no buffer is lent: 11 where only those are missing, as no kernel store
   has length 0. So nothing large is allocated for an input that it refuses. */
static bool input_taken(const struct input *input)
{
    uint64_t record[DBS_RECORD_LEN] = { 0 };
    double cpe[1], cpp[1], deltas[1], inks[1];
    uint32_t accepted_per_pass[1];
    uint8_t tile_states[1];
    dbs_status answer = dbs_open(record, DBS_RECORD_LEN, input->pixels.at, input->pixels.len,
                                 input->width, input->height, input->palette.at, input->palette.len,
                                 input->indices.at, input->indices.len, input->pinned.at, input->pinned.len,
                                 input->ppi, input->viewing_distance_cm, input->max_passes, cpe, 0, cpp, 0,
                                 accepted_per_pass, 0, tile_states, 0, deltas, 0, inks, 0);
    return answer.number == 11 || accepted("dbs_open", answer.number, answer.place, input->width);
}

static bool load_picture(FILE *file, const char *name, struct input *input)
{
    return read_netpbm_header(file, name, '6', &input->width, &input->height)
        && size_taken(input->width, input->height)
        && read_netpbm_samples(file, name, 3 * (size_t)(input->width * input->height), &input->pixels);
}

/* 255 pins and 0 does not. Any other grey is a soft edge: it stays above 1, grey 1 as 2, so that the library refuses it
   at its pixel and it is not pinned unseen. */
static uint8_t pin_of_grey(uint8_t grey)
{
    return grey == 255 ? 1 : grey == 1 ? 2 : grey;
}

static bool load_pinned(FILE *file, const char *name, struct input *input)
{
    uint64_t width, height;
    if (!read_netpbm_header(file, name, '5', &width, &height))
        return false;
    if (width != input->width || height != input->height) {
        complain("%s: %" PRIu64 " x %" PRIu64 " pixels, but the picture has %" PRIu64 " x %" PRIu64, name,
                 width, height, input->width, input->height);
        return false;
    }
    if (!read_netpbm_samples(file, name, (size_t)(width * height), &input->pinned))
        return false;
    for (size_t i = 0; i < input->pinned.len; i++)
        input->pinned.at[i] = pin_of_grey(input->pinned.at[i]);
    return true;
}

static bool load_from(const char *name, bool (*load)(FILE *, const char *, struct input *), struct input *input)
{
    FILE *file = fopen(name, "rb");
    if (file == NULL) {
        complain("%s: %s", name, strerror(errno));
        return false;
    }
    bool done = load(file, name, input);
    fclose(file);
    return done;
}

static bool load_start(const char *name, struct input *input)
{
    size_t pixels = (size_t)(input->width * input->height);
    if (name != NULL)
        return read_file(name, pixels + 1, &input->indices);   /* one byte more shows that a file is too long */
    input->indices.at = allocate(pixels, 1);
    if (input->indices.at == NULL)
        return false;
    input->indices.len = pixels;
    nearest_inks(&input->pixels, &input->palette, input->indices.at);
    return true;
}

static bool load_parts(const struct options *options, struct input *input)
{
    if (!load_from(options->picture, load_picture, input) || !load_palette(options->palette, &input->palette))
        return false;
    if (options->pinned == NULL)
        input->pinned.at = allocate(0, 1);
    else
        load_from(options->pinned, load_pinned, input);
    return input->pinned.at != NULL && load_start(options->start, input) && input_taken(input);
}

bool load_input(const struct options *options, struct input *input)
{
    *input = (struct input){ .ppi = options->ppi, .viewing_distance_cm = options->viewing_distance_cm,
                             .max_passes = options->max_passes };
    if (load_parts(options, input))
        return true;
    free_input(input);
    return false;
}

void free_input(struct input *input)
{
    free(input->pixels.at);
    free(input->palette.at);
    free(input->indices.at);
    free(input->pinned.at);
}
