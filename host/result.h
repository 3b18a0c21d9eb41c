/* What a refinement leaves, and dbs_refine, which makes it on one thread. */
#ifndef RESULT_H
#define RESULT_H

#include <stdbool.h>

#include "dbs.h"
#include "input.h"

struct result {
    dbs_index *indices;
    double *cpe, *cpp, *inks;
    uint32_t *accepted_per_pass;
    uint64_t passes;
    double initial_error, final_error;
};

/* Buffers as long as the library wants them, the indices those of the input. False after a message. */
bool prepare_result(const struct input *input, struct result *result);

void free_result(struct result *result);

/* The first move that a pass from the input's start would accept. Uses floats of the result, which a refinement fills
   anew. False after a message. */
bool find_move(const struct input *input, struct result *result, dbs_found *found);

/* Refines by dbs_refine. False after a message. */
bool refine_alone(const struct input *input, struct result *result);

/* The first part in which two results of an input differ, floats by their bits; null where all is equal. */
const char *difference(const struct input *input, const struct result *a, const struct result *b);

#endif
