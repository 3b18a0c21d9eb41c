#include "result.h"

#include <stdlib.h>
#include <string.h>

#include "refusal.h"

bool prepare_result(const struct input *input, struct result *result)
{
    *result = (struct result){
        .indices = allocate(input->indices.len, sizeof(dbs_index)),
        .cpe = allocate(input->pixels.len, sizeof(double)),
        .cpp = allocate(DBS_KERNEL_STORE_LEN, sizeof(double)),
        .inks = allocate(input->palette.len, sizeof(double)),
        .accepted_per_pass = allocate((size_t)input->max_passes, sizeof(uint32_t)),
    };
    if (result->indices == NULL || result->cpe == NULL || result->cpp == NULL || result->inks == NULL
        || result->accepted_per_pass == NULL) {
        free_result(result);
        return false;
    }
    memcpy(result->indices, input->indices.at, input->indices.len);
    return true;
}

void free_result(struct result *result)
{
    free(result->indices);
    free(result->cpe);
    free(result->cpp);
    free(result->inks);
    free(result->accepted_per_pass);
}

bool find_move(const struct input *input, struct result *result, dbs_found *found)
{
    *found = dbs_find_move(input->pixels.at, input->pixels.len, input->width, input->height,
                           input->palette.at, input->palette.len, input->indices.at, input->indices.len,
                           input->pinned.at, input->pinned.len, input->ppi, input->viewing_distance_cm,
                           result->cpe, input->pixels.len, result->cpp, DBS_KERNEL_STORE_LEN,
                           result->inks, input->palette.len);
    return accepted("dbs_find_move", found->number, found->place, input->width);
}

bool refine_alone(const struct input *input, struct result *result)
{
    dbs_stats stats = dbs_refine(input->pixels.at, input->pixels.len, input->width, input->height,
                                 input->palette.at, input->palette.len, result->indices, input->indices.len,
                                 input->pinned.at, input->pinned.len, input->ppi, input->viewing_distance_cm,
                                 input->max_passes, result->cpe, input->pixels.len,
                                 result->cpp, DBS_KERNEL_STORE_LEN,
                                 result->accepted_per_pass, (size_t)input->max_passes,
                                 result->inks, input->palette.len);
    result->passes = stats.passes;
    result->initial_error = stats.initial_error;
    result->final_error = stats.final_error;
    return accepted("dbs_refine", stats.number, stats.place, input->width);
}

const char *difference(const struct input *input, const struct result *a, const struct result *b)
{
    if (memcmp(a->indices, b->indices, input->indices.len) != 0)
        return "indices";
    if (a->passes != b->passes)
        return "passes";
    if (memcmp(a->accepted_per_pass, b->accepted_per_pass, (size_t)input->max_passes * sizeof(uint32_t)) != 0)
        return "accepted_per_pass";
    if (memcmp(&a->initial_error, &b->initial_error, sizeof(double)) != 0)
        return "initial error";
    if (memcmp(&a->final_error, &b->final_error, sizeof(double)) != 0)
        return "final error";
    if (memcmp(a->cpe, b->cpe, input->pixels.len * sizeof(double)) != 0)
        return "cpe";
    if (memcmp(a->cpp, b->cpp, DBS_KERNEL_STORE_LEN * sizeof(double)) != 0)
        return "cpp";
    if (memcmp(a->inks, b->inks, input->palette.len * sizeof(double)) != 0)
        return "inks";
    return NULL;
}
