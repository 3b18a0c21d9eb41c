/* An example host of the colour DBS refiner: reads a picture, refines a halftone of it on several threads, and
   says whether the threads' result is that of dbs_refine. */
#include <inttypes.h>
#include <stdio.h>
#include <stdlib.h>

#include "files.h"
#include "input.h"
#include "job.h"
#include "netpbm.h"
#include "options.h"
#include "refusal.h"
#include "result.h"

enum { DONE = 0, DIFFERENT = 1, FAILED = 2 };

static void print_pass(const struct pass *pass)
{
    printf("pass %" PRIu64 ": %" PRIu64 " tiles back, ", pass->number, pass->tiles_back);
    if (pass->recalls > 0)
        printf("%" PRIu64 " recalls, ", pass->recalls);
    printf("%" PRIu64 " moves, error %.9g\n", pass->accepted, pass->error);
    fflush(stdout);
}

static bool print_first_move(const struct input *input, struct result *result)
{
    dbs_found found;
    if (!find_move(input, result, &found))
        return false;
    if (found.found == 0)
        puts("start: settled, no move would be accepted");
    else
        printf("start: not settled, first move at pixel %" PRIu64 " (column %" PRIu64 ", row %" PRIu64 "): %s, "
               "cost %.9g\n", found.pixel, found.pixel % input->width, found.pixel / input->width,
               found.kind == DBS_SWAP ? "swap" : "toggle", found.cost);
    return true;
}

static bool print_measured(const struct input *input, const char *what, const dbs_index *indices)
{
    dbs_measured answer = perceived_error(input->pixels.at, input->pixels.len, input->width, input->height,
                                          input->palette.at, input->palette.len, indices, input->indices.len,
                                          input->ppi, input->viewing_distance_cm);
    if (!accepted("perceived_error", answer.number, answer.place, input->width))
        return false;
    printf("perceived_error of the %s: %.9g\n", what, answer.error);
    return true;
}

/* Runs dbs_refine on the same input and says whether its result is the workers'. */
static int check(const struct input *input, const struct result *shared)
{
    struct result alone;
    if (!prepare_result(input, &alone))
        return FAILED;
    int status = FAILED;
    if (refine_alone(input, &alone)) {
        const char *part = difference(input, shared, &alone);
        status = part == NULL ? DONE : DIFFERENT;
        if (part == NULL)
            puts("equal to dbs_refine: indices, counts, passes, and every bit of errors, cpe, cpp and inks");
        else
            printf("DIFFERENT from dbs_refine: %s\n", part);
    }
    free_result(&alone);
    return status;
}

static int write_results(const struct options *options, const struct input *input, const struct result *result)
{
    enum { HALFTONE, INDICES, START, OUTPUTS };
    struct output outputs[OUTPUTS] = {
        [HALFTONE] = { .name = options->out },
        [INDICES] = { .name = options->out_indices, .bytes = { result->indices, input->indices.len } },
        [START] = { .name = options->out_start },
    };
    bool done = halftone_ppm(input->width, input->height, result->indices, input->palette.at, &outputs[HALFTONE].bytes)
        && halftone_ppm(input->width, input->height, input->indices.at, input->palette.at, &outputs[START].bytes)
        && write_outputs(outputs, OUTPUTS);
    free(outputs[HALFTONE].bytes.at);
    free(outputs[START].bytes.at);
    return done ? DONE : FAILED;
}

static int refine(const struct options *options, const struct input *input, struct result *result)
{
    if (options->find_move && !print_first_move(input, result))
        return FAILED;
    if (!refine_shared(input, (unsigned)options->threads, options->seed, options->lose, print_pass, result))
        return FAILED;
    printf("error %.9g before, %.9g after %" PRIu64 " passes\n", result->initial_error, result->final_error,
           result->passes);
    if (options->measure
        && !(print_measured(input, "start", input->indices.at) && print_measured(input, "result", result->indices)))
        return FAILED;
    int status = options->no_check ? DONE : check(input, result);
    return status == DONE ? write_results(options, input, result) : status;
}

int main(int count, char **words)
{
    struct options options;
    struct input input;
    struct result result;
    if (!parse_options(count, words, &options))
        return FAILED;
    if (options.help) {
        print_usage();
        return DONE;
    }
    const struct output outputs[] = { { .name = options.out }, { .name = options.out_indices },
                                      { .name = options.out_start } };
    if (!check_outputs(outputs, sizeof outputs / sizeof outputs[0]) || !load_input(&options, &input))
        return FAILED;
    int status = FAILED;
    if (prepare_result(&input, &result)) {
        status = refine(&options, &input, &result);
        free_result(&result);
    }
    free_input(&input);
    return status;
}
