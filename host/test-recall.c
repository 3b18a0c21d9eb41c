/* Tests dbs_recall for host/test, on a job of four tiles: what it refuses, all of the job left as it was; a job with
   lost copies, which ends as dbs_refine does. Silent where nothing is wrong. */
#include <inttypes.h>
#include <stdbool.h>
#include <stdio.h>
#include <stdlib.h>
#include <string.h>

#include "dbs.h"
#include "tiling.h"

/* A row of pixels: tiles 0 and 2 are those of phase 0, tiles 1 and 3 those of phase 1. */
enum { N = 200, TILES = 4, INKS = 2, PASSES = 2 };
enum { WAITING = 0, OUT = 1 };

/* Record and tile states have room for one more than the library wants. */
struct job {
    uint64_t record[DBS_RECORD_LEN + 1];
    uint8_t tile_states[TILES + 1];
    dbs_index indices[N];
    uint32_t accepted_per_pass[PASSES];
    double cpe[3 * N], cpp[DBS_KERNEL_STORE_LEN], inks[3 * INKS], deltas[TILES];
};

struct copy { double cpe[3 * N]; dbs_index indices[N]; dbs_worked worked; };

static const uint8_t PALETTE[3 * INKS] = { 0, 0, 0, 255, 255, 255 };
static const uint8_t NO_PINS[1] = { 0 };
static uint8_t pixels[3 * N];

static void expect(const char *what, bool holds)
{
    if (holds)
        return;
    fprintf(stderr, "test-recall: not so: %s\n", what);
    exit(1);
}

static void answers(const char *what, dbs_status status, uint64_t number, uint64_t place)
{
    if (status.number == number && status.place == place)
        return;
    fprintf(stderr, "test-recall: %s: number %" PRIu64 ", place %" PRIu64 ", not %" PRIu64 ", %" PRIu64 "\n", what,
            status.number, status.place, number, place);
    exit(1);
}

static size_t region(const struct job *job, uint64_t tile)
{
    struct tiling tiling = tiling_of_record(job->record);
    return region_pixels(&tiling, tile);
}

static void open_job(struct job *job)
{
    dbs_status status = dbs_open(job->record, DBS_RECORD_LEN, pixels, 3 * N, N, 1, PALETTE, 3 * INKS, job->indices, N,
                                 NO_PINS, 0, 127, 40, PASSES, job->cpe, 3 * N, job->cpp, DBS_KERNEL_STORE_LEN,
                                 job->accepted_per_pass, PASSES, job->tile_states, TILES, job->deltas, TILES,
                                 job->inks, 3 * INKS);
    answers("open", status, 0, 0);
}

static void take(struct job *job, uint64_t tile, struct copy *copy)
{
    size_t len = region(job, tile);
    memset(copy, 0, sizeof *copy);
    dbs_status status = dbs_take(job->record, DBS_RECORD_LEN, tile, job->indices, N, job->cpe, 3 * N, job->tile_states,
                                 TILES, copy->cpe, 3 * len, copy->indices, len);
    answers("take", status, 0, 0);
}

static void work(const struct job *job, uint64_t tile, struct copy *copy)
{
    size_t len = region(job, tile);
    copy->worked = dbs_work(job->record, DBS_RECORD_LEN, tile, NO_PINS, 0, job->cpp, DBS_KERNEL_STORE_LEN,
                            copy->cpe, 3 * len, copy->indices, len, job->inks, 3 * INKS);
    expect("work accepted", copy->worked.number == 0);
}

static dbs_status put_back(struct job *job, uint64_t tile, const struct copy *copy)
{
    size_t len = region(job, tile);
    return dbs_put_back(job->record, DBS_RECORD_LEN, tile, job->indices, N, job->cpe, 3 * N, job->tile_states, TILES,
                        job->deltas, TILES, copy->cpe, 3 * len, copy->indices, len, copy->worked.accepted,
                        copy->worked.delta);
}

static dbs_status recall(struct job *job, uint64_t tile)
{
    return dbs_recall(job->record, DBS_RECORD_LEN, tile, job->tile_states, TILES);
}

/* The recall is refused so, and no byte of the job changes. */
static void refused(const char *what, struct job *job, size_t record_len, uint64_t tile, size_t tile_states_len,
                    uint64_t number, uint64_t place)
{
    static struct job before;
    memcpy(&before, job, sizeof before);
    answers(what, dbs_recall(job->record, record_len, tile, job->tile_states, tile_states_len), number, place);
    expect("a refusal changes nothing", memcmp(&before, job, sizeof before) == 0);
}

/* Refused with 12 where the record has this value. */
static void refused_record(struct job *job, int word, uint64_t value)
{
    const uint64_t kept = job->record[word];
    job->record[word] = value;
    refused("a value outside its limits", job, DBS_RECORD_LEN, 0, TILES, 12, 0);
    job->record[word] = kept;
}

/* On a job whose tile 0 is out while the others wait. */
static void test_refusals(struct job *job)
{
    static const uint8_t NOT_OUT[] = { WAITING, 2, 3, 17, 255 };
    refused("a run too short", job, DBS_RECORD_LEN - 1, 0, TILES, 12, 0);
    refused("a run too long", job, DBS_RECORD_LEN + 1, 0, TILES, 12, 0);
    refused("no run", job, 0, 0, TILES, 12, 0);
    refused_record(job, DBS_WIDTH, 0);
    refused_record(job, DBS_LUMINANCE_RADIUS, 3);
    refused_record(job, DBS_PHASE, 4);
    refused_record(job, DBS_FINISHED, 2);
    refused("no such tile", job, DBS_RECORD_LEN, TILES, TILES, 13, 0);
    refused("no such tile", job, DBS_RECORD_LEN, UINT64_MAX, TILES, 13, 0);
    job->tile_states[1] = OUT;
    refused("a tile of another phase", job, DBS_RECORD_LEN, 1, TILES, 13, 0);
    refused("13 before 11", job, DBS_RECORD_LEN, 1, TILES - 1, 13, 0);
    job->tile_states[1] = WAITING;
    refused("a tile state too few", job, DBS_RECORD_LEN, 0, TILES - 1, 11, 4);
    refused("a tile state too many", job, DBS_RECORD_LEN, 0, TILES + 1, 11, 4);
    refused("no tile states", job, DBS_RECORD_LEN, 0, 0, 11, 4);
    refused("11 before 14", job, DBS_RECORD_LEN, 2, TILES + 1, 11, 4);
    for (size_t i = 0; i < sizeof NOT_OUT; i++) {
        job->tile_states[2] = NOT_OUT[i];
        refused("a tile that is not out", job, DBS_RECORD_LEN, 2, TILES, 14, 0);
    }
    job->tile_states[2] = WAITING;
}

static void test_finished(struct job *job)
{
    job->tile_states[0] = OUT;
    refused("a finished job", job, DBS_RECORD_LEN, 0, TILES, 16, 0);
    refused("16 before 13", job, DBS_RECORD_LEN, TILES, TILES, 16, 0);
    refused("16 before 11", job, DBS_RECORD_LEN, 0, TILES + 1, 16, 0);
    refused("12 before 16", job, DBS_RECORD_LEN + 1, 0, TILES, 12, 0);
}

/* Recalls the tile twice, and brings what came of its third copy, or late of the first, which is equal. */
static void refine_tile(struct job *job, uint64_t tile, bool late)
{
    static struct job before, recalled;
    static struct copy first, second;
    memcpy(&before, job, sizeof before);
    take(job, tile, &first);
    answers("recall", recall(job, tile), 0, 0);
    expect("take and recall leave the job as it was", memcmp(&before, job, sizeof before) == 0);
    refused("a tile recalled before", job, DBS_RECORD_LEN, tile, TILES, 14, 0);

    take(job, tile, &second);
    expect("the second copy is the first", memcmp(&first, &second, sizeof first) == 0);
    work(job, tile, &first);
    work(job, tile, &second);
    answers("recall", recall(job, tile), 0, 0);
    memcpy(&recalled, job, sizeof recalled);
    answers("put back after a recall", put_back(job, tile, &second), 14, 0);
    expect("a refusal changes nothing", memcmp(&recalled, job, sizeof recalled) == 0);

    take(job, tile, &second);
    work(job, tile, &second);
    answers("put back", put_back(job, tile, late ? &first : &second), 0, 0);
    refused("a tile that is back", job, DBS_RECORD_LEN, tile, TILES, 14, 0);
}

static void test_refined(const struct job *job)
{
    static struct job alone;
    for (int i = 0; i < N; i++)
        alone.indices[i] = i % 2;
    dbs_stats stats = dbs_refine(pixels, 3 * N, N, 1, PALETTE, 3 * INKS, alone.indices, N, NO_PINS, 0, 127, 40, PASSES,
                                 alone.cpe, 3 * N, alone.cpp, DBS_KERNEL_STORE_LEN, alone.accepted_per_pass, PASSES,
                                 alone.inks, 3 * INKS);
    expect("refine accepted", stats.number == 0 && alone.accepted_per_pass[0] > 0);
    expect("indices of dbs_refine", memcmp(alone.indices, job->indices, sizeof alone.indices) == 0);
    expect("cpe of dbs_refine", memcmp(alone.cpe, job->cpe, sizeof alone.cpe) == 0);
    expect("counts of dbs_refine", memcmp(alone.accepted_per_pass, job->accepted_per_pass,
                                          sizeof alone.accepted_per_pass) == 0);
    expect("error of dbs_refine", memcmp(&stats.final_error, &job->record[DBS_FINAL_ERROR], sizeof(double)) == 0);
}

int main(void)
{
    static struct job job;
    static struct copy copy;
    for (int i = 0; i < 3 * N; i++)
        pixels[i] = (uint8_t)(i * 2 / 5);
    for (int i = 0; i < N; i++)
        job.indices[i] = i % 2;
    open_job(&job);
    take(&job, 0, &copy);
    test_refusals(&job);
    answers("recall", recall(&job, 0), 0, 0);
    while (!job.record[DBS_FINISHED]) {
        struct tiling tiling = tiling_of_record(job.record);
        for (uint64_t tile = 0; tile < TILES; tile++)
            if (tile_phase(&tiling, tile) == job.record[DBS_PHASE])
                refine_tile(&job, tile, tile % 4 < 2);
        answers("close", dbs_close(job.record, DBS_RECORD_LEN, job.accepted_per_pass, PASSES, job.tile_states, TILES,
                                   job.deltas, TILES), 0, 0);
    }
    test_refined(&job);
    test_finished(&job);
    return 0;
}
