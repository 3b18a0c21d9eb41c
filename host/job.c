#include "job.h"

#include <pthread.h>
#include <stdlib.h>
#include <string.h>

#include "refusal.h"
#include "tiling.h"

enum { WAITING = 0 };   /* a tile state */

struct job {
    const struct input *input;
    struct result *result;
    void (*pass_done)(const struct pass *);
    struct tiling tiling;
    uint64_t *order;   /* every tile, in the order in which tiles are handed out */
    uint64_t lose;     /* copies whose number it divides are lost; 0: none */

    /* All below, and the indices and cpe of the result, are read and written under the lock. Pins, kernels and inks
       do not change while workers run. */
    pthread_mutex_t lock;
    pthread_cond_t phase_closed;   /* also where tiles were recalled or a call was refused */
    uint64_t record[DBS_RECORD_LEN];
    uint8_t *tile_states;
    double *deltas;
    size_t next;                   /* place in the order where the search for a waiting tile goes on */
    size_t out;                    /* copies that workers have */
    uint64_t taken;                /* copies that they have had in all */
    uint64_t *lost;                /* tiles whose copies are lost and which are still out */
    size_t lost_len;
    uint64_t tiles_back, recalls;  /* in this pass */
    bool failed;
};

struct worker {
    struct job *job;
    pthread_t thread;
    double *copy_cpe;              /* of a region: the worker's own */
    dbs_index *copy_indices;
};

static double error_of_bits(uint64_t bits)
{
    double error;
    memcpy(&error, &bits, sizeof error);
    return error;
}

/* Opens the job. How many tiles there are depends on the larger kernel radius, which only the library computes: the
   tiles have the same side up to radius 30, and another at 32. A refusal changes nothing, so both are tried. */
static bool open_job(struct job *job)
{
    static const uint64_t RADII[] = { 30, 32 };
    const struct input *input = job->input;
    struct result *result = job->result;
    dbs_status status = { 0, 0 };
    for (size_t i = 0; i < sizeof RADII / sizeof RADII[0]; i++) {
        struct tiling tiling = tiling_of_radius(input->width, input->height, RADII[i]);
        size_t tiles = tile_count(&tiling);
        free(job->tile_states);
        free(job->deltas);
        job->tile_states = allocate(tiles, 1);
        job->deltas = allocate(tiles, sizeof(double));
        if (job->tile_states == NULL || job->deltas == NULL)
            return false;
        status = dbs_open(job->record, DBS_RECORD_LEN, input->pixels.at, input->pixels.len, input->width, input->height,
                          input->palette.at, input->palette.len, result->indices, input->indices.len,
                          input->pinned.at, input->pinned.len, input->ppi, input->viewing_distance_cm,
                          input->max_passes, result->cpe, input->pixels.len, result->cpp, DBS_KERNEL_STORE_LEN,
                          result->accepted_per_pass, (size_t)input->max_passes, job->tile_states, tiles,
                          job->deltas, tiles, result->inks, input->palette.len);
        if (status.number != 11 || status.place != 4)
            break;
    }
    job->tiling = tiling_of_record(job->record);
    return accepted("dbs_open", status.number, status.place, input->width);
}

/* A step of splitmix64. */
static uint64_t random_number(uint64_t *state)
{
    uint64_t z = *state += 0x9e3779b97f4a7c15;
    z = (z ^ z >> 30) * 0xbf58476d1ce4e5b9;
    z = (z ^ z >> 27) * 0x94d049bb133111eb;
    return z ^ z >> 31;
}

static bool choose_order(struct job *job, uint64_t seed)
{
    size_t tiles = tile_count(&job->tiling);
    uint64_t state = seed;
    job->order = allocate(tiles, sizeof(uint64_t));
    if (job->order == NULL)
        return false;
    for (size_t i = 0; i < tiles; i++) {
        size_t j = seed == 0 ? i : (size_t)(random_number(&state) % (i + 1));
        job->order[i] = job->order[j];
        job->order[j] = i;
    }
    return true;
}

/* The next waiting tile of this phase, if there is one. */
static bool next_tile(struct job *job, uint64_t *tile)
{
    for (; job->next < tile_count(&job->tiling); job->next++) {
        *tile = job->order[job->next];
        if (tile_phase(&job->tiling, *tile) == job->record[DBS_PHASE] && job->tile_states[*tile] == WAITING)
            return true;
    }
    return false;
}

/* Takes the tile, refines it outside the lock and puts it back, unless its copy is one to lose. False after a
   message. */
static bool refine_tile(struct worker *worker, uint64_t tile)
{
    struct job *job = worker->job;
    const struct input *input = job->input;
    struct result *result = job->result;
    const size_t tiles = tile_count(&job->tiling), pixels = region_pixels(&job->tiling, tile);
    uint64_t record[DBS_RECORD_LEN];

    dbs_status status = dbs_take(job->record, DBS_RECORD_LEN, tile, result->indices, input->indices.len,
                                 result->cpe, input->pixels.len, job->tile_states, tiles,
                                 worker->copy_cpe, 3 * pixels, worker->copy_indices, pixels);
    if (!accepted("dbs_take", status.number, status.place, 0))
        return false;
    job->out++;
    job->taken++;
    const bool is_lost = job->lose > 0 && job->taken % job->lose == 0;
    memcpy(record, job->record, sizeof record);
    pthread_mutex_unlock(&job->lock);

    dbs_worked worked = dbs_work(record, DBS_RECORD_LEN, tile, input->pinned.at, input->pinned.len,
                                 result->cpp, DBS_KERNEL_STORE_LEN, worker->copy_cpe, 3 * pixels,
                                 worker->copy_indices, pixels, result->inks, input->palette.len);

    pthread_mutex_lock(&job->lock);
    job->out--;
    /* 6 has its place in the copy, 17 in the mask of the whole image. */
    if (!accepted("dbs_work", worked.number, worked.place, worked.number == 17 ? input->width : 0))
        return false;
    if (is_lost) {   /* as if the worker had been switched off: the tile stays out */
        job->lost[job->lost_len++] = tile;
        return true;
    }
    status = dbs_put_back(job->record, DBS_RECORD_LEN, tile, result->indices, input->indices.len,
                          result->cpe, input->pixels.len, job->tile_states, tiles, job->deltas, tiles,
                          worker->copy_cpe, 3 * pixels, worker->copy_indices, pixels, worked.accepted, worked.delta);
    if (!accepted("dbs_put_back", status.number, status.place, 0))
        return false;
    job->tiles_back++;
    return true;
}

/* Makes the tiles of lost copies waiting again, for whoever comes. False after a message. */
static bool recall_lost(struct job *job)
{
    for (; job->lost_len > 0; job->lost_len--) {
        dbs_status status = dbs_recall(job->record, DBS_RECORD_LEN, job->lost[job->lost_len - 1], job->tile_states,
                                       tile_count(&job->tiling));
        if (!accepted("dbs_recall", status.number, status.place, 0))
            return false;
        job->recalls++;
    }
    job->next = 0;
    return true;
}

/* Closes the phase once its tiles are back. False after a message. */
static bool close_phase(struct job *job)
{
    const size_t tiles = tile_count(&job->tiling);
    const uint32_t *counts = job->result->accepted_per_pass;
    const uint64_t passes = job->record[DBS_PASSES_DONE];
    dbs_status status = dbs_close(job->record, DBS_RECORD_LEN, job->result->accepted_per_pass,
                                  (size_t)job->input->max_passes, job->tile_states, tiles, job->deltas, tiles);
    if (!accepted("dbs_close", status.number, status.place, 0))
        return false;
    job->next = 0;
    if (job->record[DBS_PASSES_DONE] > passes) {
        struct pass pass = { passes + 1, job->tiles_back, job->recalls, counts[passes],
                             error_of_bits(job->record[DBS_FINAL_ERROR]) };
        job->pass_done(&pass);
        job->tiles_back = job->recalls = 0;
    }
    return true;
}

static void *work(void *argument)
{
    struct worker *worker = argument;
    struct job *job = worker->job;
    uint64_t tile;
    pthread_mutex_lock(&job->lock);
    while (!job->failed && !job->record[DBS_FINISHED]) {
        if (next_tile(job, &tile)) {
            if (!refine_tile(worker, tile))
                job->failed = true;
        } else if (job->lost_len == 0 && job->out > 0) {
            pthread_cond_wait(&job->phase_closed, &job->lock);
        } else if (job->lost_len > 0 ? recall_lost(job) : close_phase(job)) {
            pthread_cond_broadcast(&job->phase_closed);
        } else {
            job->failed = true;
        }
    }
    pthread_cond_broadcast(&job->phase_closed);
    pthread_mutex_unlock(&job->lock);
    return NULL;
}

static bool prepare_workers(struct job *job, struct worker *workers, unsigned threads)
{
    size_t most = most_region_pixels(&job->tiling);
    job->lost = allocate(tile_count(&job->tiling), sizeof(uint64_t));
    if (job->lost == NULL)
        return false;
    for (unsigned i = 0; i < threads; i++) {
        workers[i].job = job;
        workers[i].copy_cpe = allocate(3 * most, sizeof(double));
        workers[i].copy_indices = allocate(most, sizeof(dbs_index));
        if (workers[i].copy_cpe == NULL || workers[i].copy_indices == NULL)
            return false;
    }
    return true;
}

/* Runs the workers to the end of the job. Fewer than wanted do as well. */
static bool run_workers(struct job *job, struct worker *workers, unsigned threads)
{
    unsigned started = 0;
    for (int reason = 0; started < threads && reason == 0; started += reason == 0) {
        reason = pthread_create(&workers[started].thread, NULL, work, &workers[started]);
        if (reason != 0)
            complain("%u of %u threads started: %s", started, threads, strerror(reason));
    }
    for (unsigned i = 0; i < started; i++)
        pthread_join(workers[i].thread, NULL);
    return started > 0 && !job->failed;
}

static bool run_job(struct job *job, unsigned threads, uint64_t seed)
{
    struct worker *workers = allocate(threads, sizeof(struct worker));
    bool done = workers != NULL && open_job(job) && choose_order(job, seed) && prepare_workers(job, workers, threads)
        && run_workers(job, workers, threads);
    for (unsigned i = 0; workers != NULL && i < threads; i++) {
        free(workers[i].copy_cpe);
        free(workers[i].copy_indices);
    }
    free(workers);
    free(job->order);
    free(job->lost);
    free(job->tile_states);
    free(job->deltas);
    return done;
}

bool refine_shared(const struct input *input, unsigned threads, uint64_t seed, uint64_t lose,
                   void (*pass_done)(const struct pass *), struct result *result)
{
    struct job job = { .input = input, .result = result, .pass_done = pass_done, .lose = lose };
    if (pthread_mutex_init(&job.lock, NULL) != 0 || pthread_cond_init(&job.phase_closed, NULL) != 0) {
        complain("no lock for the workers");
        return false;
    }
    bool done = run_job(&job, threads, seed);
    pthread_cond_destroy(&job.phase_closed);
    pthread_mutex_destroy(&job.lock);
    result->passes = job.record[DBS_PASSES_DONE];
    result->initial_error = error_of_bits(job.record[DBS_INITIAL_ERROR]);
    result->final_error = error_of_bits(job.record[DBS_FINAL_ERROR]);
    return done;
}
