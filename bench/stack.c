/* Prints the bytes of stack that each exported call takes, its arguments included: it runs on a thread whose stack was
   painted, and the paint that is gone afterwards is counted. Link with -Wl,-z,now, so that no symbol is looked up within. */
#include <pthread.h>
#include <stdint.h>
#include <stdio.h>
#include <stdlib.h>
#include <string.h>

#include "../host/tiling.h"
#include "dbs.h"

enum { STACK = 4 << 20, PAINT = 0xa5 };
enum { WIDTH = 200, HEIGHT = 120, N = WIDTH * HEIGHT, INKS = 7, PASSES = 2, TILES = 8 };

/* An image and all that the calls are lent. At both eyes it has tiles within its edges and tiles cut by them. */
struct state {
    double ppi;
    uint64_t record[DBS_RECORD_LEN], tile, accepted;
    size_t tiles, region;
    uint8_t pixels[3 * N], palette[3 * INKS], indices[N], pinned[N], tile_states[TILES];
    uint32_t accepted_per_pass[PASSES];
    double cpe[3 * N], cpp[DBS_KERNEL_STORE_LEN], inks[3 * INKS], deltas[TILES];
    double copy_cpe[3 * N], delta;
    uint8_t copy_indices[N];
};

typedef uint64_t call(struct state *s);   /* the number that the call answered */

static uint64_t nothing(struct state *s)
{
    return s->ppi > 0 ? 0 : 1;
}

static uint64_t refine(struct state *s)
{
    return dbs_refine(s->pixels, 3 * N, WIDTH, HEIGHT, s->palette, 3 * INKS, s->indices, N, s->pinned, N, s->ppi, 40,
                      PASSES, s->cpe, 3 * N, s->cpp, DBS_KERNEL_STORE_LEN, s->accepted_per_pass, PASSES, s->inks,
                      3 * INKS).number;
}

static uint64_t measure(struct state *s)
{
    return perceived_error(s->pixels, 3 * N, WIDTH, HEIGHT, s->palette, 3 * INKS, s->indices, N, s->ppi, 40).number;
}

static uint64_t find_move(struct state *s)
{
    return dbs_find_move(s->pixels, 3 * N, WIDTH, HEIGHT, s->palette, 3 * INKS, s->indices, N, s->pinned, N, s->ppi, 40,
                         s->cpe, 3 * N, s->cpp, DBS_KERNEL_STORE_LEN, s->inks, 3 * INKS).number;
}

static uint64_t open_job(struct state *s)
{
    return dbs_open(s->record, DBS_RECORD_LEN, s->pixels, 3 * N, WIDTH, HEIGHT, s->palette, 3 * INKS, s->indices, N,
                    s->pinned, N, s->ppi, 40, PASSES, s->cpe, 3 * N, s->cpp, DBS_KERNEL_STORE_LEN,
                    s->accepted_per_pass, PASSES, s->tile_states, s->tiles, s->deltas, s->tiles, s->inks,
                    3 * INKS).number;
}

static uint64_t take(struct state *s)
{
    return dbs_take(s->record, DBS_RECORD_LEN, s->tile, s->indices, N, s->cpe, 3 * N, s->tile_states, s->tiles,
                    s->copy_cpe, 3 * s->region, s->copy_indices, s->region).number;
}

static uint64_t work(struct state *s)
{
    dbs_worked worked = dbs_work(s->record, DBS_RECORD_LEN, s->tile, s->pinned, N, s->cpp, DBS_KERNEL_STORE_LEN,
                                 s->copy_cpe, 3 * s->region, s->copy_indices, s->region, s->inks, 3 * INKS);
    s->accepted = worked.accepted;
    s->delta = worked.delta;
    return worked.number;
}

static uint64_t put_back(struct state *s)
{
    return dbs_put_back(s->record, DBS_RECORD_LEN, s->tile, s->indices, N, s->cpe, 3 * N, s->tile_states, s->tiles,
                        s->deltas, s->tiles, s->copy_cpe, 3 * s->region, s->copy_indices, s->region, s->accepted,
                        s->delta).number;
}

static uint64_t recall(struct state *s)
{
    return dbs_recall(s->record, DBS_RECORD_LEN, s->tile, s->tile_states, s->tiles).number;
}

static uint64_t close_phase(struct state *s)
{
    return dbs_close(s->record, DBS_RECORD_LEN, s->accepted_per_pass, PASSES, s->tile_states, s->tiles, s->deltas,
                     s->tiles).number;
}

struct run { call *call; struct state *state; unsigned char *stack; uint64_t number; size_t used; };

static void *run_call(void *argument)
{
    struct run *run = argument;
    const unsigned char *here = __builtin_frame_address(0), *lowest = run->stack;
    run->number = run->call(run->state);
    while (*lowest == PAINT)
        lowest++;
    run->used = (size_t)(here - lowest);
    return NULL;
}

/* The stack that a call used; the program ends where it is refused. */
static size_t used(call *call, struct state *state, unsigned char *stack)
{
    struct run run = { call, state, stack, 0, 0 };
    pthread_attr_t attributes;
    pthread_t thread;
    memset(stack, PAINT, STACK);
    if (pthread_attr_init(&attributes) != 0 || pthread_attr_setstack(&attributes, stack, STACK) != 0
        || pthread_create(&thread, &attributes, run_call, &run) != 0 || pthread_join(thread, NULL) != 0) {
        fputs("stack: no thread\n", stderr);
        exit(1);
    }
    pthread_attr_destroy(&attributes);
    if (run.number != 0) {
        fprintf(stderr, "stack: refused with number %llu\n", (unsigned long long)run.number);
        exit(1);
    }
    return run.used;
}

static void fill(struct state *s, double ppi)
{
    memset(s, 0, sizeof *s);
    s->ppi = ppi;
    for (int i = 0; i < N; i++) {
        int x = i % WIDTH, y = i / WIDTH;
        s->pixels[3 * i] = (uint8_t)x;
        s->pixels[3 * i + 1] = (uint8_t)(2 * y);
        s->pixels[3 * i + 2] = (uint8_t)(x + y);
        s->indices[i] = (uint8_t)((x * 5 + y * 3) % INKS);
        s->pinned[i] = x % 11 == 0;
    }
    for (int i = 0; i < 3 * INKS; i++)
        s->palette[i] = (uint8_t)(i * 97 % 256);
}

enum { REFINE, MEASURE, FIND_MOVE, OPEN, TAKE, WORK, PUT_BACK, RECALL, CLOSE, CALLS };

static void keep_most(size_t *most, size_t bytes)
{
    if (bytes > *most)
        *most = bytes;
}

/* Every call at one eye; the larger kernel radius at it tells how many tiles there are. */
static void measure_eye(struct state *s, unsigned char *stack, double ppi, uint64_t radius, size_t *most)
{
    struct tiling tiling = tiling_of_radius(WIDTH, HEIGHT, radius);
    fill(s, ppi);
    most[REFINE] = used(refine, s, stack);
    fill(s, ppi);
    s->tiles = tile_count(&tiling);
    most[MEASURE] = used(measure, s, stack);
    most[FIND_MOVE] = used(find_move, s, stack);
    most[OPEN] = used(open_job, s, stack);
    for (s->tile = 0; s->tile < s->tiles; s->tile++) {
        if (tile_phase(&tiling, s->tile) != 0)
            continue;
        s->region = region_pixels(&tiling, s->tile);
        keep_most(&most[TAKE], used(take, s, stack));
        keep_most(&most[RECALL], used(recall, s, stack));
        keep_most(&most[TAKE], used(take, s, stack));
        keep_most(&most[WORK], used(work, s, stack));
        keep_most(&most[PUT_BACK], used(put_back, s, stack));
    }
    most[CLOSE] = used(close_phase, s, stack);
    for (int i = 0; i < CALLS; i++)
        most[i] -= used(nothing, s, stack);
}

int main(void)
{
    static const char *const NAMES[CALLS] = { "dbs_refine", "perceived_error", "dbs_find_move", "dbs_open", "dbs_take",
                                              "dbs_work", "dbs_put_back", "dbs_recall", "dbs_close" };
    struct state *s = malloc(sizeof *s);
    unsigned char *stack = aligned_alloc(4096, STACK);
    size_t common[CALLS] = { 0 }, fine[CALLS] = { 0 };
    if (s == NULL || stack == NULL)
        return 1;
    measure_eye(s, stack, 127, 12, common);
    measure_eye(s, stack, 340, 32, fine);
    printf("%-16s %12s %12s\n", "bytes of stack", "127 per inch", "340 per inch");
    for (int i = 0; i < CALLS; i++)
        printf("%-16s %12zu %12zu\n", NAMES[i], common[i], fine[i]);
    free(stack);
    free(s);
    return 0;
}
