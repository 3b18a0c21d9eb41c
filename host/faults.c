/* Faults for host/test, linked with --wrap: of the calls of calloc, pthread_create, dbs_work, dbs_find_move or
   dbs_recall the one fails, counted from 1, that FAIL_CALLOC, FAIL_PTHREAD_CREATE, FAIL_DBS_WORK, FAIL_DBS_FIND_MOVE or
   FAIL_DBS_RECALL in the environment names. FAIL_NUMBER and FAIL_PLACE name what dbs_work then answers. */
#include <errno.h>
#include <pthread.h>
#include <stdatomic.h>
#include <stdbool.h>
#include <stdlib.h>

#include "dbs.h"

/* The number that the variable names, 0 where there is none. */
static uint64_t named(const char *variable)
{
    const char *number = getenv(variable);
    return number != NULL ? strtoull(number, NULL, 10) : 0;
}

static bool fails(const char *variable, atomic_int *calls)
{
    int call = atomic_fetch_add(calls, 1) + 1;
    return named(variable) == (uint64_t)call;
}

void *__real_calloc(size_t count, size_t size);
void *__wrap_calloc(size_t count, size_t size);

void *__wrap_calloc(size_t count, size_t size)
{
    static atomic_int calls;
    return fails("FAIL_CALLOC", &calls) ? NULL : __real_calloc(count, size);
}

int __real_pthread_create(pthread_t *thread, const pthread_attr_t *attributes, void *(*start)(void *), void *argument);
int __wrap_pthread_create(pthread_t *thread, const pthread_attr_t *attributes, void *(*start)(void *), void *argument);

int __wrap_pthread_create(pthread_t *thread, const pthread_attr_t *attributes, void *(*start)(void *), void *argument)
{
    static atomic_int calls;
    return fails("FAIL_PTHREAD_CREATE", &calls) ? EAGAIN : __real_pthread_create(thread, attributes, start, argument);
}

#define WORK_ARGUMENTS                                                                                                \
    const uint64_t *record, size_t record_len, uint64_t tile, const uint8_t *pinned, size_t pinned_len,              \
        const double *cpp, size_t cpp_len, double *copy_cpe, size_t copy_cpe_len, dbs_index *copy_indices,           \
        size_t copy_indices_len, const double *inks, size_t inks_len

dbs_worked __real_dbs_work(WORK_ARGUMENTS);
dbs_worked __wrap_dbs_work(WORK_ARGUMENTS);

dbs_worked __wrap_dbs_work(WORK_ARGUMENTS)
{
    static atomic_int calls;
    if (fails("FAIL_DBS_WORK", &calls))
        return (dbs_worked){ .number = named("FAIL_NUMBER"), .place = named("FAIL_PLACE") };
    return __real_dbs_work(record, record_len, tile, pinned, pinned_len, cpp, cpp_len, copy_cpe, copy_cpe_len,
                           copy_indices, copy_indices_len, inks, inks_len);
}

#define FIND_ARGUMENTS                                                                                                \
    const uint8_t *pixels, size_t pixels_len, uint64_t width, uint64_t height, const uint8_t *palette,               \
        size_t palette_len, const dbs_index *indices, size_t indices_len, const uint8_t *pinned, size_t pinned_len,  \
        double ppi, double viewing_distance_cm, double *cpe, size_t cpe_len, double *cpp, size_t cpp_len,            \
        double *inks, size_t inks_len

dbs_found __real_dbs_find_move(FIND_ARGUMENTS);
dbs_found __wrap_dbs_find_move(FIND_ARGUMENTS);

dbs_found __wrap_dbs_find_move(FIND_ARGUMENTS)
{
    static atomic_int calls;
    if (fails("FAIL_DBS_FIND_MOVE", &calls))
        return (dbs_found){ .number = 11, .place = 8 };
    return __real_dbs_find_move(pixels, pixels_len, width, height, palette, palette_len, indices, indices_len, pinned,
                                pinned_len, ppi, viewing_distance_cm, cpe, cpe_len, cpp, cpp_len, inks, inks_len);
}

#define RECALL_ARGUMENTS                                                                                              \
    const uint64_t *record, size_t record_len, uint64_t tile, uint8_t *tile_states, size_t tile_states_len

dbs_status __real_dbs_recall(RECALL_ARGUMENTS);
dbs_status __wrap_dbs_recall(RECALL_ARGUMENTS);

dbs_status __wrap_dbs_recall(RECALL_ARGUMENTS)
{
    static atomic_int calls;
    if (fails("FAIL_DBS_RECALL", &calls))
        return (dbs_status){ .number = 14 };
    return __real_dbs_recall(record, record_len, tile, tile_states, tile_states_len);
}
