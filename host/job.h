/* A refinement whose tiles are shared by workers on threads of their own. */
#ifndef JOB_H
#define JOB_H

#include <stdbool.h>

#include "input.h"
#include "result.h"

/* A pass that has just ended: its number from 1, the tiles put back, recalls and moves accepted in it, the error after
   it. */
struct pass { uint64_t number, tiles_back, recalls, accepted; double error; };

/* Refines by a job on so many threads. Tiles are handed out by ascending number, or for a seed other than 0 in an order
   drawn with it; they come back as the workers finish. Of the copies taken, counted from 1, those whose number `lose`
   divides are lost and their tiles recalled: for 0 none, and for 1 without end. `pass_done` is called once a pass.
   False after a message. */
bool refine_shared(const struct input *input, unsigned threads, uint64_t seed, uint64_t lose,
                   void (*pass_done)(const struct pass *), struct result *result);

#endif
