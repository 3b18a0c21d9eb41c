/* Refusals of the library in words. */
#ifndef REFUSAL_H
#define REFUSAL_H

#include <stdbool.h>
#include <stdint.h>

/* False after a message with number, place and their meaning where a call was refused, else true. `width` is that of
   the image whose pixel a place may name, or 0. */
bool accepted(const char *call, uint64_t number, uint64_t place, uint64_t width);

#endif
