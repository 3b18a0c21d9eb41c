/* Bytes, memory and messages. */
#ifndef COMMON_H
#define COMMON_H

#include <stddef.h>
#include <stdint.h>

/* Once filled, `at` is never null: the library wants an address even for an empty slice. */
struct bytes { uint8_t *at; size_t len; };

/* A line to standard error, after the name of the program. */
#ifdef __GNUC__
__attribute__((format(printf, 1, 2)))
#endif
void complain(const char *format, ...);

/* Zeroed memory, also for no elements; null after a message where there is none left. */
void *allocate(size_t count, size_t size);

#endif
