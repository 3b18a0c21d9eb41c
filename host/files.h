/* Raw files, and outputs that are all written or none. */
#ifndef FILES_H
#define FILES_H

#include <stdbool.h>
#include <stdio.h>

#include "common.h"

/* All functions: false after a message. */

/* The bytes that a file still has, at most `limit` of them. */
bool read_bytes(FILE *file, const char *name, size_t limit, struct bytes *bytes);

/* A whole file, or its first `limit` bytes. */
bool read_file(const char *name, size_t limit, struct bytes *bytes);

struct output {
    const char *name;   /* null: not wanted */
    struct bytes bytes;
    char *temporary;    /* null but while outputs are written */
};

/* Are the names fit to be written: different, and regular files where they exist? */
bool check_outputs(const struct output *outputs, size_t count);

/* Each output is written under a temporary name beside its own; once all are, they are renamed. */
bool write_outputs(struct output *outputs, size_t count);

#endif
