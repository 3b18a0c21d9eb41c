/* The command line. */
#ifndef OPTIONS_H
#define OPTIONS_H

#include <stdbool.h>
#include <stdint.h>

struct options {
    const char *picture, *palette, *pinned, *start;   /* files to read; null: none was named */
    const char *out, *out_indices, *out_start;        /* files to write */
    double ppi, viewing_distance_cm;
    uint64_t max_passes, threads, seed, lose;
    bool find_move, measure, no_check, help;
};

/* False after a message. */
bool parse_options(int count, char **words, struct options *options);

void print_usage(void);

#endif
