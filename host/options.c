#include "options.h"

#include <ctype.h>
#include <errno.h>
#include <stdio.h>
#include <stdlib.h>
#include <string.h>

#include "common.h"

enum { MAX_THREADS = 256 };

void print_usage(void)
{
    fputs("usage: dbs-host [options] PICTURE.ppm\n"
          "Refines a halftone of the picture (binary PPM, maxval 255) on several threads.\n"
          "  --palette FILE      inks, a line each: red green blue (0 to 255), then anything;\n"
          "                      default: a panel of seven inks\n"
          "  --pinned FILE.pgm   pixels that keep their ink (binary PGM, maxval 255): 255 pins a pixel, 0 does\n"
          "                      not, any other grey is refused\n"
          "  --start FILE        starting indices, a byte for each pixel;\n"
          "                      default: for each pixel the nearest ink, by distance in sRGB\n"
          "  --ppi X             pixels per inch of the panel; default 127\n"
          "  --distance X        viewing distance in cm; default 40\n"
          "  --passes N          passes allowed; default 10\n"
          "  --threads N         workers, 1 to 256; default 2\n"
          "  --shuffle SEED      hand tiles out in the random order of this seed; default 0: ascending\n"
          "  --lose N            lose every Nth copy that is taken, as a worker does that is switched off, and\n"
          "                      recall its tile; 2 or more; default 0: none\n"
          "  --out FILE.ppm      write the refined halftone in the colours of its inks\n"
          "  --out-indices FILE  write the refined indices, a byte for each pixel\n"
          "  --out-start FILE.ppm\n"
          "                      write the halftone that was started from\n"
          "  --settled           also print whether the start is settled, or else the first move that a\n"
          "                      pass would accept\n"
          "  --measure           also print perceived_error of the start and of the result\n"
          "  --no-check          do not run dbs_refine to compare with\n"
          "  --help              print this\n"
          "Exit status: 0 done; 1 the workers' result differs from dbs_refine's; 2 anything else. Output\n"
          "files are only touched where it is 0.\n",
          stdout);
}

enum kind { FLAG, WORD, WHOLE, REAL };

struct option {
    const char *name;
    enum kind kind;
    void *value;   /* a bool, a const char *, a uint64_t, a double */
};

static bool parse_whole(const char *name, const char *word, uint64_t *value)
{
    char *end;
    errno = 0;
    unsigned long long number = strtoull(word, &end, 10);
    if (!isdigit((unsigned char)word[0]) || *end != '\0' || errno != 0 || number > UINT64_MAX) {
        complain("%s wants a whole number of at most 64 bits, not '%s'", name, word);
        return false;
    }
    *value = number;
    return true;
}

/* Infinities, NaNs and signs are left to the library. */
static bool parse_real(const char *name, const char *word, double *value)
{
    char *end;
    *value = strtod(word, &end);
    if (end == word || isspace((unsigned char)word[0]) || *end != '\0') {
        complain("%s wants a number, not '%s'", name, word);
        return false;
    }
    return true;
}

static bool parse_value(const struct option *option, const char *word)
{
    switch (option->kind) {
    case WHOLE:
        return parse_whole(option->name, word, option->value);
    case REAL:
        return parse_real(option->name, word, option->value);
    default:
        *(const char **)option->value = word;
        return true;
    }
}

bool parse_options(int count, char **words, struct options *options)
{
    *options = (struct options){ .ppi = 127, .viewing_distance_cm = 40, .max_passes = 10, .threads = 2 };
    const struct option table[] = {
        { "--palette", WORD, &options->palette },
        { "--pinned", WORD, &options->pinned },
        { "--start", WORD, &options->start },
        { "--ppi", REAL, &options->ppi },
        { "--distance", REAL, &options->viewing_distance_cm },
        { "--passes", WHOLE, &options->max_passes },
        { "--threads", WHOLE, &options->threads },
        { "--shuffle", WHOLE, &options->seed },
        { "--lose", WHOLE, &options->lose },
        { "--out", WORD, &options->out },
        { "--out-indices", WORD, &options->out_indices },
        { "--out-start", WORD, &options->out_start },
        { "--settled", FLAG, &options->find_move },
        { "--measure", FLAG, &options->measure },
        { "--no-check", FLAG, &options->no_check },
        { "--help", FLAG, &options->help },
    };
    const size_t entries = sizeof table / sizeof table[0];

    for (int i = 1; i < count; i++) {
        if (words[i][0] != '-') {
            if (options->picture != NULL) {
                complain("one picture, not both '%s' and '%s'", options->picture, words[i]);
                return false;
            }
            options->picture = words[i];
            continue;
        }
        size_t k = 0;
        while (k < entries && strcmp(table[k].name, words[i]) != 0)
            k++;
        if (k == entries) {
            complain("no option '%s'; --help lists them", words[i]);
            return false;
        }
        if (table[k].kind == FLAG) {
            *(bool *)table[k].value = true;
        } else if (++i == count) {
            complain("%s wants a value", table[k].name);
            return false;
        } else if (!parse_value(&table[k], words[i])) {
            return false;
        }
    }
    if (options->help)
        return true;
    if (options->picture == NULL) {
        complain("no picture was named; --help lists the options");
        return false;
    }
    if (options->threads < 1 || options->threads > MAX_THREADS) {
        complain("--threads wants 1 to %d", MAX_THREADS);
        return false;
    }
    if (options->lose == 1) {
        complain("--lose wants 2 or more, or 0: with every copy lost no phase closes");
        return false;
    }
    return true;
}
