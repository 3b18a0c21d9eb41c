#include "netpbm.h"

#include <ctype.h>
#include <errno.h>
#include <stdlib.h>
#include <string.h>

#include "files.h"

/* The next character of a header. A comment, from # to the end of its line, reads as that end. */
static int next(FILE *file)
{
    int c = getc(file);
    if (c == '#')
        do
            c = getc(file);
        while (c != '\n' && c != EOF);
    return c;
}

/* A number and the one white space after it. */
static bool read_number(FILE *file, const char *name, const char *what, uint64_t *number)
{
    int c;
    do
        c = next(file);
    while (isspace(c));
    bool fits = isdigit(c), digits = fits;
    for (*number = 0; isdigit(c); c = next(file)) {
        uint64_t digit = (uint64_t)(c - '0');
        if (*number > (UINT64_MAX - digit) / 10)
            fits = false;
        *number = 10 * *number + digit;
    }
    if (ferror(file))
        complain("%s: %s", name, strerror(errno));
    else if (!digits || !isspace(c))
        complain("%s: no %s in the header, or it is cut off", name, what);
    else if (!fits)
        complain("%s: the %s has more than 64 bits", name, what);
    else
        return true;
    return false;
}

bool read_netpbm_header(FILE *file, const char *name, char kind, uint64_t *width, uint64_t *height)
{
    int first = getc(file), second = getc(file), third = next(file);
    if (ferror(file)) {
        complain("%s: %s", name, strerror(errno));
        return false;
    }
    if (first != 'P' || second != kind || !isspace(third)) {
        complain("%s: not a binary %s file, which starts with P%c", name, kind == '6' ? "PPM" : "PGM", kind);
        return false;
    }
    uint64_t maxval;
    if (!read_number(file, name, "width", width) || !read_number(file, name, "height", height)
        || !read_number(file, name, "maxval", &maxval))
        return false;
    if (maxval != 255) {
        complain("%s: maxval is %llu; only 255 is read", name, (unsigned long long)maxval);
        return false;
    }
    return true;
}

bool read_netpbm_samples(FILE *file, const char *name, size_t len, struct bytes *samples)
{
    if (!read_bytes(file, name, len, samples))
        return false;
    if (samples->len < len)
        complain("%s: ends after %zu of %zu samples", name, samples->len, len);
    else if (getc(file) != EOF)
        complain("%s: goes on after its %zu samples", name, len);
    else if (ferror(file))
        complain("%s: %s", name, strerror(errno));
    else
        return true;
    free(samples->at);
    *samples = (struct bytes){ NULL, 0 };
    return false;
}

bool halftone_ppm(uint64_t width, uint64_t height, const uint8_t *indices, const uint8_t *palette, struct bytes *file)
{
    char header[64];
    int head = snprintf(header, sizeof header, "P6\n%llu %llu\n255\n", (unsigned long long)width,
                        (unsigned long long)height);
    size_t pixels = (size_t)(width * height);
    file->len = (size_t)head + 3 * pixels;
    file->at = allocate(file->len, 1);
    if (file->at == NULL)
        return false;
    memcpy(file->at, header, (size_t)head);
    for (size_t i = 0; i < pixels; i++)
        memcpy(file->at + (size_t)head + 3 * i, palette + 3 * (size_t)indices[i], 3);
    return true;
}
