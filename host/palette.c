#include "palette.h"

#include <ctype.h>
#include <stdlib.h>
#include <string.h>

#include "dbs.h"
#include "files.h"

/* Black, white, green, blue, red, yellow and orange of a panel of electronic paper, about as the eye sees them. */
static const uint8_t PANEL[] = {
    30, 28, 34,  235, 235, 228,  45, 105, 70,  55, 65, 140,  165, 45, 45,  225, 200, 50,  200, 105, 50,
};

enum { MAX_PALETTE_FILE = 1 << 20 };

static const char *skip_spaces(const char *at, const char *end)
{
    while (at < end && isspace((unsigned char)*at))
        at++;
    return at;
}

/* A number from 0 to 255 that white space or the end of the line follows; null where there is none. */
static const char *parse_byte(const char *at, const char *end, uint8_t *byte)
{
    unsigned value = 0;
    const char *start = at = skip_spaces(at, end);
    for (; at < end && isdigit((unsigned char)*at) && value <= 255; at++)
        value = 10 * value + (unsigned)(*at - '0');
    if (at == start || value > 255 || (at < end && !isspace((unsigned char)*at)))
        return NULL;
    *byte = (uint8_t)value;
    return at;
}

/* Inks past the first that are too many are not read: the library refuses those. */
static bool parse_palette(const char *name, const struct bytes *text, struct bytes *palette)
{
    const char *at = (const char *)text->at, *end = at + text->len;
    for (unsigned line = 1; at < end && palette->len <= 3 * DBS_MAX_INKS; line++) {
        const char *stop = memchr(at, '\n', (size_t)(end - at));
        if (stop == NULL)
            stop = end;
        at = skip_spaces(at, stop);
        if (at < stop && *at != '#') {
            for (int channel = 0; channel < 3 && at != NULL; channel++)
                at = parse_byte(at, stop, &palette->at[palette->len + (size_t)channel]);
            if (at == NULL) {
                complain("%s, line %u: wants three numbers from 0 to 255", name, line);
                return false;
            }
            palette->len += 3;
        }
        at = stop < end ? stop + 1 : end;
    }
    return true;
}

bool load_palette(const char *name, struct bytes *palette)
{
    palette->len = 0;
    palette->at = allocate(3 * (DBS_MAX_INKS + 1), 1);
    if (palette->at == NULL)
        return false;
    if (name == NULL) {
        palette->len = sizeof PANEL;
        memcpy(palette->at, PANEL, sizeof PANEL);
        return true;
    }
    struct bytes text;
    if (!read_file(name, MAX_PALETTE_FILE, &text))
        return false;
    bool done = text.len < MAX_PALETTE_FILE;
    if (done)
        done = parse_palette(name, &text, palette);
    else
        complain("%s: too long for a palette", name);
    free(text.at);
    return done;
}

void nearest_inks(const struct bytes *pixels, const struct bytes *palette, uint8_t *indices)
{
    size_t inks = palette->len / 3;
    if (inks > DBS_MAX_INKS)
        inks = DBS_MAX_INKS;
    for (size_t i = 0; 3 * i < pixels->len; i++) {
        int least = 3 * 255 * 255 + 1;
        for (size_t ink = 0; ink < inks; ink++) {
            int sum = 0;
            for (size_t channel = 0; channel < 3; channel++) {
                int difference = pixels->at[3 * i + channel] - palette->at[3 * ink + channel];
                sum += difference * difference;
            }
            if (sum < least) {
                least = sum;
                indices[i] = (uint8_t)ink;
            }
        }
    }
}
