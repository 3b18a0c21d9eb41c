#include "files.h"

#include <errno.h>
#include <stdlib.h>
#include <string.h>
#include <sys/stat.h>
#include <unistd.h>

bool read_bytes(FILE *file, const char *name, size_t limit, struct bytes *bytes)
{
    bytes->len = 0;
    bytes->at = allocate(limit, 1);
    if (bytes->at == NULL)
        return false;
    bytes->len = fread(bytes->at, 1, limit, file);
    if (ferror(file)) {
        complain("%s: %s", name, strerror(errno));
        free(bytes->at);
        *bytes = (struct bytes){ NULL, 0 };
        return false;
    }
    return true;
}

bool read_file(const char *name, size_t limit, struct bytes *bytes)
{
    FILE *file = fopen(name, "rb");
    if (file == NULL) {
        complain("%s: %s", name, strerror(errno));
        return false;
    }
    bool done = read_bytes(file, name, limit, bytes);
    fclose(file);
    return done;
}

bool check_outputs(const struct output *outputs, size_t count)
{
    for (size_t i = 0; i < count; i++) {
        struct stat status;
        if (outputs[i].name == NULL)
            continue;
        for (size_t j = 0; j < i; j++)
            if (outputs[j].name != NULL && strcmp(outputs[i].name, outputs[j].name) == 0) {
                complain("%s: two outputs of one name", outputs[i].name);
                return false;
            }
        if (lstat(outputs[i].name, &status) == 0 && !S_ISREG(status.st_mode)) {
            complain("%s: exists and is no regular file", outputs[i].name);
            return false;
        }
    }
    return true;
}

static char *temporary_name(const char *name)
{
    size_t size = strlen(name) + 40;
    char *temporary = allocate(size, 1);
    if (temporary != NULL)
        snprintf(temporary, size, "%s.%ld.tmp", name, (long)getpid());
    return temporary;
}

static bool write_file(const char *name, const struct bytes *bytes)
{
    FILE *file = fopen(name, "wbx");
    if (file == NULL) {
        complain("%s: %s", name, strerror(errno));
        return false;
    }
    bool written = fwrite(bytes->at, 1, bytes->len, file) == bytes->len;
    int reason = errno;
    if (fclose(file) != 0 && written) {
        written = false;
        reason = errno;
    }
    if (!written) {
        complain("%s: %s", name, strerror(reason));
        remove(name);
    }
    return written;
}

bool write_outputs(struct output *outputs, size_t count)
{
    bool done = true;
    for (size_t i = 0; i < count && done; i++) {
        if (outputs[i].name == NULL)
            continue;
        char *temporary = temporary_name(outputs[i].name);
        done = temporary != NULL && write_file(temporary, &outputs[i].bytes);
        if (done)
            outputs[i].temporary = temporary;
        else
            free(temporary);
    }
    for (size_t i = 0; i < count && done; i++) {
        if (outputs[i].temporary == NULL)
            continue;
        done = rename(outputs[i].temporary, outputs[i].name) == 0;
        if (!done)
            complain("%s: %s", outputs[i].name, strerror(errno));
    }
    for (size_t i = 0; i < count; i++) {
        if (outputs[i].temporary == NULL)
            continue;
        if (!done)
            remove(outputs[i].temporary);
        free(outputs[i].temporary);
        outputs[i].temporary = NULL;
    }
    return done;
}
