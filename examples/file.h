/* A file read whole, for the examples that hash one so. */
#ifndef FILE_H
#define FILE_H

#include <stdint.h>
#include <stdio.h>
#include <stdlib.h>

/* the file's bytes, or NULL with a message */
static uint8_t *read_file(const char *name, size_t *length)
{
    FILE *f = fopen(name, "rb");
    size_t room = 1 << 16, n = 0, got;
    uint8_t *bytes = malloc(room);

    if (f == NULL || bytes == NULL) {
        perror(name);
        free(bytes);
        if (f != NULL)
            fclose(f);
        return NULL;
    }
    while ((got = fread(bytes + n, 1, room - n, f)) > 0) {
        n += got;
        if (n == room) {
            uint8_t *more = realloc(bytes, room * 2);
            if (more == NULL)
                break;
            bytes = more;
            room *= 2;
        }
    }
    if (ferror(f) || !feof(f)) {
        fprintf(stderr, "%s: could not be read whole\n", name);
        free(bytes);
        bytes = NULL;
    }
    fclose(f);
    *length = n;
    return bytes;
}

#endif
