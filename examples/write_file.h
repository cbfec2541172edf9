/* Writes a file whole or not at all; depot.c and patch.c share it. Needs _POSIX_C_SOURCE 200809L before the first include. */
#ifndef WRITE_FILE_H
#define WRITE_FILE_H

#include <stdbool.h>
#include <stdint.h>
#include <stdio.h>
#include <unistd.h>

/* Writes under another name first, which then takes the place of the old file. False, with a message, if that cannot be done. */
static bool write_file(const char *name, const uint8_t *bytes, size_t length)
{
    char draft[4096];
    int n = snprintf(draft, sizeof draft, "%s.new", name);
    if (n < 0 || (size_t)n >= sizeof draft) {
        fprintf(stderr, "name of the file to write too long\n");
        return false;
    }
    FILE *file = fopen(draft, "wb");
    if (file == NULL) {
        perror(draft);
        return false;
    }
    bool written = fwrite(bytes, 1, length, file) == length && fflush(file) == 0 && fsync(fileno(file)) == 0;
    written = fclose(file) == 0 && written;
    if (!written || rename(draft, name) != 0) {
        perror(written ? name : draft);
        remove(draft);
        return false;
    }
    return true;
}

#endif
