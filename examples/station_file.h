/* A station file, read for the examples of the C library. */
#ifndef STATION_FILE_H
#define STATION_FILE_H

#include <stdint.h>
#include <stdio.h>

/* One byte more than a file may have, so that a longer one is seen to be too long. */
enum { ROOM = 65536 };

typedef struct {
    uint8_t bytes[ROOM];
    size_t length;
} station_file;

static int read_file(const char *name, station_file *file)
{
    FILE *in = fopen(name, "rb");
    if (!in) {
        perror(name);
        return 0;
    }
    file->length = fread(file->bytes, 1, sizeof file->bytes, in);
    int whole = !ferror(in);
    fclose(in);
    if (!whole)
        fprintf(stderr, "%s cannot be read\n", name);
    return whole;
}

#endif
