/* A text from a file, for the examples and the test in C. */
#ifndef READ_FILE_H
#define READ_FILE_H

#include <stdint.h>
#include <stdio.h>
#include <stdlib.h>

/* The bytes of a file; a longer one is refused just as its first 65,536 bytes are. */
static size_t read_file(const char *path, uint8_t text[65536])
{
    FILE *file = fopen(path, "rb");
    if (!file) {
        perror(path);
        exit(2);
    }
    size_t length = fread(text, 1, 65536, file);
    if (ferror(file)) {
        perror(path);
        exit(2);
    }
    fclose(file);
    return length;
}

#endif
