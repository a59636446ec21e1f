/* Reading a file, and keeping freed pages, for the examples. */
#ifndef BYTES_H
#define BYTES_H

#include "ame.h"

#include <stdio.h>
#include <stdlib.h>
#ifdef __GLIBC__
#include <malloc.h>
#endif

/* The statuses of an example that could not call the library. */
enum { WRONG_WORDS = 3, UNREADABLE = 4, NO_ROOM = 9 };

/* One byte more than a certificate may have. */
enum { MOST_BYTES = 1048577 };

struct bytes {
    uint8_t *at;
    size_t length;
};

/* Reads a file, at most one byte more than the library takes. Ends the example if it can't. */
static inline struct bytes read_file(const char *name)
{
    struct bytes bytes = {malloc(MOST_BYTES), 0};
    if (bytes.at == NULL)
        exit(NO_ROOM);
    FILE *file = fopen(name, "rb");
    if (file == NULL)
        exit(UNREADABLE);
    bytes.length = fread(bytes.at, 1, MOST_BYTES, file);
    if (ferror(file))
        exit(UNREADABLE);
    fclose(file);
    return bytes;
}

/* Lets glibc keep the pages that a call frees, so that the next call finds them. A program that calls the library again and again gains by
 * it. Other C libraries do as they like. */
static inline void keep_pages(void)
{
#ifdef __GLIBC__
    mallopt(M_TRIM_THRESHOLD, 256 << 20);
    mallopt(M_MMAP_THRESHOLD, 32 << 20);
#endif
}

#endif
