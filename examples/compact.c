/*
 * compact FILE OUT: the table with its heap closed up: how many of its bytes
 * moved and how long the heap is now, or why the table is refused. OUT gets the
 * bytes of FILE, which are as many as before.
 */
#include <inttypes.h>
#include <nbft.h>
#include <stdio.h>
#include <stdlib.h>

#include "whole_file.h"

static int write_whole(const char *name, size_t length)
{
    FILE *file = fopen(name, "wb");
    size_t written;

    if (file == NULL)
        return 0;
    written = fwrite(table, 1, length, file);
    return fclose(file) == 0 && written == length;
}

static const char *reason(uint32_t answer)
{
    switch (NBFT_NUMBER(answer)) {
    case NBFT_OUTPUT_TOO_SHORT:
        return "the map is too short";
    case NBFT_OVERLAP:
        return "a heap record shares a byte with another object";
    default:
        return "the table is not good";
    }
}

/* A heap is no longer than its table, so that a bit for each byte of that is enough. */
static uint64_t close_up(size_t length)
{
    size_t room = (length + 7) / 8;
    uint8_t *map = malloc(room);
    uint64_t result;

    if (map == NULL)
        return NBFT_OUTPUT_TOO_SHORT;
    result = nbft_compact(table, length, map, room);
    free(map);
    return result;
}

int main(int count, char **words)
{
    size_t length;
    uint64_t result;
    uint32_t answer;

    if (count != 3 || (length = read_whole(words[1])) == 0) {
        fprintf(stderr, "usage: compact FILE OUT, the first of which has bytes to read\n");
        return 2;
    }
    result = close_up(length);
    answer = NBFT_COMPACT_ANSWER(result);
    if (answer != NBFT_DONE) {
        fprintf(stderr, "%s is refused: %s; number %u, kind %u, position %u\n", words[1], reason(answer),
                NBFT_NUMBER(answer), NBFT_KIND(answer), NBFT_POSITION(answer));
        return 1;
    }
    printf("bytes moved: %" PRIu32 ", heap length: %" PRIu32 "\n", NBFT_COMPACT_MOVED(result),
           (uint32_t)nbft_get(table + NBFT_HEADER_HEAP_LENGTH, 4));
    if (!write_whole(words[2], length)) {
        fprintf(stderr, "%s is not written\n", words[2]);
        return 2;
    }
    return 0;
}
