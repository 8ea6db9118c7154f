/* A file's bytes in memory, for the examples that are told one by its name. */
#include <stddef.h>
#include <stdint.h>
#include <stdio.h>

/* Longer than any table: what a file has behind these bytes does not count. */
static uint8_t table[70000];

/* How many bytes were read; 0 where the file cannot be read. */
static size_t read_whole(const char *name)
{
    FILE *file = fopen(name, "rb");
    size_t length;

    if (file == NULL)
        return 0;
    length = fread(table, 1, sizeof table, file);
    if (ferror(file))
        length = 0;
    fclose(file);
    return length;
}
