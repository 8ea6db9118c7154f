/*
 * A table read by libnvme beside the library: libnvme FILE
 *
 * libnvme reads a table from a file and parses it, in one call; what it allocates another call frees. Its time is taken
 * less that of reading the same file in the same way. All calls are timed in turn, in rounds, and of each the least round
 * counts, as in the other tables of the benchmark. It is loaded at run time, since its C library is another release's.
 */
#include <dlfcn.h>
#include <inttypes.h>
#include <stdio.h>
#include <stdlib.h>
#include <time.h>

#include <nbft.h>

enum { ROUNDS = 1000, CALLS = 50, CALLS_OF_OURS = 2000 };

static char *name;
static uint8_t table[65536];
static size_t length;
static struct nbft_entry entries[NBFT_MOST_ENTRIES];
static int (*nbft_read)(void **, char *);
static void (*nbft_free)(void *);
static volatile uint64_t kept; /* so that no call is left out */

static uint8_t *read_whole(size_t *bytes)
{
    FILE *file = fopen(name, "rb");
    uint8_t *whole = NULL;
    if (file == NULL)
        return NULL;
    if (fseek(file, 0, SEEK_END) == 0 && (*bytes = (size_t)ftell(file)) <= sizeof table && fseek(file, 0, SEEK_SET) == 0)
        whole = malloc(sizeof table);
    if (whole != NULL && fread(whole, 1, *bytes, file) != *bytes) {
        free(whole);
        whole = NULL;
    }
    fclose(file);
    return whole;
}

static void read_file(void)
{
    size_t bytes;
    uint8_t *whole = read_whole(&bytes);
    kept += whole[bytes - 1];
    free(whole);
}

static void read_by_libnvme(void)
{
    void *told = NULL;
    kept += (uint64_t)nbft_read(&told, name);
    nbft_free(told);
}

static void check(void)
{
    kept += nbft_check(table, length);
}

static void read_by_us(void)
{
    kept += nbft_records(table, length, NBFT_HEADER, 0, NBFT_HFI_EXTENDED, entries, sizeof entries);
}

/* Nanoseconds of one call in one round. */
static double time_of(void (*call)(void), int calls)
{
    struct timespec start, end;
    int made;
    call();
    clock_gettime(CLOCK_MONOTONIC, &start);
    for (made = 0; made < calls; made++)
        call();
    clock_gettime(CLOCK_MONOTONIC, &end);
    return ((double)(end.tv_sec - start.tv_sec) * 1e9 + (double)(end.tv_nsec - start.tv_nsec)) / calls;
}

/* Both the table and what reads it must be there, and take it. */
static int prepare(char **words)
{
    void *library = dlopen("libnvme.so.1", RTLD_NOW), *told = NULL;
    uint8_t *whole;
    size_t byte;
    name = words[1];
    whole = read_whole(&length);
    if (whole == NULL || library == NULL) {
        fprintf(stderr, "%s\n", whole == NULL ? "the file cannot be read" : dlerror());
        return 0;
    }
    for (byte = 0; byte < length; byte++)
        table[byte] = whole[byte];
    free(whole);
    *(void **)&nbft_read = dlsym(library, "nvme_nbft_read");
    *(void **)&nbft_free = dlsym(library, "nvme_nbft_free");
    if (nbft_read == NULL || nbft_free == NULL || nbft_check(table, length) != 0 || nbft_read(&told, name) != 0)
        return 0;
    nbft_free(told);
    return 1;
}

int main(int count, char **words)
{
    static void (*const calls[])(void) = {check, read_by_us, read_file, read_by_libnvme};
    double least[] = {1e18, 1e18, 1e18, 1e18}, time;
    int round, call;
    if (count != 2 || !prepare(words)) {
        fprintf(stderr, "usage: libnvme FILE, a table that libnvme takes, with libnvme.so.1 where the loader looks\n");
        return 2;
    }
    for (round = 0; round < ROUNDS; round++)
        for (call = 0; call < 4; call++) {
            time = time_of(calls[call], call < 2 ? CALLS_OF_OURS : CALLS);
            least[call] = time < least[call] ? time : least[call];
        }
    time = least[3] - least[2];
    printf("ns per table read whole, beside libnvme    library     check   libnvme   to check, to libnvme\n");
    printf("%-22s %6zu bytes %9.0f %9.0f %9.0f   %6.2f %6.2f\n", "typical", length, least[1], least[0], time,
           least[1] / least[0], least[1] / time);
    printf("libnvme: %.0f ns with the file, less %.0f for reading it\n", least[3], least[2]);
    return 0;
}
