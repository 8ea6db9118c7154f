/*
 * read FILE: whether the table is good, and what it says: the host's NQN, and
 * each subsystem's NQN and namespace ID.
 */
#include <inttypes.h>
#include <nbft.h>
#include <stdio.h>

#include "whole_file.h"

/* The host, and as many HFIs and subsystems as there can be: kinds that follow each other are read by one call. */
static struct nbft_entry entries[1 + 2 * UINT8_MAX];

/*
 * A text comes without the zero byte that ends it. What is no printable ASCII is
 * shown by its number, and "" says that there is a text and that it is empty.
 */
static void print_text(const struct nbft_place *place)
{
    const uint8_t *text = table + place->start;
    size_t at;

    if (!place->present)
        printf("absent");
    else if (place->length == 0)
        printf("\"\"");
    for (at = 0; at < place->length; at++)
        printf(text[at] >= ' ' && text[at] <= '~' ? "%c" : "\\x%02x", text[at]);
}

static void print_host(const struct nbft_entry *host)
{
    printf("host: ");
    print_text(&host->places[NBFT_HOST_NQN_PLACE]);
    putchar('\n');
}

static void print_subsystem(const struct nbft_entry *subsystem)
{
    printf("subsystem %u: ", subsystem->position);
    if (subsystem->used) {
        print_text(&subsystem->places[NBFT_SSNS_NQN_PLACE]);
        printf(", namespace %" PRIu64, NBFT_GET(subsystem->image.ssns.nsid));
    } else {
        printf("unused");
    }
    putchar('\n');
}

static void print_record(const struct nbft_entry *record)
{
    if (record->kind == NBFT_HOST)
        print_host(record);
    if (record->kind == NBFT_SSNS)
        print_subsystem(record);
}

int main(int count, char **words)
{
    size_t length;
    uint64_t result;
    uint32_t answer;
    unsigned record;

    if (count != 2 || (length = read_whole(words[1])) == 0) {
        fprintf(stderr, "usage: read FILE, which has bytes to read\n");
        return 2;
    }
    result = nbft_records(table, length, NBFT_HOST, 0, NBFT_SSNS, entries, sizeof entries);
    answer = NBFT_RECORDS_ANSWER(result);
    if (answer != NBFT_DONE) {
        fprintf(stderr, "%s is refused: number %u, kind %u, position %u\n", words[1],
                NBFT_NUMBER(answer), NBFT_KIND(answer), NBFT_POSITION(answer));
        return 1;
    }
    for (record = 0; record < NBFT_RECORDS_WRITTEN(result); record++)
        print_record(&entries[record]);
    return 0;
}
