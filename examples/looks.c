/*
 * looks FILE: whether the table is good, how often the check looked at its
 * records, and how often it can at the most, by the counts that it states.
 */
#include <inttypes.h>
#include <nbft.h>
#include <stdio.h>

#include "whole_file.h"

/* The bytes behind a shorter file are zero, and so are the counts there. */
static uint32_t most_looks(void)
{
    uint32_t hfis = table[NBFT_CONTROL_HFI_COUNT], subsystems = table[NBFT_CONTROL_SSNS_COUNT];
    uint32_t security = table[NBFT_CONTROL_SECURITY_COUNT], discovery = table[NBFT_CONTROL_DISCOVERY_COUNT];

    return 1 + hfis + subsystems * (4 + hfis) + security + 3 * discovery;
}

int main(int count, char **words)
{
    size_t length;
    uint64_t result;
    uint32_t answer;

    if (count != 2 || (length = read_whole(words[1])) == 0) {
        fprintf(stderr, "usage: looks FILE, which has bytes to read\n");
        return 2;
    }
    result = nbft_check_looks(table, length);
    answer = NBFT_LOOKS_ANSWER(result);
    printf("number %u, kind %u, position %u; looks: %" PRIu32 " of at most %" PRIu32 "\n", NBFT_NUMBER(answer),
           NBFT_KIND(answer), NBFT_POSITION(answer), NBFT_LOOKS(result), most_looks());
    return answer != NBFT_DONE;
}
