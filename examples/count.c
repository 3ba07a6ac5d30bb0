/*
 * Counts the faults of a rule over a trace.
 *
 *     count RULE FRAMES PAGE...
 *
 * RULE is 1 (LRU), 2 (FIFO), 3 (MIN) or 4 (LRU-2). Without words it takes the example's trace under every rule.
 * Build it in the repository's folder, once tools/library has made the library:
 *
 *     cc -Iinclude examples/count.c target/library/libhedravos.a -o count
 */
#include <errno.h>
#include <stdio.h>
#include <stdlib.h>

#include "hedravos.h"

/* Prints the faults or the refusal, and answers the status: 0, 1 for a refusal, 2 where nothing can be printed. */
static int count(uint32_t rule, uint32_t frames, const uint32_t *trace, size_t requests) {
    uint32_t answer[3] = {0}; /* number, place, faults */
    hedravos_count(rule, frames, trace, requests, answer, 3);
    if (answer[0] != 0) {
        printf("refused %u at %u\n", (unsigned)answer[0], (unsigned)answer[1]);
    } else {
        printf("%u\n", (unsigned)answer[2]);
    }
    if (fflush(stdout) != 0) {
        perror("count");
        return 2;
    }
    return answer[0] != 0;
}

/* A whole number of 32 bits, or the end of the program. */
static uint32_t number(const char *word) {
    char *end;
    unsigned long long value;
    errno = 0;
    value = strtoull(word, &end, 10);
    if (word[0] < '0' || word[0] > '9' || *end != '\0' || errno != 0 || value > UINT32_MAX) {
        fprintf(stderr, "count: %.40s isn't a number from 0 to 4294967295\n", word);
        exit(2);
    }
    return (uint32_t)value;
}

int main(int words, char **word) {
    static const uint32_t example[] = {5, 6, 7, 5, 8, 6, 5, 7};
    /* One request more than may be, so that a trace too long is refused by the library. */
    static uint32_t trace[HEDRAVOS_REQUESTS + 1];
    size_t requests = 0;
    if (words == 1) {
        uint32_t rule;
        int status = 0;
        for (rule = HEDRAVOS_LRU; rule <= HEDRAVOS_LRU2 && status == 0; rule++) status = count(rule, 3, example, 8);
        return status;
    }
    if (words < 3) {
        fprintf(stderr, "usage: count RULE FRAMES PAGE...\n");
        return 2;
    }
    while (requests <= HEDRAVOS_REQUESTS && (int)requests + 3 < words) {
        trace[requests] = number(word[requests + 3]);
        requests++;
    }
    return count(number(word[1]), number(word[2]), trace, requests);
}
