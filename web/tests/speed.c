/* How long the native library takes, for speed.mjs: `native read FILE TURNS` prints the nanoseconds of a bpg_read in the list of numbers,
 * `native canonicalize FILE TURNS` those of a bpg_canonicalize; the least of the turns. */
#define _POSIX_C_SOURCE 199309L
#include "../../include/bpg.h"

#include <stdio.h>
#include <stdlib.h>
#include <string.h>
#include <time.h>

enum { LIMIT = 16777216, READS = 20000, NUMBERS = 1024 };

static uint8_t file[LIMIT], out[LIMIT];
static uint64_t numbers[NUMBERS];

/* Processor time, as in speed.mjs: what else the machine does counts less. */
static double now(void) {
    struct timespec time;
    clock_gettime(CLOCK_PROCESS_CPUTIME_ID, &time);
    return time.tv_sec * 1e9 + time.tv_nsec;
}

static double turn(int reading, size_t length) {
    size_t offset, count;
    unsigned refused = 0;
    double start = now();
    if (reading) {
        for (int k = 0; k < READS; k++) refused |= bpg_read(file, length, numbers, NUMBERS, &offset);
    } else {
        refused = bpg_canonicalize(file, length, out, LIMIT, &count, &offset);
    }
    if (refused) exit(2);
    return (now() - start) / (reading ? READS : 1);
}

int main(int count, char **words) {
    if (count != 4) return 2;
    FILE *stream = fopen(words[2], "rb");
    if (stream == NULL) return 2;
    size_t length = fread(file, 1, LIMIT, stream);
    int reading = strcmp(words[1], "read") == 0;
    double least = turn(reading, length);
    for (int turns = atoi(words[3]); turns > 0; turns--) {
        double time = turn(reading, length);
        if (time < least) least = time;
    }
    printf("%f\n", least);
    return 0;
}
