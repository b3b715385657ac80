/*
 * Work that is no decoder's, to see what several processors give: by itself, and with memory.
 *
 * usage: processors arithmetic|memory TURNS
 *
 * A turn is a million steps: of arithmetic in registers, or each reading and changing a word at a random place of 8 MB.
 * Prints the seconds that passed and the seconds of the processor.
 */
#include <stdint.h>
#include <stdio.h>
#include <stdlib.h>
#include <string.h>
#include <time.h>

enum { STEPS = 1000000, PLACES = 1 << 20 };

static uint64_t places[PLACES];

static double seconds(clockid_t clock) {
    struct timespec now;
    clock_gettime(clock, &now);
    return (double)now.tv_sec + (double)now.tv_nsec / 1e9;
}

static uint64_t next(uint64_t number) {
    number ^= number << 13;
    number ^= number >> 7;
    return number ^ number << 17;
}

int main(int count, char **words) {
    if (count != 3)
        return 1;
    int has_memory = strcmp(words[1], "memory") == 0;
    uint64_t number = 88172645463325252U, sum = 0;
    for (size_t i = 0; i < PLACES; i++)
        places[i] = i;
    double passed = -seconds(CLOCK_MONOTONIC), used = -seconds(CLOCK_PROCESS_CPUTIME_ID);
    for (long steps = atol(words[2]) * STEPS; steps > 0; steps--) {
        number = next(number);
        sum += has_memory ? places[number % PLACES]++ : number;
    }
    passed += seconds(CLOCK_MONOTONIC);
    used += seconds(CLOCK_PROCESS_CPUTIME_ID);
    printf("%.6f %.6f\n", passed, used);
    return sum == 0;
}
