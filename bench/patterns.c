/* The time of mlat_clash_patterns for 0 to 6 receptions: processor time of the calling thread, the least, the middle and the most of
   101 calls. Built and run by bench/patterns. */
#include <stdint.h>
#include <stdio.h>
#include <stdlib.h>
#include <time.h>

#include "mlat_solver.h"

#define CALLS 101

static double now(void) { struct timespec t; clock_gettime(CLOCK_THREAD_CPUTIME_ID, &t); return t.tv_sec * 1e3 + t.tv_nsec / 1e6; }

static int ascending(const void *a, const void *b) {
    double x = *(const double *)a, y = *(const double *)b;
    return (x > y) - (x < y);
}

int main(void) {
    for (uint32_t n = 0; n <= 6; n++) {
        double times[CALLS];
        for (int k = 0; k < CALLS; k++) {
            uint64_t counts[7];
            double began = now();
            if (mlat_clash_patterns(n, counts) != 0) return 1;
            times[k] = now() - began;
        }
        qsort(times, CALLS, sizeof times[0], ascending);
        printf("%u receptions: %.4f ms (%.4f to %.4f)\n", n, times[CALLS / 2], times[0], times[CALLS - 1]);
    }
    return 0;
}
