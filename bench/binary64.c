/* The time of mlat_sqrt beside the processor's square root, and of mlat_round beside the C library's: each called in turn on 4,096 values,
   the best of 2,000 passes. Built and run by bench/binary64. */
#include <math.h>
#include <stdint.h>
#include <stdio.h>
#include <string.h>
#include <time.h>

#include "mlat_solver.h"

#define N 4096
#define PASSES 2000

/* a call of one instruction, so that both sides are called alike */
__attribute__((noinline)) static double hardware_sqrt(double x) { double r; __asm__("sqrtsd %1, %0" : "=x"(r) : "x"(x)); return r; }

static double now(void) { struct timespec t; clock_gettime(CLOCK_THREAD_CPUTIME_ID, &t); return t.tv_sec * 1e9 + t.tv_nsec; }

static double values[N];
static volatile double sink;

static double pass(double (*f)(double)) {
    double began = now(), sum = 0;
    for (int i = 0; i < N; i++) sum += f(values[i]);
    sink = sum;
    return (now() - began) / N;
}

/* the two sides in turn, so that what else the machine does falls on both */
static void beside(const char *name, double (*ours)(double), double (*theirs)(double)) {
    double best = 1e9, other = 1e9;
    for (int k = 0; k < PASSES; k++) {
        double a = pass(ours), b = pass(theirs);
        if (a < best) best = a;
        if (b < other) other = b;
    }
    printf("%-6s %6.2f ns, beside %5.2f ns: %.1f times\n", name, best, other, best / other);
}

int main(void) {
    uint64_t state = 88172645463325252u;
    for (int i = 0; i < N; i++) {
        state ^= state << 13; state ^= state >> 7; state ^= state << 17;
        /* from 1 to 2^32, all binary digits in use */
        uint64_t bits = 0x3ff0000000000000u + (state >> 11) % 0x0200000000000000u;
        memcpy(&values[i], &bits, 8);
    }
    beside("sqrt", mlat_sqrt, hardware_sqrt);
    beside("round", mlat_round, round);
    return 0;
}
