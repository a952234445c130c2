/* The time of the port's five beside the C library's, each called in turn on 4,096 arguments, the best of 1,000 passes. Built and run by
   bench/libm. */
#define _GNU_SOURCE
#include <math.h>
#include <stdint.h>
#include <stdio.h>
#include <time.h>

#include "mlat_solver.h"

#define N 4096
#define PASSES 1000

static double a[N], b[N];
static volatile double sink;

static double now(void) { struct timespec t; clock_gettime(CLOCK_THREAD_CPUTIME_ID, &t); return t.tv_sec * 1e9 + t.tv_nsec; }

static double ours_both(double x) { double pair[2]; mlat_sincos(x, pair); return pair[0] + pair[1]; }
static double theirs_both(double x) { double s, c; sincos(x, &s, &c); return s + c; }

static double pass1(double (*f)(double)) {
    double began = now(), sum = 0;
    for (int i = 0; i < N; i++) sum += f(a[i]);
    sink = sum;
    return (now() - began) / N;
}

static double pass2(double (*f)(double, double)) {
    double began = now(), sum = 0;
    for (int i = 0; i < N; i++) sum += f(a[i], b[i]);
    sink = sum;
    return (now() - began) / N;
}

static void row(const char *name, double best, double other) { printf("%-7s %6.2f ns, beside %6.2f ns: %.2f times\n", name, best, other, best / other); }

/* the two sides in turn, so that what else the machine does falls on both */
static void beside1(const char *name, double (*ours)(double), double (*theirs)(double)) {
    double best = 1e9, other = 1e9;
    for (int k = 0; k < PASSES; k++) {
        double s = pass1(ours), t = pass1(theirs);
        if (s < best) best = s;
        if (t < other) other = t;
    }
    row(name, best, other);
}

static void beside2(const char *name, double (*ours)(double, double), double (*theirs)(double, double)) {
    double best = 1e9, other = 1e9;
    for (int k = 0; k < PASSES; k++) {
        double s = pass2(ours), t = pass2(theirs);
        if (s < best) best = s;
        if (t < other) other = t;
    }
    row(name, best, other);
}

static uint64_t state = 88172645463325252u;
static double unit(void) { state ^= state << 13; state ^= state >> 7; state ^= state << 17; return (double)(state >> 11) * 0x1p-53; }

int main(void) {
    /* angles within half a turn either way, as latitudes and longitudes are */
    for (int i = 0; i < N; i++) a[i] = (2 * unit() - 1) * 3.141592653589793;
    beside1("sin", mlat_sin, sin);
    beside1("cos", mlat_cos, cos);
    beside1("sincos", ours_both, theirs_both);
    /* places on the ground, in metres */
    for (int i = 0; i < N; i++) { a[i] = (2 * unit() - 1) * 6.4e6; b[i] = (2 * unit() - 1) * 6.4e6; }
    beside2("atan2", mlat_atan2, atan2);
    beside2("hypot", mlat_hypot, hypot);
    return 0;
}
