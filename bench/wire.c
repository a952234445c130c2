/* The time of a position as whole numbers, from its three floats and from its record, beside a C cast of each product: called in turn
   on 4,096 records of fixes, the best of 2,000 passes. Built and run by bench/wire. */
#include <stdint.h>
#include <stdio.h>
#include <string.h>
#include <time.h>

#include "mlat_solver.h"

#define N 4096
#define PASSES 2000

uint32_t of_position_c(const double position[3], int32_t wire[3]);

static uint8_t records[N][176];
static double positions[N][3];
static volatile int32_t sink;

/* what people write: a product in binary64, cut to a whole number */
__attribute__((noinline)) static uint32_t cast_position(const double position[3], int32_t wire[3]) {
    wire[0] = (int32_t)(position[0] * 1e7);
    wire[1] = (int32_t)(position[1] * 1e7);
    wire[2] = (int32_t)(position[2] * 1e3);
    return 0;
}

static uint32_t port_position(const double position[3], int32_t wire[3]) { return of_position_c(position, wire); }

/* the same of a record's bytes 48 to 71, no rule looked at */
__attribute__((noinline)) static uint32_t cast_record(const uint8_t *record, size_t length, int32_t wire[3]) {
    double position[3];
    (void)length;
    memcpy(position, record + 48, sizeof position);
    return cast_position(position, wire);
}

static double now(void) { struct timespec t; clock_gettime(CLOCK_THREAD_CPUTIME_ID, &t); return t.tv_sec * 1e9 + t.tv_nsec; }

static double pass_positions(uint32_t (*f)(const double[3], int32_t[3])) {
    int32_t wire[3], sum = 0;
    double began = now();
    for (int i = 0; i < N; i++) { sum += (int32_t)f(positions[i], wire); sum ^= wire[0] ^ wire[1] ^ wire[2]; }
    sink = sum;
    return (now() - began) / N;
}

static double pass_records(uint32_t (*f)(const uint8_t *, size_t, int32_t[3])) {
    int32_t wire[3], sum = 0;
    double began = now();
    for (int i = 0; i < N; i++) { sum += (int32_t)f(records[i], 176, wire); sum ^= wire[0] ^ wire[1] ^ wire[2]; }
    sink = sum;
    return (now() - began) / N;
}

static double least(double a, double b) { return a < b ? a : b; }

int main(void) {
    double ours[2] = {1e9, 1e9}, theirs[2] = {1e9, 1e9};
    uint64_t state = 88172645463325252u;
    for (int i = 0; i < N; i++) {
        const uint32_t words[6] = {0, 0, 4, 15, 8, 0};
        double numbers[18] = {0};
        for (int k = 0; k < 3; k++) {
            state ^= state << 13; state ^= state >> 7; state ^= state << 17;
            double part = (double)(state >> 11) / 9007199254740992.0;
            positions[i][k] = k == 0 ? 180 * part - 90 : k == 1 ? 360 * part - 180 : 26500 * part - 1500;
            numbers[4 + k] = positions[i][k];
        }
        if (mlat_write_record(words, numbers, 0, records[i], 176) != 0) return 1;
    }
    /* the sides in turn, so that what else the machine does falls on both */
    for (int k = 0; k < PASSES; k++) {
        ours[0] = least(ours[0], pass_positions(port_position));
        theirs[0] = least(theirs[0], pass_positions(cast_position));
        ours[1] = least(ours[1], pass_records(mlat_to_wire));
        theirs[1] = least(theirs[1], pass_records(cast_record));
    }
    const char *names[2] = {"three floats", "a record"};
    for (int k = 0; k < 2; k++)
        printf("%-13s %6.2f ns, beside %5.2f ns: %.1f times\n", names[k], ours[k], theirs[k], ours[k] / theirs[k]);
    return 0;
}
