/* Problems a second by mlat_solve with one thread and with two (bench/threads): the recorded inputs of standard input
   that have a fix (crates/replay/RECORDING.md has their layout), each thread solving all of them. Every record is
   compared with the recorded one of the original. */
#define _GNU_SOURCE
#include <pthread.h>
#include <stdio.h>
#include <stdlib.h>
#include <string.h>
#include <time.h>
#include "mlat_solver.h"

enum { MOST = 4096 };

static uint8_t recording[1 << 22], *problems[MOST];
static size_t fixes;

/* Solves the problem that is recorded there, and compares the record; where the next one is. */
static const uint8_t *solved(const uint8_t *at, size_t *differ) {
    uint8_t out[MLAT_RECORD_BYTES];
    size_t receptions = at[0] | at[1] << 8, clock = at[2] | at[3] << 8, altitude = at[4], reference = at[5];
    const uint8_t *r = at + 8, *c = r + receptions, *a = c + clock, *f = a + altitude, *record = f + reference;
    mlat_solve(r, receptions, c, clock, a, altitude, f, reference, at[6], out, sizeof out);
    if (memcmp(out, record, sizeof out)) ++*differ;
    return record + sizeof out;
}

/* A thread's turn: every problem once. */
static void *turn(void *differ) {
    for (size_t k = 0; k < fixes; k++) solved(problems[k], (size_t *)differ);
    return NULL;
}

static double now(void) {
    struct timespec time;
    clock_gettime(CLOCK_MONOTONIC, &time);
    return time.tv_sec + time.tv_nsec * 1e-9;
}

/* The seconds that so many threads take, each for all problems. */
static double taken(int threads, size_t *differ) {
    pthread_t thread[2];
    size_t wrong[2] = {0, 0};
    double start = now();
    for (int i = 0; i < threads; i++)
        if (pthread_create(&thread[i], NULL, turn, &wrong[i])) exit(1);
    for (int i = 0; i < threads; i++) pthread_join(thread[i], NULL);
    double seconds = now() - start;
    *differ += wrong[0] + wrong[1];
    return seconds;
}

int main(int count, char **words) {
    long turns = count > 1 ? atol(words[1]) : 100;
    const uint8_t *end = recording + fread(recording, 1, sizeof recording, stdin);
    double least[3] = {0, 1e9, 1e9};
    size_t differ = 0, calls = 0;
    for (uint8_t *at = recording; at < end && fixes < MOST;) {
        const uint8_t *next = solved(at, &differ);
        if (next[-MLAT_RECORD_BYTES] == MLAT_ANSWERED) problems[fixes++] = at;
        at += next - at;
        calls++;
    }
    for (long k = 0; k < turns; k++)
        for (int threads = 1; threads <= 2; threads++) {
            double seconds = taken(threads, &differ);
            if (seconds < least[threads]) least[threads] = seconds;
            calls += threads * fixes;
        }
    double one = fixes / least[1], two = 2 * fixes / least[2];
    printf("%zu problems with a fix: one thread %.0f problems a second, two %.0f, %.2f times as many\n", fixes, one,
           two, two / one);
    printf("%zu records compared with the original's, %zu differ\n", calls, differ);
    return differ != 0;
}
