/* The most stack that mlat_solve and mlat_solve_receptions use on the recorded inputs of standard input (crates/replay/RECORDING.md has their layout): each
   is solved on a stack that was painted before, and what is not paint afterwards was used. A thread that does nothing shows its own share. */
#define _GNU_SOURCE
#include <pthread.h>
#include <stddef.h>
#include <stdio.h>
#include <stdlib.h>
#include <string.h>
#include "mlat_solver.h"

enum { STACK = 1 << 20, PAINT = 0xa5 };

static uint8_t recording[1 << 22], *at;
static struct mlat_reception list[1024];
static enum { BYTES, LIST, NOTHING } way;

/* the receptions of a file, 132 bytes each, as structs of a little-endian machine; how many */
static size_t unpacked(const uint8_t *bytes, size_t length) {
    size_t n = length / 132;
    for (size_t i = 0; i < n; i++, bytes += 132) {
        uint8_t *to = (uint8_t *)&list[i];
        memcpy(to, bytes, 36);
        memcpy(to + offsetof(struct mlat_reception, timestamp), bytes + 36, 96);
    }
    return n;
}

static void *solve(void *unused) {
    uint8_t out[176];
    if (way == NOTHING) return unused;
    size_t receptions = at[0] | at[1] << 8, clock = at[2] | at[3] << 8, altitude = at[4], reference = at[5];
    uint8_t *r = at + 8, *c = r + receptions, *a = c + clock, *f = a + altitude;
    if (way == BYTES) mlat_solve(r, receptions, c, clock, a, altitude, f, reference, at[6], out, sizeof out);
    else mlat_solve_receptions(list, unpacked(r, receptions), c, clock, a, altitude, f, reference, at[6], out, sizeof out);
    at = f + reference + 176;
    return unused;
}

static size_t used(uint8_t *stack) {
    pthread_attr_t attributes;
    pthread_t thread;
    memset(stack, PAINT, STACK);
    pthread_attr_init(&attributes);
    pthread_attr_setstack(&attributes, stack, STACK);
    if (pthread_create(&thread, &attributes, solve, NULL)) exit(1);
    pthread_join(thread, NULL);
    size_t k = 0;
    while (k < STACK && stack[k] == PAINT) k++;
    return STACK - k;
}

int main(void) {
    uint8_t *stack = aligned_alloc(4096, STACK);
    uint8_t *end = recording + fread(recording, 1, sizeof recording, stdin);
    size_t most[2] = {0, 0}, inputs = 0;
    for (way = BYTES; way < NOTHING; way++) {
        inputs = 0;
        for (at = recording; at < end; inputs++) {
            size_t now = used(stack);
            if (most[way] < now) most[way] = now;
        }
    }
    printf("%zu inputs: at most %zu bytes of stack, %zu with a list of structs, %zu of them the thread's own\n", inputs, most[BYTES], most[LIST], used(stack));
    return 0;
}
