/* mlat_sqrt beside the processor's square root, and mlat_round beside the C library's round: equal bits on N arguments each, all
   not-a-numbers counted as one value. Built and run by compare/binary64. */
#include <math.h>
#include <stdint.h>
#include <stdio.h>
#include <stdlib.h>
#include <string.h>

#include "mlat_solver.h"

static double of_bits(uint64_t bits) { double x; memcpy(&x, &bits, 8); return x; }
static uint64_t to_bits(double x) { uint64_t bits; memcpy(&bits, &x, 8); return bits; }

static double hardware_sqrt(double x) { double r; __asm__("sqrtsd %1, %0" : "=x"(r) : "x"(x)); return r; }

/* xorshift64, from a fixed seed: every run has the same arguments */
static uint64_t state = 88172645463325252u;
static uint64_t next(void) { state ^= state << 13; state ^= state >> 7; state ^= state << 17; return state; }

#define KINDS 8
static const char *const kind_name[KINDS] = {
    "any bits", "from 1 to 4", "subnormal", "a square, up to 2 ulp off", "the square of a midpoint, up to 2 ulp off",
    "a half and its neighbours", "below 1 in size", "about 2^52",
};

static double argument(int kind) {
    uint64_t b = next();
    uint64_t sign = next() & 0x8000000000000000u;
    switch (kind) {
    case 0: return of_bits(b);
    case 1: return of_bits(0x3ff0000000000000u + (b >> 11) % 0x0020000000000000u);
    case 2: return of_bits(sign | ((b & 0xfffffffffffffu) >> (next() % 52)));
    case 3: { double r = (double)(b >> 38); return of_bits(to_bits(r * r) + next() % 5 - 2); }
    /* an odd r of 54 binary digits is the middle of two values: the argument is next to its square, where the root is hardest to round */
    case 4: { long double r = (long double)((b >> 10) | 0x20000000000001u); return of_bits(to_bits((double)(r * r)) + next() % 5 - 2); }
    case 5: { double h = (double)(b >> (11 + next() % 53)) + 0.5; return of_bits((sign | to_bits(h)) + next() % 3 - 1); }
    case 6: return of_bits(sign | (0x3fe0000000000000u - (b >> 10) % 0x0080000000000000u + next() % 3));
    default: return of_bits(sign | (0x4330000000000000u + (b >> 12) % 0x0040000000000000u - 0x0020000000000000u));
    }
}

static int alike(double a, double b) { return to_bits(a) == to_bits(b) || (a != a && b != b); }

int main(int argc, char **argv) {
    long n = argc > 1 ? atol(argv[1]) : 40000000;
    long tried[KINDS] = {0}, wrong = 0;
    static const uint64_t edges[] = {
        0x0000000000000000u, 0x0000000000000001u, 0x000fffffffffffffu, 0x0010000000000000u, 0x3fdfffffffffffffu, 0x3fe0000000000000u,
        0x3fe0000000000001u, 0x3fefffffffffffffu, 0x3ff0000000000000u, 0x4000000000000000u, 0x4004000000000000u, 0x432fffffffffffffu,
        0x4330000000000000u, 0x4330000000000001u, 0x7fefffffffffffffu, 0x7ff0000000000000u, 0x7ff0000000000001u, 0x7ff8000000000000u,
    };
    int edge_count = (int)(sizeof edges / sizeof edges[0]);
    for (long i = 0; i < n + 2 * edge_count; i++) {
        double x;
        if (i < 2 * edge_count) {
            x = of_bits(edges[i / 2] | (i % 2 ? 0x8000000000000000u : 0));
        } else {
            int kind = (int)(i % KINDS);
            x = argument(kind);
            tried[kind]++;
        }
        if (!alike(mlat_sqrt(x), hardware_sqrt(x))) {
            if (wrong++ < 10) printf("sqrt %016llx: %016llx, hardware %016llx\n", (unsigned long long)to_bits(x), (unsigned long long)to_bits(mlat_sqrt(x)), (unsigned long long)to_bits(hardware_sqrt(x)));
        }
        if (!alike(mlat_round(x), round(x))) {
            if (wrong++ < 10) printf("round %016llx: %016llx, the C library %016llx\n", (unsigned long long)to_bits(x), (unsigned long long)to_bits(mlat_round(x)), (unsigned long long)to_bits(round(x)));
        }
    }
    for (int kind = 0; kind < KINDS; kind++) printf("%10ld %s\n", tried[kind], kind_name[kind]);
    printf("%10d edges\n", 2 * edge_count);
    printf("sqrt and round, each on %ld arguments: %ld differences\n", n + 2 * edge_count, wrong);
    return wrong != 0;
}
