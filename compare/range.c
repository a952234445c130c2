/* Sines, cosines, bases and places held to their ranges: from -1 to 1 within 7 radians and a not-a-number beyond; from
   -1 to 1 for every entry of a basis; a latitude and a longitude for every finite point but the centre of the earth.
   Built and run by compare/range. */
#include <inttypes.h>
#include <stdint.h>
#include <stdio.h>
#include <stdlib.h>
#include <string.h>

#include "mlat_solver.h"

static double of_bits(uint64_t bits) { double x; memcpy(&x, &bits, 8); return x; }
static uint64_t to_bits(double x) { uint64_t bits; memcpy(&bits, &x, 8); return bits; }

/* xorshift64, from a fixed seed: every run has the same arguments */
static uint64_t state = 88172645463325252u;
static uint64_t next(void) { state ^= state << 13; state ^= state >> 7; state ^= state << 17; return state; }
static double within(double c) { return ((double)(next() >> 11) / 4503599627370496.0 - 1.0) * c; }
static double any_finite(void) { for (;;) { double x = of_bits(next()); if (x - x == 0) return x; } }

static uint64_t angles, ones, beyond, entries, points, centres, turned, outside;
static double most_sin, most_cos;

static int is_in(double x) { return x >= -1 && x <= 1; }
static double size(double x) { return x < 0 ? -x : x; }

static void wrong(const char *what, double a, double b, double c) {
    if (outside++ < 10) printf("%s: %a %a %a\n", what, a, b, c);
}

static void angle(double x) {
    double pair[2], s = mlat_sin(x), c = mlat_cos(x);
    mlat_sincos(x, pair);
    if (!(size(x) <= 7)) {
        beyond++;
        if (s == s || c == c || pair[0] == pair[0] || pair[1] == pair[1]) wrong("a number beyond 7", x, s, c);
        return;
    }
    angles++;
    ones += (size(s) == 1) + (size(c) == 1);
    if (size(s) > most_sin) most_sin = size(s);
    if (size(c) > most_cos) most_cos = size(c);
    if (!is_in(s) || !is_in(c) || !is_in(pair[0]) || !is_in(pair[1])) wrong("sine or cosine", x, s, c);
}

/* every value within 2^20 of x, on either side of it */
static void about(double x) {
    uint64_t bits = to_bits(size(x));
    for (uint64_t b = bits > 1048576 ? bits - 1048576 : 0; b <= bits + 1048576; b++) {
        angle(of_bits(b));
        angle(-of_bits(b));
    }
}

static void basis(double lat, double lon) {
    double nine[9];
    mlat_enu_basis(lat, lon, nine);
    for (int i = 0; i < 9; i++) {
        entries++;
        if (!is_in(nine[i])) wrong("basis", lat, lon, nine[i]);
    }
}

static void point(const double ecef[3]) {
    double place[3];
    mlat_from_ecef(ecef, place);
    points++;
    if (ecef[0] == 0 && ecef[1] == 0 && ecef[2] == 0) {
        centres++;
        if (place[0] == place[0]) wrong("the centre has a latitude", place[0], place[1], place[2]);
        return;
    }
    if (place[0] != place[0] || place[1] != place[1]) wrong("place", ecef[0], ecef[1], ecef[2]);
    turned += size(place[0]) > 90;
    basis(place[0], place[1]);
}

static double coordinate(uint64_t kind) {
    static const double some[] = {
        0.0, -0.0, 4.9406564584124654e-324, 2.2250738585072014e-308, 1e-160, 1e-10, 1.0, 42841.3, 6356752.3, 6378137.0,
        1e8, 1e160, 1.7976931348623157e308,
    };
    switch (kind % 4) {
    case 0: return any_finite();
    case 1: return within(7e6);
    case 2: return within(1e-3);
    default: return (next() % 2 ? 1 : -1) * some[next() % (sizeof some / sizeof some[0])];
    }
}

int main(int argc, char **argv) {
    long n = argc > 1 ? atol(argv[1]) : 100000000;
    static const uint64_t limits[] = { /* the high words by which fdlibm branches, and the ends */
        0x3e400000u, 0x3fd33333u, 0x3fe90000u, 0x3fe921fbu, 0x3ff921fbu, 0x4002d97cu, 0x400921fbu, 0x4012d97cu,
        0x401921fbu, 0x401c0000u,
    };
    for (int k = 0; k <= 4; k++) about(k * 1.5707963267948966);
    for (size_t i = 0; i < sizeof limits / sizeof limits[0]; i++) {
        about(of_bits(limits[i] << 32));
        about(of_bits((limits[i] + 1) << 32));
    }
    for (long i = 0; i < n; i++) angle(i % 4 == 3 ? any_finite() : within(7));
    for (int lat = -90; lat <= 90; lat++) for (int lon = -180; lon <= 180; lon++) basis(lat, lon);
    for (long i = 0; i < n / 10; i++) basis(within(90), within(180));
    for (long i = 0; i < n / 10; i++) {
        uint64_t kind = next();
        double ecef[3] = {coordinate(kind), coordinate(kind >> 2), coordinate(kind >> 4)};
        point(ecef);
    }
    printf("%" PRIu64 " angles within 7: the largest sine %.17g, the largest cosine %.17g; %" PRIu64 " times 1 or -1\n",
           angles, most_sin, most_cos, ones);
    printf("%" PRIu64 " angles beyond 7; %" PRIu64 " entries of bases\n", beyond, entries);
    printf("%" PRIu64 " finite points: %" PRIu64 " times the centre, %" PRIu64 " with a latitude past 90 degrees\n",
           points, centres, turned);
    printf("outside their ranges: %" PRIu64 "\n", outside);
    return outside != 0 || angles == 0;
}
