/* Reads the records that Fdlibm.java writes and holds the port's sin, cos, sincos, atan2 and hypot to them, bit for bit; all
   not-a-numbers count as one value. Built and run by compare/fdlibm. */
#include <inttypes.h>
#include <stdint.h>
#include <stdio.h>
#include <string.h>

#include "mlat_solver.h"

enum { SIN, COS, ATAN2, HYPOT, SINCOS_SIN, SINCOS_COS, COUNT };

static const char *const name[COUNT] = {"sin", "cos", "atan2", "hypot", "sincos, sin", "sincos, cos"};
static uint64_t tried[COUNT], differ[COUNT];

static uint64_t to_bits(double x) { uint64_t bits; memcpy(&bits, &x, 8); return x != x ? 0x7ff8000000000000u : bits; }

static void hold(int which, double a, double b, double wanted, double got) {
    tried[which]++;
    if (to_bits(wanted) == to_bits(got)) return;
    if (differ[which]++ < 5)
        printf("%s(%a, %a): fdlibm %016" PRIx64 ", port %016" PRIx64 "\n", name[which], a, b, to_bits(wanted), to_bits(got));
}

int main(void) {
    struct { uint64_t which; double a, b, wanted; } record; /* as its bytes have it, on x86-64 */
    while (fread(&record, sizeof record, 1, stdin) == 1) {
        double a = record.a, b = record.b, wanted = record.wanted, pair[2];
        switch (record.which) {
        case SIN:
            mlat_sincos(a, pair);
            hold(SIN, a, b, wanted, mlat_sin(a));
            hold(SINCOS_SIN, a, b, wanted, pair[0]);
            break;
        case COS:
            mlat_sincos(a, pair);
            hold(COS, a, b, wanted, mlat_cos(a));
            hold(SINCOS_COS, a, b, wanted, pair[1]);
            break;
        case ATAN2: hold(ATAN2, a, b, wanted, mlat_atan2(a, b)); break;
        case HYPOT: hold(HYPOT, a, b, wanted, mlat_hypot(a, b)); break;
        }
    }
    uint64_t all = 0, wrong = 0;
    for (int i = 0; i < COUNT; i++) {
        printf("%9" PRIu64 " %s: %" PRIu64 " differences\n", tried[i], name[i], differ[i]);
        all += tried[i];
        wrong += differ[i];
    }
    printf("%" PRIu64 " results beside fdlibm's: %" PRIu64 " differences\n", all, wrong);
    return wrong != 0 || all == 0;
}
