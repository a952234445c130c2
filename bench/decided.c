/* decided N WHAT: asks `decided` 64 times what the residuals of N receptions, all kept, come to. It is WHAT each time,
   which is checked. */
#include <stdint.h>
#include <stdlib.h>
#include <string.h>

enum { CALLS = 64 };

uint32_t decided_c(uint32_t kept, uint32_t included, const double z[32], size_t n);

int main(int argc, char **argv) {
    if (argc != 3) return 2;
    size_t n = strtoul(argv[1], NULL, 10);
    int left_out = strcmp(argv[2], "return") == 0 || strcmp(argv[2], "settled, one left out") == 0;
    int above = strcmp(argv[2], "removal") == 0 || strcmp(argv[2], "settled, one left out") == 0;
    uint32_t all = (uint32_t)((UINT64_C(1) << n) - 1);
    uint64_t seed = 1;
    for (size_t call = 0; call < CALLS; call++) {
        double z[32] = {0};
        for (size_t i = 0; i < n; i++) {
            seed = seed * UINT64_C(6364136223846793005) + UINT64_C(1442695040888963407);
            z[i] = (double)(seed >> 40) * 3 / (1 << 24);
        }
        uint32_t one = UINT32_C(1) << call % n;
        if (above) z[call % n] = 9;
        uint32_t included = left_out ? all & ~one : all;
        uint32_t then = decided_c(all, included, z, n);
        uint32_t expected = left_out && !above ? all : above && !left_out ? all & ~one : included;
        if (then != expected) return 1;
    }
    return 0;
}
