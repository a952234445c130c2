/* Lists a file of fix records: records FILE. Build: tools/shared_library;
   cc -Iinclude examples/records.c target/staticlib/libmlat_solver.a -o target/records */
#include <inttypes.h>
#include <stdio.h>
#include <stdlib.h>
#include "mlat_solver.h"

/* The whole file in memory; NULL where it cannot be read. */
static uint8_t *whole(const char *path, size_t *length) {
    FILE *file = fopen(path, "rb");
    if (!file) return NULL;
    fseek(file, 0, SEEK_END);
    long size = ftell(file);
    rewind(file);
    uint8_t *bytes = size < 0 ? NULL : malloc((size_t)size + 1);
    if (bytes) *length = fread(bytes, 1, (size_t)size, file);
    fclose(file);
    return bytes;
}

static void show(const uint8_t *record) {
    uint32_t words[6];
    double numbers[18];
    int64_t transmit_ps;
    if (mlat_read_record(record, 176, words, numbers, &transmit_ps)) printf("malformed\n");
    else if (words[0]) printf("no fix: refusal %" PRIu32 ", detail %" PRIu32 "\n", words[0], words[1]);
    else printf("latitude %.7f, longitude %.7f, height %.1f m, sent %" PRId64 " ps\n",
                numbers[4], numbers[5], numbers[6], transmit_ps);
}

int main(int count, char **given) {
    if (count != 2) {
        fprintf(stderr, "usage: %s FILE\n", given[0]);
        return 2;
    }
    size_t length = 0;
    uint8_t *file = whole(given[1], &length);
    if (!file) {
        fprintf(stderr, "%s cannot be read\n", given[1]);
        return 2;
    }
    uint64_t place = 0, at;
    uint32_t answer;
    while ((answer = mlat_record_at(file, length, place, &at)) == 0) {
        printf("%" PRIu64 ": ", place);
        show(file + at);
        place++;
    }
    free(file);
    if (answer != MLAT_TORN_FILE) return 0;
    fprintf(stderr, "%s is not whole records\n", given[1]);
    return 1;
}
