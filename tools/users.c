/* users FOLDER..: of each folder, solves its four files by the installed library and compares what it gives with
   record.bin there, byte for byte; then has the states told, and the record read, written, moved to the archive's form
   and back and put on the wire. First the library has to be of the header's version. For tools/test_users; C and C++.
   What is lent is allocated to the byte, so that AddressSanitizer and valgrind see an access beside it. */
#include <mlat_solver.h>
#include <stdio.h>
#include <stdlib.h>
#include <string.h>

struct input {
    size_t length;
    uint8_t *bytes;
};

static void fail(const char *folder, const char *what) {
    fprintf(stderr, "%s: %s\n", folder, what);
    exit(1);
}

static uint8_t *room(size_t length) {
    uint8_t *bytes = (uint8_t *)malloc(length);
    if (!bytes) fail("malloc", "no memory");
    return bytes;
}

static struct input input(const char *folder, const char *name) {
    char path[4096];
    snprintf(path, sizeof path, "%s/%s.bin", folder, name);
    FILE *file = fopen(path, "rb");
    if (!file) fail(path, "cannot be opened");
    fseek(file, 0, SEEK_END);
    struct input in;
    in.length = (size_t)ftell(file);
    in.bytes = room(in.length);
    rewind(file);
    if (fread(in.bytes, 1, in.length, file) != in.length) fail(path, "cannot be read");
    fclose(file);
    return in;
}

/* The record is read and written again, moved and moved back, and its position put on the wire and taken off it. */
static void again(const char *folder, const uint8_t *record) {
    uint32_t words[6];
    double numbers[18], position[3];
    int64_t transmit_ps;
    int32_t wire[3];
    uint8_t *back = room(176), *small = room(152);
    if (mlat_read_record(record, 176, words, numbers, &transmit_ps)) fail(folder, "the record is not read");
    if (mlat_write_record(words, numbers, transmit_ps, back, 176)) fail(folder, "the record is not written");
    if (memcmp(back, record, 176)) fail(folder, "the record is written otherwise");
    memset(back, 0xA5, 176);
    if (mlat_to_archive(record, 176, small, 152)) fail(folder, "the record is not moved");
    if (mlat_from_archive(small, 152, back, 176)) fail(folder, "the record is not moved back");
    if (memcmp(back, record, 176)) fail(folder, "the record is moved back otherwise");
    if (words[0] == 0 && (mlat_to_wire(record, 176, wire) || mlat_from_wire(wire, position))) fail(folder, "no wire");
    free(back), free(small);
}

static void tried(const char *folder) {
    struct input r = input(folder, "receptions"), c = input(folder, "clock"), a = input(folder, "altitude"),
                 f = input(folder, "reference"), known = input(folder, "record");
    uint8_t *out = room(176), *states = room(640);
    uint32_t present = MLAT_CLOCK | MLAT_ALTITUDE | MLAT_REFERENCE, detail = 0, answer, told;
    answer = mlat_solve(r.bytes, r.length, c.bytes, c.length, a.bytes, a.length, f.bytes, f.length, present, out, 176);
    if (known.length != 176 || memcmp(out, known.bytes, 176)) fail(folder, "another record than record.bin");
    told = mlat_why(r.bytes, r.length, c.bytes, c.length, a.bytes, a.length, f.bytes, f.length, present, states, 640,
                    &detail);
    if (told != answer || memcmp(&detail, out + 4, 4)) fail(folder, "mlat_why has another answer");
    again(folder, out);
    free(r.bytes), free(c.bytes), free(a.bytes), free(f.bytes), free(known.bytes), free(out), free(states);
}

int main(int count, char **words) {
    if (mlat_version() != MLAT_VERSION) fail("mlat_version", "the library is not that of the header");
    for (int k = 1; k < count; k++) tried(words[k]);
    printf("%d folders\n", count - 1);
    return count < 2;
}
