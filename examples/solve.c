/* Solves the four files of a folder: solve [FOLDER]. A file that is not there is an absent input; one that is there and
   cannot be read ends the program. Exit status: 0 a fix, 1 a refusal, 2 nothing was solved.
   The bytes of the record are its struct: the library is for little-endian machines.
   Build: tools/shared_library; cc -Iinclude examples/solve.c target/staticlib/libmlat_solver.a -o target/solve */
#include <errno.h>
#include <stdio.h>
#include <stdlib.h>
#include "mlat_solver.h"

struct input {
    uint32_t there; /* 0 or 1 */
    size_t length;
    uint8_t *bytes;
};

static void fail(const char *path) {
    perror(path);
    exit(2);
}

/* The whole file, whatever its length. */
static struct input input(const char *folder, const char *name) {
    char path[4096];
    if ((size_t)snprintf(path, sizeof path, "%s/%s.bin", folder, name) >= sizeof path) {
        errno = ENAMETOOLONG;
        fail(folder);
    }
    size_t room = 4096;
    struct input in = {0, 0, malloc(room)};
    if (!in.bytes) fail(path);
    FILE *file = fopen(path, "rb");
    if (!file && errno == ENOENT) return in;
    if (!file) fail(path);
    in.there = 1;
    while ((in.length += fread(in.bytes + in.length, 1, room - in.length, file)) == room) {
        room *= 2;
        in.bytes = realloc(in.bytes, room);
        if (!in.bytes) fail(path);
    }
    if (ferror(file)) fail(path);
    fclose(file);
    return in;
}

int main(int count, char **words) {
    if (count > 2) {
        fprintf(stderr, "usage: %s [FOLDER]\n", words[0]);
        return 2;
    }
    const char *folder = count > 1 ? words[1] : ".";
    struct input r = input(folder, "receptions"), c = input(folder, "clock"), a = input(folder, "altitude"),
                 f = input(folder, "reference");
    if (!r.there && !c.there && !a.there && !f.there) {
        fprintf(stderr, "%s has none of the four files\n", folder);
        return 2;
    }
    uint32_t present = c.there * MLAT_CLOCK | a.there * MLAT_ALTITUDE | f.there * MLAT_REFERENCE;
    struct mlat_record fix;
    uint32_t answer = mlat_solve(r.bytes, r.length, c.bytes, c.length, a.bytes, a.length, f.bytes, f.length, present,
                                 (uint8_t *)&fix, sizeof fix);
    if (answer) printf("refused: %u, detail %u\n", answer, fix.detail);
    else printf("latitude %.7f, longitude %.7f, height %.1f m, used %08x\n", fix.lat_deg, fix.lon_deg, fix.height_m, fix.used);
    free(r.bytes), free(c.bytes), free(a.bytes), free(f.bytes);
    return answer != 0;
}
