/* The times of the command mlat over a file of records, beside plain loops over the same calls of the library on the
   mapped file, and beside cat (bench/mlat). Each is a process of its own that writes to /dev/null; they take turns, and
   the least processor time of each counts. */
#define _GNU_SOURCE
#include <fcntl.h>
#include <stdio.h>
#include <stdlib.h>
#include <string.h>
#include <sys/mman.h>
#include <sys/resource.h>
#include <sys/stat.h>
#include <sys/wait.h>
#include <time.h>
#include <unistd.h>
#include "mlat_solver.h"

enum { BLOCK = 1 << 20, ITEMS = 10, ARCHIVED = 152, MOST = 10 };

static const uint8_t *file;
static size_t size;

/* A place with few fixes near it. */
static const double point[3] = {4260000, 699000, 4694000};
static const char *const x = "4260000", *const y = "699000", *const z = "4694000", *const radius = "50000";

/* ---- the loops */

static uint8_t block[BLOCK + ARCHIVED];
static size_t filled;

/* What fills the block is written once it is a megabyte. */
static void put(size_t bytes) {
    filled += bytes;
    if (filled < BLOCK) return;
    if (write(STDOUT_FILENO, block, filled) < 0) _exit(1);
    filled = 0;
}

static void loop_records(void) {
    uint64_t counts[32] = {0}, early = 0;
    for (size_t at = 0; at < size; at += MLAT_RECORD_BYTES) {
        uint32_t words[6] = {0};
        double numbers[18];
        int64_t transmit_ps = 0;
        uint32_t refusal = mlat_read_record(file + at, MLAT_RECORD_BYTES, words, numbers, &transmit_ps);
        counts[refusal ? refusal : words[0]]++;
        if (transmit_ps < 0) early++;
    }
    printf("%llu %llu\n", (unsigned long long)counts[0], (unsigned long long)early);
}

static void loop_archive(void) {
    for (size_t at = 0; at < size; at += MLAT_RECORD_BYTES) {
        if (mlat_to_archive(file + at, MLAT_RECORD_BYTES, block + filled, ARCHIVED)) _exit(1);
        put(ARCHIVED);
    }
}

static void loop_asterix(void) {
    for (size_t at = 0; at < size; at += MLAT_RECORD_BYTES) {
        int32_t wire[3];
        if (mlat_to_wire(file + at, MLAT_RECORD_BYTES, wire) == 0 && mlat_to_asterix(wire, block + filled, ITEMS) == 0)
            put(ITEMS);
    }
}

static void loop_near(void) {
    size_t records = size / MLAT_RECORD_BYTES;
    uint64_t *places = malloc(records * sizeof *places), count, place;
    if (!places || mlat_within(file, size, point, atof(radius), places, records, &count)) _exit(1);
    if (mlat_nearest(file, size, point, &place)) _exit(1);
    printf("%llu %llu\n", (unsigned long long)place, (unsigned long long)count);
}

/* ---- processes */

struct side {
    void (*loop)(void);       /* a loop on the mapped file, or */
    const char *words[MOST];  /* a command */
    double processor, passed; /* the least seconds */
};

static double seconds(struct timeval time) { return time.tv_sec + time.tv_usec * 1e-6; }

static double now(void) {
    struct timespec time;
    clock_gettime(CLOCK_MONOTONIC, &time);
    return time.tv_sec + time.tv_nsec * 1e-9;
}

/* In the process of its own: the file is mapped there, as a caller of the library maps it. */
static void run(const struct side *side, const char *path) {
    int null = open("/dev/null", O_WRONLY), fd = open(path, O_RDONLY);
    if (null < 0 || fd < 0 || dup2(null, STDOUT_FILENO) < 0) _exit(1);
    if (!side->loop) {
        execvp(side->words[0], (char *const *)side->words);
        _exit(1);
    }
    file = mmap(NULL, size, PROT_READ, MAP_PRIVATE, fd, 0);
    if (file == MAP_FAILED) _exit(1);
    side->loop();
    put(0);
    _exit(fflush(stdout) != 0);
}

static void turn(struct side *side, const char *path) {
    struct rusage used;
    int status;
    double start = now();
    pid_t child = fork();
    if (child == 0) run(side, path);
    if (child < 0 || wait4(child, &status, 0, &used) < 0 || status != 0) {
        fprintf(stderr, "mlat: a side of %s failed\n", side->loop ? "the loops" : side->words[1]);
        exit(1);
    }
    double passed = now() - start, processor = seconds(used.ru_utime) + seconds(used.ru_stime);
    if (!side->passed || passed < side->passed) side->passed = passed;
    if (!side->processor || processor < side->processor) side->processor = processor;
}

/* Both sides in turns; a command without a loop stands alone. */
static double compare(const char *name, long turns, const char *path, struct side command, struct side loop) {
    for (long k = 0; k < turns; k++) {
        turn(&command, path);
        if (loop.loop) turn(&loop, path);
    }
    printf("%-18s %7.1f ms of processor time, %7.1f ms passed", name, command.processor * 1e3, command.passed * 1e3);
    if (loop.loop)
        printf("; the loop in C %6.1f ms, %6.1f ms; ratio %.2f", loop.processor * 1e3, loop.passed * 1e3,
               command.processor / loop.processor);
    printf("\n");
    return loop.loop ? command.processor / loop.processor : 0;
}

int main(int count, char **words) {
    struct stat told;
    if (count != 4) return 2;
    const char *mlat = words[1], *path = words[2];
    long turns = atol(words[3]);
    if (stat(path, &told) || told.st_size % MLAT_RECORD_BYTES) return 2;
    size = told.st_size;
    struct { const char *name; struct side command, loop; } all[] = {
        {"cat", {.words = {"cat", path}}, {0}},
        {"records", {.words = {mlat, "records", path}}, {.loop = loop_records}},
        {"archive", {.words = {mlat, "archive", "-q", path, "-"}}, {.loop = loop_archive}},
        {"asterix", {.words = {mlat, "asterix", "-q", path, "-"}}, {.loop = loop_asterix}},
        {"near", {.words = {mlat, "near", path, "--ecef", x, y, z, radius}}, {.loop = loop_near}},
        {"check", {.words = {mlat, "check", path}}, {.loop = loop_records}},
        {"records --csv", {.words = {mlat, "records", "--csv", path}}, {0}},
        {"records --json", {.words = {mlat, "records", "--json", path}}, {0}},
    };
    double worst = 0;
    for (size_t k = 0; k < sizeof all / sizeof *all; k++) {
        double ratio = compare(all[k].name, turns, path, all[k].command, all[k].loop);
        if (ratio > worst) worst = ratio;
    }
    printf("worst ratio %.2f\n", worst);
    return 0;
}
