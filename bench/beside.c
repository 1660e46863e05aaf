/* Two builds of the shared library beside each other, in one process with one clock. bench/beside makes its input:
 *
 *   beside DIR BEFORE.so AFTER.so    DIR/N.case and DIR/N.cert, accepted pairs
 *
 * First both must answer the same on every pair. Then they take turns on each pair, in rounds, one of which gives the ratio
 * of their times over all pairs. Prints for each call the median time of each and the median ratio. Status 1 if answers
 * differ, 2 if an input or a library fails.
 */
#define _GNU_SOURCE
#include "nostwier.h"

#include <dlfcn.h>
#include <stdio.h>
#include <stdlib.h>
#include <string.h>
#include <time.h>

enum { MOST_PAIRS = 64, ROUNDS = 1001, ROOM = 2048 };

typedef struct {
    uint8_t c[32768], q[32768];
    size_t cn, qn;
} pair;

typedef struct {
    nostwier_result (*check)(const uint8_t *, size_t, const uint8_t *, size_t);
    nostwier_answer (*prices)(const uint8_t *, size_t, const uint8_t *, size_t, int64_t *, size_t);
    nostwier_answer (*charges)(const uint8_t *, size_t, const uint8_t *, size_t, int64_t *, size_t);
} build;

static pair pairs[MOST_PAIRS];
static size_t count;
static int64_t out[2][ROOM];

__attribute__((noreturn)) static void die(const char *what, const char *name)
{
    fprintf(stderr, "beside: %s: %s\n", name, what);
    exit(2);
}

static size_t read_file(const char *directory, size_t n, const char *kind, uint8_t *bytes)
{
    char name[512];
    snprintf(name, sizeof name, "%s/%zu.%s", directory, n, kind);
    FILE *file = fopen(name, "rb");
    if (!file) return 0;
    size_t length = fread(bytes, 1, 32768, file);
    fclose(file);
    return length;
}

static build load(const char *name)
{
    void *library = dlopen(name, RTLD_NOW | RTLD_LOCAL);
    if (!library) die("it cannot be loaded", name);
    build own;
    *(void **)&own.check = dlsym(library, "nostwier_check_certificate");
    *(void **)&own.prices = dlsym(library, "nostwier_prices");
    *(void **)&own.charges = dlsym(library, "nostwier_charges");
    if (!own.check || !own.prices || !own.charges) die("it lacks a call", name);
    return own;
}

/* The call of that number, of one build on one pair: its refusal. */
static uint32_t call(const build *own, int which, const pair *p, int64_t *numbers)
{
    if (which == 1) return own->prices(p->c, p->cn, p->q, p->qn, numbers, ROOM).refusal;
    if (which == 2) return own->charges(p->c, p->cn, p->q, p->qn, numbers, ROOM).refusal;
    nostwier_result r = own->check(p->c, p->cn, p->q, p->qn);
    numbers[0] = r.cost, numbers[1] = r.bound, numbers[2] = r.gap;
    return r.refusal;
}

static double now(void)
{
    struct timespec t;
    clock_gettime(CLOCK_MONOTONIC, &t);
    return (double)t.tv_sec * 1e6 + (double)t.tv_nsec / 1e3;
}

static int rising(const void *a, const void *b)
{
    double x = *(const double *)a, y = *(const double *)b;
    return (x > y) - (x < y);
}

static double median(double *values)
{
    qsort(values, ROUNDS, sizeof *values, rising);
    return values[ROUNDS / 2];
}

static void compare(const build builds[2], const char *name, int which)
{
    static double times[2][ROUNDS], ratios[ROUNDS];
    for (size_t round = 0; round < ROUNDS; round++) {
        double spent[2] = {0, 0};
        for (size_t i = 0; i < count; i++)
            for (size_t turn = 0; turn < 2; turn++) {
                size_t b = (turn + round) % 2;
                double start = now();
                call(&builds[b], which, &pairs[i], out[b]);
                spent[b] += now() - start;
            }
        for (size_t b = 0; b < 2; b++) times[b][round] = spent[b] / (double)count;
        ratios[round] = spent[1] / spent[0];
    }
    double before = median(times[0]), after = median(times[1]);
    printf("| %s | %.2f | %.2f | %.3f |\n", name, before, after, median(ratios));
}

int main(int argc, char **argv)
{
    if (argc != 4) die("DIR BEFORE.so AFTER.so", "usage");
    for (; count < MOST_PAIRS; count++) {
        pair *p = &pairs[count];
        p->cn = read_file(argv[1], count + 1, "case", p->c);
        p->qn = read_file(argv[1], count + 1, "cert", p->q);
        if (!p->cn || !p->qn) break;
    }
    if (!count) die("no pair", argv[1]);
    const build builds[2] = {load(argv[2]), load(argv[3])};
    static const char *const names[] = {"check", "prices", "charges"};
    for (int which = 0; which < 3; which++)
        for (size_t i = 0; i < count; i++) {
            memset(out, 0, sizeof out);
            uint32_t refused = call(&builds[0], which, &pairs[i], out[0]);
            if (refused != call(&builds[1], which, &pairs[i], out[1]) || memcmp(out[0], out[1], sizeof out[0])) {
                fprintf(stderr, "beside: %s of pair %zu: the answers differ\n", names[which], i + 1);
                return 1;
            }
            if (refused) die("a pair is refused", argv[1]);
        }
    puts("| call | before, µs | after, µs | after : before |\n|---|---|---|---|");
    for (int which = 0; which < 3; which++) compare(builds, names[which], which);
    return 0;
}
