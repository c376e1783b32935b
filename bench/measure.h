// What the benchmarks share: random numbers, the least time of a call, and a table of ratios.
#include <stdint.h>
#include <stdio.h>
#include <string.h>
#include <time.h>

enum { INPUTS = 10000, LONGEST = 700, ROUNDS = 7 };
static volatile uint8_t sink;

static uint64_t seed = 0x9e3779b97f4a7c15u;
static uint64_t next(void) {
    seed ^= seed << 13;
    seed ^= seed >> 7;
    seed ^= seed << 17;
    return seed;
}

static void fill(uint8_t *bytes, size_t size) {
    for (size_t i = 0; i < size; i++) bytes[i] = (uint8_t)next();
}

// The length of the i-th input: each from 0 to the longest once, and then any.
static size_t length_of(int i, size_t longest) {
    return (size_t)i <= longest ? (size_t)i : next() % (longest + 1);
}

static double now(void) {
    struct timespec t;
    clock_gettime(CLOCK_MONOTONIC, &t);
    return t.tv_sec + 1e-9 * t.tv_nsec;
}

// The least time of one call, in nanoseconds, over a few rounds that are taken in turn with the others'.
static void measure(void (*const calls[])(size_t), int count, size_t n, double best[]) {
    int times = (int)(4000000 / (n + 200)) + 1;
    for (int c = 0; c < count; c++) best[c] = 1e30;
    for (int r = 0; r < ROUNDS; r++)
        for (int c = 0; c < count; c++) {
            double start = now();
            for (int i = 0; i < times; i++) calls[c](n);
            double each = (now() - start) / times * 1e9;
            if (each < best[c]) best[c] = each;
        }
}

// A row for each size: the time of the first call, and that of each other in times it.
static void table(const char *title, const char *const names[], void (*const calls[])(size_t), int count, const size_t *sizes, int rows) {
    printf("\n%s\n%8s %10s", title, "bytes", "ours, ns");
    for (int c = 1; c < count; c++) printf(" %18s", names[c]);
    printf("\n");
    for (int r = 0; r < rows; r++) {
        double best[8];
        measure(calls, count, sizes[r], best);
        printf("%8zu %10.0f", sizes[r], best[0]);
        for (int c = 1; c < count; c++) printf(" %17.2fx", best[c] / best[0]);
        printf("\n");
    }
}
