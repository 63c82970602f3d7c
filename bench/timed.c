/* The library's calls beside plain C in one run: same bundles, same lines, same points. Each pair is run in turn, and the best of five
   counts. The sums that both answer have to be equal. */
#include "plain.h"
#include <stdio.h>
#include <stdlib.h>
#include <time.h>

uint64_t timed_play(const uint8_t *tag, size_t length, const uint8_t *lines, size_t bytes, uint32_t rounds);
uint64_t timed_walk(const uint8_t *tag, size_t length, uint32_t most, uint32_t rounds);
uint64_t timed_window(uint16_t count, uint16_t width);

static double now(void) {
    struct timespec t;
    clock_gettime(CLOCK_PROCESS_CPUTIME_ID, &t);
    return t.tv_sec + t.tv_nsec * 1e-9;
}

static uint8_t *read_file(const char *name, size_t *length) {
    FILE *f = fopen(name, "rb");
    if (!f) { perror(name); exit(2); }
    uint8_t *bytes = malloc(1 << 20);
    *length = fread(bytes, 1, 1 << 20, f);
    fclose(f);
    return bytes;
}

static int wrong;

static void row(const char *what, double ours, double plain, double units, uint64_t a, uint64_t b) {
    printf("| %s | %.3f | %.3f | %.2f |\n", what, ours * 1e9 / units, plain * 1e9 / units, ours / plain);
    if (a != b) { wrong = 1; fprintf(stderr, "%s: the library answers %llu, plain C %llu\n", what, (unsigned long long)a, (unsigned long long)b); }
}

#define BEST(best, sum, call) do { double from = now(); sum = call; double took = now() - from; if (took < best) best = took; } while (0)

static void tag(const char *name, const char *label, uint32_t nets, uint32_t inputs, uint32_t play_rounds, uint32_t walk_rounds, uint32_t most) {
    size_t length;
    uint8_t *bytes = read_file(name, &length);
    size_t count = 200, size = count * (inputs + 1);
    uint8_t *lines = malloc(size);
    uint32_t seed = 1;
    for (size_t i = 0; i < size; i++) { seed = seed * 1664525 + 1013904223; lines[i] = (i + 1) % (inputs + 1) == 0 ? '\n' : '0' + (seed >> 30 & 1); }
    double ours = 1e9, plain = 1e9, first, second;
    uint64_t a = 0, b = 0;
    char text[200];
    /* a call of no rounds reads the bundle alone */
    first = second = 1e9;
    for (int i = 0; i < 5; i++) { BEST(first, a, timed_play(bytes, length, lines, size, 0)); BEST(second, b, plain_play(bytes, length, lines, size, 0)); }
    for (int i = 0; i < 5; i++) { BEST(ours, a, timed_play(bytes, length, lines, size, play_rounds)); BEST(plain, b, plain_play(bytes, length, lines, size, play_rounds)); }
    snprintf(text, sizeof text, "play, %s: a cycle, for each net", label);
    row(text, ours - first, plain - second, (double)play_rounds * count * nets, a, b);
    ours = plain = 1e9;
    for (int i = 0; i < 5; i++) { BEST(ours, a, timed_walk(bytes, length, most, walk_rounds)); BEST(plain, b, plain_walk(bytes, length, most, walk_rounds)); }
    snprintf(text, sizeof text, "walk, %s: a point, for each net (%u points)", label, (unsigned)(a >> 32));
    row(text, ours - first, plain - second, (double)walk_rounds * (a >> 32) * nets, a, b);
    free(bytes); free(lines);
}

int main(int count, char **names) {
    if (count != 3) { fprintf(stderr, "usage: timed THRESHOLD LARGE\n"); return 2; }
    printf("| what | library, ns | plain C, ns | ratio |\n|---|---|---|---|\n");
    tag(names[1], "threshold tag, 391 nets", 391, 8, 400, 60, 4096);
    tag(names[2], "large tag, 4,000 nets", 4000, 2, 20, 20, 300);
    double ours = 1e9, plain = 1e9;
    uint64_t a = 0, b = 0;
    for (int i = 0; i < 2; i++) { BEST(ours, a, timed_window(65535, 65535)); BEST(plain, b, plain_window(65535, 65535)); }
    row("window of 65,535 over 65,535 points: a step, for each point", ours, plain, 65535.0 * 65535.0, a, b);
    return wrong;
}
