/* Traces chosen against the hash: strides, and pages that all have one home. Beside them two ordinary traces with no hits, the scan, whose pages
   are spread more evenly than by chance, and pages at random, which are not; and the same traces on the ring in C, whose hash is one
   multiplication. Mostly at k = 4,096; where k is small, other strides are worst, those that come back near the same place within a block. */
#include "bench.h"
#include <stdio.h>
#include <stdlib.h>

static const size_t capacities[] = {4096, 64, 8};

/* Which strides: what tools/strides.c finds worst, what is worst for one multiplication, powers of two, inverses of both multipliers. */
static const struct {
    size_t k;
    const char *what;
    uint64_t step;
} strides[] = {
    {4096, "worst below 2^20", 4},
    {4096, "worst of all that were tried", 4008636143u},
    {4096, "bad if every page is mixed by itself", 146667},
    {4096, "bad if every page is mixed by itself", 2975924224u},
    {4096, "a Fibonacci number, bad for one multiplication", 514229},
    {4096, "2^12", 4096},
    {4096, "2^16", 65536},
    {4096, "2^19", 524288},
    {4096, "inverse of the first multiplier modulo 2^32", 2570548029u},
    {4096, "inverse of the second multiplier modulo 2^32", 2337908891u},
    {64, "worst below 2^20", 610},
    {64, "nearly as bad", 122},
    {8, "worst of any k", 233},
};

struct measured {
    double ours, ring;
};

static struct measured measure(size_t k, const uint64_t *trace, size_t n, int rounds) {
    struct measured best = {1e9, 1e9};
    for (int round = 0; round < rounds; round++) {
        double a = spent();
        our_play(k, trace, n, NULL);
        double b = spent();
        ring_play(k, trace, n, NULL);
        double c = spent();
        double ours = (b - a) * 1e9 / n, ring = (c - b) * 1e9 / n;
        if (ours < best.ours) best.ours = ours;
        if (ring < best.ring) best.ring = ring;
    }
    return best;
}

static void row(size_t k, const char *what, struct measured m, double scan, double random) {
    printf("| %zu | %s | %.1f | %.2f | %.2f | %.1f |\n", k, what, m.ours, m.ours / scan, m.ours / random, m.ring);
    fflush(stdout);
}

static void rows(size_t k, uint64_t *trace, size_t n, int rounds) {
    char what[128];
    trace_stride(trace, n, 1);
    struct measured scan = measure(k, trace, n, rounds);
    trace_random(trace, n, 4294967296u);
    struct measured random = measure(k, trace, n, rounds);
    row(k, "scan", scan, scan.ours, random.ours);
    row(k, "pages at random, below 2^32", random, scan.ours, random.ours);
    for (size_t i = 0; i < sizeof strides / sizeof *strides; i++) {
        if (strides[i].k != k) continue;
        trace_stride(trace, n, strides[i].step);
        snprintf(what, sizeof what, "stride %llu: %s", (unsigned long long)strides[i].step, strides[i].what);
        row(k, what, measure(k, trace, n, rounds), scan.ours, random.ours);
    }
    size_t found = trace_one_home(trace, n < 100000 ? n : 100000, k);
    row(k, "pages of one home, none twice", measure(k, trace, found, rounds < 3 ? rounds : 3), scan.ours, random.ours);
}

void hostile_table(size_t n, int rounds) {
    uint64_t *trace = malloc(n * sizeof *trace);
    puts("| k | Trace | ours, ns | / scan | / at random | ring in C, ns |");
    puts("|---|---|---|---|---|---|");
    for (size_t i = 0; i < sizeof capacities / sizeof *capacities; i++) rows(capacities[i], trace, n, rounds);
    free(trace);
}
