/* What a request costs, in a long trace: ours, the two crates and the ring in C, in turn, the least of several rounds for each. */
#include "bench.h"
#include <stdio.h>
#include <stdlib.h>
#include <string.h>

enum { WHO = 4 };

static uint64_t (*const play[WHO])(size_t, const uint64_t *, size_t, struct reply *) = {our_play, ring_play, lru_play, hashlink_play};

/* Fills least[] with nanoseconds for each request. All must fetch as often, and give the same replies. */
static uint64_t measured(size_t k, const uint64_t *trace, size_t n, int rounds, struct reply *replies, struct reply *ours, double *least) {
    uint64_t fetches = 0;
    for (int who = 0; who < WHO; who++) least[who] = 1e9;
    for (int round = 0; round < rounds; round++)
        for (int who = 0; who < WHO; who++) {
            struct reply *to = replies && who == 0 ? ours : replies;
            double a = spent();
            uint64_t now = play[who](k, trace, n, to);
            double ns = (spent() - a) * 1e9 / n;
            if (ns < least[who]) least[who] = ns;
            if (who == 0) fetches = now;
            agree("fetches", now == fetches);
            if (replies && round == 0 && who > 0) agree("replies", memcmp(ours, replies, n * sizeof *replies) == 0);
        }
    return fetches;
}

static void row(const char *what, size_t k, const uint64_t *trace, size_t n, int rounds, struct reply *replies, struct reply *ours) {
    double bare[WHO], told[WHO];
    uint64_t fetches = measured(k, trace, n, rounds, NULL, NULL, bare);
    measured(k, trace, n, rounds, replies, ours, told);
    double crate = bare[2] < bare[3] ? bare[2] : bare[3], crate_told = told[2] < told[3] ? told[2] : told[3];
    printf("| %s | %zu | %.0f %% | %.1f | %.2f | %.2f | %.2f | %.2f | %.1f | %.2f | %.2f |\n", what, k, 100 - 100.0 * fetches / n, bare[0],
           bare[0] / bare[1], bare[0] / bare[2], bare[0] / bare[3], bare[0] / crate, told[0], told[0] / told[1], told[0] / crate_told);
    fflush(stdout);
}

void requests_table(size_t n, int rounds) {
    static const size_t capacities[] = {40, 64, 1024, 4096};
    uint64_t *trace = malloc(n * sizeof *trace);
    struct reply *replies = calloc(n, sizeof *replies), *ours = calloc(n, sizeof *ours);
    puts("| Trace | k | hits | ours, ns | / C | / `lru` | / `hashlink` | / faster crate | with replies, ns | / C | / faster crate |");
    puts("|---|---|---|---|---|---|---|---|---|---|---|");
    for (int kind = 0; kind < 4; kind++)
        for (int c = 0; c < 4; c++) {
            size_t k = capacities[c];
            static const char *const names[] = {"random, 2 k pages", "skewed, 16 k pages", "scan", "loop of k + 1 pages"};
            if (kind == 0) trace_random(trace, n, 2 * k);
            if (kind == 1) trace_skewed(trace, n, 16 * k);
            if (kind == 2) trace_stride(trace, n, 1);
            if (kind == 3) trace_loop(trace, n, k + 1);
            row(names[kind], k, trace, n, rounds, replies, ours);
        }
    free(trace);
    free(replies);
    free(ours);
}
