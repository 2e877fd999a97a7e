/* What a report costs, for every capacity up to the trace's length: ours, the same two passes in C and in Rust, and a simulation for each
   capacity. The least of several rounds in turn; the simulation, which takes seconds where the trace is long, once. */
#include "bench.h"
#include <stdio.h>
#include <string.h>

enum { WHO = 4, MOST = 4096 };

static void (*const report[WHO])(const uint64_t *, size_t, size_t, uint64_t *) = {our_report, c_report, rust_report, first_report};

/* Milliseconds for one report, over as many as make about two. */
static void measured(const uint64_t *trace, size_t n, int rounds, double *least) {
    static uint64_t row[2 * MOST], ours[2 * MOST];
    size_t times = n >= 4096 ? 1 : 4096 / n;
    for (int who = 0; who < WHO; who++) least[who] = 1e9;
    for (int round = 0; round < rounds; round++)
        for (int who = 0; who < WHO; who++) {
            if (who == 3 && round > 0) continue;
            size_t turns = who == 3 ? 1 : times;
            double a = spent();
            for (size_t i = 0; i < turns; i++) report[who](trace, n, n, who == 0 ? ours : row);
            double ms = (spent() - a) * 1e3 / turns;
            if (ms < least[who]) least[who] = ms;
            if (who > 0 && round == 0) agree("reports", memcmp(row, ours, 2 * n * sizeof *row) == 0);
        }
}

void reports_table(int rounds) {
    static const size_t lengths[] = {256, 1024, 4096};
    static const char *const names[] = {"n / 16 pages at random", "n pages at random", "all different"};
    static uint64_t trace[MOST];
    puts("| Trace of n requests | n | ours, ms | / C | / Rust | / a simulation for each capacity | beside n / 4 |");
    puts("|---|---|---|---|---|---|---|");
    for (int kind = 0; kind < 3; kind++) {
        double before = 0;
        for (int l = 0; l < 3; l++) {
            size_t n = lengths[l];
            double least[WHO];
            if (kind == 0) trace_random(trace, n, n / 16);
            if (kind == 1) trace_random(trace, n, n);
            if (kind == 2) trace_stride(trace, n, 1);
            measured(trace, n, rounds, least);
            printf("| %s | %zu | %.4f | %.2f | %.2f | %.5f | ", names[kind], n, least[0], least[0] / least[1], least[0] / least[2], least[0] / least[3]);
            if (before > 0) printf("%.1f times |\n", least[0] / before);
            else puts(" |");
            before = least[0];
            fflush(stdout);
        }
    }
}
