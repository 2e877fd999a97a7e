/* bench requests | serves | hostile | reports [ROUNDS [N]], bench count NAME, bench dump KIND K N, bench day KIND PAGES N K M: see README.md. */
#include "bench.h"
#include <stdio.h>
#include <stdlib.h>
#include <string.h>
#include <time.h>

double spent(void) {
    struct timespec t;
    clock_gettime(CLOCK_PROCESS_CPUTIME_ID, &t);
    return t.tv_sec + t.tv_nsec / 1e9;
}

void agree(const char *what, int yes) {
    if (yes) return;
    fprintf(stderr, "bench: not the same: %s\n", what);
    exit(1);
}

/* A trace as bytes on standard output, four for a request, for programs that read one. */
static void dump(const char *kind, size_t pages, size_t n) {
    uint64_t *trace = malloc(n * sizeof *trace);
    if (strcmp(kind, "skewed") == 0) trace_skewed(trace, n, pages);
    else trace_random(trace, n, pages);
    for (size_t i = 0; i < n; i++) {
        unsigned char four[4] = {trace[i], trace[i] >> 8, trace[i] >> 16, trace[i] >> 24};
        fwrite(four, 1, 4, stdout);
    }
    free(trace);
}

/* The header that play reads before the requests. */
static void header(size_t k, size_t m) {
    unsigned char four[4] = {k, k >> 8, m, m >> 8};
    fwrite(four, 1, 4, stdout);
}

int main(int argc, char **argv) {
    const char *what = argc > 1 ? argv[1] : "";
    if (strcmp(what, "count") == 0) return argc > 2 ? counted_case(argv[2]) : 2;
    if (strcmp(what, "dump") == 0 && argc == 5) return dump(argv[2], strtoull(argv[3], NULL, 0), strtoull(argv[4], NULL, 0)), 0;
    if (strcmp(what, "day") == 0 && argc == 7) {
        header(strtoull(argv[5], NULL, 0), strtoull(argv[6], NULL, 0));
        return dump(argv[2], strtoull(argv[3], NULL, 0), strtoull(argv[4], NULL, 0)), 0;
    }
    int rounds = argc > 2 ? atoi(argv[2]) : 9;
    size_t n = argc > 3 ? strtoull(argv[3], NULL, 0) : 1000000;
    if (strcmp(what, "requests") == 0) requests_table(n, rounds);
    else if (strcmp(what, "reports") == 0) reports_table(rounds);
    else if (strcmp(what, "hostile") == 0) hostile_table(n, rounds);
    else if (strcmp(what, "serves") == 0) serves_table(rounds);
    else return 2;
    return 0;
}
