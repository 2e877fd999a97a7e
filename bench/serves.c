/* What one request costs on rows that are checked, opened and closed for it: `lru_cache::serve` on a full row, random over 2 k pages. */
#include "bench.h"
#include <stdio.h>
#include <string.h>

enum { MOST = 4096, SERVED = 1000 };

uint64_t ours_serve(uint64_t *cache, size_t cache_len, uint64_t *index, size_t index_len, uint64_t page);

void serves_table(int rounds) {
    static const size_t capacities[] = {1, 40, 64, 65, 512, 513, 1024, 4096};
    static uint64_t cache[2 + MOST], index[9 * MOST + 5], trace[SERVED], full[MOST];
    puts("| `serve` on a full row, k | us a request |");
    puts("|---|---|");
    for (size_t c = 0; c < sizeof capacities / sizeof *capacities; c++) {
        size_t k = capacities[c];
        double least = 1e9;
        trace_loop(full, k, k);
        trace_loop(trace, SERVED, SERVED);
        for (int round = 0; round < rounds; round++) {
            cache[0] = cache[1] = k;
            memcpy(cache + 2, full, k * sizeof *full);
            for (size_t i = 0; i < SERVED; i++) trace[i] = trace[i] * 2654435761u % (2 * k);
            double a = spent();
            for (size_t i = 0; i < SERVED; i++) ours_serve(cache, 2 + k, index, 9 * k + 5, trace[i]);
            double us = (spent() - a) * 1e6 / SERVED;
            agree("pages held", cache[1] == k);
            if (us < least) least = us;
        }
        printf("| %zu | %.2f |\n", k, least);
        fflush(stdout);
    }
}
