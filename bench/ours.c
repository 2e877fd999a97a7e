/* Our code, called over its static library: rows lent, and the library's numbers handed on. */
#include "bench.h"
#include <stdlib.h>

uint64_t ours_play(uint64_t *cache, size_t cache_len, uint64_t *index, size_t index_len, const uint64_t *trace, size_t trace_len);
uint64_t ours_replies(uint64_t *cache, size_t cache_len, uint64_t *index, size_t index_len, const uint64_t *trace, size_t trace_len,
                      uint64_t *replies, size_t replies_len);
uint64_t ours_report(const uint64_t *trace, size_t trace_len, size_t m, uint64_t *row, size_t row_len);

uint64_t our_play(size_t k, const uint64_t *trace, size_t n, struct reply *replies) {
    uint64_t *cache = calloc(2 + k, sizeof *cache), *index = calloc(9 * k + 5, sizeof *index), fetches;
    cache[0] = k;
    if (replies) fetches = ours_replies(cache, 2 + k, index, 9 * k + 5, trace, n, (uint64_t *)replies, 2 * n);
    else fetches = ours_play(cache, 2 + k, index, 9 * k + 5, trace, n);
    free(cache);
    free(index);
    return fetches;
}

void our_report(const uint64_t *trace, size_t n, size_t m, uint64_t *row) {
    agree("a report that is taken", ours_report(trace, n, m, row, 2 * m) == 0);
}
