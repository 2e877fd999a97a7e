/* Traces to measure with. All begin from one seed, so that every run has the same. */
#include "bench.h"
#include <stdlib.h>

static uint64_t state = 88172645463325252u;

static uint64_t drawn(void) {
    state ^= state << 13;
    state ^= state >> 7;
    state ^= state << 17;
    return state;
}

/* The number of the r-th page: all over the range, no two alike. */
static uint64_t scattered(uint32_t r) {
    r *= 2654435761u;
    r ^= r >> 15;
    r *= 0x2c1b3c6du;
    r ^= r >> 12;
    return r;
}

void trace_random(uint64_t *trace, size_t n, size_t pages) {
    for (size_t i = 0; i < n; i++) trace[i] = scattered(drawn() % pages);
}

/* The page of rank r is requested in proportion to 1 / r. */
void trace_skewed(uint64_t *trace, size_t n, size_t pages) {
    double *up_to = malloc(pages * sizeof *up_to), sum = 0;
    for (size_t r = 0; r < pages; r++) up_to[r] = sum += 1.0 / (r + 1);
    for (size_t i = 0; i < n; i++) {
        double at = drawn() / 18446744073709551616.0 * sum;
        size_t low = 0, high = pages - 1;
        while (low < high) {
            size_t mid = (low + high) / 2;
            if (up_to[mid] < at) low = mid + 1;
            else high = mid;
        }
        trace[i] = scattered(low);
    }
    free(up_to);
}

/* 0, s, 2 s .. modulo 2^32: with s = 1 a scan that requests no page twice. */
void trace_stride(uint64_t *trace, size_t n, uint64_t step) {
    for (size_t i = 0; i < n; i++) trace[i] = (uint32_t)(i * step);
}

void trace_loop(uint64_t *trace, size_t n, size_t pages) {
    for (size_t i = 0; i < n; i++) trace[i] = i % pages;
}

/* Which chain a page is in, as crates/recency/specs/Hash.antt has it. */
static uint64_t home(uint64_t k, uint64_t page) {
    uint64_t product = page / 4096 * 0x9e3779b97f4a7c15u;
    uint64_t mixed = (product ^ product >> 32) * 0xd6e8feb86659fd93u;
    uint64_t spread = page % 4096 * 0x9e3779b97f4a7c15u + mixed;
    return (spread >> 32) * (4 * k) >> 32;
}

/* Pages that all have one home: what somebody can do who knows the hash. Answers how many were found. */
size_t trace_one_home(uint64_t *trace, size_t n, uint64_t k) {
    size_t found = 0;
    for (uint64_t page = 0; page < 4294967296u && found < n; page++)
        if (home(k, page) == 0) trace[found++] = page;
    return found;
}
