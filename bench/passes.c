/* The report by the same two passes in C: one list for LRU, one sifted row for the fewest, and a table of next uses. */
#include "bench.h"
#include <string.h>

enum { MOST = 4096 };

/* The pages requested last, in order; a request that finds its page at place d is a hit with more than d places. */
static void lru_hits(const uint64_t *trace, size_t n, size_t m, uint64_t *hits) {
    static uint64_t pages[MOST];
    size_t len = 0;
    for (size_t i = 0; i < n; i++) {
        size_t at = 0;
        while (at < len && pages[at] != trace[i]) at++;
        if (at < len) hits[at]++;
        else if (len < m) len++;
        else at--;
        memmove(pages + 1, pages, at * sizeof *pages);
        pages[0] = trace[i];
    }
}

static void next_uses(const uint64_t *trace, size_t n, uint64_t *next) {
    for (size_t i = 0; i < n; i++) {
        size_t j = i + 1;
        while (j < n && trace[j] != trace[i]) j++;
        next[i] = j;
    }
}

/* A request puts its page in front and sifts down the one that stood there: the page with the nearer next use stays. */
static void fewest_hits(const uint64_t *trace, size_t n, size_t m, uint64_t *hits) {
    static uint64_t pages[MOST], keys[MOST], next[MOST];
    size_t len = 0;
    next_uses(trace, n, next);
    for (size_t i = 0; i < n; i++) {
        uint64_t carry = trace[i], key = i;
        size_t at = 0;
        for (; at < len && pages[at] != trace[i]; at++) {
            if (keys[at] <= key) continue;
            uint64_t page = pages[at], far = keys[at];
            pages[at] = carry;
            keys[at] = key;
            carry = page;
            key = far;
        }
        if (at < m) {
            pages[at] = carry;
            keys[at] = key;
            if (at < len) hits[at]++;
            else len++;
        }
        keys[0] = next[i];
    }
}

static void settle(uint64_t *hits, size_t m, uint64_t left) {
    for (size_t i = 0; i < m; i++) hits[i] = left -= hits[i];
}

void c_report(const uint64_t *trace, size_t n, size_t m, uint64_t *row) {
    memset(row, 0, 2 * m * sizeof *row);
    lru_hits(trace, n, m, row);
    settle(row, m, n);
    fewest_hits(trace, n, m, row + m);
    settle(row + m, m, n);
}
