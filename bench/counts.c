/* One fixed case of each for callgrind, which counts instructions: these do not depend on what else the machine does. */
#include "bench.h"
#include <stdlib.h>
#include <string.h>

enum { K = 1024, REQUESTS = 100000, DAY = 1024 };

static uint64_t trace[REQUESTS], row[2 * DAY], cache[2 + K], index_row[9 * K + 5];
static struct reply replies[REQUESTS];

uint64_t ours_serve(uint64_t *cache, size_t cache_len, uint64_t *index, size_t index_len, uint64_t page);

/* Ten requests, one at a time, on a full row of 1,024 pages. */
static void serves(void) {
    cache[0] = cache[1] = K;
    for (size_t i = 0; i < K; i++) cache[2 + i] = i;
    for (size_t i = 0; i < 10; i++) ours_serve(cache, 2 + K, index_row, 9 * K + 5, 5000 + i);
}

int counted_case(const char *name) {
    trace_random(trace, REQUESTS, 2 * K);
    if (strcmp(name, "ours_play") == 0) our_play(K, trace, REQUESTS, NULL);
    else if (strcmp(name, "ours_replies") == 0) our_play(K, trace, REQUESTS, replies);
    else if (strcmp(name, "ring_play") == 0) ring_play(K, trace, REQUESTS, NULL);
    else if (strcmp(name, "lru_play") == 0) lru_play(K, trace, REQUESTS, NULL);
    else if (strcmp(name, "hashlink_play") == 0) hashlink_play(K, trace, REQUESTS, NULL);
    else if (strcmp(name, "ours_serve") == 0) serves();
    else if (strcmp(name, "ours_report") == 0) our_report(trace, DAY, DAY, row);
    else if (strcmp(name, "c_report") == 0) c_report(trace, DAY, DAY, row);
    else if (strcmp(name, "rust_report") == 0) rust_report(trace, DAY, DAY, row);
    else return 2;
    return 0;
}
