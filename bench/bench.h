/* What the parts of the measuring program share. See README.md. */
#ifndef BENCH_H
#define BENCH_H
#include <stddef.h>
#include <stdint.h>

/* A reply as two numbers: 0 here, 1 fetched, 2 fetched for another, and which. */
struct reply {
    uint64_t what, page;
};

/* Traces, each of n requests: traces.c. */
void trace_random(uint64_t *trace, size_t n, size_t pages);
void trace_skewed(uint64_t *trace, size_t n, size_t pages);
void trace_stride(uint64_t *trace, size_t n, uint64_t step);
void trace_loop(uint64_t *trace, size_t n, size_t pages);
size_t trace_one_home(uint64_t *trace, size_t n, uint64_t k);

/* Who plays a trace with k places from an empty cache; `replies` may be null. Each answers how many requests were fetched. */
uint64_t our_play(size_t k, const uint64_t *trace, size_t n, struct reply *replies);
uint64_t ring_play(size_t k, const uint64_t *trace, size_t n, struct reply *replies);
uint64_t lru_play(size_t k, const uint64_t *trace, size_t n, struct reply *replies);
uint64_t hashlink_play(size_t k, const uint64_t *trace, size_t n, struct reply *replies);

/* The ring in C, for a trace that comes in pieces. */
struct ring *ring_new(size_t k);
uint64_t ring_serve(struct ring *ring, const uint64_t *trace, size_t n, struct reply *replies);

/* Who reports on a trace for the capacities 1 to m, in 2 m numbers: LRU's fetches, then the fewest. */
void our_report(const uint64_t *trace, size_t n, size_t m, uint64_t *row);
void c_report(const uint64_t *trace, size_t n, size_t m, uint64_t *row);
void rust_report(const uint64_t *trace, size_t n, size_t m, uint64_t *row);
void first_report(const uint64_t *trace, size_t n, size_t m, uint64_t *row);

/* The processor's time that this process has used, in seconds: what others do meanwhile counts little. */
double spent(void);

/* The tables. */
void requests_table(size_t n, int rounds);
void serves_table(int rounds);
void hostile_table(size_t n, int rounds);
void reports_table(int rounds);
/* One fixed case of NAME once, with nothing else that is long: for callgrind. */
int counted_case(const char *name);

/* Ends the program where two who should agree do not. */
void agree(const char *what, int yes);
#endif
