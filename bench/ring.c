/* An LRU cache as a good programmer would write it in C: a ring of slots in the order of use, and a table of four times as many cells with
   one multiplication for a hash, linear probing, and deletion that moves later entries back. Nothing is tested that the harness knows. */
#include "bench.h"
#include <stdlib.h>
#include <string.h>

struct slot {
    uint32_t before, after, page;
};

struct ring {
    uint32_t capacity, count, mask, shift;
    struct slot *slots; /* slot 0 stands at both ends */
    uint32_t *cells;    /* a slot, or 0 */
};

static inline uint32_t home(const struct ring *r, uint32_t page) { return (uint32_t)(page * 2654435769u) >> r->shift; }

static inline void unlink_slot(struct ring *r, uint32_t s) {
    struct slot *at = &r->slots[s];
    r->slots[at->before].after = at->after;
    r->slots[at->after].before = at->before;
}

static inline void push_slot(struct ring *r, uint32_t s) {
    uint32_t head = r->slots[0].after;
    r->slots[s].after = head;
    r->slots[s].before = 0;
    r->slots[head].before = s;
    r->slots[0].after = s;
}

/* Takes the entry of slot s out of the table: entries that would no longer be found move back. */
static inline void forget(struct ring *r, uint32_t s) {
    uint32_t hole = home(r, r->slots[s].page);
    while (r->cells[hole] != s) hole = (hole + 1) & r->mask;
    for (uint32_t at = (hole + 1) & r->mask; r->cells[at] != 0; at = (at + 1) & r->mask) {
        uint32_t from = home(r, r->slots[r->cells[at]].page);
        if (((at - from) & r->mask) < ((at - hole) & r->mask)) continue;
        r->cells[hole] = r->cells[at];
        hole = at;
    }
    r->cells[hole] = 0;
}

static inline struct reply request(struct ring *r, uint32_t page) {
    uint32_t at = home(r, page);
    for (; r->cells[at] != 0; at = (at + 1) & r->mask) {
        uint32_t s = r->cells[at];
        if (r->slots[s].page != page) continue;
        unlink_slot(r, s);
        push_slot(r, s);
        return (struct reply){0, 0};
    }
    struct reply reply = {1, 0};
    uint32_t s;
    if (r->count < r->capacity) {
        s = ++r->count;
    } else {
        s = r->slots[0].before;
        reply = (struct reply){2, r->slots[s].page};
        unlink_slot(r, s);
        forget(r, s);
        at = home(r, page);
        while (r->cells[at] != 0) at = (at + 1) & r->mask;
    }
    r->cells[at] = s;
    r->slots[s].page = page;
    push_slot(r, s);
    return reply;
}

struct ring *ring_new(size_t k) {
    struct ring *r = malloc(sizeof *r);
    uint32_t bits = 2;
    while (((size_t)1 << bits) < 4 * k) bits++;
    *r = (struct ring){k, 0, ((uint32_t)1 << bits) - 1, 32 - bits, calloc(k + 1, sizeof(struct slot)), calloc((size_t)1 << bits, sizeof(uint32_t))};
    return r;
}

uint64_t ring_serve(struct ring *ring, const uint64_t *trace, size_t n, struct reply *replies) {
    struct ring r = *ring; /* a copy, so that the compiler keeps it in registers */
    uint64_t fetches = 0;
    if (replies)
        for (size_t i = 0; i < n; i++) {
            replies[i] = request(&r, (uint32_t)trace[i]);
            fetches += replies[i].what != 0;
        }
    else
        for (size_t i = 0; i < n; i++) fetches += request(&r, (uint32_t)trace[i]).what != 0;
    *ring = r;
    return fetches;
}

uint64_t ring_play(size_t k, const uint64_t *trace, size_t n, struct reply *replies) {
    struct ring *r = ring_new(k);
    uint64_t fetches = ring_serve(r, trace, n, replies);
    free(r->slots);
    free(r->cells);
    free(r);
    return fetches;
}
