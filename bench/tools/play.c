/* The program `play` as one would write it in C: the same input and the same lines, with the ring of ring.c and the two passes of passes.c.
   Numbers are written by hand, and input and output go through large buffers. */
#include "../bench.h"
#include <stdio.h>
#include <stdlib.h>
#include <string.h>
#include <unistd.h>

enum { PIECE = 16384, MOST = 4096 };

static char out[64 * PIECE];
static size_t filled;

static void text(const char *s) {
    size_t n = strlen(s);
    memcpy(out + filled, s, n);
    filled += n;
}

static void number(uint64_t v) {
    char digits[20];
    int n = 0;
    do digits[n++] = '0' + v % 10;
    while (v /= 10);
    while (n) out[filled++] = digits[--n];
}

static void flush(void) {
    for (size_t at = 0; at < filled;) {
        ssize_t n = write(1, out + at, filled - at);
        if (n <= 0) exit(1);
        at += n;
    }
    filled = 0;
}

static size_t fill(unsigned char *to, size_t n) {
    size_t at = 0;
    while (at < n) {
        ssize_t got = read(0, to + at, n - at);
        if (got <= 0) break;
        at += got;
    }
    return at;
}

void agree(const char *what, int yes) {
    if (!yes) fprintf(stderr, "%s\n", what), exit(1);
}

int main(void) {
    static unsigned char in[4 * PIECE];
    static uint64_t trace[PIECE], first[MOST], row[2 * MOST];
    static struct reply replies[PIECE];
    if (fill(in, 4) < 4) return 1;
    size_t k = in[0] | in[1] << 8, m = in[2] | in[3] << 8;
    uint64_t total = 0;
    struct ring *ring = ring_new(k);
    for (;;) {
        size_t n = fill(in, sizeof in) / 4;
        for (size_t i = 0; i < n; i++) trace[i] = in[4 * i] | in[4 * i + 1] << 8 | in[4 * i + 2] << 16 | (uint64_t)in[4 * i + 3] << 24;
        for (size_t i = 0; i < n && total + i < MOST; i++) first[total + i] = trace[i];
        ring_serve(ring, trace, n, replies);
        for (size_t i = 0; i < n; i++) {
            number(trace[i]);
            text(replies[i].what == 0 ? ": here" : replies[i].what == 1 ? ": fetched" : ": fetched for ");
            if (replies[i].what == 2) number(replies[i].page);
            text("\n");
        }
        flush();
        total += n;
        if (n < PIECE) break;
    }
    if (total > MOST) {
        text("refused 4 at ");
        number(total);
        text("\n");
    } else {
        c_report(first, total, m, row);
        for (size_t i = 0; i < m; i++) {
            number(i + 1);
            text(": house ");
            number(row[i]);
            text(" known ");
            number(row[m + i]);
            text("\n");
        }
    }
    flush();
}
