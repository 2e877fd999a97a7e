/* Which stride s makes the pages 0, s, 2 s .. (modulo 2^32) crowd the chains of crate recency most: how many slots the search for a new page
   passes on the average, which are those of the chain of its home, while the k pages used last are in the chains. Prints the worst strides of
   a range or of those that are chosen because a hash that multiplies may be bad for them, with the longest chain of each.
   strides [FROM-TO[/BY] | chosen [K [BITS [HOMES]]]]: K places, 4,096 unless told; a block has 2^BITS pages, 2^12 in the crate (0: every page is
   mixed, 32: none is); HOMES for each place, 4 there. */
#include <stdint.h>
#include <stdio.h>
#include <stdlib.h>
#include <string.h>

enum { MOST = 4096, REQUESTS = 65536, WORST = 8 };

static const uint64_t first = 0x9e3779b97f4a7c15u, second = 0xd6e8feb86659fd93u, all = 4294967296u;
static uint64_t k = 4096, bits = 12, homes;

/* As crates/recency/specs/Hash.antt has it. */
static uint64_t home(uint64_t page) {
    uint64_t product = (page >> bits) * first;
    uint64_t mixed = (product ^ product >> 32) * second;
    uint64_t spread = (page - (page >> bits << bits)) * first + mixed;
    return (spread >> 32) * homes >> 32;
}

/* How many pages are asked for before one comes again. */
static uint64_t period(uint64_t step) {
    uint64_t pages = all;
    while (pages > 1 && step % 2 == 0) pages /= 2, step /= 2;
    return pages;
}

struct crowd {
    uint64_t step, longest;
    double passed;
};

static struct crowd crowding(uint64_t step) {
    static uint32_t at[MOST + REQUESTS], chain[8 * MOST];
    uint64_t others = k < period(step) ? k : period(step) - 1, sum = 0;
    struct crowd c = {step, 0, 0};
    memset(chain, 0, homes * sizeof *chain);
    for (uint64_t i = 0; i < others + REQUESTS; i++) at[i] = home((uint32_t)(i * step));
    for (uint64_t i = 0; i < others; i++) chain[at[i]]++;
    for (uint64_t i = others; i < others + REQUESTS; i++) {
        uint64_t passed = chain[at[i]]++;
        sum += passed;
        if (passed > c.longest) c.longest = passed;
        chain[at[i - others]]--;
    }
    c.passed = (double)sum / REQUESTS;
    return c;
}

static struct crowd worst[WORST];
static uint64_t count, longest;
static double sum;

static void take(uint64_t step) {
    step %= all;
    if (step == 0) return;
    struct crowd c = crowding(step);
    count++;
    sum += c.passed;
    if (c.longest > longest) longest = c.longest;
    for (int i = 0; i < WORST && step != worst[i].step; i++) {
        if (c.passed <= worst[i].passed) continue;
        memmove(worst + i + 1, worst + i, (WORST - 1 - i) * sizeof *worst);
        worst[i] = c;
        break;
    }
}

static void multiples(uint64_t of, uint64_t times) {
    for (uint64_t m = 1; m <= times; m++) take(m * of);
}

static void around(uint64_t n, uint64_t by) {
    for (uint64_t step = n - by; step != n + by + 1; step++) take(step);
}

static void doubled(uint64_t n) {
    for (int twos = 0; twos < 32; twos++) take(n << twos);
}

static uint64_t inverse(uint64_t odd) {
    uint64_t x = odd;
    for (int good = 3; good < 64; good *= 2) x *= 2 - odd * x;
    return x;
}

/* The denominators below 2^32 of what n / 2^64 is nearly. */
static void denominators(uint64_t n) {
    unsigned __int128 whole = (unsigned __int128)1 << 64, part = n;
    uint64_t before = 0, now = 1;
    while (part != 0 && now < all) {
        multiples(now, 64);
        multiples(4096 * now, 64);
        around(now, 4);
        doubled(now);
        unsigned __int128 rest = whole % part;
        uint64_t next = (uint64_t)(whole / part) * now + before;
        whole = part, part = rest, before = now, now = next;
    }
}

/* Strides of which q steps come back to within `near`: q walks in turn, each through blocks of its own. */
static void walks(uint64_t q, uint64_t near) {
    for (uint64_t turn = 1; turn <= q; turn++)
        for (uint64_t n = turn * all - near; n <= turn * all + near; n++)
            if (n % q == 0) take(n / q);
}

static void chosen(void) {
    static const uint64_t bad_for_one[] = {514229, 484004, 146667, 2975924224u};
    for (uint64_t odd = 1; odd < 512; odd += 2) doubled(odd);
    for (int power = 7; power <= 32; power++) around((uint64_t)1 << power, 64);
    for (uint64_t a = 1, b = 2; b < all; b += a, a = b - a) {
        around(b, b < 16 ? 0 : 16);
        multiples(b, 64);
        multiples(4096 * b, 64);
        doubled(b);
        for (uint64_t blocks = 0; blocks < 2048; blocks++) take(4096 * blocks + b % 4096);
    }
    for (int i = 0; i < 2; i++) {
        multiples(inverse(i ? first : second), 4096);
        multiples(4096 * inverse(i ? first : second), 4096);
        denominators(i ? first : second);
        denominators((i ? first : second) << 32);
    }
    denominators(first * second);
    for (int i = 0; i < 4; i++) multiples(bad_for_one[i], 256), multiples(4096 * bad_for_one[i], 256);
    for (uint64_t q = 1; q <= 16; q++) walks(q, 4095);
}

int main(int argc, char **argv) {
    unsigned long long from = 1, to = 1 << 20, by = 1;
    if (argc > 2) k = strtoull(argv[2], NULL, 0);
    if (argc > 3) bits = strtoull(argv[3], NULL, 0);
    homes = (argc > 4 ? strtoull(argv[4], NULL, 0) : 4) * k;
    int by_choice = argc > 1 && strcmp(argv[1], "chosen") == 0;
    if (argc > 1 && !by_choice && sscanf(argv[1], "%llu-%llu/%llu", &from, &to, &by) < 2) return 1;
    if (k < 1 || k > MOST || bits > 32 || by < 1 || homes < 1 || homes > 8 * MOST) return 1;
    if (by_choice) chosen();
    else
        for (uint64_t step = from; step < to; step += by) take(step);
    printf("%llu strides, mean %.2f slots passed, longest chain %llu\n", (unsigned long long)count, sum / count, (unsigned long long)longest);
    for (int i = 0; i < WORST && worst[i].step > 0; i++)
        printf("stride %10llu: %.2f, longest chain %llu\n", (unsigned long long)worst[i].step, worst[i].passed, (unsigned long long)worst[i].longest);
}
