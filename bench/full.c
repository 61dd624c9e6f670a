#define _DEFAULT_SOURCE
#include "full.h"

#include <stdio.h>
#include <stdlib.h>
#include <sys/mman.h>

static void put(uint8_t *p, uint64_t n, size_t width) {
    while (width-- > 0) p[width] = (uint8_t)n, n >>= 8;
}

void *vast(size_t n) {
    void *p = mmap(NULL, n, PROT_READ | PROT_WRITE, MAP_PRIVATE | MAP_ANONYMOUS | MAP_NORESERVE, -1, 0);
    if (p == MAP_FAILED) { fprintf(stderr, "not enough room\n"); exit(2); }
    return p;
}

void give_back(void *p, size_t n) { munmap(p, n); }

void full_lend(sorgizhed_box *x, const size_t v[6]) {
    x->n = v[0], x->b = v[1], x->z = v[2], x->s = v[3], x->g = v[4], x->l = v[5];
    x->offline = vast(x->offline_length = sorgizhed_offline_length(SORGIZHED_PARAMETERS(x)));
    x->image = vast(x->image_length = sorgizhed_image_length(SORGIZHED_PARAMETERS(x)));
    /* little of it is touched: no large pages */
    madvise(x->image, x->image_length, MADV_NOHUGEPAGE);
    x->pointers = vast(x->pointers_length = sorgizhed_pointers_length(SORGIZHED_PARAMETERS(x)));
    x->addresses = vast(x->addresses_length = sorgizhed_addresses_length(SORGIZHED_PARAMETERS(x)));
    x->compact = vast(x->compact_length = sorgizhed_compact_length(SORGIZHED_PARAMETERS(x)));
    x->inflight = vast(x->inflight_length = sorgizhed_inflight_length(SORGIZHED_PARAMETERS(x)));
    x->state = vast(x->state_length = sorgizhed_state_length());
}

void full_free(sorgizhed_box *x) {
    munmap(x->offline, x->offline_length), munmap(x->image, x->image_length), munmap(x->pointers, x->pointers_length), munmap(x->addresses, x->addresses_length);
    munmap(x->compact, x->compact_length), munmap(x->inflight, x->inflight_length), munmap(x->state, x->state_length);
    *x = (sorgizhed_box){0};
}

/* the k-th number of a random order of those below n: each step maps the numbers below a power of two one to one, and is made again until the number is below n */
static uint64_t shuffled(uint64_t k, uint64_t n) {
    unsigned bits = 1;
    while (n > UINT64_C(1) << bits) bits++;
    uint64_t all = (UINT64_C(1) << bits) - 1;
    do
        for (int i = 0; i < 3; i++) {
            k = (k * UINT64_C(0x9e3779b97f4a7c15) + 12345) & all;
            k ^= k >> (bits / 2 + 1);
        }
    while (k >= n);
    return k;
}

static uint8_t *unit(const sorgizhed_box *x, size_t drive, size_t zone, size_t block) {
    size_t c = x->image_length / (x->n * x->z * (x->b + 20));
    return x->image + ((drive * x->z + zone) * c + block) * (x->b + 20);
}

static void header(sorgizhed_box *x, size_t drive, size_t zone) {
    static const size_t widths[7] = {2, 1, 1, 1, 2, 2, 4};
    const uint64_t values[7] = {37 + 4 * x->n, 2, x->n, drive, x->b, x->g, x->s};
    uint8_t *p = unit(x, drive, zone, 0);
    for (size_t i = 0; i < 7; p += widths[i], i++) put(p, values[i], widths[i]);
    for (size_t d = 0; d < x->n; d++, p += 4) put(p, zone, 4);
    put(p, x->l, 8), put(p + 8, zone + 1, 8), put(p + 16, 0, 8);
}

static void record(sorgizhed_box *x, size_t drive, size_t zone, size_t stripe, uint64_t address, uint64_t stamp) {
    size_t per = x->b / 20;
    uint8_t *p = unit(x, drive, zone, 1 + x->s + stripe / per) + 20 * (stripe % per);
    put(p, address, 8), put(p + 8, stamp, 8), put(p + 16, stripe, 4);
}

void full_make(sorgizhed_box *x, size_t sealed) {
    size_t c = x->image_length / (x->n * x->z * (x->b + 20));
    uint64_t k = 0;
    for (size_t z = 0; z < sealed; z++) {
        for (size_t d = 0; d < x->n; d++) header(x, d, z), put(x->pointers + 4 * (d * x->z + z), c, 4);
        for (size_t s = 0; s < x->s; s++) {
            size_t parity = x->n - 1 - s % x->n;
            uint64_t addresses = 0, stamps = 0;
            for (size_t d = 0; d < x->n; d++) {
                if (d == parity) continue;
                uint64_t a = shuffled(k % x->l, x->l);
                record(x, d, z, s, a, ++k);
                addresses ^= a, stamps ^= k;
            }
            record(x, parity, z, s, addresses, stamps);
        }
    }
}
