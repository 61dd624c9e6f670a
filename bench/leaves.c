// The leaves against the same work in plain C, in one run: parity, copy, table scans, big-endian numbers, the state (01, The array; What a
// zone holds; Reclaim). Every round times ours and then C's, so that other load meets both; a ratio is C's time by ours, the median over
// the rounds. The buffers stay in cache.
#include <stddef.h>
#include <stdint.h>
#include <stdio.h>
#include <stdlib.h>
#include <string.h>
#include <time.h>

#include "sorgizhed.h"

// The exports of the crate bench_leaves. They test the lengths, and so do the functions in C.
extern void leaf_xor(uint8_t *dst, size_t dst_len, const uint8_t *src, size_t src_len);
extern void leaf_xor_part(uint8_t *dst, size_t dst_len, size_t at, const uint8_t *src, size_t src_len);
extern void leaf_xor_within(uint8_t *buf, size_t buf_len, size_t a, size_t b, size_t n);
extern void leaf_copy(uint8_t *dst, size_t dst_len, const uint8_t *src, size_t src_len);
extern void leaf_clear(uint8_t *dst, size_t dst_len);
extern size_t leaf_count(const uint8_t *table, size_t table_len, uint32_t lo, uint32_t hi);
extern size_t leaf_find(const uint8_t *table, size_t table_len, uint32_t q);
extern uint64_t leaf_read(const uint8_t *src, size_t src_len);
extern uint64_t leaf_read_width(const uint8_t *src, size_t src_len);
extern void leaf_write(uint8_t *dst, size_t dst_len, uint32_t first);
extern void leaf_write_width(uint8_t *dst, size_t dst_len, uint32_t first);
extern void leaf_state(uint8_t *dst, size_t dst_len, const uint8_t *src, size_t src_len, size_t k, uint32_t v);

// Compiled for any length, as ours are.
#define PLAIN __attribute__((noipa)) static

PLAIN void c_xor(uint8_t *dst, size_t dst_len, const uint8_t *src, size_t src_len) {
    if (src_len != dst_len) return;
    for (size_t i = 0; i < src_len; i++) dst[i] ^= src[i];
}

PLAIN void c_xor_part(uint8_t *dst, size_t dst_len, size_t at, const uint8_t *src, size_t src_len) {
    if (dst_len < at || dst_len - at < src_len) return;
    for (size_t i = 0; i < src_len; i++) dst[at + i] ^= src[i];
}

PLAIN void c_xor_within(uint8_t *buf, size_t buf_len, size_t a, size_t b, size_t n) {
    if (buf_len < b || buf_len - b < n || b < a || b - a < n) return;
    for (size_t i = 0; i < n; i++) buf[a + i] ^= buf[b + i];
}

PLAIN void c_copy(uint8_t *dst, size_t dst_len, const uint8_t *src, size_t src_len) {
    if (src_len != dst_len) return;
    for (size_t i = 0; i < src_len; i++) dst[i] = src[i];
}

PLAIN void c_clear(uint8_t *dst, size_t dst_len) {
    for (size_t i = 0; i < dst_len; i++) dst[i] = 0;
}

static uint32_t c_get32(const uint8_t *p) {
    return (uint32_t)p[0] << 24 | (uint32_t)p[1] << 16 | (uint32_t)p[2] << 8 | (uint32_t)p[3];
}

static uint64_t c_get64(const uint8_t *p) { return (uint64_t)c_get32(p) << 32 | c_get32(p + 4); }

static void c_put32(uint8_t *p, uint32_t v) {
    p[0] = (uint8_t)(v >> 24);
    p[1] = (uint8_t)(v >> 16);
    p[2] = (uint8_t)(v >> 8);
    p[3] = (uint8_t)v;
}

static void c_put64(uint8_t *p, uint64_t v) {
    c_put32(p, (uint32_t)(v >> 32));
    c_put32(p + 4, (uint32_t)v);
}

// The same with the compiler's own byte swap.
static uint32_t swap_get32(const uint8_t *p) {
    uint32_t v;
    memcpy(&v, p, 4);
    return __builtin_bswap32(v);
}

static void swap_put64(uint8_t *p, uint64_t v) {
    v = __builtin_bswap64(v);
    memcpy(p, &v, 8);
}

PLAIN size_t c_count(const uint8_t *table, size_t table_len, uint32_t lo, uint32_t hi) {
    size_t n = table_len / 4, k = 0;
    for (size_t i = 0; i < n; i++) {
        uint32_t q = c_get32(table + 4 * i);
        k += lo <= q && q < hi;
    }
    return k;
}

// With the byte swap and one test.
PLAIN size_t c_count_swap(const uint8_t *table, size_t table_len, uint32_t lo, uint32_t hi) {
    size_t n = table_len / 4, k = 0;
    uint32_t span = lo < hi ? hi - lo : 0;
    for (size_t i = 0; i < n; i++) k += swap_get32(table + 4 * i) - lo < span;
    return k;
}

PLAIN size_t c_find(const uint8_t *table, size_t table_len, uint32_t q) {
    size_t n = table_len / 4;
    for (size_t i = 0; i < n; i++)
        if (c_get32(table + 4 * i) == q) return i;
    return n;
}

PLAIN uint64_t c_read(const uint8_t *src, size_t src_len) {
    size_t n = src_len / 8;
    uint64_t x = 0;
    for (size_t i = 0; i < n; i++) x ^= c_get64(src + 8 * i);
    return x;
}

PLAIN void c_write(uint8_t *dst, size_t dst_len, uint32_t first) {
    size_t n = dst_len / 8;
    for (size_t i = 0; i < n; i++) c_put64(dst + 8 * i, (uint64_t)first + i);
}

PLAIN void c_write_swap(uint8_t *dst, size_t dst_len, uint32_t first) {
    size_t n = dst_len / 8;
    for (size_t i = 0; i < n; i++) swap_put64(dst + 8 * i, (uint64_t)first + i);
}

// The state, and its bytes: little-endian, as this machine has them.
static uint32_t own_get32(const uint8_t *p) {
    uint32_t v;
    memcpy(&v, p, 4);
    return v;
}

static uint64_t own_get64(const uint8_t *p) {
    uint64_t v;
    memcpy(&v, p, 8);
    return v;
}

static void own_put32(uint8_t *p, uint32_t v) { memcpy(p, &v, 4); }

static void own_put64(uint8_t *p, uint64_t v) { memcpy(p, &v, 8); }

typedef struct {
    uint8_t live, missing;
    uint64_t stamp, serial;
    uint64_t opened;
    uint32_t next;
    uint32_t numbers[8];
    uint8_t filled[8], writes[8], landed[8];
    uint64_t addresses[64], stamps[64];
    uint32_t offsets[64];
} state;

enum { STATE_LEN = SORGIZHED_STATE_LENGTH };

static void c_decode(state *st, const uint8_t *p) {
    st->live = p[0];
    st->missing = p[1];
    st->stamp = own_get64(p + 2);
    st->serial = own_get64(p + 10);
    st->opened = own_get64(p + 18);
    st->next = own_get32(p + 26);
    for (int i = 0; i < 8; i++) st->numbers[i] = own_get32(p + 30 + 4 * i);
    memcpy(st->filled, p + 62, 8);
    memcpy(st->writes, p + 70, 8);
    memcpy(st->landed, p + 78, 8);
    for (int i = 0; i < 64; i++) st->addresses[i] = own_get64(p + 86 + 8 * i);
    for (int i = 0; i < 64; i++) st->stamps[i] = own_get64(p + 598 + 8 * i);
    for (int i = 0; i < 64; i++) st->offsets[i] = own_get32(p + 1110 + 4 * i);
}

static void c_encode(uint8_t *p, const state *st) {
    p[0] = st->live;
    p[1] = st->missing;
    own_put64(p + 2, st->stamp);
    own_put64(p + 10, st->serial);
    own_put64(p + 18, st->opened);
    own_put32(p + 26, st->next);
    for (int i = 0; i < 8; i++) own_put32(p + 30 + 4 * i, st->numbers[i]);
    memcpy(p + 62, st->filled, 8);
    memcpy(p + 70, st->writes, 8);
    memcpy(p + 78, st->landed, 8);
    for (int i = 0; i < 64; i++) own_put64(p + 86 + 8 * i, st->addresses[i]);
    for (int i = 0; i < 64; i++) own_put64(p + 598 + 8 * i, st->stamps[i]);
    for (int i = 0; i < 64; i++) own_put32(p + 1110 + 4 * i, st->offsets[i]);
}

PLAIN void c_state(uint8_t *dst, size_t dst_len, const uint8_t *src, size_t src_len, size_t k, uint32_t v) {
    if (src_len != STATE_LEN || dst_len != STATE_LEN || 64 <= k) return;
    state st;
    c_decode(&st, src);
    st.addresses[k] = v;
    st.stamps[k] = v;
    st.offsets[k] = v;
    c_encode(dst, &st);
}

// The C library's copy, not expanded in place.
static void *(*volatile libc_copy)(void *, const void *, size_t) = memcpy;

static double now(void) {
    struct timespec t;
    clock_gettime(CLOCK_MONOTONIC, &t);
    return (double)t.tv_sec + (double)t.tv_nsec * 1e-9;
}

static int by_size(const void *x, const void *y) {
    double d = *(const double *)x - *(const double *)y;
    return (d > 0) - (d < 0);
}

enum { ROUNDS = 101, BYTES = 1 << 21, ROOM = 1 << 16 };

static uint8_t a[ROOM] __attribute__((aligned(64)));
static uint8_t b[ROOM] __attribute__((aligned(64)));
static uint64_t sink;

// One line: the name, the bytes, the least time of each in ns, the ratio, and the target with its outcome.
static void report(const char *name, size_t bytes, double target, double *ratio, double ours, double theirs) {
    qsort(ratio, ROUNDS, sizeof *ratio, by_size);
    double m = ratio[ROUNDS / 2];
    printf("%-40s %5zu %9.1f %9.1f %7.2f", name, bytes, ours * 1e9, theirs * 1e9, m);
    if (target > 0) printf("   %.2f %s", target, m < target ? "MISSED" : "met");
    printf("\n");
}

#define RATE(name, bytes, target, ours, theirs)                            \
    do {                                                                   \
        long turns = 1 + BYTES / (long)(bytes);                            \
        double ratio[ROUNDS], least_ours = 1, least_theirs = 1;            \
        for (int r = 0; r < ROUNDS; r++) {                                 \
            double t0 = now();                                             \
            for (long j = 0; j < turns; j++) {                             \
                ours;                                                      \
                __asm__ volatile("" ::: "memory");                         \
            }                                                              \
            double t1 = now();                                             \
            for (long j = 0; j < turns; j++) {                             \
                theirs;                                                    \
                __asm__ volatile("" ::: "memory");                         \
            }                                                              \
            double t2 = now();                                             \
            double o = (t1 - t0) / (double)turns;                          \
            double t = (t2 - t1) / (double)turns;                          \
            ratio[r] = t / o;                                              \
            if (o < least_ours) least_ours = o;                            \
            if (t < least_theirs) least_theirs = t;                        \
        }                                                                  \
        report(name, bytes, target, ratio, least_ours, least_theirs);      \
    } while (0)

// Both give the same, or the times say nothing.
#define SAME(what, test)                                   \
    do {                                                   \
        if (!(test)) {                                     \
            printf("leaves: %s differ from C's\n", what);  \
            return 1;                                      \
        }                                                  \
    } while (0)

static void fill(void) {
    for (size_t i = 0; i < ROOM; i++) {
        a[i] = (uint8_t)((uint32_t)i * 2654435761u >> 24);
        b[i] = (uint8_t)((uint32_t)i * 2246822519u >> 23);
    }
}

static int agree(void) {
    static uint8_t was[ROOM];
    const uint32_t lo = 1u << 28, hi = 1u << 30;
    fill();
    leaf_xor(a, 4096, b, 4096);
    leaf_xor_part(a, ROOM, 252, b + 593, 4096);
    leaf_xor_within(a, ROOM, 64, 32768, 4096);
    memcpy(was, a, ROOM);
    fill();
    c_xor(a, 4096, b, 4096);
    c_xor_part(a, ROOM, 252, b + 593, 4096);
    c_xor_within(a, ROOM, 64, 32768, 4096);
    SAME("parities", memcmp(was, a, ROOM) == 0);
    SAME("counts", leaf_count(b, ROOM, lo, hi) == c_count(b, ROOM, lo, hi) && c_count(b, ROOM, lo, hi) == c_count_swap(b, ROOM, lo, hi));
    SAME("searches", leaf_find(b, 4096, c_get32(b + 4000)) == c_find(b, 4096, c_get32(b + 4000)) && leaf_find(b, 64, 1) == 16);
    SAME("numbers read", leaf_read(b, 4096) == c_read(b, 4096) && leaf_read_width(b, 4096) == c_read(b, 4096));
    leaf_write(a, 4096, 7);
    c_write(was, 4096, 7);
    SAME("numbers written", memcmp(was, a, 4096) == 0);
    leaf_write_width(a, 4096, 9);
    c_write_swap(was, 4096, 9);
    SAME("numbers written by width", memcmp(was, a, 4096) == 0);
    leaf_state(a, STATE_LEN, b, STATE_LEN, 5, 77);
    c_state(was, STATE_LEN, b, STATE_LEN, 5, 77);
    SAME("states", memcmp(was, a, STATE_LEN) == 0);
    leaf_copy(a, 4096, b, 4096);
    SAME("copies", memcmp(a, b, 4096) == 0);
    return 0;
}

int main(void) {
    const uint32_t lo = 1u << 28, hi = 1u << 30;
    if (agree()) return 1;
    fill();
    printf("%-40s %5s %9s %9s %7s   %s\n", "leaf", "bytes", "ours, ns", "C, ns", "ratio", "target");
    for (int k = 0; k < 2; k++) {
        size_t n = k ? 4096 : 64;
        RATE("parity, blocks", n, 0.9, leaf_xor(a, n, b, n), c_xor(a, n, b, n));
        RATE("parity, parts of an image", n, 0.9, leaf_xor_part(a, ROOM, 252, b + 593, n), c_xor_part(a, ROOM, 252, b + 593, n));
        RATE("parity, within a buffer", n, 0.9, leaf_xor_within(a, ROOM, 0, 8 * n, n), c_xor_within(a, ROOM, 0, 8 * n, n));
        RATE("copy, to C", n, 0, leaf_copy(a, n, b, n), c_copy(a, n, b, n));
        RATE("copy, to memcpy", n, k ? 0.5 : 0, leaf_copy(a, n, b, n), libc_copy(a, b, n));
        RATE("copy into an image, to C", n, 0, leaf_copy(a + 252, n, b, n), c_copy(a + 252, n, b, n));
        RATE("copy into an image, to memcpy", n, 0, leaf_copy(a + 252, n, b, n), libc_copy(a + 252, b, n));
        RATE("clear, to C", n, 0, leaf_clear(a, n), c_clear(a, n));
        RATE("table scan, count", n, 0.5, sink += leaf_count(b, n, lo, hi), sink += c_count(b, n, lo, hi));
        RATE("table scan, count, C by bswap", n, 0.5, sink += leaf_count(b, n, lo, hi), sink += c_count_swap(b, n, lo, hi));
        RATE("table scan, search", n, 0.5, sink += leaf_find(b, n, 1), sink += c_find(b, n, 1));
        RATE("8-byte numbers read", n, 0, sink += leaf_read(b, n), sink += c_read(b, n));
        RATE("8-byte numbers read, by width", n, 0, sink += leaf_read_width(b, n), sink += c_read(b, n));
        RATE("8-byte numbers written", n, 0, leaf_write(a, n, 7), c_write(a, n, 7));
        RATE("8-byte numbers written, C by bswap", n, 0, leaf_write(a, n, 7), c_write_swap(a, n, 7));
        RATE("8-byte numbers written, by width", n, 0, leaf_write_width(a, n, 7), c_write(a, n, 7));
    }
    RATE("state decoded and encoded, C by bswap", STATE_LEN, 0, leaf_state(a, STATE_LEN, b, STATE_LEN, 5, 77), c_state(a, STATE_LEN, b, STATE_LEN, 5, 77));
    return sink == 1;
}
