/* Reclaim by what the address table holds, against one plain scan of it; and what boxes of several sizes take. Boxes are made without the calls (full.c). */
#define _POSIX_C_SOURCE 199309L
#include "tables.h"

#include "clock.h"
#include "full.h"
#include "plain.h"

static sorgizhed_box box;

/* every stripe counts */
static void restart(void) {
    sorgizhed_answer r = sorgizhed_restart(SORGIZHED_LENT(&box), SORGIZHED_NO_DRIVE, SORGIZHED_NO_LIMIT);
    must("restart", r, SORGIZHED_RESTARTED);
    if (r.first != 0) { fprintf(stderr, "restart: %" PRIu64 " stripes do not count\n", r.first); exit(1); }
}

/* ---- the table */

/* what is left of the entries of a full box */
enum table { EVERY_BLOCK, FOUR_IN_FIVE, A_THOUSAND_LEFT, NONE_LEFT, ONE_PLACE, ANY_PLACE, TABLES };
static const char *const names[TABLES] = {"every block live", "four of five live", "1,000 left in a segment", "none left in a segment", "hostile: all entries one place", "hostile: entries at random"};

static uint32_t place(size_t a) {
    const uint8_t *e = box.addresses + 4 * a;
    return (uint32_t)e[0] << 24 | (uint32_t)e[1] << 16 | (uint32_t)e[2] << 8 | e[3];
}

static void entry(size_t a, uint32_t q) {
    uint8_t *e = box.addresses + 4 * a;
    e[0] = (uint8_t)(q >> 24), e[1] = (uint8_t)(q >> 16), e[2] = (uint8_t)(q >> 8), e[3] = (uint8_t)q;
}

/* the table that a restart left made another */
static void retable(enum table k) {
    size_t places = box.image_length / (box.b + 20), c = places / (box.n * box.z), left = k == A_THOUSAND_LEFT ? 1000 : 0, taken = (box.z - 3) / 2;
    for (size_t a = 0; a < box.l; a++) {
        uint32_t q = place(a);
        if (k == FOUR_IN_FIVE && random_below(5) == 0) entry(a, UINT32_MAX);
        if ((k == A_THOUSAND_LEFT || k == NONE_LEFT) && q != UINT32_MAX && q / c % box.z == taken && (left == 0 || left-- == 0)) entry(a, UINT32_MAX);
        if (k == ONE_PLACE) entry(a, 1);
        if (k == ANY_PLACE) entry(a, (uint32_t)random_below(places));
    }
}

/* ---- a reclaim */

/* what a reclaim changes but for the compact table, which it does not read */
struct kept { uint8_t *state, *pointers, *inflight; };

static struct kept keep(void) {
    struct kept k = {room(box.state_length), room(box.pointers_length), room(box.inflight_length)};
    memcpy(k.state, box.state, box.state_length), memcpy(k.pointers, box.pointers, box.pointers_length), memcpy(k.inflight, box.inflight, box.inflight_length);
    return k;
}

static void bring_back(struct kept k) {
    memcpy(box.state, k.state, box.state_length), memcpy(box.pointers, k.pointers, box.pointers_length), memcpy(box.inflight, k.inflight, box.inflight_length);
}

static void let_go(struct kept k) { free(k.state), free(k.pointers), free(k.inflight); }

/* the least time of some reclaims, each on the same bytes; kind: the answer, or UINT64_MAX for any */
static double reclaim(size_t turns, struct kept k, uint64_t kind) {
    double ours = 1e18;
    for (size_t turn = 0; turn < turns; turn++) {
        double t = spent();
        sorgizhed_answer r = sorgizhed_reclaim(SORGIZHED_LENT(&box), SORGIZHED_NO_LIMIT);
        ours = least(ours, spent() - t);
        if (kind != UINT64_MAX) must("reclaim", r, kind);
        bring_back(k);
    }
    return ours;
}

static double scan(size_t turns) {
    static uint32_t live[1024];
    double plain = 1e18;
    size_t found = 0;
    for (size_t turn = 0; turn < turns; turn++) {
        double t = spent();
        found += plain_scan(&box, live);
        plain = least(plain, spent() - t);
    }
    if (found > turns * box.z) exit(1);
    return plain;
}

/* most: how many scans it may take; 0: no target */
static void row(const char *name, double ours, double plain, double most) {
    printf("    %-34s %12.3f ms %12.3f ms %8.2f%s\n", name, ours / 1e6, plain / 1e6, ours / plain, most == 0 ? "" : ours <= most * plain ? "  (target met)" : "  (ABOVE THE TARGET)");
    fflush(stdout);
}

static void by_table(const size_t v[6], size_t turns) {
    static const double most[TABLES] = {0, 30, 5, 5, 0, 0};
    static const uint64_t kinds[TABLES] = {SORGIZHED_COPIED, SORGIZHED_COPIED, SORGIZHED_COPIED, SORGIZHED_RESET, UINT64_MAX, UINT64_MAX};
    full_lend(&box, v);
    full_make(&box, box.z - 3);
    restart();
    struct kept k = keep();
    uint8_t *full = vast(box.addresses_length);
    memcpy(full, box.addresses, box.addresses_length);
    printf("  %zu addresses (N %zu, Z %zu, S %zu)\n", box.l, box.n, box.z, box.s);
    for (int t = 0; t < TABLES; t++) {
        memcpy(box.addresses, full, box.addresses_length);
        retable((enum table)t);
        /* entries at random take a pass for each two million places: once is enough on the largest */
        double ours = reclaim(t == ANY_PLACE && box.l > 100000000 ? 1 : turns, k, kinds[t]);
        row(names[t], ours, scan(turns), most[t]);
    }
    let_go(k);
    give_back(full, box.addresses_length);
    full_free(&box);
}

/* ---- nothing sealed */

static void under_a_millisecond(const char *name, double ours) {
    printf("    %-34s %12.3f ms   %s\n", name, ours / 1e6, ours < 1e6 ? "under 1 ms (target met)" : "(ABOVE THE TARGET, 1 ms)");
    fflush(stdout);
}

/* the largest box with one segment open: reclaim refuses, a closing is made and an empty write closes or does nothing, and none looks at the table */
static void nothing_sealed(void) {
    static const size_t largest[6] = {8, 128, 1024, 65535, 256, 468378645};
    static const uint8_t block[128];
    double refused = 1e18, closed = 1e18, ended = 1e18, nothing = 1e18;
    size_t small[6] = {8, 128, 4, 4, 2, 28};
    /* the state of a small box with a block sent: the numbers mean the same on a large one */
    full_lend(&box, small);
    restart();
    must("write", sorgizhed_write(SORGIZHED_LENT(&box), 7, block, box.b, SORGIZHED_NO_LIMIT), SORGIZHED_SENT);
    uint8_t *state = room(box.state_length);
    memcpy(state, box.state, box.state_length);
    full_free(&box);
    full_lend(&box, largest);
    for (size_t d = 0; d < box.n; d++) box.pointers[4 * d * box.z + 3] = 1;
    for (int turn = 0; turn < 10; turn++) {
        memcpy(box.state, state, box.state_length);
        double t = spent();
        must("reclaim", sorgizhed_reclaim(SORGIZHED_LENT(&box), SORGIZHED_NO_LIMIT), SORGIZHED_REFUSED);
        refused = least(refused, spent() - t);
        t = spent();
        must("close", sorgizhed_close(SORGIZHED_LENT(&box)), SORGIZHED_CLOSED);
        closed = least(closed, spent() - t);
        memcpy(box.state, state, box.state_length);
        t = spent();
        must("empty write", sorgizhed_write(SORGIZHED_LENT(&box), 7, NULL, 0, SORGIZHED_NO_LIMIT), SORGIZHED_CLOSED);
        ended = least(ended, spent() - t);
        t = spent();
        must("empty write", sorgizhed_write(SORGIZHED_LENT(&box), 7, NULL, 0, SORGIZHED_NO_LIMIT), SORGIZHED_NOTHING);
        nothing = least(nothing, spent() - t);
    }
    printf("  %zu addresses (N %zu, Z %zu, S %zu), nothing sealed\n", box.l, box.n, box.z, box.s);
    under_a_millisecond("reclaim, refused", refused);
    under_a_millisecond("closing", closed);
    under_a_millisecond("empty write, a stripe filling", ended);
    under_a_millisecond("empty write, none filling", nothing);
    free(state);
    full_free(&box);
}

void reclaim_by_table(int large) {
    static const size_t boxes[4][6] = {{4, 4096, 64, 4096, 16, 749568}, {4, 4096, 64, 8192, 16, 1499136}, {4, 4096, 256, 16384, 16, 12435456}, {8, 4096, 256, 65535, 256, 116062485}};
    printf("\nreclaim by what the table holds\n    %-34s %15s %15s %8s\n", "", "ours", "a plain scan", "scans");
    nothing_sealed();
    for (size_t i = 0; i < (large ? 4 : 2); i++) by_table(boxes[i], i < 2 ? 10 : i < 3 ? 4 : 2);
}

/* ---- sizes */

/* a time with two or three digits that count */
static void say_time(double ns) {
    const char *unit = ns < 1e3 ? "ns" : ns < 1e6 ? "µs" : ns < 1e9 ? "ms" : "s";
    double n = ns < 1e3 ? ns : ns < 1e6 ? ns / 1e3 : ns < 1e9 ? ns / 1e6 : ns / 1e9;
    printf(" | %.*f %s", n < 10 ? 1 : 0, n, unit);
}

static void say_bytes(double n) {
    const char *unit = n < 1e3 ? "B" : n < 1e6 ? "kB" : n < 1e9 ? "MB" : n < 1e12 ? "GB" : "TB";
    double m = n < 1e3 ? n : n < 1e6 ? n / 1e3 : n < 1e9 ? n / 1e6 : n < 1e12 ? n / 1e9 : n / 1e12;
    printf(" | %.*f %s", m < 10 && n >= 1e3 ? 1 : 0, m, unit);
}

static void say_count(size_t n) {
    if (n >= 1000) say_count(n / 1000), printf(",%03zu", n % 1000);
    else printf("%zu", n);
}

/* a row of README.md's table; the calls that it times are made as often as turns says */
static void size_row(const size_t v[6], size_t sealed, size_t turns) {
    double restarted = 1e18;
    full_lend(&box, v);
    full_make(&box, sealed);
    for (size_t turn = 0; turn < turns; turn++) {
        double t = spent();
        restart();
        restarted = least(restarted, spent() - t);
    }
    printf("| %zu | ", box.n), say_count(box.z), printf(" | "), say_count(box.s), printf(" | "), say_count(box.l);
    say_bytes((double)box.l * (double)box.b);
    say_bytes((double)(box.pointers_length + box.addresses_length + box.compact_length + box.inflight_length + box.state_length));
    say_time(restarted);
    struct kept k = keep();
    retable(FOUR_IN_FIVE);
    double random = reclaim(turns, k, SORGIZHED_COPIED);
    restart();
    retable(A_THOUSAND_LEFT);
    double few = reclaim(turns, k, SORGIZHED_COPIED);
    retable(NONE_LEFT);
    double none = reclaim(turns, k, SORGIZHED_RESET);
    say_time(none), say_time(few), say_time(random);
    printf(" |\n");
    fflush(stdout);
    let_go(k);
    full_free(&box);
}

void sizes(void) {
    static const size_t boxes[8][6] = {
        {3, 128, 4, 4, 2, 8}, {4, 4096, 16, 64, 16, 2496}, {4, 4096, 64, 1024, 16, 187392}, {4, 4096, 64, 4096, 16, 749568}, {4, 4096, 256, 4096, 16, 3108864},
        {4, 4096, 256, 16384, 16, 12435456}, {8, 4096, 256, 65535, 256, 116062485}, {8, 4096, 1024, 65535, 256, 468378645},
    };
    printf("| N | Z | S | addresses | their blocks | memory lent | restart | reclaim: none left | at most 1,000 left | four of five live |\n|---|---|---|---|---|---|---|---|---|---|\n");
    for (size_t i = 0; i < 8; i++) size_row(boxes[i], i < 7 ? boxes[i][2] - 3 : boxes[i][2] / 2, i < 2 ? 1000 : i < 5 ? 8 : i < 6 ? 3 : 1);
}
