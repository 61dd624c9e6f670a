/* The speed of the calls against the same work in plain C (plain.c), in one run. Each figure is the better of several turns, ours and C's in turn. */
#define _POSIX_C_SOURCE 199309L
#include "clock.h"
#include "plain.h"
#include "tables.h"

/* decodes a state and encodes it again (crates/bench_leaves) */
void leaf_state(uint8_t *to, size_t to_length, const uint8_t *from, size_t from_length, size_t k, uint32_t v);

static const size_t small[6] = {3, 128, 4, 4, 2, 8};
static sorgizhed_box box;
static uint8_t data[8 * 4096];
static uint8_t other[SORGIZHED_STATE_LENGTH];

static void lend(const size_t v[6]) {
    free(box.offline), free(box.image), free(box.pointers), free(box.addresses), free(box.compact), free(box.inflight), free(box.state);
    box.n = v[0], box.b = v[1], box.z = v[2], box.s = v[3], box.g = v[4], box.l = v[5];
    box.offline = room(box.offline_length = sorgizhed_offline_length(SORGIZHED_PARAMETERS(&box)));
    box.image = room(box.image_length = sorgizhed_image_length(SORGIZHED_PARAMETERS(&box)));
    box.pointers = room(box.pointers_length = sorgizhed_pointers_length(SORGIZHED_PARAMETERS(&box)));
    box.addresses = room(box.addresses_length = sorgizhed_addresses_length(SORGIZHED_PARAMETERS(&box)));
    box.compact = room(box.compact_length = sorgizhed_compact_length(SORGIZHED_PARAMETERS(&box)));
    box.inflight = room(box.inflight_length = sorgizhed_inflight_length(SORGIZHED_PARAMETERS(&box)));
    box.state = room(box.state_length = sorgizhed_state_length());
}

static void restart(size_t missing) { must("restart", sorgizhed_restart(SORGIZHED_LENT(&box), missing, SORGIZHED_NO_LIMIT), SORGIZHED_RESTARTED); }

/* the time of some stripes: n - 1 writes and n landings each, footers where a segment ends */
static double stripes(size_t count, const uint64_t *addresses) {
    double t = now();
    for (size_t i = 0; i < count; i++) {
        size_t stripe = 0;
        for (size_t k = 0; k + 1 < box.n; k++) {
            sorgizhed_answer r = sorgizhed_write(SORGIZHED_LENT(&box), addresses[(i * (box.n - 1) + k) % box.l], data + k * box.b, box.b, SORGIZHED_NO_LIMIT);
            must("write", r, SORGIZHED_SENT);
            stripe = (size_t)r.second;
        }
        for (size_t d = 0; d < box.n; d++) must("land", sorgizhed_land(SORGIZHED_LENT(&box), d, stripe, SORGIZHED_NO_LIMIT), SORGIZHED_LANDED);
    }
    return now() - t;
}

static double plain_stripes(size_t count, const uint64_t *addresses) {
    uint64_t some[8];
    double t = now();
    for (size_t i = 0; i < count; i++) {
        for (size_t k = 0; k + 1 < box.n; k++) some[k] = addresses[(i * (box.n - 1) + k) % box.l];
        plain_stripe(&box, i / box.s % box.z, i % box.s, i * (box.n - 1) + 1, some, data);
    }
    return now() - t;
}

static uint64_t *some_addresses(void) {
    uint64_t *p = room(box.l * sizeof *p);
    for (size_t i = 0; i < box.l; i++) p[i] = i;
    for (size_t i = box.l; i-- > 1;) { size_t j = (size_t)random_below(i + 1); uint64_t x = p[i]; p[i] = p[j], p[j] = x; }
    return p;
}

/* how often a figure is taken */
static size_t turns(void) { return box.l < 100 ? 2000 : box.l < 20000 ? 30 : 6; }

/* the small box has a target for a write alone */
static int is_small(void) { return box.n == 3; }

static void line(const char *name, double ours, double plain, double target) {
    printf("  %-44s %12.0f ns %12.0f ns   %.2f%s\n", name, ours, plain, plain / ours, target == 0 ? "" : plain / ours >= target ? "  (target met)" : "  (BELOW THE TARGET)");
    fflush(stdout);
}

static void empty(void) {
    memset(box.pointers, 0, box.pointers_length);
    restart(SORGIZHED_NO_DRIVE);
}

/* per stripe: n - 1 writes, n landings; beside it what the state's bytes cost in so many calls */
static void writes(const char *name, const size_t v[6]) {
    double ours = 1e18, plain = 1e18, bytes = 1e18;
    char text[80];
    lend(v);
    uint64_t *a = some_addresses();
    size_t count = (box.z - 2) * box.s;
    for (size_t i = 0; i < turns(); i++) {
        empty();
        plain = least(plain, plain_stripes(count, a));
        empty();
        ours = least(ours, stripes(count, a));
        double t = now();
        for (size_t k = 0; k < 2 * box.n - 1; k++) leaf_state(other, box.state_length, box.state, box.state_length, k, 1);
        bytes = least(bytes, now() - t);
    }
    ours /= (double)count, plain /= (double)count;
    snprintf(text, sizeof text, "%s: write with its landings, a stripe", name);
    line(text, ours, plain, is_small() ? 0.1 : 0.75);
    snprintf(text, sizeof text, "%s: without the state's bytes", name);
    line(text, ours - bytes, plain, 0);
    printf("  %-44s %12.0f ns\n", "the state's bytes, read and written, a call", bytes / (double)(2 * box.n - 1));
    free(a);
}

/* all addresses written once, in random order; then some again */
static void fill(void) {
    empty();
    uint64_t *a = some_addresses();
    stripes((box.z - 3) * box.s, a);
    free(a);
}

static void same_stamp(sorgizhed_answer r, uint64_t stamp) {
    if (sorgizhed_stamp(r) != stamp) { fprintf(stderr, "read: kind %d and another stamp than plain C's\n", (int)r.kind); exit(1); }
}

/* the time of a read that answers so */
static double first_read(uint64_t kind) {
    double least_time = 1e18;
    size_t count = box.l < 100 ? 20000 : 4000;
    for (size_t turn = 0; turn < 10; turn++) {
        double t = now();
        for (size_t i = 0; i < count; i++) must("read", sorgizhed_read(SORGIZHED_LENT(&box), i % box.l), kind);
        least_time = least(least_time, (now() - t) / (double)count);
    }
    return least_time;
}

static void reads(const char *name, const size_t v[6]) {
    double ours = 1e18, plain = 1e18, healthy, never, copy[2] = {1e18, 1e18}; /* without and with the stamp */
    uint8_t block[4096];
    char text[80];
    size_t c, n = 0, gone = 1;
    uint64_t stamps = 0;
    lend(v);
    empty();
    never = first_read(SORGIZHED_NEVER);
    fill();
    c = box.image_length / (box.n * box.z * (box.b + 20));
    healthy = first_read(SORGIZHED_PART);
    for (size_t turn = 0; turn < 10; turn++) {
        size_t count = box.l < 100 ? 20000 : 4000;
        for (int stamp = 0; stamp < 2; stamp++) {
            double t = now();
            for (size_t i = 0; i < count; i++) stamps += plain_read(&box, i % box.l, stamp, block);
            copy[stamp] = least(copy[stamp], (now() - t) / (double)count);
        }
    }
    for (size_t i = 0; i < box.l; i++) same_stamp(sorgizhed_read(SORGIZHED_LENT(&box), i), plain_read(&box, i, 1, block));
    restart(gone);
    uint64_t *lost = room(box.l * sizeof *lost);
    for (size_t i = 0; i < box.l; i++)
        if (sorgizhed_read(SORGIZHED_LENT(&box), i).kind == SORGIZHED_LOST) lost[n++] = i;
    for (size_t turn = 0; turn < 10 && n > 0; turn++) {
        size_t count = box.l < 100 ? 20000 : 2000;
        double t = now();
        for (size_t i = 0; i < count; i++) must("fill", sorgizhed_fill(SORGIZHED_LENT(&box), lost[i % n], block, box.b), SORGIZHED_FILLED);
        ours = least(ours, (now() - t) / (double)count);
        t = now();
        for (size_t i = 0; i < count; i++) {
            const uint8_t *e = box.addresses + 4 * lost[i % n];
            uint32_t q = (uint32_t)e[0] << 24 | (uint32_t)e[1] << 16 | (uint32_t)e[2] << 8 | e[3];
            stamps += plain_decode(&box, q / c % box.z, q % c - 1, gone, block);
        }
        plain = least(plain, (now() - t) / (double)count);
    }
    free(lost);
    snprintf(text, sizeof text, "%s: healthy read (C: copy, stamp)", name);
    line(text, healthy, copy[1], 0);
    printf("  %-44s %12.0f ns %12.0f ns%s\n", "no stamp (ours: never written; C: copy)", never, copy[0], stamps == 0 ? " " : "");
    snprintf(text, sizeof text, "%s: degraded read", name);
    line(text, ours, plain, is_small() ? 0 : 0.9);
}

static void rebuilds(const char *name, const size_t v[6]) {
    double ours = 1e18, plain = 1e18;
    char text[80];
    lend(v);
    fill();
    for (size_t turn = 0; turn < turns(); turn++) {
        restart(1);
        double t = now();
        must("rebuild", sorgizhed_rebuild(SORGIZHED_LENT(&box), 1, SORGIZHED_NO_LIMIT), SORGIZHED_REBUILT);
        ours = least(ours, now() - t);
        t = now();
        plain_rebuild(&box, 1);
        plain = least(plain, now() - t);
        restart(1);
        must("rebuild", sorgizhed_rebuild(SORGIZHED_LENT(&box), 1, SORGIZHED_NO_LIMIT), SORGIZHED_REBUILT);
    }
    snprintf(text, sizeof text, "%s: rebuild", name);
    line(text, ours, plain, is_small() ? 0 : 0.9);
}

static void restarts(const char *name, const size_t v[6]) {
    double ours = 1e18, plain = 1e18;
    char text[80];
    lend(v);
    fill();
    size_t blocks = box.n * box.z * box.s;
    for (size_t turn = 0; turn < turns(); turn++) {
        double t = now();
        restart(SORGIZHED_NO_DRIVE);
        ours = least(ours, now() - t);
        t = now();
        if (plain_restart(&box) == 0) { fprintf(stderr, "the plain restart found nothing\n"); exit(1); }
        plain = least(plain, now() - t);
    }
    snprintf(text, sizeof text, "%s: restart, %zu blocks", name, blocks);
    line(text, ours, plain, is_small() ? 0 : box.b == 128 ? 0.8 : 0.7);
    printf("  %-44s %12.1f ns a block\n", "", ours / (double)blocks);
}

static void reclaims(const char *name, const size_t v[6]) {
    static uint32_t live[1024];
    double ours = 1e18, plain = 1e18;
    char text[80];
    lend(v);
    fill();
    uint8_t *state = room(box.state_length), *pointers = room(box.pointers_length), *inflight = room(box.inflight_length);
    memcpy(state, box.state, box.state_length), memcpy(pointers, box.pointers, box.pointers_length), memcpy(inflight, box.inflight, box.inflight_length);
    size_t found = 0;
    for (size_t turn = 0; turn < turns(); turn++) {
        double t = now();
        must("reclaim", sorgizhed_reclaim(SORGIZHED_LENT(&box), SORGIZHED_NO_LIMIT), SORGIZHED_COPIED);
        ours = least(ours, now() - t);
        memcpy(box.state, state, box.state_length), memcpy(box.pointers, pointers, box.pointers_length), memcpy(box.inflight, inflight, box.inflight_length);
        t = now();
        found += plain_scan(&box, live);
        plain = least(plain, now() - t);
    }
    free(state), free(pointers), free(inflight);
    snprintf(text, sizeof text, "%s: reclaim, a table of %zu%s", name, box.l, found == 1 ? " " : "");
    line(text, ours, plain, 0);
}

/* what must not grow with S or L */
static void growth(void) {
    static const size_t shapes[4][6] = {{4, 128, 4, 4, 2, 12}, {4, 128, 8, 320, 16, 4800}, {4, 128, 16, 1600, 16, 62400}, {4, 128, 64, 4096, 16, 749568}};
    printf("\nwhat does not grow with S or L (N = 4, B = 128; the first segment)\n");
    for (size_t i = 0; i < 4; i++) {
        double write = 1e18, land = 1e18, read = 1e18;
        lend(shapes[i]);
        uint64_t *a = some_addresses();
        for (size_t turn = 0; turn < (i == 0 ? 2000 : 4); turn++) {
            double w = 0, l = 0, t;
            size_t writes = 0, lands = 0;
            empty();
            /* stripes of one segment but for its last: no footers */
            for (size_t s = 0; s + 1 < box.s; s++) {
                t = now();
                for (size_t k = 0; k + 1 < box.n; k++) must("write", sorgizhed_write(SORGIZHED_LENT(&box), a[(s * 3 + k) % box.l], data, box.b, SORGIZHED_NO_LIMIT), SORGIZHED_SENT);
                w += now() - t, writes += box.n - 1;
                t = now();
                for (size_t d = 0; d < box.n; d++) must("land", sorgizhed_land(SORGIZHED_LENT(&box), d, s, SORGIZHED_NO_LIMIT), SORGIZHED_LANDED);
                l += now() - t, lands += box.n;
            }
            write = least(write, w / (double)writes), land = least(land, l / (double)lands);
            t = now();
            for (size_t k = 0; k < 3 * (box.s - 1); k++) must("read", sorgizhed_read(SORGIZHED_LENT(&box), a[k % box.l]), SORGIZHED_PART);
            read = least(read, (now() - t) / (double)(3 * (box.s - 1)));
        }
        free(a);
        printf("  %8zu blocks   write %6.0f ns   landing %6.0f ns   healthy read %6.0f ns\n", box.n * box.z * box.s, write, land, read);
        fflush(stdout);
    }
}

/* nanoseconds a write and a landing take in the stripes of a fresh segment, but for its last; used: how many zones are taken before */
static void segment_times(const size_t v[6], size_t used, double *write, double *land) {
    lend(v);
    uint64_t *a = some_addresses();
    *write = *land = 1e18;
    for (size_t turn = 0; turn < (used > 100 ? 3 : 30); turn++) {
        double w = 0, l = 0, t;
        empty();
        stripes(used * box.s, a);
        for (size_t s = 0; s + 1 < box.s; s++) {
            t = now();
            for (size_t k = 0; k + 1 < box.n; k++) must("write", sorgizhed_write(SORGIZHED_LENT(&box), a[(s * (box.n - 1) + k) % box.l], data, box.b, SORGIZHED_NO_LIMIT), SORGIZHED_SENT);
            w += now() - t;
            t = now();
            for (size_t d = 0; d < box.n; d++) must("land", sorgizhed_land(SORGIZHED_LENT(&box), d, s, SORGIZHED_NO_LIMIT), SORGIZHED_LANDED);
            l += now() - t;
        }
        *write = least(*write, w / (double)((box.s - 1) * (box.n - 1))), *land = least(*land, l / (double)((box.s - 1) * box.n));
    }
    free(a);
}

/* a box in use against a small one: the opening of the segment is in the write's time */
static void in_use(void) {
    static const size_t few[6] = {4, 128, 4, 256, 16, 768}, many[6] = {4, 128, 1024, 256, 16, 784128};
    double w0, l0, w1, l1;
    segment_times(few, 0, &w0, &l0);
    segment_times(many, 1020, &w1, &l1);
    printf("\na box in use (N = 4, B = 128, S = 256; all zones but four are taken)\n");
    printf("  Z = 4, empty    write %6.0f ns   landing %6.0f ns\n", w0, l0);
    printf("  Z = 1,024       write %6.0f ns   landing %6.0f ns   write %.2f times as long%s\n", w1, l1, w1 / w0, w1 <= 1.3 * w0 ? "  (target met)" : "  (ABOVE THE TARGET, 1.3)");
    fflush(stdout);
}

/* nanoseconds a call of some: all but the last zones are sealed, and what is called looks at places all over the box */
static double each_read(size_t count, uint64_t kind) {
    double t = now();
    for (size_t i = 0; i < count; i++) must("read", sorgizhed_read(SORGIZHED_LENT(&box), random_below(box.l)), kind);
    return (now() - t) / (double)count;
}

/* the stripes of a segment in which nothing is sealed: writes, landings that complete no stripe, and those that do; the opening write and the last stripe are left out */
static void open_segment(const uint64_t *a, double *write, double *land, double *last) {
    for (size_t s = 0; s + 1 < box.s; s++) {
        double t = now();
        for (size_t k = 0; k + 1 < box.n; k++) must("write", sorgizhed_write(SORGIZHED_LENT(&box), a[(s * (box.n - 1) + k) % box.l], data, box.b, SORGIZHED_NO_LIMIT), SORGIZHED_SENT);
        if (s > 0) *write = least(*write, (now() - t) / (double)(box.n - 1));
        t = now();
        for (size_t d = 0; d + 1 < box.n; d++) must("land", sorgizhed_land(SORGIZHED_LENT(&box), d, s, SORGIZHED_NO_LIMIT), SORGIZHED_LANDED);
        *land = least(*land, (now() - t) / (double)(box.n - 1));
        t = now();
        must("land", sorgizhed_land(SORGIZHED_LENT(&box), box.n - 1, s, SORGIZHED_NO_LIMIT), SORGIZHED_LANDED);
        *last = least(*last, now() - t);
    }
}

/* the cost of the calls against Z: a box with all zones but four taken; in the second row of each Z a quarter of the zones more are dead, others on each drive */
static void zones(void) {
    static const size_t counts[5] = {4, 16, 64, 256, 1024};
    printf("\nagainst Z (N = 4, B = 128, S = 8; all good zones but four are taken; ns)\n");
    printf("  %6s %6s %10s %10s %10s %10s %10s %12s %12s\n", "Z", "dead", "write", "landing", "completes", "read", "lost read", "reclaim", "restart");
    for (size_t i = 0; i < 5; i++)
        for (int dead = 0; dead < 2; dead++) {
            size_t good = counts[i], more = dead ? good / 4 : 0, v[6] = {4, 128, good + more, 8, 8, (good > 4 ? good - 4 : 1) * 24};
            double write = 1e18, land = 1e18, last = 1e18, read = 1e18, lost = 1e18, reclaim = 1e18, begin = 1e18;
            if (good + more > 1024) continue;
            lend(v);
            for (size_t d = 0; d < box.n; d++)
                for (size_t k = 0; k < more; k++) box.offline[d * box.z + (5 * k + d) % box.z] = 1;
            uint64_t *a = some_addresses();
            for (int turn = 0; turn < 5; turn++) {
                empty();
                stripes((good - 4) * box.s, a);
                open_segment(a, &write, &land, &last);
                if (good > 4) read = least(read, each_read(2000, SORGIZHED_PART));
                double t = now();
                restart(SORGIZHED_NO_DRIVE);
                begin = least(begin, now() - t);
                if (good > 4) {
                    t = now();
                    sorgizhed_reclaim(SORGIZHED_LENT(&box), 0);
                    reclaim = least(reclaim, now() - t);
                }
                restart(1);
                t = now();
                size_t n = 0;
                for (size_t k = 0; k < 400; k++) n += sorgizhed_read(SORGIZHED_LENT(&box), random_below(box.l)).kind == SORGIZHED_LOST;
                if (n > 0) lost = least(lost, (now() - t) / 400);
            }
            free(a);
            printf("  %6zu %6zu %10.0f %10.0f %10.0f %10.0f %10.0f %12.0f %12.0f\n", box.z, more, write, land, last, good > 4 ? read : 0, lost < 1e18 ? lost : 0, good > 4 ? reclaim : 0, begin);
            fflush(stdout);
        }
}

static void calls(void) {
    static const size_t large[6] = {4, 4096, 16, 256, 16, 9984}, many[3][6] = {{4, 128, 8, 320, 16, 4800}, {4, 128, 16, 1600, 16, 62400}, {4, 128, 64, 4096, 16, 749568}};
    printf("  %-44s %15s %15s   %s\n", "", "ours", "plain C", "C / ours");
    writes("N 4, B 4096", large);
    writes("small box", small);
    reads("N 4, B 4096", large);
    reads("small box", small);
    rebuilds("N 4, B 4096", large);
    rebuilds("small box", small);
    restarts("N 4, B 4096", large);
    restarts("small box", small);
    for (int i = 0; i < 3; i++) restarts("N 4, B 128", many[i]);
    reclaims("N 4, B 4096", large);
    reclaims("small box", small);
    reclaims("N 4, B 128", many[2]);
    growth();
    in_use();
    zones();
    lend(small);
}

int main(int argc, char **argv) {
    int large = 0, all = 1;
    for (int i = 1; i < argc; i++) {
        if (strcmp(argv[i], "--large") == 0) large = 1;
        else if (strcmp(argv[i], "--reclaim") == 0) all = 0;
        else if (strcmp(argv[i], "--sizes") == 0) return sizes(), 0;
        else if (strcmp(argv[i], "--zones") == 0) return zones(), 0;
        else return fprintf(stderr, "bench/calls [--reclaim] [--large] | --sizes | --zones\n"), 2;
    }
    for (size_t i = 0; i < sizeof data; i++) data[i] = (uint8_t)random_below(256);
    if (all) calls();
    reclaim_by_table(large);
    return 0;
}
