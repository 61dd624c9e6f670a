/* The drives see the engine's stores one at a time and in its order: for random calls on small arrays, the states that the drives go through are those that
 * the engine leaves under the store counts 0, 1, 2, .. (an empty zone's reset shows nothing, so equal neighbours count once). */
#include "ram.h"

enum { MOST = 4096 };
static ram drives;
static sorgizhed_array box;
static uint64_t states[MOST], made[MOST], seed;
static size_t seen;
static int passed, failed, several[6]; /* calls of each kind that went through more than two states */
static int empties, closed, nothing; /* empty writes, and how they ended */

static uint64_t chance(uint64_t below) {
    seed = seed * UINT64_C(6364136223846793005) + UINT64_C(1442695040888963407);
    return (seed >> 33) % below;
}

static uint64_t mix(uint64_t h, const uint8_t *p, size_t n) {
    for (size_t i = 0; i < n; i++) h = (h ^ p[i]) * UINT64_C(0x100000001b3);
    return h;
}

/* a hash of all that lies below the pointers */
static uint64_t below(const uint8_t *image, const uint8_t *pointers) {
    uint64_t h = UINT64_C(0xcbf29ce484222325);
    for (size_t i = 0; i < drives.n * drives.z; i++) {
        if (drives.offline[i] != 0) continue;
        size_t n = (size_t)pointers[4 * i] << 24 | (size_t)pointers[4 * i + 1] << 16 | (size_t)pointers[4 * i + 2] << 8 | pointers[4 * i + 3];
        h = mix(mix(h, pointers + 4 * i, 4), image + i * drives.c * drives.unit, (n < drives.c ? n : drives.c) * drives.unit);
    }
    return h;
}

/* behind each store of the drives */
static void shown(void) {
    uint8_t pointers[8 * 16 * 4];
    for (size_t d = 0; d < drives.n; d++) ram_report(&drives, d, pointers + 4 * d * drives.z);
    if (seen < MOST) states[seen++] = below(drives.now, pointers);
}

enum { WRITE, LAND, RECLAIM, RESTART, REBUILD, EMPTY };

static sorgizhed_answer engine(sorgizhed_box *x, int call, size_t p, size_t q, const uint8_t *block, uint64_t count) {
    switch (call) {
    case WRITE: return sorgizhed_write(SORGIZHED_LENT(x), p, block, x->b, count);
    case LAND: return sorgizhed_land(SORGIZHED_LENT(x), p, q, count);
    case RECLAIM: return sorgizhed_reclaim(SORGIZHED_LENT(x), count);
    case RESTART: return sorgizhed_restart(SORGIZHED_LENT(x), p, count);
    case EMPTY: return sorgizhed_write(SORGIZHED_LENT(x), p, NULL, 0, count);
    default: return sorgizhed_rebuild(SORGIZHED_LENT(x), p, count);
    }
}

static uint8_t *copy(const uint8_t *p, size_t n) { return memcpy(ram_memory(n), p, n); }

static size_t without_repeats(uint64_t *s, size_t n) {
    size_t k = 0;
    for (size_t i = 0; i < n; i++) if (k == 0 || s[k - 1] != s[i]) s[k++] = s[i];
    return k;
}

/* the states that the engine leaves under rising store counts */
static size_t engine_states(int call, size_t p, size_t q, const uint8_t *block) {
    size_t n = 0;
    for (uint64_t count = 0; n < MOST; count++) {
        sorgizhed_box x = box.box;
        x.image = copy(x.image, x.image_length), x.pointers = copy(x.pointers, x.pointers_length), x.addresses = copy(x.addresses, x.addresses_length);
        x.compact = copy(x.compact, x.compact_length), x.inflight = copy(x.inflight, x.inflight_length), x.state = copy(x.state, x.state_length);
        sorgizhed_answer r = engine(&x, call, p, q, block, count);
        made[n++] = below(x.image, x.pointers);
        free(x.image), free(x.pointers), free(x.addresses), free(x.compact), free(x.inflight), free(x.state);
        if (r.kind != SORGIZHED_CUT) break;
    }
    return without_repeats(made, n);
}

/* one call of the array, held against the engine's states */
static sorgizhed_answer check(int call, size_t p, size_t q, const uint8_t *block) {
    size_t n = engine_states(call, p, q, block);
    seen = 0, shown();
    sorgizhed_answer r = call == WRITE ? sorgizhed_array_write(&box, p, block, 0) : call == LAND ? sorgizhed_array_land(&box, p, q)
                       : call == RECLAIM ? sorgizhed_array_reclaim(&box) : call == RESTART ? sorgizhed_array_restart(&box, p)
                       : call == EMPTY ? sorgizhed_array_write_nothing(&box, p) : sorgizhed_array_rebuild(&box, p);
    size_t k = without_repeats(states, seen);
    several[call] += n > 2;
    empties += call == EMPTY, closed += call == EMPTY && r.kind == SORGIZHED_CLOSED, nothing += r.kind == SORGIZHED_NOTHING;
    if (k == n && memcmp(states, made, n * sizeof *made) == 0) passed++;
    else { failed++; printf("call %d: the drives went through %zu states, the engine through %zu\n", call, k, n); }
    return r;
}

/* a chunk to land: mostly one that waits */
static void choose(const sorgizhed_box *v, size_t *drive, size_t *stripe) {
    *drive = (size_t)chance(v->n), *stripe = (size_t)chance(v->s);
    for (size_t i = 0; i < SORGIZHED_FLIGHTS && chance(8); i++) {
        const sorgizhed_flight *f = &box.flights[chance(SORGIZHED_FLIGHTS)];
        if (f->used && (f->sent & ~f->landed) >> *drive & 1) { *stripe = f->stripe; return; }
    }
}

/* a history: writes, landings in any order, reclaims, restarts in the middle, a lost drive */
static void history(const sorgizhed_box *v, int calls) {
    uint8_t block[4096];
    ram_make(&drives, v);
    sorgizhed_drives d = ram_drives(&drives);
    if (sorgizhed_array_open(&box, v, &d, SORGIZHED_NO_DRIVE).kind != SORGIZHED_OPENED) exit(2);
    drives.shown = shown;
    check(RESTART, SORGIZHED_NO_DRIVE, 0, NULL);
    for (int i = 0; i < calls; i++) {
        uint64_t k = chance(80);
        size_t drive, stripe;
        choose(v, &drive, &stripe);
        for (size_t j = 0; j < v->b; j++) block[j] = (uint8_t)chance(256);
        if (k < 24) check(WRITE, (size_t)chance(v->l), 0, block);
        else if (k < 66) check(LAND, drive, stripe, NULL);
        else if (k < 68) sorgizhed_array_close(&box);
        else if (k < 70) check(EMPTY, (size_t)chance(v->l + 1), 0, NULL);
        else if (k < 78) check(RECLAIM, 0, 0, NULL);
        else if (k < 79) check(RESTART, SORGIZHED_NO_DRIVE, 0, NULL);
        else {
            size_t lost = (size_t)chance(v->n);
            check(RESTART, lost, 0, NULL);
            check(REBUILD, lost, 0, NULL);
            check(RESTART, SORGIZHED_NO_DRIVE, 0, NULL);
        }
    }
    sorgizhed_array_shut(&box);
    ram_free(&drives);
}

int main(void) {
    static uint8_t dead[2][8 * 16]; /* lists of offline zones, other zones on each drive */
    static const sorgizhed_box shapes[6] = {{.n = 3, .b = 128, .z = 4, .s = 4, .g = 2, .l = 8}, {.n = 4, .b = 128, .z = 5, .s = 3, .g = 1, .l = 12},
                                            {.n = 3, .b = 128, .z = 6, .s = 7, .g = 4, .l = 30}, {.n = 5, .b = 256, .z = 4, .s = 2, .g = 256, .l = 8},
                                            {.n = 3, .b = 128, .z = 6, .s = 3, .g = 2, .l = 6, .offline = dead[0]}, {.n = 4, .b = 128, .z = 8, .s = 2, .g = 2, .l = 10, .offline = dead[1]}};
    for (size_t i = 0; i < 3; i++) dead[0][i * 6 + i] = dead[0][i * 6 + (2 * i + 3) % 6] = 1;
    for (size_t i = 0; i < 4; i++) dead[1][i * 8 + (3 * i) % 8] = dead[1][i * 8 + (3 * i + 2) % 8] = 200;
    for (uint64_t k = 1; k <= 72; k++) seed = 2 * k + 1, history(&shapes[k % 6], 700);
    printf("calls with several stores: %d writes, %d landings, %d reclaims, %d restarts, %d rebuilds\n", several[0], several[1], several[2], several[3], several[4]);
    printf("empty writes: %d closed, %d did nothing, %d were refused\n", closed, nothing, empties - closed - nothing);
    for (int i = 0; i < 5; i++) failed += several[i] < 20;
    failed += closed < 20 || nothing < 20 || empties - closed - nothing < 20;
    printf("%d passed, %d failed\n", passed, failed);
    return failed != 0;
}
