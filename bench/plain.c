#include "plain.h"

#include <string.h>

static size_t capacity(const sorgizhed_box *x) { return x->image_length / (x->n * x->z * (x->b + 20)); }

static uint8_t *unit(const sorgizhed_box *x, size_t drive, size_t zone, size_t block) {
    return x->image + ((drive * x->z + zone) * capacity(x) + block) * (x->b + 20);
}

static uint32_t get32(const uint8_t *p) { return (uint32_t)p[0] << 24 | (uint32_t)p[1] << 16 | (uint32_t)p[2] << 8 | p[3]; }

static uint64_t get64(const uint8_t *p) { return (uint64_t)get32(p) << 32 | get32(p + 4); }

static void put32(uint8_t *p, uint32_t n) { p[0] = (uint8_t)(n >> 24), p[1] = (uint8_t)(n >> 16), p[2] = (uint8_t)(n >> 8), p[3] = (uint8_t)n; }

static void put64(uint8_t *p, uint64_t n) { put32(p, (uint32_t)(n >> 32)), put32(p + 4, (uint32_t)n); }

static void xor_into(uint8_t *restrict to, const uint8_t *restrict from, size_t n) {
    for (size_t i = 0; i < n; i++) to[i] ^= from[i];
}

static void put_record(uint8_t *p, uint64_t address, uint64_t stamp, uint32_t stripe) {
    put64(p, address), put64(p + 8, stamp), put32(p + 16, stripe);
}

/* n - 1 blocks into a stripe's buffer, parity there, then each chunk with its record to its drive, and the table's entries */
void plain_stripe(sorgizhed_box *x, size_t zone, size_t stripe, uint64_t stamp, const uint64_t *addresses, const uint8_t *blocks) {
    size_t b = x->b, parity = x->n - 1 - stripe % x->n, k = 0, c = capacity(x);
    uint8_t *buffer = x->inflight + stripe % 8 * x->n * b;
    uint64_t a = 0, t = 0;
    for (size_t d = 0; d < x->n; d++)
        if (d != parity) memcpy(buffer + d * b, blocks + k++ * b, b);
    memset(buffer + parity * b, 0, b);
    for (size_t d = 0; d < x->n; d++)
        if (d != parity) xor_into(buffer + parity * b, buffer + d * b, b);
    k = 0;
    for (size_t d = 0; d < x->n; d++) {
        uint8_t *p = unit(x, d, zone, 1 + stripe), *q = x->pointers + 4 * (d * x->z + zone);
        memcpy(p, buffer + d * b, b);
        if (d != parity) {
            put_record(p + b, addresses[k], stamp + k, (uint32_t)stripe);
            a ^= addresses[k], t ^= stamp + k;
            put32(x->addresses + 4 * addresses[k], (uint32_t)((d * x->z + zone) * c + 1 + stripe));
            k++;
        }
        x->compact[(d * x->z + zone) * x->s + stripe] = (uint8_t)(stripe % x->g);
        put32(q, (uint32_t)(2 + stripe));
    }
    put_record(unit(x, parity, zone, 1 + stripe) + b, a, t, (uint32_t)stripe);
}

/* whether all zones of a segment, but for a missing drive's, are full */
static int is_full(const sorgizhed_box *x, size_t c, size_t zone, size_t gone) {
    for (size_t d = 0; d < x->n; d++)
        if (d != gone && get32(x->pointers + 4 * (d * x->z + zone)) != c) return 0;
    return 1;
}

/* the record of an offset in the zone whose header has this place: by footer in a full segment, else by spare */
static const uint8_t *record(const sorgizhed_box *x, int full, size_t header, size_t o) {
    size_t per = x->b / 20, unit = x->b + 20;
    return full ? x->image + (header + 1 + x->s + o / per) * unit + 20 * (o % per) : x->image + (header + 1 + o) * unit + x->b;
}

/* the block that the table points at and, where it is asked for, its stamp */
uint64_t plain_read(const sorgizhed_box *x, size_t address, int stamp, uint8_t *block) {
    uint32_t q = get32(x->addresses + 4 * address);
    memcpy(block, x->image + q * (x->b + 20), x->b);
    if (!stamp) return 0;
    uint32_t c = (uint32_t)capacity(x), zone = q / c;
    return get64(record(x, is_full(x, c, zone % (uint32_t)x->z, SORGIZHED_NO_DRIVE), zone * c, q % c - 1) + 8);
}

/* a lost block and its stamp from the others, each at the offset that the compact table shows */
uint64_t plain_decode(const sorgizhed_box *x, size_t zone, size_t stripe, size_t gone, uint8_t *block) {
    size_t c = capacity(x);
    int full = is_full(x, c, zone, gone);
    uint64_t stamp = 0;
    memset(block, 0, x->b);
    for (size_t d = 0; d < x->n; d++) {
        if (d == gone) continue;
        const uint8_t *row = x->compact + (d * x->z + zone) * x->s;
        size_t o = stripe / x->g * x->g;
        while (row[o] != (uint8_t)(stripe % x->g)) o++;
        xor_into(block, unit(x, d, zone, 1 + o), x->b);
        stamp ^= get64(record(x, full, (d * x->z + zone) * c, o) + 8);
    }
    return stamp;
}

/* a drive from the others: blocks and records of every stripe, headers and footers copied */
void plain_rebuild(sorgizhed_box *x, size_t drive) {
    size_t b = x->b, c = capacity(x), other = drive == 0 ? 1 : 0;
    for (size_t z = 0; z < x->z; z++) {
        uint32_t stored = get32(x->pointers + 4 * (other * x->z + z));
        if (stored == 0) continue;
        memcpy(unit(x, drive, z, 0), unit(x, other, z, 0), b + 20);
        for (size_t s = 0; s < x->s && s + 1 < stored; s++) {
            uint8_t *p = unit(x, drive, z, 1 + s);
            memset(p, 0, b + 20);
            for (size_t d = 0; d < x->n; d++)
                if (d != drive) xor_into(p, unit(x, d, z, 1 + s), b + 20);
            put32(p + b + 16, (uint32_t)s);
        }
        if (stored == c)
            for (size_t i = 0; i < x->s; i++) memcpy(unit(x, drive, z, 1 + x->s + i / (b / 20)) + 20 * (i % (b / 20)), unit(x, drive, z, 1 + i) + b, 20);
        put32(x->pointers + 4 * (drive * x->z + z), stored);
    }
}

/* where the record of an offset lies in a full zone */
static const uint8_t *footer_record(const sorgizhed_box *x, size_t drive, size_t zone, size_t o) {
    size_t per = x->b / 20;
    return unit(x, drive, zone, 1 + x->s + o / per) + 20 * (o % per);
}

/* one pass over the records of full zones: a stripe's chunk on each drive, the compact table, and the newest record of each address */
uint64_t plain_restart(sorgizhed_box *x) {
    uint32_t c = (uint32_t)capacity(x);
    uint64_t most = 0;
    memset(x->addresses, 0xff, x->addresses_length);
    memset(x->compact, 0, x->compact_length);
    for (size_t z = 0; z < x->z; z++) {
        if (get32(x->pointers + 4 * z) != c) continue;
        for (size_t d = 0; d < x->n; d++)
            for (size_t o = 0; o < x->s; o++) {
                const uint8_t *r = footer_record(x, d, z, o);
                uint64_t address = get64(r), stamp = get64(r + 8);
                uint32_t stripe = get32(r + 16);
                x->compact[(d * x->z + z) * x->s + o] = (uint8_t)(stripe % x->g);
                if (stripe / x->g != o / x->g) return 0;
                if (d == x->n - 1 - stripe % x->n || address >= x->l) continue;
                if (stamp > most) most = stamp;
                uint8_t *entry = x->addresses + 4 * address;
                uint32_t held = get32(entry);
                if (held != UINT32_MAX) {
                    size_t zone = held / c % x->z, drive = held / c / x->z;
                    if (get64(footer_record(x, drive, zone, held % c - 1) + 8) >= stamp) continue;
                }
                put32(entry, (uint32_t)((d * x->z + z) * c + 1 + o));
            }
    }
    return most;
}

/* the live blocks of each segment, by one scan of the address table; the segment with fewest */
size_t plain_scan(const sorgizhed_box *x, uint32_t *live) {
    uint32_t c = (uint32_t)capacity(x), z = (uint32_t)x->z;
    size_t best = 0;
    memset(live, 0, x->z * sizeof *live);
    for (size_t a = 0; a < x->l; a++) {
        uint32_t place = get32(x->addresses + 4 * a);
        if (place != UINT32_MAX) live[place / c % z]++;
    }
    for (size_t i = 1; i < x->z; i++)
        if (get32(x->pointers + 4 * i) == c && live[i] < live[best]) best = i;
    return best;
}
