/* check: everything on the drives against everything else. Headers against the parameters and each other, stripe numbers against their groups, footers
 * against the records behind the blocks, parity against data, and both tables against what the drives say. */
#include <inttypes.h>
#include <stdarg.h>
#include <stdio.h>
#include <stdlib.h>
#include <string.h>

#include "box.h"
#include "bytes.h"
#include "gather.h"
#include "layout.h"

enum { SHOWN = 20 }; /* so many faults are told one by one */
#define PADDING UINT64_MAX

typedef struct { uint64_t stamp, serial; size_t drive, offset, zone; } winner; /* stamp 0: none */

typedef struct {
    const sorgizhed_array *a;
    const sorgizhed_box *v;
    uint64_t faults, stripes, uncounted, segments;
    uint64_t serial;  /* the segment's, and its zone on each drive; on a missing one the zone that its header names */
    size_t zone[8];
    uint32_t *at;     /* by drive and stripe of one segment: the data offset + 1 */
    uint8_t *compact; /* as the drives say */
    winner *best;     /* by address */
} survey;

static void fault(survey *s, const char *form, ...) {
    va_list words;
    if (++s->faults > SHOWN) return;
    va_start(words, form);
    vprintf(form, words);
    va_end(words);
    putchar('\n');
}

/* ---- places */

/* a block of the segment's zone on a drive */
static const uint8_t *unit_on(const survey *s, size_t drive, size_t block) { return sorgizhed_unit_at(s->a, drive, s->zone[drive], block); }

static int present(const survey *s, size_t drive) { return drive != s->a->missing; }

static size_t lowest(const survey *s) { return s->a->missing == 0; }

static size_t parity_drive(const survey *s, size_t stripe) { return s->v->n - 1 - stripe % s->v->n; }

/* data blocks stored in the segment's zone */
static size_t stored_on(const survey *s, size_t drive) {
    size_t n = sorgizhed_array_pointer(s->a, drive, s->zone[drive]);
    return n == 0 ? 0 : n - 1 < s->v->s ? n - 1 : s->v->s;
}

static const uint8_t *record_at(const survey *s, size_t drive, size_t offset) { return unit_on(s, drive, 1 + offset) + s->v->b; }

/* ---- headers and footers */

/* one field of a header */
static uint8_t *field(uint8_t *p, size_t width, uint64_t value) {
    put_number(p, width, value);
    return p + width;
}

static void check_header(survey *s, size_t drive) {
    uint8_t want[4096 + SPARE] = {0}, *p = want;
    const uint8_t *low = unit_on(s, lowest(s), 0);
    p = field(p, 2, header_length(s->v->n)), p = field(p, 1, HEADER_VERSION), p = field(p, 1, s->v->n), p = field(p, 1, drive);
    p = field(p, 2, s->v->b), p = field(p, 2, s->v->g), p = field(p, 4, s->v->s);
    for (size_t d = 0; d < s->v->n; d++) p = field(p, 4, s->zone[d]);
    p = field(p, 8, s->v->l), p = field(p, 8, s->serial), field(p, 8, number_at(low + copied_at(s->v->n), 8));
    if (memcmp(want, unit_on(s, drive, 0), s->v->b + SPARE) != 0) fault(s, "drive %zu, zone %zu: the header is not as it should be", drive, s->zone[drive]);
}

static void check_footers(survey *s, size_t drive) {
    uint8_t want[4096 + SPARE];
    size_t each = s->v->b / SPARE, pointer = sorgizhed_array_pointer(s->a, drive, s->zone[drive]);
    for (size_t k = 0; 1 + s->v->s + k < pointer; k++) {
        memset(want, 0, sizeof want);
        for (size_t i = 0; i < each && k * each + i < s->v->s; i++) memcpy(want + i * SPARE, record_at(s, drive, k * each + i), SPARE);
        if (memcmp(want, unit_on(s, drive, 1 + s->v->s + k), s->v->b + SPARE) != 0)
            fault(s, "drive %zu, zone %zu: footer block %zu does not repeat the records", drive, s->zone[drive], k);
    }
}

/* ---- stripes */

/* where each stripe of a zone lies; the compact table as the zone says */
static void find_stripes(survey *s, size_t drive) {
    for (size_t o = 0; o < stored_on(s, drive); o++) {
        size_t stripe = (size_t)number_at(record_at(s, drive, o) + STRIPE_AT, 4), zone = s->zone[drive];
        if (stripe >= s->v->s || stripe / s->v->g != o / s->v->g) { fault(s, "drive %zu, zone %zu, offset %zu: stripe %zu is not of this group", drive, zone, o, stripe); continue; }
        if (s->at[drive * s->v->s + stripe] != 0) { fault(s, "drive %zu, zone %zu, offset %zu: stripe %zu is there twice", drive, zone, o, stripe); continue; }
        s->at[drive * s->v->s + stripe] = (uint32_t)o + 1;
        s->compact[(drive * s->v->z + zone) * s->v->s + o] = (uint8_t)(stripe % s->v->g);
    }
}

/* the exclusive or of a stripe's units over the present drives, into out; how many present drives have it */
static size_t xor_stripe(const survey *s, size_t stripe, uint8_t *out) {
    size_t have = 0;
    memset(out, 0, s->v->b + SPARE);
    for (size_t d = 0; d < s->v->n; d++) {
        uint32_t o = s->at[d * s->v->s + stripe];
        if (!present(s, d) || o == 0) continue;
        const uint8_t *p = unit_on(s, d, o);
        for (size_t i = 0; i < s->v->b + SPARE; i++) out[i] ^= p[i];
        have++;
    }
    return have;
}

/* the record of a data chunk competes for its address */
static void compete(survey *s, const uint8_t *record, size_t drive, size_t offset) {
    uint64_t address = number_at(record + ADDRESS_AT, 8), stamp = number_at(record + STAMP_AT, 8);
    if (address == PADDING) return;
    if (address >= s->v->l || stamp == 0) {
        fault(s, "drive %zu, zone %zu, offset %zu: address %" PRIu64 " with stamp %" PRIu64, drive, s->zone[drive], offset, address, stamp);
        return;
    }
    winner *w = &s->best[address];
    if (w->stamp > stamp || (w->stamp == stamp && w->serial > s->serial)) return;
    if (w->stamp == stamp && w->serial == s->serial && (w->drive < drive || (w->drive == drive && w->offset < offset))) return;
    w->stamp = stamp, w->serial = s->serial, w->drive = drive, w->offset = offset, w->zone = s->zone[drive];
}

static int all_zero(const uint8_t *p, size_t n) {
    for (size_t i = 0; i < n; i++) if (p[i] != 0) return 0;
    return 1;
}

static void check_stripe(survey *s, size_t stripe) {
    uint8_t sum[4096 + SPARE];
    size_t whole = s->v->n - (s->a->missing != SORGIZHED_NO_DRIVE), have = xor_stripe(s, stripe, sum);
    s->uncounted += have > 0 && have < whole;
    if (have < whole) return;
    s->stripes++;
    if (whole == s->v->n && !all_zero(sum, s->v->b)) fault(s, "segment %" PRIu64 ", stripe %zu: parity is not that of the data", s->serial, stripe);
    if (whole == s->v->n && !all_zero(sum + s->v->b, STRIPE_AT)) fault(s, "segment %" PRIu64 ", stripe %zu: the parity's record is not that of the data's", s->serial, stripe);
    for (size_t d = 0; d < s->v->n; d++) {
        if (d == parity_drive(s, stripe)) continue;
        /* on the missing drive the record is the sum of the others, and the stripe stands for the offset */
        size_t offset = present(s, d) ? s->at[d * s->v->s + stripe] - 1 : stripe;
        compete(s, present(s, d) ? record_at(s, d, offset) : sum + s->v->b, d, offset);
    }
}

/* the segment whose used zones these are */
static void check_segment(survey *s, const used_zone *u, size_t n) {
    const uint8_t *low = sorgizhed_unit_at(s->a, u->drive, u->zone, 0);
    s->segments++, s->serial = u->serial;
    memset(s->at, 0, s->v->n * s->v->s * sizeof *s->at);
    for (size_t d = 0; d < s->v->n; d++) s->zone[d] = (size_t)number_at(low + ZONES_AT + 4 * d, 4);
    for (size_t i = n; i-- > 0;) s->zone[u[i].drive] = u[i].zone;
    for (size_t d = 0; d < s->v->n; d++) {
        if (!present(s, d)) continue;
        check_header(s, d);
        find_stripes(s, d);
        check_footers(s, d);
    }
    for (size_t stripe = 0; stripe < s->v->s; stripe++) check_stripe(s, stripe);
}

/* all that remain; what a restart drops it has reset or, with a drive missing, left */
static void check_segments(survey *s, used_zone *u) {
    size_t n = sorgizhed_gather(s->a, s->a->missing, u);
    for (size_t i = 0, end; i < n; i = end) {
        for (end = i; end < n && u[end].serial == u[i].serial;) end++;
        if (!u[i].dropped) check_segment(s, u + i, end - i);
        show_progress("check, zones", end, n);
    }
}

/* ---- tables */

static void check_tables(survey *s) {
    const sorgizhed_box *v = s->v;
    for (size_t i = 0; i < v->l; i++) {
        const winner *w = &s->best[i];
        uint64_t place = w->stamp == 0 ? UINT32_MAX : (w->drive * v->z + w->zone) * sorgizhed_array_capacity(s->a) + 1 + w->offset;
        if (number_at(v->addresses + 4 * i, 4) != place) fault(s, "address %zu: the table does not point at the newest block on the drives", i);
        else if (sorgizhed_stamp(sorgizhed_read(SORGIZHED_LENT(v), i)) != w->stamp) fault(s, "address %zu: a read does not give the stamp of its block", i);
    }
    for (size_t i = 0; i < v->compact_length; i++)
        if (v->compact[i] != s->compact[i]) fault(s, "drive %zu, zone %zu, offset %zu: the compact table is not as the drive says", i / v->s / v->z, i / v->s % v->z, i % v->s);
}

int check(box *x) {
    survey s = {.a = &x->array, .v = &x->array.box};
    const sorgizhed_box *v = s.v;
    used_zone *used = calloc(v->n * v->z, sizeof *used);
    s.at = calloc(v->n * v->s, sizeof *s.at), s.compact = calloc(v->compact_length, 1), s.best = calloc(v->l, sizeof *s.best);
    if (used != NULL && s.at != NULL && s.compact != NULL && s.best != NULL) {
        check_segments(&s, used);
        check_tables(&s);
        if (s.faults > SHOWN) printf("and %" PRIu64 " more\n", s.faults - SHOWN);
        printf("%" PRIu64 " segments, %" PRIu64 " whole stripes%s, %" PRIu64 " stripes not whole: ", s.segments, s.stripes,
               s.a->missing == SORGIZHED_NO_DRIVE ? "" : " (a drive is missing, so parity stands for it and is not checked)", s.uncounted);
        printf(s.faults == 0 ? "nothing wrong\n" : "%" PRIu64 " faults\n", s.faults);
    } else fprintf(stderr, "not enough memory\n"), s.faults = 1;
    free(used), free(s.at), free(s.compact), free(s.best);
    return s.faults == 0;
}
