/* The calls on an array, and their stores on its drives: the order and the flushes of sorgizhed.h's tables are here and nowhere else in the host. */
#include "sorgizhed_host.h"

#include <stdlib.h>
#include <string.h>

#include "bytes.h"
#include "gather.h"
#include "layout.h"

/* Which stores a flush goes before; a test takes them out one by one. */
enum { HEADERS = 1, CHUNKS = 2, FOOTERS = 4, RESETS = 8, WORDS = 16 };
#ifndef BARRIER
#define BARRIER(why) ((why) != 0)
#endif

static const size_t NEVER_LATE = SIZE_MAX, MANY = SIZE_MAX;

/* ---- places */

size_t sorgizhed_array_capacity(const sorgizhed_array *a) { return a->box.image_length / (a->box.n * a->box.z * (a->box.b + SPARE)); }

static size_t pointer_at(const sorgizhed_array *a, size_t drive, size_t zone) { return 4 * (drive * a->box.z + zone); }

uint32_t sorgizhed_array_pointer(const sorgizhed_array *a, size_t drive, size_t zone) {
    return (uint32_t)number_at(a->box.pointers + pointer_at(a, drive, zone), 4);
}

/* the write pointer as the drive has it: behind that of the image while a call's stores are carried out */
static uint32_t on_drive(const sorgizhed_array *a, size_t drive, size_t zone) { return (uint32_t)number_at(a->on_drives + pointer_at(a, drive, zone), 4); }

size_t sorgizhed_array_empty_zones(const sorgizhed_array *a) {
    size_t fewest = a->box.z;
    for (size_t d = 0; d < a->box.n; d++) {
        size_t n = 0;
        for (size_t z = 0; z < a->box.z; z++) n += sorgizhed_is_good(a, d, z) && sorgizhed_array_pointer(a, d, z) == 0;
        if (n < fewest) fewest = n;
    }
    return fewest;
}

/* ---- flushes, and what may be told behind them */

/* the drives of a stripe, as a mask */
static unsigned all_drives(const sorgizhed_array *a) { return (1u << a->box.n) - 1; }

static int complete(const sorgizhed_array *a, const sorgizhed_flight *f) { return f->used && f->landed == all_drives(a); }

/* all stores are durable: the writes of complete stripes are acknowledged for good */
static void all_durable(sorgizhed_array *a) {
    a->ordered = a->completed = 0, a->late = NEVER_LATE;
    for (size_t i = 0; i < SORGIZHED_FLIGHTS; i++) {
        sorgizhed_flight *f = &a->flights[i];
        if (!complete(a, f)) continue;
        a->acknowledged += f->writes;
        for (size_t k = 0; k < f->writes && a->told != NULL; k++) a->told(a->told_who, f->address[k], f->tag[k]);
        f->used = 0;
    }
}

static int fails(sorgizhed_array *a, size_t drive) {
    a->over = 1, a->failed = drive;
    return 0;
}

static int flush_drive(sorgizhed_array *a, size_t drive) {
    if (a->dirty[drive] == 0) return 1;
    if (a->drives.flush(a->drives.who, drive) != 0) return fails(a, drive);
    a->dirty[drive] = 0, a->flushes++;
    return 1;
}

static int flush_all(sorgizhed_array *a) {
    for (size_t d = 0; d < a->box.n; d++)
        if (!flush_drive(a, d)) return 0;
    all_durable(a);
    return 1;
}

/* what the host is told next is durable */
static int before_words(sorgizhed_array *a) {
    if (BARRIER(WORDS)) return flush_all(a);
    all_durable(a);
    return 1;
}

/* A store behind all before it: those in other zones are durable. In its own zone the drive keeps the order. */
static int in_turn(sorgizhed_array *a, int why, size_t drive, size_t zone) {
    int own = a->dirty[drive] == zone + 1;
    for (size_t d = 0; BARRIER(why) && d < a->box.n; d++)
        if (!(d == drive && own) && !flush_drive(a, d)) return 0;
    if (BARRIER(why) && !own) all_durable(a);
    a->ordered = 1;
    return 1;
}

/* ---- stores */

static void stored(sorgizhed_array *a, size_t drive, size_t zone, uint32_t pointer) {
    put_number(a->on_drives + pointer_at(a, drive, zone), 4, pointer);
    a->dirty[drive] = a->dirty[drive] == 0 || a->dirty[drive] == zone + 1 ? zone + 1 : MANY;
    a->stores++, a->done += a->all > 0;
    if (a->stored != NULL) a->stored(a->stored_who, a->work, a->done, a->all);
}

static int put(sorgizhed_array *a, size_t drive, size_t zone) {
    uint32_t block = on_drive(a, drive, zone);
    if (a->drives.put(a->drives.who, drive, zone, block, sorgizhed_unit_at(a, drive, zone, block)) != 0) return fails(a, drive);
    stored(a, drive, zone, block + 1);
    return 1;
}

static int due(const sorgizhed_array *a, size_t drive, size_t zone) { return on_drive(a, drive, zone) < sorgizhed_array_pointer(a, drive, zone); }

static int put_in_turn(sorgizhed_array *a, size_t drive, size_t zone) {
    while (due(a, drive, zone))
        if (!in_turn(a, on_drive(a, drive, zone) == 0 ? HEADERS : FOOTERS, drive, zone) || !put(a, drive, zone)) return 0;
    return 1;
}

/* a zone that is empty stays as it is */
static int reset(sorgizhed_array *a, size_t drive, size_t zone) {
    if (on_drive(a, drive, zone) == 0) return 1;
    if (a->drives.reset(a->drives.who, drive, zone) != 0) return fails(a, drive);
    stored(a, drive, zone, 0);
    return 1;
}

static int reset_in_turn(sorgizhed_array *a, size_t drive, size_t zone) {
    return on_drive(a, drive, zone) == 0 || (in_turn(a, RESETS, drive, zone) && reset(a, drive, zone));
}

/* ---- the order of a call's stores, from the write pointers before and behind it */

/* a write, a landing behind its chunk, a reclaim: headers, footers or resets, by drive */
static int carry(sorgizhed_array *a) {
    if (memcmp(a->on_drives, a->box.pointers, a->box.pointers_length) == 0) return 1;
    for (size_t d = 0; d < a->box.n; d++)
        for (size_t z = 0; z < a->box.z; z++) {
            if (sorgizhed_array_pointer(a, d, z) == 0 && !reset_in_turn(a, d, z)) return 0;
            if (!put_in_turn(a, d, z)) return 0;
        }
    return 1;
}

/* A landing: the chunk comes before any footer. It waits for the flush that its stripe's blocks wait for. */
static int carry_landing(sorgizhed_array *a, size_t drive, size_t stripe) {
    size_t zone = 0;
    while (zone < a->box.z && !due(a, drive, zone)) zone++;
    if (zone == a->box.z) return 1;
    if (BARRIER(CHUNKS) && (a->ordered || stripe >= a->late) && !flush_all(a)) return 0;
    return put(a, drive, zone);
}

/* how many stores take a zone from one pointer to the other, where it is written anew or not */
static uint64_t stores_due(const sorgizhed_array *a, size_t drive, size_t zone, int anew) {
    uint64_t had = on_drive(a, drive, zone), has = sorgizhed_array_pointer(a, drive, zone);
    return anew || has < had ? (had > 0) + has : has - had;
}

/* the zone of a drive that is empty there and is to be filled; z where there is none */
static size_t fresh_zone(const sorgizhed_array *a, size_t drive) {
    size_t z = 0;
    while (z < a->box.z && !(on_drive(a, drive, z) == 0 && due(a, drive, z))) z++;
    return z;
}

/* A segment written anew: headers in turn; the chunks, stripe by stripe over the drives, in any order: until the old zones are reset, every restart drops
 * this segment, whatever it holds. */
static int carry_rewrite(sorgizhed_array *a) {
    size_t zone[8] = {0};
    for (size_t d = 0; d < a->box.n; d++) zone[d] = fresh_zone(a, d);
    if (zone[0] == a->box.z) return 1; /* none is */
    for (size_t d = 0; d < a->box.n; d++)
        if (!in_turn(a, HEADERS, d, zone[d]) || !put(a, d, zone[d])) return 0;
    if (BARRIER(CHUNKS) && !flush_all(a)) return 0;
    for (int more = 1; more;) {
        more = 0;
        for (size_t d = 0; d < a->box.n; d++)
            if (due(a, d, zone[d])) { if (!put(a, d, zone[d])) return 0; more = 1; }
    }
    return 1;
}

/* A restart: resets of dropped segments, by serial; footers, or a rewrite and then the resets of the old zones. */
static int carry_restart(sorgizhed_array *a) {
    for (size_t d = 0; d < a->box.n; d++)
        for (size_t z = 0; z < a->box.z; z++) a->all += stores_due(a, d, z, 0);
    for (size_t i = 0; i < a->used; i++) {
        const used_zone *u = &a->zones[i];
        if (u->dropped) a->all += stores_due(a, u->drive, u->zone, 1) - stores_due(a, u->drive, u->zone, 0);
    }
    for (size_t i = 0; i < a->used; i++) {
        const used_zone *u = &a->zones[i];
        if (u->dropped && !reset_in_turn(a, u->drive, u->zone)) return 0;
    }
    return carry_rewrite(a) && carry(a);
}

/* A rebuild, by rising serial: nobody looks at the drive before it is finished, so it needs no turns. */
static int carry_rebuild(sorgizhed_array *a, size_t drive) {
    for (size_t z = 0; z < a->box.z; z++) a->all += sorgizhed_is_good(a, drive, z) ? stores_due(a, drive, z, 1) : 0;
    for (size_t z = 0; z < a->box.z; z++)
        if (sorgizhed_is_good(a, drive, z) && !reset(a, drive, z)) return 0;
    a->used = sorgizhed_gather(a, SORGIZHED_NO_DRIVE, a->zones);
    for (size_t i = 0; i < a->used; i++)
        while (a->zones[i].drive == drive && due(a, drive, a->zones[i].zone))
            if (!put(a, drive, a->zones[i].zone)) return 0;
    return 1;
}

/* ---- stripes in flight */

static sorgizhed_answer plain(uint64_t kind, uint64_t first) {
    sorgizhed_answer r = {kind, first, 0, 0};
    return r;
}

static sorgizhed_answer failed(const sorgizhed_array *a) { return plain(SORGIZHED_DRIVE_FAILED, a->failed); }

/* Whether a drive, where it says anything of its zones, has all that the list calls good; else answer tells of the first that it lacks. Good ones more stay unused. */
static int has_zones(sorgizhed_array *a, size_t drive, sorgizhed_answer *answer) {
    uint8_t told[1024] = {0};
    if (a->drives.offline == NULL) return 1;
    if (a->drives.offline(a->drives.who, drive, told) != 0) { fails(a, drive); *answer = failed(a); return 0; }
    for (size_t z = 0; z < a->box.z; z++)
        if (told[z] != 0 && sorgizhed_is_good(a, drive, z)) {
            sorgizhed_answer other = {SORGIZHED_OTHER_LIST, drive, z, 0};
            *answer = other;
            return 0;
        }
    return 1;
}

static size_t ones(unsigned mask) {
    size_t n = 0;
    for (; mask; mask &= mask - 1) n++;
    return n;
}

/* a stripe in flight, a new one if it has just begun */
static sorgizhed_flight *flight_of(sorgizhed_array *a, size_t stripe) {
    sorgizhed_flight *idle = NULL;
    for (size_t i = 0; i < SORGIZHED_FLIGHTS; i++) {
        sorgizhed_flight *f = &a->flights[i];
        if (f->used && f->stripe == stripe && !complete(a, f)) return f;
        if (!f->used && idle == NULL) idle = f;
    }
    if (idle == NULL) return before_words(a) ? flight_of(a, stripe) : NULL;
    memset(idle, 0, sizeof *idle);
    idle->used = 1, idle->stripe = stripe;
    return idle;
}

/* Something was put into a stripe: behind a landing that completed another, it lands once that is durable. */
static void touched(sorgizhed_array *a, size_t stripe) {
    if (a->completed && stripe < a->late) a->late = stripe;
}

/* a block was sent or copied: its chunk waits, and with the last data chunk parity does */
static sorgizhed_flight *chunk_sent(sorgizhed_array *a, sorgizhed_answer r) {
    sorgizhed_flight *f = flight_of(a, (size_t)r.second);
    if (f == NULL) return NULL;
    f->sent |= 1u << r.third;
    if (ones(f->sent) == a->box.n - 1) f->sent = all_drives(a);
    touched(a, f->stripe);
    return f;
}

static void chunk_landed(sorgizhed_array *a, size_t drive, size_t stripe) {
    sorgizhed_flight *f = flight_of(a, stripe);
    if (f == NULL) return;
    f->landed |= 1u << drive;
    a->completed |= complete(a, f);
}

static uint8_t *kept_block(const sorgizhed_array *a, const sorgizhed_flight *f, size_t k) { return a->blocks + ((size_t)(f - a->flights) * 7 + k) * a->box.b; }

/* ---- the calls */

int sorgizhed_is_result(sorgizhed_answer r) {
    return r.kind > SORGIZHED_CUT && r.kind != SORGIZHED_DRIVE_FAILED && r.kind != SORGIZHED_NO_MEMORY && r.kind != SORGIZHED_OTHER_LIST;
}

sorgizhed_answer sorgizhed_array_write(sorgizhed_array *a, uint64_t address, const uint8_t *block, uint64_t tag) {
    if (a->over) return failed(a);
    sorgizhed_answer r = sorgizhed_write(SORGIZHED_LENT(&a->box), address, block, a->box.b, SORGIZHED_NO_LIMIT);
    if (!sorgizhed_is_result(r)) return r;
    if (!carry(a)) return failed(a);
    sorgizhed_flight *f = chunk_sent(a, r);
    if (f == NULL) return failed(a);
    memcpy(kept_block(a, f, f->writes), block, a->box.b);
    f->address[f->writes] = address, f->stamp[f->writes] = sorgizhed_stamp(r), f->tag[f->writes++] = tag, a->writes++;
    return r;
}

sorgizhed_answer sorgizhed_array_land(sorgizhed_array *a, size_t drive, size_t stripe) {
    if (a->over) return failed(a);
    sorgizhed_answer r = sorgizhed_land(SORGIZHED_LENT(&a->box), drive, stripe, SORGIZHED_NO_LIMIT);
    if (!sorgizhed_is_result(r)) return r;
    if (!carry_landing(a, drive, stripe)) return failed(a);
    chunk_landed(a, drive, stripe);
    return carry(a) ? r : failed(a);
}

/* a closing's answer: all chunks of the stripe wait */
static sorgizhed_answer closed(sorgizhed_array *a, sorgizhed_answer r) {
    if (r.kind != SORGIZHED_CLOSED) return r;
    sorgizhed_flight *f = flight_of(a, (size_t)r.first);
    if (f == NULL) return failed(a);
    f->sent = all_drives(a);
    touched(a, f->stripe);
    return r;
}

sorgizhed_answer sorgizhed_array_close(sorgizhed_array *a) { return a->over ? failed(a) : closed(a, sorgizhed_close(SORGIZHED_LENT(&a->box))); }

sorgizhed_answer sorgizhed_array_write_nothing(sorgizhed_array *a, uint64_t address) {
    return a->over ? failed(a) : closed(a, sorgizhed_write(SORGIZHED_LENT(&a->box), address, NULL, 0, SORGIZHED_NO_LIMIT));
}

sorgizhed_answer sorgizhed_array_reclaim(sorgizhed_array *a) {
    if (a->over) return failed(a);
    sorgizhed_answer r = sorgizhed_reclaim(SORGIZHED_LENT(&a->box), SORGIZHED_NO_LIMIT);
    if (!sorgizhed_is_result(r)) return r;
    if (!carry(a)) return failed(a);
    if (r.kind == SORGIZHED_RESET) { a->resets++; return r; }
    a->copied++;
    return chunk_sent(a, r) != NULL ? r : failed(a);
}

/* where a drive has failed, memory is ahead of the drives: it is not read any more */
sorgizhed_answer sorgizhed_array_read(sorgizhed_array *a, uint64_t address) { return a->over ? failed(a) : sorgizhed_read(SORGIZHED_LENT(&a->box), address); }

sorgizhed_answer sorgizhed_array_fill(sorgizhed_array *a, uint64_t address, uint8_t *block) {
    return a->over ? failed(a) : sorgizhed_fill(SORGIZHED_LENT(&a->box), address, block, a->box.b);
}

sorgizhed_answer sorgizhed_array_get(sorgizhed_array *a, uint64_t address, uint8_t *block) {
    const sorgizhed_flight *newest = NULL;
    uint64_t stamp = 0;
    size_t at = 0;
    for (size_t i = 0; i < SORGIZHED_FLIGHTS; i++) {
        const sorgizhed_flight *f = &a->flights[i];
        for (size_t k = 0; f->used && k < f->writes; k++)
            if (f->address[k] == address && f->stamp[k] > stamp) newest = f, at = k, stamp = f->stamp[k];
    }
    if (newest == NULL || a->over) return sorgizhed_array_fill(a, address, block);
    memcpy(block, kept_block(a, newest, at), a->box.b);
    return plain(SORGIZHED_FILLED, stamp);
}

sorgizhed_answer sorgizhed_array_flush(sorgizhed_array *a) {
    if (a->over || !before_words(a)) return failed(a);
    return plain(SORGIZHED_DURABLE, a->acknowledged);
}

/* a long call has carried its stores, or not: it answers once they are durable */
static sorgizhed_answer finished(sorgizhed_array *a, sorgizhed_answer r, int carried) {
    int durable = carried && before_words(a);
    a->work = NULL, a->done = a->all = 0;
    return durable ? r : failed(a);
}

sorgizhed_answer sorgizhed_array_restart(sorgizhed_array *a, size_t missing) {
    if (a->over || !before_words(a)) return failed(a);
    a->used = sorgizhed_gather(a, missing, a->zones);
    sorgizhed_answer r = sorgizhed_restart(SORGIZHED_LENT(&a->box), missing, SORGIZHED_NO_LIMIT);
    if (!sorgizhed_is_result(r)) return r;
    memset(a->flights, 0, sizeof a->flights);
    a->missing = missing, a->work = "restart";
    return finished(a, r, missing != SORGIZHED_NO_DRIVE || carry_restart(a));
}

/* the write pointers of the drive that is to be written anew; nobody looks at those of offline zones, so they count as they are in memory */
static int report_new(sorgizhed_array *a, size_t drive) {
    if (a->drives.report(a->drives.who, drive, a->on_drives + pointer_at(a, drive, 0)) != 0) return fails(a, drive);
    for (size_t z = 0; z < a->box.z; z++)
        if (!sorgizhed_is_good(a, drive, z)) memcpy(a->on_drives + pointer_at(a, drive, z), a->box.pointers + pointer_at(a, drive, z), 4);
    return 1;
}

sorgizhed_answer sorgizhed_array_rebuild(sorgizhed_array *a, size_t drive) {
    sorgizhed_answer other;
    if (a->over) return failed(a);
    if (drive < a->box.n && !has_zones(a, drive, &other)) return other;
    if (drive < a->box.n && !report_new(a, drive)) return failed(a);
    sorgizhed_answer r = sorgizhed_rebuild(SORGIZHED_LENT(&a->box), drive, SORGIZHED_NO_LIMIT);
    if (!sorgizhed_is_result(r)) return r;
    a->work = "rebuild";
    return finished(a, r, carry_rebuild(a, drive));
}

/* ---- opening */

/* every length of the box, from its parameters; 0 where one is outside its range */
static int set_lengths(sorgizhed_box *x) {
    x->offline_length = sorgizhed_offline_length(SORGIZHED_PARAMETERS(x));
    x->image_length = sorgizhed_image_length(SORGIZHED_PARAMETERS(x));
    x->pointers_length = sorgizhed_pointers_length(SORGIZHED_PARAMETERS(x));
    x->addresses_length = sorgizhed_addresses_length(SORGIZHED_PARAMETERS(x));
    x->compact_length = sorgizhed_compact_length(SORGIZHED_PARAMETERS(x));
    x->inflight_length = sorgizhed_inflight_length(SORGIZHED_PARAMETERS(x));
    x->state_length = sorgizhed_state_length();
    return x->image_length != 0;
}

static int get_memory(sorgizhed_array *a) {
    sorgizhed_box *x = &a->box;
    a->owned = a->drives.image == NULL;
    x->image = a->owned ? calloc(x->image_length, 1) : a->drives.image, x->offline = calloc(x->offline_length, 1);
    x->pointers = calloc(x->pointers_length, 1), x->addresses = calloc(x->addresses_length, 1), x->compact = calloc(x->compact_length, 1);
    x->inflight = calloc(x->inflight_length, 1), x->state = calloc(x->state_length, 1);
    a->on_drives = calloc(x->pointers_length, 1), a->zones = calloc(x->n * x->z, sizeof *a->zones), a->blocks = calloc(SORGIZHED_FLIGHTS * 7, x->b);
    return x->offline && x->image && x->pointers && x->addresses && x->compact && x->inflight && x->state && a->on_drives && a->zones && a->blocks;
}

/* a drive's write pointers and, unless the image is given, what lies below them */
static int read_drive(sorgizhed_array *a, size_t drive) {
    if (a->drives.report(a->drives.who, drive, a->box.pointers + pointer_at(a, drive, 0)) != 0) return fails(a, drive);
    for (size_t z = 0; a->owned && z < a->box.z; z++) {
        size_t n = sorgizhed_array_pointer(a, drive, z), most = sorgizhed_array_capacity(a);
        if (n > most) n = most; /* a restart will refuse it */
        if (!sorgizhed_is_good(a, drive, z)) continue; /* nothing of an offline zone is looked at */
        if (n > 0 && a->drives.read(a->drives.who, drive, z, 0, n, sorgizhed_unit_at(a, drive, z, 0)) != 0) return fails(a, drive);
    }
    return 1;
}

sorgizhed_answer sorgizhed_array_open(sorgizhed_array *a, const sorgizhed_box *parameters, const sorgizhed_drives *drives, size_t missing) {
    const uint8_t *list = parameters->offline;
    sorgizhed_answer other;
    memset(a, 0, sizeof *a);
    a->box = *parameters, a->drives = *drives, a->missing = missing, a->late = NEVER_LATE;
    a->box.offline = a->box.image = a->box.pointers = a->box.addresses = a->box.compact = a->box.inflight = a->box.state = NULL;
    if (!set_lengths(&a->box)) return plain(SORGIZHED_REFUSED, SORGIZHED_BAD_PARAMETER);
    if (!get_memory(a)) return plain(SORGIZHED_NO_MEMORY, a->box.image_length);
    if (list != NULL) memcpy(a->box.offline, list, a->box.offline_length);
    for (size_t d = 0; d < a->box.n; d++) {
        if (d != missing && !has_zones(a, d, &other)) return other;
        if (d != missing && !read_drive(a, d)) return failed(a);
    }
    memcpy(a->on_drives, a->box.pointers, a->box.pointers_length);
    return plain(SORGIZHED_OPENED, 0);
}

void sorgizhed_array_shut(sorgizhed_array *a) {
    sorgizhed_box *x = &a->box;
    if (a->owned) free(x->image);
    free(x->offline), free(x->pointers), free(x->addresses), free(x->compact), free(x->inflight), free(x->state);
    free(a->on_drives), free(a->zones), free(a->blocks);
    memset(a, 0, sizeof *a);
}
