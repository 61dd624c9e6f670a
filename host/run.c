/* A run of an array: what lands when, and when space is made. */
#include "sorgizhed_host.h"

static int refused(sorgizhed_answer r, uint64_t number) { return r.kind == SORGIZHED_REFUSED && r.first == number; }

static unsigned waiting(const sorgizhed_flight *f) { return f->used ? f->sent & ~f->landed : 0; }

size_t sorgizhed_array_waiting(const sorgizhed_array *a) {
    size_t n = 0;
    for (size_t i = 0; i < SORGIZHED_FLIGHTS; i++)
        for (unsigned mask = waiting(&a->flights[i]); mask; mask &= mask - 1) n++;
    return n;
}

sorgizhed_answer sorgizhed_array_land_one(sorgizhed_array *a, size_t number) {
    for (size_t i = 0; i < SORGIZHED_FLIGHTS; i++)
        for (size_t d = 0; d < a->box.n; d++)
            if (waiting(&a->flights[i]) >> d & 1 && number-- == 0) return sorgizhed_array_land(a, d, a->flights[i].stripe);
    sorgizhed_answer none = {SORGIZHED_REFUSED, SORGIZHED_NOTHING_TO_DO, 0, 0};
    return none;
}

/* a step that went well */
static sorgizhed_answer fine(void) {
    sorgizhed_answer r = {SORGIZHED_LANDED, 0, 0, 0};
    return r;
}

static sorgizhed_answer land_all(sorgizhed_array *a) {
    while (sorgizhed_array_waiting(a) > 0) {
        sorgizhed_answer r = sorgizhed_array_land_one(a, 0);
        if (!sorgizhed_is_result(r)) return r;
    }
    return fine();
}

/* one step of reclaim, with the landings that it waits for; says whether anything came of it */
static sorgizhed_answer reclaim_step(sorgizhed_array *a, int *progress) {
    sorgizhed_answer r = sorgizhed_array_reclaim(a);
    *progress = 1;
    if (sorgizhed_is_result(r)) return r;
    int idle = refused(r, SORGIZHED_WAIT) || refused(r, SORGIZHED_NOTHING_TO_DO);
    /* full, with something in flight: a landing may seal the open segment, or leave the one that is taken without a live block */
    if ((idle || refused(r, SORGIZHED_NO_ZONE_LEFT)) && sorgizhed_array_waiting(a) > 0) return land_all(a);
    *progress = 0;
    return idle ? fine() : r;
}

sorgizhed_answer sorgizhed_array_end(sorgizhed_array *a, uint64_t address) {
    for (;;) {
        sorgizhed_answer r = land_all(a);
        if (!sorgizhed_is_result(r)) return r;
        sorgizhed_answer ended = sorgizhed_array_write_nothing(a, address);
        if (ended.kind == SORGIZHED_NOTHING) return sorgizhed_array_flush(a);
        if (sorgizhed_is_result(ended)) continue;
        /* with one zone left it waits for reclaim, whose copies fill the stripe as well */
        int progress = 0;
        if (!refused(ended, SORGIZHED_NOTHING_TO_DO)) return ended;
        r = reclaim_step(a, &progress);
        if (!sorgizhed_is_result(r)) return r;
        if (!progress) return ended;
    }
}

sorgizhed_answer sorgizhed_array_settle(sorgizhed_array *a) { return a->missing == SORGIZHED_NO_DRIVE ? sorgizhed_array_end(a, 0) : sorgizhed_array_flush(a); }

sorgizhed_answer sorgizhed_array_room(sorgizhed_array *a, size_t zones) {
    int idle = 0;
    uint64_t turns = a->resets + a->box.z; /* once round all zones: what does not come free then is in use */
    while (sorgizhed_array_empty_zones(a) < zones && idle < 2 && a->resets < turns) {
        int progress = 0;
        sorgizhed_answer r = reclaim_step(a, &progress);
        if (sorgizhed_is_result(r) && !progress) r = sorgizhed_array_settle(a);
        if (!sorgizhed_is_result(r)) return r;
        idle = progress ? 0 : idle + 1;
    }
    return sorgizhed_array_flush(a);
}

sorgizhed_answer sorgizhed_array_send(sorgizhed_array *a, uint64_t address, const uint8_t *block, uint64_t tag) {
    for (int room = 0;;) {
        sorgizhed_answer help, r = sorgizhed_array_write(a, address, block, tag);
        if (refused(r, SORGIZHED_WAIT) && sorgizhed_array_waiting(a) > 0) help = land_all(a);
        else if (refused(r, SORGIZHED_NO_ZONE_LEFT) && room++ < 4) help = sorgizhed_array_room(a, sorgizhed_array_empty_zones(a) + 1);
        else return r;
        if (!sorgizhed_is_result(help)) return help;
    }
}
