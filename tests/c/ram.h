/* Drives in memory with a volatile cache: what was flushed lasts, and of what was not, zone by zone, any first part. */
#ifndef RAM_H
#define RAM_H

#include <stdio.h>
#include <stdlib.h>
#include <string.h>

#include "sorgizhed_host.h"

typedef struct { size_t drive, zone, block; uint8_t *bytes; } ram_store; /* bytes NULL: a reset */

typedef struct {
    size_t n, z, c, unit;
    uint8_t *now, *last;           /* all blocks: as the drives show them, and as they would after a cut that loses the cache */
    uint32_t *pointer, *durable;   /* likewise */
    uint8_t offline[8 * 1024];     /* by drive and zone; nothing may be read from such a zone or stored there, and its pointer is any number */
    ram_store log[1 << 16];
    size_t logged;
    uint64_t left;                 /* stores and flushes until the power is cut */
    void (*shown)(void);           /* called behind each store; may be NULL */
} ram;

static void *ram_memory(size_t n) {
    void *p = calloc(n, 1);
    if (p == NULL) { fputs("not enough memory\n", stderr); exit(2); }
    return p;
}

static size_t ram_at(const ram *r, size_t drive, size_t zone, size_t block) { return ((drive * r->z + zone) * r->c + block) * r->unit; }

static int ram_report(void *who, size_t drive, uint8_t *pointers) {
    ram *r = who;
    for (size_t z = 0; z < r->z; z++)
        for (size_t i = 0; i < 4; i++) pointers[4 * z + i] = (uint8_t)(r->pointer[drive * r->z + z] >> (24 - 8 * i));
    return 0;
}

static void ram_good(const ram *r, size_t drive, size_t zone) {
    if (r->offline[drive * r->z + zone] != 0) { printf("zone %zu of drive %zu is offline\n", zone, drive); exit(1); }
}

static int ram_offline(void *who, size_t drive, uint8_t *list) {
    ram *r = who;
    memcpy(list, r->offline + drive * r->z, r->z);
    return 0;
}

static int ram_read(void *who, size_t drive, size_t zone, size_t block, size_t blocks, uint8_t *bytes) {
    ram *r = who;
    ram_good(r, drive, zone);
    memcpy(bytes, r->now + ram_at(r, drive, zone, block), blocks * r->unit);
    return 0;
}

static int ram_log(ram *r, size_t drive, size_t zone, size_t block, const uint8_t *bytes) {
    if (r->left == 0 || r->logged == sizeof r->log / sizeof *r->log) return -1;
    r->left--;
    ram_store *s = &r->log[r->logged++];
    s->drive = drive, s->zone = zone, s->block = block, s->bytes = NULL;
    if (bytes != NULL) s->bytes = memcpy(ram_memory(r->unit), bytes, r->unit);
    return 0;
}

static int ram_put(void *who, size_t drive, size_t zone, size_t block, const uint8_t *bytes) {
    ram *r = who;
    ram_good(r, drive, zone);
    if (block != r->pointer[drive * r->z + zone] || block >= r->c) { printf("a put at block %zu, and the pointer is another\n", block); exit(1); }
    if (ram_log(r, drive, zone, block, bytes) != 0) return -1;
    memcpy(r->now + ram_at(r, drive, zone, block), bytes, r->unit);
    r->pointer[drive * r->z + zone]++;
    if (r->shown != NULL) r->shown();
    return 0;
}

static int ram_reset(void *who, size_t drive, size_t zone) {
    ram *r = who;
    ram_good(r, drive, zone);
    if (ram_log(r, drive, zone, 0, NULL) != 0) return -1;
    r->pointer[drive * r->z + zone] = 0;
    if (r->shown != NULL) r->shown();
    return 0;
}

/* one store of the cache becomes durable */
static void ram_lasts(ram *r, const ram_store *s) {
    size_t at = s->drive * r->z + s->zone;
    if (s->bytes != NULL) memcpy(r->last + ram_at(r, s->drive, s->zone, s->block), s->bytes, r->unit);
    r->durable[at] = s->bytes != NULL ? (uint32_t)s->block + 1 : 0;
}

static int ram_flush(void *who, size_t drive) {
    ram *r = who;
    size_t kept = 0;
    if (r->left == 0) return -1;
    r->left--;
    for (size_t i = 0; i < r->logged; i++) {
        if (r->log[i].drive != drive) { r->log[kept++] = r->log[i]; continue; }
        ram_lasts(r, &r->log[i]);
        free(r->log[i].bytes);
    }
    r->logged = kept;
    return 0;
}

static sorgizhed_drives ram_drives(ram *r) {
    sorgizhed_drives d = {r, NULL, ram_report, ram_read, ram_put, ram_reset, ram_flush, ram_offline};
    return d;
}

static void ram_make(ram *r, const sorgizhed_box *x) {
    memset(r, 0, sizeof *r);
    r->n = x->n, r->z = x->z, r->unit = x->b + 20, r->c = sorgizhed_image_length(SORGIZHED_PARAMETERS(x)) / (x->n * x->z * r->unit);
    r->now = ram_memory(r->n * r->z * r->c * r->unit), r->last = ram_memory(r->n * r->z * r->c * r->unit);
    r->pointer = ram_memory(r->n * r->z * sizeof *r->pointer), r->durable = ram_memory(r->n * r->z * sizeof *r->durable);
    r->left = UINT64_MAX;
    for (size_t i = 0; x->offline != NULL && i < r->n * r->z; i++)
        if ((r->offline[i] = x->offline[i]) != 0) r->pointer[i] = r->durable[i] = (uint32_t)((i + 1) * 2654435769u);
}

static void ram_free(ram *r) {
    for (size_t i = 0; i < r->logged; i++) free(r->log[i].bytes);
    free(r->now), free(r->last), free(r->pointer), free(r->durable);
}

#endif
