/* soak and verify: blocks with their address and a version that only grows, and a diary of those that were acknowledged. */
#define _XOPEN_SOURCE 700
#include <errno.h>
#include <fcntl.h>
#include <inttypes.h>
#include <stdio.h>
#include <stdlib.h>
#include <string.h>
#include <time.h>
#include <unistd.h>

#include "box.h"
#include "bytes.h"

#define SCAN UINT64_C(0x535a5343414e0001)

static uint64_t random_state;

static uint64_t chance(uint64_t below) {
    random_state = random_state * UINT64_C(6364136223846793005) + UINT64_C(1442695040888963407);
    return (random_state >> 33) % below;
}

static void scan_block(const box *x, uint64_t address, uint64_t version, uint8_t *out) {
    uint64_t y = address * UINT64_C(0x9e3779b97f4a7c15) ^ version;
    put_number(out, 8, SCAN), put_number(out + 8, 8, address), put_number(out + 16, 8, version);
    for (size_t i = 24; i < x->files.box.b; i++) y = y * UINT64_C(6364136223846793005) + 1, out[i] = (uint8_t)(y >> 56);
}

/* ---- soak */

static int diary = -1;

/* a line that the diary does not take ends the run: nothing more is to be acknowledged */
static void note(void *who, uint64_t address, uint64_t version) {
    char line[64];
    int n = snprintf(line, sizeof line, "%" PRIu64 " %" PRIu64 "\n", address, version);
    (void)who;
    if (diary < 0) return;
    errno = ENOSPC; /* where only a part of the line found room */
    if (write(diary, line, (size_t)n) != n) { fprintf(stderr, "diary: %s\n", strerror(errno)); exit(3); }
}

/* a write; now and then some landings in any order, a flush, or an end of all that is under way */
static sorgizhed_answer soak_step(box *x, uint64_t address, uint64_t version) {
    uint8_t block[4096];
    sorgizhed_array *a = &x->array;
    scan_block(x, address, version, block);
    sorgizhed_answer r = sorgizhed_array_send(a, address, block, version);
    for (uint64_t k = chance(12) ? 0 : chance(40); k > 0 && sorgizhed_is_result(r) && sorgizhed_array_waiting(a) > 0; k--)
        r = sorgizhed_array_land_one(a, (size_t)chance(sorgizhed_array_waiting(a)));
    if (sorgizhed_is_result(r) && chance(30) == 0) r = sorgizhed_array_flush(a);
    if (sorgizhed_is_result(r) && chance(200) == 0) r = sorgizhed_array_settle(a);
    return r;
}

static void soak_line(FILE *out, const sorgizhed_array *a) {
    fprintf(out, "%" PRIu64 " writes, %" PRIu64 " acknowledged, %" PRIu64 " blocks copied, %" PRIu64 " segments reset\n", a->writes, a->acknowledged, a->copied, a->resets);
}

int soak(box *x, uint64_t seconds, const char *name, uint64_t first) {
    struct timespec now;
    if (name != NULL && (diary = open(name, O_WRONLY | O_CREAT | O_APPEND, 0666)) < 0) { fprintf(stderr, "%s: %s\n", name, strerror(errno)); return 0; }
    clock_gettime(CLOCK_REALTIME, &now);
    uint64_t version = (uint64_t)now.tv_sec * 1000000 + (uint64_t)now.tv_nsec / 1000, all = x->files.box.l - first, hot = all < 64 ? all : all / 4;
    random_state = 2 * version + 1;
    x->array.told = note;
    for (time_t end = now.tv_sec + (time_t)seconds, shown = now.tv_sec, t; (t = time(NULL)) < end;) {
        sorgizhed_answer r = soak_step(x, first + chance(chance(4) ? hot : all), ++version);
        if (!sorgizhed_is_result(r)) return say(x, "soak", r);
        if (t != shown) soak_line(stderr, &x->array), shown = t;
    }
    sorgizhed_answer r = sorgizhed_array_settle(&x->array);
    if (r.kind != SORGIZHED_DURABLE) return say(x, "soak", r);
    soak_line(stdout, &x->array);
    return diary < 0 || close(diary) == 0;
}

/* ---- verify */

typedef struct { uint64_t stamp, version; } seen;

/* stamp and version that an address reads, 0 if it was never written; what lies there must be a block that soak wrote */
static int read_version(box *x, uint64_t address, seen *out) {
    uint8_t block[4096], want[4096];
    out->stamp = out->version = 0;
    if (sorgizhed_array_read(&x->array, address).kind == SORGIZHED_NEVER) return 1;
    sorgizhed_answer r = sorgizhed_array_fill(&x->array, address, block);
    if (r.kind != SORGIZHED_FILLED) return say(x, "read", r);
    out->stamp = sorgizhed_stamp(r), out->version = number_at(block + 16, 8);
    scan_block(x, address, out->version, want);
    if (memcmp(block, want, x->files.box.b) == 0) return 1;
    fprintf(stderr, "address %" PRIu64 " holds a block that was never written there\n", address);
    return 0;
}

/* The newest version of each address in a diary. A last line without its end was being written when the run ended, and does not count. */
static int read_diary(const box *x, const char *name, uint64_t *newest, uint64_t *lines) {
    char line[64], behind;
    FILE *f = fopen(name, "r");
    if (f == NULL) { fprintf(stderr, "%s: %s\n", name, strerror(errno)); return 0; }
    *lines = 0;
    while (fgets(line, sizeof line, f) != NULL) {
        uint64_t address, version;
        if (strchr(line, '\n') == NULL && strlen(line) < sizeof line - 1 && feof(f)) break;
        int numbers = sscanf(line, "%" SCNu64 " %" SCNu64 "%c", &address, &version, &behind);
        if (*line < '0' || *line > '9' || numbers != 3 || behind != '\n' || address >= x->files.box.l) {
            fprintf(stderr, "%s is no diary of this array: line %" PRIu64 " is not an address and a version\n", name, *lines + 1);
            fclose(f);
            return 0;
        }
        ++*lines;
        if (newest[address] < version) newest[address] = version;
    }
    int bad = ferror(f);
    fclose(f);
    if (bad) fprintf(stderr, "%s cannot be read\n", name);
    return !bad;
}

static int by_stamp(const void *p, const void *q) {
    const seen *a = p, *b = q;
    return a->stamp < b->stamp ? -1 : a->stamp > b->stamp;
}

/* of any two blocks the one with the greater stamp was sent later, so its version is the greater one */
static int in_order(seen *blocks, size_t n) {
    qsort(blocks, n, sizeof *blocks, by_stamp);
    for (size_t i = 1; i < n; i++)
        if (blocks[i].stamp == blocks[i - 1].stamp || blocks[i].version <= blocks[i - 1].version) {
            fprintf(stderr, "WRONG STAMP: version %" PRIu64 " has stamp %" PRIu64 ", and %" PRIu64 " has %" PRIu64 "\n", blocks[i - 1].version, blocks[i - 1].stamp, blocks[i].version, blocks[i].stamp);
            return 0;
        }
    return 1;
}

/* every address reads the newest version that the diary says was acknowledged, or a newer one */
static int hold_against(box *x, const uint64_t *newest, uint64_t lines, seen *blocks) {
    uint64_t kept = 0, lost = 0;
    for (uint64_t i = 0; i < x->files.box.l; i++) {
        seen *s = &blocks[kept];
        if (newest[i] == 0) continue;
        if (!read_version(x, i, s)) return 0;
        show_progress("verify, addresses", i, x->files.box.l);
        if (s->version >= newest[i]) { kept++; continue; }
        lost++;
        fprintf(stderr, "LOST: address %" PRIu64 " reads version %" PRIu64 ", and %" PRIu64 " was acknowledged\n", i, s->version, newest[i]);
    }
    printf("%" PRIu64 " acknowledged writes in the diary; %" PRIu64 " addresses read their newest, %" PRIu64 " lost\n", lines, kept, lost);
    return in_order(blocks, (size_t)kept) && lost == 0;
}

int verify(box *x, const char *name) {
    uint64_t lines, *newest = calloc(x->files.box.l, sizeof *newest);
    seen *blocks = calloc(x->files.box.l, sizeof *blocks);
    int ok = newest != NULL && blocks != NULL;
    if (!ok) fprintf(stderr, "not enough memory\n");
    ok = ok && read_diary(x, name, newest, &lines) && hold_against(x, newest, lines, blocks);
    free(newest), free(blocks);
    return ok;
}
