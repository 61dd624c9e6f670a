/* Power cuts. An array works on drives with a volatile cache; at random points the power is cut, and of what was not flushed a random part lasts. Each
 * time a restart must not be refused, and must read at every address a block that was sent there, with the stamp of that send, no earlier than the newest that
 * was told acknowledged, and what the finished restart before it read if nothing was sent between. Drives are lost and rebuilt too.
 *
 *     power CUTS           drives in memory: zone by zone a first part lasts
 *     power CUTS FOLDER    drives as files in FOLDER (which must not be there): any sectors of 512 bytes last that were not synchronized
 *
 * Behind that the same with flushes taken out, one kind after the other: it must fail. */
#define _DEFAULT_SOURCE 1
#include <fcntl.h>
#include <inttypes.h>
#include <sys/mman.h>
#include <sys/stat.h>
#include <unistd.h>

#include "ram.h"

static int without; /* the kinds of flush that are left out */
#define BARRIER(why) (!(without & (why)))
#include "../../host/array.c"

static ssize_t traced_pwrite(int file, const void *p, size_t n, off_t at);
static int traced_fdatasync(int file);
static int traced_fsync(int file);
static int traced_renameat(int from, const char *old, int to, const char *new);
#define pwrite traced_pwrite
#define fdatasync traced_fdatasync
#define fsync traced_fsync
#define renameat traced_renameat
#include "../../host/files.c"
#undef pwrite
#undef fdatasync
#undef fsync
#undef renameat

enum { SYNC = 32 }; /* taken out: the file's own synchronizing */
enum { MOST_ADDRESSES = 64, MOST_SENDS = 1 << 20 };

static uint64_t seed;

static uint64_t chance(uint64_t below) {
    seed = seed * UINT64_C(6364136223846793005) + UINT64_C(1442695040888963407);
    return (seed >> 33) % below;
}

/* ---- drives in memory */

static ram memory;

/* The power is cut: of each zone's stores in the cache a first part lasts, as long as chance says. */
static void ram_cut(ram *r) {
    size_t zones = r->n * r->z;
    uint64_t *left = ram_memory(zones * sizeof *left);
    for (size_t i = 0; i < r->logged; i++) left[r->log[i].drive * r->z + r->log[i].zone]++;
    for (size_t i = 0; i < zones; i++) left[i] = chance(3) == 0 ? left[i] : chance(3) == 0 ? 0 : chance(left[i] + 1);
    for (size_t i = 0; i < r->logged; i++) {
        uint64_t *k = &left[r->log[i].drive * r->z + r->log[i].zone];
        if (*k > 0) ram_lasts(r, &r->log[i]), --*k;
        free(r->log[i].bytes);
    }
    free(left);
    r->logged = 0, r->left = UINT64_MAX;
    memcpy(r->now, r->last, zones * r->c * r->unit), memcpy(r->pointer, r->durable, zones * sizeof *r->pointer);
}

/* a drive breaks: any bytes, any pointers */
static void ram_break(ram *r, size_t drive) {
    size_t from = ram_at(r, drive, 0, 0), n = r->z * r->c * r->unit;
    for (size_t i = 0; i < n; i++) r->now[from + i] = r->last[from + i] = (uint8_t)chance(256);
    for (size_t z = 0; z < r->z; z++) r->pointer[drive * r->z + z] = r->durable[drive * r->z + z] = (uint32_t)chance(r->c + 1);
}

/* ---- drives as files: what each file holds for sure, and the sectors written since it was last synchronized */

typedef struct { size_t drive; off_t at; uint8_t bytes[512]; } sector;

static sorgizhed_files files;
static uint8_t *sure[8];
static sector pending[1 << 14];
static size_t pendings;
static char marks[256];                 /* what the file 'drives' holds for sure */
static int draft_sure;                  /* the file that is to take its place is synchronized */
static uint64_t file_left = UINT64_MAX; /* writes, renamings and synchronizations until the power is cut */

/* the power is cut now */
static int cut_here(void) {
    if (file_left-- > 0) return 0;
    file_left = 0, errno = EIO;
    return 1;
}

static size_t drive_of(int file) {
    size_t d = 0;
    while (d < 8 && files.file[d] != file) d++;
    return d;
}

/* Every sector that a write touches waits, as it is then. */
static ssize_t traced_pwrite(int file, const void *p, size_t n, off_t at) {
    size_t d = drive_of(file);
    if (cut_here()) return -1;
    draft_sure = 0;
    ssize_t k = pwrite(file, p, n, at);
    for (off_t s = at / 512 * 512; d < 8 && sure[d] != NULL && k > 0 && s < at + k; s += 512) {
        sector *x = &pending[pendings++];
        if (pendings == sizeof pending / sizeof *pending) { puts("too many sectors wait"); exit(2); }
        x->drive = d, x->at = s;
        memset(x->bytes, 0, 512);
        if (pread(file, x->bytes, 512, s) < 0) exit(2);
    }
    return k;
}

static int traced_fdatasync(int file) {
    size_t d = drive_of(file), kept = 0;
    if (cut_here()) return -1;
    for (size_t i = 0; i < pendings && !(without & SYNC); i++) {
        if (pending[i].drive != d) pending[kept++] = pending[i];
        else memcpy(sure[d] + pending[i].at, pending[i].bytes, 512);
    }
    if (!(without & SYNC)) pendings = kept;
    return 0; /* the test's disk has no need of it */
}

/* of the folder: the last renaming lasts; of another file: its bytes do */
static int traced_fsync(int file) {
    if (cut_here()) return -1;
    if (file == files.folder && !(without & SYNC)) read_file(&files, "drives", marks, sizeof marks);
    draft_sure = 1;
    return 0;
}

static int traced_renameat(int from, const char *old, int to, const char *new) {
    if (cut_here()) return -1;
    if (!draft_sure) { puts("a file takes the place of another and is not durable"); exit(1); }
    return renameat(from, old, to, new);
}

static size_t sure_length(size_t d) { return ((size_t)file_length(&files, d) + 511) / 512 * 512; }

/* what the files hold now is sure */
static void take_sure(void) {
    for (size_t d = 0; d < files.box.n; d++) {
        free(sure[d]), sure[d] = NULL;
        if (files.file[d] < 0) continue;
        sure[d] = ram_memory(sure_length(d));
        if (!read_at(files.file[d], sure[d], (size_t)file_length(&files, d), 0)) exit(2);
    }
    pendings = 0;
    read_file(&files, "drives", marks, sizeof marks);
}

/* The power is cut: of the sectors that wait any may last, in one of several manners of choosing; and a renaming may. */
static void files_cut(void) {
    uint64_t manner = chance(4);
    file_left = UINT64_MAX;
    for (size_t i = 0; i < pendings; i++) {
        int pointers = pending[i].at < (off_t)(SECTOR + pointer_bytes(&files));
        int lasts = manner == 0 ? chance(2) == 0 : manner == 1 ? !pointers : manner == 2 ? pointers : chance(8) != 0;
        if (lasts) memcpy(sure[pending[i].drive] + pending[i].at, pending[i].bytes, 512);
    }
    for (size_t d = 0; d < files.box.n; d++)
        if (sure[d] != NULL && pwrite(files.file[d], sure[d], (size_t)file_length(&files, d), 0) != (ssize_t)file_length(&files, d)) exit(2);
    pendings = 0;
    int file = chance(2) ? openat(files.folder, "drives", O_WRONLY | O_TRUNC) : -1;
    if (file >= 0 && (write(file, marks, strlen(marks)) < 0 || close(file) != 0)) exit(2);
}

/* ---- one array on either, through its cuts */

static const char *folder; /* NULL: drives in memory */
static sorgizhed_array box;
static size_t missing;
static uint64_t version, acknowledged[MOST_ADDRESSES], read_last[MOST_ADDRESSES], sent_last[MOST_ADDRESSES], told_in_all;
static uint64_t stamp_of[MOST_SENDS]; /* by version; 0: not sent */
static uint8_t dead[8 * 16]; /* offline zones of some of the arrays */
static int sent_since, cuts, restarts_cut, rebuilds_cut, lost, refused_restarts, stamps_read;

static void scan(uint64_t address, uint64_t number, size_t b, uint8_t *out) {
    uint64_t x = address * UINT64_C(0x9e3779b97f4a7c15) ^ number;
    for (size_t i = 16; i < b; i++) x = x * UINT64_C(6364136223846793005) + 1, out[i] = (uint8_t)(x >> 56);
    put_number(out, 8, address), put_number(out + 8, 8, number);
}

static void note(void *who, uint64_t address, uint64_t number) {
    (void)who, told_in_all++;
    if (acknowledged[address] < number) acknowledged[address] = number;
}

/* the cut comes after so many stores and flushes */
static void set_cut(uint64_t left) { memory.left = left, file_left = left; }

static int open_box(const sorgizhed_box *v) {
    if (folder != NULL && !sorgizhed_files_open(&files, folder)) return 0;
    sorgizhed_drives d = folder != NULL ? files.drives : ram_drives(&memory);
    if (folder != NULL) take_sure(), missing = files.missing;
    if (sorgizhed_array_open(&box, v, &d, missing).kind != SORGIZHED_OPENED) exit(2);
    box.told = note;
    return 1;
}

/* a drive goes; with files the power may be cut on the way, and the mark says whether it is gone */
static void lose_one(const sorgizhed_box *v) {
    size_t drive = (size_t)chance(v->n);
    if (folder == NULL) { ram_break(&memory, missing = drive); return; }
    set_cut(chance(3) == 0 ? chance(6) : UINT64_MAX);
    if (!sorgizhed_files_take_away(&files, drive)) cuts++, files_cut();
    set_cut(UINT64_MAX);
}

/* the power is cut and comes back; now and then a drive is gone. 0 where the files are not taken any more */
static int power_cut(const sorgizhed_box *v, int may_break) {
    cuts++;
    sorgizhed_array_shut(&box);
    if (folder != NULL) files_cut();
    else ram_cut(&memory);
    set_cut(UINT64_MAX);
    if (may_break && missing == SORGIZHED_NO_DRIVE && chance(6) == 0) lose_one(v);
    if (folder != NULL) sorgizhed_files_close(&files);
    if (open_box(v)) return 1;
    refused_restarts++;
    return 0;
}

/* every address reads as the promise says */
static void look(const sorgizhed_box *v) {
    uint8_t block[4096], want[4096];
    for (uint64_t i = 0; i < v->l; i++) {
        uint64_t had = 0;
        sorgizhed_answer first = sorgizhed_array_read(&box, i), second = sorgizhed_array_fill(&box, i, block);
        if (second.kind != SORGIZHED_FILLED || sorgizhed_stamp(first) != sorgizhed_stamp(second)) { lost++; continue; }
        if (first.kind != SORGIZHED_NEVER) {
            had = number_at(block + 8, 8);
            scan(i, had, v->b, want);
            if (memcmp(block, want, v->b) != 0 || had >= MOST_SENDS || sorgizhed_stamp(first) != stamp_of[had]) { lost++; continue; }
            stamps_read++;
        } else if (sorgizhed_stamp(first) != 0) lost++;
        if (had < acknowledged[i] || had > sent_last[i] || (!sent_since && had != read_last[i])) lost++;
        read_last[i] = had;
    }
    sent_since = 0;
}

/* restarts until one is finished, cut now and then; 0 where one is refused */
static int start(const sorgizhed_box *v) {
    for (;;) {
        set_cut(chance(3) == 0 ? chance(40) : UINT64_MAX);
        sorgizhed_answer r = sorgizhed_array_restart(&box, missing);
        if (r.kind == SORGIZHED_RESTARTED) { set_cut(UINT64_MAX); look(v); return 1; }
        if (r.kind != SORGIZHED_DRIVE_FAILED) { refused_restarts++; return 0; }
        restarts_cut++;
        if (!power_cut(v, 1)) return 0;
    }
}

/* the missing drive is rebuilt, with cuts; 0 where something is refused */
static int mend(const sorgizhed_box *v) {
    while (missing != SORGIZHED_NO_DRIVE) {
        if (folder != NULL && !sorgizhed_files_blank(&files, missing)) exit(2);
        if (folder != NULL) take_sure();
        set_cut(chance(2) == 0 ? chance(60) : UINT64_MAX);
        sorgizhed_answer r = sorgizhed_array_rebuild(&box, missing);
        int rebuilt = r.kind == SORGIZHED_REBUILT, good = 1;
        if (!rebuilt && r.kind != SORGIZHED_DRIVE_FAILED) { refused_restarts++; return 0; }
        if (rebuilt) set_cut(chance(3) == 0 ? chance(6) : UINT64_MAX);
        if (rebuilt && (folder == NULL || sorgizhed_files_whole(&files))) {
            missing = SORGIZHED_NO_DRIVE, set_cut(UINT64_MAX);
            if (chance(2) == 0) good = power_cut(v, 1);
        } else rebuilds_cut++, good = power_cut(v, 0);
        if (!good || !start(v)) return 0;
    }
    return 1;
}

/* random work until the power is cut */
static void work(const sorgizhed_box *v) {
    uint8_t block[4096];
    set_cut(chance(400));
    while (!box.over) {
        uint64_t k = chance(100), address = chance(chance(3) ? v->l / 2 + 1 : v->l);
        if (k < 60) {
            if (++version == MOST_SENDS) { puts("too many writes"); exit(2); }
            scan(address, version, v->b, block);
            sorgizhed_answer r = chance(2) ? sorgizhed_array_write(&box, address, block, version) : sorgizhed_array_send(&box, address, block, version);
            stamp_of[version] = sorgizhed_stamp(r);
            if (r.kind == SORGIZHED_SENT || r.kind == SORGIZHED_DRIVE_FAILED) sent_last[address] = version, sent_since = 1;
        } else if (k < 85 && sorgizhed_array_waiting(&box) > 0) sorgizhed_array_land_one(&box, (size_t)chance(sorgizhed_array_waiting(&box)));
        else if (k < 86) sorgizhed_array_close(&box);
        else if (k < 88) sorgizhed_array_write_nothing(&box, chance(8) ? address : v->l);
        else if (k < 92) sorgizhed_array_reclaim(&box);
        else if (k < 94) sorgizhed_array_settle(&box);
        else if (k < 95) sorgizhed_array_end(&box, address);
        else if (k < 97) sorgizhed_array_room(&box, 2 + (size_t)chance(2));
        else sorgizhed_array_flush(&box);
    }
}

static void begin(const sorgizhed_box *v) {
    version = 0, missing = SORGIZHED_NO_DRIVE, sent_since = 1;
    memset(acknowledged, 0, sizeof acknowledged), memset(read_last, 0, sizeof read_last), memset(sent_last, 0, sizeof sent_last);
    if (folder == NULL) ram_make(&memory, v);
    else if (!sorgizhed_files_create(&files, folder, v)) { printf("%s\n", files.error); exit(2); }
    if (!open_box(v)) { printf("%s\n", files.error); exit(2); }
}

static void end(void) {
    sorgizhed_array_shut(&box);
    if (folder == NULL) { ram_free(&memory); return; }
    for (size_t d = 0; d < 8; d++) free(sure[d]), sure[d] = NULL;
    empty_folder(&files, folder);
    sorgizhed_files_close(&files);
}

/* arrays one after the other until so many cuts are made or a block is lost; how many blocks were lost and restarts refused, the first of them if it is enough */
static int trial(int most, int taken_out, int first) {
    static const sorgizhed_box shapes[] = {{.n = 3, .b = 128, .z = 4, .s = 4, .g = 2, .l = 8}, {.n = 4, .b = 512, .z = 6, .s = 5, .g = 1, .l = 24},
                                           {.n = 3, .b = 128, .z = 5, .s = 24, .g = 24, .l = 40}, {.n = 5, .b = 1024, .z = 6, .s = 3, .g = 3, .l = 16, .offline = dead},
                                           {.n = 3, .b = 512, .z = 9, .s = 6, .g = 4, .l = 32, .offline = dead}};
    for (size_t i = 0; i < sizeof dead; i++) dead[i] = (i * 5 + 2) % 11 == 0; /* at most two of six zones on a drive, and not the same ones */
    without = taken_out, cuts = restarts_cut = rebuilds_cut = lost = refused_restarts = stamps_read = 0, told_in_all = 0;
    for (uint64_t k = 1; cuts < most && lost == 0 && !(first && refused_restarts); k++) {
        const sorgizhed_box *v = &shapes[k % 5];
        seed = 2 * k + 1;
        begin(v);
        int good = start(v);
        for (int i = 0; i < 60 && good && lost == 0; i++) {
            work(v);
            good = power_cut(v, 1) && start(v) && mend(v);
        }
        end();
    }
    return lost + refused_restarts;
}

int main(int n, char **words) {
    /* what is taken out so that it must fail: on drives in memory, and in files */
    static const struct { int kinds, in_files; const char *name; } out[] = {{HEADERS, 0, "before headers"}, {RESETS, 0, "before resets"}, {WORDS, 0, "before what the host is told"},
        {HEADERS | CHUNKS | FOOTERS | RESETS | WORDS, 0, "everywhere"}, {SYNC, 1, "in the files"}, {WORDS, 1, "before what the host is told"}};
    int most = n > 1 ? atoi(words[1]) : 0, passed = 0, failed = 0;
    if (most <= 0 || n > 3) { fputs("usage: power CUTS [FOLDER]\n", stderr); return 2; }
    folder = n > 2 ? words[2] : NULL;
    failed += trial(most, 0, 0), passed += cuts;
    printf("%d power cuts, %d in restarts, %d in rebuilds; %" PRIu64 " writes acknowledged, %d lost, %d restarts refused; %d blocks read with the stamp of their send\n", cuts, restarts_cut,
           rebuilds_cut, told_in_all, lost, refused_restarts, stamps_read);
    failed += stamps_read < most;
    for (size_t i = 0; i < sizeof out / sizeof *out; i++) {
        if (out[i].in_files != (folder != NULL)) continue;
        int broken = trial(20000, out[i].kinds, 1); /* to its first failure */
        printf("without the flushes %s: %d lost, %d refused after %d cuts\n", out[i].name, lost, refused_restarts, cuts);
        passed += broken != 0, failed += broken == 0;
    }
    printf("%d passed, %d failed\n", passed, failed);
    return failed != 0;
}
