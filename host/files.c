/* Drives as files. A drive's file has, from a sector's begin each: a text that says which drive of which array it is; the write pointers; a byte for each zone, not 0
 * where the zone is offline; the blocks.
 * A block goes to the file when it is put, above the pointer that the file shows. A flush makes the blocks durable, then writes the pointers, then makes
 * these durable: a pointer on disk never covers a block that is not, and a sector of pointers is the old or the new one. */
#define _DEFAULT_SOURCE 1
#include "sorgizhed_host.h"

#include <errno.h>
#include <fcntl.h>
#include <inttypes.h>
#include <stdarg.h>
#include <stdio.h>
#include <stdlib.h>
#include <string.h>
#include <sys/mman.h>
#include <sys/stat.h>
#include <unistd.h>

#include "bytes.h"
#include "layout.h"

enum { SECTOR = 512, ALIGNED = 65536 };

/* ---- places: a drive's blocks lie in its file as in the image, so that pages of the one can be mapped as pages of the other */

static size_t unit(const sorgizhed_files *f) { return f->box.b + SPARE; }

static size_t drive_bytes(const sorgizhed_files *f) { return f->image_length / f->box.n; }

static size_t zone_bytes(const sorgizhed_files *f) { return drive_bytes(f) / f->box.z; }

static size_t pointer_bytes(const sorgizhed_files *f) { return (4 * f->box.z + SECTOR - 1) / SECTOR * SECTOR; }

static size_t list_bytes(const sorgizhed_files *f) { return (f->box.z + SECTOR - 1) / SECTOR * SECTOR; }

static off_t list_at(const sorgizhed_files *f) { return (off_t)(SECTOR + pointer_bytes(f)); }

static off_t blocks_at(const sorgizhed_files *f, size_t drive) {
    size_t before = (SECTOR + pointer_bytes(f) + list_bytes(f) + ALIGNED - 1) / ALIGNED * ALIGNED;
    return (off_t)(before + drive * drive_bytes(f) % ALIGNED);
}

static off_t file_length(const sorgizhed_files *f, size_t drive) { return blocks_at(f, drive) + (off_t)drive_bytes(f); }

static uint8_t *pointer_of(const sorgizhed_files *f, uint8_t *table, size_t drive, size_t zone) { return table + drive * pointer_bytes(f) + 4 * zone; }

/* ---- words */

static int complain(sorgizhed_files *f, const char *form, ...) {
    va_list words;
    va_start(words, form);
    vsnprintf(f->error, sizeof f->error, form, words);
    va_end(words);
    return 0;
}

static int complain_errno(sorgizhed_files *f, const char *what) { return complain(f, "%s: %s", what, strerror(errno)); }

/* what a drive's function returns where the file did not obey */
static int drive_fails(sorgizhed_files *f, const char *name) {
    complain_errno(f, name);
    return -1;
}

static const char *drive_name(size_t drive) {
    static const char *const names[] = {"drive0", "drive1", "drive2", "drive3", "drive4", "drive5", "drive6", "drive7"};
    return names[drive];
}

/* ---- whole reads and writes */

static int write_at(int file, const uint8_t *p, size_t n, off_t at) {
    while (n > 0) {
        ssize_t k = pwrite(file, p, n, at);
        if (k < 0 && errno == EINTR) continue;
        if (k <= 0) return 0;
        p += k, n -= (size_t)k, at += k;
    }
    return 1;
}

static int read_at(int file, uint8_t *p, size_t n, off_t at) {
    while (n > 0) {
        ssize_t k = pread(file, p, n, at);
        if (k < 0 && errno == EINTR) continue;
        if (k <= 0) return 0;
        p += k, n -= (size_t)k, at += k;
    }
    return 1;
}

/* a descriptor above those of standard input, output and error */
static int open_above(int folder, const char *name, int flags) {
    int file = openat(folder, name, flags | O_CLOEXEC, 0666);
    if (file < 0 || file > 2) return file;
    int above = fcntl(file, F_DUPFD_CLOEXEC, 3), why = errno;
    close(file);
    errno = why;
    return above;
}

/* a small file, whole and durable, or as it was */
static int write_file(sorgizhed_files *f, const char *name, const char *text) {
    char draft[32];
    snprintf(draft, sizeof draft, "%s.new", name);
    int file = open_above(f->folder, draft, O_WRONLY | O_CREAT | O_TRUNC);
    if (file < 0) return complain_errno(f, draft);
    int ok = write_at(file, (const uint8_t *)text, strlen(text), 0) && fsync(file) == 0;
    ok = close(file) == 0 && ok;
    if (!ok || renameat(f->folder, draft, f->folder, name) != 0 || fsync(f->folder) != 0) return complain_errno(f, name);
    return 1;
}

/* a small file's text; 0 where it is not there or too long */
static int read_file(sorgizhed_files *f, const char *name, char *text, size_t room) {
    int file = open_above(f->folder, name, O_RDONLY);
    if (file < 0) return complain_errno(f, name);
    ssize_t k = read(file, text, room - 1);
    close(file);
    if (k < 0) return complain_errno(f, name);
    text[k] = 0;
    return 1;
}

/* ---- identities: a drive's file has one, and the file 'drives' lists those that belong to the array, '-' for a missing drive */

static int new_identity(sorgizhed_files *f, size_t drive) {
    uint8_t bytes[8];
    if (getentropy(bytes, sizeof bytes) != 0) return complain_errno(f, "a random number");
    snprintf(f->identity[drive], sizeof f->identity[drive], "%016" PRIx64, number_at(bytes, 8));
    return 1;
}

static int write_drives(sorgizhed_files *f) {
    char text[8 * 18 + 2];
    size_t used = 0;
    for (size_t d = 0; d < f->box.n; d++) used += (size_t)snprintf(text + used, sizeof text - used, "%s%s", d ? " " : "", d == f->missing ? "-" : f->identity[d]);
    snprintf(text + used, sizeof text - used, "\n");
    return write_file(f, "drives", text);
}

static int read_drives(sorgizhed_files *f) {
    char text[256], *p = text, *next;
    f->missing = SORGIZHED_NO_DRIVE;
    if (!read_file(f, "drives", text, sizeof text)) return 0;
    for (size_t d = 0; d < f->box.n; d++, p = next) {
        size_t n = strcspn(p, " \n");
        next = p + n + (p[n] != 0);
        int gone = n == 1 && *p == '-';
        if (p[n] != (d + 1 < f->box.n ? ' ' : '\n') || (!gone && (n != 16 || strspn(p, "0123456789abcdef") != 16)) || (gone && f->missing != SORGIZHED_NO_DRIVE))
            return complain(f, "the file 'drives' does not list the drives of this array");
        snprintf(f->identity[d], sizeof f->identity[d], "%.16s", gone ? "" : p);
        if (gone) f->missing = d;
    }
    return *p == 0 || complain(f, "the file 'drives' does not list the drives of this array");
}

/* ---- the file 'box': the six parameters, and a line with drive:zone of each offline zone */

/* room for the text of an array with so many drives and zones */
static size_t text_room(const sorgizhed_box *x) { return 256 + 12 * x->n * x->z; }

static void parameters_text(const sorgizhed_box *x, char *out, size_t room) { snprintf(out, room, "%zu %zu %zu %zu %zu %zu\n", SORGIZHED_PARAMETERS(x)); }

/* the text of the box, in memory that is to be freed; NULL where there is none */
static char *box_text(const sorgizhed_box *x) {
    size_t room = text_room(x), used;
    char *text = malloc(room);
    if (text == NULL) return NULL;
    parameters_text(x, text, room);
    used = strlen(text);
    used += (size_t)snprintf(text + used, room - used, "offline");
    for (size_t i = 0; i < x->n * x->z; i++)
        if (x->offline[i] != 0) used += (size_t)snprintf(text + used, room - used, " %zu:%zu", i / x->z, i % x->z);
    snprintf(text + used, room - used, "\n");
    return text;
}

/* a number up to most, and behind it the character */
static char *read_number(char *p, char behind, size_t most, size_t *out) {
    char *end;
    if (p == NULL || *p < '0' || *p > '9') return NULL;
    unsigned long long n = strtoull(p, &end, 10);
    *out = (size_t)n;
    return end - p < 20 && n <= most && *end == behind ? end + 1 : NULL;
}

static int read_numbers(char *text, sorgizhed_box *x, char **behind) {
    size_t *const v[6] = {&x->n, &x->b, &x->z, &x->s, &x->g, &x->l};
    for (int i = 0; i < 6; i++) text = read_number(text, i < 5 ? ' ' : '\n', SIZE_MAX / 2, v[i]);
    *behind = text;
    return text != NULL;
}

/* the line of offline zones, into the box's list */
static int read_list(char *p, sorgizhed_box *x) {
    size_t drive, zone;
    if (strncmp(p, "offline", 7) != 0) return 0;
    for (p += 7; *p == ' ';) {
        p = read_number(p + 1, ':', x->n - 1, &drive);
        if (p == NULL) return 0;
        char *end = p + strspn(p, "0123456789"), mark = *end;
        if (mark != ' ' && mark != '\n') return 0;
        if (read_number(p, mark, x->z - 1, &zone) == NULL) return 0;
        x->offline[drive * x->z + zone] = 1, p = end;
    }
    return strcmp(p, "\n") == 0;
}

/* the first sector of a drive's file */
static void drive_text(const sorgizhed_files *f, size_t drive, char out[SECTOR]) {
    char parameters[160];
    memset(out, 0, SECTOR);
    parameters_text(&f->box, parameters, sizeof parameters);
    snprintf(out, SECTOR, "sorgizhed, files 3\nparameters %sdrive %zu %s\n", parameters, drive, f->identity[drive]);
}

/* a new drive's file: all of its space is taken, its pointers are 0 */
static int make_drive(sorgizhed_files *f, size_t drive) {
    char text[SECTOR];
    const char *name = drive_name(drive);
    drive_text(f, drive, text);
    int file = open_above(f->folder, name, O_RDWR | O_CREAT | O_TRUNC);
    if (file < 0) return complain_errno(f, name);
    f->file[drive] = file;
    errno = posix_fallocate(file, 0, file_length(f, drive));
    if (errno != 0 || !write_at(file, (const uint8_t *)text, SECTOR, 0) || !write_at(file, f->box.offline + drive * f->box.z, f->box.z, list_at(f)) || fsync(file) != 0 || fsync(f->folder) != 0) return complain_errno(f, name);
    return 1;
}

/* ---- the drives' functions */

static int files_report(void *who, size_t drive, uint8_t *pointers) {
    sorgizhed_files *f = who;
    memcpy(pointers, pointer_of(f, f->pointers, drive, 0), 4 * f->box.z);
    return 0;
}

/* the drive's own word on its zones */
static int files_offline(void *who, size_t drive, uint8_t *list) {
    sorgizhed_files *f = who;
    return read_at(f->file[drive], list, f->box.z, list_at(f)) ? 0 : drive_fails(f, drive_name(drive));
}

static int flush_blocks(sorgizhed_files *f, size_t drive) {
    if (!f->wrote[drive]) return 1;
    f->wrote[drive] = 0;
    return fdatasync(f->file[drive]) == 0;
}

static int files_flush(void *who, size_t drive) {
    sorgizhed_files *f = who;
    int changed = 0;
    if (!flush_blocks(f, drive)) return drive_fails(f, drive_name(drive));
    for (size_t at = 0; at < pointer_bytes(f); at += SECTOR) {
        uint8_t *now = pointer_of(f, f->pointers, drive, 0) + at, *then = pointer_of(f, f->committed, drive, 0) + at;
        if (memcmp(now, then, SECTOR) == 0) continue;
        if (!write_at(f->file[drive], now, SECTOR, (off_t)(SECTOR + at))) return drive_fails(f, drive_name(drive));
        memcpy(then, now, SECTOR);
        changed = 1;
    }
    if (changed && fdatasync(f->file[drive]) != 0) return drive_fails(f, drive_name(drive));
    return 0;
}

/* the pages of a full zone are in the file: memory need not keep them */
static void let_go(const sorgizhed_files *f, size_t drive, size_t zone) {
    size_t page = (size_t)sysconf(_SC_PAGESIZE), from = drive * drive_bytes(f) + zone * zone_bytes(f), to = from + zone_bytes(f);
    size_t first = drive * drive_bytes(f) + page; /* the pages at a drive's ends are not mapped from its file */
    if (from < first) from = first;
    if (to > (drive + 1) * drive_bytes(f) - page) to = (drive + 1) * drive_bytes(f) - page;
    from = (from + page - 1) / page * page, to = to / page * page;
    if (drive_bytes(f) > 4 * page && from < to && drive != f->missing) madvise(f->image + from, to - from, MADV_DONTNEED);
}

static int files_put(void *who, size_t drive, size_t zone, size_t block, const uint8_t *bytes) {
    sorgizhed_files *f = who;
    /* where the zone was reset and the file does not show it yet, that comes first */
    if (number_at(pointer_of(f, f->committed, drive, zone), 4) > block && files_flush(f, drive) != 0) return -1;
    off_t at = blocks_at(f, drive) + (off_t)(zone * zone_bytes(f) + block * unit(f));
    if (!write_at(f->file[drive], bytes, unit(f), at)) return drive_fails(f, drive_name(drive));
    f->wrote[drive] = 1;
    put_number(pointer_of(f, f->pointers, drive, zone), 4, block + 1);
    if ((block + 1) * unit(f) == zone_bytes(f)) let_go(f, drive, zone);
    return 0;
}

static int files_reset(void *who, size_t drive, size_t zone) {
    sorgizhed_files *f = who;
    put_number(pointer_of(f, f->pointers, drive, zone), 4, 0);
    return 0;
}

/* ---- the folder */

static void begin_files(sorgizhed_files *f) {
    memset(f, 0, sizeof *f);
    f->folder = f->lock = -1, f->missing = SORGIZHED_NO_DRIVE;
    for (size_t d = 0; d < 8; d++) f->file[d] = -1;
}

/* the parameters in their ranges, and room for the list of offline zones */
static int set_parameters(sorgizhed_files *f, const sorgizhed_box *parameters) {
    f->box = *parameters;
    f->image_length = sorgizhed_image_length(SORGIZHED_PARAMETERS(&f->box));
    f->box.offline = f->image_length != 0 ? calloc(f->box.n, f->box.z) : NULL;
    return f->box.offline != NULL;
}

/* Whether the engine takes the list: four good zones on every drive, and addresses for the fewest. */
static int list_in_order(sorgizhed_files *f) {
    const sorgizhed_box *x = &f->box;
    size_t fewest = x->z;
    for (size_t d = 0; d < x->n; d++) {
        size_t good = 0;
        for (size_t z = 0; z < x->z; z++) good += x->offline[d * x->z + z] == 0;
        if (good < 4) return complain(f, "drive %zu has %zu good zones: four are needed", d, good);
        if (good < fewest) fewest = good;
    }
    size_t most = (fewest - 3) * x->s * (x->n - 1);
    return x->l <= most || complain(f, "%zu addresses are too many: with %zu good zones on each drive there are %zu at most", x->l, fewest, most);
}

/* the folder's files, each whole; the file of the parameters comes last */
static int fill_folder(sorgizhed_files *f) {
    for (size_t d = 0; d < f->box.n; d++)
        if (!new_identity(f, d) || !make_drive(f, d)) return 0;
    char *text = box_text(&f->box);
    int ok = text != NULL ? write_drives(f) && write_file(f, "box", text) : complain(f, "not enough memory");
    free(text);
    return ok;
}

static void empty_folder(sorgizhed_files *f, const char *folder) {
    static const char *const names[] = {"drives", "drives.new", "box", "box.new"};
    for (size_t d = 0; d < 8; d++) unlinkat(f->folder, drive_name(d), 0);
    for (size_t i = 0; i < sizeof names / sizeof *names; i++) unlinkat(f->folder, names[i], 0);
    rmdir(folder);
}

int sorgizhed_files_create(sorgizhed_files *f, const char *folder, const sorgizhed_box *parameters) {
    begin_files(f);
    if (!set_parameters(f, parameters))
        return complain(f, "a parameter is outside its range: drives 3 to 8, block a power of two from 128 to 4096, zones 4 to 1024, stripes 1 to 65535, group 1 to 256, "
                           "addresses 1 to (zones - 3) * stripes * (drives - 1)");
    if (parameters->offline != NULL) memcpy(f->box.offline, parameters->offline, f->box.n * f->box.z);
    if (!list_in_order(f) || (mkdir(folder, 0777) != 0 && !complain_errno(f, folder))) { sorgizhed_files_close(f); return 0; }
    f->folder = open_above(AT_FDCWD, folder, O_RDONLY | O_DIRECTORY);
    int ok = f->folder >= 0 ? fill_folder(f) : complain_errno(f, folder);
    if (!ok) empty_folder(f, folder);
    int above = ok ? open_above(f->folder, "..", O_RDONLY | O_DIRECTORY) : -1; /* that the folder is there lasts too */
    if (above >= 0) fsync(above), close(above);
    sorgizhed_files_close(f);
    return ok;
}

/* the text of the locked file 'box', in memory that is to be freed */
static char *locked_text(sorgizhed_files *f) {
    struct stat s;
    if (fstat(f->lock, &s) != 0) { complain_errno(f, "box"); return NULL; }
    size_t n = s.st_size < 1 << 20 ? (size_t)s.st_size : 1 << 20;
    char *text = calloc(n + 1, 1);
    if (text == NULL || !read_at(f->lock, (uint8_t *)text, n, 0)) { complain_errno(f, "box"); free(text); return NULL; }
    return text;
}

/* the parameters' file, locked against other processes */
static int read_parameters(sorgizhed_files *f, const char *folder) {
    char *behind, *text;
    sorgizhed_box x = {0};
    struct flock all = {.l_type = F_WRLCK, .l_whence = SEEK_SET};
    f->folder = open_above(AT_FDCWD, folder, O_RDONLY | O_DIRECTORY);
    if (f->folder >= 0) f->lock = open_above(f->folder, "box", O_RDWR);
    if (f->lock < 0) return complain(f, "%s is no array: %s", folder, strerror(errno));
    if (fcntl(f->lock, F_SETLK, &all) != 0) return complain(f, "%s is in use by another process", folder);
    text = locked_text(f);
    if (text == NULL) return 0;
    int ok = read_numbers(text, &x, &behind) && set_parameters(f, &x) && read_list(behind, &f->box);
    free(text);
    return (ok || complain(f, "%s/box does not hold the six parameters of an array and its offline zones", folder)) && list_in_order(f);
}

/* Opens a drive's file and looks whether it is the one that the array knows. One that is not there is missing. */
static int open_drive(sorgizhed_files *f, size_t d) {
    char text[SECTOR], want[SECTOR];
    struct stat s;
    if (d == f->missing) return 1;
    f->file[d] = open_above(f->folder, drive_name(d), O_RDWR);
    if (f->file[d] < 0 && errno == ENOENT) {
        if (f->missing != SORGIZHED_NO_DRIVE) return complain(f, "drives %zu and %zu are missing: one at most can be made up for", f->missing, d);
        f->missing = d;
        return 1;
    }
    if (f->file[d] < 0 || fstat(f->file[d], &s) != 0) return complain_errno(f, drive_name(d));
    drive_text(f, d, want);
    if (s.st_size != file_length(f, d))
        return complain(f, "drive%zu has %jd bytes and not %jd: it is no drive of this array ('lose %zu', then 'replace %zu' makes it anew)", d, (intmax_t)s.st_size,
                        (intmax_t)file_length(f, d), d, d);
    if (!read_at(f->file[d], (uint8_t *)text, SECTOR, 0)) return complain_errno(f, drive_name(d));
    if (memcmp(text, want, SECTOR) != 0)
        return complain(f, "drive%zu is not the drive that the array knows, but another or an older one ('lose %zu', then 'replace %zu' makes it anew)", d, d, d);
    if (!read_at(f->file[d], pointer_of(f, f->pointers, d, 0), pointer_bytes(f), SECTOR)) return complain_errno(f, drive_name(d));
    return 1;
}

/* A drive's part of the image: whole pages are mapped from its file and read when they are looked at, the parts of pages at both ends are read. */
static int map_drive(sorgizhed_files *f, size_t d) {
    size_t page = (size_t)sysconf(_SC_PAGESIZE), from = d * drive_bytes(f), to = from + drive_bytes(f);
    size_t first = (from + page - 1) / page * page, last = to / page * page;
    off_t at = blocks_at(f, d);
    if (ALIGNED % page != 0 || first >= last) first = last = to;
    else if (mmap(f->image + first, last - first, PROT_READ | PROT_WRITE, MAP_PRIVATE | MAP_FIXED, f->file[d], at + (off_t)(first - from)) == MAP_FAILED)
        return complain_errno(f, drive_name(d));
    if (first < last) madvise(f->image + first, last - first, MADV_RANDOM); /* only what is looked at is read */
    if (!read_at(f->file[d], f->image + from, first - from, at) || !read_at(f->file[d], f->image + last, to - last, at + (off_t)(last - from)))
        return complain_errno(f, drive_name(d));
    return 1;
}

int sorgizhed_files_enter(sorgizhed_files *f, const char *folder) {
    begin_files(f);
    return read_parameters(f, folder) && read_drives(f);
}

int sorgizhed_files_open(sorgizhed_files *f, const char *folder) { return sorgizhed_files_enter(f, folder) && sorgizhed_files_attach(f); }

int sorgizhed_files_attach(sorgizhed_files *f) {
    size_t marked = f->missing;
    f->pointers = calloc(f->box.n, pointer_bytes(f)), f->committed = calloc(f->box.n, pointer_bytes(f));
    void *image = mmap(NULL, f->image_length, PROT_READ | PROT_WRITE, MAP_PRIVATE | MAP_ANONYMOUS | MAP_NORESERVE, -1, 0);
    f->image = image == MAP_FAILED ? NULL : image;
    if (f->pointers == NULL || f->committed == NULL || f->image == NULL) return complain(f, "not enough memory: the array's image alone is %zu bytes", f->image_length);
    for (size_t d = 0; d < f->box.n; d++)
        if (!open_drive(f, d)) return 0;
    if (f->missing != marked && !write_drives(f)) return 0; /* before any restart */
    memcpy(f->committed, f->pointers, f->box.n * pointer_bytes(f));
    for (size_t d = 0; d < f->box.n; d++)
        if (d != f->missing && !map_drive(f, d)) return 0;
    sorgizhed_drives drives = {f, f->image, files_report, NULL, files_put, files_reset, files_flush, files_offline};
    f->drives = drives;
    return 1;
}

void sorgizhed_files_close(sorgizhed_files *f) {
    for (size_t d = 0; d < 8; d++)
        if (f->file[d] >= 0) close(f->file[d]);
    if (f->image != NULL) munmap(f->image, f->image_length);
    if (f->lock >= 0) close(f->lock);
    if (f->folder >= 0) close(f->folder);
    free(f->pointers), free(f->committed), free(f->box.offline);
    f->pointers = f->committed = f->image = f->box.offline = NULL, f->folder = f->lock = -1;
    for (size_t d = 0; d < 8; d++) f->file[d] = -1;
}

/* ---- a drive goes, a drive comes */

int sorgizhed_files_mark(sorgizhed_files *f, size_t drive) {
    if (f->missing != SORGIZHED_NO_DRIVE && f->missing != drive) return complain(f, "drive %zu is missing already: one at most can be made up for", f->missing);
    f->missing = drive;
    return write_drives(f);
}

int sorgizhed_files_take_away(sorgizhed_files *f, size_t drive) {
    if (!sorgizhed_files_mark(f, drive)) return 0;
    return unlinkat(f->folder, drive_name(drive), 0) == 0 || errno == ENOENT || complain_errno(f, drive_name(drive));
}

int sorgizhed_files_blank(sorgizhed_files *f, size_t drive) {
    if (f->missing != drive) return complain(f, "drive %zu is not missing", drive);
    if (f->file[drive] >= 0) close(f->file[drive]);
    f->file[drive] = -1;
    if (unlinkat(f->folder, drive_name(drive), 0) != 0 && errno != ENOENT) return complain_errno(f, drive_name(drive)); /* it may be mapped */
    memset(pointer_of(f, f->pointers, drive, 0), 0, pointer_bytes(f));
    memset(pointer_of(f, f->committed, drive, 0), 0, pointer_bytes(f));
    return new_identity(f, drive) && make_drive(f, drive);
}

int sorgizhed_files_whole(sorgizhed_files *f) {
    size_t drive = f->missing;
    f->missing = SORGIZHED_NO_DRIVE;
    return drive == SORGIZHED_NO_DRIVE || (write_drives(f) && map_drive(f, drive));
}
