/* box: an array of zoned drives, kept as files in a folder. */
#define _XOPEN_SOURCE 700
#include <errno.h>
#include <fcntl.h>
#include <inttypes.h>
#include <signal.h>
#include <stdio.h>
#include <stdlib.h>
#include <string.h>
#include <time.h>
#include <unistd.h>

#include "box.h"
#include "bytes.h"
#include "gather.h"
#include "layout.h"

static const char usage[] =
    "usage: box [--slow MICROSECONDS] FOLDER COMMAND\n"
    "       box --help | --version\n"
    "  create [--offline DRIVE:ZONE[,DRIVE:ZONE..]] [DRIVES BLOCK ZONES STRIPES GROUP ADDRESSES]\n"
    "                         a new array (without numbers: 4 drives, blocks of 4096, 16 zones of 64 stripes), on drives with these dead zones\n"
    "  put ADDRESS FILE       stores a file under ADDRESS, whole or not at all; returns once it is acknowledged\n"
    "  get ADDRESS            writes the file of ADDRESS to standard output, and its stamp to standard error: the greater of two is newer\n"
    "  status [--json]        what the array holds\n"
    "  check                  reads everything and holds it against everything else: headers, footers, parity, tables\n"
    "  lose DRIVE             takes a drive away\n"
    "  replace DRIVE          puts an empty drive in its place and rebuilds it\n"
    "  reclaim                frees zones while any can be freed\n"
    "  soak SECONDS [DIARY [FIRST]]   writes at random from address FIRST on; DIARY gets a line for each write that is acknowledged\n"
    "  verify DIARY           reads everything that the diary says was acknowledged, and compares the stamps with the order of the writes\n";

/* a number from 0 to most */
static int number(const char *what, const char *text, uint64_t most, uint64_t *out) {
    char *end;
    errno = 0;
    unsigned long long n = strtoull(text, &end, 10);
    if (*text < '0' || *text > '9' || *end != 0 || errno != 0 || n > most) {
        fprintf(stderr, "%s must be a number from 0 to %" PRIu64 ", and is '%s'\n", what, most, text);
        return 0;
    }
    *out = n;
    return 1;
}

/* ---- what is printed on the way */

int say(box *x, const char *what, sorgizhed_answer r) {
    char text[256];
    fprintf(stderr, "%s: %s\n", what, sorgizhed_words(r, text, sizeof text));
    if (r.kind != SORGIZHED_DRIVE_FAILED) return 0;
    fprintf(stderr, "%s\n", x->files.error);
    if (!sorgizhed_files_mark(&x->files, (size_t)r.first)) fprintf(stderr, "the mark that it is missing cannot be set: %s\n", x->files.error);
    return 0;
}

void show_progress(const char *what, uint64_t done, uint64_t all) {
    static time_t shown;
    if (shown == 0) shown = time(NULL);
    if (time(NULL) == shown) return;
    fprintf(stderr, "%s: %" PRIu64 " of %" PRIu64 "\n", what, done, all);
    shown = time(NULL);
}

/* behind each store */
static void stored(void *who, const char *work, uint64_t done, uint64_t all) {
    const box *x = who;
    struct timespec t = {x->slow / 1000000, (long)(x->slow % 1000000) * 1000};
    if (x->slow > 0) nanosleep(&t, NULL);
    if (work != NULL) show_progress(work, done, all);
}

static int complain(const box *x) {
    fprintf(stderr, "%s\n", x->files.error);
    return 0;
}

/* ---- starting */

/* tells of zones that are good on a drive and offline in the list with which the array was made */
static void tell_unused(box *x) {
    const sorgizhed_box *v = &x->files.box;
    uint8_t told[1024];
    for (size_t d = 0; d < v->n; d++) {
        if (d == x->files.missing || x->files.drives.offline(x->files.drives.who, d, told) != 0) continue;
        for (size_t z = 0; z < v->z; z++)
            if (told[z] == 0 && v->offline[d * v->z + z] != 0)
                fprintf(stderr, "drive %zu says that its zone %zu is good, and the array was made with a list in which it is offline: it stays unused\n", d, z);
    }
}

/* opens the drives and the array, without a restart */
static int attach(box *x) {
    if (!sorgizhed_files_attach(&x->files)) return complain(x);
    sorgizhed_answer r = sorgizhed_array_open(&x->array, &x->files.box, &x->files.drives, x->files.missing);
    x->array.stored = stored, x->array.stored_who = x;
    if (r.kind != SORGIZHED_OPENED) return say(x, "open", r);
    tell_unused(x);
    return 1;
}

static int enter(box *x, const char *folder) { return (sorgizhed_files_enter(&x->files, folder) || complain(x)) && attach(x); }

static void leave(box *x) {
    sorgizhed_array_shut(&x->array);
    sorgizhed_files_close(&x->files);
}

/* a restart is refused: a drive that, named missing, makes it start; with one missing nothing is stored, so each can be tried */
static void suggest(box *x) {
    int found = 0;
    for (size_t d = 0; d < x->files.box.n && x->files.missing == SORGIZHED_NO_DRIVE; d++) {
        if (sorgizhed_array_restart(&x->array, d).kind != SORGIZHED_RESTARTED) continue;
        fprintf(stderr, "with drive %zu missing it starts: 'lose %zu' takes that drive out, 'replace %zu' rebuilds it\n", d, d, d);
        found = 1;
    }
    if (!found) fprintf(stderr, "no drive that is there makes it start by being named missing\n");
}

/* opens the array and restarts it, without a drive if one is missing */
static int begin(box *x, const char *folder) {
    if (!enter(x, folder)) return 0;
    sorgizhed_answer r = sorgizhed_array_restart(&x->array, x->files.missing);
    if (r.kind == SORGIZHED_BAD_ZONE) { say(x, "restart", r); suggest(x); return 0; }
    if (r.kind != SORGIZHED_RESTARTED) return say(x, "restart", r);
    if (r.first > 0) fprintf(stderr, "restart: %" PRIu64 " stripes were under way and not acknowledged\n", r.first);
    return 1;
}

/* ---- status */

/* how many addresses are written, and the newest of their blocks; stamp 0: none is */
typedef struct { uint64_t written, address, stamp; } holdings;

/* by drive and zone: whether the zone is of a sealed segment, so that its footers have the records; without memory for that NULL */
static uint8_t *sealed_zones(const sorgizhed_array *a) {
    size_t zones = a->box.n * a->box.z, capacity = sorgizhed_array_capacity(a);
    uint8_t *sealed = calloc(zones, 1);
    used_zone *u = calloc(zones, sizeof *u);
    size_t n = sealed != NULL && u != NULL ? sorgizhed_gather(a, a->missing, u) : 0;
    for (size_t i = 0, end, full; i < n; i = end) {
        for (full = 1, end = i; end < n && u[end].serial == u[i].serial; end++) full &= sorgizhed_array_pointer(a, u[end].drive, u[end].zone) == capacity;
        for (size_t k = i; k < end; k++) sealed[u[k].drive * a->box.z + u[k].zone] = full && !u[k].dropped;
    }
    free(u);
    return sealed;
}

/* The stamp of a written address's block: where its segment is sealed by the footer, so that the blocks and their spares are not read from the drives. */
static uint64_t stamp_of(box *x, const uint8_t *sealed, size_t address, size_t place) {
    const sorgizhed_array *a = &x->array;
    size_t capacity = sorgizhed_array_capacity(a), zone = place / capacity, offset = place % capacity - 1, each = a->box.b / SPARE;
    if (sealed == NULL || !sealed[zone]) return sorgizhed_stamp(sorgizhed_array_read(&x->array, address));
    return number_at(sorgizhed_unit_at(a, 0, zone, 1 + a->box.s + offset / each) + offset % each * SPARE + STAMP_AT, 8);
}

static holdings held(box *x) {
    holdings h = {0, 0, 0};
    uint8_t *sealed = sealed_zones(&x->array);
    for (size_t i = 0; i < x->files.box.l; i++) {
        uint64_t place = number_at(x->array.box.addresses + 4 * i, 4), stamp;
        if (place == UINT32_MAX) continue;
        h.written++, stamp = stamp_of(x, sealed, i, (size_t)place);
        if (stamp > h.stamp) h.address = i, h.stamp = stamp;
    }
    free(sealed);
    return h;
}

static int is_offline(const box *x, size_t drive, size_t zone) { return x->files.box.offline[drive * x->files.box.z + zone] != 0; }

/* the write pointers of a drive; of an offline zone the word */
static void pointers_of(const box *x, size_t drive, const char *between, const char *word) {
    for (size_t z = 0; z < x->files.box.z; z++) {
        fputs(z ? between : "", stdout);
        if (is_offline(x, drive, z)) fputs(word, stdout);
        else printf("%" PRIu32, sorgizhed_array_pointer(&x->array, drive, z));
    }
}

/* the offline zones of a drive; how many */
static size_t offline_of(const box *x, size_t drive, const char *between) {
    size_t n = 0;
    for (size_t z = 0; z < x->files.box.z; z++)
        if (is_offline(x, drive, z)) printf("%s%zu", n++ ? between : "", z);
    return n;
}

static int status(box *x) {
    const sorgizhed_box *v = &x->files.box;
    holdings h = held(x);
    printf("%zu drives of %zu zones, %zu stripes a zone in groups of %zu, blocks of %zu bytes\n", v->n, v->z, v->s, v->g, v->b);
    printf("%" PRIu64 " of %zu addresses written", h.written, v->l);
    if (h.stamp > 0) printf("; the newest block has stamp %" PRIu64 ", at address %" PRIu64, h.stamp, h.address);
    printf("\n");
    printf("%zu of %zu zones empty on each drive, or more\n", sorgizhed_array_empty_zones(&x->array), v->z);
    if (x->files.missing == SORGIZHED_NO_DRIVE) printf("all drives present\n");
    else printf("drive %zu is missing: the array is read-only until 'replace %zu'\n", x->files.missing, x->files.missing);
    for (size_t d = 0; d < v->n; d++) {
        printf("drive %zu: ", d);
        if (d == x->files.missing) printf("missing");
        else pointers_of(x, d, " ", "dead");
        printf("  (blocks of %zu in each zone)\n", sorgizhed_array_capacity(&x->array));
    }
    for (size_t d = 0; d < v->n; d++) {
        printf("dead zones of drive %zu: ", d);
        printf(offline_of(x, d, " ") ? "\n" : "none\n");
    }
    return 1;
}

static int status_json(box *x) {
    const sorgizhed_box *v = &x->files.box;
    holdings h = held(x);
    printf("{\"drives\": %zu, \"block\": %zu, \"zones\": %zu, \"stripes\": %zu, \"group\": %zu, \"addresses\": %zu, ", v->n, v->b, v->z, v->s, v->g, v->l);
    printf("\"written\": %" PRIu64 ", \"newest_stamp\": %" PRIu64 ", ", h.written, h.stamp);
    if (h.stamp == 0) printf("\"newest_address\": null, ");
    else printf("\"newest_address\": %" PRIu64 ", ", h.address);
    printf("\"empty_zones\": %zu, \"capacity\": %zu, ", sorgizhed_array_empty_zones(&x->array), sorgizhed_array_capacity(&x->array));
    if (x->files.missing == SORGIZHED_NO_DRIVE) printf("\"missing\": null, \"pointers\": [");
    else printf("\"missing\": %zu, \"pointers\": [", x->files.missing);
    for (size_t d = 0; d < v->n; d++) {
        printf("%s[", d ? ", " : "");
        if (d != x->files.missing) pointers_of(x, d, ", ", "null");
        printf("]");
    }
    printf("], \"offline\": [");
    for (size_t d = 0; d < v->n; d++) {
        printf("%s[", d ? ", " : "");
        offline_of(x, d, ", ");
        printf("]");
    }
    printf("]}\n");
    return 1;
}

/* ---- drives go and come */

/* Takes a drive out, also one that keeps the array from starting; but not where the array does not start without it. */
static int lose(box *x, const char *folder, const char *word) {
    uint64_t drive;
    if (!sorgizhed_files_enter(&x->files, folder)) return complain(x);
    if (!number("DRIVE", word, x->files.box.n - 1, &drive)) return 0;
    if (x->files.missing != SORGIZHED_NO_DRIVE) {
        fprintf(stderr, "drive %zu is missing already%s\n", x->files.missing, x->files.missing == drive ? "" : ": one at most can be made up for");
        return 0;
    }
    x->files.missing = (size_t)drive;
    if (!attach(x)) return 0;
    sorgizhed_answer r = sorgizhed_array_restart(&x->array, (size_t)drive);
    if (r.kind != SORGIZHED_RESTARTED) {
        say(x, "restart without the drive", r);
        fprintf(stderr, "drive %" PRIu64 " stays: without it the array does not start ('status' says which one to take out)\n", drive);
        return 0;
    }
    if (!sorgizhed_files_take_away(&x->files, (size_t)drive)) return complain(x);
    printf("drive %" PRIu64 " is gone; reads decode what it held\n", drive);
    return 1;
}

/* Starts with the drive missing. Where it is not marked so, that is done only if nothing else makes the array start. */
static int start_without(box *x, size_t drive) {
    sorgizhed_answer r;
    if (x->files.missing == SORGIZHED_NO_DRIVE) {
        r = sorgizhed_array_restart(&x->array, SORGIZHED_NO_DRIVE);
        if (r.kind == SORGIZHED_RESTARTED) { fprintf(stderr, "drive %zu is not missing: 'lose %zu' takes it out\n", drive, drive); return 0; }
        say(x, "restart", r);
    } else if (x->files.missing != drive) {
        fprintf(stderr, "drive %zu is not missing, but drive %zu is\n", drive, x->files.missing);
        return 0;
    }
    r = sorgizhed_array_restart(&x->array, drive);
    if (r.kind == SORGIZHED_RESTARTED) return sorgizhed_files_mark(&x->files, drive) || complain(x);
    say(x, "restart without the drive", r);
    suggest(x);
    return 0;
}

/* an empty drive, a rebuild, and a restart with all drives */
static int replace(box *x, const char *folder, const char *word) {
    uint64_t drive;
    if (!enter(x, folder) || !number("DRIVE", word, x->files.box.n - 1, &drive) || !start_without(x, (size_t)drive)) return 0;
    if (!sorgizhed_files_blank(&x->files, (size_t)drive)) return complain(x);
    sorgizhed_answer r = sorgizhed_array_rebuild(&x->array, (size_t)drive);
    if (r.kind != SORGIZHED_REBUILT) return say(x, "rebuild", r);
    if (!sorgizhed_files_whole(&x->files)) return complain(x);
    r = sorgizhed_array_restart(&x->array, SORGIZHED_NO_DRIVE);
    if (r.kind != SORGIZHED_RESTARTED) return say(x, "restart", r);
    printf("drive %" PRIu64 " is rebuilt; all drives present\n", drive);
    return 1;
}

static int reclaim(box *x) {
    sorgizhed_array *a = &x->array;
    size_t had = sorgizhed_array_empty_zones(a);
    sorgizhed_answer r;
    for (size_t before = had, gained = 1; gained; before = sorgizhed_array_empty_zones(a)) {
        r = sorgizhed_array_room(a, before + 1);
        if (!sorgizhed_is_result(r)) return say(x, "reclaim", r);
        gained = sorgizhed_array_empty_zones(a) > before;
        show_progress("reclaim, empty zones", sorgizhed_array_empty_zones(a), a->box.z);
    }
    r = sorgizhed_array_settle(a);
    if (r.kind != SORGIZHED_DURABLE) return say(x, "reclaim", r);
    printf("%" PRIu64 " blocks copied, %" PRIu64 " segments reset; zones empty on each drive: %zu before, %zu now\n", a->copied, a->resets, had, sorgizhed_array_empty_zones(a));
    return 1;
}

/* ---- commands */

/* DRIVE:ZONE, .. into a list of so many drives and zones */
static int read_offline(char *text, uint64_t drives, uint64_t zones, uint8_t *list) {
    for (char *word = strtok(text, ","); word != NULL; word = strtok(NULL, ",")) {
        uint64_t drive, zone;
        char *colon = strchr(word, ':');
        if (colon == NULL) { fprintf(stderr, "an offline zone is DRIVE:ZONE, and not '%s'\n", word); return 0; }
        *colon = 0;
        if (!number("DRIVE", word, drives - 1, &drive) || !number("ZONE", colon + 1, zones - 1, &zone)) return 0;
        list[drive * zones + zone] = 1;
    }
    return 1;
}

static int create(const char *folder, int n, char **words) {
    static const char *const names[6] = {"DRIVES", "BLOCK", "ZONES", "STRIPES", "GROUP", "ADDRESSES"};
    uint64_t v[6] = {4, 4096, 16, 64, 16, 1024};
    static sorgizhed_files f;
    static uint8_t list[8 * 1024];
    char *offline = n >= 2 && strcmp(words[0], "--offline") == 0 ? words[1] : NULL;
    if (offline != NULL) n -= 2, words += 2;
    if (n != 0 && n != 6) { fputs(usage, stderr); return 0; }
    for (int i = 0; i < n; i++)
        if (!number(names[i], words[i], SIZE_MAX, &v[i])) return 0;
    sorgizhed_box x = {.n = (size_t)v[0], .b = (size_t)v[1], .z = (size_t)v[2], .s = (size_t)v[3], .g = (size_t)v[4], .l = (size_t)v[5]};
    if (offline != NULL && sorgizhed_image_length(SORGIZHED_PARAMETERS(&x)) != 0) {
        if (!read_offline(offline, v[0], v[2], list)) return 0;
        x.offline = list;
    }
    if (!sorgizhed_files_create(&f, folder, &x)) { fprintf(stderr, "%s\n", f.error); return 0; }
    printf("%s: %zu drives, %zu addresses of %zu bytes\n", folder, x.n, x.l, x.b);
    return 1;
}

enum { CREATE, PUT, GET, STATUS, CHECK, LOSE, REPLACE, RECLAIM, SOAK, VERIFY, COMMANDS };
static const struct { const char *name; int least, most; } known[COMMANDS] = {{"create", 0, 8}, {"put", 2, 2}, {"get", 1, 1}, {"status", 0, 1}, {"check", 0, 0}, {"lose", 1, 1},
                                                                              {"replace", 1, 1}, {"reclaim", 0, 0}, {"soak", 1, 3}, {"verify", 1, 1}};

/* a command on an array that has started */
static int started(box *x, int which, int n, char **words, uint64_t k) {
    uint64_t first = 0;
    switch (which) {
    case PUT: return put_file(x, k, words[1]);
    case GET: return get_file(x, k);
    case STATUS: return n == 0 ? status(x) : status_json(x);
    case CHECK: return check(x);
    case RECLAIM: return reclaim(x);
    case SOAK: return (n < 3 || number("FIRST", words[2], x->files.box.l - 1, &first)) && soak(x, k, n > 1 ? words[1] : NULL, first);
    default: return verify(x, words[0]);
    }
}

static int command(box *x, const char *folder, const char *name, int n, char **words) {
    int which = 0;
    uint64_t k = 0;
    while (which < COMMANDS && strcmp(known[which].name, name) != 0) which++;
    if (which == COMMANDS || n < known[which].least || n > known[which].most
        || (which == STATUS && n == 1 && strcmp(words[0], "--json") != 0)) {
        fputs(usage, stderr);
        return 0;
    }
    if (which == CREATE) return create(folder, n, words);
    if (which == LOSE) return lose(x, folder, words[0]);
    if (which == REPLACE) return replace(x, folder, words[0]);
    if (which == SOAK && !number("SECONDS", words[0], 1000000000, &k)) return 0;
    if ((which == PUT || which == GET) && !number("ADDRESS", words[0], UINT64_MAX, &k)) return 0;
    return begin(x, folder) && started(x, which, n, words, k);
}

/* Standard input, output and error are open, so that no drive's file takes their numbers; one that was closed cannot be used. */
static void open_standard(void) {
    for (int i = 0; i < 3; i++)
        if (fcntl(i, F_GETFD) < 0 && open("/dev/null", i == 0 ? O_WRONLY : O_RDONLY) != i) exit(3);
}

/* what was printed has arrived */
static int printed(void) {
    if (fflush(stdout) == 0 && !ferror(stdout)) return 1;
    fprintf(stderr, "standard output: %s\n", strerror(errno));
    return 0;
}

int main(int n, char **words) {
    static box x;
    uint64_t k;
    open_standard();
    signal(SIGPIPE, SIG_IGN), signal(SIGXFSZ, SIG_IGN); /* what cannot be written is an error of that write */
    for (size_t d = 0; d < 8; d++) x.files.file[d] = -1;
    x.files.folder = x.files.lock = -1;
    if (n == 2 && strcmp(words[1], "--help") == 0) { fputs(usage, stdout); return printed() ? 0 : 1; }
    if (n == 2 && strcmp(words[1], "--version") == 0) { puts("box, sorgizhed " SORGIZHED_VERSION); return printed() ? 0 : 1; }
    if (n > 2 && strcmp(words[1], "--slow") == 0) {
        if (!number("MICROSECONDS", words[2], 10000000, &k)) return 1;
        x.slow = (unsigned)k;
        n -= 2, words += 2;
    }
    if (n < 3) { fputs(usage, stderr); return 2; }
    int ok = command(&x, words[1], words[2], n - 3, words + 3), over = x.array.over;
    leave(&x);
    return !printed() || !ok ? (over ? 3 : 1) : 0;
}
