/* Sorgizhed, the part between the calls and the drives.
 *
 * An array over drives that are given as callbacks: it takes the memory for tables and image, makes each call of sorgizhed.h, and carries the call's
 * stores to the drives in their order, with the flushes that a drive with a volatile cache needs (sorgizhed.h has both tables). Behind the array stands
 * one back end, on files. Link with libsorgizhed_host.a and libsorgizhed.a. One array is used by one thread at a time.
 */
#ifndef SORGIZHED_HOST_H
#define SORGIZHED_HOST_H

#include "sorgizhed.h"

#ifdef __cplusplus
extern "C" {
#endif

/* ---- The drives. Each function returns 0, or another number where it could not: then that drive counts as failed and the run is over.
 * In one zone a drive keeps the order of what it was told: what outlives a power cut is what was flushed and, zone by zone, a first part of the rest. */
typedef struct {
    void *who;      /* comes back with each function */
    uint8_t *image; /* memory of the image's length that shows the drives, or NULL: then memory is taken, and what lies below the write pointers is read */
    /* the write pointers of a drive's zones, 4 big-endian bytes each (Report Zones) */
    int (*report)(void *who, size_t drive, uint8_t *pointers);
    /* so many blocks of a zone from one on, each with its spare behind it; not called where image is given */
    int (*read)(void *who, size_t drive, size_t zone, size_t block, size_t blocks, uint8_t *bytes);
    /* a block with its spare behind it, at the zone's write pointer, which is block; it goes up by 1 */
    int (*put)(void *who, size_t drive, size_t zone, size_t block, const uint8_t *bytes);
    /* the zone's write pointer to 0 */
    int (*reset)(void *who, size_t drive, size_t zone);
    /* all that this drive was told before is durable */
    int (*flush)(void *who, size_t drive);
    /* which zones of a drive are offline (Report Zones: Zone State), a byte for each zone, 0 for a good one; or NULL: then nothing is asked */
    int (*offline)(void *who, size_t drive, uint8_t *list);
} sorgizhed_drives;

/* ---- The array */

/* stripes in flight, and stripes that are complete while a flush is due */
#define SORGIZHED_FLIGHTS 16

/* a stripe: which chunks wait or have landed (masks of drives), and the writes that it acknowledges, with their stamps and tags */
typedef struct {
    int used;
    size_t stripe, writes;
    unsigned sent, landed;
    uint64_t address[7], stamp[7], tag[7];
} sorgizhed_flight;

typedef struct {
    sorgizhed_box box;       /* parameters, and the buffers lent to the engine */
    sorgizhed_drives drives;
    size_t missing;          /* the drive that the last restart named missing, or SORGIZHED_NO_DRIVE */
    int over;                /* a drive has failed: no further call is made */
    size_t failed;           /* which one */
    /* told of each write that is acknowledged, once that is durable; may be NULL. It makes no call on the array */
    void (*told)(void *who, uint64_t address, uint64_t tag);
    void *told_who;
    /* told of each store, with how many a restart or rebuild has made of how many (0 of 0 in other calls); may be NULL */
    void (*stored)(void *who, const char *work, uint64_t done, uint64_t all);
    void *stored_who;
    uint64_t writes, acknowledged, copied, resets, stores, flushes; /* counts of this run */
    /* the array's own */
    sorgizhed_flight flights[SORGIZHED_FLIGHTS];
    uint8_t *blocks, *on_drives;
    struct sorgizhed_used *zones;
    size_t used, dirty[8], late;
    int ordered, completed, owned;
    const char *work;
    uint64_t done, all;
} sorgizhed_array;

/* Answers of the functions below, besides those of sorgizhed.h. */
#define SORGIZHED_OPENED 100       /* the array is open; the next call is a restart */
#define SORGIZHED_DURABLE 101      /* all that landed is durable; first: writes acknowledged in this run */
#define SORGIZHED_DRIVE_FAILED 102 /* first: the drive; the run is over. The array is as after a power cut: open it again with this drive missing */
#define SORGIZHED_NO_MEMORY 103    /* first: bytes of the image */
#define SORGIZHED_OTHER_LIST 104   /* first: a drive, second: a zone that it says is offline, and the array's list says is good. The list never changes: a drive that
                                      has lost a zone is taken out, and one that has all good zones of the list takes its place. A drive may have more */

/* Opens an array with these parameters (the lengths and buffers of the box are set here): takes memory, asks the drives for their write pointers, and
 * reads what lies below them where the image is not given. Nothing is asked of the drive that is missing. Of the buffers only the list of offline zones is given,
 * with which the array was made: n * z bytes that are copied, or NULL where all zones are good. Each drive that is there must have all zones that the list calls good; others that are good on it stay unused.
 * Answers SORGIZHED_OPENED, SORGIZHED_REFUSED (1), SORGIZHED_NO_MEMORY, SORGIZHED_OTHER_LIST or SORGIZHED_DRIVE_FAILED; sorgizhed_array_shut is due in each case. */
sorgizhed_answer sorgizhed_array_open(sorgizhed_array *a, const sorgizhed_box *parameters, const sorgizhed_drives *drives, size_t missing);
void sorgizhed_array_shut(sorgizhed_array *a);

/* The calls of sorgizhed.h. Each also answers SORGIZHED_DRIVE_FAILED, and a rebuild SORGIZHED_OTHER_LIST where the new drive lacks a good zone of the list. A finished restart or rebuild is durable when it answers; what a landing
 * acknowledges is durable behind the next sorgizhed_array_flush (told says so too). */
sorgizhed_answer sorgizhed_array_restart(sorgizhed_array *a, size_t missing);
sorgizhed_answer sorgizhed_array_rebuild(sorgizhed_array *a, size_t drive);
sorgizhed_answer sorgizhed_array_write(sorgizhed_array *a, uint64_t address, const uint8_t *block, uint64_t tag);
sorgizhed_answer sorgizhed_array_write_nothing(sorgizhed_array *a, uint64_t address); /* a write of no bytes */
sorgizhed_answer sorgizhed_array_land(sorgizhed_array *a, size_t drive, size_t stripe);
sorgizhed_answer sorgizhed_array_close(sorgizhed_array *a);
sorgizhed_answer sorgizhed_array_reclaim(sorgizhed_array *a);
sorgizhed_answer sorgizhed_array_read(sorgizhed_array *a, uint64_t address);
sorgizhed_answer sorgizhed_array_fill(sorgizhed_array *a, uint64_t address, uint8_t *block);
sorgizhed_answer sorgizhed_array_flush(sorgizhed_array *a);

/* ---- A run: what lands when, and when space is made */

/* A write, with the landings and reclaims that must come first. Answers SORGIZHED_SENT, or what stands against it. */
sorgizhed_answer sorgizhed_array_send(sorgizhed_array *a, uint64_t address, const uint8_t *block, uint64_t tag);
/* The block that was last sent to the address, landed or not; zeros if none was. Answers SORGIZHED_FILLED with that block's stamp, or a refusal. */
sorgizhed_answer sorgizhed_array_get(sorgizhed_array *a, uint64_t address, uint8_t *block);
/* The end of a scan: a write of no bytes, with the landings and reclaims that must come first; lands everything and flushes: all writes are acknowledged.
 * Answers SORGIZHED_DURABLE, or what stands against it. */
sorgizhed_answer sorgizhed_array_end(sorgizhed_array *a, uint64_t address);
/* The same for a caller that has no address; with a drive missing nothing is in flight, and it only flushes. */
sorgizhed_answer sorgizhed_array_settle(sorgizhed_array *a);
/* Reclaims until so many zones are empty on all drives or none can be freed any more. Answers SORGIZHED_DURABLE, or what stands against it. */
sorgizhed_answer sorgizhed_array_room(sorgizhed_array *a, size_t zones);
/* How many chunks wait; lands the one of that number, in the order of stripes and drives. */
size_t sorgizhed_array_waiting(const sorgizhed_array *a);
sorgizhed_answer sorgizhed_array_land_one(sorgizhed_array *a, size_t number);

/* blocks of a zone in all; stored in one; the fewest empty good zones of any drive */
size_t sorgizhed_array_capacity(const sorgizhed_array *a);
uint32_t sorgizhed_array_pointer(const sorgizhed_array *a, size_t drive, size_t zone);
size_t sorgizhed_array_empty_zones(const sorgizhed_array *a);

/* An answer in words, in the lent room; returns it. */
const char *sorgizhed_words(sorgizhed_answer answer, char *out, size_t room);
/* whether the answer is a call's own result, and no refusal, cut or failure */
int sorgizhed_is_result(sorgizhed_answer answer);

/* ---- Drives as files in a folder. A drive's file has its identity, its write pointers and its blocks; the file 'drives' says which files belong to the
 * array and which drive is missing. Where a function returns 0, error says why. */
typedef struct {
    sorgizhed_box box;       /* the parameters */
    sorgizhed_drives drives; /* to open the array with */
    size_t missing;          /* the drive that is missing, or SORGIZHED_NO_DRIVE; the mark is on disk */
    char error[512];
    /* the back end's own */
    int folder, lock, file[8];
    char identity[8][17];
    uint8_t *image, *pointers, *committed, wrote[8];
    size_t image_length;
} sorgizhed_files;

/* A new array; a failed one leaves nothing. Only parameters and error of f are used. */
int sorgizhed_files_create(sorgizhed_files *f, const char *folder, const sorgizhed_box *parameters);
/* Opens the folder, against all other processes, and maps the drives. The one drive without its file, if there is one, is marked missing. It does so in two steps: the first reads
 * which drives there are, and is enough to mark one and to take it away; before the second f->missing may be set to a drive that is not to be looked at.
 * sorgizhed_files_close is due in each case. */
int sorgizhed_files_open(sorgizhed_files *f, const char *folder);
int sorgizhed_files_enter(sorgizhed_files *f, const char *folder);
int sorgizhed_files_attach(sorgizhed_files *f);
void sorgizhed_files_close(sorgizhed_files *f);
/* Marks a drive missing, on disk; from then on nothing of it is looked at. Its file is removed where it is taken away. */
int sorgizhed_files_mark(sorgizhed_files *f, size_t drive);
int sorgizhed_files_take_away(sorgizhed_files *f, size_t drive);
/* An empty drive in the place of the missing one; and, once it is rebuilt, the mark that it belongs to the array. */
int sorgizhed_files_blank(sorgizhed_files *f, size_t drive);
int sorgizhed_files_whole(sorgizhed_files *f);

#ifdef __cplusplus
}
#endif

#endif
