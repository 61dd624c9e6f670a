/* Sorgizhed: a proved log-structured RAID over three to eight zoned drives.
 *
 * Every call takes the array's six parameters and the buffers that the host lends, and answers with numbers. No call has a precondition
 * on numbers, bytes or lengths: bad input gets one of the numbered refusals below, and a refusal changes nothing.
 *
 * What the host guarantees: for each buffer of length above 0 a valid pointer to that many bytes, at most 2^63 - 1 of them; no two buffers of
 * one call overlap; no two calls on one array at a time. A call keeps no memory of its own between calls, so different arrays may be used from
 * different threads. A call allocates nothing; 768 KiB of stack are enough for each.
 */
#ifndef SORGIZHED_H
#define SORGIZHED_H

#include <stddef.h>
#include <stdint.h>

/* The version of this interface and of the layout on the drives. */
#define SORGIZHED_VERSION "1.1"

#ifdef __cplusplus
extern "C" {
#endif

/* Parameters of an array, the first six numbers of every call:
 *   n  drives, 3 to 8
 *   b  bytes of a block, a power of two from 128 to 4,096
 *   z  zones of a drive, 4 to 1,024
 *   s  stripes of a segment, 1 to 65,535
 *   g  stripes of a group, 1 to 256
 *   l  addresses, 1 to (good - 3) * s * (n - 1), where good is the fewest good zones of any drive, z at most
 * They never change during the life of an array.
 *
 * Drives may come with dead zones (Zone State: Offline). The host lends with each call one byte for each drive and zone, drive after drive: 0 for a good
 * zone, any other byte for an offline one. The list never changes during the life of an array either: what a restart promises, it promises for a list
 * that stays. An offline zone is never read, stored to, reset or checked; its bytes in image and pointers may be anything.
 *
 * A zone has 1 header block, s data blocks and f = ceil(s / (b / 20)) footer blocks, c = 1 + s + f in all. Lent buffers and their lengths:
 *   offline    n * z                 the list of offline zones, a byte for each drive and zone
 *   image      n * z * c * (b + 20)  the drives, by drive, zone and block, each block followed by its 20 spare bytes
 *   pointers   4 * n * z             a write pointer of 4 big-endian bytes for each drive and zone
 *   addresses  4 * l                 the address table: places of 4 big-endian bytes
 *   compact    n * z * s             the compact stripe table
 *   inflight   8 * n * b             the blocks of up to eight stripes in flight
 *   state      SORGIZHED_STATE_LENGTH  the engine's state between calls
 * The host keeps image and pointers on the drives, and the rest in memory; what is in memory need not survive a power cut.
 */
#define SORGIZHED_STATE_LENGTH 1366

/* What a call answers: a kind and up to three values (the others are 0). */
typedef struct {
    uint64_t kind;
    uint64_t first;
    uint64_t second;
    uint64_t third;
} sorgizhed_answer;

/* Kinds. */
#define SORGIZHED_REFUSED 0    /* first: the refusal's number, 1 to 8 or 10 */
#define SORGIZHED_BAD_ZONE 1   /* refusal 9; first: 9, second: the lowest bad zone */
#define SORGIZHED_CUT 2        /* the store count was reached: image and pointers are as after that many stores, state and tables are all zeros,
                                  other buffers as they came; the run is over, the next call is a restart */
#define SORGIZHED_SENT 3       /* a write; first: stamp, second: stripe, third: drive */
#define SORGIZHED_LANDED 4     /* a landing; first: how many writes it acknowledges, 0 while the stripe is not complete */
#define SORGIZHED_CLOSED 5     /* a closing, or a write of no bytes that closed; first: stripe */
#define SORGIZHED_COPIED 6     /* a reclaim that copied a block; first: its stamp, second: stripe, third: drive */
#define SORGIZHED_RESET 7      /* a reclaim that freed a segment; first: its zone on drive 0 */
#define SORGIZHED_PART 8       /* a read; first: the byte of the image at which the block of b bytes begins, second: the block's stamp */
#define SORGIZHED_NEVER 9      /* a read of an address that was never written; first: 0, the stamp of what was never written */
#define SORGIZHED_LOST 10      /* a read of a block on the missing drive: sorgizhed_fill decodes it; first: its stamp */
#define SORGIZHED_FILLED 11    /* the lent block is filled; first: the block's stamp, 0 if the address was never written */
#define SORGIZHED_RESTARTED 12 /* a restart; first: stripes that had a chunk on some present drive but not on every one: they do not count */
#define SORGIZHED_REBUILT 13   /* a rebuild */
#define SORGIZHED_NOTHING 14   /* a write of no bytes where no stripe is filling: accepted, and nothing is done */

/* The stamp of what was sent, copied or read: of two blocks that are read, the one with the greater stamp was sent later. 0 if never written, and for all other answers. */
static inline uint64_t sorgizhed_stamp(sorgizhed_answer r) {
    switch (r.kind) {
    case SORGIZHED_SENT: case SORGIZHED_COPIED: case SORGIZHED_NEVER: case SORGIZHED_LOST: case SORGIZHED_FILLED: return r.first;
    case SORGIZHED_PART: return r.second;
    default: return 0;
    }
}

/* Refusals, in the order in which they are looked for, but 10 behind 2, then 1 for an l that is too great for the good zones alone, and 8 before 7 (and
 * restart and rebuild look for 9 before 6 and 8). A refusal changes no byte. */
#define SORGIZHED_BAD_PARAMETER 1   /* a parameter outside its range; restart: missing neither below n nor 255; rebuild: a drive that the last
                                       restart did not name missing */
#define SORGIZHED_BAD_LENGTH 2      /* a lent buffer's length differs from what the parameters give; a written block's also from 0 */
#define SORGIZHED_READ_ONLY 3       /* write, landing, closing or reclaim while a drive is missing */
#define SORGIZHED_BAD_ADDRESS 4     /* address at or above l */
#define SORGIZHED_NOTHING_TO_DO 5   /* landing: that chunk does not wait; closing: no stripe is filling, or space is so short that reclaim must go
                                       first; a write of no bytes: a stripe is filling, and space is so short; reclaim: no sealed segment, or all
                                       live blocks of the one that it takes are in flight */
#define SORGIZHED_NO_COUNT_LEFT 6   /* no next stamp, or no next serial where a segment must be opened */
#define SORGIZHED_WAIT 7            /* a stripe must begin and eight are in flight, or it is in the next group or segment and any is in flight:
                                       land what waits, then try again */
#define SORGIZHED_NO_ZONE_LEFT 8    /* some drive has too few empty good zones. A write: no landing empties a zone, so reclaim, also where stripes are in
                                       flight, land what reclaim waits for, and try again. Reclaim: land what is in flight, if anything is, and try
                                       again */
#define SORGIZHED_DAMAGED 9         /* state out of range, or drives or tables not as the engine left them; comes as SORGIZHED_BAD_ZONE.
                                       Restart, rebuild: a write pointer above the capacity names its own zone; all else names the segment's zone on the lowest
                                       drive that is there. Other calls: the zone of the pointer or of the place; 0 for the state, and for a place in no segment */
#define SORGIZHED_FEW_ZONES 10      /* fewer than four good zones on some drive */

/* The number that names no drive. */
#define SORGIZHED_NO_DRIVE 255

/* No limit on the stores. */
#define SORGIZHED_NO_LIMIT UINT64_MAX

/* The length of each buffer in bytes; 0 where a parameter is outside its range. */
size_t sorgizhed_offline_length(size_t n, size_t b, size_t z, size_t s, size_t g, size_t l);
size_t sorgizhed_image_length(size_t n, size_t b, size_t z, size_t s, size_t g, size_t l);
size_t sorgizhed_pointers_length(size_t n, size_t b, size_t z, size_t s, size_t g, size_t l);
size_t sorgizhed_addresses_length(size_t n, size_t b, size_t z, size_t s, size_t g, size_t l);
size_t sorgizhed_compact_length(size_t n, size_t b, size_t z, size_t s, size_t g, size_t l);
size_t sorgizhed_inflight_length(size_t n, size_t b, size_t z, size_t s, size_t g, size_t l);
size_t sorgizhed_state_length(void);

/* In every call that can store, count says how many stores may be made before the power is taken to be cut; SORGIZHED_NO_LIMIT for a host that
 * does not play power cuts. A store puts one block with its spare at a zone's write pointer and raises the pointer by 1, or sets a pointer to 0.
 * If more are due than count, the call makes just that many and answers SORGIZHED_CUT. */

/* ---- The order of a call's stores: a host carries them to the drives in this order (sorgizhed_host.h has functions that do).
 *
 *   write     where it opens a segment: the header of each drive, by drive; of no bytes: none
 *   land      the chunk; where it completes the segment: the footers, by drive, then by block
 *   close     none
 *   reclaim   a copy that opens a segment: as in a write; a segment that is freed: the reset of each drive's zone, by drive
 *   read, fill  none
 *   restart   with a drive missing none. Else
 *               1  the resets of dropped segments, by rising serial, then by drive and zone;
 *               2  where all stripes of the unsealed segment count: the footers that are missing, by drive, then by block;
 *                  or, where it is written anew into other zones: its headers by drive; its chunks, stripe by stripe, each by drive;
 *                  then the resets of the old zones, by drive
 *   rebuild   the reset of each good zone of the drive, by zone (one that is empty already may be passed over); then by rising serial of the segments:
 *             header, chunks by rising stripe, footers
 *
 * A drive may hold stores in a volatile cache until it is flushed. It is taken to keep the order within a zone: of what was not flushed, zone by zone, a
 * first part outlives a power cut. So a host flushes, and waits for the flush:
 *
 *   before a header, a footer or a reset   every drive with an earlier store in another zone (so headers, footers and resets of one call come one drive
 *                                          after the other)
 *   before a chunk                         every drive, where a header, footer or reset is not durable yet, or where something was put into the chunk's
 *                                          stripe (a write, copy or closing, by whichever call) after a landing completed another stripe that is not durable yet
 *   before the chunks of a rewrite         every drive: then its headers are durable; between these chunks nothing
 *   in a rebuild                           nothing; nobody looks at the drive before it is finished
 *   before a word to anyone                every drive: before a client is told that a write is acknowledged, before a finished restart is used, and
 *                                          before a finished rebuild ends the drive's being missing
 *
 * With these flushes every state of the drives that can outlive a power cut is one that some list of calls, cut between stores, leaves: chunks that wait
 * for no flush belong to stripes that were in flight together, and those may land in any order. docs/DECISIONS.md has the reason for each. */

/* Takes the block of b bytes for an address below l. It goes into the in-flight buffer; it is on the drives once its stripe's chunks have
 * landed. Where no segment is open, headers are stored first in each drive's lowest good zone that is empty, one store for each drive.
 * Answers SORGIZHED_SENT with the block's stamp and the stripe and drive that it goes to, SORGIZHED_CUT, or a refusal: 1, 2, 10, 3, 4, 6, 8, 7, 9.
 *
 * A block of length 0 (its pointer may be NULL) is a write of no bytes, with which a scan ends. It closes the filling stripe as sorgizhed_close does; where
 * none is filling it is accepted and does nothing, whatever is in flight and however few zones are empty. It takes no stamp, stores nothing and changes no
 * address; its own address is checked all the same, and count does not matter.
 * Answers SORGIZHED_CLOSED with the stripe, SORGIZHED_NOTHING, or a refusal: 1, 2, 10, 3, 4, 5, 9; 5 only where a stripe is filling. */
sorgizhed_answer sorgizhed_write(size_t n, size_t b, size_t z, size_t s, size_t g, size_t l,
                                 const uint8_t *offline, size_t offline_length,
                                 uint8_t *image, size_t image_length, uint8_t *pointers, size_t pointers_length,
                                 uint8_t *addresses, size_t addresses_length, uint8_t *compact, size_t compact_length,
                                 uint8_t *inflight, size_t inflight_length, uint8_t *state, size_t state_length,
                                 uint64_t address, const uint8_t *block, size_t block_length, uint64_t count);

/* Stores the chunk of a stripe in flight on a drive, at that drive's write pointer. A data chunk waits once it is filled, the parity chunk once all
 * data chunks are; they may land in any order. The landing that completes the stripe acknowledges its writes and points the address table at them;
 * the landing that completes the segment's last stripe also stores the footers.
 * Answers SORGIZHED_LANDED with the number of writes acknowledged, SORGIZHED_CUT, or a refusal: 1, 2, 10, 3, 5, 9. */
sorgizhed_answer sorgizhed_land(size_t n, size_t b, size_t z, size_t s, size_t g, size_t l,
                                const uint8_t *offline, size_t offline_length,
                                uint8_t *image, size_t image_length, uint8_t *pointers, size_t pointers_length,
                                uint8_t *addresses, size_t addresses_length, uint8_t *compact, size_t compact_length,
                                const uint8_t *inflight, size_t inflight_length, uint8_t *state, size_t state_length,
                                size_t drive, size_t stripe, uint64_t count);

/* Fills the filling stripe with zero blocks that stand for no address, so that all its chunks can land. It stores nothing.
 * Answers SORGIZHED_CLOSED with the stripe, or a refusal: 1, 2, 10, 3, 5, 9. */
sorgizhed_answer sorgizhed_close(size_t n, size_t b, size_t z, size_t s, size_t g, size_t l,
                                 const uint8_t *offline, size_t offline_length,
                                 const uint8_t *image, size_t image_length, const uint8_t *pointers, size_t pointers_length,
                                 const uint8_t *addresses, size_t addresses_length, const uint8_t *compact, size_t compact_length,
                                 uint8_t *inflight, size_t inflight_length, uint8_t *state, size_t state_length);

/* One step towards an empty zone: takes the sealed segment with fewest live blocks; copies its first live block that is not in flight into the
 * filling stripe (which then lands as after a write), or, where none is live, resets its zones.
 * Answers SORGIZHED_COPIED, SORGIZHED_RESET, SORGIZHED_CUT, or a refusal: 1, 2, 10, 3, 5, 6, 8, 7, 9. */
sorgizhed_answer sorgizhed_reclaim(size_t n, size_t b, size_t z, size_t s, size_t g, size_t l,
                                   const uint8_t *offline, size_t offline_length,
                                   uint8_t *image, size_t image_length, uint8_t *pointers, size_t pointers_length,
                                   uint8_t *addresses, size_t addresses_length, uint8_t *compact, size_t compact_length,
                                   uint8_t *inflight, size_t inflight_length, uint8_t *state, size_t state_length,
                                   uint64_t count);

/* Says where the block of an address lies, and its stamp: the one with which it was sent. Changes nothing. The stamp of a block on the missing drive is decoded, so
 * where its stripe cannot be decoded the call is refused 9, as sorgizhed_fill is.
 * Answers SORGIZHED_PART with its place in the image and its stamp, SORGIZHED_NEVER, SORGIZHED_LOST with its stamp, or a refusal: 1, 2, 10, 4, 9. */
sorgizhed_answer sorgizhed_read(size_t n, size_t b, size_t z, size_t s, size_t g, size_t l,
                                const uint8_t *offline, size_t offline_length,
                                const uint8_t *image, size_t image_length, const uint8_t *pointers, size_t pointers_length,
                                const uint8_t *addresses, size_t addresses_length, const uint8_t *compact, size_t compact_length,
                                const uint8_t *inflight, size_t inflight_length, const uint8_t *state, size_t state_length,
                                uint64_t address);

/* Fills the lent block of b bytes: with zeros if the address was never written, with a copy of the block, or with the block decoded from the other
 * drives if its drive is missing. Changes nothing else.
 * Answers SORGIZHED_FILLED with the block's stamp, or a refusal: 1, 2, 10, 4, 9. */
sorgizhed_answer sorgizhed_fill(size_t n, size_t b, size_t z, size_t s, size_t g, size_t l,
                                const uint8_t *offline, size_t offline_length,
                                const uint8_t *image, size_t image_length, const uint8_t *pointers, size_t pointers_length,
                                const uint8_t *addresses, size_t addresses_length, const uint8_t *compact, size_t compact_length,
                                const uint8_t *inflight, size_t inflight_length, const uint8_t *state, size_t state_length,
                                uint64_t address, uint8_t *block, size_t block_length);

/* The first call on an array, and the first after a power cut: reads the drives, finishes or moves what a cut left half done, and fills both tables and
 * the state, whatever they hold. missing is the number of a drive that is gone (its bytes are not looked at), or SORGIZHED_NO_DRIVE. With a drive
 * missing it stores nothing, and the array only reads until that drive is rebuilt and a restart without a missing drive is made. An array whose write
 * pointers are all 0 (those of offline zones apart) is a new one, and restarts too. It may be cut like any call, and then made again.
 * Answers SORGIZHED_RESTARTED with the number of stripes found with a chunk on some present drive but not on every one, SORGIZHED_CUT, or a refusal:
 * 1, 2, 10, 9, 6, 8, looked for in this order. */
sorgizhed_answer sorgizhed_restart(size_t n, size_t b, size_t z, size_t s, size_t g, size_t l,
                                   const uint8_t *offline, size_t offline_length,
                                   uint8_t *image, size_t image_length, uint8_t *pointers, size_t pointers_length,
                                   uint8_t *addresses, size_t addresses_length, uint8_t *compact, size_t compact_length,
                                   const uint8_t *inflight, size_t inflight_length, uint8_t *state, size_t state_length,
                                   size_t missing, uint64_t count);

/* Writes the drive that the last restart named missing anew, from the others: resets its zones, then stores each segment's header, chunks and footers
 * in order. Tables and state stay as they are; the next call is a restart without a missing drive. If it is cut, restart with the drive missing and
 * rebuild it again.
 * Answers SORGIZHED_REBUILT, SORGIZHED_CUT, or a refusal: 1, 2, 10, 9. */
sorgizhed_answer sorgizhed_rebuild(size_t n, size_t b, size_t z, size_t s, size_t g, size_t l,
                                   const uint8_t *offline, size_t offline_length,
                                   uint8_t *image, size_t image_length, uint8_t *pointers, size_t pointers_length,
                                   uint8_t *addresses, size_t addresses_length, uint8_t *compact, size_t compact_length,
                                   const uint8_t *inflight, size_t inflight_length, uint8_t *state, size_t state_length,
                                   size_t drive, uint64_t count);

/* ---- The same calls on one struct */

/* An array's parameters and the buffers that the host lends; the host sets all of it. */
typedef struct {
    size_t n, b, z, s, g, l;
    uint8_t *offline, *image, *pointers, *addresses, *compact, *inflight, *state;
    size_t offline_length, image_length, pointers_length, addresses_length, compact_length, inflight_length, state_length;
} sorgizhed_box;

/* its parameters, as the length functions take them; its parameters and buffers, as every call does */
#define SORGIZHED_PARAMETERS(x) (x)->n, (x)->b, (x)->z, (x)->s, (x)->g, (x)->l
#define SORGIZHED_LENT(x)                                                                                                                        \
    SORGIZHED_PARAMETERS(x), (x)->offline, (x)->offline_length, (x)->image, (x)->image_length, (x)->pointers, (x)->pointers_length,              \
        (x)->addresses, (x)->addresses_length, (x)->compact, (x)->compact_length, (x)->inflight, (x)->inflight_length, (x)->state, (x)->state_length

/* For example sorgizhed_land(SORGIZHED_LENT(&box), drive, stripe, SORGIZHED_NO_LIMIT). */

#ifdef __cplusplus
}
#endif

#endif
