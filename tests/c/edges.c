/* Every call with bad parameters, lengths off by one, zero-length and NULL buffers, and huge numbers. Every lent buffer ends at a page that may
 * not be touched; a refusal leaves every byte. */
#define _DEFAULT_SOURCE
#include <stdio.h>
#include <stdlib.h>
#include <string.h>
#include <sys/mman.h>
#include <unistd.h>
#include "sorgizhed.h"

enum { N = 3, B = 128, Z = 4, S = 4, G = 2, L = 8 };
enum { WRITE, LAND, CLOSE, RECLAIM, READ, FILL, RESTART, REBUILD, EMPTY, CALLS };
enum { OFFLINE, IMAGE, POINTERS, ADDRESSES, COMPACT, INFLIGHT, STATE, BLOCK, BUFFERS };
static const char *const names[CALLS] = {"write", "land", "close", "reclaim", "read", "fill", "restart", "rebuild", "empty write"};
static const char *const buffers[BUFFERS] = {"offline", "image", "pointers", "addresses", "compact", "inflight", "state", "block"};
static const size_t good[6] = {N, B, Z, S, G, L};
static size_t par[6], length[BUFFERS], lent[BUFFERS];
static uint8_t *bytes[BUFFERS], *at[BUFFERS], *kept[BUFFERS];
static uint64_t address, count;
static size_t drive, stripe, missing;
static int passed, failed;

static void expect(int ok, const char *call, const char *what, uint64_t n) {
    if (ok) passed++;
    else { failed++; printf("not so: %s, %s %llu\n", call, what, (unsigned long long)n); }
}

static uint8_t *fenced(size_t n) {
    size_t page = (size_t)sysconf(_SC_PAGESIZE), size = (n + page - 1) / page * page;
    uint8_t *p = mmap(NULL, size + page, PROT_READ | PROT_WRITE, MAP_PRIVATE | MAP_ANONYMOUS, -1, 0);
    if (p == MAP_FAILED || mprotect(p + size, page, PROT_NONE) != 0) { perror("mmap"); exit(2); }
    return p + size - n;
}

/* parameters, lengths and numbers as they should be */
static void usual(void) {
    memcpy(par, good, sizeof par);
    for (int i = 0; i < BUFFERS; i++) lent[i] = length[i], at[i] = bytes[i];
    address = 1, count = SORGIZHED_NO_LIMIT, drive = 0, stripe = 0, missing = SORGIZHED_NO_DRIVE;
}

static void keep(void) { for (int i = 0; i < BUFFERS; i++) memcpy(kept[i], bytes[i], length[i]); }

static int unchanged(void) {
    for (int i = 0; i < BUFFERS; i++) if (memcmp(kept[i], bytes[i], length[i]) != 0) return 0;
    return 1;
}

static sorgizhed_answer call(int k) {
    sorgizhed_box x = {par[0], par[1], par[2], par[3], par[4], par[5], at[0], at[1], at[2], at[3], at[4], at[5], at[6],
                       lent[0], lent[1], lent[2], lent[3], lent[4], lent[5], lent[6]};
    switch (k) {
    case WRITE: return sorgizhed_write(SORGIZHED_LENT(&x), address, at[BLOCK], lent[BLOCK], count);
    case LAND: return sorgizhed_land(SORGIZHED_LENT(&x), drive, stripe, count);
    case CLOSE: return sorgizhed_close(SORGIZHED_LENT(&x));
    case RECLAIM: return sorgizhed_reclaim(SORGIZHED_LENT(&x), count);
    case READ: return sorgizhed_read(SORGIZHED_LENT(&x), address);
    case FILL: return sorgizhed_fill(SORGIZHED_LENT(&x), address, at[BLOCK], lent[BLOCK]);
    case RESTART: return sorgizhed_restart(SORGIZHED_LENT(&x), missing, count);
    case EMPTY: return sorgizhed_write(SORGIZHED_LENT(&x), address, NULL, 0, count);
    default: return sorgizhed_rebuild(SORGIZHED_LENT(&x), drive, count);
    }
}

/* the call is refused with the number and changes nothing */
static void refused(int k, uint64_t number, const char *what, uint64_t n) {
    keep();
    sorgizhed_answer r = call(k);
    expect(r.kind == (number == 9 ? SORGIZHED_BAD_ZONE : SORGIZHED_REFUSED) && r.first == number && unchanged(), names[k], what, n);
    usual();
}

/* an array with one block written and a stripe in flight; degraded: drive 2 is missing then */
static void prepare(int degraded) {
    for (int i = 0; i < BUFFERS; i++) memset(bytes[i], 0, length[i]);
    usual();
    expect(call(RESTART).kind == SORGIZHED_RESTARTED, "restart", "of empty drives", 0);
    for (address = 1; address < 3; address++) expect(call(WRITE).kind == SORGIZHED_SENT, "write", "address", address);
    for (drive = 0; drive < N; drive++) expect(call(LAND).kind == SORGIZHED_LANDED, "land", "drive", drive);
    usual();
    expect(call(WRITE).kind == SORGIZHED_SENT, "write", "into the next stripe", 1);
    if (!degraded) return;
    missing = 2;
    expect(call(RESTART).kind == SORGIZHED_RESTARTED, "restart", "without drive", 2);
    usual();
}

static void parameters(int k) {
    static const size_t bad[6][6] = {{0, 1, 2, 9, 255, SIZE_MAX}, {0, 64, 127, 129, 8192, SIZE_MAX}, {0, 3, 1025, 65536, SIZE_MAX / 2, SIZE_MAX},
                                     {0, 65536, 65537, 1u << 31, SIZE_MAX / 2, SIZE_MAX}, {0, 257, 258, 65536, SIZE_MAX / 2, SIZE_MAX},
                                     {0, 9, 10, 1u << 31, SIZE_MAX / 2, SIZE_MAX}};
    for (int i = 0; i < 6; i++)
        for (int j = 0; j < 6; j++) {
            par[i] = bad[i][j];
            refused(k, SORGIZHED_BAD_PARAMETER, "a parameter of", bad[i][j]);
        }
}

static void lengths(int k) {
    int last = k == WRITE || k == FILL ? BLOCK : STATE;
    if (k == REBUILD) drive = 2;
    for (int i = 0; i <= last; i++) {
        size_t wrong[5] = {length[i] - 1, length[i] + 1, k == WRITE && i == BLOCK ? 1 : 0, SIZE_MAX / 2, SIZE_MAX}; /* a written block of none is an empty write */
        for (int j = 0; j < 5; j++) {
            /* without its second byte the state names no drive missing, and a rebuild is of no drive */
            uint64_t number = k == REBUILD && i == STATE && j == 2 ? SORGIZHED_BAD_PARAMETER : SORGIZHED_BAD_LENGTH;
            lent[i] = wrong[j];
            if (k == REBUILD) drive = 2;
            refused(k, number, buffers[i], wrong[j]);
        }
        if (k == WRITE && i == BLOCK) continue;
        lent[i] = 0, at[i] = NULL;
        if (k == REBUILD) drive = 2;
        refused(k, k == REBUILD && i == STATE ? SORGIZHED_BAD_PARAMETER : SORGIZHED_BAD_LENGTH, "no buffer", (uint64_t)i);
    }
    for (int i = 0; i <= last; i++) lent[i] = 0, at[i] = NULL;
    if (k == REBUILD) drive = 2;
    refused(k, k == REBUILD ? SORGIZHED_BAD_PARAMETER : SORGIZHED_BAD_LENGTH, "no buffer at all", 0);
}

static void numbers(void) {
    static const uint64_t high[4] = {L, UINT64_C(1) << 32, UINT64_MAX - 1, UINT64_MAX};
    static const size_t drives[4] = {N, 8, 255, SIZE_MAX}, stripes[4] = {S, 65536, SIZE_MAX / 2, SIZE_MAX}, gone[4] = {N, 254, 256, SIZE_MAX};
    prepare(0);
    for (int j = 0; j < 4; j++) {
        address = high[j], refused(WRITE, SORGIZHED_BAD_ADDRESS, "address", high[j]);
        address = high[j], refused(EMPTY, SORGIZHED_BAD_ADDRESS, "address", high[j]);
        address = high[j], refused(READ, SORGIZHED_BAD_ADDRESS, "address", high[j]);
        address = high[j], refused(FILL, SORGIZHED_BAD_ADDRESS, "address", high[j]);
        drive = drives[j], refused(LAND, SORGIZHED_NOTHING_TO_DO, "drive", drives[j]);
        stripe = stripes[j], refused(LAND, SORGIZHED_NOTHING_TO_DO, "stripe", stripes[j]);
        missing = gone[j], refused(RESTART, SORGIZHED_BAD_PARAMETER, "missing drive", gone[j]);
        drive = drives[j], refused(REBUILD, SORGIZHED_BAD_PARAMETER, "drive", drives[j]);
    }
    refused(REBUILD, SORGIZHED_BAD_PARAMETER, "a drive that is not missing", 0);
    memset(bytes[STATE], 0xff, length[STATE]), bytes[STATE][1] = 0;
    for (int k = 0; k < CALLS; k++)
        if (k != RESTART && k != REBUILD && k != WRITE && k != CLOSE && k != RECLAIM && k != LAND) refused(k, SORGIZHED_DAMAGED, "a state of ones", 0);
    prepare(1);
    for (int k = 0; k <= RECLAIM; k++) refused(k, SORGIZHED_READ_ONLY, "a drive is missing", 2);
    address = L, refused(EMPTY, SORGIZHED_READ_ONLY, "a drive is missing", 2);
    drive = 2, count = 0, keep();
    expect(call(REBUILD).kind == SORGIZHED_CUT, "rebuild", "cut before the first store", 0);
    usual();
}

/* A zone of each drive offline, then all of them: fewer than four are good, whichever drive is missing. Any byte but 0 marks one. */
static void few_zones(int k) {
    for (size_t i = 0; i < N * Z; i++) {
        bytes[OFFLINE][i] = (uint8_t)(1 + 20 * i);
        if (k == REBUILD) drive = 2;
        address = L, stripe = S, refused(k, SORGIZHED_FEW_ZONES, "an offline zone", i);
        bytes[OFFLINE][i] = 0;
    }
    memset(bytes[OFFLINE], 255, length[OFFLINE]);
    if (k == REBUILD) drive = 2;
    refused(k, SORGIZHED_FEW_ZONES, "all zones offline", 0);
    memset(bytes[OFFLINE], 0, length[OFFLINE]);
}

/* a call leaves all eight buffers as the kept ones are, and answers so */
static void leaves(int k, uint64_t kind, uint64_t first, const char *what) {
    sorgizhed_answer r = call(k);
    expect(r.kind == kind && r.first == first && r.second == 0 && r.third == 0 && unchanged(), names[k], what, count);
}

/* Empty writes: each leaves what the closing leaves, or what was there. A block of no bytes may have any pointer, also one that may not be read. */
static void empties(void) {
    uint8_t *const blocks[3] = {NULL, bytes[BLOCK], bytes[BLOCK] + length[BLOCK]};
    prepare(0);
    expect(call(CLOSE).first == 1, "close", "stripe", 1);
    keep();
    for (int i = 0; i < 3; i++) {
        prepare(0);
        lent[BLOCK] = 0, at[BLOCK] = blocks[i], address = (uint64_t)i * (L - 1) / 2, count = (uint64_t)i;
        leaves(WRITE, SORGIZHED_CLOSED, 1, "closes the filling stripe, pointer");
        leaves(WRITE, SORGIZHED_NOTHING, 0, "does nothing where none is filling, pointer");
        address = L;
        refused(WRITE, SORGIZHED_BAD_ADDRESS, "of no bytes, none filling, address", L);
    }
    for (int i = 0; i < BUFFERS; i++) memset(bytes[i], 0, length[i]);
    usual();
    refused(EMPTY, SORGIZHED_DAMAGED, "a state of zeros", 0);
    expect(call(RESTART).kind == SORGIZHED_RESTARTED, "restart", "of empty drives", 0);
    keep();
    leaves(EMPTY, SORGIZHED_NOTHING, 0, "does nothing on an array without a write");
}

/* a read answers so and changes nothing but the block that the second one fills */
static void reads(int k, uint64_t at_address, uint64_t kind, uint64_t first, uint64_t second, const char *what) {
    address = at_address, keep();
    sorgizhed_answer r = call(k);
    if (k == FILL) memcpy(bytes[BLOCK], kept[BLOCK], length[BLOCK]);
    expect(r.kind == kind && r.first == first && r.second == second && r.third == 0 && unchanged(), names[k], what, at_address);
    expect(sorgizhed_stamp(r) == (kind == SORGIZHED_PART ? second : kind == SORGIZHED_BAD_ZONE ? 0 : first), names[k], "its stamp", at_address);
    usual();
}

/* both reads of an address: the part and stamp, or lost with the stamp */
static void stamped(uint64_t a, uint64_t part, uint64_t stamp, const char *what) {
    if (part == 0) reads(READ, a, stamp == 0 ? SORGIZHED_NEVER : SORGIZHED_LOST, stamp, 0, what);
    else reads(READ, a, SORGIZHED_PART, part, stamp, what);
    reads(FILL, a, SORGIZHED_FILLED, stamp, 0, what);
}

/* Stamps of reads: of blocks by their spare and, once the segment is sealed, by its footer; decoded; and where they can't be. */
static void stamps(void) {
    enum { UNIT = B + 20, ZONE = 6 * UNIT, DRIVE = Z * ZONE, SPARE_STAMP = UNIT + B + 15, FOOTER_STAMP = 5 * UNIT + 15 };
    prepare(0);
    /* address 1 on drive 0 and 2 on drive 1 are landed with 1 and 2; address 1 is in flight with 3 */
    stamped(0, 0, 0, "never written");
    stamped(1, UNIT, 1, "by its spare, and not what is in flight");
    stamped(2, DRIVE + UNIT, 2, "by its spare");
    bytes[IMAGE][SPARE_STAMP] = 200, bytes[IMAGE][SPARE_STAMP - 7] = 1, bytes[IMAGE][SPARE_STAMP - 8] = 5;
    stamped(1, UNIT, (UINT64_C(1) << 56) + 200, "as the spare has it, whatever its address");
    bytes[IMAGE][SPARE_STAMP] = 1, bytes[IMAGE][SPARE_STAMP - 7] = 0, bytes[IMAGE][SPARE_STAMP - 8] = 1;
    expect(call(CLOSE).kind == SORGIZHED_CLOSED, "close", "stripe", 1);
    for (stripe = 1; stripe < S; stripe++) {
        for (address = 3; stripe > 1 && address < 5; address++) expect(call(WRITE).kind == SORGIZHED_SENT, "write", "address", address);
        for (drive = 0; drive < N; drive++) expect(call(LAND).kind == SORGIZHED_LANDED, "land", "drive", drive);
    }
    usual();
    stamped(1, 2 * UNIT, 3, "the newer one, in a sealed segment");
    stamped(4, DRIVE + 4 * UNIT, 7, "its newer one");
    bytes[IMAGE][DRIVE + SPARE_STAMP] = 99;
    stamped(2, DRIVE + UNIT, 2, "by the footer of a sealed segment");
    bytes[IMAGE][DRIVE + FOOTER_STAMP] = 98;
    stamped(2, DRIVE + UNIT, 98, "as the footer has it");
    bytes[POINTERS][4 * 2 * Z + 3] = 5;
    stamped(2, DRIVE + UNIT, 99, "by the spare where a zone of the segment is not full");
    bytes[POINTERS][4 * 2 * Z + 3] = 6, bytes[IMAGE][DRIVE + SPARE_STAMP] = bytes[IMAGE][DRIVE + FOOTER_STAMP] = 2;
    missing = 1;
    expect(call(RESTART).kind == SORGIZHED_RESTARTED, "restart", "without drive", 1);
    usual();
    memset(bytes[IMAGE] + DRIVE, 0xee, DRIVE), memset(bytes[POINTERS] + 4 * Z, 0xee, 4 * Z);
    stamped(2, 0, 2, "decoded");
    stamped(1, 2 * UNIT, 3, "of a present drive");
    bytes[COMPACT][0] = 1;
    reads(READ, 2, SORGIZHED_BAD_ZONE, 9, 0, "of a stripe that the table does not show");
    reads(FILL, 2, SORGIZHED_BAD_ZONE, 9, 0, "of a stripe that the table does not show");
    stamped(1, 2 * UNIT, 3, "of a present drive");
}

/* a call without its buffers leaves as many bytes as one with them: the lengths of the header's functions are the calls' own */
static void functions(void) {
    expect(sorgizhed_state_length() == SORGIZHED_STATE_LENGTH, "length", "state", 0);
    expect(sorgizhed_image_length(N, B, Z, S, G, L) == (size_t)N * Z * 6 * (B + 20), "length", "image", 0);
    expect(sorgizhed_offline_length(N, B, Z, S, G, L) == N * Z && sorgizhed_offline_length(N, B, Z, S, G, 9) == 0, "length", "offline", 0);
    expect(sorgizhed_pointers_length(N, B, Z, S, G, L) == 4 * N * Z, "length", "pointers", 0);
    expect(sorgizhed_addresses_length(N, B, Z, S, G, L) == 4 * L, "length", "addresses", 0);
    expect(sorgizhed_compact_length(N, B, Z, S, G, L) == N * Z * S, "length", "compact", 0);
    expect(sorgizhed_inflight_length(N, B, Z, S, G, L) == 8 * N * B, "length", "inflight", 0);
    expect(sorgizhed_image_length(8, 4096, 1024, 65535, 256, 1021u * 65535 * 7) == (size_t)8 * 1024 * (1 + 65535 + 322) * 4116, "length", "the largest image", 0);
    expect(sorgizhed_image_length(2, B, Z, S, G, L) + sorgizhed_pointers_length(N, 64, Z, S, G, L) + sorgizhed_addresses_length(N, B, 3, S, G, L) +
               sorgizhed_compact_length(N, B, Z, 0, G, L) + sorgizhed_inflight_length(N, B, Z, S, 257, SIZE_MAX) == 0, "length", "of bad parameters", 0);
}

int main(void) {
    size_t all[BUFFERS] = {sorgizhed_offline_length(N, B, Z, S, G, L), sorgizhed_image_length(N, B, Z, S, G, L), sorgizhed_pointers_length(N, B, Z, S, G, L), sorgizhed_addresses_length(N, B, Z, S, G, L),
                           sorgizhed_compact_length(N, B, Z, S, G, L), sorgizhed_inflight_length(N, B, Z, S, G, L), sorgizhed_state_length(), B};
    for (int i = 0; i < BUFFERS; i++) {
        length[i] = all[i];
        bytes[i] = fenced(all[i]);
        if ((kept[i] = malloc(all[i])) == NULL) return 2;
    }
    functions();
    for (int k = 0; k < CALLS; k++) {
        prepare(k == REBUILD);
        parameters(k);
        lengths(k);
        few_zones(k);
    }
    numbers();
    empties();
    stamps();
    printf("%d passed, %d failed\n", passed, failed);
    return failed != 0;
}
