/* Calls the write call of the archive with good, refused, cut and hostile input. Every lent buffer ends at a page that may not be touched. */
#define _DEFAULT_SOURCE
#include <stdio.h>
#include <stdlib.h>
#include <string.h>
#include <sys/mman.h>
#include <unistd.h>
#include "sorgizhed.h"

enum { N = 3, B = 128, Z = 4, S = 4, G = 2, L = 8, CAP = 6, UNIT = B + 20 };
enum { IMAGE = N * Z * CAP * UNIT, POINTERS = 4 * N * Z, ADDRESSES = 4 * L, COMPACT = N * Z * S, INFLIGHT = 8 * N * B, STATE = SORGIZHED_STATE_LENGTH, OFFLINE = N * Z };
static const size_t lengths[7] = {IMAGE, POINTERS, ADDRESSES, COMPACT, INFLIGHT, STATE, B};
static uint8_t *lent[7], *kept[7], *offline; /* the list of offline zones is all zeros */
static int passed, failed;

static void expect(int ok, const char *what) {
    if (ok) passed++;
    else { failed++; printf("not so: %s\n", what); }
}

/* length bytes that end where a page begins that may not be touched */
static uint8_t *fenced(size_t length) {
    size_t page = (size_t)sysconf(_SC_PAGESIZE), size = (length + page - 1) / page * page;
    uint8_t *p = mmap(NULL, size + page, PROT_READ | PROT_WRITE, MAP_PRIVATE | MAP_ANONYMOUS, -1, 0);
    if (p == MAP_FAILED || mprotect(p + size, page, PROT_NONE) != 0) { perror("mmap"); exit(2); }
    return p + size - length;
}

/* the small box after its first restart: nothing written, nothing open */
static void fresh(void) {
    for (int i = 0; i < 7; i++) memset(lent[i], 0, lengths[i]);
    memset(lent[2], 0xff, ADDRESSES);
    lent[5][0] = 1;
    for (int i = 0; i < B; i++) lent[6][i] = (uint8_t)(i * 7 + 3);
}

static void keep(void) { for (int i = 0; i < 7; i++) memcpy(kept[i], lent[i], lengths[i]); }

static int same(int from, int to) {
    for (int i = from; i <= to; i++) if (memcmp(kept[i], lent[i], lengths[i]) != 0) return 0;
    return 1;
}

static int zero(int i) {
    for (size_t k = 0; k < lengths[i]; k++) if (lent[i][k] != 0) return 0;
    return 1;
}

static sorgizhed_answer put(uint64_t address, uint64_t count) {
    return sorgizhed_write(N, B, Z, S, G, L, offline, OFFLINE, lent[0], IMAGE, lent[1], POINTERS, lent[2], ADDRESSES, lent[3], COMPACT, lent[4], INFLIGHT, lent[5],
                           STATE, address, lent[6], B, count);
}

static int is(sorgizhed_answer r, uint64_t kind, uint64_t a, uint64_t b, uint64_t c) {
    return r.kind == kind && r.first == a && r.second == b && r.third == c;
}

static uint32_t pointer(int d, int z) {
    const uint8_t *p = lent[1] + 4 * (d * Z + z);
    return (uint32_t)p[0] << 24 | (uint32_t)p[1] << 16 | (uint32_t)p[2] << 8 | p[3];
}

/* the header of documents 01 and 02, byte by byte; its segment has zone z on every drive */
static int header(int d, int z, int serial) {
    uint8_t y = (uint8_t)z, h[UNIT] = {0, 37 + 4 * N, 2, N, (uint8_t)d, 0, B, 0, G, 0, 0, 0, S, 0, 0, 0, y, 0, 0, 0, y, 0, 0, 0, y, 0, 0, 0, 0, 0, 0, 0, L, 0, 0, 0, 0, 0, 0, 0, (uint8_t)serial};
    return memcmp(lent[0] + (size_t)(d * Z + z) * CAP * UNIT, h, UNIT) == 0;
}

static void good(void) {
    fresh();
    expect(is(put(5, UINT64_MAX), SORGIZHED_SENT, 1, 0, 0), "the first write has stamp 1, stripe 0, drive 0");
    for (int d = 0; d < N; d++) expect(pointer(d, 0) == 1 && header(d, 0, 1), "a header in zone 0");
    expect(pointer(0, 1) == 0, "no other zone is touched");
    expect(memcmp(lent[4], lent[6], B) == 0, "its block lies in the first eighth at drive 0");
    keep();
    for (int i = 0; i < B; i++) lent[6][i] = (uint8_t)(255 - i);
    expect(is(put(6, 0), SORGIZHED_SENT, 2, 0, 1), "the second needs no store, and goes to drive 1");
    int parity = 1;
    for (int i = 0; i < B; i++) parity &= lent[4][2 * B + i] == (lent[4][i] ^ lent[4][B + i]);
    expect(parity, "parity is worked out at drive 2");
    expect(same(0, 3), "image, pointers and tables stay");
    expect(is(put(0, 0), SORGIZHED_SENT, 3, 1, 0), "stripe 1 begins");
    expect(is(put(0, 0), SORGIZHED_SENT, 4, 1, 2), "its parity drive is 1");
    keep();
    expect(is(put(0, 0), SORGIZHED_REFUSED, 7, 0, 0) && same(0, 6), "stripe 2 is in the next group: wait");
}

static void refused(void) {
    fresh();
    keep();
    expect(is(put(L, 9), SORGIZHED_REFUSED, 4, 0, 0) && same(0, 6), "an address at L");
    expect(is(put(UINT64_MAX, 9), SORGIZHED_REFUSED, 4, 0, 0) && same(0, 6), "the greatest address");
    static const size_t bad[][6] = {{2, 128, 4, 4, 2, 8}, {9, 128, 4, 4, 2, 8}, {3, 64, 4, 4, 2, 8}, {3, 96, 4, 4, 2, 8}, {3, 8192, 4, 4, 2, 8}, {3, 128, 3, 4, 2, 8},
        {3, 128, 1025, 4, 2, 8}, {3, 128, 4, 0, 2, 8}, {3, 128, 4, 65536, 2, 8}, {3, 128, 4, 4, 0, 8}, {3, 128, 4, 4, 257, 8}, {3, 128, 4, 4, 2, 0},
        {3, 128, 4, 4, 2, 9}, {SIZE_MAX, SIZE_MAX, SIZE_MAX, SIZE_MAX, SIZE_MAX, SIZE_MAX}};
    for (size_t i = 0; i < sizeof bad / sizeof *bad; i++) {
        sorgizhed_answer r = sorgizhed_write(bad[i][0], bad[i][1], bad[i][2], bad[i][3], bad[i][4], bad[i][5], offline, OFFLINE, lent[0], IMAGE, lent[1], POINTERS, lent[2],
                                             ADDRESSES, lent[3], COMPACT, lent[4], INFLIGHT, lent[5], STATE, 0, lent[6], B, 9);
        expect(is(r, SORGIZHED_REFUSED, 1, 0, 0) && same(0, 6), "a parameter outside its range");
    }
    for (int i = 0; i < 7; i++)
        for (int less = 1; less <= 1 + (i < 6); less++) {
            size_t n[7];
            memcpy(n, lengths, sizeof n);
            n[i] = less == 1 ? n[i] - 1 : 0;
            uint8_t *p[7];
            for (int k = 0; k < 7; k++) p[k] = n[k] == 0 ? NULL : lent[k];
            sorgizhed_answer r = sorgizhed_write(N, B, Z, S, G, L, offline, OFFLINE, p[0], n[0], p[1], n[1], p[2], n[2], p[3], n[3], p[4], n[4], p[5], n[5], 0, p[6], n[6], 9);
            expect(is(r, SORGIZHED_REFUSED, 2, 0, 0) && same(0, 6), "a buffer one byte short, or none; the block one byte short");
        }
    for (size_t n = 0; n < OFFLINE; n += OFFLINE - 1) {
        sorgizhed_answer r = sorgizhed_write(N, B, Z, S, G, L, n == 0 ? NULL : offline, n, lent[0], IMAGE, lent[1], POINTERS, lent[2], ADDRESSES, lent[3], COMPACT, lent[4], INFLIGHT,
                                             lent[5], STATE, 0, lent[6], B, 9);
        expect(is(r, SORGIZHED_REFUSED, 2, 0, 0) && same(0, 6), "the list of offline zones one byte short, or none");
    }
    offline[7] = 200;
    expect(is(put(L, 9), SORGIZHED_REFUSED, SORGIZHED_FEW_ZONES, 0, 0) && same(0, 6), "a drive with three good zones, before a bad address");
    offline[7] = 0;
    lent[5][1] = 2;
    keep();
    expect(is(put(0, 9), SORGIZHED_REFUSED, 3, 0, 0) && same(0, 6), "a drive is missing");
    fresh();
    for (int z = 0; z < 2; z++) lent[1][4 * z + 3] = 1;
    keep();
    expect(is(put(0, 9), SORGIZHED_REFUSED, 8, 0, 0) && same(0, 6), "two zones empty are too few to open a segment");
    fresh();
    memset(lent[5] + 2, 0xff, 8);
    keep();
    expect(is(put(0, 9), SORGIZHED_REFUSED, 6, 0, 0) && same(0, 6), "the last stamp is given out");
    fresh();
    memset(lent[5] + 10, 0xff, 8);
    keep();
    expect(is(put(0, 9), SORGIZHED_REFUSED, 6, 0, 0) && same(0, 6), "the last serial is given out");
}

static void cut(void) {
    for (int count = 0; count < N; count++) {
        fresh();
        memset(lent[3], 9, COMPACT);
        keep();
        expect(put(1, (uint64_t)count).kind == SORGIZHED_CUT, "cut while headers are stored");
        for (int d = 0; d < N; d++) expect(pointer(d, 0) == (d < count) && (d >= count || header(d, 0, 1)), "just so many headers");
        expect(zero(2) && zero(3) && zero(5) && same(4, 4), "tables and state are zeros, the in-flight buffer is as it came");
        keep();
        sorgizhed_answer r = put(1, 9);
        expect(is(r, SORGIZHED_BAD_ZONE, 9, 0, 0) && same(0, 6), "after a cut every write is refused 9");
    }
    fresh();
    expect(is(put(1, N), SORGIZHED_SENT, 1, 0, 0), "exactly the number due is no cut");
}

/* a larger box with dead zones: each drive's header lies in its own lowest good zone that is empty, and names all three */
static void unlike(void) {
    enum { ZONES = 6, LONG = N * ZONES * CAP * UNIT };
    static uint8_t image[LONG], pointers[4 * N * ZONES], addresses[4 * L], compact[N * ZONES * S], list[N * ZONES], before[LONG];
    fresh();
    memset(addresses, 0xff, sizeof addresses), memset(image, 0x77, sizeof image);
    list[0] = 1, list[ZONES + 1] = 255, list[2 * ZONES] = list[2 * ZONES + 2] = 7; /* zones 0; 1; 0 and 2 */
    pointers[3] = 99, pointers[4 * (2 * ZONES + 3) + 3] = 1;                       /* of an offline zone; zone 3 of drive 2 is in use */
    memcpy(before, image, sizeof image);
    sorgizhed_answer r = sorgizhed_write(N, B, ZONES, S, G, L, list, sizeof list, image, sizeof image, pointers, sizeof pointers, addresses, sizeof addresses, compact, sizeof compact,
                                         lent[4], INFLIGHT, lent[5], STATE, 5, lent[6], B, UINT64_MAX);
    expect(is(r, SORGIZHED_SENT, 1, 0, 0), "a write on drives with dead zones");
    static const uint8_t zone[N] = {1, 0, 1};
    for (int d = 0; d < N; d++) {
        size_t at = (size_t)(d * ZONES + zone[d]) * CAP * UNIT;
        expect(image[at + 1] == 37 + 4 * N && image[at + 4] == d && image[at + 16] == 1 && image[at + 20] == 0 && image[at + 24] == 1, "its header names the zones of all drives");
        expect(pointers[4 * (d * ZONES + zone[d]) + 3] == 1, "and its pointer is 1");
        memset(image + at, 0x77, UNIT);
    }
    expect(memcmp(image, before, sizeof image) == 0, "nothing else is stored");
}

static void hostile(void) {
    unsigned long long x = 88172645463325252ULL;
    int ok = 1;
    for (int round = 0; round < 20000; round++) {
        fresh();
        for (int k = 0; k < 1 + round % 40; k++) {
            x ^= x << 13; x ^= x >> 7; x ^= x << 17;
            int i = (int)(x % 6);
            size_t at = (size_t)(x >> 8) % (i == 5 && (x >> 60) < 12 ? 86 : lengths[i]);
            lent[i][at] = (uint8_t)(x >> 40);
        }
        keep();
        sorgizhed_answer r = put(x % 9, x % 5);
        if (r.kind > SORGIZHED_SENT) ok = 0;
        if (r.kind <= SORGIZHED_BAD_ZONE) ok &= same(0, 6);
        if (r.kind == SORGIZHED_CUT) ok &= zero(2) && zero(3) && zero(5) && same(4, 4) && same(6, 6);
        if (r.kind == SORGIZHED_SENT) ok &= same(2, 3) && same(6, 6);
    }
    expect(ok, "20,000 writes on changed buffers answer, and leave what they must");
}

int main(void) {
    offline = fenced(OFFLINE);
    for (int i = 0; i < 7; i++) {
        lent[i] = fenced(lengths[i]);
        kept[i] = malloc(lengths[i]);
        if (kept[i] == NULL) return 2;
    }
    good();
    refused();
    cut();
    unlike();
    hostile();
    printf("%d passed, %d failed\n", passed, failed);
    return failed != 0;
}
