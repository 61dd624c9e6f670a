/* Files in blocks. Under a file's address lies its index block: magic, length, checksum, address of the next block (8 bytes each), then the file's first
 * bytes; the other blocks have magic and the address of the next, then bytes. A file that takes the place of another is written to addresses that no file
 * uses, and acknowledged there, before the one index block changes: it is replaced as a whole or not at all. */
#define _XOPEN_SOURCE 700
#include <errno.h>
#include <inttypes.h>
#include <stdio.h>
#include <stdlib.h>
#include <string.h>
#include <sys/stat.h>

#include "box.h"
#include "bytes.h"

#define INDEX UINT64_C(0x535a46494c450001)
#define DATA UINT64_C(0x535a444154410001)
#define NO_NEXT UINT64_MAX
enum { INDEX_HEAD = 32, DATA_HEAD = 16 };

static uint64_t checksum(const uint8_t *p, size_t n) {
    uint64_t h = UINT64_C(0xcbf29ce484222325) ^ n;
    for (size_t i = 0; i < n; i++) h = (h ^ p[i]) * UINT64_C(0x100000001b3);
    return h;
}

/* blocks behind the index block */
static size_t more_blocks(const box *x, size_t length) {
    size_t b = x->files.box.b, head = b - INDEX_HEAD;
    return length <= head ? 0 : (length - head + b - DATA_HEAD - 1) / (b - DATA_HEAD);
}

static uint64_t most_bytes(const box *x) {
    size_t b = x->files.box.b;
    return b - INDEX_HEAD + (uint64_t)(x->files.box.l - 1) * (b - DATA_HEAD);
}

/* ---- which addresses are used */

/* the magic of a written block; 0 where none was written */
static int magic_at(box *x, uint64_t address, uint8_t *block, uint64_t *magic) {
    *magic = 0;
    if (sorgizhed_array_read(&x->array, address).kind == SORGIZHED_NEVER) return 1;
    sorgizhed_answer r = sorgizhed_array_fill(&x->array, address, block);
    if (r.kind != SORGIZHED_FILLED) return say(x, "read", r);
    *magic = number_at(block, 8);
    return 1;
}

/* marks the blocks behind an index block with its address + 1 */
static int mark_chain(box *x, uint64_t index, uint64_t next, uint64_t *user) {
    uint8_t block[4096];
    uint64_t magic;
    while (next < x->files.box.l && user[next] == 0) {
        if (!magic_at(x, next, block, &magic)) return 0;
        if (magic != DATA) return 1; /* something else was written there since */
        user[next] = index + 1;
        next = number_at(block + 8, 8);
    }
    return 1;
}

/* For each address 0 if no file and nothing else uses it, else that of the user + 1. Where enough addresses were never written, no block is read. */
static int find_users(box *x, size_t need, uint64_t *user) {
    uint8_t block[4096];
    uint64_t magic;
    size_t l = x->files.box.l, never = 0;
    for (uint64_t i = 0; i < l; i++) {
        int unused = sorgizhed_array_read(&x->array, i).kind == SORGIZHED_NEVER;
        user[i] = unused ? 0 : i + 1, never += (size_t)unused;
    }
    if (never > need) return 1;
    memset(user, 0, l * sizeof *user);
    for (uint64_t i = 0; i < l; i++) {
        if (!magic_at(x, i, block, &magic)) return 0;
        if (magic == INDEX && !mark_chain(x, i, number_at(block + 24, 8), user)) return 0;
        if (magic != 0 && magic != DATA) user[i] = i + 1;
    }
    return 1;
}

/* the file that has a block under an address which is not its own; 1 if none does */
static int address_free(box *x, uint64_t address, uint64_t *user) {
    uint8_t block[4096];
    uint64_t magic;
    if (!magic_at(x, address, block, &magic)) return 0;
    if (magic != DATA) return 1;
    if (!find_users(x, SIZE_MAX - 1, user)) return 0;
    if (user[address] == 0 || user[address] == address + 1) return 1;
    fprintf(stderr, "address %" PRIu64 " holds a part of the file at address %" PRIu64 "\n", address, user[address] - 1);
    return 0;
}

/* ---- put */

/* a file's bytes, no more than so many */
static uint8_t *read_whole(const char *name, uint64_t most, size_t *length) {
    struct stat s;
    FILE *f = fopen(name, "rb");
    if (f == NULL || fstat(fileno(f), &s) != 0) { fprintf(stderr, "%s: %s\n", name, strerror(errno)); if (f != NULL) fclose(f); return NULL; }
    size_t room = (size_t)most + 1, n = 0, k;
    if (S_ISREG(s.st_mode)) room = (uint64_t)s.st_size <= most ? (size_t)s.st_size + 1 : 0;
    uint8_t *p = room > 0 ? malloc(room) : NULL;
    while (p != NULL && n < room && (k = fread(p + n, 1, room - n, f)) > 0) n += k;
    int bad = ferror(f), long_one = room == 0 || n > most;
    fclose(f);
    *length = n;
    if (p != NULL && !bad && !long_one) return p;
    if (long_one) fprintf(stderr, "%s is too long: the array holds files of at most %" PRIu64 " bytes\n", name, most);
    else fprintf(stderr, "%s: %s\n", name, bad ? "cannot be read" : "too large for memory");
    free(p);
    return NULL;
}

static int send(box *x, uint64_t address, const uint8_t *block) {
    sorgizhed_answer r = sorgizhed_array_send(&x->array, address, block, 0);
    return r.kind == SORGIZHED_SENT || say(x, "write", r);
}

/* a write of no bytes: all before it is acknowledged */
static int end(box *x, uint64_t address) {
    sorgizhed_answer r = sorgizhed_array_end(&x->array, address);
    return r.kind == SORGIZHED_DURABLE || say(x, "write", r);
}

/* the blocks behind the index block, last first, each at the highest free address below the one before; where the first of them lies */
static int put_chain(box *x, const uint8_t *p, size_t length, uint64_t own, const uint64_t *user, uint64_t *first) {
    uint8_t block[4096];
    size_t b = x->files.box.b, room = b - DATA_HEAD, count = more_blocks(x, length);
    uint64_t at = x->files.box.l;
    *first = NO_NEXT;
    for (size_t i = count; i-- > 0;) {
        size_t from = b - INDEX_HEAD + i * room, k = length - from < room ? length - from : room;
        do {
            if (at-- == 0) { fprintf(stderr, "%zu blocks are needed, and so many addresses are not free\n", count + 1); return 0; }
        } while (user[at] != 0 || at == own);
        memset(block, 0, b);
        put_number(block, 8, DATA), put_number(block + 8, 8, *first);
        memcpy(block + DATA_HEAD, p + from, k);
        *first = at;
        if (!send(x, at, block)) return 0;
        show_progress("put, blocks", count - i, count + 1);
    }
    return count == 0 || end(x, own);
}

static int put_index(box *x, uint64_t address, const uint8_t *p, size_t length, uint64_t first) {
    uint8_t block[4096] = {0};
    size_t room = x->files.box.b - INDEX_HEAD;
    put_number(block, 8, INDEX), put_number(block + 8, 8, length), put_number(block + 16, 8, checksum(p, length)), put_number(block + 24, 8, first);
    memcpy(block + INDEX_HEAD, p, length < room ? length : room);
    return send(x, address, block) && end(x, address);
}

int put_file(box *x, uint64_t address, const char *name) {
    size_t length, l = x->files.box.l;
    uint64_t first;
    if (address >= l) { fprintf(stderr, "the array has %zu addresses, and %" PRIu64 " is none of them\n", l, address); return 0; }
    uint8_t *p = read_whole(name, most_bytes(x), &length);
    if (p == NULL) return 0;
    uint64_t *user = calloc(l, sizeof *user);
    if (user == NULL) { fprintf(stderr, "not enough memory\n"); free(p); return 0; }
    int ok = address_free(x, address, user) && (more_blocks(x, length) == 0 || find_users(x, more_blocks(x, length), user));
    ok = ok && put_chain(x, p, length, address, user, &first) && put_index(x, address, p, length, first);
    free(user), free(p);
    if (ok) printf("%zu bytes in %zu blocks at address %" PRIu64 ", acknowledged with stamp %" PRIu64 "\n", length, more_blocks(x, length) + 1, address,
                   sorgizhed_stamp(sorgizhed_array_read(&x->array, address)));
    return ok;
}

/* ---- get */

/* the file's bytes behind those in the index block */
static int read_chain(box *x, uint64_t next, uint8_t *p, size_t length) {
    uint8_t block[4096];
    uint64_t magic;
    size_t room = x->files.box.b - DATA_HEAD;
    for (size_t n = 0; n < length; n += room, next = number_at(block + 8, 8)) {
        if (next >= x->files.box.l || !magic_at(x, next, block, &magic) || magic != DATA) return 0;
        memcpy(p + n, block + DATA_HEAD, length - n < room ? length - n : room);
    }
    return 1;
}

int get_file(box *x, uint64_t address) {
    uint8_t block[4096];
    uint64_t magic;
    sorgizhed_answer r = sorgizhed_array_read(&x->array, address);
    if (r.kind == SORGIZHED_REFUSED || r.kind == SORGIZHED_BAD_ZONE) return say(x, "read", r);
    if (r.kind == SORGIZHED_NEVER) { fprintf(stderr, "address %" PRIu64 " was never written\n", address); return 0; }
    if (!magic_at(x, address, block, &magic)) return 0;
    uint64_t length = number_at(block + 8, 8);
    if (magic != INDEX || length > most_bytes(x)) { fprintf(stderr, "no file begins at address %" PRIu64 "\n", address); return 0; }
    uint8_t *p = malloc((size_t)length + 1);
    if (p == NULL) { fprintf(stderr, "not enough memory for %" PRIu64 " bytes\n", length); return 0; }
    size_t room = x->files.box.b - INDEX_HEAD, head = length < room ? (size_t)length : room;
    memcpy(p, block + INDEX_HEAD, head);
    int ok = read_chain(x, number_at(block + 24, 8), p + head, (size_t)length - head) && checksum(p, (size_t)length) == number_at(block + 16, 8);
    if (!ok) fprintf(stderr, "the file at address %" PRIu64 " is not whole: other blocks were written over its own\n", address);
    else if (fwrite(p, 1, (size_t)length, stdout) != length) { fprintf(stderr, "standard output: %s\n", strerror(errno)); ok = 0; }
    else fprintf(stderr, "the file at address %" PRIu64 " has stamp %" PRIu64 "\n", address, sorgizhed_stamp(r)); /* its index block's, sent last */
    free(p);
    return ok;
}
