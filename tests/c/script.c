/* Drives the archive through its C interface from a script on standard input: a command a line, an answer a line. */
#include <inttypes.h>
#include <stdio.h>
#include <stdlib.h>
#include <string.h>
#include "sorgizhed.h"

enum { IMAGE, POINTERS, ADDRESSES, COMPACT, INFLIGHT, OFFLINE, BUFFERS, HASHED = OFFLINE }; /* the list of offline zones is not among the hashes */
static const char *const names[BUFFERS] = {"image", "pointers", "addresses", "compact", "inflight", "offline"};
static sorgizhed_box box;
static uint8_t *bytes[BUFFERS];                      /* each buffer, whole */
static size_t whole[BUFFERS];                        /* its length */
static int shortened[BUFFERS];                       /* lent at another length */
static uint64_t lent[BUFFERS];                       /* that length */
static uint8_t state[SORGIZHED_STATE_LENGTH];

static void stream(uint64_t seed, uint8_t *out, size_t length) {
    for (size_t i = 0; i < length; i++) {
        seed = seed * UINT64_C(6364136223846793005) + UINT64_C(1442695040888963407);
        out[i] = (uint8_t)(seed >> 56);
    }
}

/* 64-bit FNV-1a of the first n bytes, with zeros behind the last where there are fewer */
static uint64_t hash(const uint8_t *p, size_t length, uint64_t n) {
    const uint64_t prime = UINT64_C(0x100000001b3);
    uint64_t h = UINT64_C(0xcbf29ce484222325), k = n < length ? n : length, rest = n - k, power = prime;
    for (uint64_t i = 0; i < k; i++) h = (h ^ p[i]) * prime;
    for (; rest; rest >>= 1, power *= power)
        if (rest & 1) h *= power;
    return h;
}

static uint64_t length_of(int i) { return shortened[i] ? lent[i] : whole[i]; }

/* what the calls are lent; a length above the buffer's own is lent as a number alone: a refused call looks at no byte */
static void lend(void) {
    box.image = bytes[IMAGE], box.image_length = (size_t)length_of(IMAGE);
    box.pointers = bytes[POINTERS], box.pointers_length = (size_t)length_of(POINTERS);
    box.addresses = bytes[ADDRESSES], box.addresses_length = (size_t)length_of(ADDRESSES);
    box.compact = bytes[COMPACT], box.compact_length = (size_t)length_of(COMPACT);
    box.inflight = bytes[INFLIGHT], box.inflight_length = (size_t)length_of(INFLIGHT);
    box.offline = bytes[OFFLINE], box.offline_length = (size_t)length_of(OFFLINE);
    box.state = state, box.state_length = sizeof state;
}

/* parameters outside their ranges: "refused 1" if every call says so, else which one does not */
static const char *bad_params(const uint64_t *v) {
    static const char *const wrong[] = {"write not refused 1", "empty write not refused 1", "land not refused 1", "close not refused 1", "reclaim not refused 1",
                                        "read not refused 1", "fill not refused 1", "restart not refused 1", "rebuild not refused 1"};
    uint8_t block[4096] = {0};
    sorgizhed_box x;
    lend();
    x = box, x.n = v[0], x.b = v[1], x.z = v[2], x.s = v[3], x.g = v[4], x.l = v[5];
    sorgizhed_answer r[] = {sorgizhed_write(SORGIZHED_LENT(&x), 0, block, box.b, SORGIZHED_NO_LIMIT), sorgizhed_write(SORGIZHED_LENT(&x), 0, NULL, 0, SORGIZHED_NO_LIMIT),
                            sorgizhed_land(SORGIZHED_LENT(&x), 0, 0, SORGIZHED_NO_LIMIT),
                            sorgizhed_close(SORGIZHED_LENT(&x)), sorgizhed_reclaim(SORGIZHED_LENT(&x), SORGIZHED_NO_LIMIT),
                            sorgizhed_read(SORGIZHED_LENT(&x), 0), sorgizhed_fill(SORGIZHED_LENT(&x), 0, block, box.b),
                            sorgizhed_restart(SORGIZHED_LENT(&x), SORGIZHED_NO_DRIVE, SORGIZHED_NO_LIMIT), sorgizhed_rebuild(SORGIZHED_LENT(&x), 0, SORGIZHED_NO_LIMIT)};
    for (size_t i = 0; i < sizeof r / sizeof *r; i++)
        if (r[i].kind != SORGIZHED_REFUSED || r[i].first != SORGIZHED_BAD_PARAMETER) return wrong[i];
    return "refused 1";
}

static const char *params(const uint64_t *v) {
    size_t n = v[0], b = v[1], z = v[2], s = v[3], g = v[4], l = v[5], sum = 0;
    size_t lengths[BUFFERS] = {sorgizhed_image_length(n, b, z, s, g, l), sorgizhed_pointers_length(n, b, z, s, g, l),
                               sorgizhed_addresses_length(n, b, z, s, g, l), sorgizhed_compact_length(n, b, z, s, g, l),
                               sorgizhed_inflight_length(n, b, z, s, g, l), sorgizhed_offline_length(n, b, z, s, g, l)};
    if (lengths[IMAGE] == 0) return bad_params(v);
    for (int i = 0; i < BUFFERS; i++) sum += lengths[i];
    if (sum > UINT64_C(1) << 32) return "error"; /* more than a test machine can lend */
    for (int i = 0; i < BUFFERS; i++) {
        free(bytes[i]);
        bytes[i] = calloc(lengths[i], 1);
        if (bytes[i] == NULL) { perror("script"); exit(2); }
        whole[i] = lengths[i], shortened[i] = 0;
    }
    memset(state, 0, sizeof state);
    box.n = n, box.b = b, box.z = z, box.s = s, box.g = g, box.l = l;
    return "ok";
}

static const char *drivejunk(uint64_t d, uint64_t seed) {
    if (d >= box.n) return "error";
    size_t image = whole[IMAGE] / box.n, pointers = whole[POINTERS] / box.n;
    stream(seed, bytes[IMAGE] + d * image, image);
    stream(seed + 1, bytes[POINTERS] + d * pointers, pointers);
    return "ok";
}

static void answer(sorgizhed_answer r, const uint8_t *filled, size_t length) {
    switch (r.kind) {
    case SORGIZHED_REFUSED: printf("refused %" PRIu64, r.first); break;
    case SORGIZHED_BAD_ZONE: printf("refused %" PRIu64 " %" PRIu64, r.first, r.second); break;
    case SORGIZHED_CUT: printf("cut"); break;
    case SORGIZHED_SENT: printf("sent %" PRIu64 " %" PRIu64 " %" PRIu64, r.first, r.second, r.third); break;
    case SORGIZHED_LANDED: printf("landed %" PRIu64, r.first); break;
    case SORGIZHED_CLOSED: printf("closed %" PRIu64, r.first); break;
    case SORGIZHED_COPIED: printf("copied %" PRIu64 " %" PRIu64 " %" PRIu64, r.first, r.second, r.third); break;
    case SORGIZHED_RESET: printf("reset %" PRIu64, r.first); break;
    case SORGIZHED_PART: printf("part %" PRIu64 " %" PRIu64, r.first, r.second); break;
    case SORGIZHED_NEVER: printf("never %" PRIu64, r.first); break;
    case SORGIZHED_LOST: printf("lost %" PRIu64, r.first); break;
    case SORGIZHED_FILLED: printf("filled %016" PRIx64 " %" PRIu64, hash(filled, length, length), r.first); break;
    case SORGIZHED_RESTARTED: printf("restarted %" PRIu64, r.first); break;
    case SORGIZHED_REBUILT: printf("rebuilt"); break;
    case SORGIZHED_NOTHING: printf("nothing"); break;
    default: printf("unknown kind %" PRIu64, r.kind);
    }
    printf(" |");
    for (int i = 0; i < HASHED; i++) printf(" %016" PRIx64, hash(bytes[i], whole[i], length_of(i)));
    printf("\n");
}

/* a call: its answer and the hashes of the lent buffers */
static void call(const char *name, const uint64_t *v) {
    uint8_t block[4096 + 1];
    size_t b = box.b;
    lend();
    if (strcmp(name, "write") == 0) {
        stream(v[1], block, b);
        answer(sorgizhed_write(SORGIZHED_LENT(&box), v[0], block, b, v[2]), NULL, 0);
    } else if (strcmp(name, "writelen") == 0) {
        memset(block, 0, sizeof block);
        answer(sorgizhed_write(SORGIZHED_LENT(&box), v[0], v[1] == 0 ? NULL : block, (size_t)v[1], v[2]), NULL, 0);
    } else if (strcmp(name, "land") == 0) answer(sorgizhed_land(SORGIZHED_LENT(&box), (size_t)v[0], (size_t)v[1], v[2]), NULL, 0);
    else if (strcmp(name, "close") == 0) answer(sorgizhed_close(SORGIZHED_LENT(&box)), NULL, 0);
    else if (strcmp(name, "reclaim") == 0) answer(sorgizhed_reclaim(SORGIZHED_LENT(&box), v[0]), NULL, 0);
    else if (strcmp(name, "read") == 0) answer(sorgizhed_read(SORGIZHED_LENT(&box), v[0]), NULL, 0);
    else if (strcmp(name, "fill") == 0) {
        stream(v[1], block, b);
        sorgizhed_answer r = sorgizhed_fill(SORGIZHED_LENT(&box), v[0], block, b);
        answer(r, block, b);
    } else if (strcmp(name, "restart") == 0) answer(sorgizhed_restart(SORGIZHED_LENT(&box), (size_t)v[0], v[1]), NULL, 0);
    else answer(sorgizhed_rebuild(SORGIZHED_LENT(&box), (size_t)v[0], v[1]), NULL, 0);
}

static const struct { const char *name; int numbers; } calls[] = {{"write", 3}, {"writelen", 3}, {"land", 3}, {"close", 1}, {"reclaim", 1},
                                                                  {"read", 1}, {"fill", 2}, {"restart", 2}, {"rebuild", 2}};

/* a decimal number up to 2^64 - 1 */
static int number(const char *w, uint64_t *out) {
    uint64_t n = 0;
    if (w == NULL || *w == 0) return 0;
    for (; *w; w++) {
        if (*w < '0' || *w > '9') return 0;
        uint64_t d = (uint64_t)(*w - '0');
        if (n > (UINT64_MAX - d) / 10) return 0;
        n = n * 10 + d;
    }
    *out = n;
    return 1;
}

/* the words behind a command as numbers, exactly so many */
static int numbers(char *const *words, int n, int want, uint64_t *v) {
    if (n != want) return 0;
    for (int i = 0; i < n; i++)
        if (!number(words[i], &v[i])) return 0;
    return 1;
}

static const char *on_buffer(const char *name, char *const *words, int n) {
    uint64_t v[2] = {0, 0};
    int k = 0;
    if (n < 2) return "error";
    while (k < BUFFERS && strcmp(names[k], words[0]) != 0) k++;
    if (k == BUFFERS) return "error";
    if (strcmp(name, "cutlen") == 0) {
        if (n != 2) return "error";
        shortened[k] = strcmp(words[1], "-1") != 0;
        if (shortened[k] && !number(words[1], &lent[k])) { shortened[k] = 0; return "error"; }
        return "ok";
    }
    if (!numbers(words + 1, n - 1, strcmp(name, "junk") == 0 ? 1 : 2, v)) return "error";
    if (strcmp(name, "junk") == 0) stream(v[0], bytes[k], whole[k]);
    else if (v[1] > 255) return "error";
    else if (whole[k] > 0) bytes[k][v[0] % whole[k]] = (uint8_t)v[1];
    return "ok";
}

static void command(const char *name, char *const *words, int n) {
    uint64_t v[6] = {0};
    for (size_t i = 0; i < sizeof calls / sizeof *calls; i++)
        if (strcmp(calls[i].name, name) == 0) {
            if (numbers(words, n, calls[i].numbers, v)) call(name, v);
            else puts("error");
            return;
        }
    if (strcmp(name, "params") == 0) puts(numbers(words, n, 6, v) ? params(v) : "error");
    else if (strcmp(name, "drivejunk") == 0) puts(numbers(words, n, 2, v) ? drivejunk(v[0], v[1]) : "error");
    else if (strcmp(name, "junk") == 0 || strcmp(name, "poke") == 0 || strcmp(name, "cutlen") == 0) puts(on_buffer(name, words, n));
    else puts("error");
}

int main(void) {
    char line[1024], *words[8];
    while (fgets(line, sizeof line, stdin) != NULL) {
        int n = 0;
        for (char *w = strtok(line, " \t\r\n"); w != NULL && n < 8; w = strtok(NULL, " \t\r\n")) words[n++] = w;
        if (n > 0) command(words[0], words + 1, n - 1);
    }
    for (int i = 0; i < BUFFERS; i++) free(bytes[i]);
    return ferror(stdin) || fflush(stdout) != 0;
}
