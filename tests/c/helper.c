/* The helper by itself: its words, parameters that are refused, drives whose functions fail, reads of what is in flight, and who is told what. */
#include "ram.h"

static int passed, failed;

static void expect(int ok, const char *what) {
    if (ok) passed++;
    else { failed++; printf("not so: %s\n", what); }
}

static const sorgizhed_box shape = {.n = 4, .b = 128, .z = 5, .s = 6, .g = 3, .l = 30};

/* ---- words */

static void words(void) {
    char text[400], cut[400];
    for (uint64_t kind = 0; kind < 110; kind++) {
        sorgizhed_answer r = {kind, kind == SORGIZHED_REFUSED ? 5 : UINT64_MAX, 1, 2};
        expect(sorgizhed_words(r, text, sizeof text) == text && strlen(text) > 4 && strchr(text, '%') == NULL, "an answer has words");
        for (size_t room = 1; room < 60; room++) {
            sorgizhed_words(r, cut, room);
            expect(strlen(cut) < room && strncmp(cut, text, strlen(cut)) == 0, "as many as find room");
        }
    }
    sorgizhed_answer sent = {SORGIZHED_SENT, 18, 2, 1}, bad = {SORGIZHED_BAD_ZONE, 9, 3, 0}, odd = {SORGIZHED_REFUSED, UINT64_MAX, 0, 0};
    expect(strcmp(sorgizhed_words(sent, text, sizeof text), "sent with stamp 18 in stripe 2 on drive 1") == 0, "sent");
    expect(strcmp(sorgizhed_words(bad, text, sizeof text), "refused (9): the drives or tables are damaged in zone 3") == 0, "damaged");
    sorgizhed_answer nothing = {SORGIZHED_NOTHING, 0, 0, 0};
    expect(strcmp(sorgizhed_words(nothing, text, sizeof text), "no stripe is filling: nothing is done") == 0 && sorgizhed_is_result(nothing), "nothing");
    static const struct { sorgizhed_answer r; uint64_t stamp; const char *words; } reads[] = {
        {{SORGIZHED_PART, 84, 18, 0}, 18, "the block begins at byte 84 of the image, with stamp 18"}, {{SORGIZHED_NEVER, 0, 0, 0}, 0, "never written"},
        {{SORGIZHED_LOST, 18, 0, 0}, 18, "on the missing drive, with stamp 18"}, {{SORGIZHED_FILLED, 18, 0, 0}, 18, "filled with stamp 18"}, {{SORGIZHED_FILLED, 0, 0, 0}, 0, "never written: filled with zeros"},
        {{SORGIZHED_COPIED, 18, 2, 1}, 18, "copied with stamp 18 into stripe 2 on drive 1"}, {{SORGIZHED_LANDED, 2, 0, 0}, 0, "landed; writes acknowledged: 2"}};
    for (size_t i = 0; i < sizeof reads / sizeof *reads; i++)
        expect(strcmp(sorgizhed_words(reads[i].r, text, sizeof text), reads[i].words) == 0 && sorgizhed_stamp(reads[i].r) == reads[i].stamp, reads[i].words);
    expect(sorgizhed_stamp(sent) == 18 && sorgizhed_stamp(bad) == 0, "the stamp of an answer");
    expect(strcmp(sorgizhed_words(odd, text, sizeof text), "refused by an unknown number") == 0 && *sorgizhed_words(odd, text, 0) == 0, "odd");
}

/* ---- drives that fail */

static ram memory;
static size_t bad_drive; /* none of its functions works */
static uint64_t calls;

static int at(size_t drive) { return calls++, drive == bad_drive ? -1 : 0; }
static int bad_report(void *who, size_t drive, uint8_t *p) { return at(drive) ? -1 : ram_report(who, drive, p); }
static int bad_read(void *who, size_t drive, size_t zone, size_t block, size_t n, uint8_t *p) { return at(drive) ? -1 : ram_read(who, drive, zone, block, n, p); }
static int bad_put(void *who, size_t drive, size_t zone, size_t block, const uint8_t *p) { return at(drive) ? -1 : ram_put(who, drive, zone, block, p); }
static int bad_reset(void *who, size_t drive, size_t zone) { return at(drive) ? -1 : ram_reset(who, drive, zone); }
static int bad_flush(void *who, size_t drive) { return at(drive) ? -1 : ram_flush(who, drive); }

static int fails(sorgizhed_answer r) { return r.kind == SORGIZHED_DRIVE_FAILED && r.first == bad_drive; }

static void failing(void) {
    const sorgizhed_drives good = {&memory, NULL, bad_report, bad_read, bad_put, bad_reset, bad_flush, NULL};
    uint8_t block[128] = {0};
    sorgizhed_array a;
    for (size_t drive = 0; drive < shape.n; drive++) {
        ram_make(&memory, &shape);
        bad_drive = drive;
        expect(fails(sorgizhed_array_open(&a, &shape, &good, SORGIZHED_NO_DRIVE)), "a drive that reports nothing");
        sorgizhed_array_shut(&a);
        expect(sorgizhed_array_open(&a, &shape, &good, drive).kind == SORGIZHED_OPENED, "a missing drive is not asked");
        sorgizhed_array_shut(&a);
        bad_drive = SORGIZHED_NO_DRIVE;
        expect(sorgizhed_array_open(&a, &shape, &good, SORGIZHED_NO_DRIVE).kind == SORGIZHED_OPENED, "open");
        expect(sorgizhed_array_restart(&a, SORGIZHED_NO_DRIVE).kind == SORGIZHED_RESTARTED, "restart");
        bad_drive = drive;
        sorgizhed_answer r = sorgizhed_array_send(&a, 0, block, 0);
        expect(fails(r), "a put that fails");
        uint64_t before = calls;
        expect(fails(sorgizhed_array_settle(&a)) && fails(sorgizhed_array_restart(&a, drive)) && fails(sorgizhed_array_get(&a, 0, block)), "the run is over");
        expect(fails(sorgizhed_array_reclaim(&a)) && fails(sorgizhed_array_close(&a)) && fails(sorgizhed_array_rebuild(&a, drive)) && fails(sorgizhed_array_flush(&a)), "for every call");
        expect(fails(sorgizhed_array_write_nothing(&a, 0)) && fails(sorgizhed_array_end(&a, 0)), "for an empty write");
        expect(calls == before, "and no drive hears of it");
        sorgizhed_array_shut(&a);
        ram_free(&memory);
    }
    bad_drive = SORGIZHED_NO_DRIVE;
}

/* ---- a run */

static uint64_t told[64], flushed_when_told;

static void note(void *who, uint64_t address, uint64_t tag) {
    const sorgizhed_array *a = who;
    told[tag]++;
    flushed_when_told += memory.logged == 0 && a->box.l > address;
}

static void run(void) {
    uint8_t block[128] = {0}, back[128];
    sorgizhed_array a;
    ram_make(&memory, &shape);
    sorgizhed_drives d = ram_drives(&memory);
    sorgizhed_box wrong = shape;
    wrong.l = 1000;
    expect(sorgizhed_array_open(&a, &wrong, &d, SORGIZHED_NO_DRIVE).first == SORGIZHED_BAD_PARAMETER, "a parameter out of range");
    sorgizhed_array_shut(&a);
    expect(sorgizhed_array_open(&a, &shape, &d, SORGIZHED_NO_DRIVE).kind == SORGIZHED_OPENED && sorgizhed_array_restart(&a, SORGIZHED_NO_DRIVE).kind == SORGIZHED_RESTARTED, "open");
    a.told = note, a.told_who = &a;
    uint64_t stamp[7] = {0};
    for (uint64_t i = 0; i < 60; i++) {
        block[0] = (uint8_t)i;
        sorgizhed_answer s = sorgizhed_array_send(&a, i % 7, block, i), g = sorgizhed_array_get(&a, i % 7, back);
        expect(s.kind == SORGIZHED_SENT && sorgizhed_stamp(s) == i + 1, "send");
        expect(g.kind == SORGIZHED_FILLED && back[0] == (uint8_t)i && sorgizhed_stamp(g) == sorgizhed_stamp(s), "the newest, landed or not, with the stamp of its send");
        expect(sorgizhed_stamp(sorgizhed_array_read(&a, i % 7)) <= sorgizhed_stamp(g), "what has landed is no newer");
        stamp[i % 7] = sorgizhed_stamp(s);
        if (sorgizhed_array_waiting(&a) > 3) sorgizhed_array_land_one(&a, sorgizhed_array_waiting(&a) - 1);
    }
    sorgizhed_answer never = sorgizhed_array_get(&a, 8, back);
    expect(never.kind == SORGIZHED_FILLED && back[0] == 0 && never.first == 0 && sorgizhed_array_get(&a, 30, back).kind == SORGIZHED_REFUSED, "never written, too high");
    expect(sorgizhed_array_end(&a, 30).first == SORGIZHED_BAD_ADDRESS, "an end at no address");
    sorgizhed_answer r = sorgizhed_array_end(&a, 3);
    expect(r.kind == SORGIZHED_DURABLE && r.first == 60 && a.acknowledged == 60 && flushed_when_told == 60, "all acknowledged, and durable when told");
    for (uint64_t i = 0; i < 60; i++) expect(told[i] == 1, "each once");
    for (uint64_t i = 0; i < 7; i++)
        expect(sorgizhed_stamp(sorgizhed_array_read(&a, i)) == stamp[i] && sorgizhed_stamp(sorgizhed_array_get(&a, i, back)) == stamp[i], "its stamp, once it has landed");
    expect(sorgizhed_array_write_nothing(&a, 3).kind == SORGIZHED_NOTHING, "none is filling behind it");
    expect(sorgizhed_array_send(&a, 3, block, 61).kind == SORGIZHED_SENT && sorgizhed_array_write_nothing(&a, 3).kind == SORGIZHED_CLOSED, "a scan of one block");
    expect(sorgizhed_array_waiting(&a) == shape.n && sorgizhed_array_settle(&a).first == 61 && sorgizhed_array_end(&a, 0).first == 61, "all its chunks wait, and land");
    expect(a.flushes < 40 * shape.n, "few flushes");
    expect(sorgizhed_array_restart(&a, 2).kind == SORGIZHED_RESTARTED && sorgizhed_array_send(&a, 0, block, 0).first == SORGIZHED_READ_ONLY, "read-only with a drive missing");
    for (uint64_t i = 0; i < 7; i++) expect(sorgizhed_stamp(sorgizhed_array_read(&a, i)) == (i == 3 ? 61 : stamp[i]), "its stamp, with a drive missing");
    expect(sorgizhed_array_end(&a, 0).first == SORGIZHED_READ_ONLY && sorgizhed_array_settle(&a).kind == SORGIZHED_DURABLE, "an empty write is a write; nothing is in flight");
    sorgizhed_array_shut(&a);
    ram_free(&memory);
}

/* scans of four blocks each, of all addresses and of two in turn, on a box that reclaim keeps short of zones: an empty write is refused 5 now and then, and an end makes the room itself */
static void scans(void) {
    static const sorgizhed_box small = {.n = 3, .b = 128, .z = 4, .s = 2, .g = 2, .l = 4};
    uint8_t block[128] = {0}, back[128];
    int short_of_zones = 0;
    sorgizhed_array a;
    ram_make(&memory, &small);
    sorgizhed_drives d = ram_drives(&memory);
    expect(sorgizhed_array_open(&a, &small, &d, SORGIZHED_NO_DRIVE).kind == SORGIZHED_OPENED && sorgizhed_array_restart(&a, SORGIZHED_NO_DRIVE).kind == SORGIZHED_RESTARTED, "open");
    for (uint64_t i = 0; i < 60; i++) {
        uint64_t sent = 0;
        for (uint64_t k = 0; k < 4; k++) {
            block[0] = (uint8_t)(4 * i + k);
            sorgizhed_answer r = sorgizhed_array_send(&a, i % 2 ? k % 2 : k, block, 0);
            expect(r.kind == SORGIZHED_SENT, "a block");
            sent = sorgizhed_stamp(r);
        }
        expect(sorgizhed_array_end(&a, 3).first == 4 * (i + 1), "a scan");
        sorgizhed_array_reclaim(&a);
        sorgizhed_answer r = sorgizhed_array_write_nothing(&a, 0);
        short_of_zones += r.kind == SORGIZHED_REFUSED && r.first == SORGIZHED_NOTHING_TO_DO;
        expect(sorgizhed_array_end(&a, 0).kind == SORGIZHED_DURABLE, "an end");
        r = sorgizhed_array_fill(&a, i % 2 ? 1 : 3, back);
        expect(r.kind == SORGIZHED_FILLED && back[0] == (uint8_t)(4 * i + 3) && sorgizhed_stamp(r) == sent, "the newest, landed, with its stamp");
        for (uint64_t k = 0; k < 4; k++) expect(sorgizhed_stamp(sorgizhed_array_read(&a, k)) <= sent, "copies keep their stamps");
    }
    expect(short_of_zones > 0 && a.copied > 0 && a.resets > 0, "zones were scarce");
    printf("%d empty writes were refused for scarce zones\n", short_of_zones);
    sorgizhed_array_shut(&a);
    ram_free(&memory);
}

/* a box that is full while the last stripes of a segment are in flight: a write is refused 8, not 7, and a send makes the room itself; so does sorgizhed_array_room where reclaim is refused 8 */
static void full(void) {
    static const sorgizhed_box small = {.n = 3, .b = 128, .z = 4, .s = 4, .g = 2, .l = 8};
    uint8_t block[128] = {0};
    int crowded = 0, waits = 0;
    sorgizhed_array a;
    ram_make(&memory, &small);
    sorgizhed_drives d = ram_drives(&memory);
    expect(sorgizhed_array_open(&a, &small, &d, SORGIZHED_NO_DRIVE).kind == SORGIZHED_OPENED && sorgizhed_array_restart(&a, SORGIZHED_NO_DRIVE).kind == SORGIZHED_RESTARTED, "open");
    for (uint64_t i = 0; i < 400; i++) {
        sorgizhed_answer r = sorgizhed_array_write(&a, i % 8, block, 0);
        if (r.kind == SORGIZHED_REFUSED) {
            int flies = sorgizhed_array_waiting(&a) > 0;
            crowded += flies && r.first == SORGIZHED_NO_ZONE_LEFT;
            waits += flies && r.first == SORGIZHED_WAIT;
            r = sorgizhed_array_send(&a, i % 8, block, 0);
        }
        expect(r.kind == SORGIZHED_SENT, "a write on a box that is full now and then");
    }
    expect(crowded > 20 && waits > 20, "refused 8 and 7 with something in flight");
    printf("%d writes were refused 8 and %d refused 7 with something in flight\n", crowded, waits);
    sorgizhed_array_shut(&a);
    ram_free(&memory);

    /* the first segment is sealed, the second full, its last group in flight; the host is told that zone 3 is in use */
    ram_make(&memory, &small);
    d = ram_drives(&memory);
    expect(sorgizhed_array_open(&a, &small, &d, SORGIZHED_NO_DRIVE).kind == SORGIZHED_OPENED && sorgizhed_array_restart(&a, SORGIZHED_NO_DRIVE).kind == SORGIZHED_RESTARTED, "open");
    for (uint64_t i = 0; i < 16; i++) expect(sorgizhed_array_send(&a, i % 8, block, 0).kind == SORGIZHED_SENT, "two segments");
    a.box.pointers[4 * 3 + 3] = 1;
    sorgizhed_answer r = sorgizhed_array_reclaim(&a);
    expect(r.kind == SORGIZHED_REFUSED && r.first == SORGIZHED_NO_ZONE_LEFT && sorgizhed_array_waiting(&a) > 0, "a copy refused 8 with something in flight");
    expect(sorgizhed_array_room(&a, 2).kind == SORGIZHED_DURABLE && a.resets > 0, "what is in flight lands, and a segment comes free");
    sorgizhed_array_shut(&a);
    ram_free(&memory);
}

/* ---- the list of offline zones */

static void lists(void) {
    static uint8_t dead[4 * 6];
    static const sorgizhed_box odd = {.n = 4, .b = 128, .z = 6, .s = 2, .g = 2, .l = 6, .offline = dead};
    uint8_t block[128] = {0};
    char text[400];
    sorgizhed_array a;
    dead[0] = dead[1 * 6 + 3] = 1, dead[3 * 6 + 5] = 255, dead[3 * 6 + 2] = 9;
    ram_make(&memory, &odd);
    sorgizhed_drives d = ram_drives(&memory);
    expect(sorgizhed_array_open(&a, &odd, &d, SORGIZHED_NO_DRIVE).kind == SORGIZHED_OPENED && sorgizhed_array_restart(&a, SORGIZHED_NO_DRIVE).kind == SORGIZHED_RESTARTED, "open");
    expect(sorgizhed_array_empty_zones(&a) == 4, "the fewest empty zones of any drive");
    for (uint64_t i = 0; i < 200; i++) block[0] = (uint8_t)i, expect(sorgizhed_array_send(&a, i % 6, block, 0).kind == SORGIZHED_SENT, "a write on drives with dead zones");
    expect(sorgizhed_array_settle(&a).first == 200 && a.resets > 0, "all acknowledged");
    expect(sorgizhed_array_restart(&a, 3).kind == SORGIZHED_RESTARTED && sorgizhed_array_rebuild(&a, 3).kind == SORGIZHED_REBUILT, "rebuilt");
    expect(sorgizhed_array_restart(&a, 3).kind == SORGIZHED_RESTARTED, "missing again");
    memory.offline[3 * 6 + 4] = 1;
    sorgizhed_answer r = sorgizhed_array_rebuild(&a, 3);
    expect(r.kind == SORGIZHED_OTHER_LIST && r.first == 3 && r.second == 4 && !sorgizhed_is_result(r), "a new drive with another dead zone");
    expect(strstr(sorgizhed_words(r, text, sizeof text), "drive 3 says that its zone 4 is offline") != NULL, "in words");
    sorgizhed_array_shut(&a);
    r = sorgizhed_array_open(&a, &odd, &d, SORGIZHED_NO_DRIVE);
    expect(r.kind == SORGIZHED_OTHER_LIST && r.first == 3, "a drive that has lost a zone");
    sorgizhed_array_shut(&a);
    memory.offline[3 * 6 + 4] = 0, memory.offline[0] = 0;
    expect(sorgizhed_array_open(&a, &odd, &d, SORGIZHED_NO_DRIVE).kind == SORGIZHED_OPENED, "a drive that has a zone more");
    expect(sorgizhed_array_restart(&a, 0).kind == SORGIZHED_RESTARTED && sorgizhed_array_rebuild(&a, 0).kind == SORGIZHED_REBUILT, "is rebuilt");
    expect(memory.pointer[0] == 2654435769u, "and that zone stays as it is");
    sorgizhed_array_shut(&a);
    memory.offline[1] = 1;
    expect(sorgizhed_array_open(&a, &odd, &d, 0).kind == SORGIZHED_OPENED, "a missing drive is not asked");
    sorgizhed_array_shut(&a);
    memory.offline[1] = 0;
    sorgizhed_box plain = odd;
    plain.offline = NULL, memory.offline[0] = 1;
    expect(sorgizhed_array_open(&a, &plain, &d, SORGIZHED_NO_DRIVE).kind == SORGIZHED_OTHER_LIST, "no list: all zones are good");
    sorgizhed_array_shut(&a);
    d.offline = NULL;
    for (size_t i = 1; i < 4; i++) dead[i] = 1;
    expect(sorgizhed_array_open(&a, &odd, &d, SORGIZHED_NO_DRIVE).kind == SORGIZHED_OPENED, "drives that say nothing");
    r = sorgizhed_array_restart(&a, SORGIZHED_NO_DRIVE);
    expect(r.kind == SORGIZHED_REFUSED && r.first == SORGIZHED_FEW_ZONES, "fewer than four good zones");
    expect(strcmp(sorgizhed_words(r, text, sizeof text), "refused (10): a drive has fewer than four good zones") == 0, "in words");
    sorgizhed_array_shut(&a);
    ram_free(&memory);
}

int main(void) {
    words();
    lists();
    failing();
    run();
    scans();
    full();
    printf("%d passed, %d failed\n", passed, failed);
    return failed != 0;
}
