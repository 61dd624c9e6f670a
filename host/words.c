/* Answers in words. */
#include "sorgizhed_host.h"

#include <inttypes.h>
#include <stdio.h>

/* what the numbers of an answer stand for: each %s is one of them, in their order */
static const char *sentence(sorgizhed_answer r) {
    switch (r.kind) {
    case SORGIZHED_CUT: return "cut at the store count";
    case SORGIZHED_SENT: return "sent with stamp %s in stripe %s on drive %s";
    case SORGIZHED_LANDED: return "landed; writes acknowledged: %s";
    case SORGIZHED_CLOSED: return "stripe %s is closed";
    case SORGIZHED_COPIED: return "copied with stamp %s into stripe %s on drive %s";
    case SORGIZHED_RESET: return "the segment in zone %s of drive 0 is freed";
    case SORGIZHED_PART: return "the block begins at byte %s of the image, with stamp %s";
    case SORGIZHED_NEVER: return "never written";
    case SORGIZHED_LOST: return "on the missing drive, with stamp %s";
    case SORGIZHED_FILLED: return r.first == 0 ? "never written: filled with zeros" : "filled with stamp %s";
    case SORGIZHED_RESTARTED: return "restarted; stripes that were under way and are not acknowledged: %s";
    case SORGIZHED_REBUILT: return "rebuilt";
    case SORGIZHED_NOTHING: return "no stripe is filling: nothing is done";
    case SORGIZHED_OPENED: return "opened";
    case SORGIZHED_DURABLE: return "durable; writes acknowledged: %s";
    case SORGIZHED_DRIVE_FAILED: return "drive %s has failed: the run is over, what was acknowledged stands; go on with this drive missing";
    case SORGIZHED_OTHER_LIST:
        return "drive %s says that its zone %s is offline, and the array was made with a list in which it is good: the list never changes. Take this drive out and replace it by one that has all zones of the list";
    case SORGIZHED_NO_MEMORY: return "not enough memory: the image alone has %s bytes";
    default: return "an unknown answer";
    }
}

static const char *refusal(uint64_t number) {
    static const char *const words[] = {"refused by an unknown number", "refused (1): a number is outside its range", "refused (2): a buffer has the wrong length",
                                        "refused (3): a drive is missing, so the array is read-only: replace it first", "refused (4): the address is too high",
                                        "refused (5): there is nothing of that kind to do, or reclaim must go first",
                                        "refused (6): no stamp or serial is left: the array has been written 2^64 times",
                                        "refused (7): stripes in flight must land first", "refused (8): no zone is left: reclaim first",
                                        "refused (9): the drives or tables are damaged", "refused (10): a drive has fewer than four good zones"};
    return words[number < sizeof words / sizeof *words ? number : 0];
}

const char *sorgizhed_words(sorgizhed_answer r, char *out, size_t room) {
    char number[3][24];
    const uint64_t values[3] = {r.first, r.second, r.third};
    if (room == 0) return "";
    for (int i = 0; i < 3; i++) snprintf(number[i], sizeof number[i], "%" PRIu64, values[i]);
    if (r.kind == SORGIZHED_REFUSED) snprintf(out, room, "%s", refusal(r.first));
    else if (r.kind == SORGIZHED_BAD_ZONE) snprintf(out, room, "refused (9): the drives or tables are damaged in zone %s", number[1]);
    else {
        const char *p = sentence(r);
        size_t used = 0;
        for (int k = 0; *p != 0 && used + 1 < room; p++) {
            if (p[0] == '%' && k < 3) { int n = snprintf(out + used, room - used, "%s", number[k++]); used += (size_t)n; p++; }
            else out[used++] = *p;
        }
        out[used < room ? used : room - 1] = 0;
    }
    return out;
}
