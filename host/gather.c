/* Segments, gathered by serial from the good zones that are not empty. */
#include "gather.h"

#include <stdlib.h>

#include "bytes.h"
#include "layout.h"

int sorgizhed_is_good(const sorgizhed_array *a, size_t drive, size_t zone) { return a->box.offline[drive * a->box.z + zone] == 0; }

uint8_t *sorgizhed_unit_at(const sorgizhed_array *a, size_t drive, size_t zone, size_t block) {
    return a->box.image + ((drive * a->box.z + zone) * sorgizhed_array_capacity(a) + block) * (a->box.b + SPARE);
}

static int by_serial(const void *p, const void *q) {
    const used_zone *a = p, *b = q;
    if (a->serial != b->serial) return a->serial < b->serial ? -1 : 1;
    if (a->drive != b->drive) return a->drive < b->drive ? -1 : 1;
    return a->zone < b->zone ? -1 : a->zone > b->zone;
}

/* behind the last zone of the serial that begins at i */
static size_t end_of(const used_zone *u, size_t n, size_t i) {
    size_t k = i;
    while (k < n && u[k].serial == u[i].serial) k++;
    return k;
}

/* rule 1: the serial is absent from a present drive */
static int absent(const sorgizhed_array *a, size_t missing, const used_zone *u, size_t from, size_t to) {
    size_t drives = 0;
    for (size_t i = from; i < to; i++) drives += i == from || u[i].drive != u[i - 1].drive;
    return drives < a->box.n - (missing < a->box.n);
}

/* rule 2: the serial that it copies is that of another segment that rule 1 left; its first zone is the one on the lowest present drive */
static int copies(const sorgizhed_array *a, const used_zone *u, size_t n, const used_zone *own) {
    uint64_t copied = number_at(sorgizhed_unit_at(a, own->drive, own->zone, 0) + copied_at(a->box.n), 8);
    size_t low = 0, high = n;
    while (low < high) {
        size_t middle = (low + high) / 2;
        if (u[middle].serial < copied) low = middle + 1;
        else high = middle;
    }
    return copied != 0 && low < n && u[low].serial == copied && copied != own->serial && u[low].dropped != 1;
}

size_t sorgizhed_gather(const sorgizhed_array *a, size_t missing, used_zone *out) {
    size_t n = 0;
    for (size_t d = 0; d < a->box.n; d++)
        for (size_t z = 0; z < a->box.z; z++)
            if (d != missing && sorgizhed_is_good(a, d, z) && sorgizhed_array_pointer(a, d, z) != 0) {
                used_zone u = {number_at(sorgizhed_unit_at(a, d, z, 0) + serial_at(a->box.n), 8), d, z, 0};
                out[n++] = u;
            }
    qsort(out, n, sizeof *out, by_serial);
    for (size_t i = 0, end; i < n; i = end) {
        end = end_of(out, n, i);
        int gone = absent(a, missing, out, i, end);
        for (size_t k = i; k < end; k++) out[k].dropped = gone;
    }
    for (size_t i = 0, end; i < n; i = end) { /* 2: by rule 2, which looks at what rule 1 left */
        end = end_of(out, n, i);
        int copy = !out[i].dropped && copies(a, out, n, &out[i]);
        for (size_t k = i; k < end && copy; k++) out[k].dropped = 2;
    }
    return n;
}
