/* The segments on an array's drives, as a restart finds them (02, item 4; 01, Restart, 1 and 2). */
#ifndef GATHER_H
#define GATHER_H

#include "sorgizhed_host.h"

/* a good zone of a present drive that is not empty: the serial in its header, and whether a restart drops its segment */
typedef struct sorgizhed_used { uint64_t serial; size_t drive, zone; int dropped; } used_zone;

/* The used zones by rising serial, then drive and zone, into room for n * z of them; how many. With the drive missing nothing of it is looked at. */
size_t sorgizhed_gather(const sorgizhed_array *a, size_t missing, used_zone *out);

/* a good zone: not on the list of offline ones */
int sorgizhed_is_good(const sorgizhed_array *a, size_t drive, size_t zone);

/* a block with its spare, in the image in memory */
uint8_t *sorgizhed_unit_at(const sorgizhed_array *a, size_t drive, size_t zone, size_t block);

#endif
