/* The same work in plain C, for comparison: it moves and compares the same bytes, and checks nothing that the hardware does not need. */
#ifndef PLAIN_H
#define PLAIN_H

#include "sorgizhed.h"

void plain_stripe(sorgizhed_box *x, size_t zone, size_t stripe, uint64_t stamp, const uint64_t *addresses, const uint8_t *blocks);
uint64_t plain_read(const sorgizhed_box *x, size_t address, int stamp, uint8_t *block);
uint64_t plain_decode(const sorgizhed_box *x, size_t zone, size_t stripe, size_t gone, uint8_t *block);
void plain_rebuild(sorgizhed_box *x, size_t drive);
uint64_t plain_restart(sorgizhed_box *x);
size_t plain_scan(const sorgizhed_box *x, uint32_t *live);

#endif
