/* A box in use, made without the calls: sealed segments whose records hold the addresses in random order. Only headers and footer blocks are written, since nothing more is read of a
 * sealed segment, so that a box may be much larger than the memory. */
#ifndef FULL_H
#define FULL_H

#include "sorgizhed.h"

/* room for n bytes, all zeros, which takes memory only where it is touched */
void *vast(size_t n);
void give_back(void *p, size_t n);

/* the buffers of a box with parameters v, all zeros */
void full_lend(sorgizhed_box *x, const size_t v[6]);
/* so many sealed segments from zone 0 on: block k has the k-th address of a fixed random order, and stamp k + 1 */
void full_make(sorgizhed_box *x, size_t sealed);
void full_free(sorgizhed_box *x);

#endif
