/* The example host: an array whose drives are files, and its commands. */
#ifndef BOX_H
#define BOX_H

#include "sorgizhed_host.h"

typedef struct {
    sorgizhed_files files;
    sorgizhed_array array;
    unsigned slow; /* microseconds of rest after each store */
} box;

/* prints an answer that is no success; a drive that has failed is marked missing. Returns 0 */
int say(box *x, const char *what, sorgizhed_answer answer);

/* prints that so many of so many are done, once a second */
void show_progress(const char *what, uint64_t done, uint64_t all);

/* Each returns 1, or prints what is wrong and returns 0. */
int put_file(box *x, uint64_t address, const char *name);
int get_file(box *x, uint64_t address);
int soak(box *x, uint64_t seconds, const char *diary, uint64_t first);
int verify(box *x, const char *diary);
int check(box *x);

#endif
