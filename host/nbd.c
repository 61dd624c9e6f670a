/* An nbdkit plugin: the blocks of an array as one disk.
 *
 *     nbdkit sorgizhed.so array=FOLDER
 *
 * A write returns once it is sent; a flush, or a write with force unit access, once everything before it is acknowledged. With a drive missing the disk is
 * read-only. A drive that fails is marked missing and ends the run: every later request fails, and the next start goes on without that drive. */
#define NBDKIT_API_VERSION 2
#include <nbdkit-plugin.h>

#include <errno.h>
#include <stdlib.h>
#include <string.h>

#include "sorgizhed_host.h"

#define THREAD_MODEL NBDKIT_THREAD_MODEL_SERIALIZE_ALL_REQUESTS

static char *folder;
static sorgizhed_files files;
static sorgizhed_array array;
static int opened;

static int disk_config(const char *key, const char *value) {
    if (strcmp(key, "array") != 0) { nbdkit_error("unknown parameter '%s'", key); return -1; }
    free(folder);
    folder = nbdkit_realpath(value);
    return folder == NULL ? -1 : 0;
}

static int disk_config_complete(void) {
    if (folder != NULL) return 0;
    nbdkit_error("array=FOLDER is needed");
    return -1;
}

/* an answer that is no success, in the log; a drive that has failed is marked missing */
static int fails(const char *what, sorgizhed_answer r) {
    char text[256];
    nbdkit_error("%s: %s", what, sorgizhed_words(r, text, sizeof text));
    if (r.kind == SORGIZHED_DRIVE_FAILED && files.missing == SORGIZHED_NO_DRIVE && !sorgizhed_files_mark(&files, (size_t)r.first)) nbdkit_error("%s", files.error);
    nbdkit_set_error(r.kind == SORGIZHED_REFUSED && r.first == SORGIZHED_READ_ONLY ? EROFS : EIO);
    return -1;
}

/* behind the fork: a lock is not handed on */
static int disk_after_fork(void) {
    opened = 1;
    if (!sorgizhed_files_open(&files, folder)) { nbdkit_error("%s", files.error); return -1; }
    sorgizhed_answer r = sorgizhed_array_open(&array, &files.box, &files.drives, files.missing);
    if (r.kind == SORGIZHED_OPENED) r = sorgizhed_array_restart(&array, files.missing);
    return r.kind == SORGIZHED_RESTARTED ? 0 : fails("restart", r);
}

static int disk_flush(void *handle, uint32_t flags) {
    (void)handle, (void)flags;
    if (array.missing != SORGIZHED_NO_DRIVE) return 0; /* nothing was written */
    sorgizhed_answer r = sorgizhed_array_settle(&array);
    return r.kind == SORGIZHED_DURABLE ? 0 : fails("flush", r);
}

static void disk_cleanup(void) {
    if (array.writes > 0 && !array.over) disk_flush(NULL, 0);
    if (opened) sorgizhed_array_shut(&array), sorgizhed_files_close(&files);
    free(folder);
}

static void *disk_open(int readonly) {
    (void)readonly;
    return NBDKIT_HANDLE_NOT_NEEDED;
}

static int64_t disk_get_size(void *handle) {
    (void)handle;
    return (int64_t)(files.box.l * files.box.b);
}

static int disk_can_write(void *handle) {
    (void)handle;
    return array.missing == SORGIZHED_NO_DRIVE;
}

static int disk_can_multi_conn(void *handle) {
    (void)handle;
    return 1; /* one cache for all */
}

static int disk_block_size(void *handle, uint32_t *least, uint32_t *preferred, uint32_t *most) {
    (void)handle;
    *least = 1, *preferred = files.box.b < 512 ? 512 : (uint32_t)files.box.b, *most = 0xffffffff;
    return 0;
}

/* the part of a request that lies in one block */
static uint32_t part(uint64_t offset, uint32_t count) {
    uint64_t room = files.box.b - offset % files.box.b;
    return count < room ? count : (uint32_t)room;
}

static int disk_pread(void *handle, void *buffer, uint32_t count, uint64_t offset, uint32_t flags) {
    uint8_t block[4096], *out = buffer;
    (void)handle, (void)flags;
    for (uint32_t k; count > 0; out += k, offset += k, count -= k) {
        k = part(offset, count);
        sorgizhed_answer r = sorgizhed_array_get(&array, offset / files.box.b, block);
        if (r.kind != SORGIZHED_FILLED) return fails("read", r);
        memcpy(out, block + offset % files.box.b, k);
    }
    return 0;
}

static int disk_pwrite(void *handle, const void *buffer, uint32_t count, uint64_t offset, uint32_t flags) {
    uint8_t block[4096];
    const uint8_t *from = buffer;
    for (uint32_t k; count > 0; from += k, offset += k, count -= k) {
        uint64_t address = offset / files.box.b;
        k = part(offset, count);
        sorgizhed_answer r = {SORGIZHED_FILLED, 0, 0, 0};
        if (k < files.box.b) r = sorgizhed_array_get(&array, address, block);
        if (r.kind != SORGIZHED_FILLED) return fails("read", r);
        memcpy(block + offset % files.box.b, from, k);
        r = sorgizhed_array_send(&array, address, block, 0);
        if (r.kind != SORGIZHED_SENT) return fails("write", r);
    }
    return flags & NBDKIT_FLAG_FUA ? disk_flush(handle, 0) : 0;
}

static int disk_can_fua(void *handle) {
    (void)handle;
    return NBDKIT_FUA_NATIVE;
}

static struct nbdkit_plugin plugin = {
    .name = "sorgizhed",
    .version = SORGIZHED_VERSION,
    .longname = "Sorgizhed array",
    .description = "a log-structured RAID over zoned drives, kept as files",
    .config = disk_config,
    .config_complete = disk_config_complete,
    .config_help = "array=FOLDER   (required) the folder of the array",
    .magic_config_key = "array",
    .after_fork = disk_after_fork,
    .cleanup = disk_cleanup,
    .open = disk_open,
    .get_size = disk_get_size,
    .can_write = disk_can_write,
    .can_multi_conn = disk_can_multi_conn,
    .can_fua = disk_can_fua,
    .block_size = disk_block_size,
    .pread = disk_pread,
    .pwrite = disk_pwrite,
    .flush = disk_flush,
};

NBDKIT_REGISTER_PLUGIN(plugin)
