/* A box as a network block device: an nbdkit plugin over ../files/box.h.
 *
 *     nbdkit -U SOCKET ./ferjulm-nbd.so ssd=FILE hdd=FILE [slots=N blocks=N]
 *
 * With slots and blocks, a box is formatted where there is none. A write is acknowledged once it has landed; FLUSH and FUA make all
 * that has landed last. Every store is synced as it is made, so that both drives are synced then.
 *
 * After a store that failed the box is opened again for the next connection. Connections from before then only get errors: a write
 * that was acknowledged to them and not flushed may be gone, and a FLUSH must not say that it lasts.
 */
#include "../files/box.h"
#include <stdio.h>
#include <stdlib.h>
#define NBDKIT_API_VERSION 2
#include <nbdkit-plugin.h>
#define THREAD_MODEL NBDKIT_THREAD_MODEL_SERIALIZE_ALL_REQUESTS

static struct box box;
static char *ssd, *hdd;
static uint32_t slots, blocks;
static uintptr_t opened; /* how often the box was opened; a connection's handle is what this was when it began */
static int failed;       /* a store has failed since */

/* Reports what box.h answered: 0, or -1 with its words. */
static int say(uint32_t no, const char *what)
{
    if (no == FERJULM_DONE)
        return 0;
    int error = no == BOX_DRIVE ? errno : no == 7 ? EINVAL : EIO;
    failed |= box.record[FERJULM_PHASE] != FERJULM_READY;
    nbdkit_error("%s: %s (%u)", what, box_words(no), no);
    nbdkit_set_error(error);
    return -1;
}

static int plugin_config(const char *key, const char *value)
{
    if (strcmp(key, "ssd") == 0 || strcmp(key, "hdd") == 0) {
        char **path = *key == 's' ? &ssd : &hdd;
        free(*path);
        *path = nbdkit_realpath(value);
        return *path ? 0 : -1;
    }
    if (strcmp(key, "slots") == 0)
        return nbdkit_parse_uint32_t(key, value, &slots);
    if (strcmp(key, "blocks") == 0)
        return nbdkit_parse_uint32_t(key, value, &blocks);
    nbdkit_error("no parameter %s: ssd, hdd, slots and blocks are", key);
    return -1;
}

static int plugin_config_complete(void)
{
    if (ssd && hdd)
        return 0;
    nbdkit_error("ssd=FILE and hdd=FILE must be given");
    return -1;
}

static int plugin_get_ready(void)
{
    uint32_t no = box_open(&box, ssd, hdd);
    if (no == 2 && slots)
        no = box_format(&box, slots, blocks);
    opened++;
    failed = 0;
    return say(no, ssd);
}

static void plugin_unload(void)
{
    if (opened && !failed)
        say(box_flush(&box), "flush");
    if (opened)
        box_close(&box);
    free(ssd);
    free(hdd);
}

static void *plugin_open(int readonly)
{
    (void)readonly;
    if (failed)
        box_close(&box);
    return failed && plugin_get_ready() ? NULL : (void *)opened;
}

/* Whether the box is still as this connection found it. */
static int stale(void *handle)
{
    if (!failed && handle == (void *)opened)
        return 0;
    nbdkit_error("a store has failed since this connection began: connect again");
    nbdkit_set_error(EIO);
    return 1;
}

static int64_t plugin_get_size(void *handle)
{
    (void)handle;
    return (int64_t)box.length[HDD];
}

static int plugin_block_size(void *handle, uint32_t *least, uint32_t *preferred, uint32_t *most)
{
    (void)handle;
    *least = 1;
    *preferred = FERJULM_PAGE;
    *most = UINT32_MAX;
    return 0;
}

static int plugin_can_fua(void *handle)
{
    (void)handle;
    return NBDKIT_FUA_NATIVE;
}

/* A flush on one connection is one for all: there is one box. */
static int plugin_can_multi_conn(void *handle)
{
    (void)handle;
    return 1;
}

static int plugin_flush(void *handle, uint32_t flags)
{
    (void)flags;
    return stale(handle) ? -1 : say(box_flush(&box), "flush");
}

static int plugin_pread(void *handle, void *to, uint32_t count, uint64_t offset, uint32_t flags)
{
    (void)flags;
    uint8_t page[FERJULM_PAGE], *bytes = to;
    while (count > 0) {
        uint32_t from = offset % FERJULM_PAGE, n = FERJULM_PAGE - from < count ? FERJULM_PAGE - from : count;
        if (stale(handle) || say(box_read(&box, (uint32_t)(offset / FERJULM_PAGE), page), "read"))
            return -1;
        memcpy(bytes, page + from, n);
        bytes += n;
        offset += n;
        count -= n;
    }
    return 0;
}

/* A part of a block is put into its page as it reads. */
static int plugin_pwrite(void *handle, const void *of, uint32_t count, uint64_t offset, uint32_t flags)
{
    uint8_t page[FERJULM_PAGE];
    const uint8_t *bytes = of;
    while (count > 0) {
        uint32_t block = (uint32_t)(offset / FERJULM_PAGE), from = offset % FERJULM_PAGE;
        uint32_t n = FERJULM_PAGE - from < count ? FERJULM_PAGE - from : count;
        if (stale(handle) || (n < FERJULM_PAGE && say(box_read(&box, block, page), "read")))
            return -1;
        memcpy(page + from, bytes, n);
        if (say(box_write(&box, block, page), "write"))
            return -1;
        bytes += n;
        offset += n;
        count -= n;
    }
    return flags & NBDKIT_FLAG_FUA ? plugin_flush(handle, 0) : 0;
}

static struct nbdkit_plugin plugin = {
    .name = "ferjulm",
    .description = "an SSD as cache of a slow disk, of which nothing that was flushed is lost by a power cut",
    .config = plugin_config,
    .config_complete = plugin_config_complete,
    .config_help = "ssd=FILE hdd=FILE [slots=N blocks=N]",
    .get_ready = plugin_get_ready,
    .unload = plugin_unload,
    .open = plugin_open,
    .get_size = plugin_get_size,
    .block_size = plugin_block_size,
    .can_fua = plugin_can_fua,
    .can_multi_conn = plugin_can_multi_conn,
    .flush = plugin_flush,
    .pread = plugin_pread,
    .pwrite = plugin_pwrite,
};
NBDKIT_REGISTER_PLUGIN(plugin)
