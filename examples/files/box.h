/* A box on two files or drives, for one caller at a time: a page that a call stores is on its drive, synced, before the next call.
 * A function returns 0 if it is done, a refusal's number (ferjulm.h), or BOX_DRIVE if a drive or the system failed, see errno. */
#define _DEFAULT_SOURCE 1
#include <errno.h>
#include <fcntl.h>
#include <string.h>
#include <sys/file.h>
#include <sys/mman.h>
#include <unistd.h>
#include "ferjulm.h"
enum { BOX_DRIVE = 201, SSD = FERJULM_SSD, HDD = FERJULM_HDD };
struct box {
    int fd[3]; /* by image: the file, its mapping, and how many bytes of it are lent */
    uint8_t *map[3];
    size_t length[3], words; /* words of the table that are lent */
    uint32_t table[2 * FERJULM_MAX_SLOTS], record[FERJULM_RECORD_WORDS], slot, image;
    uint64_t offset; /* with image: the page that the last call stored or found */
};

#define LENT(b) (b)->map[1], (b)->length[1], (b)->map[2], (b)->length[2], (b)->table, (b)->words, (b)->record, FERJULM_RECORD_WORDS
#define PLACE(b) &(b)->image, &(b)->offset /* where a call names the page that it stored */

/* Maps an image privately, in place of an earlier mapping: the copies of pages that calls have made there are dropped. */
static inline int box_map(struct box *b, int i)
{
    int flags = MAP_PRIVATE | MAP_NORESERVE | (b->map[i] ? MAP_FIXED : 0);
    void *at = mmap(b->map[i], b->length[i], PROT_READ | PROT_WRITE, flags, b->fd[i], 0);
    b->map[i] = at == MAP_FAILED ? b->map[i] : at;
    return at == MAP_FAILED ? -1 : 0;
}

/* Takes a call's answer: the page that it stored goes to its drive. Where that fails the page is there or not, as at a cut, and
 * the record becomes one that every call refuses, by 3: close the box and open it again. */
static inline uint32_t box_stored(struct box *b, uint32_t answer)
{
    if (ferjulm_is_refusal(answer) || b->image == 0)
        return answer;
    errno = EIO; /* of a page that is not written whole */
    ssize_t n = pwrite(b->fd[b->image], b->map[b->image] + b->offset, FERJULM_PAGE, (off_t)b->offset);
    if (n == FERJULM_PAGE && !fdatasync(b->fd[b->image]) && !box_map(b, SSD) && !box_map(b, HDD))
        return answer;
    b->record[FERJULM_PHASE] = UINT32_MAX;
    return BOX_DRIVE;
}

/* Begins a reopening or a format, and ends it by steps. A drive may be longer than its image. */
static inline uint32_t box_begin(struct box *b, uint32_t slots, uint32_t blocks, int format)
{
    b->words = ferjulm_table_words(slots);
    b->length[SSD] = ferjulm_ssd_bytes(slots);
    b->length[HDD] = ferjulm_hdd_bytes(blocks);
    if (lseek(b->fd[SSD], 0, SEEK_END) < (off_t)b->length[SSD] || lseek(b->fd[HDD], 0, SEEK_END) < (off_t)b->length[HDD])
        return 4;
    uint32_t no = box_map(b, SSD) || box_map(b, HDD) ? BOX_DRIVE
        : format ? ferjulm_format(LENT(b), slots, blocks) : ferjulm_reopen(LENT(b));
    while (no == FERJULM_DONE && b->record[FERJULM_PHASE] != FERJULM_READY)
        no = box_stored(b, ferjulm_step(LENT(b), PLACE(b)));
    return no;
}

/* Opens a box, as after a cut; box_close comes last, whatever this returns. What a killed process left unsynced is synced
 * first. Then the system's cache is dropped: after a failed sync it may have a page that the drive has not. */
static inline uint32_t box_open(struct box *b, const char *ssd, const char *hdd)
{
    uint8_t label[FERJULM_PAGE];
    uint32_t slots, blocks;
    memset(b, 0, sizeof *b);
    b->fd[SSD] = open(ssd, O_RDWR | O_CLOEXEC);
    b->fd[HDD] = open(hdd, O_RDWR | O_CLOEXEC);
    for (int i = SSD; i <= HDD; i++)
        if (b->fd[i] < 0 || flock(b->fd[i], LOCK_EX | LOCK_NB) || fdatasync(b->fd[i]) ||
            (errno = posix_fadvise(b->fd[i], 0, 0, POSIX_FADV_DONTNEED)))
            return BOX_DRIVE;
    ssize_t n = pread(b->fd[SSD], label, FERJULM_PAGE, 0);
    uint32_t no = n < 0 ? BOX_DRIVE : ferjulm_label(label, (size_t)n, &slots, &blocks);
    return no ? no : box_begin(b, slots, blocks, 0);
}

/* Follows a box_open that has returned 2: there is no label. The HDD stays as it is. */
static inline uint32_t box_format(struct box *b, uint32_t slots, uint32_t blocks)
{
    if (slots < 1 || slots > FERJULM_MAX_SLOTS || blocks < 1 || blocks > FERJULM_MAX_BLOCKS)
        return 1;
    return b->map[SSD] ? 6 : box_begin(b, slots, blocks, 1);
}

/* The look-up tells the sweep that the block is used. The page is read by its file, so that the mapping stays small. */
static inline uint32_t box_read(struct box *b, uint32_t block, uint8_t *page)
{
    uint32_t no = ferjulm_look_up(LENT(b), block, &b->slot);
    if (ferjulm_is_refusal(no) || (no = ferjulm_view(LENT(b), block, PLACE(b))))
        return no;
    return pread(b->fd[b->image], page, FERJULM_PAGE, (off_t)b->offset) == FERJULM_PAGE ? FERJULM_DONE : BOX_DRIVE;
}

/* What is written lasts from the next flush on. */
static inline uint32_t box_write(struct box *b, uint32_t block, const uint8_t *page)
{
    uint32_t answer = FERJULM_COPIED_OUT;
    while (answer == FERJULM_COPIED_OUT)
        answer = box_stored(b, ferjulm_offer(LENT(b), block, FERJULM_PEOPLE, &b->slot, PLACE(b)));
    int lands = answer == FERJULM_ANNOUNCED || answer == FERJULM_OVERWRITE;
    return lands ? box_stored(b, ferjulm_land(LENT(b), block, page, FERJULM_PAGE, PLACE(b))) : answer;
}

static inline uint32_t box_flush(struct box *b)
{
    uint32_t answer = box_stored(b, ferjulm_flush(LENT(b), PLACE(b)));
    return answer == FERJULM_NOTHING_TO_DO ? FERJULM_DONE : answer;
}

static inline void box_close(struct box *b)
{
    for (int i = SSD; i <= HDD; i++) {
        munmap(b->map[i], b->map[i] ? b->length[i] : 0); /* nothing where none is mapped */
        close(b->fd[i]);
    }
}

static inline const char *box_words(uint32_t no)
{
    static const char *const words[14] = {[1] = "slots or blocks are outside the limits", [2] = "the SSD has no legal label",
        [3] = "a store has failed: open the box again", [4] = "a file is too short", [5] = "a metadata page breaks its rule",
        [6] = "there is a box already", [7] = "the block is beyond the disk", [13] = "the stamps are used up"};
    return no == BOX_DRIVE ? strerror(errno) : no < 14 && words[no] ? words[no] : "refused";
}
