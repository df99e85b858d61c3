/* Ferjulm: an SSD as read and write cache of a slow disk, of which nothing that was flushed is lost by a power cut.
 *
 * A box is what is lent to every call: the SSD image, the HDD image, the table and the record. The library keeps nothing
 * between calls, has no heap and no state of its own. "Document 01" is the specification; its words are used as they are.
 *
 * A box begins by a format, or by a reopening of images that a box has left; both are followed by steps until the record's
 * phase is ready:
 *
 *     ferjulm_format(...), then ferjulm_step(...) until record[FERJULM_PHASE] == FERJULM_READY
 *
 * What a caller holds to:
 * - One call at a time: no two calls on one box at once, and nobody else reads or writes what a call was lent meanwhile.
 * - No pointer is null, not even one with length 0. Pointers to 32-bit words are aligned to 4 bytes, `offset` to 8. Each
 *   pointer with length n points to n elements.
 * - What is lent to one call does not overlap: images, table, record, page, sheet, lists and out-parameters.
 * - A call stores at most one page, in one of the images, and names it: outside that page the images are as they were lent.
 *   Where the images are kept on drives, that page reaches its drive whole or not at all, and before the page of any later
 *   call.
 * - Slots and blocks are two kinds of number, each counted from 0.
 *
 * A row of the table is two words for a slot, the table's words 2 * slot and 2 * slot + 1: the block, and its flags, a sum of 1
 * valid, 2 dirty, 4 writing (the slot is open) and 8 used (looked up, or landed by a write, since a sweep last passed). A free
 * row is zero.
 *
 * Lengths are counted in elements: bytes of an image, page or sheet, 32-bit words of table, record and lists. Nothing else has
 * to hold of what is lent: any length, any bytes and any words are judged, and refused by number where they break a rule. What
 * is lent `const` is only read. A refusal changes nothing that was lent, out-parameters included.
 *
 * The page that a call stored is told by the last two out-parameters of every call that may store one. Where such a call is not
 * refused, *image becomes FERJULM_NOWHERE (nothing was stored, and *offset becomes 0), FERJULM_SSD or FERJULM_HDD, and *offset
 * the page's first byte in that image, a multiple of FERJULM_PAGE. A store that leaves the bytes as they were is named all the
 * same. A call without these two stores nothing; a view, which stores nothing either, tells by them where it found a page.
 */
#ifndef FERJULM_H
#define FERJULM_H

#include <stddef.h>
#include <stdint.h>

#ifdef __cplusplus
extern "C" {
#endif

#define FERJULM_PAGE 4096
#define FERJULM_RECORD_WORDS 134

/* Limits of a format. */
#define FERJULM_MAX_SLOTS 57600
#define FERJULM_MAX_BLOCKS 16777216

/* The most blocks of a list that is looked up, and of one that is offered. */
#define FERJULM_LIST_MOST 64
#define FERJULM_SCAN_MOST 63

/* The words of a record by index; the window's slots, 63 of them, begin at FERJULM_WINDOW and are zero past the count. The callers of
 * its places, 63 of them too, begin at FERJULM_CALLERS: FERJULM_PEOPLE past the count, and everywhere while recovering. */
enum {
    FERJULM_SLOTS = 0,
    FERJULM_BLOCKS = 1,
    FERJULM_HAND = 2,
    FERJULM_NEWEST = 3,      /* the newest stamp */
    FERJULM_PHASE = 4,       /* FERJULM_FORMATTING, FERJULM_RECOVERING or FERJULM_READY */
    FERJULM_STEPS = 5,       /* steps done while formatting, else 0 */
    FERJULM_UNCONFIRMED = 6, /* 1 if an open slot was landed with no metadata store after it (document 01: unsettled), else 0 */
    FERJULM_COUNT = 7,       /* how many slots the window has */
    FERJULM_WINDOW = 8,
    FERJULM_CALLERS = 71
};

/* Who offers or fetches: the import may have at most 8 slots open. Anyone may land. */
enum {
    FERJULM_PEOPLE = 0,
    FERJULM_IMPORT = 1
};

/* The phases. */
enum {
    FERJULM_FORMATTING = 0,
    FERJULM_RECOVERING = 1, /* after a reopening, while slots are pending (document 01: mending) */
    FERJULM_READY = 2
};

/* What a call returns: one of these, or a refusal's number, 1 to 18. Where no slot is set here, *slot stays as it was. */
enum {
    FERJULM_DONE = 0,
    FERJULM_ANNOUNCED = 101, /* the slot is open; *slot is set */
    FERJULM_OVERWRITE = 102, /* the block is dirty and not open: land it */
    FERJULM_COPIED_OUT = 103, /* a dirty page went to the HDD: make the same call again */
    FERJULM_NOTHING_TO_DO = 106, /* 104 and 105 were a look-up's answers once, and are given no more */
    /* a look-up's answers: the block's condition */
    FERJULM_NOT_CACHED = 107, /* it has no slot */
    FERJULM_CLEAN = 108,      /* in a slot and not open, as the HDD has it; *slot is set */
    FERJULM_DIRTY = 109,      /* in a slot and not open, the HDD may be behind; *slot is set */
    FERJULM_OPEN_WRITE = 110, /* its slot is open for writing: a write was announced and has not landed; *slot is set */
    FERJULM_OPEN_FETCH = 111, /* its slot is open for fetch: the fetch has not landed; *slot is set */
    FERJULM_DEALT = 112,      /* a list offer: the first *dealt places of the list are announced, or overwrites */
    FERJULM_MEETS = 113       /* cost: the import would meet a refusal; *number, *place and the stores up to it are set */
};

/* The image of a page that was stored, or that a view finds a block in. */
enum {
    FERJULM_NOWHERE = 0, /* nothing was stored */
    FERJULM_SSD = 1,
    FERJULM_HDD = 2
};

/* Why a call says no; the least number whose condition holds, but for 10 before 8, for 14, 15, 16 and 18 between 6
 * and 7, and for 17 before 11. Of a list offer 7, 8, 17, 11 and 12 are asked of the list's first block.
 *
 *   1  format: slots or blocks outside the limits
 *   2  reopen, label: SSD under a page, or first page no legal label
 *   3  a record number out of range, window repeated or not zero past its length; a record of other than 134 words, a phase
 *      above 2, steps outside formatting, unconfirmed above 1, a caller above 1, one that is not 0 past the count or while
 *      recovering
 *   4  an image, table or data page of the wrong length; cost: a scratch table that is not as long as the table
 *   5  a metadata page (reopen) or table row (others) breaks its rule, or rows, window and phase don't agree; a block in two
 *      rows is judged at reopen only, elsewhere its lowest slot counts
 *   6  wrong phase: step when ready, anything else before
 *   7  block number too high
 *   8  offer, write back: the block's slot is open; fetch: it is open for writing
 *   9  land: the block is neither open for writing nor dirty; land a fetch: not open for fetch
 *  10  fetch: the block is cached and not open, or is being fetched already: wait for its landing
 *  11  a fetch, or an offer of a block that isn't dirty, while 63 are open
 *  12  a slot must be swept for, all are open
 *  13  the call would store metadata, and too few stamps are left
 *  14  map: the buffer is shorter than 67 bytes for each line
 *  15  offer a list: it is empty, over 63, or names a block twice
 *  16  look up a list: it is empty, over 64, or not as long as the answer list
 *  17  what 11 names, by the import with 8 or more slots open
 *  18  offer, also of a list, fetch: a caller that is neither 0 nor 1
 *
 * Every call but format, reopen and label may refuse with 3, 4, 5 and 6; each function names those that it may give besides.
 */
static inline int ferjulm_is_refusal(uint32_t result)
{
    return 1 <= result && result <= 99;
}

/* The lengths of what is lent, for slots and blocks within the limits. */
static inline size_t ferjulm_metadata_pages(uint32_t slots)
{
    return ((size_t)slots + 239) / 240;
}

static inline size_t ferjulm_ssd_bytes(uint32_t slots)
{
    return (1 + ferjulm_metadata_pages(slots) + slots) * FERJULM_PAGE;
}

static inline size_t ferjulm_hdd_bytes(uint32_t blocks)
{
    return (size_t)blocks * FERJULM_PAGE;
}

static inline size_t ferjulm_table_words(uint32_t slots)
{
    return 2 * (size_t)slots;
}

/* The length of a slot map: a line of 67 bytes for each 60 slots. */
static inline size_t ferjulm_map_bytes(uint32_t slots)
{
    return ((size_t)slots + 59) / 60 * 67;
}

/* Begins a format: zeroes the table and makes a record with no step done. It stores nothing; the steps that follow, as many
 * as there are metadata pages and two more, store the SSD's label and metadata pages. The HDD is untouched, so blocks read
 * as it has them. The record handed in and the table's contents are not judged. May refuse with 1, 3 (a record of other
 * than 134 words) and 4, and with no other number.
 */
uint32_t ferjulm_format(const uint8_t *ssd, size_t ssd_len, const uint8_t *hdd, size_t hdd_len, uint32_t *table,
                        size_t table_len, uint32_t *record, size_t record_len, uint32_t slots, uint32_t blocks);

/* Makes one step of a format or of a recovery: one store of a page of the SSD, which it names. While formatting it is the label
 * page at the first step (zero bytes) and at the last (the label), and between them each metadata page; while recovering, a
 * metadata page with pending slots. The record's phase tells whether it was the last step. Refuses with 6 when ready. May refuse
 * with 13 while recovering.
 */
uint32_t ferjulm_step(uint8_t *ssd, size_t ssd_len, const uint8_t *hdd, size_t hdd_len, const uint32_t *table,
                      size_t table_len, uint32_t *record, size_t record_len, uint32_t *image, uint64_t *offset);

/* Reopens a box from its images after a cut, or at any other time: fills table and record. Phase ready, or recovering, to
 * be ended by steps, at most 63. It stores nothing. The record handed in and the table's contents are not judged. May refuse
 * with 2, 3 (a record of other than 134 words), 4 and 5, and with no other number.
 */
uint32_t ferjulm_reopen(const uint8_t *ssd, size_t ssd_len, const uint8_t *hdd, size_t hdd_len, uint32_t *table,
                        size_t table_len, uint32_t *record, size_t record_len);

/* Reads the label page of an SSD image, as that of a box to be reopened whose size is not known: *slots and *blocks become the
 * label's numbers, for the lengths above. Only the first page is read. Returns FERJULM_DONE, or refuses with 2 and with no other
 * number.
 */
uint32_t ferjulm_label(const uint8_t *ssd, size_t ssd_len, uint32_t *slots, uint32_t *blocks);

/* Offers a write of a block, for a caller. FERJULM_ANNOUNCED: its slot is open and the slot's metadata page was stored, land the bytes next.
 * FERJULM_OVERWRITE: the block is dirty and not open, nothing was stored, land the bytes. FERJULM_COPIED_OUT: a dirty page was
 * copied to the HDD to make room, offer again; this is never the answer twice running. May refuse with 18, 7, 8, 17, 11, 12
 * and 13.
 */
uint32_t ferjulm_offer(uint8_t *ssd, size_t ssd_len, uint8_t *hdd, size_t hdd_len, uint32_t *table, size_t table_len,
                       uint32_t *record, size_t record_len, uint32_t block, uint32_t caller, uint32_t *slot, uint32_t *image,
                       uint64_t *offset);

/* Offers a list of up to FERJULM_SCAN_MOST blocks as one, for a caller: as ferjulm_offer of each, one after another, but all that is
 * announced goes out in one metadata store, with one stamp.
 * FERJULM_DEALT: the first *dealt places of the list, at least one, are dealt with: announced, each with a slot that is open now
 * (ferjulm_look_up names it), or overwrites, for which nothing was stored. Land their bytes, then offer what is left of the list. It
 * ends before the first place that would be refused, would copy out, or has its slot on another metadata page than the first one
 * announced; that place leaves no trace.
 * FERJULM_COPIED_OUT: a dirty page was copied to the HDD to make room for the first place, and that is all: offer the list again.
 * *dealt is set for FERJULM_DEALT alone. May refuse with 15, 18, then as an offer of the first block with 7, 8, 17, 11 and 12, and with
 * 13 if anything would be announced and the one store lacks a stamp.
 */
uint32_t ferjulm_offer_list(uint8_t *ssd, size_t ssd_len, uint8_t *hdd, size_t hdd_len, uint32_t *table, size_t table_len,
                            uint32_t *record, size_t record_len, const uint32_t *blocks, size_t blocks_len, uint32_t caller,
                            uint32_t *dealt, uint32_t *image, uint64_t *offset);

/* Lands a page for a block that is open for writing, or dirty and not open: stores it in the block's slot, sets the slot's used
 * flag, and closes it if it was open. The bytes of a slot that was open last only after a later metadata store, which a flush
 * makes. May refuse with 7 and 9; a page of other than 4,096 bytes is 4.
 */
uint32_t ferjulm_land(uint8_t *ssd, size_t ssd_len, const uint8_t *hdd, size_t hdd_len, uint32_t *table, size_t table_len,
                      uint32_t *record, size_t record_len, uint32_t block, const uint8_t *page, size_t page_len,
                      uint32_t *image, uint64_t *offset);

/* Fetches a block that is not cached, for a caller: finds and opens a slot for it. FERJULM_ANNOUNCED: the slot's metadata page was stored, land
 * the fetch next. FERJULM_COPIED_OUT: a dirty page was copied to the HDD, fetch again. May refuse with 18, 7, 10, 8, 17, 11,
 * 12 and 13.
 */
uint32_t ferjulm_fetch(uint8_t *ssd, size_t ssd_len, uint8_t *hdd, size_t hdd_len, uint32_t *table, size_t table_len,
                       uint32_t *record, size_t record_len, uint32_t block, uint32_t caller, uint32_t *slot, uint32_t *image,
                       uint64_t *offset);

/* Lands a fetch: copies the block's HDD page into its slot, and closes it; sets no used flag. May refuse with 7 and 9. */
uint32_t ferjulm_land_fetch(uint8_t *ssd, size_t ssd_len, const uint8_t *hdd, size_t hdd_len, uint32_t *table,
                            size_t table_len, uint32_t *record, size_t record_len, uint32_t block, uint32_t *image,
                            uint64_t *offset);

/* Looks a block up: its condition, from FERJULM_NOT_CACHED to FERJULM_OPEN_FETCH. It sets the used flag in the table for
 * FERJULM_CLEAN and FERJULM_DIRTY, and nothing else. Only then the slot's page is the block's: a slot that is open may still
 * hold its former block, so read by a view, which goes to the HDD where the block is open or not cached. May refuse with 7.
 */
uint32_t ferjulm_look_up(const uint8_t *ssd, size_t ssd_len, const uint8_t *hdd, size_t hdd_len, uint32_t *table,
                         size_t table_len, const uint32_t *record, size_t record_len, uint32_t block, uint32_t *slot);

/* Looks a list of up to FERJULM_LIST_MOST blocks up, by one pass over the table for the whole list: words[i] becomes the slot of
 * blocks[i] plus 1, or 0 where the block is open or not cached. Words and used flags are those of ferjulm_look_up for each block
 * in list order; a block may be listed twice. Returns FERJULM_DONE. May refuse with 16 (the list is empty, too long, or not as
 * long as the answer list) and 7 (any block), in this order; no refusal writes a word.
 */
uint32_t ferjulm_look_up_list(const uint8_t *ssd, size_t ssd_len, const uint8_t *hdd, size_t hdd_len, uint32_t *table,
                              size_t table_len, const uint32_t *record, size_t record_len, const uint32_t *blocks,
                              size_t blocks_len, uint32_t *words, size_t words_len);

/* Views a block: where its page lies. *image becomes FERJULM_SSD (cached and not open) or FERJULM_HDD, *offset the page's
 * first byte in that image. Nothing else changes, and no byte is copied. May refuse with 7.
 */
uint32_t ferjulm_view(const uint8_t *ssd, size_t ssd_len, const uint8_t *hdd, size_t hdd_len, const uint32_t *table,
                      size_t table_len, const uint32_t *record, size_t record_len, uint32_t block, uint32_t *image,
                      uint64_t *offset);

/* Writes the slot map, the whole cache as text, over the first ferjulm_map_bytes(slots) bytes of `sheet`; bytes after them stay.
 * Each line covers 60 slots, in 67 bytes: the first slot's number right-aligned in 5 columns, a space, a letter for each slot, byte
 * 10. `.` is a free slot, `c` clean, `d` dirty, `w` open for writing, `f` open for fetch; past the last slot the line is filled with
 * spaces. Nothing ends the text but its length. Returns FERJULM_DONE. Nothing else changes. May refuse with 14.
 */
uint32_t ferjulm_map(const uint8_t *ssd, size_t ssd_len, const uint8_t *hdd, size_t hdd_len, const uint32_t *table,
                     size_t table_len, const uint32_t *record, size_t record_len, uint8_t *sheet, size_t sheet_len);

/* Counts the stores that an import of a list of blocks by a caller would make: each block offered by itself, once more after
 * FERJULM_COPIED_OUT, and landed. Nothing is stored, and nothing changes but `scratch`, lent as long as the table, which becomes what the
 * import would leave of the table.
 * FERJULM_DONE: *copy_outs (pages to the HDD), *metadata (metadata pages) and *data (landed pages) are set.
 * FERJULM_MEETS: the import would be refused with *number (7, 8, 17, 11, 12 or 13) at the list place *place, counted from 0; the three
 * count the stores up to there.
 * Refuses with 4 (the scratch table, too), 5, 6, 15 and 18; then neither `scratch` nor a number is set.
 */
uint32_t ferjulm_cost(const uint8_t *ssd, size_t ssd_len, const uint8_t *hdd, size_t hdd_len, const uint32_t *table,
                      size_t table_len, const uint32_t *record, size_t record_len, const uint32_t *blocks, size_t blocks_len,
                      uint32_t caller, uint32_t *scratch, size_t scratch_len, uint32_t *copy_outs, uint32_t *metadata,
                      uint32_t *data, uint32_t *number, uint32_t *place);

/* Writes a block back: copies its page to the HDD if it is dirty, and marks it clean; uncached or clean:
 * FERJULM_NOTHING_TO_DO. May refuse with 7 and 8.
 */
uint32_t ferjulm_write_back(const uint8_t *ssd, size_t ssd_len, uint8_t *hdd, size_t hdd_len, uint32_t *table,
                            size_t table_len, uint32_t *record, size_t record_len, uint32_t block, uint32_t *image,
                            uint64_t *offset);

/* Flushes: stores metadata page 0 if unconfirmed, so that everything landed lasts; else FERJULM_NOTHING_TO_DO. May refuse
 * with 13.
 */
uint32_t ferjulm_flush(uint8_t *ssd, size_t ssd_len, const uint8_t *hdd, size_t hdd_len, const uint32_t *table,
                       size_t table_len, uint32_t *record, size_t record_len, uint32_t *image, uint64_t *offset);

#ifdef __cplusplus
}
#endif

#endif
