/* A status panel: what a look-up tells of a block, its five answers on one box; and the slot map of that box. */
#include <stdio.h>
#include "ferjulm.h"

#define BOX ssd, sizeof ssd, hdd, sizeof hdd, table, 10, record, FERJULM_RECORD_WORDS
static uint8_t ssd[7 * FERJULM_PAGE], hdd[8 * FERJULM_PAGE], page[FERJULM_PAGE];
static uint32_t table[10], record[FERJULM_RECORD_WORDS], slot, image;
static uint64_t offset;
static uint8_t sheet[67]; /* ferjulm_map_bytes(5) */

static const char *panel(uint32_t answer)
{
    switch (answer) {
    case FERJULM_NOT_CACHED:
        return "on the disk alone";
    case FERJULM_CLEAN:
        return "in the cache, and the same on the disk";
    case FERJULM_DIRTY:
        return "in the cache, the disk is behind: write it back before the disk is taken away";
    case FERJULM_OPEN_WRITE:
        return "being written: till it lands it reads as before, from the disk";
    case FERJULM_OPEN_FETCH:
        return "on its way into the cache: till then it reads from the disk";
    default:
        return "refused";
    }
}

int main(void)
{
    ferjulm_format(BOX, 5, 8);
    while (record[FERJULM_PHASE] != FERJULM_READY)
        ferjulm_step(BOX, &image, &offset);
    ferjulm_fetch(BOX, 1, FERJULM_PEOPLE, &slot, &image, &offset);
    ferjulm_land_fetch(BOX, 1, &image, &offset);
    ferjulm_offer(BOX, 2, FERJULM_PEOPLE, &slot, &image, &offset);
    ferjulm_land(BOX, 2, page, sizeof page, &image, &offset);
    ferjulm_offer(BOX, 3, FERJULM_PEOPLE, &slot, &image, &offset);
    ferjulm_fetch(BOX, 4, FERJULM_PEOPLE, &slot, &image, &offset);
    for (uint32_t block = 0; block < 5; block++)
        printf("block %u: %s\n", (unsigned)block, panel(ferjulm_look_up(BOX, block, &slot)));
    if (ferjulm_map(BOX, sheet, sizeof sheet) == FERJULM_DONE)
        fwrite(sheet, 1, ferjulm_map_bytes(record[FERJULM_SLOTS]), stdout);
    return 0;
}
