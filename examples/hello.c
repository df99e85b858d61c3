/* A write that lasts: format a box of 4 slots and 8 blocks, write block 5, flush, and read it where it lies. */
#include <stdio.h>
#include <stdlib.h>
#include "ferjulm.h"

#define BOX ssd, sizeof ssd, hdd, sizeof hdd, table, 8, record, FERJULM_RECORD_WORDS
static uint8_t ssd[6 * FERJULM_PAGE], hdd[8 * FERJULM_PAGE];
static uint32_t table[8], record[FERJULM_RECORD_WORDS], slot, image;
static uint64_t offset;

/* After each call: where the images are kept on drives, the page that it names is written to its drive here. */
static void made(uint32_t result)
{
    if (ferjulm_is_refusal(result))
        exit((int)result);
    if (image != FERJULM_NOWHERE)
        printf("%s from byte %u\n", image == FERJULM_SSD ? "SSD" : "HDD", (unsigned)offset);
}

int main(void)
{
    uint8_t page[FERJULM_PAGE] = "water at 12 m, the passage goes on";
    made(ferjulm_format(BOX, 4, 8));
    while (record[FERJULM_PHASE] != FERJULM_READY)
        made(ferjulm_step(BOX, &image, &offset));
    made(ferjulm_offer(BOX, 5, FERJULM_PEOPLE, &slot, &image, &offset));
    made(ferjulm_land(BOX, 5, page, sizeof page, &image, &offset));
    made(ferjulm_flush(BOX, &image, &offset));
    if (ferjulm_view(BOX, 5, &image, &offset) == FERJULM_DONE)
        printf("slot %u: %s\n", slot, (char *)(image == FERJULM_SSD ? ssd : hdd) + offset);
    return 0;
}
