/* A box on two files: formats it, writes pages so that they last, reads pages. Make the files by `truncate -s`, or name drives. */
#include "box.h"
#include <stdio.h>

int main(int argc, char **argv)
{
    static struct box box;
    uint8_t page[FERJULM_PAGE];
    unsigned at, count;
    char verb = argc == 6 ? *argv[1] : 0, more;
    if (!verb || !strchr("fwr", verb) || sscanf(argv[4], "%9u%c", &at, &more) != 1 || sscanf(argv[5], "%9u%c", &count, &more) != 1)
        return fputs("format SSD HDD SLOTS BLOCKS | write SSD HDD BLOCK PAGES <IN | read SSD HDD BLOCK PAGES >OUT\n", stderr), 2;
    uint32_t no = box_open(&box, argv[2], argv[3]);
    no = verb == 'f' && (no == 0 || no == 2) ? box_format(&box, at, count) : no;
    while (verb == 'w' && !no && count-- > 0 && fread(page, FERJULM_PAGE, 1, stdin) == 1)
        no = box_write(&box, at++, page);
    while (verb == 'r' && !no && count-- > 0 && !(no = box_read(&box, at++, page)))
        no = fwrite(page, FERJULM_PAGE, 1, stdout) == 1 ? FERJULM_DONE : BOX_DRIVE;
    no = no ? no : box_flush(&box);
    if (no)
        fprintf(stderr, "files: %s (%u)\n", box_words(no), no);
    box_close(&box);
    return no != 0;
}
