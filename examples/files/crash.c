/* Kills a process that uses a box, again and again, and holds the box to the plain disk's rule: after each reopening every block
 * reads as its contents at the last format, flush or finished reopening before, or as contents that landed in it later.
 *
 *     crash [--faulty] [--sync] FOLDER [KILLS [SEED]]
 *
 * A child opens the box in FOLDER, which may take a mending store, compares every block, then writes, reads, fetches, writes back
 * and flushes at random until it kills itself by SIGKILL at a store: before it, after it and before its sync, or after its sync.
 * In every other life a store fails before that, with an error of the drive: nothing is written, or it is and the sync fails. The
 * child then closes the box, opens it again and compares, as after a cut. What has landed is noted in memory that the children
 * share. The system lives on, so that no page that was written is lost, and the syncs are left out unless --sync is given.
 * --faulty: one announcement in five is not stored, which has to be found.
 *
 * pwrite and fdatasync are this file's, by the linker's --wrap; box.h is as every user has it.
 */
#include "box.h"
#include <signal.h>
#include <stdio.h>
#include <stdlib.h>
#include <sys/wait.h>

enum { BLOCKS = 400, WRITES = 1 << 24 };
enum { FORMATTING, OPENING, READING, WRITING, FETCHING, WRITING_BACK, FLUSHING, ACTIONS };
static const char *const NAMES[ACTIONS] = {"format", "open", "read", "write", "fetch", "write back", "flush"};
enum { BEFORE, UNSYNCED, SYNCED, MOMENTS }; /* of a store: before it, after it and before its sync, after its sync */
static const struct { uint32_t slots, blocks; } SIZES[] = {{1, 3}, {6, 24}, {250, BLOCKS}};

/* The plain disk, and what was done. A write has a number, which its page begins with; 0 is the disk before the format. */
static struct shared {
    uint32_t last;           /* the last write */
    uint32_t settled;        /* the last write before the last format, flush or finished reopening */
    uint32_t page[BLOCKS];   /* by block: the write that it reads as */
    uint32_t kept[BLOCKS];   /* what that was at the last format, flush or finished reopening */
    uint32_t landed[WRITES]; /* by write: 1 + the block, once it has landed */
    uint64_t kills[MOMENTS], done[ACTIONS], compared, mended, errors, left_out;
} *all;

static struct box box;
static uint64_t state; /* of the random numbers */
static int faulty, syncs, action;
static uint32_t block;              /* the action's */
static uint32_t stores;             /* how many the child has begun */
static uint32_t fatal, moment;      /* the store that it kills itself at, 0 for none, and when */
static uint32_t failing, failing_at; /* the store that fails, 0 for none, and when */

static uint32_t below(uint32_t bound)
{
    state ^= state << 13;
    state ^= state >> 7;
    state ^= state << 17;
    return (uint32_t)((state * 0x2545f4914f6cdd1d >> 32) % bound);
}

static void fill(uint32_t *page, uint32_t of, uint32_t write)
{
    page[0] = write;
    page[1] = of;
    for (uint32_t i = 2; i < FERJULM_PAGE / 4; i++)
        page[i] = (write * 2654435761u ^ of) * i + (write >> 3);
}

static void die_at(uint32_t now)
{
    if (fatal == 0 || stores < fatal || moment != now)
        return;
    all->kills[now]++;
    kill(getpid(), SIGKILL);
}

static int fails_at(uint32_t now)
{
    if (failing == 0 || stores != failing || failing_at != now)
        return 0;
    all->errors++;
    errno = EIO;
    return 1;
}

static void settle(void)
{
    memcpy(all->kept, all->page, sizeof all->kept);
    all->settled = all->last;
}

/* A store is done: what it means for the plain disk. */
static void note_store(int fd, off_t offset)
{
    int slot = fd == box.fd[SSD] && (size_t)offset >= box.length[SSD] - box.words / 2 * FERJULM_PAGE;
    if (action == WRITING && slot) {
        all->landed[all->last] = 1 + block;
        all->page[block] = all->last;
    }
    if (action == FLUSHING)
        settle();
    all->mended += action == OPENING;
}

ssize_t __real_pwrite(int fd, const void *bytes, size_t length, off_t offset);
ssize_t __wrap_pwrite(int fd, const void *bytes, size_t length, off_t offset)
{
    int metadata = fd == box.fd[SSD] && (size_t)offset < box.length[SSD] - box.words / 2 * FERJULM_PAGE;
    stores++;
    die_at(BEFORE);
    if (fails_at(BEFORE))
        return -1;
    ssize_t n = (ssize_t)length;
    if (faulty && metadata && (action == WRITING || action == FETCHING) && below(5) == 0)
        all->left_out++;
    else {
        n = __real_pwrite(fd, bytes, length, offset);
        note_store(fd, offset);
    }
    die_at(UNSYNCED);
    return n;
}

int __real_fdatasync(int fd);
int __wrap_fdatasync(int fd)
{
    int failed = syncs ? __real_fdatasync(fd) : 0;
    die_at(SYNCED);
    return fails_at(SYNCED) ? -1 : failed;
}

static void must(uint32_t no)
{
    if (no == FERJULM_DONE)
        return;
    printf("%s, block %u: %s (%u)\n", NAMES[action], block, box_words(no), no);
    exit(1);
}

/* A block reads as a write that it must not read as. */
static void wrong(uint32_t write)
{
    printf("block %u reads as write %u; at the last flush or reopening it was %u, and now it should be %u\n", block, write,
           all->kept[block], all->page[block]);
    exit(1);
}

/* Reads the block: the write whose page it has, byte for byte. */
static uint32_t read_block(void)
{
    uint32_t page[FERJULM_PAGE / 4], whole[FERJULM_PAGE / 4];
    must(box_read(&box, block, (uint8_t *)page));
    all->compared++;
    fill(whole, block, page[0]);
    if (memcmp(page, whole, FERJULM_PAGE) == 0)
        return page[0];
    printf("block %u reads as no page of its own; the page says block %u, write %u\n", block, page[1], page[0]);
    exit(1);
}

/* The box was reopened: each block has one of its contents, from now on its only one. */
static void compare(uint32_t blocks)
{
    for (block = 0; block < blocks; block++) {
        uint32_t write = read_block();
        int later = write > all->settled && write <= all->last && all->landed[write] == 1 + block;
        if (write != all->kept[block] && !later)
            wrong(write);
        all->page[block] = write;
    }
    settle();
}

static uint32_t write_block(void)
{
    uint32_t page[FERJULM_PAGE / 4];
    if (++all->last == WRITES)
        exit(2);
    fill(page, block, all->last);
    return box_write(&box, block, (uint8_t *)page);
}

/* Two calls that box.h has no function for, made as it makes the others. */
static uint32_t fetch_block(void)
{
    uint32_t answer = FERJULM_COPIED_OUT;
    while (answer == FERJULM_COPIED_OUT)
        answer = box_stored(&box, ferjulm_fetch(LENT(&box), block, FERJULM_PEOPLE, &box.slot, PLACE(&box)));
    if (answer == 10)
        return FERJULM_DONE; /* it is cached */
    return answer == FERJULM_ANNOUNCED ? box_stored(&box, ferjulm_land_fetch(LENT(&box), block, PLACE(&box))) : answer;
}

static uint32_t write_back_block(void)
{
    uint32_t answer = box_stored(&box, ferjulm_write_back(LENT(&box), block, PLACE(&box)));
    return answer == FERJULM_NOTHING_TO_DO ? FERJULM_DONE : answer;
}

static uint32_t act(uint32_t blocks)
{
    static const int often[] = {WRITING, WRITING, WRITING, WRITING, WRITING, READING, READING, FETCHING, WRITING_BACK, FLUSHING};
    action = often[below(10)];
    block = below(blocks);
    uint32_t write = action == READING ? read_block() : all->page[block];
    if (write != all->page[block])
        wrong(write);
    uint32_t no = action == WRITING ? write_block()
        : action == FETCHING        ? fetch_block()
        : action == WRITING_BACK    ? write_back_block()
        : action == FLUSHING        ? box_flush(&box)
                                    : FERJULM_DONE;
    if (action == FLUSHING && no == FERJULM_DONE)
        settle();
    all->done[action] += no == FERJULM_DONE;
    return no;
}

/* Opens the box and compares; once more where a store of the opening failed. */
static void open_box(const char *ssd, const char *hdd, uint32_t blocks)
{
    action = OPENING;
    uint32_t no = box_open(&box, ssd, hdd);
    if (no == BOX_DRIVE && stores == failing) {
        box_close(&box);
        failing = 0;
        no = box_open(&box, ssd, hdd);
    }
    must(no);
    compare(blocks);
}

/* A child's life; without a fatal store it ends once it has compared. */
static void live(const char *ssd, const char *hdd, uint32_t blocks)
{
    state = state * 0x9e3779b97f4a7c15 + 1; /* other numbers than the parent's next */
    failing = fatal && below(2) ? 1 + below(fatal) : 0;
    failing_at = below(2) ? BEFORE : SYNCED;
    open_box(ssd, hdd, blocks);
    while (fatal) {
        uint32_t no = act(blocks);
        if (no == BOX_DRIVE && stores == failing) {
            must(box_flush(&box) == 3 ? FERJULM_DONE : BOX_DRIVE); /* every call is refused now */
            box_close(&box);
            failing = 0;
            open_box(ssd, hdd, blocks);
        } else
            must(no);
    }
    exit(0);
}

/* Whether a child has lived and ended as it must. */
static int lived(const char *ssd, const char *hdd, uint32_t blocks)
{
    int status;
    fflush(stdout);
    pid_t child = fork();
    if (child == 0)
        live(ssd, hdd, blocks);
    if (child < 0 || waitpid(child, &status, 0) != child)
        return 0;
    return fatal ? WIFSIGNALED(status) && WTERMSIG(status) == SIGKILL : status == 0;
}

/* A new box, its disk with pages of its own. */
static void format(const char *ssd, const char *hdd, uint32_t slots, uint32_t blocks)
{
    uint32_t page[FERJULM_PAGE / 4];
    FILE *files[] = {fopen(ssd, "w"), fopen(hdd, "w")};
    if (!files[0] || !files[1] || ftruncate(fileno(files[0]), (off_t)ferjulm_ssd_bytes(slots)))
        must(BOX_DRIVE);
    for (block = 0; block < blocks; block++) {
        fill(page, block, 0);
        fwrite(page, FERJULM_PAGE, 1, files[1]);
    }
    if (fclose(files[0]) || fclose(files[1]))
        must(BOX_DRIVE);
    must(box_open(&box, ssd, hdd) == 2 ? box_format(&box, slots, blocks) : BOX_DRIVE);
    box_close(&box);
    memset(all->page, 0, sizeof all->page);
    settle();
}

static int run(const char *folder, uint32_t kills)
{
    char ssd[4096], hdd[4096];
    snprintf(ssd, sizeof ssd, "%s/ssd.img", folder);
    snprintf(hdd, sizeof hdd, "%s/hdd.img", folder);
    for (uint32_t i = 0; i < 3; i++) {
        uint32_t share = kills / 3 + (i < kills % 3);
        fatal = 0;
        action = FORMATTING;
        format(ssd, hdd, SIZES[i].slots, SIZES[i].blocks);
        for (uint32_t k = 0; k <= share; k++) {
            stores = 0;
            fatal = k < share ? 1 + below(40) : 0;
            moment = below(MOMENTS);
            if (!lived(ssd, hdd, SIZES[i].blocks))
                return 1;
        }
    }
    return 0;
}

int main(int argc, char **argv)
{
    for (; argc > 1 && argv[1][0] == '-'; argc--, argv++) {
        faulty |= strcmp(argv[1], "--faulty") == 0;
        syncs |= strcmp(argv[1], "--sync") == 0;
    }
    if (argc < 2)
        return fprintf(stderr, "crash [--faulty] [--sync] FOLDER [KILLS [SEED]]\n"), 2;
    uint32_t kills = argc > 2 ? (uint32_t)atoi(argv[2]) : 500;
    state = argc > 3 ? strtoull(argv[3], NULL, 10) : 1;
    printf("seed %llu\n", (unsigned long long)state);
    state = state * 0x9e3779b97f4a7c15 + 0x632be59bd9b4e019;
    all = mmap(NULL, sizeof *all, PROT_READ | PROT_WRITE, MAP_SHARED | MAP_ANONYMOUS | MAP_NORESERVE, -1, 0);
    if (all == MAP_FAILED)
        return 2;
    int failed = run(argv[1], kills);
    uint64_t *k = all->kills, *d = all->done;
    printf("%lu kills before a store, %lu after one and before its sync, %lu after its sync; %lu mending stores\n",
           k[BEFORE], k[UNSYNCED], k[SYNCED], all->mended);
    printf("%lu stores failed; ", all->errors);
    printf("%lu writes, %lu flushes, %lu fetches, %lu written back; %lu blocks read and compared; %lu announcements not stored\n",
           d[WRITING], d[FLUSHING], d[FETCHING], d[WRITING_BACK], all->compared, all->left_out);
    puts(failed ? "not as it must be" : "all as it must be");
    return failed;
}
