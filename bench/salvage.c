/* The speed of embulgri_salvage, on a recording and on a damaged copy of it, against embulgri_feed_pages over the recording.
 *
 * usage: salvage GOOD.opus DAMAGED.opus RUNS
 * All take turns, and the least processor time of RUNS runs counts. Salvage runs in three kinds of memory: in new memory as
 * the program embulgri lends it, in large pages for the output, where its time has all that the system takes to provide them;
 * once more in the same memory; and in new memory of small pages alone. The status is 1 if one of the first two takes more
 * than 2 times the time of feeding on the recording, or more than 4 times on the damaged copy; the third is told beside them.
 */
#include "recording.h"

#include <string.h>

static const double MOST_UNDAMAGED = 2, MOST_DAMAGED = 4;

struct lent {
    size_t size, pages, lines;
    uint64_t *work, *what, *places, *sizes;
    uint8_t *out;
};

struct times {
    double lent, again, small;
};

static void *reserved(size_t count, size_t each)
{
    void *start = mmap(NULL, count * each, PROT_READ | PROT_WRITE, MAP_PRIVATE | MAP_ANONYMOUS | MAP_NORESERVE, -1, 0);
    if (start == MAP_FAILED)
        give_up("no memory");
    return start;
}

/* New memory, with room for all that is saved of an input of this size; the output in large pages, if the system has them. */
static struct lent lend(size_t size, int in_large_pages)
{
    size_t pages = size / 27, lines = size / 7 + 1;
    struct lent l = { size, pages, lines, reserved(pages, 8), reserved(lines, 8), reserved(lines, 8), reserved(lines, 8),
                      reserved(size, 1) };
    if (in_large_pages)
        madvise(l.out, size, MADV_HUGEPAGE);
    return l;
}

static void take_back(struct lent l)
{
    munmap(l.work, l.pages * 8);
    munmap(l.what, l.lines * 8);
    munmap(l.places, l.lines * 8);
    munmap(l.sizes, l.lines * 8);
    munmap(l.out, l.size);
}

static double time_of_salvage(struct recording r, struct lent l, uint64_t counts[2])
{
    double start = now();
    if (embulgri_salvage(r.bytes, r.size, l.work, l.pages, l.out, l.size, l.what, l.lines, l.places, l.lines, l.sizes, l.lines,
                         counts) != 0)
        give_up("salvage is refused");
    return now() - start;
}

static void check(struct recording r, struct lent l, int is_damaged, const uint64_t counts[2])
{
    uint64_t page;
    if (!is_damaged && (counts[0] != r.size || counts[1] != 0 || memcmp(l.out, r.bytes, r.size) != 0))
        give_up("the recording is changed");
    if (is_damaged && (counts[1] == 0 || embulgri_judge(l.out, counts[0], &page) != 0))
        give_up("what is saved is not whole");
}

/* The lesser times, of those so far and of three runs more. What is saved must be the recording or, of the damaged one, whole. */
static struct times salvage(struct recording r, struct times so_far, int is_damaged, uint64_t counts[2])
{
    struct lent l = lend(r.size, 1);
    double lent = time_of_salvage(r, l, counts), again = time_of_salvage(r, l, counts);
    check(r, l, is_damaged, counts);
    take_back(l);
    l = lend(r.size, 0);
    double small = time_of_salvage(r, l, counts);
    take_back(l);
    return (struct times){ lesser(so_far.lent, lent), lesser(so_far.again, again), lesser(so_far.small, small) };
}

/* Prints the times; whether they keep their bound. */
static int keeps(const char *name, struct times t, double fed, double most)
{
    printf("  embulgri_salvage, %s %8.3f s, %.2f of that; again %.3f s, %.2f; the bound is %.0f; in small pages %.3f s, %.2f\n",
           name, t.lent, t.lent / fed, t.again, t.again / fed, most, t.small, t.small / fed);
    return t.lent <= most * fed && t.again <= most * fed;
}

int main(int argc, char **argv)
{
    if (argc != 4 || atoi(argv[3]) < 1)
        give_up("usage: salvage GOOD.opus DAMAGED.opus RUNS");
    struct recording good = map(argv[1]), damaged = map(argv[2]);
    double fed = 1e9;
    struct times whole = { 1e9, 1e9, 1e9 }, saved = { 1e9, 1e9, 1e9 };
    uint64_t counts[2];
    for (int i = 0; i < atoi(argv[3]); i++) {
        fed = lesser(fed, time_of_feeding(good));
        whole = salvage(good, whole, 0, counts);
        saved = salvage(damaged, saved, 1, counts);
    }
    printf("  %.1f MB; of %.1f MB damaged, %.1f MB are saved, with %d lines\n", good.size / 1e6, damaged.size / 1e6,
           counts[0] / 1e6, (int)counts[1]);
    printf("  embulgri_feed_pages         %8.3f s\n", fed);
    int kept = keeps("undamaged", whole, fed, MOST_UNDAMAGED) & keeps("damaged  ", saved, fed, MOST_DAMAGED);
    if (!kept)
        printf("  a bound is EXCEEDED\n");
    return !kept;
}
