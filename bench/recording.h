/* What the benchmarks on long recordings share: a recording in memory, feeding it, and the processor's time. */
#include <fcntl.h>
#include <stdint.h>
#include <stdio.h>
#include <stdlib.h>
#include <sys/mman.h>
#include <sys/stat.h>
#include <time.h>

#include "embulgri.h"

enum { CARRY = 61440, PLACES = 1024 };

struct recording {
    const uint8_t *bytes;
    size_t size;
};

static void give_up(const char *what)
{
    fprintf(stderr, "%s\n", what);
    exit(3);
}

/* The recording, all of it in memory. */
static struct recording map(const char *name)
{
    struct stat told;
    int file = open(name, O_RDONLY);
    if (file < 0 || fstat(file, &told) != 0)
        give_up("the recording cannot be opened");
    void *start = mmap(NULL, told.st_size, PROT_READ, MAP_PRIVATE | MAP_POPULATE, file, 0);
    if (start == MAP_FAILED)
        give_up("the recording cannot be mapped");
    return (struct recording){ start, told.st_size };
}

static double now(void)
{
    struct timespec t;
    clock_gettime(CLOCK_PROCESS_CPUTIME_ID, &t);
    return t.tv_sec + t.tv_nsec / 1e9;
}

static void feed(struct recording r)
{
    static uint8_t carry[CARRY];
    static uint64_t ends[PLACES], lengths[PLACES], kept[PLACES], frames[PLACES];
    uint64_t state[16], out[4] = { 0, 0, 0, 1 };
    size_t at = 0;
    embulgri_start(state);
    while (out[3] == 1) {
        uint32_t number = embulgri_feed_pages(state, r.bytes + at, r.size - at, carry, CARRY, ends, PLACES, lengths, PLACES,
                                              kept, PLACES, frames, PLACES, out);
        if (number != 0)
            give_up("a page is refused");
        at += out[0];
    }
    if (at != r.size)
        give_up("the recording is not fed whole");
}

/* The processor's time of feeding it. */
static double time_of_feeding(struct recording r)
{
    double start = now();
    feed(r);
    return now() - start;
}

static double lesser(double a, double b)
{
    return a < b ? a : b;
}
