/* The speed of embulgri_feed, and of embulgri_checksum alone over the same pages, in the same run.
 *
 * The audio pages of a recording lie one after the other in memory that stays in the cache. A pass goes over all of
 * them once; before it feeds them, it takes the state that the headers left. The passes take turns; the best and the
 * median of several rounds are printed, as the load of the machine is not controlled.
 */
#include <stdint.h>
#include <stdio.h>
#include <stdlib.h>
#include <string.h>
#include <time.h>

#include "embulgri.h"

enum { LONGEST = 65307, PAGES = 16, PACKETS = 255, CARRY = 61440, ROUNDS = 101 };

static const double ROUND_SECONDS = 0.01;

/* One kind of recording: all of its packets are alike. */
struct kind {
    const char *name;
    uint8_t toc;
    uint64_t samples;
    size_t packets, packet_bytes, last_bytes; /* on each page; the last packet of a page fills it up */
};

static const struct kind kinds[] = {
    { "24 packets of 20 ms, 4,000 bytes", 0xf8, 960, 24, 164, 177 },
    { "255 packets of 2.5 ms, 10,482 bytes", 0xe0, 120, 255, 40, 40 },
};
enum { KINDS = sizeof kinds / sizeof *kinds };

static uint8_t pages[PAGES * LONGEST];
static size_t page_bytes;
static uint64_t after_headers[16];
static uint8_t carry[CARRY];
static uint64_t ends[PACKETS], lengths[PACKETS], kept[PACKETS], frames[PACKETS];
static volatile uint32_t sink; /* keeps the calls whose result nobody needs */

static void must(uint32_t answer, const char *what)
{
    if (answer != 0) {
        fprintf(stderr, "feed: %s is refused by %u\n", what, (unsigned)answer);
        exit(1);
    }
}

static uint32_t feed(uint64_t state[16], const uint8_t *page, size_t n, uint64_t record[6])
{
    return embulgri_feed(state, page, n, carry, CARRY, ends, PACKETS, lengths, PACKETS, kept, PACKETS, frames, PACKETS,
                         record);
}

/* ---- the recording */

static size_t write_page(uint64_t flags, uint64_t granule, uint32_t sequence, const uint8_t *lacing, size_t values,
                         const uint8_t *body, size_t n, uint8_t *out)
{
    uint64_t written;
    must(embulgri_page_write(flags, granule, 7, sequence, lacing, values, body, n, out, LONGEST, &written), "writing");
    return written;
}

static void feed_header(uint64_t flags, uint32_t sequence, const uint8_t *packet, uint64_t n)
{
    static uint8_t page[LONGEST];
    uint64_t record[6];
    uint8_t lacing = n;
    size_t length = write_page(flags, 0, sequence, &lacing, 1, packet, n, page);
    must(feed(after_headers, page, length, record), "a header");
}

static void feed_headers(void)
{
    static const uint64_t fields[8] = { 1, 2, 312, 48000, 0, 0, 1, 1 };
    static const uint8_t mapping[255] = { 0, 1 };
    static const uint8_t no_bytes[1];
    static const uint64_t no_lengths[1];
    uint8_t packet[64];
    uint64_t n;

    embulgri_start(after_headers);
    must(embulgri_head_write(fields, mapping, no_bytes, 0, packet, sizeof packet, &n), "writing");
    feed_header(2, 0, packet, n);
    must(embulgri_tags_write(no_bytes, 0, no_bytes, 0, no_lengths, 0, packet, sizeof packet, &n), "writing");
    feed_header(0, 1, packet, n);
}

/* Packets of one frame of random bytes. */
static void write_audio_pages(const struct kind *kind)
{
    static uint8_t lacing[PACKETS], body[PACKETS * 255];
    uint64_t random = 1;
    size_t n = 0;

    for (size_t i = 0; i < kind->packets; i++) {
        lacing[i] = i + 1 < kind->packets ? kind->packet_bytes : kind->last_bytes;
        for (size_t k = 0; k < lacing[i]; k++) {
            random = random * 6364136223846793005u + 1442695040888963407u;
            body[n + k] = k == 0 ? kind->toc : random >> 56;
        }
        n += lacing[i];
    }
    page_bytes = 27 + kind->packets + n;
    for (uint32_t i = 0; i < PAGES; i++)
        write_page(0, (i + 1) * kind->packets * kind->samples, i + 2, lacing, kind->packets, body, n,
                   pages + i * page_bytes);
}

static void check_pages(const struct kind *kind)
{
    uint64_t state[16], record[6];
    memcpy(state, after_headers, sizeof state);
    for (int i = 0; i < PAGES; i++) {
        must(feed(state, pages + i * page_bytes, page_bytes, record), "an audio page");
        if (record[0] != kind->packets || record[1] != kind->packets * kind->samples)
            must(1, "the page's record");
    }
}

/* ---- the passes: each goes over all the pages once */

static void checksum_pass(void)
{
    for (int i = 0; i < PAGES; i++)
        sink = embulgri_checksum(pages + i * page_bytes, page_bytes);
}

static void feed_pass(void)
{
    uint64_t state[16], record[6];
    memcpy(state, after_headers, sizeof state);
    for (int i = 0; i < PAGES; i++)
        sink = feed(state, pages + i * page_bytes, page_bytes, record);
}

/* The first is what the others are held to. */
static const struct {
    const char *name;
    void (*run)(void);
} passes[] = { { "checksum", checksum_pass }, { "feed", feed_pass } };
enum { PASSES = sizeof passes / sizeof *passes };

static double now(void)
{
    struct timespec t;
    clock_gettime(CLOCK_MONOTONIC, &t);
    return t.tv_sec + t.tv_nsec / 1e9;
}

/* One round: nanoseconds a page. */
static double round_of(void (*pass)(void))
{
    enum { BATCH = 16 };
    size_t batches = 0;
    double start = now(), seconds;
    do {
        for (int i = 0; i < BATCH; i++)
            pass();
        batches++;
        seconds = now() - start;
    } while (seconds < ROUND_SECONDS);
    return seconds * 1e9 / (batches * BATCH * PAGES);
}

static int by_size(const void *a, const void *b)
{
    double x = *(const double *)a, y = *(const double *)b;
    return (x > y) - (x < y);
}

static void sort(double *values)
{
    qsort(values, ROUNDS, sizeof *values, by_size);
}

static void measure(const struct kind *kind)
{
    double ns[PASSES][ROUNDS], ratio[PASSES][ROUNDS];
    for (int round = 0; round < ROUNDS; round++)
        for (int i = 0; i < PASSES; i++) {
            ns[i][round] = round_of(passes[i].run);
            ratio[i][round] = ns[i][round] / ns[0][round];
        }
    for (int i = 0; i < PASSES; i++) {
        sort(ns[i]);
        sort(ratio[i]);
    }
    printf("\n%s a page\n%-10s %10s %10s %10s %12s %12s %12s\n", kind->name, "", "ns a page", "median", "MB/s",
           "of checksum", "median", "ns a packet");
    for (int i = 0; i < PASSES; i++)
        printf("%-10s %10.0f %10.0f %10.0f %12.2f %12.2f %12.1f\n", passes[i].name, ns[i][0], ns[i][ROUNDS / 2],
               page_bytes / ns[i][0] * 1e3, ns[i][0] / ns[0][0], ratio[i][ROUNDS / 2],
               (ns[i][0] - ns[0][0]) / kind->packets);
}

int main(void)
{
    printf("Best and median of %d rounds, %d pages hot in cache; the load of the machine is not controlled.\n"
           "MB/s, the time as a multiple of the checksum's and the time a packet above it are of the best.\n",
           ROUNDS, PAGES);
    feed_headers();
    for (int i = 0; i < KINDS; i++) {
        write_audio_pages(&kinds[i]);
        check_pages(&kinds[i]);
        measure(&kinds[i]);
    }
    return 0;
}
