/* The speed of embulgri_checksum and of slicing by 8 and by 16 in C, built in the same run. "C apart" is slicing
 * by 16 with one hint to the compiler.
 *
 * The pages lie one after the other in a ring that stays in the cache, as a reader's buffer does, and each call
 * starts on the next page. The candidates take turns, and the best of several rounds counts, so that a busy machine is
 * fair to all.
 */
#include <stdint.h>
#include <stdio.h>
#include <stdlib.h>
#include <string.h>
#include <time.h>

#include "embulgri.h"

enum { LONGEST = 65307, RING = 4, ROUNDS = 9, BATCH_BYTES = 1 << 20 };

static const double ROUND_SECONDS = 0.05;

typedef uint32_t checksum(const uint8_t *bytes, size_t n);

/* tables[k][b] is what byte b does to the register k bytes later. */
static uint32_t tables[16][256];
static uint8_t ring[RING * LONGEST];
static volatile uint32_t sink; /* keeps the calls whose result nobody needs */

static void make_tables(void)
{
    for (uint32_t b = 0; b < 256; b++) {
        uint32_t c = b << 24;
        for (int bit = 0; bit < 8; bit++)
            c = c << 1 ^ (c >> 31 ? 0x04c11db7 : 0);
        tables[0][b] = c;
    }
    for (int k = 1; k < 16; k++)
        for (int b = 0; b < 256; b++)
            tables[k][b] = tables[k - 1][b] << 8 ^ tables[0][tables[k - 1][b] >> 24];
}

static inline uint32_t big_endian(const uint8_t *p)
{
    uint32_t word;
    memcpy(&word, p, sizeof word);
    return __builtin_bswap32(word);
}

/* The part of a word that k bytes of its block follow. */
static inline uint32_t word(uint32_t w, int k)
{
    return tables[k + 3][w >> 24] ^ tables[k + 2][w >> 16 & 255] ^ tables[k + 1][w >> 8 & 255] ^ tables[k][w & 255];
}

static inline uint32_t by_bytes(uint32_t c, const uint8_t *p, size_t n)
{
    while (n--)
        c = c << 8 ^ tables[0][c >> 24 ^ *p++];
    return c;
}

/* What is left after the last whole block. */
static inline uint32_t rest(uint32_t c, const uint8_t *p, size_t n)
{
    for (; n >= 4; p += 4, n -= 4)
        c = word(big_endian(p) ^ c, 0);
    return by_bytes(c, p, n);
}

static uint32_t slicing_by_8(const uint8_t *p, size_t n)
{
    uint32_t c = 0;
    for (; n >= 8; p += 8, n -= 8)
        c = word(big_endian(p) ^ c, 4) ^ word(big_endian(p + 4), 0);
    return rest(c, p, n);
}

static uint32_t slicing_by_16(const uint8_t *p, size_t n)
{
    uint32_t c = 0;
    for (; n >= 16; p += 16, n -= 16)
        c = word(big_endian(p) ^ c, 12) ^ word(big_endian(p + 4), 8) ^ word(big_endian(p + 8), 4) ^
            word(big_endian(p + 12), 0);
    return rest(c, p, n);
}

/* The same with the lookups that do not wait for the register kept apart from those that do. Without this, gcc at -O2
 * puts them all into one chain, and the function takes about 1.7 times as long. */
static uint32_t slicing_by_16_apart(const uint8_t *p, size_t n)
{
    uint32_t c = 0;
    for (; n >= 16; p += 16, n -= 16) {
        uint32_t late = word(big_endian(p + 4), 8) ^ word(big_endian(p + 8), 4) ^ word(big_endian(p + 12), 0);
        __asm__("" : "+r"(late));
        c = word(big_endian(p) ^ c, 12) ^ late;
    }
    return rest(c, p, n);
}

static checksum *const candidates[] = { embulgri_checksum, slicing_by_8, slicing_by_16, slicing_by_16_apart };
enum { CANDIDATES = sizeof candidates / sizeof *candidates };

static void fill_ring(void)
{
    uint64_t state = 1;
    for (size_t i = 0; i < sizeof ring; i++) {
        state = state * 6364136223846793005u + 1442695040888963407u;
        ring[i] = state >> 56;
    }
}

static void check_agreement(size_t size)
{
    for (int page = 0; page < RING; page++) {
        const uint8_t *p = ring + page * size;
        uint32_t expected = by_bytes(0, p, size);
        for (int i = 0; i < CANDIDATES; i++)
            if (candidates[i](p, size) != expected) {
                fprintf(stderr, "checksum: candidate %d is wrong on %zu bytes\n", i, size);
                exit(1);
            }
    }
}

static double now(void)
{
    struct timespec t;
    clock_gettime(CLOCK_MONOTONIC, &t);
    return t.tv_sec + t.tv_nsec / 1e9;
}

/* One round: MB/s, a MB being 10^6 bytes. The clock is read between batches of calls. */
static double round_of(checksum *candidate, size_t size)
{
    size_t calls = BATCH_BYTES / size / RING * RING, batches = 0;
    double start = now(), seconds;
    do {
        for (size_t i = 0; i < calls; i++)
            sink = candidate(ring + i % RING * size, size);
        batches++;
        seconds = now() - start;
    } while (seconds < ROUND_SECONDS);
    return batches * calls * size / seconds / 1e6;
}

static void measure(size_t size)
{
    double best[CANDIDATES] = { 0 };
    for (int round = 0; round < ROUNDS; round++)
        for (int i = 0; i < CANDIDATES; i++) {
            double speed = round_of(candidates[i], size);
            if (speed > best[i])
                best[i] = speed;
        }
    printf("%10zu", size);
    for (int i = 0; i < CANDIDATES; i++)
        printf(" %10.0f", best[i]);
    for (int i = 1; i < CANDIDATES; i++)
        printf(" %10.2f", best[0] / best[i]);
    printf("\n");
}

int main(void)
{
    static const size_t sizes[] = { 300, 4000, LONGEST };

    make_tables();
    fill_ring();
    for (size_t size = 0; size <= 64; size++)
        check_agreement(size);
    printf("MB/s, best of %d rounds; a ring of %d pages, hot in cache, each call on the next page\n", ROUNDS, RING);
    printf("%10s %10s %10s %10s %10s %10s %10s %10s\n", "page bytes", "embulgri", "C by 8", "C by 16", "C apart", "of by 8",
           "of by 16", "of apart");
    for (size_t i = 0; i < sizeof sizes / sizeof *sizes; i++) {
        check_agreement(sizes[i]);
        measure(sizes[i]);
    }
    return 0;
}
