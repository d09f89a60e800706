/* The listing of an Ogg Opus stream in hand-written C, to time with the program `list`.
 *
 * usage: list_c < FILE
 * One thread, no SIMD: large reads, the checksum sixteen bytes a step, a direct walk over the lacing values, numbers from
 * tables of digits. It makes every check that `list` makes and prints the same.
 */
#include <stdint.h>
#include <stdio.h>
#include <stdlib.h>
#include <string.h>
#include <unistd.h>

#include "list_c_parts.h"

enum { LONGEST_PACKET = 61440, INPUT = 1 << 18, OUTPUT = 1 << 18, PAGE_LINES = 1 << 14 };

static const uint64_t NO_GRANULE = UINT64_MAX;

/* ---- lines */

static uint8_t out[OUTPUT + 64];
static size_t out_at;
static char four_digits[10000][4];
static struct { char text[24]; uint32_t length, samples; } ending[SHAPES]; /* " dur frames dur\n", and dur */
static uint64_t high;           /* the last stamp without its four lowest digits, */
static char high_text[24];      /* and as text */
static uint32_t high_length;

static void make_digits(void)
{
    for (int i = 0; i < 10000; i++) {
        char text[8];
        snprintf(text, sizeof text, "%04d", i);
        memcpy(four_digits[i], text, 4);
    }
    for (uint32_t shape = 0; shape < SHAPES; shape++) {
        uint32_t samples = samples_of(shape);
        if (samples == 0 || samples > MOST_SAMPLES)
            continue;
        ending[shape].samples = samples;
        ending[shape].length = snprintf(ending[shape].text, sizeof ending[shape].text, " %u %u %u\n", samples,
                                        frames_of(shape), samples);
    }
}

static void flush(void)
{
    for (size_t i = 0; i < out_at;) {
        ssize_t n = write(1, out + i, out_at - i);
        if (n <= 0)
            exit(2);
        i += n;
    }
    out_at = 0;
}

/* Lines of packets of which nothing is skipped or trimmed, from the position before them. */
static void put_whole(uint64_t at, const uint16_t *shapes, uint32_t count)
{
    uint8_t *o = out + out_at;
    uint64_t low = at - high * 10000;
    for (uint32_t k = 0; k < count; k++) {
        uint32_t s = shapes[k];
        low += ending[s].samples;
        if (low >= 10000) {
            high += low / 10000;
            low %= 10000;
            high_length = snprintf(high_text, sizeof high_text, "%llu", (unsigned long long)high);
        }
        if (high) {
            memcpy(o, high_text, 16);
            o += high_length;
            memcpy(o, four_digits[low], 4);
            o += 4;
        } else
            o += sprintf((char *)o, "%u", (unsigned)low);
        memcpy(o, ending[s].text, 16);
        o += ending[s].length;
    }
    out_at = o - out;
}

static void put_line(uint64_t end, uint32_t shape, uint64_t kept)
{
    out_at += sprintf((char *)out + out_at, "%llu %u %u %llu\n", (unsigned long long)end, samples_of(shape),
                      frames_of(shape), (unsigned long long)kept);
}

/* ---- stamps and cuts (RFC 7845, 4) */

static int have_position;
static uint64_t position, decoded, kept_sum, skipped_sum, trimmed_sum, hole;

static void put_cut(uint64_t at, uint64_t granule, int cut, const uint16_t *shapes, uint32_t count)
{
    uint64_t seen = decoded;
    for (uint32_t k = 0; k < count; k++) {
        uint64_t n = samples_of(shapes[k]), end = at + n, trimmed = 0, skipped = seen < pre_skip ? pre_skip - seen : 0;
        if (cut && end > granule)
            trimmed = end - granule < n ? end - granule : n;
        if (skipped > n - trimmed)
            skipped = n - trimmed;
        put_line(end, shapes[k], n - trimmed - skipped);
        trimmed_sum += trimmed;
        skipped_sum += skipped;
        kept_sum += n - trimmed - skipped;
        seen += n;
        at = end;
    }
}

/* The packets that end on a page, sum samples in all. */
static int list_packets(uint64_t granule, int last, const uint16_t *shapes, uint32_t count, uint64_t sum)
{
    uint64_t before = position;
    if (!have_position) {
        if (last && granule < pre_skip)
            return 18;
        if (!last && granule < sum)
            return 17;
        before = granule < sum ? 0 : granule - sum;
    } else if (granule < (last ? before : before + sum))
        return 17;
    if (granule > before + sum)
        hole += granule - before - sum;
    int cut = last && granule < before + sum;
    uint64_t at = cut ? before : granule - sum;
    if (!cut && decoded >= pre_skip) {
        kept_sum += sum;
        put_whole(at, shapes, count);
    } else
        put_cut(at, granule, cut, shapes, count);
    decoded += sum;
    position = granule;
    have_position = 1;
    return 0;
}

/* ---- pages */

struct page {
    uint32_t flags, lacings, size;      /* size: bytes of the body */
    uint64_t granule;
    const uint8_t *lacing, *body;
    uint32_t completing;                /* packets that end here */
    int open, plain;                    /* a packet is left unfinished; each lacing value is a whole packet */
};

static uint8_t carry[LONGEST_PACKET];
static int headers, ended, unfinished;  /* headers: those that are complete */
static uint32_t serial, sequence, held;

/* Looks at the bytes as one page, 3 and 4; clears the checksum's field. */
static int read_page(uint8_t *p, size_t n, struct page *page)
{
    if (n < 27 || memcmp(p, "OggS\0", 5))
        return 3;
    page->flags = p[5];
    memcpy(&page->granule, p + 6, 8);
    page->lacings = p[26];
    page->lacing = p + 27;
    page->body = page->lacing + page->lacings;
    if (n < 27 + page->lacings)
        return 3;
    page->size = 0;
    for (uint32_t i = 0; i < page->lacings; i++)
        page->size += page->lacing[i];
    if (n != 27 + page->lacings + page->size)
        return 3;
    uint32_t sum = le32(p + 22);
    memset(p + 22, 0, 4);
    return checksum(p, n) == sum ? 0 : 4;
}

/* The packets by the lacing values, 9. */
static int measure(struct page *page)
{
    uint32_t length = held;
    page->plain = !unfinished && !memchr(page->lacing, 255, page->lacings);
    page->open = page->lacings ? page->lacing[page->lacings - 1] == 255 : unfinished;
    page->completing = page->plain ? page->lacings : 0;
    for (uint32_t i = page->plain ? page->lacings : 0; i < page->lacings; i++) {
        length += page->lacing[i];
        if (length > LONGEST_PACKET)
            return 9;
        if (page->lacing[i] < 255) {
            page->completing++;
            length = 0;
        }
    }
    return 0;
}

/* 5 to 11. */
static int check(const uint8_t *p, struct page *page)
{
    int first = headers == 0;
    if (!first && le32(p + 14) != serial)
        return 5;
    if (le32(p + 18) != sequence)
        return 6;
    if (page->flags > 7 || (page->flags >> 1 & 1) != (uint32_t)first || (headers < 2 && page->flags & 4))
        return 7;
    if ((page->flags & 1) != (uint32_t)unfinished)
        return 8;
    if (measure(page))
        return 9;
    if (headers < 2 && (page->lacings == 0 || page->completing + page->open != 1 || (first && page->open)))
        return 10;
    if (page->completing == 0 ? page->granule != NO_GRANULE : headers < 2 ? page->granule != 0 : page->granule >> 63)
        return 11;
    return 0;
}

static int feed_header(const struct page *page)
{
    if (headers == 0)
        return read_head(page->body, page->size);
    memcpy(carry + held, page->body, page->size);
    held += page->size;
    if (page->open)
        return 0;
    int refusal = read_tags(carry, held);
    held = 0;
    return refusal;
}

/* The shape of a packet; that of one frame and one stream is told by the first byte. */
static int shape_of(const uint8_t *p, uint32_t n)
{
    if (streams == 1 && n - 1 <= 1275 && (*p & 3) == 0)
        return one_frame(*p);
    return audio_packet(p, n, streams);
}

static int feed_audio(const struct page *page)
{
    uint16_t shapes[255];
    uint32_t count = 0, i = 0, size = 0;
    uint64_t sum = 0;
    const uint8_t *q = page->body;
    if (page->plain && streams == 1)
        for (; i < page->lacings && page->lacing[i] && (*q & 3) == 0; i++) {
            sum += frame_samples[*q >> 3];
            shapes[count++] = one_frame(*q);
            q += page->lacing[i];
        }
    for (; i < page->lacings; i++) {
        size += page->lacing[i];
        if (page->lacing[i] == 255)
            continue;
        const uint8_t *packet = q;
        uint32_t n = size;
        if (held) {
            memcpy(carry + held, q, size);
            packet = carry;
            n += held;
            held = 0;
        }
        int shape = shape_of(packet, n);
        if (shape <= 0)
            return shape ? 16 : 15;
        sum += samples_of(shape);
        shapes[count++] = shape;
        q += size;
        size = 0;
    }
    int refusal = count ? list_packets(page->granule, page->flags >> 2 & 1, shapes, count, sum) : 0;
    memcpy(carry + held, q, size);
    held += size;
    return refusal;
}

/* One page of n bytes at p: 0, or the number by which it is refused. */
static int feed(uint8_t *p, size_t n)
{
    struct page page;
    if (ended)
        return 2;
    int refusal = read_page(p, n, &page);
    if (!refusal)
        refusal = check(p, &page);
    if (!refusal)
        refusal = headers < 2 ? feed_header(&page) : feed_audio(&page);
    if (refusal)
        return refusal;
    if (headers < 2 && !page.open)
        headers++;
    serial = le32(p + 14);
    sequence++;
    unfinished = page.open;
    ended = page.flags >> 2 & 1;
    return 0;
}

/* ---- the program */

static uint8_t in[INPUT];

/* Bytes of the page that starts at p, as far as they are there to tell; more than n if it is not whole. */
static size_t extent(const uint8_t *p, size_t n)
{
    if (n < 27)
        return 27;
    size_t size = 27 + p[26];
    if (n >= size)
        for (uint32_t i = 0; i < p[26]; i++)
            size += p[27 + i];
    return size;
}

/* Reads more after the n bytes at p, which go to the front; how many there are then. */
static size_t read_more(const uint8_t *p, size_t n)
{
    memmove(in, p, n);
    ssize_t got = read(0, in + n, INPUT - n);
    if (got < 0)
        exit(2);
    return n + got;
}

int main(void)
{
    size_t at = 0, have = 0;
    int at_end = 0, refusal = 0;
    unsigned long long pages = 0;

    make_tables();
    make_frame_samples();
    make_digits();
    out_at = sprintf((char *)out, "end dur frames kept\n");
    for (;;) {
        size_t n = have - at, size = extent(in + at, n);
        int no_page = n >= 4 && memcmp(in + at, "OggS", 4);
        if (n < size && !at_end && !no_page) {
            have = read_more(in + at, n);
            at = 0;
            at_end = have == n;
            continue;
        }
        if (n == 0)
            break;
        if (n < size || no_page)
            size = n;
        refusal = feed(in + at, size);
        if (refusal)
            break;
        at += size;
        pages++;
        if (out_at > OUTPUT - PAGE_LINES)
            flush();
    }
    if (refusal)
        out_at += sprintf((char *)out + out_at, "refused %d page %llu\n", refusal, pages);
    else
        out_at += sprintf((char *)out + out_at, "total kept=%llu skipped=%llu trimmed=%llu hole=%llu\n",
                          (unsigned long long)kept_sum, (unsigned long long)skipped_sum,
                          (unsigned long long)trimmed_sum, (unsigned long long)hole);
    flush();
    return refusal != 0;
}
