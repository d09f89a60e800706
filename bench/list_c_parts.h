/* The parts of list_c.c that know bytes only: the checksum, Opus packets and the two headers. */
#include <stdint.h>
#include <stdlib.h>
#include <string.h>
#include <strings.h>

enum { MOST_SAMPLES = 5760 };

/* ---- numbers in bytes */

static uint32_t le32(const uint8_t *p)
{
    uint32_t v;
    memcpy(&v, p, 4);
    return v;
}

static uint32_t be32(const uint8_t *p)
{
    return __builtin_bswap32(le32(p));
}

/* ---- checksum (RFC 3533, 6) */

static uint32_t table[16][256];

static void make_tables(void)
{
    for (uint32_t b = 0; b < 256; b++) {
        uint32_t r = b << 24;
        for (int i = 0; i < 8; i++)
            r = r << 1 ^ (r >> 31 ? 0x04c11db7u : 0);
        table[0][b] = r;
    }
    for (int k = 1; k < 16; k++)
        for (int b = 0; b < 256; b++)
            table[k][b] = table[k - 1][b] << 8 ^ table[0][table[k - 1][b] >> 24];
}

/* Four bytes that lie k - 3 to k bytes before the end of a step. */
static uint32_t four(int k, uint32_t w)
{
    return table[k][w >> 24] ^ table[k - 1][w >> 16 & 255] ^ table[k - 2][w >> 8 & 255] ^ table[k - 3][w & 255];
}

/* The empty statement keeps gcc from mixing the lookups that wait for r with those that do not, which makes it a third slower. */
static uint32_t step(uint32_t r, const uint8_t *p)
{
    uint32_t a = be32(p) ^ r, b = be32(p + 4), c = be32(p + 8), d = be32(p + 12);
    uint32_t rest = four(11, b) ^ four(7, c) ^ four(3, d);
    __asm__("" : "+r"(rest));
    return rest ^ four(15, a);
}

static uint32_t checksum(const uint8_t *p, size_t n)
{
    uint32_t r = 0;
    for (; n >= 16; p += 16, n -= 16)
        r = step(r, p);
    while (n--)
        r = r << 8 ^ table[0][r >> 24 ^ *p++];
    return r;
}

/* ---- Opus packets (RFC 6716, 3 and B) */

static uint16_t frame_samples[32];

static void make_frame_samples(void)
{
    static const uint16_t silk[] = { 480, 960, 1920, 2880 };
    for (int c = 0; c < 32; c++)
        frame_samples[c] = c < 12 ? silk[c % 4] : c < 16 ? 480 + c % 2 * 480 : 120 << c % 4;
}

/* A coded frame length at *p, or -1. */
static long coded(const uint8_t **p, const uint8_t *end)
{
    if (*p == end)
        return -1;
    long v = *(*p)++;
    if (v < 252)
        return v;
    if (*p == end)
        return -1;
    return v + 4 * *(*p)++;
}

static long padding(const uint8_t **p, const uint8_t *end)
{
    long sum = 0;
    while (*p < end) {
        long v = *(*p)++;
        if (v < 255)
            return sum + v;
        sum += 254;
    }
    return -1;
}

/* A packet's shape: its configuration times 64, and its number of frames. */
enum { SHAPES = 32 << 6 };

static uint32_t frames_of(uint32_t shape)
{
    return shape & 63;
}

static uint32_t samples_of(uint32_t shape)
{
    return frames_of(shape) * frame_samples[shape >> 6];
}

/* The shape of a packet of one frame, code 0, by its first byte. */
static uint32_t one_frame(uint32_t toc)
{
    return toc >> 3 << 6 | 1;
}

/* The shape of the Opus packet at *at, 0 if it is illegal; *at goes after it. */
static uint32_t opus_packet(const uint8_t **at, const uint8_t *end, int delimited)
{
    const uint8_t *p = *at;
    if (p == end)
        return 0;
    uint32_t toc = *p++, frames = toc & 3 ? 2 : 1, variable = (toc & 3) == 2;
    long pad = 0, sum = 0;
    if ((toc & 3) == 3) {
        if (p == end)
            return 0;
        uint32_t count = *p++;
        frames = count & 0x3f;
        variable = count >> 7;
        if (count & 0x40 && (pad = padding(&p, end)) < 0)
            return 0;
    }
    uint32_t shape = toc >> 3 << 6 | frames;
    if (frames == 0 || samples_of(shape) > MOST_SAMPLES)
        return 0;
    for (uint32_t i = 1; variable && i < frames; i++) {
        long v = coded(&p, end);
        if (v < 0)
            return 0;
        sum += v;
    }
    long room = end - p - pad - sum, last;
    if (delimited)
        last = coded(&p, end);
    else if (variable)
        last = room;
    else
        last = room % (long)frames ? -1 : room / (long)frames;
    if (last < 0 || last > 1275)
        return 0;
    sum += variable ? last : last * (long)frames;
    if (sum + pad > end - p)
        return 0;
    *at = p + sum + pad;
    return shape;
}

/* The shape of the first Opus packet of an audio packet of some: 0 is refusal 15, -1 is 16. */
static int audio_packet(const uint8_t *p, size_t n, int streams)
{
    const uint8_t *end = p + n;
    uint32_t first = 0;
    int differ = 0;
    for (int i = 0; i < streams; i++) {
        uint32_t shape = opus_packet(&p, end, i < streams - 1);
        if (shape == 0)
            return 0;
        if (i == 0)
            first = shape;
        differ |= samples_of(shape) != samples_of(first);
    }
    return differ ? -1 : (int)first;
}

/* ---- headers (RFC 7845, 5; RFC 8486, 3) */

static int streams;
static uint32_t pre_skip;

/* The bytes that the fields of a header take. */
static size_t head_size(const uint8_t *p, size_t n)
{
    size_t channels = p[9], family = p[18];
    if (family != 3)
        return family == 0 ? 19 : 21 + channels;
    return n < 21 ? 21 : 21 + 2 * ((size_t)p[19] + p[20]) * channels;
}

static int is_ambisonic(uint32_t channels)
{
    uint32_t side = 15;
    while (side * side > channels)
        side--;
    return channels == side * side || channels == side * side + 2;
}

static int read_head(const uint8_t *p, size_t n)
{
    if (n < 19 || memcmp(p, "OpusHead", 8))
        return 12;
    uint32_t version = p[8], channels = p[9], family = p[18];
    size_t size = head_size(p, n);
    if (version > 15 || n < size || (version < 2 && n > size))
        return 12;
    pre_skip = p[10] | p[11] << 8;
    streams = 1;
    if (family == 0)
        return channels == 1 || channels == 2 ? 0 : 13;
    if (channels == 0 || (family == 1 && channels > 8) || ((family == 2 || family == 3) && !is_ambisonic(channels))
        || (family > 3 && family != 255))
        return 13;
    uint32_t coupled = p[20];
    streams = p[19];
    if (streams < 1 || coupled > (uint32_t)streams || coupled + streams > 255)
        return 13;
    for (uint32_t i = 0; family != 3 && i < channels; i++)
        if (p[21 + i] >= coupled + streams && p[21 + i] != 255)
            return 13;
    return 0;
}

static int is_utf8(const uint8_t *p, size_t n)
{
    for (size_t i = 0; i < n;) {
        uint32_t c = p[i], l = c < 0x80 ? 1 : c < 0xc2 ? 0 : c < 0xe0 ? 2 : c < 0xf0 ? 3 : c < 0xf5 ? 4 : 0;
        if (l == 0 || n - i < l)
            return 0;
        for (uint32_t k = 1; k < l; k++)
            if ((p[i + k] & 0xc0) != 0x80)
                return 0;
        if ((c == 0xe0 && p[i + 1] < 0xa0) || (c == 0xed && p[i + 1] > 0x9f) ||
            (c == 0xf0 && p[i + 1] < 0x90) || (c == 0xf4 && p[i + 1] > 0x8f))
            return 0;
        i += l;
    }
    return 1;
}

/* Whether a comment's name is right; gains counts the two names that may occur once. */
static int right_name(const uint8_t *p, size_t n, int gains[2])
{
    const uint8_t *end = memchr(p, '=', n);
    if (!end)
        return 1;
    for (const uint8_t *q = p; q < end; q++)
        if (*q < 0x20 || *q > 0x7d)
            return 0;
    if (end - p != 15)
        return 1;
    gains[0] += !strncasecmp((const char *)p, "R128_TRACK_GAIN", 15);
    gains[1] += !strncasecmp((const char *)p, "R128_ALBUM_GAIN", 15);
    return gains[0] < 2 && gains[1] < 2;
}

static int read_tags(const uint8_t *p, size_t n)
{
    int gains[2] = { 0, 0 };
    if (n < 16 || memcmp(p, "OpusTags", 8))
        return 14;
    size_t size = le32(p + 8);
    if (size > n - 16 || !is_utf8(p + 12, size))
        return 14;
    uint32_t count = le32(p + 12 + size);
    size_t at = 16 + size;
    for (uint32_t i = 0; i < count; i++) {
        if (n - at < 4)
            return 14;
        size = le32(p + at);
        at += 4;
        if (size > n - at || !is_utf8(p + at, size) || !right_name(p + at, size, gains))
            return 14;
        at += size;
    }
    return 0;
}
