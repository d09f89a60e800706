/* A long Ogg Opus stream from the packets of a short one, over and over.
 *
 * usage: long_stream SHORT.opus BYTES PACKETS > LONG.opus
 * PACKETS packets on a page, fewer where the lacing values run out, and pages until there are BYTES bytes. Stamps, numbers
 * and checksums are right; the last page is marked last and trims 100 samples. No packet of the short stream may go over
 * two pages, and it has one Opus packet in each.
 */
#include <stdint.h>
#include <stdio.h>
#include <stdlib.h>
#include <string.h>

enum { LONGEST_SHORT = 1 << 24, MOST_PACKETS = 200000, TRIMMED = 100 };

struct packet {
    const uint8_t *bytes;
    uint32_t length, samples;
};

static uint8_t source[LONGEST_SHORT];
static struct packet packets[MOST_PACKETS];
static uint32_t packet_count;

static uint8_t lacing[255], body[65025], page[27 + 255 + 65025];
static uint32_t lacings, size, sequence;
static uint64_t written;

static uint32_t table[256];

static void make_table(void)
{
    for (uint32_t b = 0; b < 256; b++) {
        uint32_t r = b << 24;
        for (int i = 0; i < 8; i++)
            r = r << 1 ^ (r >> 31 ? 0x04c11db7u : 0);
        table[b] = r;
    }
}

static uint32_t samples_of(const struct packet *p)
{
    static const uint32_t silk[] = { 480, 960, 1920, 2880 };
    uint32_t config = p->bytes[0] >> 3, code = p->bytes[0] & 3;
    uint32_t frame = config < 12 ? silk[config % 4] : config < 16 ? 480 + 480 * (config % 2) : 120u << config % 4;
    return frame * (code == 0 ? 1 : code < 3 ? 2 : p->bytes[1] & 63);
}

static void read_packets(const char *name)
{
    FILE *file = fopen(name, "rb");
    size_t n = file ? fread(source, 1, sizeof source, file) : 0, at = 0;
    while (at + 27 <= n) {
        const uint8_t *values = source + at + 27, *bytes = values + source[at + 26];
        uint32_t length = 0;
        for (int k = 0; k < source[at + 26]; k++) {
            length += values[k];
            if (values[k] == 255)
                continue;
            packets[packet_count++] = (struct packet){ bytes, length, 0 };
            bytes += length;
            length = 0;
        }
        at = bytes - source;
    }
    for (uint32_t i = 2; i < packet_count; i++)
        packets[i].samples = samples_of(&packets[i]);
}

static int has_room(const struct packet *p)
{
    return lacings + p->length / 255 + 1 <= 255;
}

static void add(const struct packet *p)
{
    memcpy(body + size, p->bytes, p->length);
    size += p->length;
    for (uint32_t n = p->length; n >= 255; n -= 255)
        lacing[lacings++] = 255;
    lacing[lacings++] = p->length % 255;
}

static void write_page(uint8_t flags, uint64_t granule)
{
    uint32_t n = 27 + lacings + size, sum = 0;
    memcpy(page, "OggS", 5);
    page[5] = flags;
    memcpy(page + 6, &granule, 8);
    memcpy(page + 14, "long", 4);
    memcpy(page + 18, &sequence, 4);
    memset(page + 22, 0, 4);
    page[26] = lacings;
    memcpy(page + 27, lacing, lacings);
    memcpy(page + 27 + lacings, body, size);
    for (uint32_t i = 0; i < n; i++)
        sum = sum << 8 ^ table[sum >> 24 ^ page[i]];
    memcpy(page + 22, &sum, 4);
    if (fwrite(page, 1, n, stdout) != n)
        exit(1);
    written += n;
    sequence++;
    lacings = size = 0;
}

int main(int argc, char **argv)
{
    if (argc != 4)
        return 1;
    uint64_t bytes = strtoull(argv[2], NULL, 10), granule = 0;
    uint32_t most = strtoul(argv[3], NULL, 10), i = 2;

    make_table();
    read_packets(argv[1]);
    if (packet_count < 3 || most == 0)
        return 1;
    add(&packets[0]);
    write_page(2, 0);
    add(&packets[1]);
    write_page(0, 0);
    while (written < bytes) {
        for (uint32_t k = 0; k < most && has_room(&packets[i]); k++) {
            add(&packets[i]);
            granule += packets[i].samples;
            if (++i == packet_count)
                i = 2;
        }
        if (written + 27 + lacings + size < bytes)
            write_page(0, granule);
        else
            write_page(4, granule - TRIMMED);
    }
    return 0;
}
