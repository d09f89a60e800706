/* The listing of an Ogg Opus stream by libogg and libopus, as one would write it with them, to time with `list`.
 *
 * usage: list_libogg < FILE
 * Prints what `list` prints of a good stream. It makes few checks: a page or packet that libogg or libopus does not take
 * ends it with status 1.
 */
#include <inttypes.h>
#include <stdio.h>
#include <stdlib.h>

#include <ogg/ogg.h>
#include <opus/opus.h>

enum { PIECE = 1 << 16 };

static ogg_sync_state sync_state;
static ogg_stream_state stream;
static int headers, have_position;
static int64_t pre_skip, position, decoded, kept_sum, skipped_sum, trimmed_sum, hole;

static void stop(const char *why)
{
    fprintf(stderr, "list_libogg: %s\n", why);
    exit(1);
}

/* The next page; 0 at the end. */
static int next_page(ogg_page *page)
{
    for (;;) {
        long found = ogg_sync_pageout(&sync_state, page);
        if (found > 0)
            return 1;
        if (found < 0)
            stop("bytes between pages");
        size_t n = fread(ogg_sync_buffer(&sync_state, PIECE), 1, PIECE, stdin);
        if (n == 0)
            return 0;
        ogg_sync_wrote(&sync_state, (long)n);
    }
}

/* Samples and frames of the audio packets that end on the page that was taken in, and how many they are. */
static int page_packets(int64_t samples[255], int frames[255])
{
    ogg_packet packet;
    int count = 0, got;
    while ((got = ogg_stream_packetout(&stream, &packet)) != 0) {
        if (got < 0)
            stop("a page is missing");
        if (headers < 2) {
            if (headers++ == 0)
                pre_skip = packet.packet[10] | packet.packet[11] << 8;
            continue;
        }
        samples[count] = opus_packet_get_nb_samples(packet.packet, (opus_int32)packet.bytes, 48000);
        frames[count] = opus_packet_get_nb_frames(packet.packet, (opus_int32)packet.bytes);
        if (samples[count++] <= 0)
            stop("a wrong packet");
    }
    return count;
}

static void list_packets(int64_t granule, int last, const int64_t *samples, const int *frames, int count)
{
    int64_t sum = 0;
    for (int i = 0; i < count; i++)
        sum += samples[i];
    int64_t before = have_position ? position : granule < sum ? 0 : granule - sum;
    if (granule < (last ? before : before + sum))
        stop("a granule position too small");
    if (granule > before + sum)
        hole += granule - before - sum;
    int64_t end = last && granule < before + sum ? before : granule - sum;
    for (int i = 0; i < count; i++) {
        int64_t n = samples[i], trimmed = 0, skipped = 0;
        end += n;
        if (end > granule)
            trimmed = end - granule < n ? end - granule : n;
        if (decoded < pre_skip)
            skipped = pre_skip - decoded < n - trimmed ? pre_skip - decoded : n - trimmed;
        printf("%" PRId64 " %" PRId64 " %d %" PRId64 "\n", end, n, frames[i], n - trimmed - skipped);
        decoded += n;
        kept_sum += n - trimmed - skipped;
        skipped_sum += skipped;
        trimmed_sum += trimmed;
    }
    position = granule;
    have_position = 1;
}

int main(void)
{
    ogg_page page;
    int64_t samples[255];
    int frames[255], started = 0;

    ogg_sync_init(&sync_state);
    puts("end dur frames kept");
    while (next_page(&page)) {
        if (!started)
            ogg_stream_init(&stream, ogg_page_serialno(&page));
        started = 1;
        if (ogg_stream_pagein(&stream, &page) != 0)
            stop("a page of another stream");
        int count = page_packets(samples, frames);
        if (count)
            list_packets(ogg_page_granulepos(&page), ogg_page_eos(&page), samples, frames, count);
    }
    printf("total kept=%" PRId64 " skipped=%" PRId64 " trimmed=%" PRId64 " hole=%" PRId64 "\n",
           kept_sum, skipped_sum, trimmed_sum, hole);
    return 0;
}
