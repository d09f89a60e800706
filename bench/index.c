/* The speed of embulgri_index_build against embulgri_feed_pages over the same recording in memory, and of
 * embulgri_index_seek in its index.
 *
 * usage: index STREAM.opus PAGES RUNS
 * The recording has PAGES pages of audio. Building and feeding take turns, and the least processor time of RUNS runs counts.
 * A position is sought many times in one run; the longest of all positions counts. The status is 1 if building takes more
 * than 1.3 of the time of feeding, a seek more than 2 ms, or more than 20 probes.
 */
#include "recording.h"

enum { POSITIONS = 100, SEEKS = 10, PRE_ROLL = 3840 };

static const double MOST_OF_FEEDING = 1.3, MOST_SEEK_MS = 2;
static const uint64_t MOST_PROBES = 20;

static struct recording week;
static uint64_t *granules, *places, records;
static uint32_t *sequences;

static void *room(size_t count, size_t each)
{
    void *memory = calloc(count, each);
    if (memory == NULL)
        give_up("no memory");
    return memory;
}

/* ---- what is timed */

static void build(void)
{
    uint64_t count;
    if (embulgri_index_build(week.bytes, week.size, granules, records, places, records, sequences, records, &count) != 0)
        give_up("building the index is refused");
    if (count != records)
        give_up("the index has another number of records");
}

/* A seek: how many probes it takes. */
static uint64_t seek(uint64_t position)
{
    uint64_t out[3], place;
    if (embulgri_index_seek(granules, records, places, records, sequences, records, position, out, &place) != 0)
        give_up("a seek is refused");
    uint64_t limit = position - PRE_ROLL, i = out[1];
    int right = out[0] == 0 ? granules[0] > limit : granules[i] <= limit && (i + 1 == records || granules[i + 1] > limit);
    if (position >= PRE_ROLL && !right)
        give_up("a seek finds another record");
    return out[2];
}

/* ---- the measures */

static double time_of_building(void)
{
    double start = now();
    build();
    return now() - start;
}

/* Whether building keeps its bound. */
static int measure_building(int runs)
{
    double least_fed = 1e9, least_built = 1e9;
    for (int i = 0; i < runs; i++) {
        least_fed = lesser(least_fed, time_of_feeding(week));
        least_built = lesser(least_built, time_of_building());
    }
    double part = least_built / least_fed;
    printf("embulgri_feed_pages  %8.3f s %8.0f ns a page\n", least_fed, least_fed * 1e9 / records);
    printf("embulgri_index_build %8.3f s %8.0f ns a page, %.2f of that; the bound is %.1f\n", least_built,
           least_built * 1e9 / records, part, MOST_OF_FEEDING);
    return part <= MOST_OF_FEEDING;
}

/* Whether seeking keeps its bounds, at positions from the first to beyond the last. */
static int measure_seeking(int runs)
{
    uint64_t most_probes = 0, step = granules[records - 1] / (POSITIONS - 2);
    double longest = 0;
    for (uint64_t i = 0; i < POSITIONS; i++) {
        double least = 1e9;
        for (int k = 0; k < runs; k++) {
            double start = now();
            for (int j = 0; j < SEEKS; j++) {
                uint64_t probes = seek(i * step);
                most_probes = probes > most_probes ? probes : most_probes;
            }
            least = lesser(least, (now() - start) / SEEKS);
        }
        longest = least > longest ? least : longest;
    }
    printf("embulgri_index_seek  %8.3f ms at most, with %d probes at most; the bounds are %.0f ms and %d\n", longest * 1e3,
           (int)most_probes, MOST_SEEK_MS, (int)MOST_PROBES);
    return longest * 1e3 <= MOST_SEEK_MS && most_probes <= MOST_PROBES;
}

int main(int argc, char **argv)
{
    if (argc != 4)
        give_up("usage: index STREAM.opus PAGES RUNS");
    int runs = atoi(argv[3]);
    week = map(argv[1]);
    records = embulgri_index_count(week.bytes, week.size);
    if (records == 0 || records != strtoull(argv[2], NULL, 10) || runs < 1)
        give_up("the recording has another number of pages");
    granules = room(records, sizeof *granules);
    places = room(records, sizeof *places);
    sequences = room(records, sizeof *sequences);
    build();
    printf("%d records, %.1f MB, %.1f hours; processor time, the least of %d runs\n", (int)records, week.size / 1e6,
           granules[records - 1] / 48000.0 / 3600, runs);
    int built = measure_building(runs), sought = measure_seeking(runs);
    if (!built || !sought)
        printf("a bound is EXCEEDED\n");
    return !built || !sought;
}
