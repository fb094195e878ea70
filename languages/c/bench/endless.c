/* What a call of the map without an end costs beside the same call by a seat, and how long its renewals stop others.
     endless calls                 prints lines   calls WHAT NANOSECONDS NANOSECONDS-BY-A-SEAT
     endless stops KEYS THREADS    prints         stops KEYS THREADS WRITES-MS READS-MS BYTES-A-KEY
     endless growth KEYS THREADS   prints         growth KEYS THREADS NANOSECONDS-A-KEY LONGEST-PUT-MS WRITES-MS
   The keys of `calls` are 256 numbers, mixed in both. In `stops` so many threads write keys that are there, of a map with room for them,
   which is made four times larger meanwhile: the longest that writes and reads had to wait, the middle one of five such maps. In
   `growth` so many threads put new keys into a map of the default size. */
#include "measure.h"

#include <pthread.h>
#include <stdatomic.h>
#include <stdbool.h>
#include <string.h>

enum { CALLS = 1 << 24, FEW = 256, TIMES = 5 };

/* The shortest of five times of a loop over the few keys. */
#define SHORTEST(time, call)                                                                                                         \
    for (int round = 0; round < 5; round++) {                                                                                        \
        double begun = now(CLOCK_MONOTONIC);                                                                                         \
        for (uint64_t i = 0; i < CALLS; i++)                                                                                         \
            call;                                                                                                                    \
        double took = (now(CLOCK_MONOTONIC) - begun) / CALLS;                                                                        \
        time = round == 0 || took < time ? took : time;                                                                              \
    }
#define BOTH(what, by_map, by_seat)                                                                                                  \
    do {                                                                                                                             \
        double in_map = 0, in_seat = 0;                                                                                              \
        SHORTEST(in_map, by_map)                                                                                                     \
        SHORTEST(in_seat, by_seat)                                                                                                   \
        printf("calls %s %.1f %.1f\n", what, in_map, in_seat);                                                                       \
    } while (0)

static void calls(void)
{
    samvolip_map *map;
    samvolip_map_options options = SAMVOLIP_MAP_OPTIONS_INIT;
    samvolip_shape shape = {{11}, 1, 2, 2, 18, 64};
    samvolip_seat seat = SAMVOLIP_SEAT_INIT;
    uint64_t number;
    options.keys = SAMVOLIP_KEYS_MIXED;
    made(samvolip_map_open(&options, &map));
    made(samvolip_open(&shape, &seat));
    for (uint64_t key = 0; key < FEW; key++) {
        made(samvolip_map_put(map, key, key, NULL));
        made(samvolip_put(&seat, samvolip_mix(key), key, NULL));
    }
    BOTH("get", samvolip_map_get(map, i % FEW, &number), samvolip_get(&seat, samvolip_mix(i % FEW), &number));
    BOTH("put", samvolip_map_put(map, i % FEW, i, NULL), samvolip_put(&seat, samvolip_mix(i % FEW), i, NULL));
    BOTH("add", samvolip_map_add(map, i % FEW, 1, NULL), samvolip_add(&seat, samvolip_mix(i % FEW), 1, NULL));
    samvolip_free(&seat);
    samvolip_map_free(map);
}

static samvolip_map *shared;
static uint64_t keys;
static atomic_bool is_over;

static void *write_keys(void *first)
{
    for (uint64_t i = (uintptr_t)first; !is_over; i++)
        made(samvolip_map_add(shared, i * UINT64_C(0x9e3779b1) % keys, 1, NULL));
    return NULL;
}

/* Makes a map of so many keys four times larger while threads write, and says how long these had to wait. */
static samvolip_map_figures enlarge(unsigned threads, pthread_t *all)
{
    samvolip_map_options options = SAMVOLIP_MAP_OPTIONS_INIT;
    samvolip_map_figures figures;
    options.room = keys;
    made(samvolip_map_open(&options, &shared));
    for (uint64_t key = 0; key < keys; key++)
        made(samvolip_map_put(shared, key, 0, NULL));
    is_over = false;
    for (unsigned t = 0; t < threads; t++)
        if (pthread_create(&all[t], NULL, write_keys, (void *)(uintptr_t)(t * 1000)))
            exit(1);
    nanosleep(&(struct timespec){0, 20000000}, NULL);
    made(samvolip_map_renew(shared, 4 * keys));
    made(samvolip_map_look(shared, &figures));
    is_over = true;
    for (unsigned t = 0; t < threads; t++)
        pthread_join(all[t], NULL);
    samvolip_map_free(shared);
    return figures;
}

static void stops(unsigned threads)
{
    samvolip_map_figures figures = {0};
    double writes[TIMES], reads[TIMES];
    pthread_t *all = calloc(threads, sizeof *all);
    if (!all)
        exit(1);
    for (int i = 0; i < TIMES; i++) {
        figures = enlarge(threads, all);
        writes[i] = (double)figures.write_stop / 1e6;
        reads[i] = (double)figures.read_stop / 1e6;
    }
    qsort(writes, TIMES, sizeof *writes, ascending);
    qsort(reads, TIMES, sizeof *reads, ascending);
    printf("stops %llu %u %.2f %.3f %.0f\n", (unsigned long long)keys, threads, writes[TIMES / 2], reads[TIMES / 2],
           16.0 * (double)figures.slots / (double)keys);
    free(all);
}

/* One of the threads that put new keys, and its longest put. */
static struct grower {
    pthread_t thread;
    uint64_t first, step;
    double longest;
} growers[64];

static void *put_keys(void *given)
{
    struct grower *mine = given;
    double last = now(CLOCK_MONOTONIC), next;
    for (uint64_t key = mine->first; key < keys; key += mine->step, last = next) {
        made(samvolip_map_put(shared, key, key, NULL));
        next = now(CLOCK_MONOTONIC);
        mine->longest = next - last > mine->longest ? next - last : mine->longest;
    }
    return NULL;
}

static void growth(unsigned threads)
{
    samvolip_map_figures figures;
    double begun = now(CLOCK_MONOTONIC), longest = 0;
    made(samvolip_map_open(NULL, &shared));
    for (unsigned t = 0; t < threads; t++) {
        growers[t] = (struct grower){.first = t, .step = threads};
        if (pthread_create(&growers[t].thread, NULL, put_keys, &growers[t]))
            exit(1);
    }
    for (unsigned t = 0; t < threads; t++) {
        pthread_join(growers[t].thread, NULL);
        longest = growers[t].longest > longest ? growers[t].longest : longest;
    }
    double took = now(CLOCK_MONOTONIC) - begun;
    made(samvolip_map_look(shared, &figures));
    printf("growth %llu %u %.1f %.2f %.2f\n", (unsigned long long)keys, threads, took / (double)keys, longest / 1e6,
           (double)figures.write_stop / 1e6);
    samvolip_map_free(shared);
}

int main(int count, char **words)
{
    unsigned threads = count == 4 ? (unsigned)atoi(words[3]) : 0;
    if (count == 2 && strcmp(words[1], "calls") == 0) {
        calls();
        return 0;
    }
    keys = count == 4 ? strtoull(words[2], NULL, 10) : 0;
    if (keys > 0 && threads > 0 && threads <= 64 && strcmp(words[1], "stops") == 0) {
        stops(threads);
    } else if (keys > 0 && threads > 0 && threads <= 64 && strcmp(words[1], "growth") == 0) {
        growth(threads);
    } else {
        fprintf(stderr, "endless calls | stops KEYS THREADS | growth KEYS THREADS\n");
        return 2;
    }
    return 0;
}
