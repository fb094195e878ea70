/*
 * A cache of computed numbers that threads share.
 *
 *     cache THREADS [ROOM] < TRACE
 *
 * TRACE has a number on each line (numbers.awk writes one). For each of them a thread looks into
 * the cache, and where it isn't there computes it (how many steps its Collatz sequence takes) and
 * puts it in. The threads take the lines in turn. At the end it prints how many lines there were,
 * how many were hits, how often the cache was made anew, and the sum of all answers, which is the
 * same for any number of threads.
 *
 * The map has room for ROOM keys (1000 by default). Where it is full, the threads meet, one of them
 * makes a new map, and all go on: a cache may forget. That is how a program whose keys never end uses
 * a map whose slots do.
 */
#include "samvolip.h"

#include <inttypes.h>
#include <pthread.h>
#include <stdatomic.h>
#include <stdbool.h>
#include <stdio.h>
#include <stdlib.h>

enum { MOST_THREADS = SAMVOLIP_MAX_SEATS };

/* What all threads share. */
struct cache {
    uint64_t room;
    unsigned threads;
    const uint64_t *lines;
    size_t count;
    samvolip_seat seats[MOST_THREADS];
    pthread_barrier_t met;
    atomic_bool is_full;  /* the map takes no new key */
    atomic_uint at_work;  /* how many threads have lines left */
    unsigned renewals;
};

struct worker {
    struct cache *cache;
    unsigned number;
    uint64_t hits;
    uint64_t sum;
};

static void fail(const char *what, int code)
{
    fprintf(stderr, "cache: %s: %s\n", what, samvolip_strerror(code));
    exit(1);
}

/* A new map, with a seat for each thread. */
static void open_map(struct cache *cache)
{
    samvolip_shape shape = samvolip_shape_for_keys(cache->room, cache->threads);
    int code = samvolip_open(&shape, &cache->seats[0]);
    if (code)
        fail("open", code);
    for (unsigned i = 1; i < cache->threads; i++)
        if ((code = samvolip_split(&cache->seats[0], &cache->seats[i])))
            fail("split", code);
}

/* The map goes with its last seat. */
static void free_map(struct cache *cache)
{
    for (unsigned i = 0; i < cache->threads; i++)
        samvolip_free(&cache->seats[i]);
}

/* How many steps it takes from n to 1, by halves and by 3 n + 1; at most a million. */
static uint64_t computed(uint64_t n)
{
    uint64_t steps = 0;
    while (n > 1 && steps < 1000000) {
        n = n % 2 ? 3 * n + 1 : n / 2;
        steps++;
    }
    return steps;
}

/*
 * The number of a line, from the cache or computed. Where the cache is full, the number isn't kept,
 * and all are told to meet.
 */
static uint64_t looked_up(struct worker *worker, uint64_t line)
{
    struct cache *cache = worker->cache;
    samvolip_seat *seat = &cache->seats[worker->number];
    uint64_t number;
    int code = samvolip_get(seat, line, &number);
    if (code < 0)
        fail("get", code);
    if (code == SAMVOLIP_PRESENT) {
        worker->hits++;
        return number;
    }
    number = computed(line);
    code = samvolip_put_if_absent(seat, line, number, NULL);
    if (code == SAMVOLIP_E_FULL)
        atomic_store(&cache->is_full, true);
    else if (code < 0)
        fail("put_if_absent", code);
    return number;
}

/*
 * All threads meet here, while one of them finds the map full or they wait for the last lines; one
 * makes the map anew, if it is full. Whether any of them has lines left.
 */
static int meet(struct worker *worker)
{
    struct cache *cache = worker->cache;
    /* the barriers hand the seats to thread 0, and back */
    pthread_barrier_wait(&cache->met);
    int goes_on = atomic_load(&cache->at_work) > 0;
    if (worker->number == 0 && atomic_load(&cache->is_full)) {
        free_map(cache);
        open_map(cache);
        cache->renewals++;
        atomic_store(&cache->is_full, false);
    }
    pthread_barrier_wait(&cache->met);
    return goes_on;
}

static void *work(void *given)
{
    struct worker *worker = given;
    struct cache *cache = worker->cache;
    size_t next = worker->number;
    int has_lines = 1;
    do {
        while (next < cache->count && !atomic_load(&cache->is_full)) {
            worker->sum += looked_up(worker, cache->lines[next]);
            next += cache->threads;
        }
        if (has_lines && next >= cache->count) {
            has_lines = 0;
            atomic_fetch_sub(&cache->at_work, 1);
        }
    } while (meet(worker));
    return NULL;
}

/* All lines of standard input; a line that isn't a key ends the program. */
static uint64_t *read_lines(size_t *count)
{
    size_t room = 1024;
    uint64_t *lines = malloc(room * sizeof *lines);
    char text[64];
    *count = 0;
    while (lines && fgets(text, sizeof text, stdin)) {
        char *end;
        uint64_t line = strtoull(text, &end, 10);
        if (end == text || *end != '\n' || line > SAMVOLIP_KEY_MAX) {
            fprintf(stderr, "cache: line %zu isn't a key\n", *count + 1);
            exit(2);
        }
        if (*count == room) {
            uint64_t *more = realloc(lines, (room *= 2) * sizeof *lines);
            if (!more)
                free(lines);
            lines = more;
        }
        if (lines)
            lines[(*count)++] = line;
    }
    if (!lines)
        fail("read", SAMVOLIP_E_OUT_OF_MEMORY);
    return lines;
}

int main(int words_count, char **words)
{
    static struct cache cache;
    struct worker workers[MOST_THREADS];
    pthread_t threads[MOST_THREADS];
    cache.threads = words_count > 1 ? (unsigned)strtoul(words[1], NULL, 10) : 1;
    cache.room = words_count > 2 ? strtoull(words[2], NULL, 10) : 1000;
    if (cache.threads < 1 || cache.threads > MOST_THREADS) {
        fprintf(stderr, "usage: cache THREADS [ROOM] < TRACE, with 1 to %d threads\n", MOST_THREADS);
        return 2;
    }
    uint64_t *lines = read_lines(&cache.count);
    cache.lines = lines;
    pthread_barrier_init(&cache.met, NULL, cache.threads);
    atomic_store(&cache.at_work, cache.threads);
    open_map(&cache);
    for (unsigned i = 0; i < cache.threads; i++) {
        workers[i] = (struct worker){&cache, i, 0, 0};
        if (pthread_create(&threads[i], NULL, work, &workers[i])) {
            perror("cache: thread");
            return 1;
        }
    }
    uint64_t hits = 0, sum = 0;
    for (unsigned i = 0; i < cache.threads; i++) {
        pthread_join(threads[i], NULL);
        hits += workers[i].hits;
        sum += workers[i].sum;
    }
    printf("%zu lines, %" PRIu64 " hits, %u times anew, sum %" PRIu64 "\n", cache.count, hits,
           cache.renewals, sum);
    free_map(&cache);
    pthread_barrier_destroy(&cache.met);
    free(lines);
    return 0;
}
