/* Adds at one key, which several threads make at the same time by samvolip.h.
       hot [THREADS [ADDS [ROUNDS]]]      prints the best and the middle round, in nanoseconds an add of the whole machine
   Each thread makes so many adds a round; the slowest thread's time is the round's. */
#include "measure.h"

#include <pthread.h>

enum { MOST_THREADS = 64, MOST_ROUNDS = 1000 };

struct worker {
    samvolip_seat seat;
    double took;
    char apart[128];
};

static struct worker workers[MOST_THREADS];
static pthread_barrier_t begin;
static unsigned long adds = 400000;

static void *add_all(void *given)
{
    struct worker *worker = given;
    pthread_barrier_wait(&begin);
    double begun = now(CLOCK_MONOTONIC);
    for (unsigned long i = 0; i < adds; i++)
        if (samvolip_add(&worker->seat, 7, 1, NULL) < 0)
            abort();
    worker->took = now(CLOCK_MONOTONIC) - begun;
    return NULL;
}

/* One round: the slowest thread's time. The sum has to be right. */
static double round_of(unsigned threads)
{
    samvolip_shape shape = samvolip_shape_for_keys(100, threads);
    pthread_t started[MOST_THREADS];
    double slowest = 0;
    uint64_t sum = 0;
    if (samvolip_open(&shape, &workers[0].seat) || pthread_barrier_init(&begin, NULL, threads))
        abort();
    for (unsigned i = 1; i < threads; i++)
        if (samvolip_split(&workers[0].seat, &workers[i].seat))
            abort();
    for (unsigned i = 0; i < threads; i++)
        if (pthread_create(&started[i], NULL, add_all, &workers[i]))
            abort();
    for (unsigned i = 0; i < threads; i++) {
        pthread_join(started[i], NULL);
        if (workers[i].took > slowest)
            slowest = workers[i].took;
    }
    if (samvolip_get(&workers[0].seat, 7, &sum) != SAMVOLIP_PRESENT || sum != adds * threads)
        abort();
    for (unsigned i = 0; i < threads; i++)
        samvolip_free(&workers[i].seat);
    pthread_barrier_destroy(&begin);
    return slowest;
}

int main(int count, char **words)
{
    unsigned long threads = count > 1 ? strtoul(words[1], NULL, 10) : 2;
    unsigned long rounds = count > 3 ? strtoul(words[3], NULL, 10) : 5;
    static double times[MOST_ROUNDS];
    if (count > 2)
        adds = strtoul(words[2], NULL, 10);
    if (threads < 1 || threads > MOST_THREADS || adds < 1 || rounds < 1 || rounds > MOST_ROUNDS)
        return 3;
    for (unsigned long i = 0; i < rounds; i++)
        times[i] = round_of((unsigned)threads) / (double)(adds * threads);
    qsort(times, rounds, sizeof *times, ascending);
    printf("%lu %.1f %.1f\n", threads, times[0], times[rounds / 2]);
    return 0;
}
