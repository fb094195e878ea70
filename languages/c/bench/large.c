/* What it takes to make a map of one table and to free it, and what calls cost where half of its slots are taken.
       large [EXPONENT [ROUNDS]]      the table's size, as an exponent of two, and how often it is made
   It prints the best and the middle of what passed in making and freeing, in microseconds; the most memory that the process had, in
   MiB, a map in it; and of calls nanoseconds of the thread's processor time. */
#include "measure.h"

#include <sys/resource.h>

static void tell(const char *what, double *times, unsigned rounds)
{
    qsort(times, rounds, sizeof *times, ascending);
    printf("%s: %.1f (%.1f)\n", what, times[0] / 1e3, times[rounds / 2] / 1e3);
}

static void make(const samvolip_shape *shape, unsigned rounds)
{
    double *opened = calloc(rounds, sizeof *opened), *freed = calloc(rounds, sizeof *freed);
    if (opened == NULL || freed == NULL)
        made(SAMVOLIP_E_OUT_OF_MEMORY);
    for (unsigned i = 0; i < rounds; i++) {
        samvolip_seat seat = SAMVOLIP_SEAT_INIT;
        const double begun = now(CLOCK_MONOTONIC);
        made(samvolip_open(shape, &seat));
        const double open = now(CLOCK_MONOTONIC);
        samvolip_free(&seat);
        opened[i] = open - begun;
        freed[i] = now(CLOCK_MONOTONIC) - open;
    }
    tell("open", opened, rounds);
    tell("free", freed, rounds);
    struct rusage usage;
    getrusage(RUSAGE_SELF, &usage);
    printf("memory: %.1f\n", (double)usage.ru_maxrss / 1024);
    free(opened);
    free(freed);
}

enum kind { NEW_KEY, GET, PUT, ADD };

/* A call at each key, in an order that looks random; the keys are mixed. */
static void call(samvolip_seat *seat, uint64_t keys, const char *what, enum kind kind)
{
    uint64_t number;
    const double begun = now(CLOCK_THREAD_CPUTIME_ID);
    for (uint64_t i = 0; i < keys; i++) {
        const uint64_t key = samvolip_mix(i * (UINT64_C(0x9E3779B97F4A7C15) + 2 * kind) % keys);
        switch (kind) {
        case NEW_KEY:
        case PUT: made(samvolip_put(seat, key, i + kind, NULL)); break;
        case GET: made(samvolip_get(seat, key, &number)); break;
        case ADD: made(samvolip_add(seat, key, 1, NULL)); break;
        }
    }
    printf("%s: %.1f\n", what, (now(CLOCK_THREAD_CPUTIME_ID) - begun) / (double)keys);
}

int main(int count, char **words)
{
    const unsigned exponent = count > 1 ? (unsigned)strtoul(words[1], NULL, 10) : 20;
    const unsigned rounds = count > 2 ? (unsigned)strtoul(words[2], NULL, 10) : 7;
    const samvolip_shape shape = {{exponent}, 1, 1, 1, UINT32_MAX, 8};
    const uint64_t keys = UINT64_C(1) << (exponent - 1);
    samvolip_seat seat = SAMVOLIP_SEAT_INIT;
    make(&shape, rounds);
    made(samvolip_open(&shape, &seat));
    call(&seat, keys, "put of a new key", NEW_KEY);
    call(&seat, keys, "get", GET);
    call(&seat, keys, "put of another number", PUT);
    call(&seat, keys, "add", ADD);
    samvolip_free(&seat);
    return 0;
}
