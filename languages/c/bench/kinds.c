/* The workload `kinds` of nb_bench by samvolip.h: one thread takes one kind of call after another, and makes a call of that kind at
   each of 65,536 keys, in an order that looks random, in a table of 2^17 slots where each is at home. Rounds go by on a new map each.
       kinds [ROUNDS]      prints a line for each kind: its name, and the best and the middle round, in nanoseconds a call
   A nanosecond is one of the thread's processor time. The functions aren't inlined, so that a simulator tells them apart. */
#include "measure.h"

#define KEYS 65536u
#define KINDS 6
#define APART __attribute__((noinline))

/* The i-th key: all of them, in an order that looks random. */
static uint64_t key_at(uint32_t i)
{
    return (i * 40503u + 12345u) & (KEYS - 1);
}

/* A loop over all keys whose body answers a code; the sum of the codes, so that none is left out. */
#define OVER_ALL(name, call)                                                                                                       \
    static APART int name(samvolip_seat *seat)                                                                                     \
    {                                                                                                                              \
        uint64_t found;                                                                                                            \
        int sum = 0;                                                                                                               \
        for (uint32_t i = 0; i < KEYS; i++) {                                                                                      \
            uint64_t key = key_at(i);                                                                                              \
            sum += call;                                                                                                           \
        }                                                                                                                          \
        return sum;                                                                                                                \
    }

OVER_ALL(put_all, samvolip_put(seat, key, key + 1, &found))
OVER_ALL(put_other, samvolip_put(seat, key, key + 2, &found))
OVER_ALL(get_all, samvolip_get(seat, key, &found))
OVER_ALL(add_all, samvolip_add(seat, key, 1, &found))
OVER_ALL(remove_all, samvolip_remove(seat, key, &found))
OVER_ALL(get_none, samvolip_get(seat, key, &found))

int main(int count, char **words)
{
    static const char *const names[KINDS] = {"put-new", "put", "get", "add", "remove", "get-none"};
    static int (*const kinds[KINDS])(samvolip_seat *) = {put_all, put_other, get_all, add_all, remove_all, get_none};
    static const int sums[KINDS] = {0, KEYS, KEYS, KEYS, KEYS, 0};
    samvolip_shape shape = {{17}, 1, 1, 1, UINT32_MAX, 8};
    unsigned long rounds = count > 1 ? strtoul(words[1], NULL, 10) : 41;
    double *times[KINDS];
    for (int kind = 0; kind < KINDS; kind++)
        if (!(times[kind] = malloc((rounds ? rounds : 1) * sizeof(double))))
            return 4;
    for (unsigned long round = 0; round < rounds; round++) {
        samvolip_seat seat = SAMVOLIP_SEAT_INIT;
        if (samvolip_open(&shape, &seat) < 0)
            return 4;
        for (int kind = 0; kind < KINDS; kind++) {
            double begun = now(CLOCK_THREAD_CPUTIME_ID);
            int sum = kinds[kind](&seat);
            times[kind][round] = (now(CLOCK_THREAD_CPUTIME_ID) - begun) / KEYS;
            if (sum != sums[kind])
                return 2;
        }
        samvolip_free(&seat);
    }
    for (int kind = 0; kind < KINDS && rounds > 0; kind++) {
        qsort(times[kind], rounds, sizeof(double), ascending);
        printf("%s %.2f %.2f\n", names[kind], times[kind][0], times[kind][rounds / 2]);
        free(times[kind]);
    }
    return 0;
}
