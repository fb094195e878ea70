/* What keys cost that share their low bits, and what a get costs in a last table that fills up.
       full [EXPONENT [ROUNDS]]      the table's size, as an exponent of two, and of how many rounds the best is told
   It prints nanoseconds of the thread's processor time. */
#include "measure.h"

enum { KEYS = 20000 };

/* A put of a multiple of 65,536 in a new map, as it is or mixed. */
static double put_all(int is_mixed)
{
    const samvolip_shape shape = samvolip_shape_for_keys(KEYS, 1);
    samvolip_seat seat = SAMVOLIP_SEAT_INIT;
    made(samvolip_open(&shape, &seat));
    const double begun = now(CLOCK_THREAD_CPUTIME_ID);
    for (uint64_t i = 0; i < KEYS; i++)
        made(samvolip_put(&seat, is_mixed ? samvolip_mix(i << 16) : i << 16, i, NULL));
    const double took = (now(CLOCK_THREAD_CPUTIME_ID) - begun) / KEYS;
    samvolip_free(&seat);
    return took;
}

/* A get of a key that isn't there: keys from `first` on were never put. */
static double get_all(samvolip_seat *seat, uint64_t first, uint64_t gets)
{
    uint64_t number;
    const double begun = now(CLOCK_THREAD_CPUTIME_ID);
    for (uint64_t i = 0; i < gets; i++)
        if (made(samvolip_get(seat, samvolip_mix(first + i), &number)))
            abort();
    return (now(CLOCK_THREAD_CPUTIME_ID) - begun) / (double)gets;
}

static void tell(const char *what, samvolip_seat *seat, uint64_t gets, unsigned rounds)
{
    double best = get_all(seat, UINT64_C(1) << 40, gets);
    for (unsigned i = 1; i < rounds; i++) {
        double took = get_all(seat, (UINT64_C(1) << 40) + i * gets, gets);
        best = took < best ? took : best;
    }
    printf("%s: %.0f a get of an absent key\n", what, best);
}

int main(int count, char **words)
{
    const unsigned exponent = count > 1 ? (unsigned)strtoul(words[1], NULL, 10) : 19;
    const unsigned rounds = count > 2 ? (unsigned)strtoul(words[2], NULL, 10) : 7;
    double took[2] = {1e12, 1e12};
    for (unsigned i = 0; i < rounds; i++)
        for (int is_mixed = 0; is_mixed < 2; is_mixed++) {
            const double one = put_all(is_mixed);
            took[is_mixed] = one < took[is_mixed] ? one : took[is_mixed];
        }
    printf("keys of step 65536: %.0f a put, mixed %.0f\n", took[0], took[1]);

    const samvolip_shape shape = {{exponent}, 1, 1, 1, UINT32_MAX, 8};
    samvolip_seat seat = SAMVOLIP_SEAT_INIT;
    made(samvolip_open(&shape, &seat));
    const uint64_t slots = UINT64_C(1) << exponent;
    static const unsigned percent[] = {25, 50, 67, 80, 90, 95, 99, 100};
    uint64_t taken = 0;
    for (unsigned i = 0; i < sizeof percent / sizeof *percent; i++) {
        char what[32];
        for (; taken < slots * percent[i] / 100; taken++)
            made(samvolip_put(&seat, samvolip_mix(taken), taken, NULL));
        snprintf(what, sizeof what, "%u %% taken", percent[i]);
        tell(what, &seat, percent[i] == 100 ? 30 : percent[i] == 99 ? 10000 : 200000, rounds);
    }
    for (uint64_t i = 0; i < taken; i++)
        made(samvolip_remove(&seat, samvolip_mix(i), NULL));
    tell("all taken and removed", &seat, 30, rounds);
    samvolip_free(&seat);
    return 0;
}
