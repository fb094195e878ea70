/* Maps of one table with a seat for each of eight threads and one more, as samvolip_map has them. Four threads make such maps and leave
   each in place of another, which they free. So most are freed by another thread than made them, and all memory is used again.
       passed_maps [MAPS]      how many of them */
#include "samvolip.h"

#include "expect.h"

#include <pthread.h>
#include <stdatomic.h>

enum { THREADS = 4, PLACES = 32, SEATS = 9, KEYS = 20 };

typedef struct seats {
    samvolip_seat all[SEATS];
} seats;

static seats *_Atomic places[PLACES];
static unsigned maps = 100000;

/* A map with KEYS keys, put by its seats in turns. */
static seats *made(uint64_t number)
{
    const samvolip_shape shape = {{(uint32_t)(5 + number % 4)}, 1, SEATS, SEATS, 18, 256};
    seats *of = calloc(1, sizeof *of);
    EXPECT(of != NULL && samvolip_open(&shape, &of->all[0]) == SAMVOLIP_OK);
    for (int i = 1; i < SEATS; i++)
        EXPECT(samvolip_split(&of->all[0], &of->all[i]) == SAMVOLIP_OK);
    for (uint64_t key = 0; key < KEYS; key++)
        EXPECT(samvolip_put(&of->all[key % SEATS], key, number + key, NULL) == SAMVOLIP_ABSENT);
    return of;
}

static void check_and_free(seats *of)
{
    uint64_t first, number;
    if (of == NULL)
        return;
    EXPECT(samvolip_get(&of->all[0], 0, &first) == SAMVOLIP_PRESENT);
    for (uint64_t key = 1; key < KEYS; key++)
        EXPECT(samvolip_get(&of->all[(key + 1) % SEATS], key, &number) == SAMVOLIP_PRESENT && number == first + key);
    for (int i = 0; i < SEATS; i++)
        samvolip_free(&of->all[i]);
    free(of);
}

static void *passes(void *given)
{
    for (uint64_t i = *(unsigned *)given; i < maps; i += THREADS) {
        seats *mine = made(i);
        __tsan_release(mine);
        seats *other = atomic_exchange(&places[i * 7919 % PLACES], mine);
        __tsan_acquire(other);
        check_and_free(other);
    }
    return NULL;
}

static void in_threads(void)
{
    pthread_t threads[THREADS];
    unsigned numbers[THREADS];
    for (unsigned i = 0; i < THREADS; i++) {
        numbers[i] = i;
        EXPECT(pthread_create(&threads[i], NULL, passes, &numbers[i]) == 0);
    }
    for (int i = 0; i < THREADS; i++)
        EXPECT(pthread_join(threads[i], NULL) == 0);
}

int main(int count, char **words)
{
    unsigned all = count > 1 ? (unsigned)strtoul(words[1], NULL, 10) : maps;
    maps = all / 10;
    in_threads();
    double before = expect_mebibytes().present;
    maps = all;
    in_threads();
    EXPECT(IS_SANITIZED || expect_mebibytes().present < before + 1);
    for (int i = 0; i < PLACES; i++)
        check_and_free(places[i]);
    printf("passed_maps: well\n");
    return 0;
}
