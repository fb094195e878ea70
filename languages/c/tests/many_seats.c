/* More seats and larger tables: 256 threads add to one map while it grows through all its tables, and each key's number is right;
   so do 64 threads, each to the same keys one after another, in a map of small tables and short paths; four threads fill a map
   whose last table has 2^22 slots, with as many keys as it is made for, and all is read back, also after the map is made anew.
       many_seats [ADDS [KEYS]]      how often each of the 256 threads adds, and how many keys fill the other map */
#include "crew.h"

enum { ADDERS = 256, ADDED_KEYS = 8000, FILLERS = 4, EQUALS = 64, EQUAL_KEYS = 2000 };

static unsigned adds = 1000;
static uint64_t keys = 2796202;
static pthread_barrier_t begun;

/* ---- many seats */

struct adder {
    samvolip_seat seat;
    unsigned number;
    uint32_t added[ADDED_KEYS]; /* how much it has added at each key */
};

static void *add(void *given)
{
    struct adder *adder = given;
    uint64_t state = UINT64_C(88172645463325252) + adder->number;
    pthread_barrier_wait(&begun);
    for (unsigned i = 0; i < adds; i++) {
        state ^= state << 13;
        state ^= state >> 7;
        state ^= state << 17;
        uint64_t key = state % ADDED_KEYS;
        EXPECT(samvolip_add(&adder->seat, key, 1 + i % 3, NULL) >= 0);
        adder->added[key] += 1 + i % 3;
    }
    return NULL;
}

/* How much all threads have added at a key. */
static uint64_t added_at(const struct adder *adders, uint64_t key)
{
    uint64_t sum = 0;
    for (unsigned i = 0; i < ADDERS; i++)
        sum += adders[i].added[key];
    return sum;
}

static void many_seats(void)
{
    const samvolip_shape shape = {{4, 6, 8, 10, 12, 14}, 6, ADDERS, 16, 18, 64};
    struct adder *adders = calloc(ADDERS, sizeof *adders);
    samvolip_entry *entries = calloc(ADDED_KEYS, sizeof *entries);
    EXPECT(adders != NULL && entries != NULL);
    EXPECT(pthread_barrier_init(&begun, NULL, ADDERS) == 0);
    EXPECT(samvolip_open(&shape, &adders[0].seat) == SAMVOLIP_OK);
    for (unsigned i = 0; i < ADDERS; i++)
        adders[i].number = i;
    crew_works(adders, sizeof *adders, ADDERS, add);

    /* they come together two by two, and two of those by two */
    for (unsigned step = 1; step < ADDERS; step *= 2)
        for (unsigned i = 0; i < ADDERS; i += 2 * step)
            EXPECT(samvolip_join(&adders[i].seat, &adders[i + step].seat) == SAMVOLIP_OK);
    uint64_t estimate = samvolip_size_estimate(&adders[0].seat);
    uint32_t generation = samvolip_generation(&adders[0].seat);
    uint64_t count = 0;
    EXPECT(samvolip_entries(&adders[0].seat, entries, estimate, &count) == SAMVOLIP_OK && count == estimate);
    for (uint64_t i = 0; i < count; i++)
        EXPECT(entries[i].key < ADDED_KEYS && entries[i].number == added_at(adders, entries[i].key));

    /* the new map has one seat, which a map of all seats takes the place of again */
    const samvolip_shape alone = {{13}, 1, 1, 1, 18, 64};
    EXPECT(samvolip_renew(&adders[0].seat, &alone) == SAMVOLIP_OK);
    EXPECT(samvolip_split(&adders[0].seat, &adders[1].seat) == SAMVOLIP_E_NO_SEAT);
    EXPECT(samvolip_renew(&adders[0].seat, &shape) == SAMVOLIP_OK);
    for (unsigned i = 1; i < ADDERS; i++)
        EXPECT(samvolip_split(&adders[0].seat, &adders[i].seat) == SAMVOLIP_OK);
    crew_joins(adders, sizeof *adders, ADDERS);
    samvolip_ended ended = SAMVOLIP_ENDED_INIT;
    EXPECT(samvolip_close(&adders[0].seat, &ended) == SAMVOLIP_OK);
    uint64_t size = samvolip_ended_size(&ended), shown = 0;
    EXPECT(size == estimate && size <= ADDED_KEYS);
    EXPECT(generation == 5 || size <= 1 << 12);
    EXPECT(samvolip_ended_entries(&ended, entries, ADDED_KEYS) == SAMVOLIP_OK);
    for (uint64_t key = 0; key < ADDED_KEYS; key++) {
        const uint64_t sum = added_at(adders, key);
        if (sum == 0)
            continue;
        EXPECT(shown < size && entries[shown].key == key && entries[shown].number == sum);
        shown++;
    }
    EXPECT(shown == size);
    samvolip_ended_free(&ended);
    pthread_barrier_destroy(&begun);
    free(entries);
    free(adders);
}

/* ---- the same keys by each thread */

static void *add_to_all(void *given)
{
    for (uint64_t key = 0; key < EQUAL_KEYS; key++)
        EXPECT(samvolip_add(given, key, 1, NULL) >= 0);
    return NULL;
}

static void many_seats_add_while_the_map_grows(void)
{
    const samvolip_shape shape = {{2, 4, 6, 8, 10, 12}, 6, EQUALS, 16, 4, 64};
    samvolip_seat seats[EQUALS] = {SAMVOLIP_SEAT_INIT};
    uint64_t number;
    EXPECT(samvolip_open(&shape, &seats[0]) == SAMVOLIP_OK);
    crew_works(seats, sizeof *seats, EQUALS, add_to_all);
    crew_joins(seats, sizeof *seats, EQUALS);
    samvolip_ended ended = SAMVOLIP_ENDED_INIT;
    EXPECT(samvolip_close(&seats[0], &ended) == SAMVOLIP_OK);
    EXPECT(samvolip_ended_size(&ended) == EQUAL_KEYS);
    for (uint64_t key = 0; key < EQUAL_KEYS; key++)
        EXPECT(samvolip_ended_get(&ended, key, &number) == SAMVOLIP_PRESENT && number == EQUALS);
    samvolip_ended_free(&ended);
}

/* ---- many keys */

struct filler {
    samvolip_seat seat;
    unsigned number;
};

/* Different keys, scattered over a table. */
static uint64_t scattered(uint64_t i)
{
    return (i * UINT64_C(0x9e3779b97f4a7c15)) >> 20;
}

static void *fill(void *given)
{
    struct filler *filler = given;
    for (uint64_t i = filler->number; i < keys; i += FILLERS)
        EXPECT(samvolip_put(&filler->seat, scattered(i), i, NULL) == SAMVOLIP_ABSENT);
    return NULL;
}

static void many_keys(void)
{
    const samvolip_shape shape = samvolip_shape_for_keys(keys, FILLERS);
    struct filler fillers[FILLERS] = {{SAMVOLIP_SEAT_INIT, 0}};
    EXPECT(samvolip_open(&shape, &fillers[0].seat) == SAMVOLIP_OK);
    for (unsigned i = 0; i < FILLERS; i++)
        fillers[i].number = i;
    crew_works(fillers, sizeof *fillers, FILLERS, fill);
    samvolip_seat *seat = &fillers[0].seat;
    EXPECT(samvolip_size_estimate(seat) == keys);
    EXPECT(samvolip_generation(seat) == shape.tables - 1);
    uint64_t number = 0;
    for (uint64_t i = 0; i < keys; i++)
        EXPECT(samvolip_get(seat, scattered(i), &number) == SAMVOLIP_PRESENT && number == i);
    EXPECT(samvolip_get(seat, scattered(keys), &number) == SAMVOLIP_ABSENT);
    crew_joins(fillers, sizeof *fillers, FILLERS);
    EXPECT(samvolip_renew(seat, &shape) == SAMVOLIP_OK);
    EXPECT(samvolip_size_estimate(seat) == keys);
    for (uint64_t i = 0; i < keys; i++)
        EXPECT(samvolip_get(seat, scattered(i), &number) == SAMVOLIP_PRESENT && number == i);
    samvolip_ended ended = SAMVOLIP_ENDED_INIT;
    EXPECT(samvolip_close(seat, &ended) == SAMVOLIP_OK);
    EXPECT(samvolip_ended_size(&ended) == keys);
    EXPECT(samvolip_ended_get(&ended, scattered(keys - 1), &number) == SAMVOLIP_PRESENT);
    EXPECT(number == keys - 1);
    samvolip_ended_free(&ended);
}

int main(int count, char **words)
{
    if (count > 1)
        adds = (unsigned)strtoul(words[1], NULL, 10);
    if (count > 2)
        keys = strtoull(words[2], NULL, 10);
    many_seats();
    many_seats_add_while_the_map_grows();
    many_keys();
    puts("many_seats: well");
    return 0;
}
