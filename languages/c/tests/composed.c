/* What the header makes of the library's calls: mixing, and the calls over calls, by one thread and then by four that write the
   same keys. The size is never told as less than 0.
       composed [ROUNDS]      how often each of the four threads writes */
#include "samvolip.h"

#include "expect.h"

#include <pthread.h>

/* ---- mixing */

/* The numbers that the tests of nb_core mix. */
static void mixes(void)
{
    static const struct {
        uint64_t number, mixed;
    } known[] = {
        {0, 0},
        {1, UINT64_C(17732798614194424744)},
        {2, UINT64_C(17013110623237245971)},
        {131072, UINT64_C(17231277123929834607)},
        {UINT64_C(281474976710656), UINT64_C(3229997669068692271)},
        {UINT64_MAX, UINT64_C(17684271367961033934)},
        {UINT64_C(1504646209777642070), UINT64_MAX},
        {UINT64_C(5863696168926310861), UINT64_MAX - 1},
    };
    for (size_t i = 0; i < sizeof known / sizeof *known; i++) {
        EXPECT(samvolip_mix(known[i].number) == known[i].mixed);
        EXPECT(samvolip_unmix(known[i].mixed) == known[i].number);
        EXPECT(samvolip_mix(samvolip_unmix(known[i].number)) == known[i].number);
    }
    EXPECT(samvolip_mix(samvolip_unmix(SAMVOLIP_KEY_MAX)) == SAMVOLIP_KEY_MAX);
}

/* ---- one thread */

static void contains_and_inserts(samvolip_seat *seat)
{
    uint64_t there = 99;
    EXPECT(samvolip_contains(seat, 7) == 0);
    EXPECT(samvolip_contains(seat, SAMVOLIP_KEY_MAX + 1) == SAMVOLIP_E_KEY_RANGE);
    EXPECT(samvolip_get_or_insert(seat, SAMVOLIP_KEY_MAX + 1, 5, &there) == SAMVOLIP_E_KEY_RANGE);
    EXPECT(samvolip_get_or_insert(seat, 7, SAMVOLIP_VALUE_MAX + 1, &there)
           == SAMVOLIP_E_VALUE_RANGE);
    EXPECT(there == 99);
    EXPECT(samvolip_get_or_insert(seat, 7, 5, &there) == SAMVOLIP_ABSENT && there == 5);
    EXPECT(samvolip_get_or_insert(seat, 7, 6, &there) == SAMVOLIP_PRESENT && there == 5);
    EXPECT(samvolip_get_or_insert(seat, 7, 6, NULL) == SAMVOLIP_PRESENT);
    EXPECT(samvolip_contains(seat, 7) == 1);
}

static void bounds(samvolip_seat *seat)
{
    uint64_t before = 99, number;
    EXPECT(samvolip_fetch_max(seat, 8, SAMVOLIP_VALUE_MAX + 1, &before) == SAMVOLIP_E_VALUE_RANGE);
    EXPECT(before == 99);
    EXPECT(samvolip_fetch_max(seat, 8, 5, &before) == SAMVOLIP_ABSENT && before == 0);
    EXPECT(samvolip_fetch_max(seat, 8, 4, &before) == SAMVOLIP_PRESENT && before == 5);
    EXPECT(samvolip_fetch_max(seat, 8, 5, NULL) == SAMVOLIP_PRESENT);
    EXPECT(samvolip_get(seat, 8, &number) == SAMVOLIP_PRESENT && number == 5);
    EXPECT(samvolip_fetch_max(seat, 8, 6, &before) == SAMVOLIP_PRESENT && before == 5);
    EXPECT(samvolip_get(seat, 8, &number) == SAMVOLIP_PRESENT && number == 6);
    EXPECT(samvolip_fetch_min(seat, 8, 7, &before) == SAMVOLIP_PRESENT && before == 6);
    EXPECT(samvolip_fetch_min(seat, 8, 2, &before) == SAMVOLIP_PRESENT && before == 6);
    EXPECT(samvolip_get(seat, 8, &number) == SAMVOLIP_PRESENT && number == 2);
    EXPECT(samvolip_remove(seat, 8, NULL) == SAMVOLIP_PRESENT);
    EXPECT(samvolip_fetch_min(seat, 8, 9, &before) == SAMVOLIP_ABSENT && before == 0);
    EXPECT(samvolip_get(seat, 8, &number) == SAMVOLIP_PRESENT && number == 9);
}

/* ---- updates */

/* What an updater is told and what it answers. */
struct asked {
    samvolip_seat *seat;
    uint64_t key;
    int answer;        /* what it returns */
    uint64_t next;     /* the number that it writes, at its first call; the next one at each later */
    unsigned disturbs; /* at how many calls it writes the key itself first */
    unsigned calls;
    int had;
    uint64_t found;
};

static int answered(void *context, const uint64_t *found, uint64_t *next)
{
    struct asked *asked = context;
    asked->had = found != NULL;
    asked->found = found ? *found : 0;
    if (asked->calls++ < asked->disturbs)
        EXPECT(samvolip_put(asked->seat, asked->key, 100 + asked->calls, NULL) >= 0);
    if (asked->answer > 0)
        *next = asked->next++;
    return asked->answer;
}

static void updates(samvolip_seat *seat)
{
    struct asked asked = {seat, 9, 1, 5, 0, 0, 0, 0};
    uint64_t before = 99, number;
    EXPECT(samvolip_update(seat, 9, answered, &asked, 1, &before) == SAMVOLIP_ABSENT);
    EXPECT(before == 0 && asked.calls == 1 && !asked.had);
    EXPECT(samvolip_update(seat, 9, answered, &asked, 0, &before) == SAMVOLIP_PRESENT);
    EXPECT(before == 5 && asked.calls == 2 && asked.had && asked.found == 5);
    EXPECT(samvolip_get(seat, 9, &number) == SAMVOLIP_PRESENT && number == 6);

    /* it is given up, or refused, and nothing is changed */
    asked.answer = -77;
    before = 99;
    EXPECT(samvolip_update(seat, 9, answered, &asked, 1, &before) == -77 && before == 99);
    asked.answer = 1;
    asked.next = SAMVOLIP_VALUE_MAX + 1;
    EXPECT(samvolip_update(seat, 9, answered, &asked, 1, &before) == SAMVOLIP_E_VALUE_RANGE);
    asked.calls = 0;
    EXPECT(samvolip_update(seat, SAMVOLIP_KEY_MAX + 1, answered, &asked, 1, &before)
           == SAMVOLIP_E_KEY_RANGE);
    EXPECT(asked.calls == 0 && before == 99);
    EXPECT(samvolip_get(seat, 9, &number) == SAMVOLIP_PRESENT && number == 6);

    /* others come first twice: three exchanges are enough, and two aren't */
    asked.next = 20;
    asked.disturbs = 2;
    EXPECT(samvolip_update(seat, 9, answered, &asked, 3, &before) == SAMVOLIP_PRESENT);
    EXPECT(asked.calls == 3 && asked.found == 102 && before == 102);
    EXPECT(samvolip_get(seat, 9, &number) == SAMVOLIP_PRESENT && number == 22);
    asked.calls = 0;
    before = 99;
    EXPECT(samvolip_update(seat, 9, answered, &asked, 2, &before) == SAMVOLIP_E_CONTENDED);
    EXPECT(asked.calls == 2 && before == 99);
    EXPECT(samvolip_get(seat, 9, &number) == SAMVOLIP_PRESENT && number == 102);

    /* it removes, and leaves an absent key absent */
    asked.answer = 0;
    asked.disturbs = 0;
    EXPECT(samvolip_update(seat, 9, answered, &asked, 1, NULL) == SAMVOLIP_PRESENT);
    EXPECT(samvolip_contains(seat, 9) == 0);
    EXPECT(samvolip_update(seat, 9, answered, &asked, 1, &before) == SAMVOLIP_ABSENT && before == 0);
    EXPECT(samvolip_contains(seat, 9) == 0);
}

static void refuses_when_full(void)
{
    const samvolip_shape shape = {{2}, 1, 1, 1, UINT32_MAX, 8};
    samvolip_seat seat = SAMVOLIP_SEAT_INIT;
    EXPECT(samvolip_open(&shape, &seat) == SAMVOLIP_OK);
    for (uint64_t key = 0; key < 4; key++)
        EXPECT(samvolip_put(&seat, key, key, NULL) == SAMVOLIP_ABSENT);
    struct asked asked = {&seat, 4, 1, 5, 0, 0, 0, 0};
    uint64_t there = 99;
    EXPECT(samvolip_get_or_insert(&seat, 4, 1, &there) == SAMVOLIP_E_FULL && there == 99);
    EXPECT(samvolip_get_or_insert(&seat, 3, 1, &there) == SAMVOLIP_PRESENT && there == 3);
    EXPECT(samvolip_fetch_max(&seat, 4, 1, NULL) == SAMVOLIP_E_FULL);
    EXPECT(samvolip_fetch_min(&seat, 4, 1, NULL) == SAMVOLIP_E_FULL);
    EXPECT(samvolip_update(&seat, 4, answered, &asked, 1, NULL) == SAMVOLIP_E_FULL);
    samvolip_free(&seat);
}

/* ---- four threads */

enum { THREADS = 4, KEYS = 50, SHARED = 200 };

/* the first of the keys that are raised, lowered, counted, put and removed, and inserted */
enum { GREATEST = 1000, LEAST = 2000, COUNTED = 3000, PASSING = 4000, INSERTED = 5000 };

static unsigned rounds = 200000;

struct worker {
    samvolip_seat seat;
    unsigned number;
    uint64_t contended;
};

/* Adds one, or removes what has come to 1000 and notes so. */
static int counted(void *context, const uint64_t *found, uint64_t *next)
{
    uint64_t *thousands = context;
    *thousands = found && *found == 999;
    *next = found ? *found + 1 : 1;
    return *next < 1000;
}

static void *work(void *given)
{
    struct worker *worker = given;
    samvolip_seat *seat = &worker->seat;
    uint64_t state = UINT64_C(88172645463325252) + worker->number, before;
    for (unsigned i = 0; i < rounds; i++) {
        state ^= state << 13;
        state ^= state >> 7;
        state ^= state << 17;
        const uint64_t key = state % KEYS, number = state >> 32, shared = INSERTED + i % SHARED;
        uint64_t there, now;
        EXPECT(samvolip_fetch_max(seat, GREATEST + key, number, &before) >= 0);
        EXPECT(samvolip_get(seat, GREATEST + key, &now) == SAMVOLIP_PRESENT && now >= number);
        EXPECT(samvolip_fetch_min(seat, LEAST + key, number, &before) >= 0);

        /* one thread wins each key that all insert at, and what is answered stays there */
        EXPECT(samvolip_get_or_insert(seat, shared, worker->number, &there) >= 0);
        EXPECT(samvolip_get(seat, shared, &now) == SAMVOLIP_PRESENT && now == there);
        uint64_t thousands = 0;
        int code = samvolip_update(seat, COUNTED + key, counted, &thousands, 8, NULL);
        EXPECT(code >= 0 || code == SAMVOLIP_E_CONTENDED);
        worker->contended += code < 0;
        if (code >= 0 && thousands)
            EXPECT(samvolip_add(seat, COUNTED + KEYS + key, 1000, NULL) >= 0);

        /* keys that come by one seat and go by another, each counted in a stripe of its own */
        if (worker->number % 2)
            EXPECT(samvolip_put(seat, PASSING + i % 4, i, NULL) >= 0);
        else
            EXPECT(samvolip_remove(seat, PASSING + i % 4, NULL) >= 0);
        EXPECT(samvolip_size_estimate(seat) <= 1000 + (uint64_t)THREADS * rounds);
    }
    return NULL;
}

/* What all rounds of all threads come to, drawn again. */
static void compare(samvolip_ended *ended, uint64_t contended)
{
    uint64_t greatest[KEYS] = {0}, least[KEYS], sum = 0, number;
    for (unsigned key = 0; key < KEYS; key++)
        least[key] = UINT64_MAX;
    for (unsigned worker = 0; worker < THREADS; worker++) {
        uint64_t state = UINT64_C(88172645463325252) + worker;
        for (unsigned i = 0; i < rounds; i++) {
            state ^= state << 13;
            state ^= state >> 7;
            state ^= state << 17;
            const uint64_t key = state % KEYS, drawn = state >> 32;
            greatest[key] = drawn > greatest[key] ? drawn : greatest[key];
            least[key] = drawn < least[key] ? drawn : least[key];
        }
    }
    for (unsigned key = 0; key < KEYS; key++) {
        EXPECT(samvolip_ended_get(ended, GREATEST + key, &number) == (least[key] != UINT64_MAX));
        EXPECT(number == greatest[key]);
        EXPECT(samvolip_ended_get(ended, LEAST + key, &number) == (least[key] != UINT64_MAX));
        EXPECT(least[key] == UINT64_MAX || number == least[key]);
        for (unsigned part = 0; part < 2; part++)
            if (samvolip_ended_get(ended, COUNTED + part * KEYS + key, &number))
                sum += number;
    }
    EXPECT(sum + contended == (uint64_t)THREADS * rounds);
    for (unsigned key = 0; key < SHARED && key < rounds; key++)
        EXPECT(samvolip_ended_get(ended, INSERTED + key, &number) == SAMVOLIP_PRESENT && number < THREADS);
}

static void works_on_four_threads(void)
{
    const samvolip_shape shape = {{4, 6, 8, 10, 12}, 5, THREADS, THREADS, UINT32_MAX, 8};
    struct worker workers[THREADS] = {{SAMVOLIP_SEAT_INIT, 0, 0}};
    pthread_t threads[THREADS];
    uint64_t contended = 0;
    EXPECT(samvolip_open(&shape, &workers[0].seat) == SAMVOLIP_OK);
    for (unsigned i = 1; i < THREADS; i++)
        EXPECT(samvolip_split(&workers[0].seat, &workers[i].seat) == SAMVOLIP_OK);
    for (unsigned i = 0; i < THREADS; i++) {
        workers[i].number = i;
        EXPECT(pthread_create(&threads[i], NULL, work, &workers[i]) == 0);
    }
    for (unsigned i = 0; i < THREADS; i++) {
        EXPECT(pthread_join(threads[i], NULL) == 0);
        contended += workers[i].contended;
        if (i > 0)
            EXPECT(samvolip_join(&workers[0].seat, &workers[i].seat) == SAMVOLIP_OK);
    }
    samvolip_ended ended = SAMVOLIP_ENDED_INIT;
    EXPECT(samvolip_close(&workers[0].seat, &ended) == SAMVOLIP_OK);
    compare(&ended, contended);
    samvolip_ended_free(&ended);
}

int main(int count, char **words)
{
    if (count > 1)
        rounds = (unsigned)strtoul(words[1], NULL, 10);
    mixes();
    samvolip_shape shape = samvolip_shape_for_keys(1000, 1);
    samvolip_seat seat = SAMVOLIP_SEAT_INIT;
    EXPECT(samvolip_open(&shape, &seat) == SAMVOLIP_OK);
    contains_and_inserts(&seat);
    bounds(&seat);
    updates(&seat);
    samvolip_free(&seat);
    refuses_when_full();
    works_on_four_threads();
    puts("composed: well");
    return 0;
}
