/* Threads add to the keys of a growing map, read them, and walk over them; the sums are right. Eight threads make calls of all
   kinds on few keys, and what is left is what they were told. Eight threads put numbers, no two the same, and each is told once.
   And threads walk beside others that write, while the map grows.
   Four threads list a map by parts, at rest and while it grows.
       threads [ROUNDS]      how often each of the first four threads adds; the other tests are made again the more often */
#include "crew.h"

#include <string.h>

enum { THREADS = 4, KEYS = 1000, MOST_THREADS = 8, FEW_KEYS = 7, KEPT = 6 };

static unsigned rounds = 200000;

struct worker {
    samvolip_seat seat;
    unsigned number;
    uint64_t added;
    uint64_t refused;
    uint64_t told[FEW_KEYS];
};

/* Each of these threads works with a seat of its own. */
static void all_work(struct worker *workers, unsigned count, void *(*work)(void *))
{
    for (unsigned i = 0; i < count; i++)
        workers[i].number = i;
    crew_works(workers, sizeof *workers, count, work);
    crew_joins(workers, sizeof *workers, count);
}

/* ---- adds */

static void *add(void *given)
{
    struct worker *worker = given;
    uint64_t state = UINT64_C(88172645463325252) + worker->number;
    for (unsigned i = 0; i < rounds; i++) {
        state ^= state << 13;
        state ^= state >> 7;
        state ^= state << 17;
        uint64_t key = state % KEYS, number = 0;
        EXPECT(samvolip_add(&worker->seat, key, 1 + i % 3, NULL) >= 0);
        worker->added += 1 + i % 3;
        EXPECT(samvolip_get(&worker->seat, key, &number) == SAMVOLIP_PRESENT);
        EXPECT(number >= 1 + i % 3);
        samvolip_reply reply;
        int code = samvolip_put_if_match(&worker->seat, 0, SAMVOLIP_ANY, 0, SAMVOLIP_ADD, 1, 1,
                                         &reply);
        EXPECT(code == SAMVOLIP_OK || code == SAMVOLIP_E_CONTENDED);
        worker->added += code == SAMVOLIP_OK;
        worker->refused += code == SAMVOLIP_E_CONTENDED;
        if (i % 50000 == 0) {
            uint64_t shown = 0;
            samvolip_cursor cursor;
            samvolip_walk(&worker->seat, &cursor);
            while (samvolip_next(&worker->seat, &cursor, &key, &number) == SAMVOLIP_PRESENT)
                shown++;
            EXPECT(shown <= KEYS);
        }
    }
    return NULL;
}

static void threads_add(void)
{
    const samvolip_shape shape = {{4, 6, 8, 10, 12}, 5, THREADS, 2, UINT32_MAX, 8};
    struct worker workers[THREADS] = {{SAMVOLIP_SEAT_INIT, 0, 0, 0, {0}}};
    uint64_t added = 0, sum = 0;
    EXPECT(samvolip_open(&shape, &workers[0].seat) == SAMVOLIP_OK);
    all_work(workers, THREADS, add);
    for (unsigned i = 0; i < THREADS; i++)
        added += workers[i].added;
    uint64_t estimate = samvolip_size_estimate(&workers[0].seat);
    samvolip_ended ended = SAMVOLIP_ENDED_INIT;
    EXPECT(samvolip_close(&workers[0].seat, &ended) == SAMVOLIP_OK);
    uint64_t size = samvolip_ended_size(&ended);
    EXPECT(size == estimate && size <= KEYS);
    samvolip_entry *entries = malloc(KEYS * sizeof *entries);
    EXPECT(entries != NULL);
    EXPECT(samvolip_ended_entries(&ended, entries, KEYS) == SAMVOLIP_OK);
    for (uint64_t i = 0; i < size; i++)
        sum += entries[i].number;
    EXPECT(sum == added);
    free(entries);
    samvolip_ended_free(&ended);
}

/* ---- calls of all kinds on few keys */

/* Makes one of eight calls at the key. Answers 1 if the key came by it, and -1 if it went. */
static int comes(samvolip_seat *seat, unsigned call, uint64_t key)
{
    int code;
    switch (call) {
    case 0: code = samvolip_put(seat, key, 1, NULL); break;
    case 1: code = samvolip_put_if_absent(seat, key, 2, NULL); break;
    case 2: code = samvolip_add(seat, key, 1, NULL); break;
    case 3: code = samvolip_remove(seat, key, NULL); break;
    case 4: code = samvolip_remove_if(seat, key, 1); break;
    case 5: code = samvolip_remove_if(seat, key, 2); break;
    case 6: code = samvolip_replace_if(seat, key, 2, 1); break;
    default: code = samvolip_replace(seat, key, 2, NULL);
    }
    EXPECT(code == 0 || code == 1);
    return call < 3 ? 1 - code : call < 6 ? -code : 0;
}

/* To the keys 0 to 2 all threads only add, and they are told the sums. Of the keys 3 to 6 each is told how many times it came, less
   the times that it went. Between the calls each thread puts three keys that no other thread puts, so that the map has to grow. */
static void *call(void *given)
{
    struct worker *worker = given;
    uint64_t state = worker->number, amount = worker->number + 1;
    for (unsigned i = 0; i < 3000; i++) {
        state = state * UINT64_C(6364136223846793005) + UINT64_C(1442695040888963407);
        const uint64_t choice = state >> 33;
        uint64_t key = choice / 8 % 3;
        EXPECT(samvolip_add(&worker->seat, key, amount, NULL) >= 0);
        worker->told[key] += amount;
        key = 3 + choice / 32 % 4;
        worker->told[key] += (uint64_t)(int64_t)comes(&worker->seat, choice % 8, key);
        if (i % 1000 == 20)
            EXPECT(samvolip_put(&worker->seat, 6 + amount + i / 1000 * 8, amount, NULL) == SAMVOLIP_ABSENT);
    }
    return NULL;
}

static void eight_threads(void)
{
    const samvolip_shape shape = {{2, 3, 4, 5}, 4, MOST_THREADS, 3, UINT32_MAX, 8};
    struct worker workers[MOST_THREADS] = {{SAMVOLIP_SEAT_INIT, 0, 0, 0, {0}}};
    samvolip_ended ended = SAMVOLIP_ENDED_INIT;
    samvolip_entry entries[32];
    uint64_t keys = 3 + 3 * MOST_THREADS, number;
    EXPECT(samvolip_open(&shape, &workers[0].seat) == SAMVOLIP_OK);
    all_work(workers, MOST_THREADS, call);
    EXPECT(samvolip_generation(&workers[0].seat) == 3);
    EXPECT(samvolip_close(&workers[0].seat, &ended) == SAMVOLIP_OK);
    for (uint64_t key = 0; key < FEW_KEYS; key++) {
        uint64_t told = 0;
        for (unsigned i = 0; i < MOST_THREADS; i++)
            told += workers[i].told[key];
        const int has = samvolip_ended_get(&ended, key, &number);
        EXPECT(key < 3 ? has == SAMVOLIP_PRESENT && number == told : (uint64_t)has == told);
        keys += key < 3 ? 0 : told;
    }
    EXPECT(samvolip_ended_size(&ended) == keys && keys <= 32);
    EXPECT(samvolip_ended_entries(&ended, entries, 32) == SAMVOLIP_OK);
    for (uint64_t i = 0; i < keys; i++) {
        EXPECT(samvolip_ended_get(&ended, entries[i].key, &number) == SAMVOLIP_PRESENT);
        EXPECT(number == entries[i].number && (i == 0 || entries[i - 1].key < entries[i].key));
    }
    samvolip_ended_free(&ended);
}

/* ---- numbers that are told once */

enum { TELLING_KEYS = 4, OWN_PUTS = 10000, PUTS_EACH_GROWTH = 300 };

static unsigned char tellings[MOST_THREADS * OWN_PUTS]; /* how often each number was told */

/* A call was told this number, if it found one. */
static void tell(int code, uint64_t number)
{
    EXPECT(code == SAMVOLIP_PRESENT || code == SAMVOLIP_ABSENT);
    if (code == SAMVOLIP_PRESENT) {
        EXPECT(number < sizeof tellings);
        __atomic_fetch_add(&tellings[number], 1, __ATOMIC_SEQ_CST);
    }
}

/* Each thread puts numbers of its own at the keys 0 to 3, and takes keys out. Between the calls it puts keys that no other thread
   puts, so that the map grows. */
static void *put_own(void *given)
{
    struct worker *worker = given;
    uint64_t state = worker->number;
    for (unsigned i = 0; i < OWN_PUTS; i++) {
        state = state * UINT64_C(6364136223846793005) + UINT64_C(1442695040888963407);
        const uint64_t choice = state >> 33, own = worker->number * OWN_PUTS + i;
        uint64_t before = 0;
        int code = samvolip_put(&worker->seat, choice % TELLING_KEYS, own, &before);
        tell(code, before);
        if (choice / 8 % 16 == 0) {
            code = samvolip_remove(&worker->seat, choice / 128 % TELLING_KEYS, &before);
            tell(code, before);
        }
        if (i % PUTS_EACH_GROWTH == 0)
            EXPECT(samvolip_put(&worker->seat, TELLING_KEYS + own, 0, NULL) == SAMVOLIP_ABSENT);
    }
    return NULL;
}

/* Each number is told once: to the call that took its place or took it out, or in the end. */
static void told_once(void)
{
    const samvolip_shape shape = {{2, 4, 6, 8, 10}, 5, MOST_THREADS, 3, UINT32_MAX, 8};
    struct worker workers[MOST_THREADS] = {{SAMVOLIP_SEAT_INIT, 0, 0, 0, {0}}};
    samvolip_ended ended = SAMVOLIP_ENDED_INIT;
    EXPECT(samvolip_open(&shape, &workers[0].seat) == SAMVOLIP_OK);
    all_work(workers, MOST_THREADS, put_own);
    EXPECT(samvolip_close(&workers[0].seat, &ended) == SAMVOLIP_OK);
    for (uint64_t key = 0; key < TELLING_KEYS; key++) {
        uint64_t number = 0;
        const int code = samvolip_ended_get(&ended, key, &number);
        tell(code, number);
    }
    for (size_t number = 0; number < sizeof tellings; number++)
        EXPECT(tellings[number] == 1);
    memset(tellings, 0, sizeof tellings);
    samvolip_ended_free(&ended);
}

/* ---- walks beside writes */

/* Takes the walk to its end. Each number shows whose it is, nothing is shown twice, and the kept keys are shown. */
static void walk_on(samvolip_seat *seat, samvolip_cursor *cursor, unsigned char *seen)
{
    uint64_t key, number;
    while (samvolip_next(seat, cursor, &key, &number) == SAMVOLIP_PRESENT) {
        EXPECT(key < 64 && number / 1000 == key);
        EXPECT(!seen[key]);
        seen[key] = 1;
    }
    for (unsigned kept = 0; kept < KEPT; kept++)
        EXPECT(seen[kept]);
}

/* Walks again and again, each time by two cursors: a whole walk is made at each key of another one. */
static void walks(samvolip_seat *seat)
{
    for (unsigned i = 0; i < 200; i++) {
        uint64_t key, number;
        unsigned char seen[64] = {0};
        samvolip_cursor outer, inner;
        samvolip_walk(seat, &outer);
        for (unsigned turn = 0; turn < 2 && samvolip_next(seat, &outer, &key, &number) == SAMVOLIP_PRESENT; turn++) {
            unsigned char seen_inside[64] = {0};
            EXPECT(key < 64 && number / 1000 == key && !seen[key]);
            seen[key] = 1;
            samvolip_walk(seat, &inner);
            walk_on(seat, &inner, seen_inside);
        }
        walk_on(seat, &outer, seen);
    }
}

/* Gives the kept keys new numbers, and lets keys of its own come and go, ever more of them. */
static void writes(samvolip_seat *seat, unsigned thread)
{
    for (unsigned i = 0; i < 600; i++) {
        const uint64_t kept = i % KEPT, own = KEPT + 3 * thread + i / 300;
        EXPECT(samvolip_replace(seat, kept, kept * 1000 + i, NULL) == SAMVOLIP_PRESENT);
        EXPECT(samvolip_put(seat, own, own * 1000, NULL) >= 0);
        if (i % 3 > 0)
            EXPECT(samvolip_remove(seat, own, NULL) == SAMVOLIP_PRESENT);
    }
}

/* The first two threads walk, and the others write. */
static void *walk_or_write(void *given)
{
    struct worker *worker = given;
    if (worker->number < 2)
        walks(&worker->seat);
    else
        writes(&worker->seat, worker->number);
    return NULL;
}

static void walk_beside_writers(void)
{
    const samvolip_shape shape = {{2, 3, 4, 5}, 4, MOST_THREADS, 3, UINT32_MAX, 8};
    struct worker workers[MOST_THREADS] = {{SAMVOLIP_SEAT_INIT, 0, 0, 0, {0}}};
    samvolip_ended ended = SAMVOLIP_ENDED_INIT;
    uint64_t number;
    EXPECT(samvolip_open(&shape, &workers[0].seat) == SAMVOLIP_OK);
    for (uint64_t key = 0; key < KEPT; key++)
        EXPECT(samvolip_put(&workers[0].seat, key, key * 1000, NULL) == SAMVOLIP_ABSENT);
    all_work(workers, MOST_THREADS, walk_or_write);
    EXPECT(samvolip_close(&workers[0].seat, &ended) == SAMVOLIP_OK);
    for (uint64_t key = 0; key < KEPT; key++)
        EXPECT(samvolip_ended_get(&ended, key, &number) == SAMVOLIP_PRESENT);
    samvolip_ended_free(&ended);
}

/* ---- parts of a walk */

enum { LISTED = 100000, EARLY = 2000 };

static pthread_barrier_t all_here;
static unsigned char times[LISTED]; /* how often each mixed key was shown */
static int is_at_rest;              /* whether the map is so while it is listed */

/* Lists a part of the slots, a few entries at a time. */
static void list_part(struct worker *worker, samvolip_cursor *cursor, size_t end)
{
    samvolip_entry entries[64];
    uint64_t count;
    int code;
    do {
        code = samvolip_list(&worker->seat, cursor, end, entries, 64, &count);
        for (uint64_t i = 0; i < count; i++) {
            const uint64_t key = samvolip_unmix(entries[i].key);
            EXPECT(key < LISTED && entries[i].number == key + 1);
            __atomic_fetch_add(&times[key], 1, __ATOMIC_SEQ_CST);
        }
    } while (code == SAMVOLIP_PRESENT);
}

/* Each thread begins its part in the first table. One of them puts most of the keys, so that they lie in a later one. */
static void *list_over_growth(void *given)
{
    struct worker *worker = given;
    const size_t part = (1 << 14) / THREADS, from = part * worker->number;
    samvolip_cursor cursor;
    EXPECT(samvolip_walk_from(&worker->seat, from, &cursor) == SAMVOLIP_PRESENT && cursor.first == 0);
    pthread_barrier_wait(&all_here);
    if (worker->number == 0)
        for (uint64_t key = EARLY; key < LISTED; key++)
            EXPECT(samvolip_put(&worker->seat, samvolip_mix(key), key + 1, NULL) == SAMVOLIP_ABSENT);
    if (is_at_rest)
        pthread_barrier_wait(&all_here);
    list_part(worker, &cursor, from + part);
    return NULL;
}

/* Each thread begins its part in the top table, and the last one goes on to the end. */
static void *list_at_rest(void *given)
{
    struct worker *worker = given;
    const size_t part = (1 << 18) / THREADS, from = part * worker->number;
    samvolip_cursor cursor;
    EXPECT(samvolip_walk_from(&worker->seat, from, &cursor) == SAMVOLIP_PRESENT && cursor.first == 1);
    list_part(worker, &cursor, worker->number + 1 < THREADS ? from + part : SIZE_MAX);
    return NULL;
}

/* No key is shown twice. A key that the map had all the while is shown. */
static void shown_once(void)
{
    for (uint64_t key = 0; key < LISTED; key++)
        EXPECT(times[key] == 1 || (times[key] == 0 && key >= EARLY && !is_at_rest));
    memset(times, 0, sizeof times);
}

static void lists_together(void)
{
    const samvolip_shape shape = {{14, 18}, 2, THREADS, THREADS, 18, 64};
    EXPECT(pthread_barrier_init(&all_here, NULL, THREADS) == 0);
    for (is_at_rest = 0; is_at_rest < 2; is_at_rest++) {
        struct worker workers[THREADS] = {{SAMVOLIP_SEAT_INIT, 0, 0, 0, {0}}};
        EXPECT(samvolip_open(&shape, &workers[0].seat) == SAMVOLIP_OK);
        for (uint64_t key = 0; key < EARLY; key++)
            EXPECT(samvolip_put(&workers[0].seat, samvolip_mix(key), key + 1, NULL) == SAMVOLIP_ABSENT);
        all_work(workers, THREADS, list_over_growth);
        shown_once();
        if (is_at_rest) {
            all_work(workers, THREADS, list_at_rest);
            shown_once();
        }
        samvolip_free(&workers[0].seat);
    }
    EXPECT(pthread_barrier_destroy(&all_here) == 0);
}

int main(int count, char **words)
{
    if (count > 1)
        rounds = (unsigned)strtoul(words[1], NULL, 10);
    threads_add();
    for (unsigned i = 0; i < rounds; i += 5000)
        eight_threads();
    for (unsigned i = 0; i < rounds; i += 20000)
        told_once();
    for (unsigned i = 0; i < rounds; i += 10000)
        walk_beside_writers();
    for (unsigned i = 0; i < rounds; i += 50000)
        lists_together();
    puts("threads: well");
    return 0;
}
