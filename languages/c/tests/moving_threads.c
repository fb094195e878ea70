/* The map of ../src/moving.h, by threads that come and go, make cores move all the while, and have lanes of their own or share some. Each
   thread knows what its own keys have; shared counters never go back, and end with the sum of all that was added; numbers that are put
   once are found once; of those who put a key first as many win as take it out. Handlers of signals call the map, too, and are refused in
   the middle of a call. In each second round some threads are stopped by a signal, wherever they are in a call, until all others have
   ended theirs. With ./delayed before the compiler's headers, and -DDELAYS, threads wait at random before their steps.
       moving_threads [SECONDS [SEED]] */
#define _GNU_SOURCE
#include "../src/cores.h"
#include "../src/moving.h"

#include "expect.h"
#if !IS_SANITIZED /* else nothing is stopped, and no handler calls */
#include "waitless_malloc.h"
#endif

#include <errno.h>
#include <pthread.h>
#include <sched.h>
#include <signal.h>
#include <stdatomic.h>
#include <stdbool.h>
#include <string.h>
#include <time.h>

enum { WORKERS = 6, OWN_KEYS = 40, FEW = 3, RACES = 400, LIVES = 4, STOPPED = 2 };

/* What a key is for: its top bits. */
enum kind { OWN = 1, COUNTER, PASSED_ON, RACED, PASSING_BY, HANDLED };
static uint64_t key_of(enum kind kind, uint64_t number) { return (uint64_t)kind << 32 | number; }

struct worker {
    unsigned number;
    uint64_t state; /* of its random numbers */
    uint64_t added[FEW], seen[FEW], put_sum, found_sum, put_once;
    uint64_t oldest, newest; /* of its keys that pass by */
    struct {
        bool is_there;
        uint64_t number;
    } own[OWN_KEYS];
    _Atomic uint64_t calls;
    _Atomic bool is_over;
    pthread_t thread;        /* in which it lives now */
    bool is_alive, was_stopped;
    pthread_mutex_t may_end; /* of these three */
};

static struct moving_map *map;
static struct worker workers[WORKERS];
static _Atomic uint32_t won[RACES], taken_out[RACES];
static uint64_t calls_of_a_life, own_keys, races, live; /* the last three: how many keys of a kind there are in a round */

static uint64_t random_of(uint64_t *state)
{
    *state += SAMVOLIP_MIX_FACTOR;
    return samvolip_mix(*state) >> 8;
}

static void sleep_for(long nanoseconds) { nanosleep(&(struct timespec){0, nanoseconds}, NULL); }

/* ---- delays and stops ------------------------------------------------------------------------ */

static _Thread_local volatile sig_atomic_t in_a_call;
static _Thread_local uint64_t delays;
static _Atomic unsigned stopped;
static _Atomic bool may_go_on;

#ifdef DELAYS
void before_step(void)
{
    uint64_t random = in_a_call ? random_of(&delays) : 1;
    if (random % 64 != 0)
        return;
    if (random / 64 % 256 == 0)
        sleep_for((long)(random / 65536 % 300000));
    else if (random / 64 % 8 == 0)
        sched_yield();
    else
        for (uint64_t turn = random / 65536 % 300; turn > 0; turn--)
            __builtin_ia32_pause();
}
#endif

/* In the middle of a call: stands still until it may go on. */
static void stop_here(int signal)
{
    (void)signal;
    if (!in_a_call)
        return;
    atomic_fetch_add(&stopped, 1);
    while (!atomic_load(&may_go_on))
        sleep_for(500000);
}

static _Atomic uint64_t handled, nested;

/* Adds, if that isn't refused since it interrupted a call. */
static void handle(int signal)
{
    uint64_t before = 0;
    int was = errno, code = moving_add(map, key_of(HANDLED, 0), 1, &before);
    (void)signal;
    if (code == SAMVOLIP_E_NESTED)
        atomic_fetch_add(&nested, 1);
    else if (code >= 0 && before <= atomic_fetch_add(&handled, 1) + WORKERS)
        errno = was;
    else
        abort();
}

/* ---- what a thread calls ---------------------------------------------------------------------- */

static int made(int code)
{
    in_a_call = 0;
    EXPECT(code >= 0);
    return code;
}
#define CALL(call) made((in_a_call = 1, (call)))

/* Keys of its own, whose numbers it knows. */
static void own_key(struct worker *me, uint64_t random)
{
    unsigned which = (unsigned)(random % own_keys);
    uint64_t key = key_of(OWN, which * WORKERS + me->number), number = random_of(&me->state) >> 5 & SAMVOLIP_CORE_USER_MAX, before = 0;
    bool was = me->own[which].is_there;
    uint64_t there = was ? me->own[which].number : 0;
    int code;
    switch (random / own_keys % 6) {
    case 0:
        code = CALL(moving_put(map, key, number, &before));
        me->own[which].number = number, me->own[which].is_there = true;
        break;
    case 1:
        code = CALL(moving_remove(map, key, &before));
        me->own[which].is_there = false;
        break;
    case 2:
        code = CALL(moving_put_if_absent(map, key, number, &before));
        me->own[which].number = was ? there : number, me->own[which].is_there = true;
        break;
    case 3:
        code = CALL(moving_replace(map, key, number, &before));
        me->own[which].number = number;
        break;
    case 4:
        code = CALL(moving_remove_if(map, key, there));
        me->own[which].is_there = false;
        before = there;
        break;
    default:
        code = CALL(moving_get(map, key, &before));
    }
    EXPECT(code == was && before == there);
}

/* A counter never goes back, nor is it taken out. */
static void counter(struct worker *me, uint64_t random)
{
    unsigned which = (unsigned)(random % FEW);
    bool adds = random / FEW % 3 > 0;
    uint64_t before = 0;
    int code;
    if (adds)
        code = CALL(moving_add(map, key_of(COUNTER, which), 1, &before));
    else
        code = CALL(moving_get(map, key_of(COUNTER, which), &before));
    EXPECT(before >= me->seen[which] && (code == SAMVOLIP_PRESENT || me->seen[which] == 0));
    me->seen[which] = before + adds;
    me->added[which] += adds;
}

static void put_once(struct worker *me, uint64_t number) { me->put_sum += samvolip_mix(number); }
static void found_once(struct worker *me, uint64_t number) { me->found_sum += samvolip_mix(number); }

/* Each number is put once, and found once by who puts another one over it or takes it out. */
static void passed_on(struct worker *me, uint64_t random)
{
    uint64_t key = key_of(PASSED_ON, random % FEW), number = (uint64_t)(me->number + 1) << 40 | ++me->put_once, before = 0;
    switch (random / FEW % 4) {
    case 0:
        if (CALL(moving_put(map, key, number, &before)))
            found_once(me, before);
        put_once(me, number);
        break;
    case 1:
        if (CALL(moving_remove(map, key, &before)))
            found_once(me, before);
        break;
    case 2:
        if (!CALL(moving_put_if_absent(map, key, number, &before)))
            put_once(me, number);
        break;
    default:
        if (CALL(moving_get(map, key, &before)) && CALL(moving_replace_if(map, key, before, number))) {
            found_once(me, before);
            put_once(me, number);
        }
    }
}

/* Who puts it first wins, until it is taken out. */
static void raced(struct worker *me, uint64_t random)
{
    uint64_t which = (atomic_load(&me->calls) / 64 + random % 4) % races, before = 0;
    if (random / 4 % 2)
        won[which] += !CALL(moving_put_if_absent(map, key_of(RACED, which), me->number, &before));
    else
        taken_out[which] += CALL(moving_remove(map, key_of(RACED, which), &before)) == SAMVOLIP_PRESENT;
    EXPECT(before < WORKERS);
}

static uint64_t passing_key(const struct worker *me, uint64_t number) { return key_of(PASSING_BY, number * WORKERS + me->number); }

/* Keys come, and go in the same order. */
static void passing_by(struct worker *me, uint64_t random)
{
    uint64_t before = 0;
    if (me->newest - me->oldest < live || random % 2) {
        EXPECT(CALL(moving_put(map, passing_key(me, me->newest), me->newest, &before)) == SAMVOLIP_ABSENT);
        me->newest++;
    }
    while (me->newest - me->oldest > live) {
        EXPECT(CALL(moving_remove(map, passing_key(me, me->oldest), &before)) == SAMVOLIP_PRESENT && before == me->oldest);
        EXPECT(CALL(moving_get(map, passing_key(me, me->oldest), &before)) == SAMVOLIP_ABSENT);
        me->oldest++;
    }
    if (me->newest > me->oldest) {
        uint64_t some = me->oldest + random / 2 % (me->newest - me->oldest);
        EXPECT(CALL(moving_get(map, passing_key(me, some), &before)) == SAMVOLIP_PRESENT && before == some);
    }
}

static void set_alive(struct worker *me, bool is_alive)
{
    pthread_mutex_lock(&me->may_end);
    me->thread = pthread_self();
    me->is_alive = is_alive;
    pthread_mutex_unlock(&me->may_end);
}

static void *lives(void *given)
{
    static void (*const kinds[])(struct worker *, uint64_t) = {own_key, own_key, counter, passed_on, raced, passing_by, passing_by};
    struct worker *me = given;
    delays = me->state;
    set_alive(me, true);
    for (uint64_t call = 0; call < calls_of_a_life; call++) {
        uint64_t random = random_of(&me->state);
        kinds[random % 7](me, random / 7);
        atomic_fetch_add(&me->calls, 1);
    }
    set_alive(me, false);
    return NULL;
}

/* ---- rounds ---------------------------------------------------------------------------------- */

/* A worker lives in one thread after another. */
static void *works(void *given)
{
    struct worker *me = given;
    for (unsigned life = 0; life < LIVES; life++) {
        pthread_t thread;
        EXPECT(pthread_create(&thread, NULL, lives, me) == 0 && pthread_join(thread, NULL) == 0);
    }
    atomic_store(&me->is_over, true);
    return NULL;
}

/* A signal to this worker, unless it is stopped: to stop it in the middle of a call, if it is in one; or one that is handled. */
static void interrupt(struct worker *one, int signal)
{
    unsigned before = atomic_load(&stopped);
    pthread_mutex_lock(&one->may_end);
    if (one->is_alive && !one->was_stopped) {
        pthread_kill(one->thread, signal);
        sleep_for(signal == SIGUSR1 ? 2000000 : 100000);
        one->was_stopped = atomic_load(&stopped) > before;
    }
    pthread_mutex_unlock(&one->may_end);
}

static unsigned over(void)
{
    unsigned count = 0;
    for (unsigned i = 0; i < WORKERS; i++)
        count += atomic_load(&workers[i].is_over);
    return count;
}

/* All workers at once. Where some are stopped, the others come to their end. */
static void crew_works(unsigned to_stop, uint64_t *random)
{
    pthread_t crew[WORKERS];
    atomic_store(&may_go_on, false);
    atomic_store(&stopped, 0);
    for (unsigned i = 0; i < WORKERS; i++)
        EXPECT(pthread_create(&crew[i], NULL, works, &workers[i]) == 0);
    for (time_t until = time(NULL) + 60; over() + atomic_load(&stopped) < WORKERS;) {
        sleep_for((long)(random_of(random) % 2000000));
        bool stops = atomic_load(&stopped) < to_stop && random_of(random) % 4 == 0;
        if (!IS_SANITIZED)
            interrupt(&workers[random_of(random) % WORKERS], stops ? SIGUSR1 : SIGUSR2);
        EXPECT(time(NULL) < until);
    }
    atomic_store(&may_go_on, true);
    for (unsigned i = 0; i < WORKERS; i++)
        EXPECT(pthread_join(crew[i], NULL) == 0);
}

static void own_keys_are_there(const struct worker *one)
{
    uint64_t number;
    for (unsigned i = 0; i < OWN_KEYS; i++) {
        bool is_there = moving_get(map, key_of(OWN, i * WORKERS + one->number), &number) == SAMVOLIP_PRESENT;
        EXPECT(is_there == one->own[i].is_there && number == (is_there ? one->own[i].number : 0));
    }
    for (uint64_t i = one->oldest; i < one->newest; i++)
        EXPECT(moving_get(map, passing_key(one, i), &number) == SAMVOLIP_PRESENT && number == i);
}

static void shared_keys_are_right(void)
{
    uint64_t put = 0, found = 0, number;
    moving_get(map, key_of(HANDLED, 0), &number);
    EXPECT(number == atomic_load(&handled));
    for (unsigned key = 0; key < FEW; key++) {
        uint64_t sum = 0;
        for (unsigned i = 0; i < WORKERS; i++)
            sum += workers[i].added[key];
        moving_get(map, key_of(COUNTER, key), &number);
        EXPECT(number == sum);
        if (moving_get(map, key_of(PASSED_ON, key), &number) == SAMVOLIP_PRESENT)
            found += samvolip_mix(number);
    }
    for (unsigned i = 0; i < WORKERS; i++)
        put += workers[i].put_sum, found += workers[i].found_sum;
    EXPECT(put == found);
    for (unsigned i = 0; i < RACES; i++)
        EXPECT(won[i] == taken_out[i] + (moving_get(map, key_of(RACED, i), &number) == SAMVOLIP_PRESENT));
}

/* A map of some sizes, and what it has to be in the end. It answers how many moves there were. */
static uint64_t makes_a_round(uint64_t seed, unsigned to_stop)
{
    uint64_t random = seed;
    struct moving_options options = {.slots = 4u << random_of(&random) % 7, .lanes = 1 + random_of(&random) % (2 * WORKERS)};
    bool has_few = random_of(&random) % 3 > 0;
    own_keys = 1 + random_of(&random) % (has_few ? 2 : OWN_KEYS);
    races = has_few ? 5 : RACES;
    live = 1 + random_of(&random) % (has_few ? 3 : 200);
    map = moving_open(options);
    EXPECT(map != NULL);
    memset(workers, 0, sizeof workers);
    atomic_store(&handled, 0);
    memset((void *)won, 0, sizeof won);
    memset((void *)taken_out, 0, sizeof taken_out);
    for (unsigned i = 0; i < WORKERS; i++) {
        workers[i].number = i;
        workers[i].state = random_of(&random);
        EXPECT(pthread_mutex_init(&workers[i].may_end, NULL) == 0);
    }
    crew_works(to_stop, &random);
    for (unsigned i = 0; i < WORKERS; i++)
        own_keys_are_there(&workers[i]);
    shared_keys_are_right();
    struct moving_figures figures;
    moving_look(map, &figures);
    EXPECT(figures.hazards == 0 && figures.cores <= 3 + figures.retired + 2 * WORKERS);
    moving_close(map);
    return figures.moves;
}

int main(int count, char **words)
{
    double seconds = count > 1 ? atof(words[1]) : 3;
    uint64_t seed = count > 2 ? strtoull(words[2], NULL, 10) : 1, moves = 0, rounds = 0, stops = 0;
    struct timespec begun, now;
    struct sigaction action = {.sa_handler = stop_here}, handling = {.sa_handler = handle};
    EXPECT(sigaction(SIGUSR1, &action, NULL) == 0 && sigaction(SIGUSR2, &handling, NULL) == 0);
    clock_gettime(CLOCK_MONOTONIC, &begun);
    calls_of_a_life = 5000;
    do {
        moves += makes_a_round(seed * 1000003 + rounds, rounds % 2 ? STOPPED : 0);
        rounds++;
        stops += atomic_load(&stopped);
        clock_gettime(CLOCK_MONOTONIC, &now);
    } while ((double)(now.tv_sec - begun.tv_sec) + (double)(now.tv_nsec - begun.tv_nsec) / 1e9 < seconds);
    printf("moving_threads: %d rounds, %d moves, %d threads stopped, %d handlers refused; all replies are right\n", (int)rounds, (int)moves,
           (int)stops, (int)atomic_load(&nested));
    return 0;
}
