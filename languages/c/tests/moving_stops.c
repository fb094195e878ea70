/* The map of ../src/moving.h: a call is stopped at one of its steps at a shared word, until another thread has made many calls, which move
   cores; then it goes on. Both know what their keys have. With ./delayed before the compiler's headers.
       moving_stops [SECONDS [SEED]] */
#include "../src/cores.h"
#include "../src/moving.h"

#include "expect.h"

#include <pthread.h>
#include <sched.h>
#include <stdatomic.h>
#include <stdbool.h>
#include <string.h>
#include <time.h>

enum { MOST_KEYS = 1600, FIRST_NUMBER = 77, NUMBER = 88 };

static struct moving_map *map;
static uint64_t state, calls, stops;

static uint64_t some(uint64_t below)
{
    state += SAMVOLIP_MIX_FACTOR;
    return (samvolip_mix(state) >> 8) % below;
}

/* ---- the thread that makes many calls: on even keys ------------------------------------------ */

static uint64_t keys, newest, next_number; /* so many keys are chosen from; others come and go behind them */
static struct {
    bool is_there;
    uint64_t number;
} plain[MOST_KEYS];

/* A key comes, and the fifth one before it goes. */
static void pass_one(void)
{
    uint64_t before = 0, key = keys + newest;
    EXPECT(moving_put(map, 2 * key, next_number, &before) == SAMVOLIP_ABSENT && before == 0);
    EXPECT(moving_get(map, 2 * key, &before) == SAMVOLIP_PRESENT && before == next_number);
    plain[key].number = next_number++;
    plain[key].is_there = true;
    if (newest++ >= 5) {
        EXPECT(moving_remove(map, 2 * (key - 5), &before) == SAMVOLIP_PRESENT && before == plain[key - 5].number);
        plain[key - 5].is_there = false;
    }
}

static void make_a_call(void)
{
    uint64_t key = some(keys), before = 0, kind = some(7);
    bool was = plain[key].is_there;
    int code;
    if (kind < 3) {
        code = moving_put(map, 2 * key, next_number, &before);
        plain[key].is_there = true;
    } else if (kind < 5) {
        code = moving_remove(map, 2 * key, &before);
        plain[key].is_there = false;
    } else {
        code = moving_get(map, 2 * key, &before);
    }
    EXPECT(code == was && before == (was ? plain[key].number : 0));
    if (kind < 3)
        plain[key].number = next_number++;
}

static void make_calls(uint64_t count)
{
    for (calls += count; count > 0; count--) {
        if (some(10) < 3 && keys + newest < MOST_KEYS)
            pass_one();
        else
            make_a_call();
    }
}

static void all_are_there(void)
{
    for (uint64_t key = 0; key < keys + newest; key++) {
        uint64_t number = 0;
        EXPECT(moving_get(map, 2 * key, &number) == plain[key].is_there && number == (plain[key].is_there ? plain[key].number : 0));
    }
}

/* ---- the thread that is stopped: in its one call, on an odd key ------------------------------- */

enum kind { PUTS, ADDS, PUTS_IF_ABSENT, REMOVES, GETS, KINDS };
enum { RUNS, IS_STOPPED, GOES_ON, IS_OVER };

static uint64_t odd_key, stop_at;
static enum kind kind;
static int code;
static uint64_t found;
static _Atomic int stage;
static _Thread_local uint64_t steps;
static _Thread_local bool counts;

void before_step(void)
{
    if (!counts || ++steps != stop_at)
        return;
    atomic_store(&stage, IS_STOPPED);
    while (atomic_load(&stage) != GOES_ON)
        sched_yield();
}

static void *make_one_call(void *none)
{
    counts = true;
    switch (kind) {
    case PUTS:
        code = moving_put(map, odd_key, NUMBER, &found);
        break;
    case ADDS:
        code = moving_add(map, odd_key, NUMBER, &found);
        break;
    case PUTS_IF_ABSENT:
        code = moving_put_if_absent(map, odd_key, NUMBER, &found);
        break;
    case REMOVES:
        code = moving_remove(map, odd_key, &found);
        break;
    default:
        code = moving_get(map, odd_key, &found);
    }
    counts = false;
    atomic_store(&stage, IS_OVER);
    return none;
}

/* What the key has after the call, if it had FIRST_NUMBER or none before. */
static uint64_t number_after(bool was)
{
    switch (kind) {
    case PUTS:
        return NUMBER;
    case ADDS:
        return was ? FIRST_NUMBER + NUMBER : NUMBER;
    case PUTS_IF_ABSENT:
        return was ? FIRST_NUMBER : NUMBER;
    case REMOVES:
        return 0;
    default:
        return was ? FIRST_NUMBER : 0;
    }
}

/* ---- both --------------------------------------------------------------------------------------- */

static void begin(void)
{
    map = moving_open((struct moving_options){.slots = 4u << some(5), .lanes = 2});
    EXPECT(map != NULL);
    memset(plain, 0, sizeof plain);
    keys = 2 + some(some(2) ? 60 : 1000);
    newest = 0;
    next_number = 1;
    odd_key = 2 * some(keys) + 1;
    kind = (enum kind)some(KINDS);
    found = 0;
}

/* One call is stopped at this step of its own. */
static void stop_one(uint64_t step)
{
    pthread_t thread;
    uint64_t number = 0;
    begin();
    make_calls(1 + some(400));
    bool was = some(2);
    if (was)
        EXPECT(moving_put(map, odd_key, FIRST_NUMBER, NULL) == SAMVOLIP_ABSENT);
    stop_at = step;
    atomic_store(&stage, RUNS);
    EXPECT(pthread_create(&thread, NULL, make_one_call, NULL) == 0);
    while (atomic_load(&stage) == RUNS)
        sched_yield();
    bool is_stopped = atomic_load(&stage) == IS_STOPPED;
    stops += is_stopped;
    make_calls(some(300));
    if (is_stopped)
        atomic_store(&stage, GOES_ON);
    EXPECT(pthread_join(thread, NULL) == 0);
    make_calls(some(50));
    EXPECT(code == was && found == (was ? FIRST_NUMBER : 0));
    EXPECT(moving_get(map, odd_key, &number) == (number_after(was) != 0) && number == number_after(was));
    all_are_there();
    moving_close(map);
}

int main(int count, char **words)
{
    double seconds = count > 1 ? atof(words[1]) : 3;
    uint64_t maps = 0;
    struct timespec begun, now;
    state = count > 2 ? strtoull(words[2], NULL, 10) << 32 : 1;
    clock_gettime(CLOCK_MONOTONIC, &begun);
    do {
        stop_one(1 + some(maps % 3 == 0 ? 20 : maps % 3 == 1 ? 150 : 1500));
        maps++;
        clock_gettime(CLOCK_MONOTONIC, &now);
    } while ((double)(now.tv_sec - begun.tv_sec) + (double)(now.tv_nsec - begun.tv_nsec) / 1e9 < seconds);
    printf("moving_stops: %d maps, %d calls stopped among %d; all replies are right\n", (int)maps, (int)stops, (int)calls);
    return 0;
}
