/* What is around calls of the map without an end: forks, handlers, ends of threads, keys of pthread that are out, and options. Each test
   runs in a process of its own, which has opened no map before.
       edges [NAME [SECONDS]]      one test by its name, or all; and for how long threads call in the last one */
#define _GNU_SOURCE
#include "samvolip_objects.h"

#include "expect.h"

#include <errno.h>
#include <limits.h>
#include <pthread.h>
#include <sched.h>
#include <signal.h>
#include <stdatomic.h>
#include <stdbool.h>
#include <string.h>
#include <sys/mman.h>
#include <sys/wait.h>
#include <time.h>
#include <unistd.h>

FORKS

enum { PATIENCE = 120, WORKERS = 4, KEYS = 1000 };

static double seconds = 0.5;

/* ---- what the tests share ------------------------------------------------------------------ */

static double now(void)
{
    struct timespec at;
    EXPECT(clock_gettime(CLOCK_MONOTONIC, &at) == 0);
    return (double)at.tv_sec + (double)at.tv_nsec * 1e-9;
}

static uint64_t random_from(uint64_t *state)
{
    uint64_t mixed = *state += UINT64_C(0x9e3779b97f4a7c15);
    mixed = (mixed ^ mixed >> 30) * UINT64_C(0xbf58476d1ce4e5b9);
    return mixed ^ mixed >> 31;
}

static samvolip_map *open_map(uint64_t room, uint32_t threads)
{
    const samvolip_map_options options = {.room = room, .growth = 2, .threads = threads};
    samvolip_map *map;
    EXPECT(samvolip_map_open(&options, &map) == SAMVOLIP_OK);
    return map;
}

static uint64_t size_of(samvolip_map *map)
{
    uint64_t size = 99;
    EXPECT(samvolip_map_size(map, &size) == SAMVOLIP_OK);
    return size;
}

static void put_keys(samvolip_map *map, uint64_t count)
{
    for (uint64_t key = 0; key < count; key++)
        EXPECT(samvolip_map_put(map, key, key, NULL) == SAMVOLIP_ABSENT);
}

static uint32_t own_threads(samvolip_map *map)
{
    samvolip_map_figures figures;
    EXPECT(samvolip_map_look(map, &figures) == SAMVOLIP_OK);
    return (uint32_t)figures.own_threads;
}

static pthread_t begin_thread(void *(*work)(void *), void *given)
{
    pthread_t thread;
    EXPECT(pthread_create(&thread, NULL, work, given) == 0);
    return thread;
}

static void end_thread(pthread_t thread) { EXPECT(pthread_join(thread, NULL) == 0); }

static void handle_by(void (*handler)(int))
{
    const struct sigaction action = {.sa_handler = handler, .sa_flags = SA_RESTART};
    EXPECT(sigaction(SIGUSR1, &action, NULL) == 0);
}

/* Makes a child, and waits for its end. */
static void fork_once(void (*as_child)(void))
{
    int status = 99;
    const pid_t child = fork();
    if (child == 0) {
        alarm(PATIENCE);
        as_child();
        _exit(0);
    }
    EXPECT(child > 0 && waitpid(child, &status, 0) == child && status == 0);
}

static samvolip_map *map, *other; /* of the test that runs */
static atomic_bool goes_on;
static atomic_ullong calls;

/* ---- forks --------------------------------------------------------------------------------- */

static void read_in_handler(int signal)
{
    const int saved = errno;
    uint64_t number = 99;
    (void)signal;
    const int code = samvolip_map_get(map, 1, &number);
    EXPECT(code == SAMVOLIP_E_NESTED || (code == SAMVOLIP_PRESENT && number == 1));
    calls += code == SAMVOLIP_PRESENT;
    errno = saved;
}

/* Is mostly within malloc and free, with one of its locks: blocks of these sizes are kept by no thread. */
static void take_memory(uint64_t state)
{
    void *blocks[64] = {NULL};
    while (goes_on) {
        const uint64_t choice = random_from(&state);
        free(blocks[choice % 64]);
        EXPECT((blocks[choice % 64] = malloc(1100 + choice / 64 % 60000)) != NULL);
    }
    for (int i = 0; i < 64; i++)
        free(blocks[i]);
}

static void *call_and_take_memory(void *given)
{
    EXPECT(samvolip_map_contains(map, 1) == 1);
    calls++;
    take_memory((uintptr_t)given);
    return NULL;
}

static void read_as_child(void)
{
    uint64_t number = 99;
    EXPECT(samvolip_map_get(map, 1, &number) == SAMVOLIP_PRESENT && number == 1);
    EXPECT(samvolip_map_add(map, 1, 5, NULL) == SAMVOLIP_PRESENT);
}

static void *send_signals(void *given)
{
    const pthread_t *threads = given;
    for (uint64_t turn = 0; goes_on; turn++) {
        EXPECT(pthread_kill(threads[turn % WORKERS], SIGUSR1) == 0);
        usleep(20);
    }
    return NULL;
}

/* The fork waits for malloc's locks while the handlers of threads that have them read. */
static void a_fork_goes_on_beside_handlers_that_read(void)
{
    pthread_t threads[WORKERS];
    map = open_map(1, 8);
    put_keys(map, 2);
    handle_by(read_in_handler);
    goes_on = true;
    for (uintptr_t i = 0; i < WORKERS; i++)
        threads[i] = begin_thread(call_and_take_memory, (void *)i);
    while (calls < WORKERS)
        sched_yield();
    const pthread_t sends = begin_thread(send_signals, threads);
    for (int i = 0; i < (IS_SANITIZED ? 30 : 300); i++)
        fork_once(read_as_child);
    goes_on = false;
    end_thread(sends);
    for (int i = 0; i < WORKERS; i++)
        end_thread(threads[i]);
    EXPECT(calls > WORKERS);
    samvolip_map_free(map);
}

static void *read_other(void *unused)
{
    uint64_t number;
    (void)unused;
    for (; goes_on; calls++)
        EXPECT(samvolip_map_get(other, 1, &number) == SAMVOLIP_PRESENT);
    return NULL;
}

static void *renew_all_the_time(void *unused)
{
    (void)unused;
    for (; goes_on; usleep(5000))
        EXPECT(samvolip_map_renew(map, 0) == SAMVOLIP_OK);
    return NULL;
}

static void end_as_child(void) { EXPECT(samvolip_map_contains(other, 1) == 1); }

/* The other map is the newer one, so that a fork which stops one map after another stops that first. A fork that waits for so long waits
   for a renewal. */
static void a_fork_stops_no_map_while_another_is_renewed(void)
{
    unsigned waits = 0;
    map = open_map(1000000, 4);
    put_keys(map, IS_SANITIZED ? 100000 : 1500000);
    other = open_map(1, 4);
    put_keys(other, 2);
    goes_on = true;
    const pthread_t reads = begin_thread(read_other, NULL), renews = begin_thread(renew_all_the_time, NULL);
    for (int i = 0; i < 40 && waits < 5; i++) {
        const double began = now();
        const uint64_t before = calls;
        fork_once(end_as_child);
        if (now() - began > 0.05) {
            waits++;
            EXPECT(calls - before > 1000);
        }
        usleep(1000);
    }
    goes_on = false;
    end_thread(reads);
    end_thread(renews);
    samvolip_map_free(map);
    samvolip_map_free(other);
}

/* ---- handlers ------------------------------------------------------------------------------ */

static atomic_int step;

static void wait_for(int wanted)
{
    while (step < wanted)
        sched_yield();
}

/* So many keys that what a thread has of later ones takes memory. */
static void take_keys(void)
{
    pthread_key_t key;
    for (int i = 0; i < 40; i++)
        EXPECT(pthread_key_create(&key, NULL) == 0);
}

/* Shares a lane, and reads in handlers that interrupt malloc, once there is a lane for it. */
static void *share_and_be_interrupted(void *unused)
{
    (void)unused;
    EXPECT(samvolip_map_contains(map, 1) == 1);
    step = 1;
    wait_for(2);
    take_memory(1);
    return NULL;
}

static void a_handler_may_read_where_a_lane_is_free(void)
{
    take_keys();
    handle_by(read_in_handler);
    for (int round = 0; round < 40; round++) {
        map = open_map(1, 1);
        put_keys(map, 2);
        goes_on = true;
        step = 0;
        pthread_t thread = begin_thread(share_and_be_interrupted, NULL);
        wait_for(1);
        samvolip_map_leave(map);
        step = 2;
        for (int i = 0; i < 10; i++) {
            usleep(100);
            EXPECT(pthread_kill(thread, SIGUSR1) == 0);
        }
        goes_on = false;
        end_thread(thread);
        EXPECT(own_threads(map) <= 1);
        samvolip_map_free(map);
    }
}

/* ---- ends of threads ----------------------------------------------------------------------- */

/* The thread sanitizer has ended for a thread by its last round. */
#ifdef __SANITIZE_THREAD__
enum { HAS_LAST_ROUND = false };
#else
enum { HAS_LAST_ROUND = true };
#endif

static pthread_key_t last;

/* Comes again until the last round, and makes the thread's first call then. */
static void call_at_last(void *given)
{
    const uintptr_t round = (uintptr_t)given;
    uint64_t number;
    if (round < PTHREAD_DESTRUCTOR_ITERATIONS) {
        EXPECT(pthread_setspecific(last, (void *)(round + 1)) == 0);
        return;
    }
    EXPECT(samvolip_map_get(map, 1, &number) == SAMVOLIP_PRESENT && samvolip_map_put(map, 1, 1, NULL) >= 0);
    EXPECT(samvolip_map_pin(map) == SAMVOLIP_OK);
    samvolip_map_unpin(map);
}

static void *end_with_a_call(void *unused)
{
    (void)unused;
    EXPECT(pthread_setspecific(last, (void *)1) == 0);
    return NULL;
}

/* Runs a thread on pages that are gone once it has ended. */
static void run_on_own_pages(void *(*work)(void *))
{
    const size_t size = 1 << 20;
    pthread_attr_t attributes;
    pthread_t thread;
    void *pages = mmap(NULL, size, PROT_READ | PROT_WRITE, MAP_PRIVATE | MAP_ANONYMOUS, -1, 0);
    EXPECT(pages != MAP_FAILED && pthread_attr_init(&attributes) == 0 && pthread_attr_setstack(&attributes, pages, size) == 0);
    EXPECT(pthread_create(&thread, &attributes, work, NULL) == 0);
    end_thread(thread);
    EXPECT(munmap(pages, size) == 0 && pthread_attr_destroy(&attributes) == 0);
}

static void a_first_call_may_come_last_of_all(void)
{
    if (!HAS_LAST_ROUND)
        return;
    map = open_map(1, 20);
    put_keys(map, 2);
    EXPECT(pthread_key_create(&last, call_at_last) == 0);
    for (int i = 0; i < 30; i++) {
        run_on_own_pages(end_with_a_call);
        EXPECT(size_of(map) == 2 && samvolip_map_renew(map, 0) == SAMVOLIP_OK && samvolip_map_collect(map) == SAMVOLIP_OK);
    }
    EXPECT(own_threads(map) <= 20);
    fork_once(read_as_child);
    samvolip_map_free(map);
}

/* A thread that ends goes on to call, by lanes that are shared. */
static void *call_and_end(void *unused)
{
    (void)unused;
    EXPECT(samvolip_map_put(map, 1, 1, NULL) == SAMVOLIP_PRESENT);
    return end_with_a_call(NULL);
}

static void calls_may_follow_the_end_of_a_thread(void)
{
    if (!HAS_LAST_ROUND)
        return;
    map = open_map(1, 4);
    put_keys(map, 2);
    EXPECT(pthread_key_create(&last, call_at_last) == 0);
    for (int i = 0; i < 30; i++) {
        run_on_own_pages(call_and_end);
        EXPECT(size_of(map) == 2 && own_threads(map) == 1);
    }
    samvolip_map_free(map);
}

/* ---- opening ------------------------------------------------------------------------------- */

static void a_map_is_refused_without_keys_of_pthread(void)
{
    pthread_key_t keys[PTHREAD_KEYS_MAX];
    int taken = 0;
    while (taken < PTHREAD_KEYS_MAX && pthread_key_create(&keys[taken], NULL) == 0)
        taken++;
    for (int left = 0; left < 2; left++) {
        EXPECT(samvolip_map_open(NULL, &map) == SAMVOLIP_E_OUT_OF_MEMORY);
        EXPECT(pthread_key_delete(keys[--taken]) == 0);
    }
    EXPECT(samvolip_map_open(NULL, &map) == SAMVOLIP_OK);
    put_keys(map, 2);
    fork_once(read_as_child);
    samvolip_map_free(map);
}

/* With twice the first table, and not less, a map can be cleared and renewed. */
static void memory_for_less_than_two_tables_is_refused(void)
{
    const uint64_t rooms[] = {1, 1000, 100000}, slots[] = {32, 2048, 262144};
    for (int i = 0; i < 3; i++) {
        samvolip_map_options options = {.room = rooms[i], .memory = 32 * slots[i] - 1};
        EXPECT(samvolip_map_open(&options, &map) == SAMVOLIP_E_OPTIONS);
        options.memory++;
        EXPECT(samvolip_map_open(&options, &map) == SAMVOLIP_OK);
        put_keys(map, rooms[i]);
        EXPECT(samvolip_map_renew(map, 0) == SAMVOLIP_OK && size_of(map) == rooms[i]);
        EXPECT(samvolip_map_clear(map, NULL, NULL) == SAMVOLIP_OK && size_of(map) == 0);
        samvolip_map_free(map);
    }
}

/* A read that waits for nobody is one while nothing is in its way; else it does nothing, and says why. */
static void a_read_may_be_one_that_does_not_wait(void)
{
    const uint64_t keys[] = {1, 7, SAMVOLIP_KEY_MAX + 1};
    uint64_t numbers[] = {99, 99, 99};
    map = open_map(1, 4);
    EXPECT(samvolip_map_try_get_word(map, 1) == SAMVOLIP_E_WOULD_WAIT);
    put_keys(map, 2);
    const bool is_fenced = samvolip_map_try_get_word(map, 1) == SAMVOLIP_E_WOULD_WAIT; /* then each call begins slowly */
    EXPECT(is_fenced || (samvolip_map_try_get_word(map, 1) == 1 && samvolip_map_try_get_word(map, 7) == SAMVOLIP_NONE));
    EXPECT(samvolip_map_try_get_word(map, keys[2]) == SAMVOLIP_E_WOULD_WAIT);
    EXPECT(samvolip_map_try_get_many(map, keys, numbers, 3, 5) == (is_fenced ? 0 : 2));
    EXPECT(is_fenced || (numbers[0] == 1 && numbers[1] == 5 && numbers[2] == 99));
    samvolip_map_free(map);
    const samvolip_map_options options = {.room = 1, .memory = 1024};
    EXPECT(samvolip_map_open(&options, &map) == SAMVOLIP_OK && samvolip_map_put(map, 1, 1, NULL) == SAMVOLIP_ABSENT);
    EXPECT(samvolip_map_try_get_word(map, 1) == SAMVOLIP_E_MAY_SCAN && samvolip_map_contains(map, 1) == 1);
    samvolip_map_free(map);
    map = open_map(1, 4);
    EXPECT(samvolip_map_renew(map, UINT64_C(1) << 40) == SAMVOLIP_E_OUT_OF_MEMORY);
    EXPECT(samvolip_map_try_get_word(map, 1) == SAMVOLIP_E_WOULD_WAIT); /* the map is as it was */
    samvolip_map_free(map);
}

/* ---- all at once --------------------------------------------------------------------------- */

/* Threads that live for some hundred calls, pins, objects, renewals, handlers that read, and forks. A number at a key of OBJECTS is the
   address of a block that has the key. */
enum { OBJECTS = 100, LIVES = 300 };

/* Under a pin: the key that an object has. */
static uint64_t key_of(uint64_t number)
{
    uint64_t *object = (uint64_t *)number;
    __tsan_acquire(object);
    const uint64_t key = *object;
    __tsan_release(object);
    return key;
}

static void free_object(void *object)
{
    __tsan_acquire(object);
    free(object);
}

static void read_both(int signal)
{
    const int saved = errno;
    uint64_t number;
    (void)signal;
    EXPECT(samvolip_map_get(map, KEYS, &number) != SAMVOLIP_ABSENT);
    if (samvolip_map_pin(other) == SAMVOLIP_OK) {
        if (samvolip_map_get(other, 1, &number) == SAMVOLIP_PRESENT)
            EXPECT(key_of(number) == 1);
        samvolip_map_unpin(other);
    }
    errno = saved;
}

/* Puts a new object at a key, or takes one out. */
static void change_object(uint64_t key, bool puts)
{
    uint64_t before, *made = puts ? malloc(sizeof *made) : NULL;
    EXPECT(samvolip_map_ready(other) == SAMVOLIP_OK);
    if (puts)
        *made = key;
    __tsan_release(made);
    const int code = puts ? samvolip_map_put(other, key, (uintptr_t)made, &before) : samvolip_map_remove(other, key, &before);
    EXPECT(code >= 0 && (code == SAMVOLIP_ABSENT || samvolip_map_retire(other, (void *)before, free_object) == SAMVOLIP_OK));
}

static void call_at_random(uint64_t choice)
{
    const uint64_t key = choice / 16 % KEYS;
    uint64_t number;
    switch (choice % 16) {
    case 0: EXPECT(samvolip_map_remove(map, key, NULL) >= 0); break;
    case 1: change_object(key % OBJECTS, choice / 16 % 3 > 0); break;
    case 2:
        EXPECT(samvolip_map_pin(other) == SAMVOLIP_OK);
        if (samvolip_map_get(other, key % OBJECTS, &number) == SAMVOLIP_PRESENT)
            EXPECT(key_of(number) == key % OBJECTS);
        samvolip_map_unpin(other);
        break;
    case 3: EXPECT(key % 50 || samvolip_map_renew(map, choice / 65536 % 3 * KEYS) == SAMVOLIP_OK); break;
    case 4:
        if (key % 10 == 0)
            samvolip_map_leave(choice / 65536 % 2 ? map : other);
        break;
    default: EXPECT(samvolip_map_put(map, key, choice % 2, NULL) >= 0);
    }
}

struct life {
    uint64_t state;
    atomic_bool has_called;
};

/* Handlers come between its first calls and its end. */
static void *live_shortly(void *given)
{
    struct life *life = given;
    sigset_t none;
    EXPECT(samvolip_map_contains(map, 1) >= 0 && samvolip_map_contains(other, 1) >= 0 && samvolip_map_pin(other) == SAMVOLIP_OK);
    samvolip_map_unpin(other);
    life->has_called = true;
    for (int i = 0; i < LIVES; i++)
        call_at_random(random_from(&life->state));
    EXPECT(sigfillset(&none) == 0 && pthread_sigmask(SIG_BLOCK, &none, NULL) == 0);
    calls += LIVES;
    return NULL;
}

/* Has one thread after another, which handlers interrupt. */
static void *send_threads(void *given)
{
    struct life life = {.state = (uintptr_t)given};
    while (goes_on) {
        life.has_called = false;
        const pthread_t thread = begin_thread(live_shortly, &life);
        while (!life.has_called)
            sched_yield();
        for (int i = 0; i < 5; i++)
            EXPECT(pthread_kill(thread, SIGUSR1) == 0);
        end_thread(thread);
    }
    return NULL;
}

/* The address sanitizer's own lock may be held by a thread that the child hasn't: there it takes no memory. */
static void call_as_child(void)
{
    uint64_t state = calls;
#ifdef __SANITIZE_ADDRESS__
    EXPECT(samvolip_map_contains(map, KEYS) == 1);
    return;
#endif
    for (int i = 0; i < LIVES; i++)
        call_at_random(random_from(&state));
    EXPECT(samvolip_map_collect(other) == SAMVOLIP_OK && size_of(map) <= KEYS + 1 && size_of(other) <= OBJECTS);
}

static void free_last(void *unused, uint64_t key, uint64_t number)
{
    (void)unused;
    EXPECT(key_of(number) == key);
    free_object((void *)number);
}

static void all_at_once(void)
{
    const uint32_t lanes[] = {2, 5, 64};
    for (int round = 0; round < 3; round++) {
        pthread_t threads[WORKERS];
        map = open_map(1, lanes[round]), other = open_map(1, lanes[round]);
        EXPECT(samvolip_map_put(map, KEYS, 1, NULL) == SAMVOLIP_ABSENT);
        handle_by(read_both);
        goes_on = true;
        for (uintptr_t i = 0; i < WORKERS; i++)
            threads[i] = begin_thread(send_threads, (void *)i);
        for (const double ends_at = now() + seconds / 3; now() < ends_at;)
            fork_once(call_as_child);
        goes_on = false;
        for (int i = 0; i < WORKERS; i++)
            end_thread(threads[i]);
        EXPECT(samvolip_map_each(other, free_last, NULL) == SAMVOLIP_OK);
        samvolip_map_free(map);
        samvolip_map_free(other);
    }
    EXPECT(calls > 0);
}

/* -------------------------------------------------------------------------------------------- */

#define TEST(name) {#name, name}
static const struct {
    const char *name;
    void (*run)(void);
} tests[] = {
    TEST(a_fork_goes_on_beside_handlers_that_read),
    TEST(a_fork_stops_no_map_while_another_is_renewed),
    TEST(a_handler_may_read_where_a_lane_is_free),
    TEST(a_first_call_may_come_last_of_all),
    TEST(calls_may_follow_the_end_of_a_thread),
    TEST(a_map_is_refused_without_keys_of_pthread),
    TEST(memory_for_less_than_two_tables_is_refused),
    TEST(a_read_may_be_one_that_does_not_wait),
    TEST(all_at_once),
};

int main(int count, char **words)
{
    const char *name = count > 1 ? words[1] : "all";
    int run = 0;
    if (count > 2)
        seconds = strtod(words[2], NULL);
    for (size_t i = 0; i < sizeof tests / sizeof *tests; i++)
        if (strcmp(name, "all") == 0 || strcmp(name, tests[i].name) == 0) {
            fork_once(tests[i].run);
            run++;
        }
    EXPECT(run > 0);
    printf("edges: %d tests\n", run);
    return 0;
}
