/* The map without an end, samvolip_map.h. One thread compares each reply with a plain list of numbers. Many threads call it through
   hundreds of renewals, beside walks, clears, snapshots, forks and signals, and what is left is what they were told.
       endless [NAME [SECONDS]]      one test by its name, or all; and how long each of those that go by the clock takes */
#define _GNU_SOURCE
#include "samvolip_map.h"

#include "expect.h"

#include <errno.h>
#include <pthread.h>
#include <signal.h>
#include <stdatomic.h>
#include <stdbool.h>
#include <string.h>
#include <sys/resource.h>
#include <sys/wait.h>
#include <time.h>
#include <unistd.h>

/* Whether a map is in parts when it is small still, as -DDIVIDED_FROM says to the sources that are built with this. */
#ifdef DIVIDED_FROM
enum { IS_DIVIDED_EARLY = true };
#else
enum { IS_DIVIDED_EARLY = false };
#endif

FORKS

enum { MOST_WORKERS = 300, ARRIVE = 40, SHARED_KEYS = 100, KEPT = 40, PAIRS = 1000, PUBLISHED = 2000, OWN = 100000 };

static double seconds = 0.35;

/* ---- what the tests share ------------------------------------------------------------------ */

static uint64_t random_from(uint64_t *state)
{
    uint64_t mixed = *state += UINT64_C(0x9e3779b97f4a7c15);
    mixed = (mixed ^ mixed >> 30) * UINT64_C(0xbf58476d1ce4e5b9);
    return mixed ^ mixed >> 31;
}

static double time_of(clockid_t clock)
{
    struct timespec at;
    EXPECT(clock_gettime(clock, &at) == 0);
    return (double)at.tv_sec + (double)at.tv_nsec * 1e-9;
}

static double now(void) { return time_of(CLOCK_MONOTONIC); }

static double ends_at;
static void begin_clock(void) { ends_at = now() + seconds; }
static bool goes_on(void) { return now() < ends_at; }

static samvolip_map *open_map(uint64_t room, uint32_t threads, uint32_t keys)
{
    const samvolip_map_options options = {.room = room, .growth = 2, .threads = threads, .keys = keys};
    samvolip_map *map;
    EXPECT(samvolip_map_open(&options, &map) == SAMVOLIP_OK);
    return map;
}

static samvolip_map_figures figures_of(samvolip_map *map)
{
    samvolip_map_figures figures;
    EXPECT(samvolip_map_look(map, &figures) == SAMVOLIP_OK);
    return figures;
}

static uint64_t size_of(samvolip_map *map)
{
    uint64_t size = 99;
    EXPECT(samvolip_map_size(map, &size) == SAMVOLIP_OK);
    return size;
}

struct worker;
typedef void work(struct worker *worker);

struct worker {
    samvolip_map *map;
    work *work;
    unsigned number;
    uint64_t state, turn, added, removed, calls;
    pthread_t thread;
};

static struct worker workers[MOST_WORKERS];

static void *begin_thread(void *given)
{
    struct worker *worker = given;
    worker->work(worker);
    return NULL;
}

static void begin_work(samvolip_map *map, unsigned count, work *work)
{
    for (unsigned i = 0; i < count; i++) {
        workers[i] = (struct worker){.map = map, .work = work, .number = i, .state = i};
        EXPECT(pthread_create(&workers[i].thread, NULL, begin_thread, &workers[i]) == 0);
    }
}

static void end_work(unsigned count)
{
    for (unsigned i = 0; i < count; i++)
        EXPECT(pthread_join(workers[i].thread, NULL) == 0);
}

static void begin_handling(void (*handler)(int))
{
    const struct sigaction action = {.sa_handler = handler, .sa_flags = SA_RESTART | SA_NODEFER};
    EXPECT(sigaction(SIGUSR1, &action, NULL) == 0);
}

/* Lets others go on while its thread is held up, wherever it is. */
static void hold_up(int signal)
{
    const int saved = errno;
    (void)signal;
    for (const double until = now() + 20e-6; now() < until;)
        sched_yield();
    errno = saved;
}

/* Until the time is over, holds threads up in the middle of what they do, the first one most often. */
static void *hold_workers_up(void *given)
{
    const unsigned count = *(const unsigned *)given;
    for (uint64_t state = count; goes_on(); usleep(50)) {
        const uint64_t choice = random_from(&state);
        EXPECT(pthread_kill(workers[choice % 2 ? choice / 2 % count : 0].thread, SIGUSR1) == 0);
    }
    return NULL;
}

static void work_by_the_clock(samvolip_map *map, unsigned count, work *work)
{
    begin_handling(hold_up);
    begin_clock();
    begin_work(map, count, work);
    hold_workers_up(&count);
    end_work(count);
}

/* Tells how many calls and renewals there were, if one test was asked for. */
static bool is_told;
static void tell(const char *name, samvolip_map *map, unsigned count)
{
    uint64_t calls = 0;
    for (unsigned i = 0; i < count; i++)
        calls += workers[i].calls;
    samvolip_map_figures figures = figures_of(map);
    if (is_told)
        printf("%s: %llu calls, %llu renewals, %llu keys, longest stops %.2f ms and of reads %.2f ms\n", name, (unsigned long long)calls,
               (unsigned long long)figures.renewals, (unsigned long long)figures.keys, (double)figures.write_stop / 1e6,
               (double)figures.read_stop / 1e6);
    EXPECT(figures.refused == 0);
}

static int by_key(const void *one, const void *other)
{
    uint64_t a = ((const samvolip_entry *)one)->key, b = ((const samvolip_entry *)other)->key;
    return a < b ? -1 : a > b;
}

/* All entries in order. Others may write meanwhile. */
static samvolip_entry *entries_of(samvolip_map *map, size_t *count)
{
    samvolip_entry *entries = NULL;
    size_t room = 1;
    int code;
    do {
        free(entries);
        entries = malloc(room * sizeof *entries);
        EXPECT(entries != NULL);
        code = samvolip_map_snapshot(map, entries, room, count);
        EXPECT(code == (*count <= room ? SAMVOLIP_OK : SAMVOLIP_E_ROOM));
        room = *count + *count / 4 + 1;
    } while (code < 0);
    qsort(entries, *count, sizeof *entries, by_key);
    for (size_t i = 1; i < *count; i++)
        EXPECT(entries[i - 1].key < entries[i].key);
    return entries;
}

/* The rest of a walk in order, into an array that has room for it. */
static size_t walked(samvolip_map_walk *walk, samvolip_entry *entries, size_t room)
{
    size_t count = 0;
    uint64_t key, number;
    int code;
    while ((code = samvolip_map_walk_next(walk, &key, &number)) == SAMVOLIP_PRESENT) {
        EXPECT(count < room);
        entries[count++] = (samvolip_entry){key, number};
    }
    EXPECT(code == SAMVOLIP_ABSENT && samvolip_map_walk_next(walk, &key, &number) == SAMVOLIP_ABSENT);
    qsort(entries, count, sizeof *entries, by_key);
    return count;
}

/* The same of a map at rest. A snapshot, a walk and both sizes agree. */
static samvolip_entry *entries_at_rest(samvolip_map *map, size_t *count)
{
    samvolip_entry *entries = entries_of(map, count), *shown = malloc((*count + 1) * sizeof *shown);
    samvolip_map_walk *walk;
    uint64_t estimate;
    EXPECT(shown != NULL);
    EXPECT(samvolip_map_walk_begin(map, &walk) == SAMVOLIP_OK);
    EXPECT(walked(walk, shown, *count) == *count && (*count == 0 || memcmp(shown, entries, *count * sizeof *shown) == 0));
    samvolip_map_walk_end(walk);
    free(shown);
    EXPECT(size_of(map) == *count && samvolip_map_size_estimate(map, &estimate) == SAMVOLIP_OK && estimate == *count);
    return entries;
}

/* ---- one thread, and a plain list of numbers ----------------------------------------------- */

enum { MODEL_KEYS = 4000 };

struct model {
    bool had[MODEL_KEYS];
    uint64_t number[MODEL_KEYS];
};

static struct model model;

/* The least and the greatest key, the two that samvolip_mix takes past the greatest, and keys that share their low bits. */
static uint64_t model_key(size_t i)
{
    const uint64_t first[] = {0, SAMVOLIP_KEY_MAX, UINT64_C(1504646209777642070), UINT64_C(5863696168926310861)};
    return i < 4 ? first[i] : i % 2 ? i : (uint64_t)i << 32;
}

static void set(size_t i, bool has, uint64_t number)
{
    model.had[i] = has;
    model.number[i] = has ? number : 0;
}

/* Gives what it is told to, and sees that it was called with what there is. */
struct update {
    bool had;
    uint64_t number, next;
    int stays;
};

static int model_updater(void *context, const uint64_t *found, uint64_t *next)
{
    const struct update *update = context;
    EXPECT((found != NULL) == update->had && (!found || *found == update->number));
    *next = update->next;
    return update->stays;
}

/* Writes that ask nothing of what is there. */
static void write_one(samvolip_map *map, size_t i, uint64_t choice, uint64_t number)
{
    const uint64_t key = model_key(i), there = model.number[i], with = number % 3 ? 0 : 99;
    const bool had = model.had[i];
    uint64_t before = 99, *to = with ? NULL : &before, says = there;
    int code, is = had;
    switch (choice % 7) {
    case 0: code = samvolip_map_put(map, key, number, to), set(i, true, number); break;
    case 1: code = samvolip_map_put_if_absent(map, key, number, to), set(i, true, had ? there : number); break;
    case 2: code = samvolip_map_get_or_insert(map, key, number, to), set(i, true, had ? there : number), says = had ? there : number; break;
    case 3: code = samvolip_map_fetch_max(map, key, number, to), set(i, true, had && there > number ? there : number); break;
    case 4: code = samvolip_map_fetch_min(map, key, number, to), set(i, true, had && there < number ? there : number); break;
    case 5: code = samvolip_map_remove(map, key, to), set(i, false, 0); break;
    default:
        code = samvolip_map_add(map, key, number, to);
        if (there + number <= SAMVOLIP_VALUE_MAX)
            set(i, true, there + number);
        else
            is = SAMVOLIP_E_SUM_RANGE, says = 99;
    }
    EXPECT(code == is && (with || before == says));
}

/* Writes that ask for something, and reads. */
static void ask_one(samvolip_map *map, size_t i, uint64_t choice, uint64_t number)
{
    const uint64_t key = model_key(i), there = model.number[i], old = choice / 16 % 2 ? there : number;
    const bool had = model.had[i], is_old = had && old == there, comes = choice / 32 % 2, expects = choice / 64 % 2;
    struct update update = {had, there, number, (int)(choice / 16 % 3) - 1};
    samvolip_reply reply = {99, 99, 99};
    uint64_t before = 99;
    switch (choice % 7) {
    case 0: EXPECT(samvolip_map_get(map, key, &before) == had && before == there); break;
    case 1: EXPECT(samvolip_map_contains(map, key) == had); break;
    case 2:
        EXPECT(samvolip_map_replace(map, key, number, &before) == had && before == there);
        set(i, had, number);
        break;
    case 3:
        EXPECT(samvolip_map_replace_if(map, key, old, number) == is_old);
        set(i, had, is_old ? number : there);
        break;
    case 4:
        EXPECT(samvolip_map_remove_if(map, key, old) == is_old);
        set(i, had && !is_old, there);
        break;
    case 5:
        EXPECT(samvolip_map_compare_exchange(map, key, expects ? &old : NULL, comes ? &number : NULL, &reply) == SAMVOLIP_OK);
        EXPECT(reply.before == there && reply.had == had && reply.matched == (expects ? is_old : !had));
        set(i, reply.matched ? comes : had, reply.matched ? number : there);
        break;
    default:
        EXPECT(samvolip_map_update(map, key, model_updater, &update, &before) == (update.stays < 0 ? -1 : (int)had));
        EXPECT(before == (update.stays < 0 ? 99 : there));
        set(i, update.stays < 0 ? had : update.stays > 0, update.stays < 0 ? there : number);
    }
}

/* The map has just what the model has. */
static void compare_with_model(samvolip_map *map)
{
    size_t count, left = 0;
    samvolip_entry *entries = entries_at_rest(map, &count);
    for (size_t i = 0; i < MODEL_KEYS; i++) {
        const samvolip_entry asked = {model_key(i), 0};
        const samvolip_entry *found = count ? bsearch(&asked, entries, count, sizeof *entries, by_key) : NULL;
        EXPECT((found != NULL) == model.had[i] && (!found || found->number == model.number[i]));
        left += model.had[i];
    }
    EXPECT(left == count);
    free(entries);
}

/* All keys go; each is shown once with its number, by a map that is empty and may be called. */
struct clearing {
    samvolip_map *map;
    size_t shown;
};

static void see_cleared(void *context, uint64_t key, uint64_t number)
{
    struct clearing *clearing = context;
    size_t i = key % 2 && key < MODEL_KEYS ? key : key >> 32;
    for (size_t first = 0; first < 4; first++)
        i = key == model_key(first) ? first : i;
    EXPECT(model.had[i] && model.number[i] == number && samvolip_map_contains(clearing->map, key) == 0);
    set(i, false, 0);
    clearing->shown++;
}

static void clear_model(samvolip_map *map)
{
    struct clearing clearing = {map, 0};
    uint64_t size = size_of(map);
    EXPECT(samvolip_map_clear(map, see_cleared, &clearing) == SAMVOLIP_OK);
    EXPECT(clearing.shown == size && size_of(map) == 0);
}

/* Each call replies what the model says, through many renewals, larger and smaller, and with each kind of keys. */
static void each_call_replies_as_a_plain_list_does(void)
{
    for (uint32_t keys = SAMVOLIP_KEYS_SECRET; keys <= SAMVOLIP_KEYS_AS_THEY_ARE; keys++) {
        samvolip_map *map = open_map(1, 2, keys);
        uint64_t state = keys;
        memset(&model, 0, sizeof model);
        for (uint64_t turn = 0; turn < 20000; turn++) {
            const uint64_t choice = random_from(&state), large = choice % 8 ? choice % 4 : SAMVOLIP_VALUE_MAX - choice / 8 % 2;
            const size_t i = choice / 64 % 16 ? (turn / 16 + random_from(&state) % 200) % MODEL_KEYS : choice / 1024 % 4;
            const bool shrinks = turn / 2500 % 2 && choice / 8 % 2;
            if (shrinks)
                write_one(map, random_from(&state) % MODEL_KEYS, 5, 1);
            else
                (choice / 16 % 2 ? write_one : ask_one)(map, i, choice >> 32, large);
            if (turn % 1000 == 999)
                compare_with_model(map);
            if (turn % 700 == 699)
                EXPECT(samvolip_map_renew(map, choice >> 32 & 1023) == SAMVOLIP_OK);
            if (turn % 7000 == 6999)
                clear_model(map);
        }
        EXPECT(figures_of(map).renewals > 30);
        tell("replies", map, 0);
        EXPECT(samvolip_map_clear(map, NULL, NULL) == SAMVOLIP_OK && size_of(map) == 0);
        samvolip_map_free(map);
    }
}

/* ---- what is refused ----------------------------------------------------------------------- */

static int no_updater(void *context, const uint64_t *found, uint64_t *next)
{
    (void)found;
    *next = SAMVOLIP_VALUE_MAX + 1;
    return *(const int *)context;
}

/* Each call with this key and this number is refused with this code, and leaves what it would write to. */
static void all_refuse(samvolip_map *map, uint64_t key, uint64_t number, int is)
{
    const uint64_t one = 1;
    uint64_t left = 99;
    samvolip_reply reply = {99, 99, 99};
    int stays = 1;
    EXPECT(samvolip_map_put(map, key, number, &left) == is && samvolip_map_put_if_absent(map, key, number, &left) == is);
    EXPECT(samvolip_map_get_or_insert(map, key, number, &left) == is && samvolip_map_add(map, key, number, &left) == is);
    EXPECT(samvolip_map_fetch_max(map, key, number, &left) == is && samvolip_map_fetch_min(map, key, number, &left) == is);
    EXPECT(samvolip_map_replace(map, key, number, &left) == is && samvolip_map_replace_if(map, key, 1, number) == is);
    EXPECT(samvolip_map_replace_if(map, key, number, 1) == is && samvolip_map_remove_if(map, key, number) == is);
    EXPECT(samvolip_map_compare_exchange(map, key, &number, &one, &reply) == is);
    EXPECT(samvolip_map_compare_exchange(map, key, &one, &number, &reply) == is);
    EXPECT(samvolip_map_compare_exchange(map, key, NULL, &number, &reply) == is);
    EXPECT(samvolip_map_update(map, key, no_updater, &stays, &left) == is);
    EXPECT(samvolip_map_put(map, key, number, NULL) == is && left == 99 && reply.before == 99 && reply.had == 99 && reply.matched == 99);
}

static void keys_and_numbers_out_of_range_are_refused(void)
{
    for (uint32_t keys = SAMVOLIP_KEYS_SECRET; keys <= SAMVOLIP_KEYS_AS_THEY_ARE; keys++) {
        samvolip_map *map = open_map(1, 1, keys);
        uint64_t left = 99;
        int gives_up = -77;
        for (uint64_t key = SAMVOLIP_KEY_MAX; ++key != 0;) {
            all_refuse(map, key, 1, SAMVOLIP_E_KEY_RANGE);
            EXPECT(samvolip_map_get(map, key, &left) == SAMVOLIP_E_KEY_RANGE && samvolip_map_contains(map, key) == SAMVOLIP_E_KEY_RANGE);
            EXPECT(samvolip_map_remove(map, key, &left) == SAMVOLIP_E_KEY_RANGE && left == 99);
        }
        EXPECT(samvolip_map_put(map, 5, 1, NULL) == SAMVOLIP_ABSENT);
        for (uint64_t key = 5; key < 7; key++) {
            all_refuse(map, key, SAMVOLIP_VALUE_MAX + 1, SAMVOLIP_E_VALUE_RANGE);
            all_refuse(map, key, UINT64_MAX, SAMVOLIP_E_VALUE_RANGE);
            EXPECT(samvolip_map_update(map, key, no_updater, &gives_up, &left) == -77 && left == 99);
        }
        EXPECT(samvolip_map_add(map, 5, SAMVOLIP_VALUE_MAX, &left) == SAMVOLIP_E_SUM_RANGE && left == 99);
        EXPECT(samvolip_map_add(map, 5, SAMVOLIP_VALUE_MAX - 1, NULL) == SAMVOLIP_PRESENT);
        EXPECT(samvolip_map_get(map, 5, &left) == SAMVOLIP_PRESENT && left == SAMVOLIP_VALUE_MAX && size_of(map) == 1);
        samvolip_map_free(map);
    }
}

static void options_and_versions_out_of_range_are_refused(void)
{
    const samvolip_map_options wrong[] = {{.growth = 1}, {.growth = 65}, {.growth = UINT32_MAX}, {.threads = SAMVOLIP_MAP_MOST_THREADS + 1},
                                          {.threads = UINT32_MAX}, {.keys = SAMVOLIP_KEYS_AS_THEY_ARE + 1}, {.keys = UINT32_MAX},
                                          {.room = SAMVOLIP_MOST_KEYS + 1}, {.room = UINT64_MAX}, {.memory = 65535}};
    const samvolip_map_options right[] = {SAMVOLIP_MAP_OPTIONS_INIT, {.growth = 2}, {.growth = 64}, {.threads = 1}, {.room = 1},
                                          {.threads = SAMVOLIP_MAP_MOST_THREADS}, {.keys = SAMVOLIP_KEYS_AS_THEY_ARE}};
    samvolip_map *map = NULL, *left = NULL;
    uint32_t versions[] = {0, SAMVOLIP_VERSION + 1, SAMVOLIP_VERSION + 0x100, SAMVOLIP_VERSION - 0x100, UINT32_MAX};
    const char *const names[] = {"growth:", "growth:", "growth:", "threads:", "threads:", "keys:", "keys:", "room:", "room:", "memory:"};
    for (size_t i = 0; i < sizeof wrong / sizeof *wrong; i++) {
        EXPECT(samvolip_map_open(&wrong[i], &map) == SAMVOLIP_E_OPTIONS && map == left);
        EXPECT(strncmp(samvolip_map_wrong_option(&wrong[i]), names[i], strlen(names[i])) == 0);
    }
    EXPECT(samvolip_map_wrong_option(NULL) == NULL);
    for (size_t i = 0; i < sizeof versions / sizeof *versions; i++)
        EXPECT(samvolip_map_open_with(versions[i], sizeof *wrong, sizeof(samvolip_map_figures), NULL, &map) == SAMVOLIP_E_VERSION);
    EXPECT(samvolip_map_open_with(SAMVOLIP_VERSION, sizeof *wrong - 8, sizeof(samvolip_map_figures), NULL, &map) == SAMVOLIP_E_VERSION);
    EXPECT(samvolip_map_open_with(SAMVOLIP_VERSION, sizeof *wrong, sizeof(samvolip_map_figures) + 8, NULL, &map) == SAMVOLIP_E_VERSION);
    EXPECT(map == left);
    for (size_t i = 0; i < sizeof right / sizeof *right; i++) {
        EXPECT(samvolip_map_open(&right[i], &map) == SAMVOLIP_OK && samvolip_map_put(map, i, i, NULL) == SAMVOLIP_ABSENT);
        EXPECT(size_of(map) == 1);
        samvolip_map_free(map);
    }
    EXPECT(samvolip_map_open(NULL, &map) == SAMVOLIP_OK && figures_of(map).slots >= 1500);
    samvolip_map_free(map);
    samvolip_map_free(NULL);
    for (int code = SAMVOLIP_E_MAY_SCAN; code < 0; code++)
        EXPECT(strcmp(samvolip_map_strerror(code), "no such code") != 0);
    EXPECT(strcmp(samvolip_map_strerror(SAMVOLIP_E_MAY_SCAN - 1), "no such code") == 0);
}

static void an_array_that_is_too_small_stays_as_it_was(void)
{
    samvolip_map *map = open_map(1, 1, 0);
    samvolip_entry entries[100] = {{99, 99}};
    size_t count = 99;
    EXPECT(samvolip_map_snapshot(map, entries, 0, &count) == SAMVOLIP_OK && count == 0);
    for (uint64_t key = 0; key < 100; key++)
        EXPECT(samvolip_map_put(map, key, key, NULL) == SAMVOLIP_ABSENT);
    EXPECT(samvolip_map_snapshot(map, entries, 99, &count) == SAMVOLIP_E_ROOM && count == 100 && entries[0].key == 99);
    EXPECT(samvolip_map_snapshot(map, entries, 0, &count) == SAMVOLIP_E_ROOM && count == 100 && entries[0].key == 99);
    EXPECT(samvolip_map_snapshot(map, entries, 100, &count) == SAMVOLIP_OK && count == 100);
    samvolip_map_free(map);
}

/* ---- size ---------------------------------------------------------------------------------- */

static void a_renewal_by_hand_makes_room(void)
{
    samvolip_map *map = open_map(1000, 1, 0);
    const uint64_t rooms[] = {100000, 1, 0, 3000, 20000, 5};
    uint64_t number;
    for (uint64_t key = 0; key < 2500; key++)
        EXPECT(samvolip_map_put(map, key, key + 1, NULL) == SAMVOLIP_ABSENT);
    for (size_t i = 0; i < sizeof rooms / sizeof *rooms; i++) {
        const uint64_t asked = rooms[i] ? rooms[i] : 5000, keys = asked > 2500 ? asked : 2500;
        const samvolip_map_figures was = figures_of(map);
        EXPECT(samvolip_map_renew(map, rooms[i]) == SAMVOLIP_OK);
        const samvolip_map_figures is = figures_of(map);
        EXPECT(is.renewals == was.renewals + 1 && is.slots >= keys + keys / 2 && is.slots <= 3 * keys && is.keys == 2500);
        for (uint64_t key = 0; key < 2500; key++)
            EXPECT(samvolip_map_get(map, key, &number) == SAMVOLIP_PRESENT && number == key + 1);
    }
    samvolip_map_free(map);
}

/* It is made with any number of keys. */
static void a_renewal_by_hand_is_made(void)
{
    samvolip_map *map = open_map(1, 1, 0);
    for (uint64_t key = 0; key < 300; key++) {
        EXPECT(samvolip_map_renew(map, 1) == SAMVOLIP_OK && samvolip_map_renew(map, 0) == SAMVOLIP_OK);
        EXPECT(samvolip_map_put(map, key, key, NULL) == SAMVOLIP_ABSENT);
    }
    EXPECT(size_of(map) == 300 && figures_of(map).refused == 0);
    samvolip_map_free(map);
}

/* A renewal for more keys than there can be is refused, and changes nothing. */
static void a_renewal_for_too_many_keys_is_refused(void)
{
    samvolip_map *map = open_map(1000, 1, 0);
    const uint64_t rooms[] = {UINT64_C(1) << 40, UINT64_MAX / 3 * 2 + 1, UINT64_MAX};
    EXPECT(samvolip_map_put(map, 7, 7, NULL) == SAMVOLIP_ABSENT);
    for (size_t i = 0; i < sizeof rooms / sizeof *rooms; i++)
        EXPECT(samvolip_map_renew(map, rooms[i]) == SAMVOLIP_E_OUT_OF_MEMORY && figures_of(map).slots == 2048);
    EXPECT(samvolip_map_contains(map, 7) == 1);
    samvolip_map_free(map);
}

/* One thread's map is renewed when about two thirds are taken, also after a clear, and shrinks when its keys go. */
static void a_map_is_as_large_as_its_keys_ask(void)
{
    samvolip_map *map = open_map(1000, 1, 0);
    for (int turn = 0; turn < 3; turn++) {
        const uint64_t most = turn == 1 ? 1000 : 100000;
        for (uint64_t key = 0; key < most; key++) {
            EXPECT(samvolip_map_put(map, key, key, NULL) == SAMVOLIP_ABSENT);
            if (key % 64 == 0)
                EXPECT(4 * key <= 3 * figures_of(map).slots + 100);
        }
        EXPECT(figures_of(map).slots < 8 * most);
        if (turn == 2)
            for (uint64_t key = 10; key < most; key++)
                EXPECT(samvolip_map_remove(map, key, NULL) == SAMVOLIP_PRESENT);
        else
            EXPECT(samvolip_map_clear(map, NULL, NULL) == SAMVOLIP_OK && figures_of(map).slots == 2048);
    }
    EXPECT(size_of(map) == 10 && figures_of(map).slots <= 4096);
    for (uint64_t key = 10; key < 100000; key++) {
        EXPECT(samvolip_map_put(map, key, key, NULL) == SAMVOLIP_ABSENT);
        EXPECT(samvolip_map_remove(map, key, NULL) == SAMVOLIP_PRESENT);
    }
    EXPECT(figures_of(map).slots == 2048);
    samvolip_map_free(map);
}

/* From 2,000 keys on, and where it comes to be in parts, it makes more room than the options say, and by hand it doesn't. */
static void a_map_of_few_keys_grows_faster(void)
{
    samvolip_map *map = open_map(1000, 1, 0);
    samvolip_map *more = NULL;
    const samvolip_map_options options = SAMVOLIP_MAP_OPTIONS_INIT;
    EXPECT(samvolip_map_open(&options, &more) == SAMVOLIP_OK);
    for (uint64_t key = 0; key < 1500; key++)
        EXPECT(samvolip_map_put(map, key, 0, NULL) == SAMVOLIP_ABSENT && samvolip_map_put(more, key, 0, NULL) == SAMVOLIP_ABSENT);
    EXPECT(IS_DIVIDED_EARLY || (figures_of(map).slots == 4096 && figures_of(more).slots == 8192)); /* parts grow one by one */
    for (uint64_t key = 1500; key < 6000; key++)
        EXPECT(samvolip_map_put(map, key, 0, NULL) == SAMVOLIP_ABSENT && samvolip_map_put(more, key, 0, NULL) == SAMVOLIP_ABSENT);
    EXPECT(IS_DIVIDED_EARLY || (figures_of(map).slots == 16384 && figures_of(more).slots == 65536));
    EXPECT(samvolip_map_renew(map, 0) == SAMVOLIP_OK && samvolip_map_renew(more, 0) == SAMVOLIP_OK);
    EXPECT(figures_of(map).slots == 16384 && figures_of(more).slots == 32768);
    EXPECT(samvolip_map_renew(more, 40000) == SAMVOLIP_OK && figures_of(more).slots == 65536);
    for (uint64_t key = 6000; key < 50000; key++) {
        EXPECT(samvolip_map_put(more, key, 0, NULL) == SAMVOLIP_ABSENT);
        EXPECT(IS_DIVIDED_EARLY || key != 40000 || figures_of(more).slots == 65536);
    }
    EXPECT(IS_DIVIDED_EARLY || figures_of(more).slots == 524288);
    samvolip_map_free(map);
    samvolip_map_free(more);
}

/* ---- sums ---------------------------------------------------------------------------------- */

static uint64_t own_key(const struct worker *worker, uint64_t turn) { return OWN + turn * MOST_WORKERS + worker->number; }

/* Adds to keys of all, and removes some, which is told. Puts ever new keys of its own, and removes each some turns later. */
static void churn(struct worker *worker)
{
    samvolip_map *map = worker->map;
    const uint64_t choice = random_from(&worker->state), turn = worker->turn++, left = turn - KEPT;
    uint64_t before = 99, number = 99;
    EXPECT(samvolip_map_add(map, choice % SHARED_KEYS, 1 + choice / 128 % 3, &before) >= 0);
    worker->added += 1 + choice / 128 % 3;
    if (choice / 1024 % 4 == 0 && samvolip_map_remove(map, choice / 4096 % SHARED_KEYS, &number) == SAMVOLIP_PRESENT)
        worker->removed += number;
    EXPECT(samvolip_map_put(map, own_key(worker, turn), turn, &before) == SAMVOLIP_ABSENT && before == 0);
    if (turn >= KEPT) {
        const uint64_t kept = turn - choice / 65536 % KEPT;
        EXPECT(samvolip_map_get(map, own_key(worker, kept), &number) == SAMVOLIP_PRESENT && number == kept);
        EXPECT(samvolip_map_remove(map, own_key(worker, left), &before) == SAMVOLIP_PRESENT && before == left);
        EXPECT(samvolip_map_contains(map, own_key(worker, left - choice % KEPT % (left + 1))) == 0);
    }
    worker->calls += 5;
}

static void churn_by_the_clock(struct worker *worker)
{
    while (goes_on() || worker->turn < 20)
        for (unsigned i = 0; i < 20; i++)
            churn(worker);
}

/* After churns: each worker has its last keys, and what was added to the keys of all is there or was removed. */
static void all_is_there(samvolip_map *map, unsigned count, uint64_t more)
{
    uint64_t added = more, sum = 0, own = 0, number;
    for (unsigned i = 0; i < count; i++) {
        const struct worker *worker = &workers[i];
        const uint64_t first = worker->turn > KEPT ? worker->turn - KEPT : 0;
        added += worker->added - worker->removed;
        for (uint64_t turn = first; turn < worker->turn; turn++)
            EXPECT(samvolip_map_get(map, own_key(worker, turn), &number) == SAMVOLIP_PRESENT && number == turn);
        own += worker->turn - first;
    }
    size_t all;
    samvolip_entry *entries = entries_at_rest(map, &all);
    for (size_t i = 0; i < all; i++)
        if (entries[i].key < SHARED_KEYS)
            sum += entries[i].number;
        else
            own -= entries[i].key >= OWN;
    EXPECT(sum == added && own == 0);
    free(entries);
}

static void what_four_threads_add_is_there_or_was_removed(void)
{
    for (uint32_t keys = SAMVOLIP_KEYS_SECRET; keys <= SAMVOLIP_KEYS_AS_THEY_ARE; keys += 2) {
        samvolip_map *map = open_map(1, 8, keys);
        work_by_the_clock(map, 4, churn_by_the_clock);
        all_is_there(map, 4, 0);
        EXPECT(figures_of(map).renewals > 0);
        tell("sums", map, 4);
        samvolip_map_free(map);
    }
}

static void many_threads_share_few_seats(void)
{
    const uint32_t seats[] = {4, 64, SAMVOLIP_MAP_MOST_THREADS, 1};
    for (int i = 0; i < 4; i++) {
        samvolip_map *map = open_map(1, seats[i], 0);
        const unsigned count = i == 3 ? 12 : MOST_WORKERS;
        work_by_the_clock(map, count, churn_by_the_clock);
        all_is_there(map, count, 0);
        EXPECT(figures_of(map).own_threads == 1);
        tell("many threads", map, count);
        samvolip_map_free(map);
    }
}

/* ---- threads that come and go -------------------------------------------------------------- */

/* What a thread calls when it has given its seat back, since it ends. */
static pthread_key_t late;
static void churn_late(void *given) { churn(given); }

static void *churn_a_little(void *given)
{
    struct worker *worker = given;
    for (unsigned i = 0; i < 20; i++)
        churn(worker);
    if (worker->turn % 3 == 0)
        samvolip_map_leave(worker->map);
    if (worker->turn % 2 == 0)
        churn(worker);
    EXPECT(pthread_setspecific(late, worker->turn % 5 == 0 ? worker : NULL) == 0);
    return NULL;
}

static void send_threads(struct worker *worker)
{
    while (goes_on() || worker->turn < 100) {
        pthread_t thread;
        EXPECT(pthread_create(&thread, NULL, churn_a_little, worker) == 0 && pthread_join(thread, NULL) == 0);
    }
}

static void seats_go_from_thread_to_thread(void)
{
    samvolip_map *map = open_map(1, 3, 0);
    EXPECT(pthread_key_create(&late, churn_late) == 0);
    work_by_the_clock(map, 6, send_threads);
    all_is_there(map, 6, 0);
    EXPECT(figures_of(map).own_threads == 1);
    samvolip_map_leave(map);
    tell("threads that come and go", map, 6);
    EXPECT(pthread_key_delete(late) == 0);
    samvolip_map_free(map);
}

/* The first thread renews, while the others come one after another, and stay until all are there. */
static atomic_uint ready;
static void renew_or_arrive(struct worker *worker)
{
    if (worker->number > 0)
        ready++;
    while (ready < ARRIVE - 1)
        if (worker->number == 0)
            EXPECT(samvolip_map_renew(worker->map, 0) == SAMVOLIP_OK);
        else
            churn(worker);
}

static void threads_arrive_during_renewals(void)
{
    for (begin_clock(); goes_on();) {
        samvolip_map *map = open_map(1, ARRIVE, 0);
        ready = 0;
        begin_work(map, ARRIVE, renew_or_arrive);
        end_work(ARRIVE);
        all_is_there(map, ARRIVE, 0);
        samvolip_map_free(map);
    }
}

/* Threads do what they are told one after another. */
static pthread_barrier_t turns;
static void look_in_turn(struct worker *worker)
{
    for (unsigned i = 0; i < 5; i++) {
        pthread_barrier_wait(&turns);
        if (i == worker->number)
            worker->added = figures_of(worker->map).own_threads;
        if (i == 3 && worker->number == 0)
            samvolip_map_leave(worker->map);
        if (i == 4 && worker->number == 2)
            worker->removed = figures_of(worker->map).own_threads;
        pthread_barrier_wait(&turns);
    }
}

/* Of three threads two have a seat; the third gets that of the first, which leaves. */
static void a_seat_that_is_left_is_taken(void)
{
    samvolip_map *map = open_map(1, 2, 0);
    for (int turn = 0; turn < 3; turn++) {
        EXPECT(figures_of(map).own_threads == 1);
        samvolip_map_leave(map);
    }
    EXPECT(pthread_barrier_init(&turns, NULL, 3) == 0);
    begin_work(map, 3, look_in_turn);
    end_work(3);
    EXPECT(workers[0].added == 1 && workers[1].added == 2 && workers[2].added == 2 && workers[2].removed == 2);
    EXPECT(figures_of(map).own_threads == 1);
    samvolip_map_leave(map);
    EXPECT(pthread_barrier_destroy(&turns) == 0);
    samvolip_map_free(map);
}

/* ---- the order of time --------------------------------------------------------------------- */

enum { WRITTEN = 16 };

/* A number is stored before it is put as begun, and afterwards as published. */
static atomic_ullong begun[WRITTEN], published[WRITTEN];

/* The one writer of a key writes the next number. */
static void write_next(samvolip_map *map, uint64_t i, uint64_t choice)
{
    const uint64_t key = PUBLISHED + i, was = atomic_load(&published[i]), next = was + 1;
    samvolip_reply reply = {was, 1, 1};
    uint64_t before = was;
    int code = SAMVOLIP_PRESENT;
    atomic_store(&begun[i], next);
    switch (choice % 6) {
    case 0: code = samvolip_map_put(map, key, next, &before); break;
    case 1: code = samvolip_map_add(map, key, 1, &before); break;
    case 2: code = samvolip_map_fetch_max(map, key, next, &before); break;
    case 3: code = samvolip_map_replace(map, key, next, &before); break;
    case 4: code = samvolip_map_replace_if(map, key, was, next); break;
    default: EXPECT(samvolip_map_compare_exchange(map, key, &was, &next, &reply) == SAMVOLIP_OK);
    }
    EXPECT(code == SAMVOLIP_PRESENT && before == was && reply.before == was && reply.had && reply.matched);
    atomic_store(&published[i], next);
}

/* The first two threads write half of the keys each, and new keys of their own; the others read. */
static void write_or_read(struct worker *worker)
{
    uint64_t seen[WRITTEN] = {0}, number = 0;
    while (goes_on()) {
        const uint64_t choice = random_from(&worker->state), i = choice / 8 % WRITTEN;
        worker->calls++;
        if (worker->number < 2) {
            write_next(worker->map, i / 2 * 2 + worker->number, choice >> 32);
            churn(worker);
            continue;
        }
        const uint64_t least = atomic_load(&published[i]);
        EXPECT(samvolip_map_get(worker->map, PUBLISHED + i, &number) == SAMVOLIP_PRESENT);
        EXPECT(number >= least && number >= seen[i] && number <= atomic_load(&begun[i]));
        seen[i] = number;
        if (choice % 4096 == 0)
            EXPECT(samvolip_map_renew(worker->map, choice >> 48) == SAMVOLIP_OK);
    }
}

static void no_reader_sees_what_was_before(void)
{
    const uint32_t seats[] = {8, 1};
    for (int round = 0; round < 2; round++) {
        samvolip_map *map = open_map(1, seats[round], 0);
        for (uint64_t i = 0; i < WRITTEN; i++) {
            atomic_store(&begun[i], 0), atomic_store(&published[i], 0);
            EXPECT(samvolip_map_put(map, PUBLISHED + i, 0, NULL) == SAMVOLIP_ABSENT);
        }
        work_by_the_clock(map, 5, write_or_read);
        all_is_there(map, 2, 0);
        tell("the order of time", map, 5);
        samvolip_map_free(map);
    }
}

/* For how long the thread that renews a map worked at most between two reads, by its own clock. */
static atomic_bool is_renewing;
static clockid_t renewing;
static _Atomic double longest;
static void read_meanwhile(struct worker *worker)
{
    for (double last = time_of(renewing), next; is_renewing; last = next) {
        EXPECT(samvolip_map_contains(worker->map, 7) == 1);
        next = time_of(renewing);
        longest = next - last > longest ? next - last : longest;
        ready = 1;
    }
}

/* The copy is most of a renewal, and one thread makes it alone: the reader has no seat to help by. It may be that the system gives the
   reader no processor meanwhile, but not each time. */
static void reads_go_on_during_a_renewal(void)
{
    samvolip_map *map = open_map(300000, 1, 0);
    bool went_on = false;
    EXPECT(pthread_getcpuclockid(pthread_self(), &renewing) == 0);
    for (uint64_t key = 0; key < 300000; key++)
        EXPECT(samvolip_map_put(map, key, key, NULL) == SAMVOLIP_ABSENT);
    for (int turn = 0; turn < 20 && !went_on; turn++) {
        longest = 0;
        ready = 0;
        is_renewing = true;
        begin_work(map, 1, read_meanwhile);
        while (!ready)
            sched_yield();
        const double begun_at = time_of(renewing);
        EXPECT(samvolip_map_renew(map, 0) == SAMVOLIP_OK);
        const double took = time_of(renewing) - begun_at;
        is_renewing = false;
        end_work(1);
        went_on = longest < took / 4;
    }
    EXPECT(went_on);
    samvolip_map_free(map);
}

/* ---- one moment ---------------------------------------------------------------------------- */

enum { PAIR_WORKERS = 8, BASE = 1000 };

/* Adds to a key and then to its pair, so that at each moment the two are at most one apart. */
static void add_pair(struct worker *worker)
{
    EXPECT(samvolip_map_add(worker->map, PAIRS + 2 * worker->number, 1, NULL) >= 0);
    EXPECT(samvolip_map_add(worker->map, PAIRS + 2 * worker->number + 1, 1, NULL) >= 0);
    worker->calls += 2;
}

static bool is_pair(uint64_t first, uint64_t second) { return first == second || first == second + 1; }

static void are_pairs(const samvolip_entry *entries, size_t count)
{
    uint64_t numbers[2 * PAIR_WORKERS] = {0};
    for (size_t i = 0; i < count; i++)
        if (entries[i].key >= PAIRS && entries[i].key < PAIRS + 2 * PAIR_WORKERS)
            numbers[entries[i].key - PAIRS] = entries[i].number;
    for (unsigned i = 0; i < PAIR_WORKERS; i++)
        EXPECT(is_pair(numbers[2 * i], numbers[2 * i + 1]));
}

/* The first thread asks for snapshots, and the others write. */
static void ask_or_write(struct worker *worker)
{
    while (goes_on())
        if (worker->number == 0) {
            size_t count;
            samvolip_entry *entries = entries_of(worker->map, &count);
            are_pairs(entries, count);
            free(entries);
            worker->calls++;
        } else {
            add_pair(worker);
            churn(worker);
        }
}

static void a_snapshot_is_of_one_moment(void)
{
    samvolip_map *map = open_map(1, 3, 0);
    for (uint64_t key = OWN / 2; key < OWN / 2 + 10000; key++) /* a table of many parts */
        EXPECT(samvolip_map_put(map, key, key, NULL) == SAMVOLIP_ABSENT);
    work_by_the_clock(map, 4, ask_or_write);
    all_is_there(map, 4, 0);
    tell("snapshots", map, 4);
    samvolip_map_free(map);
}

/* Beside BASE keys that stay, the second thread puts a key and the third removes it, again and again: there is one at most. */
static atomic_ullong put_so_far, removed_so_far;
static void count_or_write(struct worker *worker)
{
    while (goes_on()) {
        const uint64_t put = put_so_far, removed = removed_so_far;
        worker->calls++;
        if (worker->number == 0) {
            const uint64_t size = size_of(worker->map);
            EXPECT(size == BASE || size == BASE + 1);
        } else if (worker->number == 1 && put == removed) {
            EXPECT(samvolip_map_put(worker->map, BASE + put, put, NULL) == SAMVOLIP_ABSENT);
            put_so_far = put + 1;
        } else if (worker->number == 2 && put > removed) {
            EXPECT(samvolip_map_remove(worker->map, BASE + removed, NULL) == SAMVOLIP_PRESENT);
            removed_so_far = removed + 1;
        } else {
            sched_yield();
        }
    }
}

static void a_size_is_of_one_moment(void)
{
    samvolip_map *map = open_map(1, 3, 0);
    put_so_far = removed_so_far = 0;
    for (uint64_t key = 0; key < BASE; key++)
        EXPECT(samvolip_map_put(map, key, key, NULL) == SAMVOLIP_ABSENT);
    work_by_the_clock(map, 3, count_or_write);
    EXPECT(size_of(map) == BASE + put_so_far - removed_so_far);
    tell("sizes", map, 3);
    samvolip_map_free(map);
}

/* ---- clears -------------------------------------------------------------------------------- */

/* Adds up what was cleared of the keys of all, and sees no key twice. A visit may call the map. */
struct cleared {
    struct worker *worker;
    bool seen[SHARED_KEYS];
};

static void add_up(void *context, uint64_t key, uint64_t number)
{
    struct cleared *cleared = context;
    EXPECT(key < SHARED_KEYS && !cleared->seen[key]);
    cleared->seen[key] = true;
    cleared->worker->removed += number;
    if (number % 16 == 0) {
        EXPECT(samvolip_map_add(cleared->worker->map, key, 1, NULL) >= 0);
        cleared->worker->added++;
    }
}

static void add_and_clear(struct worker *worker)
{
    while (goes_on()) {
        const uint64_t choice = random_from(&worker->state);
        EXPECT(samvolip_map_add(worker->map, choice % SHARED_KEYS, 1, NULL) >= 0);
        worker->added++;
        worker->calls++;
        if (choice / 128 % 1000 < worker->number) {
            struct cleared cleared = {.worker = worker};
            EXPECT(samvolip_map_clear(worker->map, add_up, &cleared) == SAMVOLIP_OK);
        }
        if (choice / 131072 % 1000 == 0)
            EXPECT(samvolip_map_renew(worker->map, choice >> 54) == SAMVOLIP_OK);
    }
}

static void what_is_cleared_and_what_is_left_are_all(void)
{
    const uint32_t seats[] = {8, 2};
    for (int round = 0; round < 2; round++) {
        samvolip_map *map = open_map(1, seats[round], 0);
        work_by_the_clock(map, 4, add_and_clear);
        all_is_there(map, 4, 0);
        tell("clears", map, 4);
        samvolip_map_free(map);
    }
}

/* ---- walks --------------------------------------------------------------------------------- */

enum { STAY = 500, WALKS = 10 };

static pthread_rwlock_t stays = PTHREAD_RWLOCK_INITIALIZER; /* a clear and the puts after it are one step for who writes or begins a walk */
static atomic_ullong put_first[STAY], put_last[STAY];       /* each key's number is stored before it is put, and afterwards */

static void put_stay(samvolip_map *map, uint64_t key, uint64_t number)
{
    atomic_store(&put_first[key], number);
    EXPECT(samvolip_map_put(map, key, number, NULL) >= 0);
    atomic_store(&put_last[key], number);
}

/* Each thread is the one that writes a fourth of the keys that stay; keys of its own come and go. */
static void write_stay(struct worker *worker)
{
    pthread_rwlock_rdlock(&stays);
    for (unsigned i = 0; i < 500; i++, worker->turn++) {
        const uint64_t key = random_from(&worker->state) % (STAY / 4) * 4 + worker->number;
        put_stay(worker->map, key, put_last[key] + 1);
        EXPECT(samvolip_map_put(worker->map, own_key(worker, worker->turn), 0, NULL) == SAMVOLIP_ABSENT);
        if (worker->turn >= KEPT)
            EXPECT(samvolip_map_remove(worker->map, own_key(worker, worker->turn - KEPT), NULL) >= 0);
    }
    pthread_rwlock_unlock(&stays);
    worker->calls += 1500;
}

static void clear_and_put(samvolip_map *map)
{
    pthread_rwlock_wrlock(&stays);
    EXPECT(samvolip_map_clear(map, NULL, NULL) == SAMVOLIP_OK);
    for (uint64_t key = 0; key < STAY; key++)
        EXPECT(samvolip_map_put(map, key, put_last[key], NULL) == SAMVOLIP_ABSENT);
    pthread_rwlock_unlock(&stays);
}

/* A walk, what it has shown, and the least number that each key can have had in it. */
struct stay_walk {
    samvolip_map_walk *walk;
    bool seen[STAY];
    uint64_t least[STAY];
};

static bool see_next(struct stay_walk *one)
{
    uint64_t key, number;
    const int code = samvolip_map_walk_next(one->walk, &key, &number);
    EXPECT(code == SAMVOLIP_PRESENT || code == SAMVOLIP_ABSENT);
    if (code == SAMVOLIP_PRESENT && key < STAY) {
        EXPECT(!one->seen[key] && number >= one->least[key] && number <= put_first[key]);
        one->seen[key] = true;
    } else if (code == SAMVOLIP_PRESENT) {
        EXPECT(key >= OWN && number == 0);
    }
    return code == SAMVOLIP_PRESENT;
}

/* All walks go on in turn, one inside another, some faster than others; between them the map is written, renewed and cleared. */
static void walk_all(struct worker *worker, struct stay_walk *many)
{
    pthread_rwlock_rdlock(&stays);
    for (struct stay_walk *one = many; one < many + WALKS; one++) {
        memset(one, 0, sizeof *one);
        for (uint64_t key = 0; key < STAY; key++)
            one->least[key] = put_last[key];
        EXPECT(samvolip_map_walk_begin(worker->map, &one->walk) == SAMVOLIP_OK);
    }
    pthread_rwlock_unlock(&stays);
    for (bool goes = true; goes;) {
        goes = false;
        for (int i = 0; i < WALKS; i++)
            for (int steps = 40 + 20 * i; steps > 0 && see_next(&many[i]); steps--)
                goes = true;
        write_stay(worker);
        if (random_from(&worker->state) % 8 == 0)
            clear_and_put(worker->map);
        if (random_from(&worker->state) % 8 == 0)
            EXPECT(samvolip_map_renew(worker->map, 0) == SAMVOLIP_OK);
    }
    for (int i = 0; i < WALKS; i++) {
        for (uint64_t key = 0; key < STAY; key++)
            EXPECT(many[i].seen[key]);
        samvolip_map_walk_end(many[i].walk);
    }
}

static void walk_and_write(struct worker *worker)
{
    struct stay_walk *many = malloc(WALKS * sizeof *many);
    EXPECT(many != NULL);
    do {
        write_stay(worker);
        walk_all(worker, many);
    } while (goes_on());
    free(many);
}

static void forty_walks_show_each_key_once(void)
{
    samvolip_map *map = open_map(1, 3, 0);
    for (uint64_t key = 0; key < STAY; key++)
        put_stay(map, key, 1);
    work_by_the_clock(map, 4, walk_and_write);
    tell("walks", map, 4);
    samvolip_map_free(map);
}

/* A walk shows what there was before a clear or a renewal that came after it began. */
static void a_walk_stays_with_what_was_there(void)
{
    samvolip_map *map = open_map(1, 1, 0);
    enum { COUNT = 3000 };
    samvolip_entry *entries = malloc(COUNT * sizeof *entries);
    EXPECT(entries != NULL);
    for (int renews = 0; renews < 2; renews++)
        for (unsigned first = 0; first <= 200; first += 100) {
            samvolip_map_walk *walk;
            EXPECT(samvolip_map_clear(map, NULL, NULL) == SAMVOLIP_OK);
            for (uint64_t key = 0; key < COUNT; key++)
                EXPECT(samvolip_map_put(map, key, key, NULL) == SAMVOLIP_ABSENT);
            EXPECT(samvolip_map_walk_begin(map, &walk) == SAMVOLIP_OK);
            for (unsigned i = 0; i < first; i++)
                EXPECT(samvolip_map_walk_next(walk, &entries[i].key, &entries[i].number) == SAMVOLIP_PRESENT);
            EXPECT((renews ? samvolip_map_renew(map, 0) : samvolip_map_clear(map, NULL, NULL)) == SAMVOLIP_OK);
            for (uint64_t key = 0; key < 2 * COUNT; key++)
                EXPECT(samvolip_map_put(map, key, key + 1, NULL) == (renews && key < COUNT));
            EXPECT(walked(walk, entries + first, COUNT - first) == COUNT - first);
            samvolip_map_walk_end(walk);
            qsort(entries, COUNT, sizeof *entries, by_key);
            for (uint64_t key = 0; key < COUNT; key++)
                EXPECT(entries[key].key == key && entries[key].number == key);
        }
    free(entries);
    samvolip_map_free(map);
}

/* ---- parts --------------------------------------------------------------------------------- */

enum { WAVE = 20000, MOST_WAVES = 200, DIVIDED = 1 << 17 }; /* keys of each of four threads; slots that a map of one part hasn't */
static atomic_ullong most_slots;

/* The map was divided, and renewed often. */
static bool is_worked_over(samvolip_map *map) { return most_slots >= DIVIDED && figures_of(map).renewals > 8; }

/* Keys of its own come, are there, and go again; by the clock, and on until the map is worked over. */
static void rise_and_fall(struct worker *worker)
{
    uint64_t number, waves = 0;
    do {
        for (uint64_t turn = 0; turn < WAVE; turn++)
            EXPECT(samvolip_map_put(worker->map, own_key(worker, turn), turn, NULL) == SAMVOLIP_ABSENT);
        const uint64_t slots = figures_of(worker->map).slots;
        most_slots = slots > most_slots ? slots : most_slots;
        for (uint64_t turn = 0; turn < WAVE; turn++)
            EXPECT(samvolip_map_get(worker->map, own_key(worker, turn), &number) == SAMVOLIP_PRESENT && number == turn);
        for (uint64_t turn = 0; turn < WAVE; turn++) {
            EXPECT(samvolip_map_add(worker->map, turn % SHARED_KEYS, 1, NULL) >= 0);
            EXPECT(samvolip_map_remove(worker->map, own_key(worker, turn), &number) == SAMVOLIP_PRESENT && number == turn);
        }
        worker->added += WAVE;
        worker->calls += 4 * WAVE;
    } while (goes_on() || (!is_worked_over(worker->map) && ++waves < MOST_WAVES));
}

/* The map is divided and is one part again, more than once, while threads write. */
static void a_map_divides_and_joins_while_threads_write(void)
{
    for (uint32_t keys = SAMVOLIP_KEYS_SECRET; keys <= SAMVOLIP_KEYS_AS_THEY_ARE; keys += 2) {
        samvolip_map *map = open_map(1, keys ? 3 : 8, keys);
        most_slots = 0;
        work_by_the_clock(map, 4, rise_and_fall);
        all_is_there(map, 4, 0);
        EXPECT(is_worked_over(map));
        tell("waves", map, 4);
        for (uint64_t key = 0; key < SHARED_KEYS; key++)
            EXPECT(samvolip_map_remove(map, key, NULL) == SAMVOLIP_PRESENT);
        for (uint64_t key = 0; key < 60000; key++) /* so that each part is looked at */
            EXPECT(samvolip_map_put(map, key, 0, NULL) == SAMVOLIP_ABSENT && samvolip_map_remove(map, key, NULL) == SAMVOLIP_PRESENT);
        EXPECT(figures_of(map).slots <= 64); /* less than if each part had the smallest table */
        samvolip_map_free(map);
    }
}

/* The first thread renews the map by hand, so that it is divided and joined, and clears it. The second one counts, lists and walks.
   The others write. */
static void change_parts_or_write(struct worker *worker)
{
    for (unsigned turn = 0; goes_on() || turn < 4; turn++) {
        if (worker->number == 0) {
            EXPECT(samvolip_map_renew(worker->map, turn % 2 ? 1 : 100000) == SAMVOLIP_OK);
            worker->calls++;
        } else if (worker->number == 1) {
            size_t count, shown;
            uint64_t size = size_of(worker->map), about;
            samvolip_entry *entries = entries_of(worker->map, &count), *more = malloc((count + 1000) * sizeof *more);
            samvolip_map_walk *walk;
            are_pairs(entries, count);
            EXPECT(samvolip_map_size_estimate(worker->map, &about) == SAMVOLIP_OK);
            EXPECT(size < BASE + 1000 && about < BASE + 1000 && count < BASE + 1000 && size >= BASE && count >= BASE && about >= BASE);
            EXPECT(more != NULL && samvolip_map_walk_begin(worker->map, &walk) == SAMVOLIP_OK);
            shown = walked(walk, more, count + 1000);
            EXPECT(shown >= BASE);
            for (size_t i = 1; i < shown; i++)
                EXPECT(more[i - 1].key < more[i].key);
            samvolip_map_walk_end(walk);
            free(entries);
            free(more);
        } else {
            add_pair(worker);
            churn(worker);
        }
    }
}

/* BASE keys stay. */
static void sizes_lists_and_walks_are_whole_through_divisions(void)
{
    const uint32_t seats[] = {8, 2};
    for (int round = 0; round < 2; round++) {
        samvolip_map *map = open_map(1, seats[round], round ? SAMVOLIP_KEYS_AS_THEY_ARE : SAMVOLIP_KEYS_SECRET);
        for (uint64_t key = 0; key < BASE; key++)
            EXPECT(samvolip_map_put(map, OWN / 2 + key, key, NULL) == SAMVOLIP_ABSENT);
        work_by_the_clock(map, 5, change_parts_or_write);
        all_is_there(map, 5, 0);
        tell("divisions", map, 5);
        samvolip_map_free(map);
    }
}

/* Nobody writes: each estimate is exact, also one that a division comes upon. */
static void estimate_meanwhile(struct worker *worker)
{
    uint64_t about = 0;
    for (unsigned turn = 0; goes_on() || turn < 10; turn++)
        if (worker->number == 0)
            EXPECT(samvolip_map_renew(worker->map, turn % 2 ? 1 : 100000) == SAMVOLIP_OK);
        else
            EXPECT(samvolip_map_size_estimate(worker->map, &about) == SAMVOLIP_OK && about == BASE);
}

static void an_estimate_is_exact_through_divisions(void)
{
    samvolip_map *map = open_map(1, 2, 0);
    for (uint64_t key = 0; key < BASE; key++)
        EXPECT(samvolip_map_put(map, key, key, NULL) == SAMVOLIP_ABSENT);
    work_by_the_clock(map, 3, estimate_meanwhile);
    tell("estimates", map, 3);
    samvolip_map_free(map);
}

/* Walks that began before a division, within it and after it show what there was. */
static void walks_stay_through_divisions(uint32_t kind)
{
    enum { COUNT = 30000, TIMES = 5 };
    const uint64_t rooms[TIMES] = {100000, 1, 200000, 100000, 1};
    samvolip_map *map = open_map(1, 1, kind);
    samvolip_map_walk *walks[TIMES + 1];
    samvolip_entry *entries = malloc(COUNT * sizeof *entries);
    EXPECT(entries != NULL);
    for (uint64_t key = 0; key < COUNT; key++)
        EXPECT(samvolip_map_put(map, key, key, NULL) == SAMVOLIP_ABSENT);
    for (int i = 0; i < TIMES; i++) {
        EXPECT(samvolip_map_walk_begin(map, &walks[i]) == SAMVOLIP_OK);
        for (int first = 0; first <= 100 * i; first++)
            EXPECT(samvolip_map_walk_next(walks[i], &entries[first].key, &entries[first].number) == SAMVOLIP_PRESENT);
        EXPECT(samvolip_map_renew(map, rooms[i]) == SAMVOLIP_OK);
    }
    EXPECT(samvolip_map_walk_begin(map, &walks[TIMES]) == SAMVOLIP_OK);
    EXPECT(samvolip_map_clear(map, NULL, NULL) == SAMVOLIP_OK && figures_of(map).slots == 32);
    for (int i = TIMES; i >= 0; i--) {
        const size_t before = i < TIMES ? 100 * (size_t)i + 1 : 0;
        EXPECT(walked(walks[i], entries, COUNT) == COUNT - before);
        for (size_t at = 0; at < COUNT - before; at++)
            EXPECT(entries[at].number == entries[at].key && (at == 0 || entries[at - 1].key < entries[at].key));
        samvolip_map_walk_end(walks[i]);
    }
    free(entries);
    samvolip_map_free(map);
}

static void walks_stay_through_a_division_and_back(void)
{
    walks_stay_through_divisions(SAMVOLIP_KEYS_SECRET);
    walks_stay_through_divisions(SAMVOLIP_KEYS_AS_THEY_ARE);
}

/* The greatest keys and the least ones are there, and shown, in a map that is divided, joined and divided again. */
static void the_greatest_keys_are_there_in_parts_too(void)
{
    enum { COUNT = 200 };
    const uint64_t rooms[] = {200000, 1, 200000};
    for (uint32_t kind = SAMVOLIP_KEYS_SECRET; kind <= SAMVOLIP_KEYS_AS_THEY_ARE; kind++) {
        samvolip_map *map = open_map(200000, 1, kind);
        samvolip_entry entries[2 * COUNT];
        uint64_t number, count;
        for (uint64_t i = 0; i < COUNT; i++) {
            EXPECT(samvolip_map_put(map, i, i, NULL) == SAMVOLIP_ABSENT);
            EXPECT(samvolip_map_put(map, SAMVOLIP_KEY_MAX - i, i, NULL) == SAMVOLIP_ABSENT);
        }
        for (int turn = 0; turn < 3; turn++) {
            EXPECT(samvolip_map_renew(map, rooms[turn]) == SAMVOLIP_OK);
            EXPECT(samvolip_map_snapshot(map, entries, 2 * COUNT, &count) == SAMVOLIP_OK && count == 2 * COUNT);
            for (uint64_t i = 0; i < count; i++) {
                const uint64_t key = entries[i].key;
                EXPECT(entries[i].number == (key < COUNT ? key : SAMVOLIP_KEY_MAX - key) && entries[i].number < COUNT);
                EXPECT(samvolip_map_get(map, key, &number) == SAMVOLIP_PRESENT && number == entries[i].number);
            }
            for (uint64_t key = SAMVOLIP_KEY_MAX; ++key != 0;)
                all_refuse(map, key, 1, SAMVOLIP_E_KEY_RANGE);
        }
        samvolip_map_free(map);
    }
}

/* Keys that all belong to one part of a divided map, which has eight or, built for a test, four. */
static void keys_of_one_part_are_no_trouble(void)
{
    enum { COUNT = 40000 };
    samvolip_map *map = open_map(1, 1, SAMVOLIP_KEYS_AS_THEY_ARE);
    uint64_t number;
    for (uint64_t i = 0; i < COUNT; i++)
        EXPECT(samvolip_map_put(map, 8 * i + 1, i, NULL) == SAMVOLIP_ABSENT);
    EXPECT(samvolip_map_renew(map, 0) == SAMVOLIP_OK && size_of(map) == COUNT);
    for (uint64_t i = 0; i < COUNT; i++)
        EXPECT(samvolip_map_get(map, 8 * i + 1, &number) == SAMVOLIP_PRESENT && number == i);
    for (uint64_t i = 0; i < COUNT; i++)
        EXPECT(samvolip_map_remove(map, 8 * i + 1, &number) == SAMVOLIP_PRESENT && number == i);
    EXPECT(size_of(map) == 0);
    samvolip_map_free(map);
}

/* A map that is opened with much room is so large from the beginning, and after a clear. */
static void a_map_with_much_room_keeps_it(void)
{
    samvolip_map *map = open_map(200000, 2, 0);
    for (int turn = 0; turn < 2; turn++) {
        const samvolip_map_figures was = figures_of(map);
        for (uint64_t key = 0; key < 100000; key++)
            EXPECT(samvolip_map_put(map, key, key, NULL) == SAMVOLIP_ABSENT);
        for (uint64_t key = 0; key < 100000; key++)
            EXPECT(samvolip_map_remove(map, key, NULL) == SAMVOLIP_PRESENT);
        EXPECT(figures_of(map).slots == was.slots && was.slots >= 300000 && figures_of(map).renewals == 0);
        EXPECT(samvolip_map_clear(map, NULL, NULL) == SAMVOLIP_OK);
    }
    EXPECT(figures_of(map).slots >= 300000);
    samvolip_map_free(map);
}

/* ---- forks --------------------------------------------------------------------------------- */

/* With less of the processors than the parent and its children, so that these are many. */
static void write_pairs(struct worker *worker)
{
    EXPECT(setpriority(PRIO_PROCESS, 0, 15) == 0);
    while (goes_on()) {
        add_pair(worker);
        churn(worker);
    }
}

/* What a child's own threads do. The thread sanitizer knows no threads of a child, so there they are called. */
static void add_in_child(struct worker *worker)
{
    for (unsigned i = 0; i < 500; i++)
        EXPECT(samvolip_map_add(worker->map, i % SHARED_KEYS, 1, NULL) >= 0);
    for (unsigned i = 0; i < 50; i++)
        churn(worker);
}

static bool has_threads_in_child(void)
{
#if defined(__SANITIZE_THREAD__)
    return false;
#elif defined(__has_feature)
    return !__has_feature(thread_sanitizer);
#else
    return true;
#endif
}

/* A child has a map of one moment, and may call it. */
static void see_as_a_child(samvolip_map *map)
{
    size_t count;
    alarm(30);
    samvolip_entry *entries = entries_at_rest(map, &count);
    are_pairs(entries, count);
    free(entries);
    EXPECT(figures_of(map).own_threads <= 1);
    EXPECT(samvolip_map_renew(map, count * 4) == SAMVOLIP_OK && size_of(map) == count);
}

/* It may have threads, and a child of its own. */
static void call_as_a_child(samvolip_map *map)
{
    const pid_t child = fork();
    int status;
    if (child == 0) {
        see_as_a_child(map);
        _exit(0);
    }
    EXPECT(child > 0 && waitpid(child, &status, 0) == child && status == 0);
    EXPECT(samvolip_map_clear(map, NULL, NULL) == SAMVOLIP_OK);
    const unsigned threads = has_threads_in_child() ? 3 : 0;
    begin_work(map, threads, add_in_child);
    end_work(threads);
    all_is_there(map, threads, threads * 500);
    samvolip_map_free(map);
}

/* Whether a child may take memory. The address sanitizer's own lock may be held by a thread that the child hasn't. */
static bool has_memory_in_child(void)
{
#if defined(__SANITIZE_ADDRESS__)
    return false;
#elif defined(__has_feature)
    return !__has_feature(address_sanitizer);
#else
    return true;
#endif
}

/* Most of the threads share seats, so that a child comes while many are about to begin a call. */
static void children_and_parents_go_on(void)
{
    if (!has_memory_in_child())
        return;
    samvolip_map *map = open_map(1, 3, 0), *other = open_map(1, 1, 0);
    uint64_t children = 0;
    unsigned count = PAIR_WORKERS;
    pthread_t holding;
    begin_handling(hold_up);
    begin_clock();
    begin_work(map, PAIR_WORKERS, write_pairs);
    EXPECT(pthread_create(&holding, NULL, hold_workers_up, &count) == 0);
    for (; goes_on() || children == 0; children++) {
        const pid_t child = fork();
        int status = 0;
        if (child == 0) {
            see_as_a_child(map);
            if (children % 16 == 1)
                call_as_a_child(map);
            _exit(0);
        }
        EXPECT(child > 0 && waitpid(child, &status, 0) == child && status == 0);
        EXPECT(samvolip_map_add(other, 1, 1, NULL) == (children > 0));
    }
    EXPECT(pthread_join(holding, NULL) == 0);
    end_work(PAIR_WORKERS);
    all_is_there(map, PAIR_WORKERS, 0);
    uint64_t before;
    EXPECT(samvolip_map_add(other, 1, 1, &before) == SAMVOLIP_PRESENT && before == children);
    tell("forks", map, PAIR_WORKERS);
    if (is_told)
        printf("children: %llu\n", (unsigned long long)children);
    samvolip_map_free(other);
    samvolip_map_free(map);
}

/* ---- signals ------------------------------------------------------------------------------- */

/* Handlers add to a key of one map, ask another one, which is cleared, for its size, and call so many that a thread forgets where it
   has a seat of the first: it remembers 64, each in the place of the one that was opened 64 maps before. */
enum { CALLED = 16, REMEMBERED = 64, TWINS = 10 };
static samvolip_map *signalled, *asked, *called[CALLED];
static atomic_ullong made, nested;
static atomic_bool is_sent;

/* In the middle of a call each other one is refused, of any map. */
static void all_are_nested(void)
{
    uint64_t number = 99;
    samvolip_entry entry = {99, 99};
    samvolip_reply reply = {99, 99, 99};
    samvolip_map_walk *walk = NULL;
    samvolip_map_figures figures;
    size_t count = 99;
    const int is = SAMVOLIP_E_NESTED;
    EXPECT(samvolip_map_get(asked, 1, &number) == is && samvolip_map_contains(asked, 1) == is);
    EXPECT(samvolip_map_put(asked, 1, 1, &number) == is && samvolip_map_put_if_absent(asked, 1, 1, &number) == is);
    EXPECT(samvolip_map_get_or_insert(asked, 1, 1, &number) == is && samvolip_map_add(asked, 1, 1, &number) == is);
    EXPECT(samvolip_map_fetch_max(asked, 1, 1, &number) == is && samvolip_map_fetch_min(asked, 1, 1, &number) == is);
    EXPECT(samvolip_map_replace(asked, 1, 1, &number) == is && samvolip_map_replace_if(asked, 1, 1, 1) == is);
    EXPECT(samvolip_map_remove(asked, 1, &number) == is && samvolip_map_remove_if(asked, 1, 1) == is);
    EXPECT(samvolip_map_compare_exchange(asked, 1, NULL, NULL, &reply) == is && reply.before == 99);
    EXPECT(samvolip_map_update(asked, 1, no_updater, &count, &number) == is);
    EXPECT(samvolip_map_size(asked, &number) == is && samvolip_map_size_estimate(asked, &number) == is && number == 99);
    EXPECT(samvolip_map_clear(asked, NULL, NULL) == is && samvolip_map_renew(asked, 0) == is);
    EXPECT(samvolip_map_snapshot(asked, &entry, 1, &count) == is && count == 99 && entry.key == 99);
    EXPECT(samvolip_map_look(asked, &figures) == is && samvolip_map_walk_begin(asked, &walk) == is && walk == NULL);
}

/* Between two calls a handler may call. The first is renewed by none of these. */
static void handle(int signal)
{
    const int saved = errno;
    uint64_t number = 99;
    (void)signal;
    const int code = samvolip_map_add(signalled, PUBLISHED, 1, NULL);
    EXPECT(code == SAMVOLIP_PRESENT || code == SAMVOLIP_E_NESTED);
    if (code < 0) {
        nested++;
        all_are_nested();
    } else {
        made++;
        for (int i = 0; i < CALLED; i++)
            EXPECT(samvolip_map_contains(called[i], 1) == 0);
        EXPECT(samvolip_map_size(asked, &number) == SAMVOLIP_OK && number <= SHARED_KEYS);
        EXPECT(samvolip_map_get(signalled, PUBLISHED, &number) == SAMVOLIP_PRESENT);
    }
    errno = saved;
}

/* Maps that have one place in what the thread remembers: none answers for another. */
static void call_two(unsigned i)
{
    uint64_t number;
    for (unsigned one = i; one < CALLED; one += TWINS)
        EXPECT(samvolip_map_get(called[one], 5, &number) == SAMVOLIP_PRESENT && number == one);
}

static void call_between_signals(struct worker *worker)
{
    EXPECT(samvolip_map_contains(signalled, 0) >= 0 && samvolip_map_contains(asked, 0) >= 0);
    for (int i = 0; i < CALLED; i++)
        EXPECT(samvolip_map_contains(called[i], 0) == 0);
    ready++;
    while (is_sent) {
        const uint64_t choice = random_from(&worker->state);
        samvolip_map_walk *walk;
        churn(worker);
        call_two(choice / 16 % (CALLED - TWINS));
        EXPECT(samvolip_map_put(asked, choice % SHARED_KEYS, 0, NULL) >= 0);
        EXPECT(samvolip_map_walk_begin(asked, &walk) == SAMVOLIP_OK);
        samvolip_map_walk_end(walk);
        if (choice / 128 % 512 == 0)
            EXPECT(samvolip_map_clear(asked, NULL, NULL) == SAMVOLIP_OK);
        if (choice / 65536 % 512 == 0)
            EXPECT(size_of(asked) <= SHARED_KEYS);
    }
}

static void handlers_are_refused_in_the_middle_of_calls(void)
{
    const uint32_t seats[] = {8, 1};
    for (int round = 0; round < 2; round++) {
        uint64_t state = 1;
        signalled = open_map(1, seats[round], 0), asked = open_map(1, seats[1 - round], 0);
        for (unsigned i = 0; i < CALLED; i++) {
            for (unsigned others = i == CALLED / 2 ? REMEMBERED - TWINS : 0; others > 0; others--)
                samvolip_map_free(open_map(1, 1, 0));
            called[i] = open_map(1, 4, 0);
            EXPECT(samvolip_map_put(called[i], 5, i, NULL) == SAMVOLIP_ABSENT);
            samvolip_map_leave(called[i]);
        }
        EXPECT(samvolip_map_put(signalled, PUBLISHED, 0, NULL) == SAMVOLIP_ABSENT);
        made = nested = 0;
        ready = 0;
        is_sent = true;
        begin_handling(handle);
        begin_work(signalled, 4, call_between_signals);
        while (ready < 4)
            sched_yield();
        for (begin_clock(); goes_on() || made == 0 || nested == 0; usleep(1))
            EXPECT(pthread_kill(workers[random_from(&state) % 4].thread, SIGUSR1) == 0);
        is_sent = false;
        end_work(4);
        uint64_t number = 0;
        EXPECT(samvolip_map_get(signalled, PUBLISHED, &number) == SAMVOLIP_PRESENT && number == made);
        all_is_there(signalled, 4, 0);
        tell("signals", signalled, 4);
        if (is_told)
            printf("by handlers: %llu made, %llu nested\n", (unsigned long long)made, (unsigned long long)nested);
        samvolip_map_free(signalled);
        samvolip_map_free(asked);
        for (int i = 0; i < CALLED; i++)
            samvolip_map_free(called[i]);
    }
}

/* A thread that ends gives its seat back, while handlers call. */
static void handle_at_the_end(int signal)
{
    const int saved = errno;
    uint64_t number = 99;
    (void)signal;
    const int code = samvolip_map_size(asked, &number);
    EXPECT(code == SAMVOLIP_E_NESTED || (code == SAMVOLIP_OK && number == 1));
    errno = saved;
}

static void call_and_end(struct worker *worker)
{
    EXPECT(samvolip_map_put(worker->map, 1, 1, NULL) == SAMVOLIP_PRESENT);
    ready = 1;
}

static void handlers_call_while_threads_end(void)
{
    uint64_t state = 1;
    unsigned ended = 0;
    asked = open_map(1, 2, 0);
    EXPECT(samvolip_map_put(asked, 1, 0, NULL) == SAMVOLIP_ABSENT);
    begin_handling(handle_at_the_end);
    for (begin_clock(); goes_on();) {
        ready = 0;
        begin_work(asked, 1, call_and_end);
        while (!ready)
            sched_yield();
        for (unsigned i = 0; i < 30; i++) {
            pthread_kill(workers[0].thread, SIGUSR1);
            for (volatile uint64_t turns = random_from(&state) % 1000; turns > 0; turns--)
                continue;
        }
        end_work(1);
        ended++;
    }
    EXPECT(figures_of(asked).own_threads == 1);
    if (is_told)
        printf("threads that ended: %u\n", ended);
    samvolip_map_free(asked);
}

/* ---- an end of memory ---------------------------------------------------------------------- */

/* Puts keys of its own until one is refused. */
static void put_until_refused(struct worker *worker)
{
    int code;
    while ((code = samvolip_map_put(worker->map, worker->turn * 4 + worker->number, worker->turn, NULL)) == SAMVOLIP_ABSENT)
        worker->turn++;
    EXPECT(code == SAMVOLIP_E_OUT_OF_MEMORY);
}

/* Four threads fill the map to its last slot. What is there can be changed, and what isn't can be asked for. */
static void fill(samvolip_map *map, uint64_t slots)
{
    uint64_t put = 0, before = 99;
    samvolip_reply reply;
    begin_work(map, 4, put_until_refused);
    end_work(4);
    for (unsigned i = 0; i < 4; i++)
        put += workers[i].turn;
    EXPECT(put == slots && size_of(map) == slots && figures_of(map).slots == slots && figures_of(map).refused > 0);
    for (unsigned i = 0; i < 4; i++)
        if (workers[i].turn > 0) {
            EXPECT(samvolip_map_put(map, i, 7, &before) == SAMVOLIP_PRESENT && before == 0);
            EXPECT(samvolip_map_add(map, i, 1, &before) == SAMVOLIP_PRESENT && before == 7);
        }
    const uint64_t none = slots * 8;
    before = 99;
    EXPECT(samvolip_map_add(map, none, 1, &before) == SAMVOLIP_E_OUT_OF_MEMORY);
    EXPECT(samvolip_map_put(map, none, 1, &before) == SAMVOLIP_E_OUT_OF_MEMORY);
    EXPECT(samvolip_map_fetch_max(map, none, 1, &before) == SAMVOLIP_E_OUT_OF_MEMORY && before == 99);
    EXPECT(samvolip_map_replace(map, none, 1, NULL) == SAMVOLIP_ABSENT && samvolip_map_remove(map, none, NULL) == SAMVOLIP_ABSENT);
    EXPECT(samvolip_map_compare_exchange(map, none, &before, NULL, &reply) == SAMVOLIP_OK && !reply.matched && !reply.had);
    EXPECT(samvolip_map_contains(map, none) == 0 && size_of(map) == slots);
}

/* The map goes on once a part of the keys went and it was renewed, or once it was cleared. */
static void goes_on_after_it_was_full(samvolip_map *map, uint64_t slots)
{
    fill(map, slots);
    for (unsigned i = 0; i < 4; i++)
        for (uint64_t turn = 0; turn < workers[i].turn; turn++)
            EXPECT(samvolip_map_remove(map, turn * 4 + i, NULL) == SAMVOLIP_PRESENT);
    EXPECT(samvolip_map_renew(map, 0) == SAMVOLIP_OK && size_of(map) == 0);
    EXPECT(samvolip_map_put(map, 5, 5, NULL) == SAMVOLIP_ABSENT);
    EXPECT(samvolip_map_remove(map, 5, NULL) == SAMVOLIP_PRESENT);
    fill(map, slots);
    EXPECT(samvolip_map_clear(map, NULL, NULL) == SAMVOLIP_OK && size_of(map) == 0);
    EXPECT(figures_of(map).slots == 32);
    fill(map, slots);
    samvolip_map_free(map);
}

/* It grows as far as the old and the new table have room together, also where it asks for more. */
static void memory_of_the_options_is_the_most(void)
{
    const struct {
        uint32_t growth;
        uint64_t memory, slots;
    } cases[] = {{2, 16 * (1024 + 2048), 2048}, {2, 16 * (512 + 2048) - 1, 1024}, {64, 16 * (1024 + 2048), 2048}};
    for (int i = 0; i < 3 && !IS_DIVIDED_EARLY; i++) { /* a map in parts refuses a key whose part is full */
        const samvolip_map_options options = {.room = 1, .memory = cases[i].memory, .growth = cases[i].growth, .threads = 3};
        samvolip_map *map;
        EXPECT(samvolip_map_open(&options, &map) == SAMVOLIP_OK);
        goes_on_after_it_was_full(map, cases[i].slots);
    }
}

/* A map in parts has no more slots than its memory, either, while its parts are renewed side by side. It refuses a key when the slots
   of that key's part are taken, which are about as many as those of each other part, or half of them; and goes on once keys went. */
static void memory_bounds_all_parts_together(void)
{
    const uint64_t most = 400000;
    const samvolip_map_options options = {.room = 1, .memory = 16 * most, .growth = 2, .threads = 3};
    samvolip_map *map;
    uint64_t first = 0;
    EXPECT(samvolip_map_open(&options, &map) == SAMVOLIP_OK);
    for (int turn = 0; turn < 3; turn++) {
        uint64_t put = 0, number;
        begin_work(map, 4, put_until_refused);
        end_work(4);
        for (unsigned i = 0; i < 4; i++) {
            put += workers[i].turn;
            for (uint64_t key = 0; key < workers[i].turn; key++)
                EXPECT(samvolip_map_get(map, key * 4 + i, &number) == SAMVOLIP_PRESENT && number == key);
        }
        first = turn ? first : put;
        EXPECT(size_of(map) == put && figures_of(map).slots <= most && put > most / 4 && figures_of(map).refused > 0);
        EXPECT(put > first / 5 * 4); /* what was reserved for the tables that are gone is there again */
        for (unsigned i = 0; i < 4; i++)
            for (uint64_t key = 0; key < workers[i].turn && turn < 2; key++)
                EXPECT(samvolip_map_remove(map, key * 4 + i, NULL) == SAMVOLIP_PRESENT);
        int code = turn ? samvolip_map_renew(map, 0) : samvolip_map_clear(map, NULL, NULL);
        EXPECT(code == (turn < 2 ? SAMVOLIP_OK : SAMVOLIP_E_OUT_OF_MEMORY));
        EXPECT(size_of(map) == (turn < 2 ? 0 : put));
    }
    samvolip_map_free(map);
}

/* Built with fewer slots at most than a table has, as -DMOST_EXPONENT says to the sources. */
static void the_largest_table_fills(void)
{
#ifdef MOST_EXPONENT
    goes_on_after_it_was_full(open_map(1, 3, 0), UINT64_C(1) << MOST_EXPONENT);
#endif
}

/* ---- many maps ----------------------------------------------------------------------------- */

enum { MAPS = 70 }; /* more than a thread remembers */

static samvolip_map *_Atomic opened;
static void call_each_map(struct worker *worker)
{
    for (unsigned i = 0; i < MAPS; i++) {
        pthread_barrier_wait(&turns);
        EXPECT(samvolip_map_add(opened, i, worker->number, NULL) >= 0);
        pthread_barrier_wait(&turns);
    }
}

/* Threads call maps that are freed before they end. */
static void a_map_is_freed_before_its_threads_end(void)
{
    uint64_t number;
    EXPECT(pthread_barrier_init(&turns, NULL, 4) == 0);
    begin_work(NULL, 3, call_each_map);
    for (unsigned i = 0; i < MAPS; i++) {
        opened = open_map(1, i % 4 + 1, 0);
        pthread_barrier_wait(&turns);
        pthread_barrier_wait(&turns);
        EXPECT(samvolip_map_get(opened, i, &number) == SAMVOLIP_PRESENT && number == 3 && size_of(opened) == 1);
        samvolip_map_free(opened);
    }
    end_work(3);
    EXPECT(pthread_barrier_destroy(&turns) == 0);
}

/* Each thread calls all maps in turn, so that they take each other's places in what a thread remembers. */
static samvolip_map *all_maps[MAPS];
static void call_all_maps(struct worker *worker)
{
    uint64_t before;
    for (uint64_t turn = 0; turn < 200; turn++)
        for (unsigned i = 0; i < MAPS; i++) {
            EXPECT(samvolip_map_put(all_maps[i], turn * 4 + worker->number, turn, NULL) == SAMVOLIP_ABSENT);
            EXPECT(turn < 9 || (samvolip_map_remove(all_maps[i], (turn - 9) * 4 + worker->number, &before) == 1 && before == turn - 9));
        }
}

static void many_maps_are_called_in_turn(void)
{
    for (unsigned i = 0; i < MAPS; i++)
        all_maps[i] = open_map(1, i % 3 + 2, i % 3);
    begin_work(NULL, 4, call_all_maps);
    end_work(4);
    for (unsigned i = 0; i < MAPS; i++) {
        EXPECT(size_of(all_maps[i]) == 36 && figures_of(all_maps[i]).own_threads == 1 && figures_of(all_maps[i]).renewals > 0);
        samvolip_map_free(all_maps[i]);
    }
}

/* ---- updates ------------------------------------------------------------------------------- */

/* Adds 1, after it has called the map itself, which is renewed now and then. */
static int call_and_add(void *context, const uint64_t *found, uint64_t *next)
{
    struct worker *worker = context;
    worker->calls++;
    churn(worker);
    if (worker->calls % 64 == 0)
        EXPECT(samvolip_map_renew(worker->map, worker->calls % 1000) == SAMVOLIP_OK);
    *next = found ? *found + 1 : 1;
    return !found || *found % 7 != 6;
}

/* The number at the key goes from 1 to 6 and then away. */
static void update_all_the_time(struct worker *worker)
{
    uint64_t before;
    while (goes_on()) {
        const int code = samvolip_map_update(worker->map, PUBLISHED, call_and_add, worker, &before);
        EXPECT((code == SAMVOLIP_PRESENT && before > 0 && before < 7) || (code == SAMVOLIP_ABSENT && before == 0));
        atomic_fetch_add(&published[0], 1);
    }
}

static void an_updater_calls_the_map(void)
{
    samvolip_map *map = open_map(1, 3, 0);
    uint64_t number;
    atomic_store(&published[0], 0);
    work_by_the_clock(map, 4, update_all_the_time);
    const uint64_t updates = atomic_load(&published[0]);
    EXPECT(samvolip_map_get(map, PUBLISHED, &number) == (updates % 7 > 0) && number == updates % 7);
    all_is_there(map, 4, 0);
    tell("updates", map, 4);
    samvolip_map_free(map);
}

/* ---- all of them --------------------------------------------------------------------------- */

#define TEST(name) {#name, name}
static const struct {
    const char *name;
    void (*test)(void);
} tests[] = {
    TEST(each_call_replies_as_a_plain_list_does),
    TEST(keys_and_numbers_out_of_range_are_refused),
    TEST(options_and_versions_out_of_range_are_refused),
    TEST(an_array_that_is_too_small_stays_as_it_was),
    TEST(a_renewal_by_hand_makes_room),
    TEST(a_renewal_by_hand_is_made),
    TEST(a_renewal_for_too_many_keys_is_refused),
    TEST(a_map_is_as_large_as_its_keys_ask),
    TEST(a_map_of_few_keys_grows_faster),
    TEST(what_four_threads_add_is_there_or_was_removed),
    TEST(many_threads_share_few_seats),
    TEST(seats_go_from_thread_to_thread),
    TEST(threads_arrive_during_renewals),
    TEST(a_seat_that_is_left_is_taken),
    TEST(no_reader_sees_what_was_before),
    TEST(reads_go_on_during_a_renewal),
    TEST(a_snapshot_is_of_one_moment),
    TEST(a_size_is_of_one_moment),
    TEST(what_is_cleared_and_what_is_left_are_all),
    TEST(forty_walks_show_each_key_once),
    TEST(a_walk_stays_with_what_was_there),
    TEST(a_map_divides_and_joins_while_threads_write),
    TEST(sizes_lists_and_walks_are_whole_through_divisions),
    TEST(an_estimate_is_exact_through_divisions),
    TEST(walks_stay_through_a_division_and_back),
    TEST(the_greatest_keys_are_there_in_parts_too),
    TEST(keys_of_one_part_are_no_trouble),
    TEST(a_map_with_much_room_keeps_it),
    TEST(children_and_parents_go_on),
    TEST(handlers_are_refused_in_the_middle_of_calls),
    TEST(handlers_call_while_threads_end),
    TEST(memory_of_the_options_is_the_most),
    TEST(memory_bounds_all_parts_together),
    TEST(the_largest_table_fills),
    TEST(a_map_is_freed_before_its_threads_end),
    TEST(many_maps_are_called_in_turn),
    TEST(an_updater_calls_the_map),
};

int main(int count, char **words)
{
    bool is_there = false;
    const char *only = count > 1 && strcmp(words[1], "all") != 0 ? words[1] : NULL;
    is_told = only != NULL;
    setvbuf(stdout, NULL, _IOLBF, BUFSIZ); /* a child has nothing of what was printed before */
    if (count > 2)
        seconds = strtod(words[2], NULL);
    for (size_t i = 0; i < sizeof tests / sizeof *tests; i++)
        if (!only || strcmp(only, tests[i].name) == 0) {
            alarm(60 + 10 * (unsigned)seconds); /* a test that waits for ever is wrong */
            const double begun_at = now();
            tests[i].test();
            is_there = true;
            if (is_told || count > 2)
                printf("%s: %.2f s\n", tests[i].name, now() - begun_at);
        }
    EXPECT(is_there);
    puts("endless: well");
    return 0;
}
