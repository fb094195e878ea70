/* The map without an end, where memory is refused. Run under .ci/refuse.c, with each request refused in turn: the map goes on after
   each refusal, nothing is lost, and all memory is given back. It prints nothing, since that takes memory too. */
#include "samvolip_map.h"

#include "expect.h"

#include <pthread.h>
#include <stdbool.h>

enum { KEYS = 100 };

static int refusals;

/* Whether the call has to be made again. */
static bool is_refused(int code)
{
    EXPECT(code >= 0 || code == SAMVOLIP_E_OUT_OF_MEMORY);
    refusals += code < 0;
    EXPECT(refusals <= 1);
    return code < 0;
}

static samvolip_map_figures figures_of(samvolip_map *map)
{
    samvolip_map_figures figures;
    EXPECT(samvolip_map_look(map, &figures) == SAMVOLIP_OK);
    return figures;
}

/* The map has the keys from 0 on, so many, each with its double as its number, and no others. */
static void is_there(samvolip_map *map, uint64_t keys)
{
    static samvolip_entry entries[2 * KEYS];
    uint64_t number, size;
    size_t count = 0;
    for (uint64_t key = 0; key < 2 * KEYS; key++)
        EXPECT(samvolip_map_get(map, key, &number) == (key < keys) && number == (key < keys ? 2 * key : 0));
    EXPECT(samvolip_map_size(map, &size) == SAMVOLIP_OK && size == keys);
    EXPECT(samvolip_map_snapshot(map, entries, 2 * KEYS, &count) == SAMVOLIP_OK && count == keys);
    for (size_t i = 0; i < count; i++)
        EXPECT(entries[i].number == 2 * entries[i].key && entries[i].key < keys);
}

/* A walk shows so many keys more. */
static void shows(samvolip_map_walk *walk, uint64_t more)
{
    uint64_t key, number;
    while (samvolip_map_walk_next(walk, &key, &number) == SAMVOLIP_PRESENT) {
        EXPECT(number == 2 * key);
        more--;
    }
    EXPECT(more == 0);
}

/* Puts, which need ever larger tables, and removals, after which a smaller one does. */
static void fills(samvolip_map *map)
{
    uint64_t before = 99;
    for (uint64_t key = 0; key < KEYS; key++) {
        while (is_refused(samvolip_map_add(map, key, 2 * key, &before)))
            is_there(map, key);
        EXPECT(before == 0);
    }
    is_there(map, KEYS);
    for (uint64_t key = KEYS; key < 5 * KEYS; key++) {
        while (is_refused(samvolip_map_put(map, key, 1, NULL)))
            is_there(map, KEYS);
        EXPECT(samvolip_map_remove(map, key, NULL) == SAMVOLIP_PRESENT);
    }
    is_there(map, KEYS);
}

/* Renewals by hand. If one is refused, the map has the table that it had. */
static void renews(samvolip_map *map)
{
    const uint64_t rooms[] = {1000, 1, 45000, 0};
    for (unsigned i = 0; i < sizeof rooms / sizeof *rooms; i++) {
        const samvolip_map_figures was = figures_of(map);
        while (is_refused(samvolip_map_renew(map, rooms[i]))) {
            const samvolip_map_figures is = figures_of(map);
            EXPECT(is.slots == was.slots && is.renewals == was.renewals && is.refused == was.refused + 1);
            is_there(map, KEYS);
        }
        EXPECT(figures_of(map).renewals == was.renewals + 1);
        is_there(map, KEYS);
    }
}

/* Walks, one begun inside another, which go on after a renewal. */
static void walks(samvolip_map *map)
{
    samvolip_map_walk *outer = NULL, *inner = NULL;
    uint64_t key, number;
    while (is_refused(samvolip_map_walk_begin(map, &outer)))
        EXPECT(outer == NULL);
    EXPECT(samvolip_map_walk_next(outer, &key, &number) == SAMVOLIP_PRESENT && number == 2 * key);
    while (is_refused(samvolip_map_walk_begin(map, &inner)))
        EXPECT(inner == NULL);
    while (is_refused(samvolip_map_renew(map, 0)))
        is_there(map, KEYS);
    shows(inner, KEYS);
    shows(outer, KEYS - 1);
    samvolip_map_walk_end(outer);
    samvolip_map_walk_end(inner);
}

/* A thread that is refused a seat of its own shares one. */
static void *calls(void *given)
{
    samvolip_map *map = given;
    for (uint64_t key = KEYS; key < 2 * KEYS; key++) {
        while (is_refused(samvolip_map_put(map, key, 1, NULL)))
            continue;
        EXPECT(samvolip_map_remove(map, key, NULL) == SAMVOLIP_PRESENT);
    }
    is_there(map, KEYS);
    return NULL;
}

static void threads_call(samvolip_map *map)
{
    for (int i = 0; i < 2; i++) {
        pthread_t thread;
        while (pthread_create(&thread, NULL, calls, map) != 0)
            EXPECT(refusals++ == 0);
        EXPECT(pthread_join(thread, NULL) == 0);
    }
}

static void count_one(void *context, uint64_t key, uint64_t number)
{
    EXPECT(number == 2 * key);
    ++*(uint64_t *)context;
}

/* If a clear is refused, the map is as it was, and nothing was shown. */
static void clears(samvolip_map *map)
{
    uint64_t shown = 0;
    while (is_refused(samvolip_map_clear(map, count_one, &shown))) {
        EXPECT(shown == 0);
        is_there(map, KEYS);
    }
    EXPECT(shown == KEYS);
    is_there(map, 0);
    fills(map);
    while (is_refused(samvolip_map_clear(map, NULL, NULL)))
        is_there(map, KEYS);
    is_there(map, 0);
}

int main(void)
{
    const samvolip_map_options options = {.room = 1, .growth = 2, .threads = 2};
    samvolip_map *map = NULL;
    while (is_refused(samvolip_map_open(&options, &map)))
        EXPECT(map == NULL);
    fills(map);
    renews(map);
    walks(map);
    threads_call(map);
    clears(map);
    samvolip_map_free(map);
    return 0;
}
