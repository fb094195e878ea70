/* The map of ../src/moving.h, where memory is refused. Run under .ci/refuse.c, with each request refused in turn, or all from each on until
   one for a MiB: a call that is refused changes nothing, the map goes on, and all memory is given back. It prints nothing, since that takes
   memory too. */
#include "../src/cores.h"
#include "../src/moving.h"

#include "expect.h"

#include <pthread.h>
#include <stdbool.h>

enum { KEYS = 24 };

static void have_memory_again(void)
{
    void *volatile block = malloc((size_t)1 << 20);
    free(block);
}

/* Whether the call has to be made again. */
static bool is_refused(int code)
{
    EXPECT(code >= 0 || code == SAMVOLIP_E_OUT_OF_MEMORY);
    if (code < 0)
        have_memory_again();
    return code < 0;
}

/* The map has the keys from 0 on, so many, each with its double as its number, and no others. */
static void is_there(struct moving_map *map, uint64_t keys)
{
    uint64_t number;
    for (uint64_t key = 0; key < 2 * KEYS; key++)
        EXPECT(moving_get(map, key, &number) == (key < keys) && number == (key < keys ? 2 * key : 0));
}

/* Puts, which need ever larger cores, and keys that come and go, which need one after another. */
static void fills(struct moving_map *map)
{
    uint64_t before = 99;
    for (uint64_t key = 0; key < KEYS; key++) {
        while (is_refused(moving_add(map, key, 2 * key, &before)))
            is_there(map, key);
        EXPECT(before == 0);
    }
    is_there(map, KEYS);
    for (uint64_t key = 2 * KEYS; key < 5 * KEYS; key++) {
        while (is_refused(moving_put(map, key, 1, NULL)))
            is_there(map, KEYS);
        while (is_refused(moving_remove(map, key, &before)))
            EXPECT(moving_get(map, key, &before) == SAMVOLIP_PRESENT);
        EXPECT(before == 1);
    }
    is_there(map, KEYS);
}

/* A thread that is refused what it needs for a lane of its own shares one. */
static void *calls(void *given)
{
    struct moving_map *map = given;
    for (uint64_t key = KEYS; key < 2 * KEYS; key++) {
        while (is_refused(moving_put(map, key, 1, NULL)))
            continue;
        while (is_refused(moving_remove(map, key, NULL)))
            continue;
    }
    is_there(map, KEYS);
    return NULL;
}

static void threads_call(struct moving_map *map)
{
    for (int i = 0; i < 2; i++) {
        pthread_t thread;
        while (pthread_create(&thread, NULL, calls, map) != 0)
            have_memory_again();
        EXPECT(pthread_join(thread, NULL) == 0);
    }
}

int main(void)
{
    struct moving_map *map;
    while (!(map = moving_open((struct moving_options){.slots = 4, .lanes = 2})))
        have_memory_again();
    fills(map);
    threads_call(map);
    moving_close(map);
    moving_close(NULL);
    return 0;
}
