/* The calls of samvolip_map.h that answer in one word, those of many keys, and what a call does around a wait. Bindings use them. */
#define _GNU_SOURCE
#include "samvolip_map.h"

#include "expect.h"

#include <pthread.h>
#include <stdatomic.h>
#include <stdbool.h>
#include <unistd.h>

static samvolip_map *open_map(uint64_t room, uint64_t memory)
{
    const samvolip_map_options options = {.room = room, .memory = memory, .growth = 2, .threads = 2};
    samvolip_map *map;
    EXPECT(samvolip_map_open(&options, &map) == SAMVOLIP_OK);
    return map;
}

static void answers_in_one_word(void)
{
    samvolip_map *map = open_map(20, 0);
    EXPECT(samvolip_map_get_word(map, 1) == SAMVOLIP_NONE);
    EXPECT(samvolip_map_put_word(map, 1, 5) == SAMVOLIP_NONE);
    EXPECT(samvolip_map_put_if_absent_word(map, 1, 6) == 5);
    EXPECT(samvolip_map_put_word(map, 1, 0) == 5);
    EXPECT(samvolip_map_get_word(map, 1) == 0);
    EXPECT(samvolip_map_add_word(map, 1, 7) == 0);
    EXPECT(samvolip_map_fetch_max_word(map, 1, 9) == 7);
    EXPECT(samvolip_map_fetch_min_word(map, 1, 3) == 9);
    EXPECT(samvolip_map_replace_word(map, 1, SAMVOLIP_VALUE_MAX) == 3);
    EXPECT(samvolip_map_replace_word(map, 2, 1) == SAMVOLIP_NONE);
    EXPECT(samvolip_map_size_word(map) == 1 && samvolip_map_size_estimate_word(map) == 1);
    EXPECT(samvolip_map_add_word(map, 1, 1) == SAMVOLIP_E_SUM_RANGE);
    EXPECT(samvolip_map_put_word(map, 1, SAMVOLIP_VALUE_MAX + 1) == SAMVOLIP_E_VALUE_RANGE);
    EXPECT(samvolip_map_get_word(map, SAMVOLIP_KEY_MAX + 1) == SAMVOLIP_E_KEY_RANGE);
    EXPECT(samvolip_map_remove_word(map, 1) == (int64_t)SAMVOLIP_VALUE_MAX);
    EXPECT(samvolip_map_remove_word(map, 1) == SAMVOLIP_NONE && samvolip_map_size_word(map) == 0);
    samvolip_map_free(map);
}

enum { MANY = 5000 };

static void calls_many_keys(void)
{
    static uint64_t keys[MANY], numbers[MANY], found[MANY];
    samvolip_map *map = open_map(20, 0);
    for (uint64_t i = 0; i < MANY; i++) {
        keys[i] = i << 20;
        numbers[i] = i;
    }
    EXPECT(samvolip_map_put_many(map, keys, numbers, 0) == 0);
    EXPECT(samvolip_map_put_many(map, keys, numbers, MANY) == MANY);
    EXPECT(samvolip_map_add_many(map, keys, numbers, MANY - 1) == MANY - 1);
    EXPECT(samvolip_map_remove(map, keys[7], NULL) == SAMVOLIP_PRESENT);
    found[MANY - 1] = 1;
    EXPECT(samvolip_map_get_many(map, keys, found, MANY - 1, 77) == MANY - 1);
    for (uint64_t i = 0; i < MANY - 1; i++)
        EXPECT(found[i] == (i == 7 ? 77 : 2 * i));
    EXPECT(found[MANY - 1] == 1 && samvolip_map_get_word(map, keys[MANY - 1]) == MANY - 1);
    /* a call that is refused is the last one */
    keys[3] = SAMVOLIP_KEY_MAX + 1;
    numbers[2] = SAMVOLIP_VALUE_MAX + 1;
    EXPECT(samvolip_map_get_many(map, keys, found, MANY, 0) == 3);
    EXPECT(samvolip_map_put_many(map, keys, numbers, MANY) == 2);
    EXPECT(samvolip_map_add_many(map, keys + 3, numbers, MANY - 3) == 0);
    EXPECT(samvolip_map_get_word(map, keys[4]) == 8);
    samvolip_map_free(map);
}

static _Thread_local unsigned lets_go, takes_back;
static int held;

static void *let_go(void)
{
    EXPECT(lets_go++ == takes_back);
    return &held;
}

static void take_back(void *what)
{
    EXPECT(what == &held && ++takes_back == lets_go);
}

static atomic_bool is_over;

static void *renew_by_turns(void *map)
{
    for (uint64_t room = 1000; !is_over; room = room * 7 % 5000 + 1000)
        EXPECT(samvolip_map_renew(map, room) == SAMVOLIP_OK);
    EXPECT(lets_go == 0); /* it is no call of one key */
    return NULL;
}

/* A write that renews lets go of what its caller holds, and so does one that waits while another thread renews. */
static void lets_go_around_waits(void)
{
    samvolip_map *map = open_map(1000, 1 << 17); /* tables of 2^11 and 2^12 slots */
    uint64_t size;
    int code = 0;
    samvolip_map_lets_go(map, let_go, take_back);
    for (uint64_t key = 0; key < 1000; key++)
        EXPECT(samvolip_map_add(map, key, 1, NULL) == 0 && samvolip_map_get_word(map, key) == 1);
    EXPECT(lets_go == 0 && samvolip_map_size(map, &size) == SAMVOLIP_OK && size == 1000 && lets_go == 0);
    for (uint64_t key = 1000; lets_go == 0; key++)
        EXPECT(key < 2048 && samvolip_map_add(map, key, 1, NULL) == 0);
    samvolip_map_figures figures;
    EXPECT(samvolip_map_look(map, &figures) == SAMVOLIP_OK && figures.renewals == 1);
    for (uint64_t key = 2000; code == 0; key++)
        EXPECT((code = samvolip_map_put(map, key, 1, NULL)) == 0 || code == SAMVOLIP_E_OUT_OF_MEMORY);
    EXPECT(lets_go > 1 && lets_go == takes_back);
    samvolip_map_free(map);

    pthread_t renewing;
    map = open_map(1000, 0);
    samvolip_map_lets_go(map, let_go, take_back);
    EXPECT(pthread_create(&renewing, NULL, renew_by_turns, map) == 0);
    lets_go = takes_back = 0;
    while (lets_go < 20)
        EXPECT(samvolip_map_add(map, 1, 1, NULL) >= 0);
    is_over = true;
    EXPECT(pthread_join(renewing, NULL) == 0 && lets_go == takes_back);
    samvolip_map_free(map);
}

int main(void)
{
    alarm(60); /* a wait that isn't told would last for ever */
    answers_in_one_word();
    calls_many_keys();
    lets_go_around_waits();
    puts("bindings: well");
    return 0;
}
