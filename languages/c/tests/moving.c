/* The map of ../src/moving.h, by one thread: each call's reply through many moves, against a plain array of numbers; what is refused; maps
   beyond those that a thread knows at once; and that all cores but a few are freed. */
#include "../src/cores.h"
#include "../src/moving.h"

#include "expect.h"

#include <stdbool.h>
#include <string.h>

enum { KEYS = 3000, CALLS = IS_SANITIZED ? 4000 : 20000, MAPS = 100 };

/* What the map has to have. */
static struct {
    bool is_there;
    uint64_t number;
} plain[KEYS];

static uint64_t state = 88172645463325252;

static uint64_t some(uint64_t below)
{
    state ^= state << 13;
    state ^= state >> 7;
    state ^= state << 17;
    return state % below;
}

static struct moving_map *opened(uint32_t slots, uint64_t memory)
{
    struct moving_map *map = moving_open((struct moving_options){.slots = slots, .memory = memory, .lanes = 4});
    EXPECT(map != NULL);
    return map;
}

static struct moving_figures figures_of(struct moving_map *map)
{
    struct moving_figures figures;
    moving_look(map, &figures);
    return figures;
}

static void set(uint64_t key, bool is_there, uint64_t number)
{
    plain[key].is_there = is_there;
    plain[key].number = is_there ? number : 0;
}

/* ---- each call against the array ------------------------------------------------------------ */

/* The key as the map gets it: in a row, or with low bits that few others have. */
static uint64_t spread;
static uint64_t key_of(uint64_t key) { return key << spread; }

static void puts_a_number(struct moving_map *map, uint64_t key, uint64_t number, unsigned how)
{
    bool was = plain[key].is_there;
    uint64_t there = plain[key].number, before = 77;
    int code;
    switch (how) {
    case 0:
        code = moving_put(map, key_of(key), number, &before);
        set(key, true, number);
        break;
    case 1:
        code = moving_put_if_absent(map, key_of(key), number, &before);
        set(key, true, was ? there : number);
        break;
    case 2:
        code = moving_add(map, key_of(key), number, &before);
        set(key, true, there + number);
        break;
    case 3:
        code = moving_fetch_max(map, key_of(key), number, &before);
        set(key, true, was && there > number ? there : number);
        break;
    case 4:
        code = moving_fetch_min(map, key_of(key), number, &before);
        set(key, true, was && there < number ? there : number);
        break;
    case 5:
        code = moving_replace(map, key_of(key), number, &before);
        set(key, was, number);
        break;
    default:
        code = moving_get_or_insert(map, key_of(key), number, &before);
        set(key, true, was ? there : number);
        there = was ? there : number;
    }
    EXPECT(code == (was ? SAMVOLIP_PRESENT : SAMVOLIP_ABSENT) && before == there);
}

static void takes_it_out(struct moving_map *map, uint64_t key, unsigned how)
{
    bool was = plain[key].is_there;
    uint64_t there = plain[key].number, before = 77;
    if (how == 0) {
        EXPECT(moving_remove(map, key_of(key), &before) == (was ? SAMVOLIP_PRESENT : SAMVOLIP_ABSENT) && before == there);
        set(key, false, 0);
    } else if (how == 1) {
        EXPECT(moving_remove_if(map, key_of(key), there) == was);
        set(key, false, 0);
    } else {
        EXPECT(moving_remove_if(map, key_of(key), there + 1) == 0);
    }
}

static void replaces_it(struct moving_map *map, uint64_t key, uint64_t number)
{
    bool was = plain[key].is_there;
    EXPECT(moving_replace_if(map, key_of(key), plain[key].number + 1, number) == 0);
    EXPECT(moving_replace_if(map, key_of(key), plain[key].number, number) == was);
    set(key, was, number);
}

/* From each expectation to each number, or none. */
static void exchanges(struct moving_map *map, uint64_t key, uint64_t number)
{
    bool was = plain[key].is_there, expects = some(2), stays = some(2), is_right = some(4) > 0;
    uint64_t there = plain[key].number, expected = is_right ? there : there + 1;
    samvolip_reply reply = {77, 77, 77};
    EXPECT(moving_compare_exchange(map, key_of(key), expects ? &expected : NULL, stays ? &number : NULL, &reply) == SAMVOLIP_OK);
    bool matches = expects ? was && is_right : !was;
    EXPECT(reply.had == was && reply.before == there && reply.matched == matches);
    if (matches)
        set(key, stays, number);
}

static void makes_a_call(struct moving_map *map, uint64_t key)
{
    uint64_t number = some(1000), there = 77;
    unsigned kind = (unsigned)some(13);
    if (kind < 7)
        puts_a_number(map, key, number, kind);
    else if (kind < 10)
        takes_it_out(map, key, kind - 7);
    else if (kind == 10)
        replaces_it(map, key, number);
    else if (kind == 11)
        exchanges(map, key, number);
    EXPECT(moving_get(map, key_of(key), &there) == plain[key].is_there && there == plain[key].number);
}

static void all_are_there(struct moving_map *map)
{
    for (uint64_t key = 0; key < KEYS; key++) {
        uint64_t there = 77;
        EXPECT(moving_get(map, key_of(key), &there) == plain[key].is_there && there == plain[key].number);
    }
}

/* Calls of so many keys at a time, which others follow. */
static void replies(uint32_t slots, uint64_t at_a_time)
{
    struct moving_map *map = opened(slots, 0);
    memset(plain, 0, sizeof plain);
    for (uint64_t call = 0; call < CALLS; call++) {
        uint64_t first = call * (KEYS - at_a_time) / CALLS, oldest = plain[first / 2].is_there ? first / 2 : first + some(at_a_time);
        makes_a_call(map, call % 2 ? first + some(at_a_time) : oldest);
        if (first > at_a_time)
            takes_it_out(map, some(first), 0);
    }
    all_are_there(map);
    EXPECT(figures_of(map).moves > 1 && figures_of(map).cores <= 6 && figures_of(map).hazards == 0);
    moving_close(map);
}

/* ---- what is refused ------------------------------------------------------------------------ */

static void refuses_numbers_and_keys(void)
{
    struct moving_map *map = opened(4, 0);
    const uint64_t most = SAMVOLIP_CORE_USER_MAX, past = most + 1, last = SAMVOLIP_KEY_MAX;
    uint64_t number = 77;
    samvolip_reply reply;
    for (uint64_t key = 0; key < 3; key++) {
        EXPECT(moving_put(map, key, past, &number) == SAMVOLIP_E_VALUE_RANGE);
        EXPECT(moving_put_if_absent(map, key, SAMVOLIP_VALUE_MAX, &number) == SAMVOLIP_E_VALUE_RANGE);
        EXPECT(moving_replace_if(map, key, past, 1) == SAMVOLIP_E_VALUE_RANGE);
        EXPECT(moving_remove_if(map, key, UINT64_MAX) == SAMVOLIP_E_VALUE_RANGE);
        EXPECT(moving_compare_exchange(map, key, NULL, &past, &reply) == SAMVOLIP_E_VALUE_RANGE);
        EXPECT(number == 77 && moving_put(map, key, most, NULL) == SAMVOLIP_ABSENT);
        EXPECT(moving_add(map, key, 1, &number) == SAMVOLIP_E_SUM_RANGE && number == 77);
        EXPECT(moving_add(map, key, 0, NULL) == SAMVOLIP_PRESENT);
    }
    EXPECT(moving_put(map, last + 1, 1, &number) == SAMVOLIP_E_KEY_RANGE && number == 77);
    EXPECT(moving_get(map, UINT64_MAX, &number) == SAMVOLIP_E_KEY_RANGE && number == 77);
    EXPECT(moving_put(map, last, 5, NULL) == SAMVOLIP_ABSENT && moving_get(map, last, &number) == SAMVOLIP_PRESENT && number == 5);
    moving_close(map);
    EXPECT(moving_open((struct moving_options){.slots = 5}) == NULL && moving_open((struct moving_options){.lanes = 241}) == NULL);
    EXPECT(moving_open((struct moving_options){.slots = 2}) == NULL && moving_open((struct moving_options){.memory = 99}) == NULL);
}

/* With so many bytes at most new keys are refused in the end. Keys that are there are written, and removed ones make room in time. */
static void memory_is_bounded(uint64_t memory)
{
    struct moving_map *map = opened(4, memory);
    uint64_t keys = 0, number;
    while (moving_put(map, keys, keys, NULL) == SAMVOLIP_ABSENT)
        keys++;
    EXPECT(moving_add(map, keys, 1, NULL) == SAMVOLIP_E_OUT_OF_MEMORY);
    EXPECT(moving_get(map, keys, &number) == SAMVOLIP_ABSENT && moving_remove(map, keys, NULL) == SAMVOLIP_ABSENT);
    EXPECT(keys >= 3 && figures_of(map).bytes <= memory);
    for (uint64_t key = 0; key < keys; key++) {
        EXPECT(moving_add(map, key, 1, &number) == SAMVOLIP_PRESENT && number == key);
        EXPECT(moving_put_if_absent(map, key, 99, &number) == SAMVOLIP_PRESENT && number == key + 1);
    }
    for (uint64_t key = 0; key < keys; key++)
        EXPECT(moving_remove(map, key, &number) == SAMVOLIP_PRESENT && number == key + 1);
    for (uint64_t key = keys; key < 9 * keys; key++)
        EXPECT(moving_put(map, key, key, NULL) == SAMVOLIP_ABSENT && moving_remove(map, key, &number) == SAMVOLIP_PRESENT && number == key);
    EXPECT(figures_of(map).bytes <= memory);
    moving_close(map);
}

/* ---- many maps, and moves without end -------------------------------------------------------- */

static void many_maps(void)
{
    struct moving_map *maps[MAPS];
    uint64_t number;
    for (unsigned turn = 0; turn < 3; turn++) {
        for (uint64_t i = 0; i < MAPS; i++)
            maps[i] = opened(4, 0);
        for (uint64_t key = 0; key < 10; key++)
            for (uint64_t i = 0; i < MAPS; i++)
                EXPECT(moving_add(maps[i], key, key + i, NULL) == SAMVOLIP_ABSENT);
        for (uint64_t i = 0; i < MAPS; i++) {
            EXPECT(moving_get(maps[i], 9, &number) == SAMVOLIP_PRESENT && number == 9 + i && figures_of(maps[i]).owners == 1);
            if (i % 2)
                moving_leave(maps[i]);
            EXPECT(figures_of(maps[i]).owners == 1 - i % 2);
            moving_close(maps[i]);
        }
    }
}

/* New keys come and old ones go: the cores follow each other, and few stay. */
static void churns(uint32_t slots, uint64_t at_a_time)
{
    struct moving_map *map = opened(slots, 0);
    uint64_t number;
    for (uint64_t key = 0; key < CALLS; key++) {
        EXPECT(moving_put(map, key, key % 1000, NULL) == SAMVOLIP_ABSENT);
        if (key >= at_a_time)
            EXPECT(moving_remove(map, key - at_a_time, &number) == SAMVOLIP_PRESENT && number == (key - at_a_time) % 1000);
        if (key % 997 == 0)
            EXPECT(figures_of(map).cores <= 6);
    }
    EXPECT(figures_of(map).moves > 10);
    moving_close(map);
}

int main(void)
{
    for (uint32_t slots = 4; slots <= 1024; slots *= 4)
        for (spread = 0; spread <= 40; spread += 20)
            replies(slots, slots < 64 ? 10 : 700);
    refuses_numbers_and_keys();
    for (uint64_t memory = 4096; memory <= 1 << 20; memory *= 2)
        memory_is_bounded(memory);
    many_maps();
    churns(4, 1);
    churns(16, 100);
    puts("moving: each reply is the array's");
    return 0;
}
