/* Each call once, with each of its answers and refusals but want of memory (memory.c), a write
 * that others came before, and SAMVOLIP_E_LOST; by one thread. And the text of each code. */
#include "samvolip.h"

#include "expect.h"

#include <string.h>

static void refuses_shapes(void)
{
    static const struct {
        int code;
        samvolip_shape shape;
    } wrong[] = {
        {SAMVOLIP_E_TABLES, {{4}, 0, 1, 1, 1, 8}},
        {SAMVOLIP_E_TABLES, {{4}, 17, 1, 1, 1, 8}},
        {SAMVOLIP_E_EXPONENTS, {{1}, 1, 1, 1, 1, 8}},
        {SAMVOLIP_E_EXPONENTS, {{29}, 1, 1, 1, 1, 8}},
        {SAMVOLIP_E_FALLING, {{5, 4}, 2, 1, 1, 1, 8}},
        {SAMVOLIP_E_SLOTS, {{2, 28, 28, 28, 28}, 5, 1, 1, 1, 8}},
        {SAMVOLIP_E_SEATS, {{4}, 1, 0, 1, 1, 8}},
        {SAMVOLIP_E_SEATS, {{4}, 1, 257, 1, 1, 8}},
        {SAMVOLIP_E_SEATS, {{4}, 1, 65537, 1, 1, 8}},
        {SAMVOLIP_E_STRIPES, {{4}, 1, 1, 0, 1, 8}},
        {SAMVOLIP_E_STRIPES, {{4}, 1, 1, 257, 1, 8}},
        {SAMVOLIP_E_STRIPES, {{4}, 1, 1, 65537, 1, 8}},
        {SAMVOLIP_E_REPROBES, {{4}, 1, 1, 1, 0, 8}},
        {SAMVOLIP_E_CHUNK, {{4}, 1, 1, 1, 1, 2}},
        {SAMVOLIP_E_CHUNK, {{4}, 1, 1, 1, 1, 24}},
        {SAMVOLIP_E_CHUNK, {{4}, 1, 1, 1, 1, 2048}},

        /* all is wrong, then all but the first, and so on: the first is told */
        {SAMVOLIP_E_TABLES, {{28, 28, 28, 28, 28, 1}, 17, 0, 0, 0, 0}},
        {SAMVOLIP_E_EXPONENTS, {{28, 28, 28, 28, 28, 1}, 6, 0, 0, 0, 0}},
        {SAMVOLIP_E_FALLING, {{28, 28, 28, 28, 28, 2}, 6, 0, 0, 0, 0}},
        {SAMVOLIP_E_SLOTS, {{28, 28, 28, 28, 28}, 5, 0, 0, 0, 0}},
        {SAMVOLIP_E_SEATS, {{28, 28, 28, 28}, 4, 0, 0, 0, 0}},
        {SAMVOLIP_E_STRIPES, {{28, 28, 28, 28}, 4, 256, 0, 0, 0}},
        {SAMVOLIP_E_REPROBES, {{28, 28, 28, 28}, 4, 256, 256, 0, 0}},
        {SAMVOLIP_E_CHUNK, {{28, 28, 28, 28}, 4, 256, 256, 1, 0}},
    };
    for (size_t i = 0; i < sizeof wrong / sizeof *wrong; i++) {
        samvolip_seat seat = SAMVOLIP_SEAT_INIT;
        EXPECT(samvolip_open(&wrong[i].shape, &seat) == wrong[i].code);
        EXPECT(seat.handle == NULL);
    }
    samvolip_shape most = samvolip_shape_for_keys(SAMVOLIP_MOST_KEYS + 1, 1);
    samvolip_seat seat = SAMVOLIP_SEAT_INIT;
    EXPECT(samvolip_open(&most, &seat) == SAMVOLIP_E_TABLES);
    most = samvolip_shape_for_keys(UINT64_MAX, 1);
    EXPECT(samvolip_open(&most, &seat) == SAMVOLIP_E_TABLES);
    most = samvolip_shape_for_keys(100, 0);
    EXPECT(samvolip_open(&most, &seat) == SAMVOLIP_E_SEATS);
    most = samvolip_shape_for_keys(100, 257);
    EXPECT(samvolip_open(&most, &seat) == SAMVOLIP_E_SEATS);
    most = samvolip_shape_for_keys(SAMVOLIP_MOST_KEYS, 0);
    EXPECT(samvolip_open(&most, &seat) == SAMVOLIP_E_SEATS);
    most = samvolip_shape_for_keys(SAMVOLIP_MOST_KEYS, 257);
    EXPECT(samvolip_open(&most, &seat) == SAMVOLIP_E_SEATS);
    most = samvolip_shape_for_churn(0, 715827884, 1);
    EXPECT(samvolip_open(&most, &seat) == SAMVOLIP_E_TABLES);
    most = samvolip_shape_for_churn((1 << 25) + 1, 0, 1);
    EXPECT(samvolip_open(&most, &seat) == SAMVOLIP_E_TABLES);
    most = samvolip_shape_for_churn(UINT64_MAX, 1, 1);
    EXPECT(samvolip_open(&most, &seat) == SAMVOLIP_E_TABLES);
    most = samvolip_shape_for_churn(1, UINT64_MAX, 1);
    EXPECT(samvolip_open(&most, &seat) == SAMVOLIP_E_TABLES);
    most = samvolip_shape_for_churn(100, 1000, 0);
    EXPECT(samvolip_open(&most, &seat) == SAMVOLIP_E_SEATS);
    most = samvolip_shape_for_churn(100, 1000, 257);
    EXPECT(samvolip_open(&most, &seat) == SAMVOLIP_E_SEATS);
    EXPECT(seat.handle == NULL);
}

/* The plans that `Shape::for_keys` of nb_core makes by its tests. */
static void makes_shapes_for_keys(void)
{
    static const struct {
        uint64_t most;
        unsigned seats;
        samvolip_shape shape;
    } made[] = {
        {0, 1, {{5}, 1, 1, 1, 18, 32}},
        {21, 4, {{5}, 1, 4, 4, 18, 32}},
        {22, 4, {{6}, 1, 4, 4, 18, 32}},
        {1000, 8, {{11}, 1, 8, 8, 18, 32}},
        {1365, 8, {{11}, 1, 8, 8, 18, 32}},
        {1366, 9, {{4, 12}, 2, 9, 9, 18, 32}},
        {65536, 9, {{9, 17}, 2, 9, 9, 18, 32}},
        {174763, 17, {{10, 18}, 2, 17, 16, 18, 32}},
        {174764, 100, {{11, 19}, 2, 100, 16, 18, 32}},
        {349526, 256, {{4, 12, 20}, 3, 256, 16, 18, 32}},
        {699051, 8, {{4, 12, 20}, 3, 8, 8, 18, 32}},
        {699052, 16, {{5, 13, 21}, 3, 16, 16, 18, 32}},
        {1000000, 17, {{5, 13, 21}, 3, 17, 16, 18, 32}},
        {2796202, 1, {{6, 14, 22}, 3, 1, 1, 18, 32}},
        {44739243, 128, {{10, 18, 26}, 3, 128, 16, 18, 32}},
        {44739244, 128, {{11, 19, 27}, 3, 128, 16, 18, 32}},
        {SAMVOLIP_MOST_KEYS, 256, {{4, 12, 20, 28}, 4, 256, 16, 18, 32}},
    };
    for (size_t i = 0; i < sizeof made / sizeof *made; i++) {
        samvolip_shape shape = samvolip_shape_for_keys(made[i].most, made[i].seats);
        EXPECT(memcmp(&shape, &made[i].shape, sizeof shape) == 0);
    }
}

/* The plans that `Shape::for_churn` of nb_core makes by its test. */
static void makes_shapes_for_churn(void)
{
    static const struct {
        uint64_t live, ever;
        unsigned seats;
        uint32_t tables, exponent, stripes;
    } made[] = {
        {0, 0, 1, 1, 9, 1},
        {1, 341, 8, 1, 9, 8},
        {1, 342, 8, 2, 9, 8},
        {256, 512, 16, 2, 9, 16},
        {256, 513, 16, 3, 9, 16},
        {256, 2901, 17, 16, 9, 16},
        {256, 2901, 1, 16, 9, 1},
        {256, 2902, 17, 6, 10, 16},
        {257, 683, 17, 1, 10, 16},
        {257, 684, 17, 2, 10, 16},
        {100, 1000, 64, 4, 9, 16},
        {100, 1024, 1, 4, 9, 1},
        {100, 10000, 64, 8, 11, 16},
        {10000, 20000, 1, 1, 15, 1},
        {10000, 1000000, 64, 13, 17, 16},
        {1000000, 100000000, 64, 10, 24, 16},
        {1 << 25, 0, 256, 1, 26, 16},
        {1 << 25, 380283563, 256, 16, 26, 16},
        {1, 715827873, 256, 16, 26, 16},
        {0, 715827883, 256, 16, 26, 16},
    };
    for (size_t i = 0; i < sizeof made / sizeof *made; i++) {
        samvolip_shape shape = samvolip_shape_for_churn(made[i].live, made[i].ever, made[i].seats);
        samvolip_shape wanted = {
            {0}, made[i].tables, made[i].seats, made[i].stripes, UINT32_MAX, 64,
        };
        for (uint32_t g = 0; g < wanted.tables; g++)
            wanted.exponents[g] = made[i].exponent;
        EXPECT(memcmp(&shape, &wanted, sizeof shape) == 0);
    }
}

/* Mixed keys come one after another, and each goes when so many others have come. None is refused, and at the end no new map is
   due. Returns how many tables the map has left behind. */
static uint32_t come_and_go(uint64_t live, uint64_t ever)
{
    const samvolip_shape shape = samvolip_shape_for_churn(live, ever, 1);
    samvolip_seat seat = SAMVOLIP_SEAT_INIT;
    EXPECT(samvolip_open(&shape, &seat) == SAMVOLIP_OK);
    for (uint64_t i = 0; i < ever; i++) {
        uint64_t before = 99;
        if (i >= live)
            EXPECT(samvolip_remove(&seat, samvolip_mix(i - live), &before) == SAMVOLIP_PRESENT);
        EXPECT(i < live || before == i - live);
        EXPECT(samvolip_put(&seat, samvolip_mix(i), i, NULL) == SAMVOLIP_ABSENT);
    }
    EXPECT(samvolip_size_estimate(&seat) == live);
    EXPECT(samvolip_should_renew(&seat) == 0);
    const uint32_t generation = samvolip_generation(&seat);
    samvolip_free(&seat);
    return generation;
}

/* In the first, twice as many keys come as the last table has slots. In the second as many come as sixteen of the smallest tables
   have room for, with as many live ones as there may be. */
static void keys_come_and_go(void)
{
    EXPECT(come_and_go(100, 1024) == 2);
    come_and_go(256, 2901);
    come_and_go(1000, 20000);
}

static void refuses_headers(void)
{
    const samvolip_shape shape = samvolip_shape_for_keys(10, 1);
    const samvolip_header ours = SAMVOLIP_HEADER_INIT;
    const samvolip_shape no_shape = {{0}, 0, 0, 0, 0, 0};
    samvolip_seat seat = SAMVOLIP_SEAT_INIT;
    samvolip_header wrong[] = {ours, ours, ours, ours, ours, ours, ours, ours, ours, ours, ours, ours, ours, ours};
    wrong[0].version++;
    wrong[1].version = 0;
    wrong[2].shape -= 4;
    wrong[3].seat = 4;
    wrong[4].ended = 0;
    wrong[5].reply += 8;
    wrong[6].entry = 8;
    wrong[7].version = 0x000801; /* another series */
    wrong[8].version = 0x0008ff;
    wrong[9].version = 0x010000;
    wrong[10].occupancy += 4;
    wrong[11].occupancy = 8;
    wrong[12].cursor = 16;
    wrong[13].entry += 8;
    for (size_t i = 0; i < sizeof wrong / sizeof *wrong; i++) {
        EXPECT(samvolip_open_with(&wrong[i], &shape, &seat) == SAMVOLIP_E_VERSION);
        EXPECT(samvolip_open_with(&wrong[i], &no_shape, &seat) == SAMVOLIP_E_VERSION);
        EXPECT(seat.handle == NULL);
    }
    /* the first version of the series, and larger handles and cursors, are taken */
    samvolip_header taken[] = {ours, ours, ours, ours};
    taken[0].version = 0x000900;
    taken[1].seat = taken[1].ended = sizeof(void *);
    taken[2].seat = taken[2].ended = 256;
    taken[3].cursor = 256;
    for (size_t i = 0; i < sizeof taken / sizeof *taken; i++) {
        EXPECT(samvolip_open_with(&taken[i], &no_shape, &seat) == SAMVOLIP_E_TABLES);
        EXPECT(samvolip_open_with(&taken[i], &shape, &seat) == SAMVOLIP_OK);
        samvolip_free(&seat);
    }
}

static void has_room_for(uint64_t most, samvolip_shape shape)
{
    samvolip_seat seat = SAMVOLIP_SEAT_INIT;
    EXPECT(samvolip_open(&shape, &seat) == SAMVOLIP_OK);
    for (uint64_t key = 0; key < most; key++)
        EXPECT(samvolip_put(&seat, key * 977, key, NULL) == SAMVOLIP_ABSENT);
    samvolip_free(&seat);
}

static void has_room_for_keys(void)
{
    for (uint64_t most = 0; most < 3000; most += 7)
        has_room_for(most, samvolip_shape_for_keys(most, 1));
    has_room_for(349525, samvolip_shape_for_keys(349525, 1));
    has_room_for(699051, samvolip_shape_for_keys(699051, 1));
}

static void puts_and_gets(samvolip_seat *seat)
{
    uint64_t number = 99, before = 98;
    samvolip_reply reply = {1, 2, 3};
    EXPECT(samvolip_get(seat, 7, &number) == SAMVOLIP_ABSENT && number == 0);
    EXPECT(samvolip_put(seat, 7, 5, &before) == SAMVOLIP_ABSENT && before == 0);
    EXPECT(samvolip_put(seat, 7, 6, &before) == SAMVOLIP_PRESENT && before == 5);
    EXPECT(samvolip_get(seat, 7, &number) == SAMVOLIP_PRESENT && number == 6);
    EXPECT(samvolip_put_if_absent(seat, 7, 1, &before) == SAMVOLIP_PRESENT && before == 6);
    EXPECT(samvolip_put_if_absent(seat, 8, 1, NULL) == SAMVOLIP_ABSENT);
    EXPECT(samvolip_replace(seat, 9, 1, NULL) == SAMVOLIP_ABSENT);
    EXPECT(samvolip_replace(seat, 8, 2, &before) == SAMVOLIP_PRESENT && before == 1);
    EXPECT(samvolip_replace_if(seat, 8, 1, 3) == 0);
    EXPECT(samvolip_replace_if(seat, 8, 2, 3) == 1);
    EXPECT(samvolip_remove_if(seat, 8, 2) == 0);
    EXPECT(samvolip_remove_if(seat, 8, 3) == 1);
    EXPECT(samvolip_add(seat, 8, 4, NULL) == SAMVOLIP_ABSENT);
    EXPECT(samvolip_add(seat, 8, 4, &before) == SAMVOLIP_PRESENT && before == 4);
    EXPECT(samvolip_remove(seat, 8, &before) == SAMVOLIP_PRESENT && before == 8);
    EXPECT(samvolip_remove(seat, 8, &before) == SAMVOLIP_ABSENT && before == 0);
    EXPECT(samvolip_put_if_match(seat, 7, SAMVOLIP_ANY, 0, SAMVOLIP_PUT, 1, 0, &reply) == 0);
    EXPECT(reply.had == 1 && reply.before == 6 && reply.matched == 1);
    const uint64_t one = 1, two = 2;
    EXPECT(samvolip_compare_exchange(seat, 7, &two, &one, 1, &reply) == 0 && !reply.matched);
    EXPECT(samvolip_compare_exchange(seat, 7, &one, &two, 1, &reply) == 0 && reply.matched);
    EXPECT(samvolip_compare_exchange(seat, 7, &two, NULL, 1, &reply) == 0 && reply.matched);
    EXPECT(samvolip_compare_exchange(seat, 7, NULL, &one, 1, &reply) == 0 && reply.matched);
    EXPECT(reply.had == 0 && reply.before == 0 && reply.matched == 1);
    EXPECT(samvolip_size_estimate(seat) == 1);
    EXPECT(samvolip_generation(seat) == 0);
}

/* Reads of many keys find what reads of each find, in several tables and for more keys than are read
   at a time; twice the same key; and no key at all. */
static void gets_many(void)
{
    enum { MANY = 300 };
    const samvolip_shape shape = {{2, 4, 9}, 3, 1, 1, 4, 4};
    uint64_t keys[MANY], numbers[MANY + 1], number;
    samvolip_seat seat = SAMVOLIP_SEAT_INIT;
    EXPECT(samvolip_open(&shape, &seat) == SAMVOLIP_OK);
    for (uint64_t i = 0; i < MANY; i++) {
        keys[i] = samvolip_mix(i % 290) >> 1;
        if (i % 3)
            EXPECT(samvolip_put(&seat, keys[i], i % 290, NULL) >= 0);
    }
    numbers[MANY] = 5;
    EXPECT(samvolip_get_many(&seat, keys, MANY, numbers, MANY + 1, UINT64_MAX) == SAMVOLIP_OK);
    for (int i = 0; i < MANY; i++) {
        int had = samvolip_get(&seat, keys[i], &number);
        EXPECT(numbers[i] == (had ? number : UINT64_MAX));
    }
    EXPECT(numbers[MANY] == 5);
    EXPECT(samvolip_get_many(&seat, keys, 0, numbers, 0, 7) == SAMVOLIP_OK);
    EXPECT(numbers[12] == UINT64_MAX && numbers[13] == 13);
    /* refused, it does nothing */
    EXPECT(samvolip_get_many(&seat, keys, MANY, numbers, MANY - 1, 7) == SAMVOLIP_E_ROOM);
    keys[MANY - 1] = SAMVOLIP_KEY_MAX + 1;
    EXPECT(samvolip_get_many(&seat, keys, MANY, numbers, MANY, 7) == SAMVOLIP_E_KEY_RANGE);
    EXPECT(numbers[12] == UINT64_MAX && numbers[13] == 13);
    samvolip_free(&seat);
}

/* The writes by their names with tries: each answer and refusal, except a contended one. */
static void tries(samvolip_seat *seat)
{
    const uint64_t past_key = SAMVOLIP_KEY_MAX + 1, past = SAMVOLIP_VALUE_MAX + 1;
    uint64_t was = 99;
    EXPECT(samvolip_try_put(seat, 50, 5, 1, &was) == SAMVOLIP_ABSENT && was == 0);
    EXPECT(samvolip_try_put(seat, 50, 6, 0, &was) == SAMVOLIP_PRESENT && was == 5);
    EXPECT(samvolip_try_put_if_absent(seat, 50, 7, 1, &was) == SAMVOLIP_PRESENT && was == 6);
    EXPECT(samvolip_try_put_if_absent(seat, 51, 7, 1, &was) == SAMVOLIP_ABSENT && was == 0);
    EXPECT(samvolip_try_add(seat, 51, 7, 1, &was) == SAMVOLIP_PRESENT && was == 7);
    EXPECT(samvolip_try_add(seat, 52, 7, UINT32_MAX, &was) == SAMVOLIP_ABSENT && was == 0);
    EXPECT(samvolip_try_add(seat, 51, SAMVOLIP_VALUE_MAX, 1, &was) == SAMVOLIP_E_SUM_RANGE);
    EXPECT(samvolip_try_remove(seat, 51, 1, &was) == SAMVOLIP_PRESENT && was == 14);
    EXPECT(samvolip_try_remove(seat, 51, 1, &was) == SAMVOLIP_ABSENT && was == 0);
    was = 99;
    EXPECT(samvolip_try_put(seat, past_key, past, 1, &was) == SAMVOLIP_E_KEY_RANGE);
    EXPECT(samvolip_try_put_if_absent(seat, past_key, past, 1, &was) == SAMVOLIP_E_KEY_RANGE);
    EXPECT(samvolip_try_add(seat, past_key, past, 1, &was) == SAMVOLIP_E_KEY_RANGE);
    EXPECT(samvolip_try_remove(seat, past_key, 1, &was) == SAMVOLIP_E_KEY_RANGE);
    EXPECT(samvolip_try_put(seat, 50, past, 1, &was) == SAMVOLIP_E_VALUE_RANGE);
    EXPECT(samvolip_try_put_if_absent(seat, 50, past, 1, &was) == SAMVOLIP_E_VALUE_RANGE);
    EXPECT(samvolip_try_add(seat, 50, past, 1, &was) == SAMVOLIP_E_VALUE_RANGE);
    EXPECT(samvolip_try_put_below(seat, past_key, past, past, 1, &was) == SAMVOLIP_E_KEY_RANGE);
    EXPECT(samvolip_try_add_below(seat, past_key, past, past, 1, &was) == SAMVOLIP_E_KEY_RANGE);
    EXPECT(samvolip_try_remove_below(seat, past_key, past, 1, &was) == SAMVOLIP_E_KEY_RANGE);
    EXPECT(samvolip_try_put_below(seat, 50, past, 9, 1, &was) == SAMVOLIP_E_VALUE_RANGE);
    EXPECT(samvolip_try_put_below(seat, 50, 9, past, 1, &was) == SAMVOLIP_E_VALUE_RANGE);
    EXPECT(samvolip_try_add_below(seat, 50, 9, past, 1, &was) == SAMVOLIP_E_VALUE_RANGE);
    EXPECT(samvolip_try_remove_below(seat, 50, past, 1, &was) == SAMVOLIP_E_VALUE_RANGE);
    EXPECT(was == 99);
    EXPECT(samvolip_try_remove(seat, 50, 1, &was) == SAMVOLIP_PRESENT && was == 6);
    EXPECT(samvolip_try_remove(seat, 52, 1, &was) == SAMVOLIP_PRESENT && was == 7);
}

static void tells_how_full(void)
{
    const samvolip_shape shape = {{2, 5}, 2, 1, 1, UINT32_MAX, 8};
    samvolip_seat seat = SAMVOLIP_SEAT_INIT;
    samvolip_slots found = {99, 98, 97};
    EXPECT(samvolip_open(&shape, &seat) == SAMVOLIP_OK);
    samvolip_occupancy(&seat, &found);
    EXPECT(found.taken == 0 && found.looked == 4 && found.is_last == 0);
    for (uint64_t key = 0; key < 21; key++) {
        EXPECT(samvolip_put(&seat, key, key, NULL) == SAMVOLIP_ABSENT);
        EXPECT(samvolip_remove(&seat, key, NULL) == SAMVOLIP_PRESENT);
    }
    samvolip_occupancy(&seat, &found);
    EXPECT(found.is_last == 1 && found.looked == 32);
    EXPECT(samvolip_should_renew(&seat) == (found.taken > 21));
    for (uint64_t key = 21; key < 32; key++)
        EXPECT(samvolip_put(&seat, key, key, NULL) == SAMVOLIP_ABSENT);
    samvolip_occupancy(&seat, &found);
    EXPECT(found.is_last == 1 && found.taken > 21 && samvolip_should_renew(&seat) == 1);
    samvolip_free(&seat);
}

static void refuses_calls(samvolip_seat *seat)
{
    uint64_t number = 99;
    const uint64_t past_key = SAMVOLIP_KEY_MAX + 1, past = SAMVOLIP_VALUE_MAX + 1;
    const samvolip_reply as_before = {1, 2, 3};
    samvolip_reply reply = as_before;
    EXPECT(samvolip_get(seat, past_key, &number) == SAMVOLIP_E_KEY_RANGE && number == 99);
    EXPECT(samvolip_put_if_match(seat, past_key, 9, past, 9, past, 1, &reply)
           == SAMVOLIP_E_KEY_RANGE);
    EXPECT(samvolip_put_if_match(seat, 0, 9, past, 9, past, 1, &reply) == SAMVOLIP_E_WANT);
    EXPECT(samvolip_put_if_match(seat, 0, SAMVOLIP_EQUAL, past, 9, past, 1, &reply)
           == SAMVOLIP_E_VALUE_RANGE);
    EXPECT(samvolip_put_if_match(seat, 0, 0, past, 9, past, 1, &reply) == SAMVOLIP_E_CHANGE);
    EXPECT(samvolip_put_if_match(seat, 0, 0, past, SAMVOLIP_PUT, past, 1, &reply)
           == SAMVOLIP_E_VALUE_RANGE);
    EXPECT(samvolip_put_if_match(seat, 0, 0, past, SAMVOLIP_ADD, past, 1, &reply)
           == SAMVOLIP_E_VALUE_RANGE);
    EXPECT(samvolip_put(seat, 0, SAMVOLIP_VALUE_MAX, NULL) == SAMVOLIP_ABSENT);
    EXPECT(samvolip_put_if_match(seat, 0, 0, 0, SAMVOLIP_ADD, 1, 1, &reply)
           == SAMVOLIP_E_SUM_RANGE);
    EXPECT(memcmp(&reply, &as_before, sizeof reply) == 0);
    EXPECT(samvolip_put(seat, 0, past, &number) == SAMVOLIP_E_VALUE_RANGE && number == 99);
    EXPECT(samvolip_get(seat, 0, &number) == SAMVOLIP_PRESENT && number == SAMVOLIP_VALUE_MAX);
    EXPECT(samvolip_put(seat, SAMVOLIP_KEY_MAX, 0, NULL) == SAMVOLIP_ABSENT);
    EXPECT(samvolip_get(seat, SAMVOLIP_KEY_MAX, &number) == SAMVOLIP_PRESENT && number == 0);
}

static void refuses_when_full(void)
{
    const samvolip_shape shape = {{2}, 1, 1, 1, UINT32_MAX, 8};
    samvolip_seat seat = SAMVOLIP_SEAT_INIT;
    EXPECT(samvolip_open(&shape, &seat) == SAMVOLIP_OK);
    for (uint64_t key = 0; key < 4; key++)
        EXPECT(samvolip_put(&seat, key, key, NULL) == SAMVOLIP_ABSENT);
    EXPECT(samvolip_put(&seat, 4, 4, NULL) == SAMVOLIP_E_FULL);
    EXPECT(samvolip_put_if_absent(&seat, 4, 4, NULL) == SAMVOLIP_E_FULL);
    EXPECT(samvolip_add(&seat, 4, 4, NULL) == SAMVOLIP_E_FULL);
    uint64_t was = 99;
    EXPECT(samvolip_try_put(&seat, 4, 4, 1, &was) == SAMVOLIP_E_FULL);
    EXPECT(samvolip_try_put_if_absent(&seat, 4, 4, 1, &was) == SAMVOLIP_E_FULL);
    EXPECT(samvolip_try_add(&seat, 4, 4, 1, &was) == SAMVOLIP_E_FULL && was == 99);
    EXPECT(samvolip_try_remove(&seat, 4, 1, &was) == SAMVOLIP_ABSENT && was == 0);
    EXPECT(samvolip_replace(&seat, 4, 4, NULL) == SAMVOLIP_ABSENT);
    EXPECT(samvolip_put(&seat, 3, 4, NULL) == SAMVOLIP_PRESENT);
    samvolip_free(&seat);
}

static void walks(samvolip_seat *seat)
{
    uint64_t key = 99, number = 99;
    samvolip_cursor cursor, other;
    for (uint64_t k = 100; k < 200; k++)
        EXPECT(samvolip_put(seat, k, k + 1, NULL) == SAMVOLIP_ABSENT);
    int seen[100] = {0};
    samvolip_walk(seat, &cursor);
    samvolip_walk(seat, &other);
    EXPECT(cursor.is_over == 0);
    EXPECT(samvolip_next(seat, &cursor, &key, &number) == SAMVOLIP_PRESENT);
    memset(seen, 0, sizeof seen);
    samvolip_walk(seat, &cursor);
    while (samvolip_next(seat, &cursor, &key, &number) == SAMVOLIP_PRESENT) {
        EXPECT(samvolip_get(seat, key, &number) == SAMVOLIP_PRESENT);
        if (key < 100 || key >= 200)
            continue;
        EXPECT(number == key + 1);
        EXPECT(seen[key - 100]++ == 0);
    }
    for (int k = 0; k < 100; k++)
        EXPECT(seen[k] == 1);
    key = number = 99;
    for (int i = 0; i < 3; i++)
        EXPECT(samvolip_next(seat, &cursor, &key, &number) == SAMVOLIP_ABSENT && cursor.is_over == 1);
    EXPECT(key == 99 && number == 99);

    /* the other walk is where it was, and its copy goes on by itself */
    unsigned shown = 0, copied = 0;
    EXPECT(samvolip_next(seat, &other, &key, &number) == SAMVOLIP_PRESENT);
    samvolip_cursor copy = other;
    while (samvolip_next(seat, &other, &key, &number) == SAMVOLIP_PRESENT)
        shown++;
    while (samvolip_next(seat, &copy, &key, &number) == SAMVOLIP_PRESENT)
        copied++;
    EXPECT(shown + 1 == samvolip_size_estimate(seat) && copied == shown);
}

/* A walk in each turn of a walk: all pairs of keys are shown, each once. */
static void walks_within_a_walk(void)
{
    enum { KEYS = 20 };
    const samvolip_shape shape = {{2, 4, 6}, 3, 1, 1, UINT32_MAX, 8};
    samvolip_seat seat = SAMVOLIP_SEAT_INIT;
    samvolip_cursor outer, inner;
    uint64_t a, b, of_a, of_b;
    int seen[KEYS][KEYS] = {{0}};
    EXPECT(samvolip_open(&shape, &seat) == SAMVOLIP_OK);
    samvolip_walk(&seat, &outer);
    EXPECT(samvolip_next(&seat, &outer, &a, &of_a) == SAMVOLIP_ABSENT);
    for (uint64_t key = 0; key < KEYS; key++)
        EXPECT(samvolip_put(&seat, key, key + 7, NULL) == SAMVOLIP_ABSENT);
    EXPECT(samvolip_next(&seat, &outer, &a, &of_a) == SAMVOLIP_ABSENT);
    samvolip_walk(&seat, &outer);
    while (samvolip_next(&seat, &outer, &a, &of_a) == SAMVOLIP_PRESENT) {
        samvolip_walk(&seat, &inner);
        while (samvolip_next(&seat, &inner, &b, &of_b) == SAMVOLIP_PRESENT) {
            EXPECT(a < KEYS && b < KEYS && of_b == b + 7 && seen[a][b]++ == 0);
            EXPECT(samvolip_put(&seat, b, b + 7, NULL) == SAMVOLIP_PRESENT);
        }
        EXPECT(of_a == a + 7);
    }
    for (int i = 0; i < KEYS * KEYS; i++)
        EXPECT(seen[i / KEYS][i % KEYS] == 1);

    /* no call ends a walk: it is begun in the first table, and goes on where the map has grown */
    samvolip_free(&seat);
    EXPECT(samvolip_open(&shape, &seat) == SAMVOLIP_OK);
    for (uint64_t key = 0; key < 3; key++)
        EXPECT(samvolip_put(&seat, key, key, NULL) == SAMVOLIP_ABSENT);
    samvolip_walk(&seat, &outer);
    EXPECT(samvolip_next(&seat, &outer, &a, &of_a) == SAMVOLIP_PRESENT);
    samvolip_entry entries[3];
    uint64_t size;
    EXPECT(samvolip_settle(&seat, &size) == SAMVOLIP_OK && size == 3);
    EXPECT(samvolip_entries(&seat, entries, 3, &size) == SAMVOLIP_OK && size == 3);
    EXPECT(samvolip_entries(&seat, entries, 2, &size) == SAMVOLIP_E_ROOM && size == 3);
    for (uint64_t key = 10; key < 20; key++)
        EXPECT(samvolip_put(&seat, key, key, NULL) == SAMVOLIP_ABSENT);
    EXPECT(samvolip_generation(&seat) > 0);
    unsigned old = 1;
    while (samvolip_next(&seat, &outer, &b, &of_b) == SAMVOLIP_PRESENT) {
        EXPECT(b != a && of_b == b);
        old += b < 3;
    }
    EXPECT(old == 3);
    samvolip_free(&seat);
}

/* Takes a cursor on to slot `end`, so many entries at a time, and counts each key of less than 40. Returns how many it showed. */
static unsigned list_on(samvolip_seat *seat, samvolip_cursor *cursor, size_t end, size_t room, int *seen)
{
    samvolip_entry entries[50];
    unsigned shown = 0;
    int code;
    do {
        uint64_t count = 99;
        memset(entries, 1, sizeof entries);
        code = samvolip_list(seat, cursor, end, entries, room, &count);
        EXPECT(code == SAMVOLIP_PRESENT ? count == room : code == SAMVOLIP_ABSENT && count <= room);
        for (size_t i = 0; i < count; i++) {
            EXPECT(entries[i].key < 40 && entries[i].number == entries[i].key + 7);
            seen[entries[i].key]++;
        }
        for (size_t i = count; i < 50; i++)
            EXPECT(entries[i].key == UINT64_C(0x0101010101010101) && entries[i].number == entries[i].key);
        shown += (unsigned)count;
    } while (code == SAMVOLIP_PRESENT);
    return shown;
}

/* Parts of a walk, by one thread: over one table, and over two of which the second has keys that the first hasn't. */
static void lists_parts(void)
{
    const samvolip_shape shape = {{5, 6}, 2, 1, 1, UINT32_MAX, 4};
    samvolip_seat seat = SAMVOLIP_SEAT_INIT;
    samvolip_cursor cursor, other = {7, 7, 7, 7, 7};
    samvolip_entry entry = {98, 99};
    uint64_t count, key, number;
    EXPECT(samvolip_open(&shape, &seat) == SAMVOLIP_OK);

    /* a map without keys; and where there is no such slot */
    EXPECT(samvolip_walk_from(&seat, 0, &cursor) == SAMVOLIP_PRESENT);
    EXPECT(cursor.first == 0 && cursor.table == 0 && cursor.slot == 0 && cursor.is_over == 0);
    EXPECT(samvolip_list(&seat, &cursor, SIZE_MAX, &entry, 1, &count) == SAMVOLIP_ABSENT && count == 0);
    EXPECT(cursor.is_over == 1 && entry.key == 98 && entry.number == 99);
    EXPECT(samvolip_list(&seat, &cursor, 0, &entry, 1, &count) == SAMVOLIP_ABSENT && count == 0);
    EXPECT(cursor.is_over == 1);
    EXPECT(samvolip_walk_from(&seat, 31, &other) == SAMVOLIP_PRESENT && other.slot == 31);
    const samvolip_cursor was = other;
    EXPECT(samvolip_walk_from(&seat, 32, &other) == SAMVOLIP_ABSENT);
    EXPECT(samvolip_walk_from(&seat, SIZE_MAX, &other) == SAMVOLIP_ABSENT);
    EXPECT(memcmp(&other, &was, sizeof was) == 0);

    /* eight keys, each at home in its slot; a room of 0, and one that is too small */
    for (uint64_t k = 0; k < 8; k++)
        EXPECT(samvolip_put(&seat, k, k + 7, NULL) == SAMVOLIP_ABSENT);
    EXPECT(samvolip_walk_from(&seat, 2, &cursor) == SAMVOLIP_PRESENT);
    EXPECT(samvolip_list(&seat, &cursor, 4, &entry, 0, &count) == SAMVOLIP_PRESENT && count == 0);
    EXPECT(entry.key == 98 && cursor.slot == 2);
    EXPECT(samvolip_list(&seat, &cursor, 0, &entry, 1, &count) == SAMVOLIP_ABSENT && count == 0);
    EXPECT(samvolip_list(&seat, &cursor, 2, &entry, 1, &count) == SAMVOLIP_ABSENT && count == 0);
    EXPECT(cursor.slot == 2);
    for (uint64_t k = 2; k < 4; k++) {
        EXPECT(samvolip_list(&seat, &cursor, 4, &entry, 1, &count) == SAMVOLIP_PRESENT && count == 1);
        EXPECT(entry.key == k && entry.number == k + 7 && cursor.slot == k + 1);
    }
    EXPECT(samvolip_list(&seat, &cursor, 4, &entry, 1, &count) == SAMVOLIP_ABSENT && count == 0);
    EXPECT(entry.key == 3 && cursor.table == 0 && cursor.slot == 4 && cursor.is_over == 0);

    /* the same walk goes on by the other call, and then by parts */
    EXPECT(samvolip_next(&seat, &cursor, &key, &number) == SAMVOLIP_PRESENT && key == 4);
    int rest[40] = {0};
    EXPECT(list_on(&seat, &cursor, 16, 50, rest) == 3 && rest[5] + rest[6] + rest[7] == 3);
    EXPECT(cursor.slot == 16 && list_on(&seat, &cursor, 32, 50, rest) == 0 && cursor.is_over == 1);

    /* Walks that began in the first table, one with each slot, go on where more keys are in the second one: whatever the parts are,
       each has keys of its own, and together they have all. So have parts that begin in the second table. */
    samvolip_cursor begun[32];
    for (size_t slot = 0; slot < 32; slot++)
        EXPECT(samvolip_walk_from(&seat, slot, &begun[slot]) == SAMVOLIP_PRESENT);
    for (uint64_t k = 8; k < 40; k++)
        EXPECT(samvolip_put(&seat, k, k + 7, NULL) == SAMVOLIP_ABSENT);
    EXPECT(samvolip_generation(&seat) == 1);
    for (size_t parts = 1; parts <= 32; parts++) {
        int seen[2][40] = {{0}};
        for (size_t part = 0; part < parts; part++) {
            const size_t from = 32 * part / parts, end = 32 * (part + 1) / parts;
            cursor = begun[from];
            list_on(&seat, &cursor, end, parts % 7 + 1, seen[0]);
            EXPECT(cursor.first == 0 && (end == 32 ? cursor.is_over == 1 : cursor.slot == end));
            EXPECT(samvolip_walk_from(&seat, 2 * from, &cursor) == SAMVOLIP_PRESENT && cursor.first == 1);
            list_on(&seat, &cursor, 2 * end, parts % 7 + 1, seen[1]);
            EXPECT(cursor.first == 1 && (end == 32 ? cursor.is_over == 1 : cursor.slot == 2 * end));
        }
        for (int k = 0; k < 40; k++)
            EXPECT(seen[0][k] == 1 && seen[1][k] == 1);
    }
    samvolip_free(&seat);
}

/* Sees that these are the numbers from 0 to count - 1, each once, with themselves and `more` as their numbers. */
static void are_all(const samvolip_entry *entries, uint64_t count, uint64_t more)
{
    uint64_t seen = 0;
    for (uint64_t i = 0; i < count; i++) {
        EXPECT(entries[i].key < count && entries[i].number == entries[i].key + more);
        seen |= UINT64_C(1) << entries[i].key;
    }
    EXPECT(count == 0 || seen == UINT64_MAX >> (64 - count));
}

static void lists_entries(void)
{
    enum { KEYS = 12, ROOM = 20 };
    const samvolip_shape shape = {{2, 3, 5}, 3, 2, 1, UINT32_MAX, 8};
    samvolip_seat mine = SAMVOLIP_SEAT_INIT, yours = SAMVOLIP_SEAT_INIT;
    samvolip_entry entries[ROOM];
    uint64_t count = 99, number;
    for (int i = 0; i < ROOM; i++)
        entries[i] = (samvolip_entry){77, 78};
    EXPECT(samvolip_open(&shape, &mine) == SAMVOLIP_OK);
    EXPECT(samvolip_entries(&mine, NULL, 0, &count) == SAMVOLIP_OK && count == 0);
    count = 99;
    EXPECT(samvolip_entries(&mine, entries, ROOM, &count) == SAMVOLIP_OK && count == 0);
    EXPECT(samvolip_split(&mine, &yours) == SAMVOLIP_OK);
    for (uint64_t key = 0; key < KEYS + 1; key++)
        EXPECT(samvolip_put(key % 2 ? &mine : &yours, key, key + 5, NULL) == SAMVOLIP_ABSENT);
    EXPECT(samvolip_remove(&mine, KEYS, NULL) == SAMVOLIP_PRESENT);

    /* not all seats, by either handle */
    count = 99;
    EXPECT(samvolip_entries(&mine, entries, ROOM, &count) == SAMVOLIP_E_NOT_ALL_SEATS);
    EXPECT(samvolip_entries(&yours, NULL, 0, &count) == SAMVOLIP_E_NOT_ALL_SEATS && count == 99);
    EXPECT(samvolip_join(&yours, &mine) == SAMVOLIP_OK);

    /* no room, whatever is said; too little; just so much; more */
    EXPECT(samvolip_entries(&yours, NULL, 0, &count) == SAMVOLIP_E_ROOM && count == KEYS);
    count = 99;
    EXPECT(samvolip_entries(&yours, NULL, ROOM, &count) == SAMVOLIP_E_ROOM && count == KEYS);
    count = 99;
    EXPECT(samvolip_entries(&yours, entries, 0, &count) == SAMVOLIP_E_ROOM && count == KEYS);
    count = 99;
    EXPECT(samvolip_entries(&yours, entries, KEYS - 1, &count) == SAMVOLIP_E_ROOM && count == KEYS);
    for (int i = 0; i < ROOM; i++)
        EXPECT(entries[i].key == 77 && entries[i].number == 78);
    count = 99;
    EXPECT(samvolip_entries(&yours, entries, KEYS, &count) == SAMVOLIP_OK && count == KEYS);
    are_all(entries, KEYS, 5);
    EXPECT(entries[KEYS].key == 77 && entries[KEYS].number == 78);
    entries[0] = (samvolip_entry){77, 78};
    count = 99;
    EXPECT(samvolip_entries(&yours, entries, ROOM, &count) == SAMVOLIP_OK && count == KEYS);
    are_all(entries, KEYS, 5);
    for (int i = KEYS; i < ROOM; i++)
        EXPECT(entries[i].key == 77 && entries[i].number == 78);

    /* the map goes on, and its handle can be split */
    EXPECT(samvolip_split(&yours, &mine) == SAMVOLIP_OK);
    for (uint64_t key = 0; key < KEYS; key++)
        EXPECT(samvolip_get(&mine, key, &number) == SAMVOLIP_PRESENT && number == key + 5);
    EXPECT(samvolip_put(&mine, KEYS, 1, NULL) == SAMVOLIP_ABSENT);
    samvolip_free(&mine);
    /* the seat of a freed handle is lost */
    EXPECT(samvolip_entries(&yours, entries, ROOM, &count) == SAMVOLIP_E_NOT_ALL_SEATS);
    EXPECT(samvolip_renew(&yours, &shape) == SAMVOLIP_E_NOT_ALL_SEATS);
    samvolip_free(&yours);
}

/* The map of this handle has just the keys from 0 to count - 1, each with itself and `more`. */
static void has_keys(samvolip_seat *seat, uint64_t count, uint64_t more)
{
    samvolip_entry entries[64];
    samvolip_cursor cursor;
    uint64_t size = 99, shown = 0, key, number;
    EXPECT(samvolip_size_estimate(seat) == count);
    EXPECT(samvolip_entries(seat, entries, 64, &size) == SAMVOLIP_OK && size == count);
    are_all(entries, count, more);
    samvolip_walk(seat, &cursor);
    for (; samvolip_next(seat, &cursor, &key, &number) == SAMVOLIP_PRESENT; shown++)
        EXPECT(key < count && number == key + more);
    EXPECT(shown == count);
    for (key = 0; key < count; key++)
        EXPECT(samvolip_get(seat, key, &number) == SAMVOLIP_PRESENT && number == key + more);
    EXPECT(samvolip_get(seat, count, &number) == SAMVOLIP_ABSENT);
}

static void renews(void)
{
    const samvolip_shape small = {{2, 3}, 2, 2, 1, UINT32_MAX, 8};
    const samvolip_shape large = {{3, 4, 6}, 3, 3, 2, 18, 16};
    const samvolip_shape tiny = {{2}, 1, 2, 1, UINT32_MAX, 8};
    const samvolip_shape wrong = {{3, 2}, 2, 2, 1, UINT32_MAX, 8};
    const samvolip_shape seatless = {{3}, 1, 0, 1, UINT32_MAX, 8};
    samvolip_seat seat = SAMVOLIP_SEAT_INIT, other = SAMVOLIP_SEAT_INIT, third = SAMVOLIP_SEAT_INIT;
    samvolip_cursor cursor;
    samvolip_slots found;
    uint64_t key, number, shown = 0;
    EXPECT(samvolip_open(&small, &seat) == SAMVOLIP_OK);
    EXPECT(samvolip_renew(&seat, &small) == SAMVOLIP_OK);
    has_keys(&seat, 0, 0);
    for (key = 0; key < 8; key++)
        EXPECT(samvolip_put(&seat, key, key + 1, NULL) == SAMVOLIP_ABSENT);
    EXPECT(samvolip_put(&seat, 8, 9, NULL) == SAMVOLIP_E_FULL);

    /* refused: the map is as it was, and a walk goes on */
    samvolip_walk(&seat, &cursor);
    EXPECT(samvolip_next(&seat, &cursor, &key, &number) == SAMVOLIP_PRESENT);
    EXPECT(samvolip_renew(&seat, &tiny) == SAMVOLIP_E_FULL);
    EXPECT(samvolip_renew(&seat, &wrong) == SAMVOLIP_E_FALLING);
    EXPECT(samvolip_renew(&seat, &seatless) == SAMVOLIP_E_SEATS);
    EXPECT(samvolip_split(&seat, &other) == SAMVOLIP_OK);
    EXPECT(samvolip_renew(&seat, &large) == SAMVOLIP_E_NOT_ALL_SEATS);
    EXPECT(samvolip_renew(&other, &large) == SAMVOLIP_E_NOT_ALL_SEATS);
    EXPECT(samvolip_renew(&other, &wrong) == SAMVOLIP_E_FALLING);
    EXPECT(samvolip_put(&other, 0, 50, &number) == SAMVOLIP_PRESENT && number == 1);
    EXPECT(samvolip_put(&seat, 0, 1, &number) == SAMVOLIP_PRESENT && number == 50);
    EXPECT(samvolip_join(&seat, &other) == SAMVOLIP_OK);
    for (shown = 1; samvolip_next(&seat, &cursor, &key, &number) == SAMVOLIP_PRESENT; shown++)
        EXPECT(number == key + 1);
    EXPECT(shown == 8);
    has_keys(&seat, 8, 1);
    EXPECT(samvolip_generation(&seat) == 1);

    /* larger, with one more seat: the keys are there, and more of them */
    EXPECT(samvolip_renew(&seat, &large) == SAMVOLIP_OK);
    has_keys(&seat, 8, 1);
    for (key = 8; key < 40; key++)
        EXPECT(samvolip_put(&seat, key, key + 1, NULL) == SAMVOLIP_ABSENT);
    EXPECT(samvolip_split(&seat, &other) == SAMVOLIP_OK);
    EXPECT(samvolip_split(&seat, &third) == SAMVOLIP_OK);
    EXPECT(samvolip_get(&third, 30, &number) == SAMVOLIP_PRESENT && number == 31);
    EXPECT(samvolip_join(&seat, &other) == SAMVOLIP_OK && samvolip_join(&seat, &third) == SAMVOLIP_OK);
    has_keys(&seat, 40, 1);

    /* smaller, as far as the keys have room */
    EXPECT(samvolip_renew(&seat, &small) == SAMVOLIP_E_FULL);
    has_keys(&seat, 40, 1);
    for (key = 8; key < 40; key++)
        EXPECT(samvolip_remove(&seat, key, NULL) == SAMVOLIP_PRESENT);
    EXPECT(samvolip_renew(&seat, &small) == SAMVOLIP_OK);
    has_keys(&seat, 8, 1);
    samvolip_free(&seat);

    /* the slots of removed keys are free again */
    EXPECT(samvolip_open(&tiny, &seat) == SAMVOLIP_OK);
    for (uint64_t turn = 0; turn < 50; turn++) {
        const uint64_t first = 4 * turn;
        for (key = first; key < first + 4; key++)
            EXPECT(samvolip_put(&seat, key, key, NULL) == SAMVOLIP_ABSENT);
        for (key = first + 1; key < first + 4; key++)
            EXPECT(samvolip_remove(&seat, key, NULL) == SAMVOLIP_PRESENT);
        EXPECT(samvolip_should_renew(&seat) == 1);
        EXPECT(samvolip_put(&seat, first + 4, 1, NULL) == SAMVOLIP_E_FULL);
        EXPECT(samvolip_renew(&seat, &tiny) == SAMVOLIP_OK);
        samvolip_occupancy(&seat, &found);
        EXPECT(found.is_last == 1 && found.looked == 4 && found.taken == 1);
        EXPECT(samvolip_should_renew(&seat) == 0);
        samvolip_walk(&seat, &cursor);
        EXPECT(samvolip_next(&seat, &cursor, &key, &number) == SAMVOLIP_PRESENT);
        EXPECT(key == first && number == first);
        EXPECT(samvolip_next(&seat, &cursor, &key, &number) == SAMVOLIP_ABSENT);
        EXPECT(samvolip_remove(&seat, first, NULL) == SAMVOLIP_PRESENT);
        EXPECT(samvolip_renew(&seat, &tiny) == SAMVOLIP_OK);
    }

    /* it is closed as any map is */
    samvolip_ended ended = SAMVOLIP_ENDED_INIT;
    EXPECT(samvolip_put(&seat, 3, 4, NULL) == SAMVOLIP_ABSENT);
    EXPECT(samvolip_renew(&seat, &large) == SAMVOLIP_OK);
    EXPECT(samvolip_close(&seat, &ended) == SAMVOLIP_OK && samvolip_ended_size(&ended) == 1);
    EXPECT(samvolip_ended_get(&ended, 3, &number) == SAMVOLIP_PRESENT && number == 4);
    samvolip_ended_free(&ended);
}

static void splits_and_joins(void)
{
    samvolip_shape shape = samvolip_shape_for_keys(100, 4);
    samvolip_seat seats[4] = {SAMVOLIP_SEAT_INIT};
    samvolip_ended ended = SAMVOLIP_ENDED_INIT;
    EXPECT(samvolip_open(&shape, &seats[0]) == SAMVOLIP_OK);
    for (int i = 1; i < 4; i++)
        EXPECT(samvolip_split(&seats[0], &seats[i]) == SAMVOLIP_OK);
    samvolip_seat fifth = SAMVOLIP_SEAT_INIT;
    EXPECT(samvolip_split(&seats[0], &fifth) == SAMVOLIP_E_NO_SEAT && fifth.handle == NULL);
    EXPECT(samvolip_split(&seats[1], &fifth) == SAMVOLIP_E_NO_SEAT);
    EXPECT(samvolip_close(&seats[0], &ended) == SAMVOLIP_E_NOT_ALL_SEATS && ended.handle == NULL);
    for (int i = 0; i < 4; i++)
        EXPECT(samvolip_put(&seats[i], 3 - i, i, NULL) == SAMVOLIP_ABSENT);
    samvolip_meet(&seats[2], &seats[3]);
    EXPECT(samvolip_join(&seats[2], &seats[3]) == SAMVOLIP_OK && seats[3].handle == NULL);
    EXPECT(samvolip_split(&seats[2], &seats[3]) == SAMVOLIP_OK);
    EXPECT(samvolip_join(&seats[2], &seats[3]) == SAMVOLIP_OK);
    for (int i = 1; i < 3; i++)
        EXPECT(samvolip_join(&seats[0], &seats[i]) == SAMVOLIP_OK);
    EXPECT(samvolip_close(&seats[0], &ended) == SAMVOLIP_OK && seats[0].handle == NULL);
    EXPECT(samvolip_ended_size(&ended) == 4);
    uint64_t number = 99;
    EXPECT(samvolip_ended_get(&ended, 3, &number) == SAMVOLIP_PRESENT && number == 0);
    EXPECT(samvolip_ended_get(&ended, 4, &number) == SAMVOLIP_ABSENT && number == 0);
    EXPECT(samvolip_ended_get(&ended, UINT64_MAX, &number) == SAMVOLIP_E_KEY_RANGE);
    samvolip_entry entries[5] = {{0, 0}};
    EXPECT(samvolip_ended_entries(&ended, entries, 3) == SAMVOLIP_E_ROOM);
    EXPECT(samvolip_ended_entries(&ended, NULL, 0) == SAMVOLIP_E_ROOM);
    EXPECT(entries[1].key == 0);
    EXPECT(samvolip_ended_entries(&ended, entries, 5) == SAMVOLIP_OK);
    for (uint64_t i = 0; i < 4; i++)
        EXPECT(entries[i].key == i && entries[i].number == 3 - i);
    samvolip_ended_free(&ended);
    samvolip_ended_free(&ended);
    EXPECT(ended.handle == NULL);
}

/* Three handles are joined to one, which is settled, and split again: each has its seat again. */
static void settles(void)
{
    enum { SEATS = 3 };
    const samvolip_shape shape = samvolip_shape_for_keys(100, SEATS);
    samvolip_seat seats[SEATS] = {SAMVOLIP_SEAT_INIT};
    uint64_t size = 99, number = 99, key = 99;
    samvolip_cursor cursor;
    EXPECT(samvolip_open(&shape, &seats[0]) == SAMVOLIP_OK);
    EXPECT(samvolip_settle(&seats[0], &size) == SAMVOLIP_OK && size == 0);
    size = 99;
    for (int i = 1; i < SEATS; i++)
        EXPECT(samvolip_split(&seats[0], &seats[i]) == SAMVOLIP_OK);
    for (uint64_t k = 0; k < 12; k++)
        EXPECT(samvolip_put(&seats[k % SEATS], k, k + 1, NULL) == SAMVOLIP_ABSENT);
    EXPECT(samvolip_remove(&seats[2], 5, NULL) == SAMVOLIP_PRESENT);
    samvolip_walk(&seats[0], &cursor);
    EXPECT(samvolip_next(&seats[0], &cursor, &key, &number) == SAMVOLIP_PRESENT);
    EXPECT(samvolip_settle(&seats[0], &size) == SAMVOLIP_E_NOT_ALL_SEATS && size == 99);
    for (int i = 1; i < SEATS; i++)
        EXPECT(samvolip_join(&seats[0], &seats[i]) == SAMVOLIP_OK);
    EXPECT(samvolip_settle(&seats[0], &size) == SAMVOLIP_OK && size == 11);
    for (int i = SEATS - 1; i > 0; i--)
        EXPECT(samvolip_split(&seats[0], &seats[i]) == SAMVOLIP_OK);
    /* the walk and the map go on */
    for (int i = 0; i < 10; i++)
        EXPECT(samvolip_next(&seats[0], &cursor, &key, &number) == SAMVOLIP_PRESENT && number == key + 1);
    EXPECT(samvolip_next(&seats[0], &cursor, &key, &number) == SAMVOLIP_ABSENT);
    for (int i = 0; i < SEATS; i++)
        EXPECT(samvolip_get(&seats[i], 7, &number) == SAMVOLIP_PRESENT && number == 8);
    EXPECT(samvolip_put(&seats[1], 5, 6, NULL) == SAMVOLIP_ABSENT);
    for (int i = 1; i < SEATS; i++)
        EXPECT(samvolip_join(&seats[0], &seats[i]) == SAMVOLIP_OK);
    EXPECT(samvolip_settle(&seats[0], &size) == SAMVOLIP_OK && size == 12);
    samvolip_ended ended = SAMVOLIP_ENDED_INIT;
    EXPECT(samvolip_close(&seats[0], &ended) == SAMVOLIP_OK && samvolip_ended_size(&ended) == 12);
    samvolip_ended_free(&ended);
}

/* Handles of zeros are empty, and a map without keys has all of them in no room. */
static void begins_with_zeros(void)
{
    const samvolip_shape shape = samvolip_shape_for_keys(10, 1);
    samvolip_seat *seat = calloc(1, sizeof *seat);
    samvolip_ended *ended = calloc(1, sizeof *ended);
    EXPECT(seat != NULL && ended != NULL);
    samvolip_free(seat);
    samvolip_ended_free(ended);
    EXPECT(samvolip_open(&shape, seat) == SAMVOLIP_OK);
    EXPECT(samvolip_close(seat, ended) == SAMVOLIP_OK);
    EXPECT(samvolip_ended_entries(ended, NULL, 0) == SAMVOLIP_OK);
    EXPECT(samvolip_open(&shape, seat) == SAMVOLIP_OK);
    samvolip_free(seat);
    samvolip_ended_free(ended);
    free(seat);
    free(ended);
}

static void tells_codes(void)
{
    static const struct {
        int code;
        const char *text;
    } told[] = {
        {SAMVOLIP_PRESENT, "made, and there was a value"},
        {SAMVOLIP_OK, "made"},
        {SAMVOLIP_ABSENT, "made"},
        {SAMVOLIP_E_TABLES, "number of tables out of range"},
        {SAMVOLIP_E_EXPONENTS, "exponent out of range"},
        {SAMVOLIP_E_FALLING, "a table smaller than the one before it"},
        {SAMVOLIP_E_SLOTS, "too many slots"},
        {SAMVOLIP_E_SEATS, "number of seats out of range"},
        {SAMVOLIP_E_STRIPES, "number of stripes out of range"},
        {SAMVOLIP_E_REPROBES, "reprobe limit out of range"},
        {SAMVOLIP_E_CHUNK, "chunk out of range"},
        {SAMVOLIP_E_OUT_OF_MEMORY, "out of memory"},
        {SAMVOLIP_E_KEY_RANGE, "key too large"},
        {SAMVOLIP_E_VALUE_RANGE, "value too large"},
        {SAMVOLIP_E_WANT, "no such condition"},
        {SAMVOLIP_E_CHANGE, "no such change"},
        {SAMVOLIP_E_FULL, "the map is full"},
        {SAMVOLIP_E_CONTENDED, "other writes of the key came first"},
        {SAMVOLIP_E_SUM_RANGE, "sum too large"},
        {SAMVOLIP_E_NO_SEAT, "no seat in reserve"},
        {SAMVOLIP_E_NOT_ALL_SEATS, "not all seats of the map"},
        {SAMVOLIP_E_ROOM, "the array is too small"},
        {SAMVOLIP_E_LOST, "the map was given up"},
        {SAMVOLIP_E_VERSION, "the header isn't the library's"},
        {SAMVOLIP_PRESENT + 1, "no such code"},
        {SAMVOLIP_E_SLOTS - 1, "no such code"},
    };
    for (size_t i = 0; i < sizeof told / sizeof *told; i++)
        EXPECT(strcmp(samvolip_strerror(told[i].code), told[i].text) == 0);
}

int main(void)
{
    EXPECT(samvolip_version() == SAMVOLIP_VERSION && SAMVOLIP_VERSION == 0x000900);
    refuses_headers();
    refuses_shapes();
    makes_shapes_for_keys();
    makes_shapes_for_churn();
    keys_come_and_go();
    has_room_for_keys();
    samvolip_shape shape = samvolip_shape_for_keys(1000, 1);
    samvolip_seat seat = SAMVOLIP_SEAT_INIT;
    EXPECT(samvolip_open(&shape, &seat) == SAMVOLIP_OK);
    puts_and_gets(&seat);
    tries(&seat);
    refuses_calls(&seat);
    walks(&seat);
    samvolip_free(&seat);
    samvolip_free(&seat);
    EXPECT(seat.handle == NULL);
    refuses_when_full();
    gets_many();
    tells_how_full();
    walks_within_a_walk();
    lists_parts();
    splits_and_joins();
    settles();
    lists_entries();
    renews();
    begins_with_zeros();
    tells_codes();
    puts("calls: well");
    return 0;
}
