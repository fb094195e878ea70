/* Each call once with the checks on, where no rule is broken: it answers as it does without them,
 * and the seats are free for the next call. What the checks say of broken rules is in broken.c. */
#define SAMVOLIP_CHECKED
#include "samvolip.h"

#include "expect.h"

enum { KEYS = 10 };

/* Puts keys that the first table has no room for, and looks at them by both seats. */
static void writes_and_reads(samvolip_seat *mine, samvolip_seat *yours)
{
    uint64_t number = 99;
    for (uint64_t key = 0; key < KEYS; key++) {
        samvolip_reply reply = {1, 2, 3};
        EXPECT(samvolip_put_if_match(mine, key, SAMVOLIP_ANY, 0, SAMVOLIP_PUT, key + 1, 1, &reply)
               == SAMVOLIP_OK);
        EXPECT(reply.before == 0 && reply.had == 0 && reply.matched == 1);
    }
    EXPECT(samvolip_put(yours, 7, 70, &number) == SAMVOLIP_PRESENT && number == 8);
    EXPECT(samvolip_get(mine, 7, &number) == SAMVOLIP_PRESENT && number == 70);
    const uint64_t keys[2] = {8, KEYS};
    uint64_t numbers[2] = {99, 99};
    EXPECT(samvolip_get_many(mine, keys, 2, numbers, 2, 5) == SAMVOLIP_OK);
    EXPECT(numbers[0] == 9 && numbers[1] == 5);
    EXPECT(samvolip_try_remove(mine, 6, 1, &number) == SAMVOLIP_PRESENT && number == 7);
    EXPECT(samvolip_try_put_if_absent(yours, 6, 3, 1, &number) == SAMVOLIP_ABSENT && number == 0);
    EXPECT(samvolip_try_add(mine, 6, 3, 1, &number) == SAMVOLIP_PRESENT && number == 3);
    EXPECT(samvolip_try_put(yours, 6, 7, 1, &number) == SAMVOLIP_PRESENT && number == 6);
    samvolip_meet(mine, yours);
    EXPECT(samvolip_size_estimate(yours) == KEYS);
    EXPECT(samvolip_generation(mine) == 1 && samvolip_generation(yours) == 1);
    samvolip_slots found = {99, 98, 97};
    samvolip_occupancy(mine, &found);
    EXPECT(found.is_last == 1 && found.taken == KEYS);
    EXPECT(samvolip_should_renew(yours) == (3 * found.taken > 2 * found.looked));
    EXPECT(mine->in_use == 0 && yours->in_use == 0);
}

static void walks(samvolip_seat *seat)
{
    uint64_t key = 99, number = 99, keys = 0;
    samvolip_cursor cursor, other;
    samvolip_walk(seat, &cursor);
    for (int i = 0; i < KEYS; i++) {
        EXPECT(samvolip_next(seat, &cursor, &key, &number) == SAMVOLIP_PRESENT);
        EXPECT(number == (key == 7 ? 70 : key + 1));
        keys |= UINT64_C(1) << key;
        samvolip_walk(seat, &other);
        EXPECT(samvolip_next(seat, &other, &key, &number) == SAMVOLIP_PRESENT);
    }
    EXPECT(keys == (UINT64_C(1) << KEYS) - 1);
    EXPECT(samvolip_next(seat, &cursor, &key, &number) == SAMVOLIP_ABSENT);
    EXPECT(samvolip_next(seat, &cursor, &key, &number) == SAMVOLIP_ABSENT);
    EXPECT(seat->in_use == 0);

    samvolip_entry entries[KEYS];
    EXPECT(samvolip_walk_from(seat, 1 << 20, &other) == SAMVOLIP_ABSENT && seat->in_use == 0);
    EXPECT(samvolip_walk_from(seat, 0, &other) == SAMVOLIP_PRESENT && seat->in_use == 0);
    EXPECT(samvolip_list(seat, &other, SIZE_MAX, entries, KEYS, &number) == SAMVOLIP_PRESENT);
    EXPECT(number == KEYS && seat->in_use == 0);
    EXPECT(samvolip_list(seat, &other, SIZE_MAX, entries, KEYS, &number) == SAMVOLIP_ABSENT);
    EXPECT(number == 0 && seat->in_use == 0);
}

/* A walk goes on after a refused renewal, and a new one is begun after one that was made. */
static void renews(samvolip_seat *seat)
{
    const samvolip_shape tiny = {{2}, 1, 2, 1, UINT32_MAX, 8}, large = {{6}, 1, 2, 1, UINT32_MAX, 8};
    uint64_t key, number;
    samvolip_cursor cursor;
    samvolip_walk(seat, &cursor);
    EXPECT(samvolip_renew(seat, &tiny) == SAMVOLIP_E_FULL && seat->in_use == 0);
    EXPECT(samvolip_next(seat, &cursor, &key, &number) == SAMVOLIP_PRESENT);
    EXPECT(samvolip_renew(seat, &large) == SAMVOLIP_OK && seat->in_use == 0);
    samvolip_walk(seat, &cursor);
    EXPECT(samvolip_next(seat, &cursor, &key, &number) == SAMVOLIP_PRESENT);
    EXPECT(samvolip_size_estimate(seat) == KEYS);
}

/* Closes the map of two seats, and looks at what is left. */
static void ends(samvolip_seat *mine, samvolip_seat *yours)
{
    samvolip_ended ended = SAMVOLIP_ENDED_INIT;
    samvolip_entry entries[KEYS];
    uint64_t number = 99;
    EXPECT(samvolip_close(mine, &ended) == SAMVOLIP_E_NOT_ALL_SEATS && ended.handle == NULL);
    EXPECT(samvolip_settle(mine, &number) == SAMVOLIP_E_NOT_ALL_SEATS && number == 99);
    EXPECT(samvolip_join(mine, yours) == SAMVOLIP_OK && yours->handle == NULL);
    EXPECT(samvolip_settle(mine, &number) == SAMVOLIP_OK && number == KEYS && mine->in_use == 0);
    EXPECT(samvolip_entries(mine, NULL, KEYS, &number) == SAMVOLIP_E_ROOM && number == KEYS);
    EXPECT(samvolip_entries(mine, entries, KEYS, &number) == SAMVOLIP_OK && number == KEYS);
    renews(mine);
    EXPECT(samvolip_close(mine, &ended) == SAMVOLIP_OK && mine->handle == NULL);
    EXPECT(mine->in_use == 0 && yours->in_use == 0);
    EXPECT(samvolip_ended_size(&ended) == KEYS);
    EXPECT(samvolip_ended_get(&ended, 7, &number) == SAMVOLIP_PRESENT && number == 70);
    EXPECT(samvolip_ended_get(&ended, KEYS, &number) == SAMVOLIP_ABSENT && number == 0);
    EXPECT(samvolip_ended_entries(&ended, NULL, KEYS) == SAMVOLIP_E_ROOM); /* no room, whatever is said */
    EXPECT(samvolip_ended_entries(&ended, entries, KEYS) == SAMVOLIP_OK);
    for (uint64_t key = 0; key < KEYS; key++)
        EXPECT(entries[key].key == key && entries[key].number == (key == 7 ? 70 : key + 1));
    samvolip_ended_free(&ended);
    EXPECT(ended.handle == NULL);
}

int main(void)
{
    const samvolip_shape shape = {{2, 5}, 2, 2, 1, UINT32_MAX, 8};
    const samvolip_shape falling = {{5, 2}, 2, 2, 1, UINT32_MAX, 8};
    samvolip_seat mine = SAMVOLIP_SEAT_INIT, yours = SAMVOLIP_SEAT_INIT;
    samvolip_seat third = SAMVOLIP_SEAT_INIT;
    EXPECT(samvolip_open(&falling, &mine) == SAMVOLIP_E_FALLING && mine.handle == NULL);
    EXPECT(samvolip_open(&shape, &mine) == SAMVOLIP_OK && mine.handle != NULL);
    EXPECT(samvolip_split(&mine, &yours) == SAMVOLIP_OK && yours.map == mine.map);
    EXPECT(samvolip_split(&mine, &third) == SAMVOLIP_E_NO_SEAT && third.handle == NULL);
    writes_and_reads(&mine, &yours);
    walks(&yours);
    ends(&mine, &yours);
    EXPECT(samvolip_open(&shape, &mine) == SAMVOLIP_OK);
    samvolip_free(&mine);
    samvolip_free(&mine);
    EXPECT(mine.handle == NULL && mine.in_use == 0);
    puts("checked: well");
    return 0;
}
