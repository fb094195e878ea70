/* Every call that takes memory, made again where it is refused. Run under .ci/refuse.c, with each request refused in turn:
   nothing is lost by a refusal, and all memory is given back. It prints nothing, since that takes memory too. */
#include "samvolip.h"

#include "expect.h"

static int refusals;

/* Whether the call has to be made again. */
static int is_refused(int code)
{
    EXPECT(code == SAMVOLIP_OK || code == SAMVOLIP_E_OUT_OF_MEMORY);
    refusals += code != SAMVOLIP_OK;
    EXPECT(refusals <= 1);
    return code != SAMVOLIP_OK;
}

/* All 12 entries, each with its key as its number but for 5; where they are refused, all is as it was, and so is a walk, which shows
   so many keys still. */
static void lists(samvolip_seat *seat, samvolip_cursor *cursor, int left)
{
    samvolip_entry entries[12] = {{99, 99}};
    uint64_t count = 99, seen = 0, key, number;
    while (is_refused(samvolip_entries(seat, entries, 12, &count))) {
        samvolip_cursor copy = *cursor;
        int shown = 0;
        while (samvolip_next(seat, &copy, &key, &number) == SAMVOLIP_PRESENT)
            shown++;
        EXPECT(shown == left && count == 99 && entries[0].key == 99 && entries[0].number == 99);
        EXPECT(samvolip_get(seat, 5, &number) == SAMVOLIP_PRESENT && number == 50);
    }
    EXPECT(count == 12);
    for (int i = 0; i < 12; i++) {
        EXPECT(entries[i].number == (entries[i].key == 5 ? 50 : entries[i].key));
        seen |= UINT64_C(1) << entries[i].key;
    }
    EXPECT(seen == (UINT64_C(1) << 12) - 1);

    /* too little room is told after all memory was there */
    int code;
    for (count = 99; (code = samvolip_entries(seat, entries, 11, &count)) != SAMVOLIP_E_ROOM;)
        EXPECT(is_refused(code) && count == 99);
    EXPECT(count == 12);
}

/* The map is made anew, larger and smaller, by the same handle; where that is refused, all is as it was. */
static void renews(samvolip_seat *seat)
{
    const samvolip_shape shapes[] = {{{3, 6}, 2, 4, 2, UINT32_MAX, 8}, {{2}, 1, 3, 1, UINT32_MAX, 8}, {{3, 4}, 2, 3, 1, UINT32_MAX, 8}};
    samvolip_seat other = SAMVOLIP_SEAT_INIT;
    samvolip_cursor cursor;
    uint64_t size, key, number;
    int code;
    for (int i = 0; i < 3; i++) {
        samvolip_walk(seat, &cursor);
        EXPECT(samvolip_next(seat, &cursor, &key, &number) == SAMVOLIP_PRESENT);
        while ((code = samvolip_renew(seat, &shapes[i])) != SAMVOLIP_E_FULL && is_refused(code)) {
            samvolip_cursor copy = cursor;
            int shown = 1;
            while (samvolip_next(seat, &copy, &key, &number) == SAMVOLIP_PRESENT)
                shown++;
            EXPECT(shown == 12 && samvolip_size_estimate(seat) == 12);
            EXPECT(samvolip_put(seat, 5, 50, &number) == SAMVOLIP_PRESENT && number == 50);
        }
        EXPECT(code == (i == 1 ? SAMVOLIP_E_FULL : SAMVOLIP_OK));
        samvolip_walk(seat, &cursor);
        lists(seat, &cursor, 12);
        while (is_refused(samvolip_split(seat, &other)))
            EXPECT(other.handle == NULL);
        EXPECT(samvolip_put(&other, 5, 50, &number) == SAMVOLIP_PRESENT && number == 50);
        EXPECT(samvolip_settle(seat, &size) == SAMVOLIP_E_NOT_ALL_SEATS);
        EXPECT(samvolip_join(seat, &other) == SAMVOLIP_OK);
    }
}

/* A map whose table lies in pages of the system is made, and made anew, or is refused as a small one is. */
static void large_map(void)
{
    const samvolip_shape shapes[] = {{{17}, 1, 1, 1, UINT32_MAX, 8}, {{10, 16}, 2, 1, 1, UINT32_MAX, 8}};
    samvolip_seat seat = SAMVOLIP_SEAT_INIT;
    uint64_t number;
    while (is_refused(samvolip_open(&shapes[0], &seat)))
        EXPECT(seat.handle == NULL);
    EXPECT(samvolip_put(&seat, 5, 50, NULL) == SAMVOLIP_ABSENT);
    for (int i = 1; i >= 0; i--) {
        while (is_refused(samvolip_renew(&seat, &shapes[i])))
            EXPECT(samvolip_get(&seat, 5, &number) == SAMVOLIP_PRESENT && number == 50);
        EXPECT(samvolip_get(&seat, 5, &number) == SAMVOLIP_PRESENT && number == 50 && samvolip_size_estimate(&seat) == 1);
    }
    samvolip_free(&seat);
}

int main(void)
{
    const samvolip_shape shape = {{3, 4}, 2, 3, 1, UINT32_MAX, 8};
    samvolip_seat seats[3] = {SAMVOLIP_SEAT_INIT};
    samvolip_ended ended = SAMVOLIP_ENDED_INIT;
    while (is_refused(samvolip_open(&shape, &seats[0])))
        EXPECT(seats[0].handle == NULL);
    for (int i = 1; i < 3; i++)
        while (is_refused(samvolip_split(&seats[0], &seats[i])))
            EXPECT(seats[i].handle == NULL);
    for (uint64_t key = 0; key < 12; key++)
        EXPECT(samvolip_put(&seats[key % 3], key, key, NULL) == SAMVOLIP_ABSENT);
    /* joining takes no memory, so it isn't refused */
    EXPECT(samvolip_join(&seats[1], &seats[2]) == SAMVOLIP_OK && seats[2].handle == NULL);
    EXPECT(samvolip_join(&seats[0], &seats[1]) == SAMVOLIP_OK && seats[1].handle == NULL);
    EXPECT(samvolip_put(&seats[0], 5, 50, NULL) == SAMVOLIP_PRESENT);
    uint64_t size = 99, number = 99, key = 99;
    samvolip_cursor cursor;
    samvolip_walk(&seats[0], &cursor);
    while (is_refused(samvolip_settle(&seats[0], &size)))
        EXPECT(size == 99 && samvolip_get(&seats[0], 5, &number) == 1 && number == 50);
    EXPECT(size == 12 && samvolip_next(&seats[0], &cursor, &key, &number) == SAMVOLIP_PRESENT);
    lists(&seats[0], &cursor, 11);
    renews(&seats[0]);
    while (is_refused(samvolip_close(&seats[0], &ended)))
        EXPECT(samvolip_put(&seats[0], 5, 51, NULL) == SAMVOLIP_PRESENT);
    samvolip_entry entries[12] = {{99, 99}};
    while (is_refused(samvolip_ended_entries(&ended, entries, 12)))
        EXPECT(entries[0].key == 99);
    for (uint64_t i = 0; i < 12; i++)
        EXPECT(entries[i].key == i);
    samvolip_ended_free(&ended);

    /* a map that isn't closed goes with its last handle */
    samvolip_seat mine = SAMVOLIP_SEAT_INIT, yours = SAMVOLIP_SEAT_INIT;
    while (is_refused(samvolip_open(&shape, &mine)))
        EXPECT(mine.handle == NULL);
    while (is_refused(samvolip_split(&mine, &yours)))
        EXPECT(yours.handle == NULL);
    samvolip_free(&mine);
    EXPECT(samvolip_put(&yours, 1, 1, NULL) == SAMVOLIP_ABSENT);
    samvolip_free(&yours);

    large_map();
    return 0;
}
