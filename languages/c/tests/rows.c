/* Rows of calls with their answers, and what they leave: tables over one small interpreter. A row is made by one of two seats, one
   after another, or by two threads at once. What only the calls of nb_map can do is in crates/nb_map_tests. */
#include "samvolip.h"

#include "expect.h"

#include <inttypes.h>
#include <pthread.h>

enum { ROWS = 40, LEFT = 12 };

/* ---- rows */

enum call {
    END, /* of the rows */
    CALL_GET,
    CALL_CONTAINS,
    CALL_ESTIMATE,
    CALL_GENERATION,
    CALL_OCCUPANCY,
    CALL_SHOULD_RENEW,
    CALL_PUT,
    CALL_PUT_IF_ABSENT,
    CALL_REPLACE,
    CALL_REPLACE_IF,
    CALL_REMOVE,
    CALL_REMOVE_IF,
    CALL_ADD,
    CALL_GET_OR_INSERT,
    CALL_MAX,
    CALL_MIN,
    CALL_TRY_PUT,
    CALL_TRY_PUT_IF_ABSENT,
    CALL_TRY_ADD,
    CALL_TRY_REMOVE,
    CALL_TRY_PUT_BELOW,
    CALL_TRY_ADD_BELOW,
    CALL_TRY_REMOVE_BELOW,
    CALL_EXCHANGE,
    CALL_ONE_MORE,
    CALL_TURN,
    CALL_PUT_AT_ABSENT,
    CALL_PUT_AT_PRESENT,
    CALL_REMOVE_EQUAL,
    CALL_PUT_BELOW,
    CALL_ADD_AT_ANY,
    CALL_MEET,
    CALL_CLOSE,
    CALL_WALK,
    CALL_NEXT,
    CALL_ENTRIES,
    CALL_RENEW
};

/* What a call answers: its code, and the number that it writes. Then whether a write's condition held, and 1 for a call that has
   none; for a look at how full a table is, which has 1 as its code if that is the last one, at how many slots it looked. */
struct answer {
    int code;
    uint64_t number;
    uint32_t more;
};

/* A call of a seat at a key. The one number is what has to be there, or a limit, and the other one what is to be put. */
struct row {
    unsigned seat;
    uint64_t key;
    enum call call;
    uint64_t old, number;
    struct answer answer;
};

struct test {
    const char *name;
    samvolip_shape shape;
    struct row together[2][2]; /* what two threads call at once first, each with its own seat */
    struct row rows[ROWS];
    size_t keys; /* how many are left */
    samvolip_entry left[LEFT];
};

enum { A, B, SEATS };

/* the walks that a seat may have at a time */
enum { CURSORS = 2 };

/* In an exchange, that there is no number. */
#define NONE UINT64_MAX

#define GET CALL_GET, 0, 0
#define CONTAINS CALL_CONTAINS, 0, 0
#define ESTIMATE CALL_ESTIMATE, 0, 0
#define GENERATION CALL_GENERATION, 0, 0
#define OCCUPANCY CALL_OCCUPANCY, 0, 0
#define SHOULD_RENEW CALL_SHOULD_RENEW, 0, 0
#define PUT(number) CALL_PUT, 0, number
#define PUT_IF_ABSENT(number) CALL_PUT_IF_ABSENT, 0, number
#define REPLACE(number) CALL_REPLACE, 0, number
#define REPLACE_IF(old, number) CALL_REPLACE_IF, old, number
#define REMOVE CALL_REMOVE, 0, 0
#define REMOVE_IF(old) CALL_REMOVE_IF, old, 0
#define ADD(number) CALL_ADD, 0, number
#define GET_OR_INSERT(number) CALL_GET_OR_INSERT, 0, number
#define MAX(number) CALL_MAX, 0, number
#define MIN(number) CALL_MIN, 0, number
/* with so many tries; where none are named, the one number of tries is passed as `old` */
#define TRY_PUT(number) CALL_TRY_PUT, 1, number
#define TRY_PUT_IF_ABSENT(number) CALL_TRY_PUT_IF_ABSENT, 1, number
#define TRY_ADD(number) CALL_TRY_ADD, 1, number
#define ADD_WITH_NO_TRIES(number) CALL_TRY_ADD, 0, number
#define TRY_REMOVE CALL_TRY_REMOVE, 1, 0
#define TRY_PUT_BELOW(limit, number) CALL_TRY_PUT_BELOW, limit, number
#define TRY_ADD_BELOW(limit, number) CALL_TRY_ADD_BELOW, limit, number
#define TRY_REMOVE_BELOW(limit) CALL_TRY_REMOVE_BELOW, limit, 0
#define EXCHANGE(old, number) CALL_EXCHANGE, old, number
/* adds 1 to what is there, or to 0 */
#define ONE_MORE CALL_ONE_MORE, 0, 0
/* puts 1 where there is nothing, and else removes it */
#define TURN CALL_TURN, 0, 0
#define PUT_AT_ABSENT(number) CALL_PUT_AT_ABSENT, 0, number
#define PUT_AT_PRESENT(number) CALL_PUT_AT_PRESENT, 0, number
#define REMOVE_EQUAL(old) CALL_REMOVE_EQUAL, old, 0
#define PUT_BELOW(limit, number) CALL_PUT_BELOW, limit, number
#define ADD_AT_ANY(number) CALL_ADD_AT_ANY, 0, number
/* with the other seat */
#define MEET CALL_MEET, 0, 0
#define CLOSE CALL_CLOSE, 0, 0
/* the first walk of a seat, and its other one */
#define WALK CALL_WALK, 0, 0
#define WALK_2 CALL_WALK, 1, 0
/* shows the row's key */
#define NEXT CALL_NEXT, 0, 0
#define NEXT_2 CALL_NEXT, 1, 0
/* with so much room */
#define ENTRIES(room) CALL_ENTRIES, room, 0
/* as one table of 2^exponent slots */
#define RENEW(exponent) CALL_RENEW, 0, exponent

#define NOTHING {SAMVOLIP_ABSENT, 0, 1}
#define WAS(number) {SAMVOLIP_PRESENT, number, 1}
#define NO {0, 0, 1}
#define YES {1, 0, 1}
#define MISSED {SAMVOLIP_ABSENT, 0, 0}
#define MISSED_AT(number) {SAMVOLIP_PRESENT, number, 0}
#define REFUSED(code) {code, 0, 1}
#define FULL REFUSED(SAMVOLIP_E_FULL)
#define PAST REFUSED(SAMVOLIP_E_SUM_RANGE)
#define TAKEN(taken, looked) {0, taken, looked}
#define TAKEN_OF_LAST(taken, looked) {1, taken, looked}
#define LISTED(count) {SAMVOLIP_OK, count, 1}
#define LISTED_FOR_MORE(count) {SAMVOLIP_E_ROOM, count, 1}
/* what is there or was, but not a refusal */
enum { ANY_CODE = 2 };
#define MADE {ANY_CODE, 0, 1}

/* ---- the interpreter */

static int one_more(void *context, const uint64_t *found, uint64_t *next)
{
    (void)context;
    *next = found ? *found + 1 : 1;
    return 1;
}

static int turn(void *context, const uint64_t *found, uint64_t *next)
{
    (void)context;
    *next = 1;
    return !found;
}

/* A call that compares what is there, and its reply. */
static struct answer compares(samvolip_seat *seat, const struct row *row)
{
    const samvolip_reply as_before = {1, 2, 3};
    samvolip_reply reply = as_before;
    uint32_t want = SAMVOLIP_ANY, change = SAMVOLIP_PUT;
    int code;
    switch (row->call) {
    case CALL_PUT_AT_ABSENT: want = SAMVOLIP_WANT_ABSENT; break;
    case CALL_PUT_AT_PRESENT: want = SAMVOLIP_WANT_PRESENT; break;
    case CALL_REMOVE_EQUAL: want = SAMVOLIP_EQUAL; change = SAMVOLIP_REMOVE; break;
    case CALL_PUT_BELOW: want = SAMVOLIP_WANT_BELOW; break;
    case CALL_ADD_AT_ANY: change = SAMVOLIP_ADD; break;
    default: EXPECT(row->call == CALL_EXCHANGE);
    }
    if (row->call == CALL_EXCHANGE)
        code = samvolip_compare_exchange(seat, row->key, row->old == NONE ? NULL : &row->old,
                                         row->number == NONE ? NULL : &row->number, 1, &reply);
    else
        code = samvolip_put_if_match(seat, row->key, want, row->old, change, row->number, 1, &reply);
    if (code < 0) {
        EXPECT(reply.before == 1 && reply.had == 2 && reply.matched == 3);
        return (struct answer)REFUSED(code);
    }
    EXPECT(code == SAMVOLIP_OK && (reply.had == 1 || (reply.had == 0 && reply.before == 0)));
    return (struct answer){(int)reply.had, reply.before, reply.matched};
}

/* The walks of each seat. */
static samvolip_cursor cursors[SEATS][CURSORS];

/* A call that lists the entries in so much room, and how many there are. Where it is refused, the array is as it was. */
static struct answer lists(samvolip_seat *seat, size_t room)
{
    samvolip_entry entries[LEFT];
    uint64_t count = 99, number;
    for (size_t i = 0; i < LEFT; i++)
        entries[i] = (samvolip_entry){UINT64_MAX, i};
    EXPECT(room <= LEFT);
    const int code = samvolip_entries(seat, entries, room, &count);
    const uint64_t written = code == SAMVOLIP_OK ? count : 0;
    for (uint64_t i = 0; i < LEFT; i++) {
        if (i >= written) {
            EXPECT(entries[i].key == UINT64_MAX && entries[i].number == i);
            continue;
        }
        EXPECT(samvolip_get(seat, entries[i].key, &number) == SAMVOLIP_PRESENT && number == entries[i].number);
        for (uint64_t j = 0; j < i; j++)
            EXPECT(entries[j].key != entries[i].key);
    }
    if (code < 0 && code != SAMVOLIP_E_ROOM)
        return (struct answer){count == 99 ? code : ANY_CODE, 0, 1};
    return (struct answer){code, count, 1};
}

/* A call that makes the map anew. */
static int renews(samvolip_seat *seats, const struct row *row)
{
    const samvolip_shape shape = {{(uint32_t)row->number}, 1, seats[B].handle ? 2 : 1, 1, UINT32_MAX, 8};
    return samvolip_renew(&seats[row->seat], &shape);
}

/* A call that answers by a code and no number. */
static struct answer looks(samvolip_seat *seats, const struct row *row)
{
    samvolip_seat *seat = &seats[row->seat];
    samvolip_ended ended = SAMVOLIP_ENDED_INIT;
    samvolip_slots found = {99, 98, 97};
    int code = 0;
    switch (row->call) {
    case CALL_CONTAINS: code = samvolip_contains(seat, row->key); break;
    case CALL_ESTIMATE: return (struct answer)WAS(samvolip_size_estimate(seat));
    case CALL_GENERATION: return (struct answer)WAS(samvolip_generation(seat));
    case CALL_OCCUPANCY:
        samvolip_occupancy(seat, &found);
        return (struct answer){(int)found.is_last, found.taken, found.looked};
    case CALL_SHOULD_RENEW: code = samvolip_should_renew(seat); break;
    case CALL_REPLACE_IF: code = samvolip_replace_if(seat, row->key, row->old, row->number); break;
    case CALL_REMOVE_IF: code = samvolip_remove_if(seat, row->key, row->old); break;
    case CALL_MEET: samvolip_meet(seat, &seats[A + B - row->seat]); break;
    case CALL_CLOSE:
        code = samvolip_close(seat, &ended);
        EXPECT(ended.handle == NULL);
        break;
    case CALL_WALK: samvolip_walk(seat, &cursors[row->seat][row->old]); break;
    case CALL_ENTRIES: return lists(seat, (size_t)row->old);
    case CALL_RENEW: code = renews(seats, row); break;
    default: return compares(seat, row);
    }
    return (struct answer){code, 0, 1};
}

/* A write below a limit, with one try, and its answer. */
static struct answer writes_below(samvolip_seat *seat, const struct row *row)
{
    const uint64_t key = row->key, limit = row->old, n = row->number;
    uint64_t found = 99;
    int code;
    switch (row->call) {
    case CALL_TRY_PUT_BELOW: code = samvolip_try_put_below(seat, key, n, limit, 1, &found); break;
    case CALL_TRY_ADD_BELOW: code = samvolip_try_add_below(seat, key, n, limit, 1, &found); break;
    default: code = samvolip_try_remove_below(seat, key, limit, 1, &found);
    }
    if (code < 0)
        return (struct answer){found == 99 ? code : ANY_CODE, 0, 1};
    return (struct answer){code, found, 1};
}

/* A call, and its answer. */
static struct answer makes(samvolip_seat *seats, const struct row *row)
{
    samvolip_seat *seat = &seats[row->seat];
    const uint64_t key = row->key, n = row->number;
    const uint32_t tries = (uint32_t)row->old;
    uint64_t found = 99, shown = 98;
    int code;
    switch (row->call) {
    case CALL_GET: code = samvolip_get(seat, key, &found); break;
    case CALL_PUT: code = samvolip_put(seat, key, n, &found); break;
    case CALL_PUT_IF_ABSENT: code = samvolip_put_if_absent(seat, key, n, &found); break;
    case CALL_REPLACE: code = samvolip_replace(seat, key, n, &found); break;
    case CALL_REMOVE: code = samvolip_remove(seat, key, &found); break;
    case CALL_ADD: code = samvolip_add(seat, key, n, &found); break;
    case CALL_GET_OR_INSERT: code = samvolip_get_or_insert(seat, key, n, &found); break;
    case CALL_MAX: code = samvolip_fetch_max(seat, key, n, &found); break;
    case CALL_MIN: code = samvolip_fetch_min(seat, key, n, &found); break;
    case CALL_TRY_PUT: code = samvolip_try_put(seat, key, n, tries, &found); break;
    case CALL_TRY_PUT_IF_ABSENT:
        code = samvolip_try_put_if_absent(seat, key, n, tries, &found);
        break;
    case CALL_TRY_ADD: code = samvolip_try_add(seat, key, n, tries, &found); break;
    case CALL_TRY_REMOVE: code = samvolip_try_remove(seat, key, tries, &found); break;
    case CALL_TRY_PUT_BELOW:
    case CALL_TRY_ADD_BELOW:
    case CALL_TRY_REMOVE_BELOW: return writes_below(seat, row);
    case CALL_ONE_MORE: code = samvolip_update(seat, key, one_more, NULL, 1, &found); break;
    case CALL_TURN: code = samvolip_update(seat, key, turn, NULL, 2, &found); break;
    case CALL_NEXT:
        code = samvolip_next(seat, &cursors[row->seat][row->old], &shown, &found);
        if (code == SAMVOLIP_ABSENT)
            return (struct answer){shown == 98 && found == 99 ? code : ANY_CODE, 0, 1};
        return (struct answer){code, found, shown == key};
    default: return looks(seats, row);
    }
    if (code < 0)
        return (struct answer){found == 99 ? code : ANY_CODE, 0, 1};
    return (struct answer){code, found, 1};
}

/* Makes these calls, up to the end of the rows or to so many, and compares their answers. */
static void sees(const struct test *test, samvolip_seat *seats, const struct row *rows, size_t most)
{
    for (size_t i = 0; i < most && rows[i].call != END; i++) {
        const struct answer got = makes(seats, &rows[i]), *wanted = &rows[i].answer;
        if (wanted->code == ANY_CODE ? got.code >= 0 && got.code < ANY_CODE
                                     : got.code == wanted->code && got.number == wanted->number
                                           && got.more == wanted->more)
            continue;
        fprintf(stderr, "%s: row %zu, at key %" PRIu64 ", answers {%d, %" PRIu64 ", %u}\n", test->name,
                i + 1, rows[i].key, got.code, got.number, got.more);
        exit(1);
    }
}

/* What one of two threads calls. */
struct part {
    const struct test *test;
    samvolip_seat *seats;
    unsigned seat;
};

static void *sees_alone(void *given)
{
    const struct part *part = given;
    sees(part->test, part->seats, part->test->together[part->seat], 2);
    return NULL;
}

static void sees_together(const struct test *test, samvolip_seat *seats)
{
    struct part parts[SEATS] = {{test, seats, A}, {test, seats, B}};
    pthread_t threads[SEATS];
    for (unsigned i = 0; i < SEATS; i++)
        EXPECT(pthread_create(&threads[i], NULL, sees_alone, &parts[i]) == 0);
    for (unsigned i = 0; i < SEATS; i++)
        EXPECT(pthread_join(threads[i], NULL) == 0);
}

/* Sees that these keys are left, in ascending order, each with its number. */
static int leaves(const struct test *test, samvolip_ended *ended)
{
    samvolip_entry entries[LEFT];
    uint64_t number;
    if (samvolip_ended_size(ended) != test->keys
        || samvolip_ended_entries(ended, entries, LEFT) != SAMVOLIP_OK)
        return 0;
    for (size_t i = 0; i < test->keys; i++) {
        const samvolip_entry *left = &test->left[i];
        if (entries[i].key != left->key || entries[i].number != left->number
            || samvolip_ended_get(ended, left->key, &number) != SAMVOLIP_PRESENT
            || number != left->number)
            return 0;
    }
    return 1;
}

/* Plays the test in a new map, and looks at what is left of it. */
static void plays(const struct test *test)
{
    samvolip_seat seats[SEATS] = {SAMVOLIP_SEAT_INIT, SAMVOLIP_SEAT_INIT};
    samvolip_ended ended = SAMVOLIP_ENDED_INIT;
    EXPECT(samvolip_open(&test->shape, &seats[A]) == SAMVOLIP_OK);
    if (test->shape.seats == SEATS)
        EXPECT(samvolip_split(&seats[A], &seats[B]) == SAMVOLIP_OK);
    if (test->together[A][0].call != END)
        sees_together(test, seats);
    sees(test, seats, test->rows, ROWS);
    if (test->shape.seats == SEATS)
        EXPECT(samvolip_join(&seats[A], &seats[B]) == SAMVOLIP_OK);
    EXPECT(samvolip_close(&seats[A], &ended) == SAMVOLIP_OK);
    if (!leaves(test, &ended)) {
        fprintf(stderr, "%s: something else is left\n", test->name);
        exit(1);
    }
    samvolip_ended_free(&ended);
}

/* ---- the tables */

/* so many tables, the first of four slots and each further one twice as large, and one seat or two */
#define ONE_TABLE {{2}, 1, 1, 1, UINT32_MAX, 8}
#define TWO_TABLES {{2, 3}, 2, 1, 1, UINT32_MAX, 8}
#define OF_TWO_SEATS {{2, 3}, 2, 2, 2, UINT32_MAX, 8}

/* a table of four slots is filled */
#define FOUR_KEYS {A, 0, PUT(10), NOTHING}, {A, 1, PUT(11), NOTHING}, {A, 2, PUT(12), NOTHING}, {A, 3, PUT(13), NOTHING}

/* four keys whose home in the first table is one slot */
#define CROWDED_KEYS {A, 0, PUT(10), NOTHING}, {A, 4, PUT(14), NOTHING}, {A, 8, PUT(18), NOTHING}, {A, 12, PUT(22), NOTHING}

static const struct test tests[] = {
    {.name = "fresh_map", .shape = ONE_TABLE, .keys = 0},

    /* ---- conditional calls */

    {.name = "conditional_calls",
     .shape = ONE_TABLE,
     .rows = {{A, 5, REPLACE(1), NOTHING},
              {A, 5, REPLACE_IF(1, 2), NO},
              {A, 5, PUT_IF_ABSENT(1), NOTHING},
              {A, 5, PUT_IF_ABSENT(2), WAS(1)},
              {A, 5, REPLACE(3), WAS(1)},
              {A, 5, REPLACE_IF(1, 4), NO},
              {A, 5, REPLACE_IF(3, 4), YES},
              {A, 5, REMOVE_IF(3), NO},
              {A, 5, REMOVE_IF(4), YES},
              {A, 5, REMOVE_IF(4), NO},
              {A, 5, REMOVE, NOTHING},
              {A, 5, GET, NOTHING}},
     .keys = 0},

    {.name = "conditional_write",
     .shape = ONE_TABLE,
     .rows = {{A, 1, CONTAINS, NO},
              {A, 1, PUT_AT_ABSENT(5), NOTHING},
              {A, 1, CONTAINS, YES},
              {A, 1, GET, WAS(5)},
              {A, 1, ESTIMATE, WAS(1)},
              {A, 1, PUT_AT_ABSENT(6), MISSED_AT(5)},
              {A, 1, PUT_AT_PRESENT(7), WAS(5)},
              {A, 1, ADD_AT_ANY(3), WAS(7)},
              {A, 1, REMOVE_EQUAL(7), MISSED_AT(10)},
              {A, 1, REMOVE_EQUAL(10), WAS(10)},
              {A, 1, CONTAINS, NO},
              {A, 1, ESTIMATE, WAS(0)},
              {A, 1, GENERATION, WAS(0)}},
     .keys = 0},

    /* ---- full tables */

    {.name = "refusals_when_full",
     .shape = ONE_TABLE,
     .rows = {FOUR_KEYS,
              {A, 4, PUT(1), FULL},
              {A, 4, PUT_IF_ABSENT(1), FULL},
              {A, 4, REPLACE(1), NOTHING},
              {A, 0, PUT_IF_ABSENT(9), WAS(10)},
              {A, 4, REMOVE, NOTHING},
              {A, 0, REPLACE_IF(10, 9), YES}},
     .keys = 4,
     .left = {{0, 9}, {1, 11}, {2, 12}, {3, 13}}},

    /* the first table, which is the last one too, is filled, and its first key gets another number */
    {.name = "full_table",
     .shape = ONE_TABLE,
     .rows = {FOUR_KEYS, {A, 4, PUT(14), FULL}, {A, 0, PUT(20), WAS(10)}},
     .keys = 4,
     .left = {{0, 20}, {1, 11}, {2, 12}, {3, 13}}},

    /* a removed key keeps its slot: no other key gets it, and the key can come back; a write that has nothing to replace isn't
       refused */
    {.name = "full_and_kept_keys",
     .shape = ONE_TABLE,
     .rows = {FOUR_KEYS,
              {A, 4, PUT(14), FULL},
              {A, 0, PUT(20), WAS(10)},
              {A, 0, REMOVE, WAS(20)},
              {A, 4, PUT(14), FULL},
              {A, 4, PUT_IF_ABSENT(1), FULL},
              {A, 4, REPLACE(1), NOTHING},
              {A, 4, PUT_AT_ABSENT(14), FULL},
              {A, 4, PUT_AT_PRESENT(1), MISSED},
              {A, 0, PUT(30), NOTHING}},
     .keys = 4,
     .left = {{0, 30}, {1, 11}, {2, 12}, {3, 13}}},

    {.name = "add_when_full",
     .shape = ONE_TABLE,
     .rows = {FOUR_KEYS, {A, 4, ADD(1), FULL}, {A, 0, ADD(1), WAS(10)}},
     .keys = 4,
     .left = {{0, 11}, {1, 11}, {2, 12}, {3, 13}}},

    {.name = "adds",
     .shape = ONE_TABLE,
     .rows = {{A, 1, ADD(5), NOTHING},
              {A, 1, ADD(6), WAS(5)},
              {A, 1, GET, WAS(11)},
              {A, 1, ADD(SAMVOLIP_VALUE_MAX - 11), WAS(11)},
              {A, 1, ADD(1), PAST},
              {A, 1, ADD_AT_ANY(1), PAST},
              {A, 1, ADD(0), WAS(SAMVOLIP_VALUE_MAX)},
              {A, 2, ADD(0), NOTHING}},
     .keys = 2,
     .left = {{1, SAMVOLIP_VALUE_MAX}, {2, 0}}},

    /* ---- growth */

    /* of keys that came and went in the first table none is left in the second, which the others and these then fill */
    {.name = "refilled_map",
     .shape = TWO_TABLES,
     .rows = {FOUR_KEYS,
              {A, 0, REMOVE, WAS(10)},
              {A, 1, REMOVE, WAS(11)},
              {A, 2, REMOVE, WAS(12)},
              {A, 3, REMOVE, WAS(13)},
              {A, 4, PUT(14), NOTHING},
              {A, 5, PUT(15), NOTHING},
              {A, 6, PUT(16), NOTHING},
              {A, 7, PUT(17), NOTHING},
              {A, 0, PUT(10), NOTHING},
              {A, 1, PUT(11), NOTHING},
              {A, 2, PUT(12), NOTHING},
              {A, 3, PUT(13), NOTHING},
              {A, 8, PUT(1), FULL},
              {A, 8, GENERATION, WAS(1)}},
     .keys = 8,
     .left = {{0, 10}, {1, 11}, {2, 12}, {3, 13}, {4, 14}, {5, 15}, {6, 16}, {7, 17}}},

    /* with a reprobe limit of 1 a key that isn't at home makes the map grow, but for the last table, where it is put behind
       others */
    {.name = "tuned_growth",
     .shape = {{2, 3, 4}, 3, 1, 1, 1, 4},
     .rows = {{A, 0, PUT(10), NOTHING},
              {A, 0, GENERATION, WAS(0)},
              {A, 4, PUT(10), NOTHING},
              {A, 4, GENERATION, WAS(1)},
              {A, 8, PUT(10), NOTHING},
              {A, 8, GENERATION, WAS(2)},
              {A, 12, PUT(10), NOTHING},
              {A, 12, GENERATION, WAS(2)},
              {A, 16, PUT(10), NOTHING},
              {A, 16, GENERATION, WAS(2)}},
     .keys = 5,
     .left = {{0, 10}, {4, 10}, {8, 10}, {12, 10}, {16, 10}}},

    /* the second table is as crowded by four keys as the first, and the third takes them */
    {.name = "plan_of_three",
     .shape = {{2, 2, 3}, 3, 1, 1, UINT32_MAX, 8},
     .rows = {CROWDED_KEYS, {A, 0, GENERATION, WAS(2)}},
     .keys = 4,
     .left = {{0, 10}, {4, 14}, {8, 18}, {12, 22}}},

    {.name = "meeting_shows_growth",
     .shape = {{2, 3, 4}, 3, 2, 2, UINT32_MAX, 8},
     .rows = {CROWDED_KEYS,
              {A, 0, GENERATION, WAS(1)},
              {A, 0, MEET, NO},
              {B, 0, GENERATION, WAS(1)},
              {B, 8, GET, WAS(18)}},
     .keys = 4,
     .left = {{0, 10}, {4, 14}, {8, 18}, {12, 22}}},

    /* a removed key has its slot still; once a map has grown, its next table is looked at, to which the removed key wasn't
       copied */
    {.name = "tells_how_full",
     .shape = TWO_TABLES,
     .rows = {{A, 0, OCCUPANCY, TAKEN(0, 4)},
              {A, 0, SHOULD_RENEW, NO},
              FOUR_KEYS,
              {A, 0, REMOVE, WAS(10)},
              {A, 0, OCCUPANCY, TAKEN(4, 4)},
              {A, 0, SHOULD_RENEW, NO},
              {A, 0, GENERATION, WAS(0)},
              {A, 4, PUT(14), NOTHING},
              {A, 5, PUT(15), NOTHING},
              {A, 0, OCCUPANCY, TAKEN_OF_LAST(5, 8)},
              {A, 0, SHOULD_RENEW, NO},
              {A, 0, GENERATION, WAS(1)},
              {A, 6, PUT(16), NOTHING},
              {A, 0, OCCUPANCY, TAKEN_OF_LAST(6, 8)},
              {A, 0, SHOULD_RENEW, YES}},
     .keys = 6,
     .left = {{1, 11}, {2, 12}, {3, 13}, {4, 14}, {5, 15}, {6, 16}}},

    /* ---- writes with tries */

    {.name = "writes_of_one_try",
     .shape = ONE_TABLE,
     .rows = {{A, 5, TRY_PUT_IF_ABSENT(1), NOTHING},
              {A, 5, TRY_PUT_IF_ABSENT(2), WAS(1)},
              {A, 5, TRY_PUT(3), WAS(1)},
              {A, 5, TRY_ADD(4), WAS(3)},
              {A, 5, GET, WAS(7)},
              {A, 5, TRY_REMOVE, WAS(7)},
              {A, 5, TRY_REMOVE, NOTHING},
              {A, 5, GET, NOTHING}},
     .keys = 0},

    /* what is absent is below any limit, and a value below a greater one alone */
    {.name = "writes_below_a_limit",
     .shape = ONE_TABLE,
     .rows = {{A, 5, TRY_PUT_BELOW(0, 1), NOTHING},
              {A, 5, TRY_PUT_BELOW(0, 6), WAS(1)},
              {A, 5, TRY_PUT_BELOW(1, 6), WAS(1)},
              {A, 5, TRY_PUT_BELOW(2, 7), WAS(1)},
              {A, 5, TRY_ADD_BELOW(7, 2), WAS(7)},
              {A, 5, TRY_ADD_BELOW(8, 2), WAS(7)},
              {A, 5, TRY_ADD_BELOW(9, SAMVOLIP_VALUE_MAX), WAS(9)},
              {A, 5, TRY_ADD_BELOW(10, SAMVOLIP_VALUE_MAX), PAST},
              {A, 5, PUT_BELOW(9, 4), MISSED_AT(9)},
              {A, 5, PUT_BELOW(10, 8), WAS(9)},
              {A, 5, PUT_BELOW(SAMVOLIP_VALUE_MAX + 1, 8), REFUSED(SAMVOLIP_E_VALUE_RANGE)},
              {A, 5, TRY_REMOVE_BELOW(8), WAS(8)},
              {A, 0, ESTIMATE, WAS(1)},
              {A, 5, TRY_REMOVE_BELOW(9), WAS(8)},
              {A, 5, TRY_REMOVE_BELOW(9), NOTHING},
              {A, 0, ESTIMATE, WAS(0)},
              {A, 5, PUT_BELOW(0, 3), NOTHING},
              {A, 5, PUT_BELOW(3, 4), MISSED_AT(3)},
              {A, 5, PUT_BELOW(SAMVOLIP_VALUE_MAX, 4), WAS(3)},
              {A, 5, TRY_PUT_BELOW(SAMVOLIP_VALUE_MAX, SAMVOLIP_VALUE_MAX), WAS(4)},
              {A, 5, TRY_PUT_BELOW(SAMVOLIP_VALUE_MAX, 0), WAS(SAMVOLIP_VALUE_MAX)},
              {A, 6, TRY_ADD_BELOW(0, 4), NOTHING},
              {A, 7, TRY_PUT_BELOW(1, 1), NOTHING},
              {A, 0, ESTIMATE, WAS(3)}},
     .keys = 3,
     .left = {{5, SAMVOLIP_VALUE_MAX}, {6, 4}, {7, 1}}},

    {.name = "writes_refused_when_full",
     .shape = ONE_TABLE,
     .rows = {FOUR_KEYS,
              {A, 4, TRY_PUT(1), FULL},
              {A, 4, TRY_PUT_IF_ABSENT(1), FULL},
              {A, 4, TRY_ADD(1), FULL},
              {A, 4, EXCHANGE(NONE, 1), FULL},
              {A, 4, TRY_PUT_BELOW(9, 1), FULL},
              {A, 4, TRY_ADD_BELOW(9, 1), FULL},
              {A, 4, TRY_REMOVE_BELOW(9), NOTHING},
              {A, 4, TRY_REMOVE, NOTHING},
              {A, 0, TRY_ADD(SAMVOLIP_VALUE_MAX), PAST}},
     .keys = 4,
     .left = {{0, 10}, {1, 11}, {2, 12}, {3, 13}}},

    {.name = "exchanges_at_a_key",
     .shape = ONE_TABLE,
     .rows = {{A, 5, EXCHANGE(NONE, NONE), NOTHING},
              {A, 5, EXCHANGE(1, 2), MISSED},
              {A, 5, EXCHANGE(NONE, 1), NOTHING},
              {A, 5, EXCHANGE(NONE, 2), MISSED_AT(1)},
              {A, 5, EXCHANGE(1, 2), WAS(1)},
              {A, 5, EXCHANGE(1, NONE), MISSED_AT(2)},
              {A, 5, EXCHANGE(2, NONE), WAS(2)}},
     .keys = 0},

    {.name = "updates_at_a_key",
     .shape = ONE_TABLE,
     .rows = {{A, 5, TURN, NOTHING},
              {A, 5, TURN, WAS(1)},
              {A, 5, TURN, NOTHING},
              {A, 5, GET, WAS(1)},
              {A, 0, PUT(10), NOTHING},
              {A, 1, PUT(11), NOTHING},
              {A, 2, PUT(12), NOTHING},
              {A, 4, TURN, FULL}},
     .keys = 4,
     .left = {{0, 10}, {1, 11}, {2, 12}, {5, 1}}},

    /* no tries count as one, which no other thread can come before here */
    {.name = "tries_once",
     .shape = ONE_TABLE,
     .rows = {{A, 5, TRY_PUT(1), NOTHING},
              {A, 5, TRY_PUT_IF_ABSENT(2), WAS(1)},
              {A, 5, ADD_WITH_NO_TRIES(1), WAS(1)},
              {A, 5, EXCHANGE(2, 1), WAS(2)},
              {A, 5, ONE_MORE, WAS(1)},
              {A, 5, GET, WAS(2)},
              {A, 5, TRY_REMOVE, WAS(2)},
              {A, 5, GET, NOTHING}},
     .keys = 0},

    /* a fifth key has no slot among four */
    {.name = "is_refused",
     .shape = ONE_TABLE,
     .rows = {{A, 0, TRY_PUT(1), NOTHING},
              {A, 1, TRY_PUT(1), NOTHING},
              {A, 2, TRY_PUT(1), NOTHING},
              {A, 3, TRY_PUT(1), NOTHING},
              {A, 4, TRY_PUT(1), FULL},
              {A, 4, ONE_MORE, FULL}},
     .keys = 4,
     .left = {{0, 1}, {1, 1}, {2, 1}, {3, 1}}},

    /* ---- calls over calls */

    /* the number that a key has is answered, and stays; a full map is told */
    {.name = "get_or_insert_answers_what_is_there",
     .shape = ONE_TABLE,
     .rows = {{A, 1, GET_OR_INSERT(10), {SAMVOLIP_ABSENT, 10, 1}},
              {A, 1, GET_OR_INSERT(20), WAS(10)},
              {A, 2, GET_OR_INSERT(0), NOTHING},
              {A, 3, GET_OR_INSERT(0), NOTHING},
              {A, 4, GET_OR_INSERT(0), NOTHING},
              {A, 5, GET_OR_INSERT(0), FULL}},
     .keys = 4,
     .left = {{1, 10}, {2, 0}, {3, 0}, {4, 0}}},

    /* a number that another seat put before is answered */
    {.name = "get_or_insert_after_another",
     .shape = OF_TWO_SEATS,
     .rows = {{A, 5, GET_OR_INSERT(1), {SAMVOLIP_ABSENT, 1, 1}}, {B, 5, GET_OR_INSERT(2), WAS(1)}},
     .keys = 1,
     .left = {{5, 1}}},

    /* the greater of two numbers stays, or the less; an absent key gets the number */
    {.name = "the_greater_and_the_less",
     .shape = ONE_TABLE,
     .rows = {{A, 1, MAX(5), NOTHING},
              {A, 1, MAX(7), WAS(5)},
              {A, 1, MAX(5), WAS(7)},
              {A, 2, MIN(7), NOTHING},
              {A, 2, MIN(5), WAS(7)},
              {A, 2, MIN(7), WAS(5)}},
     .keys = 2,
     .left = {{1, 7}, {2, 5}}},

    /* there is no slot for the key */
    {.name = "no_room_for_the_greater",
     .shape = ONE_TABLE,
     .rows = {{A, 0, MAX(1), NOTHING},
              {A, 1, MAX(1), NOTHING},
              {A, 2, MAX(1), NOTHING},
              {A, 3, MAX(1), NOTHING},
              {A, 4, MAX(1), FULL},
              {A, 4, MIN(1), FULL}},
     .keys = 4,
     .left = {{0, 1}, {1, 1}, {2, 1}, {3, 1}}},

    /* ---- two seats */

    /* ending without a seat is refused, and the map works on */
    {.name = "size_of_two_seats",
     .shape = {{2}, 1, 2, 2, UINT32_MAX, 8},
     .rows = {{A, 1, PUT(5), NOTHING},
              {A, 1, PUT(5), WAS(5)},
              {B, 1, REMOVE, WAS(5)},
              {A, 1, CLOSE, REFUSED(SAMVOLIP_E_NOT_ALL_SEATS)},
              {A, 1, GET, NOTHING}},
     .keys = 0},

    /* once the seats have met, each finds what both threads put */
    {.name = "two_threads_two_keys",
     .shape = {{2}, 1, 2, 2, UINT32_MAX, 8},
     .together = {{{A, 1, PUT(11), NOTHING}}, {{B, 2, PUT(12), NOTHING}}},
     .rows = {{A, 0, MEET, NO},
              {A, 1, GET, WAS(11)},
              {A, 2, GET, WAS(12)},
              {B, 1, GET, WAS(11)},
              {B, 2, GET, WAS(12)}},
     .keys = 2,
     .left = {{1, 11}, {2, 12}}},

    /* two threads count visits of one page */
    {.name = "two_visits",
     .shape = {{4, 5, 6, 7}, 4, 2, 1, UINT32_MAX, 8},
     .together = {{{A, 7, ADD(1), MADE}}, {{B, 7, ADD(1), MADE}}},
     .rows = {{A, 7, CONTAINS, YES}},
     .keys = 1,
     .left = {{7, 2}}},

    /* ---- walks */

    /* a key that was there before a walk came to it, and one that came with a new table, are shown, and one that went isn't */
    {.name = "walk_over_growth",
     .shape = OF_TWO_SEATS,
     .rows = {{A, 0, PUT(10), NOTHING},
              {A, 4, PUT(14), NOTHING},
              {A, 8, PUT(18), NOTHING},
              {A, 0, WALK, NO},
              {A, 0, NEXT, WAS(10)},
              {B, 12, PUT(22), NOTHING},
              {B, 4, REMOVE, WAS(14)},
              {A, 8, NEXT, WAS(18)},
              {A, 12, NEXT, WAS(22)},
              {A, 0, NEXT, NOTHING},
              {A, 0, NEXT, NOTHING}},
     .keys = 3,
     .left = {{0, 10}, {8, 18}, {12, 22}}},

    /* a key whose path goes on from the table's last slot to its first is met there */
    {.name = "walk_wraps",
     .shape = ONE_TABLE,
     .rows = {{A, 3, PUT(0), NOTHING},
              {A, 7, PUT(0), NOTHING},
              {A, 2, PUT(0), NOTHING},
              {A, 2, REMOVE, WAS(0)},
              {A, 0, WALK, NO},
              {A, 7, NEXT, WAS(0)},
              {A, 3, NEXT, WAS(0)},
              {A, 0, NEXT, NOTHING},
              {A, 0, NEXT, NOTHING}},
     .keys = 2,
     .left = {{3, 0}, {7, 0}}},

    /* all slots of the last table are taken, one by a key that was removed */
    {.name = "walk_of_a_full_table",
     .shape = ONE_TABLE,
     .rows = {{A, 9, PUT(19), NOTHING},
              {A, 1, PUT(11), NOTHING},
              {A, 2, PUT(12), NOTHING},
              {A, 3, PUT(13), NOTHING},
              {A, 2, REMOVE, WAS(12)},
              {A, 0, WALK, NO},
              {A, 3, NEXT, WAS(13)},
              {A, 9, NEXT, WAS(19)},
              {A, 1, NEXT, WAS(11)},
              {A, 0, NEXT, NOTHING},
              {A, 0, NEXT, NOTHING}},
     .keys = 3,
     .left = {{1, 11}, {3, 13}, {9, 19}}},

    /* a walk begins in a table that others complete and leave, twice over: it shows its keys where they stood first, with the
       numbers that they have now */
    {.name = "walk_of_a_table_that_others_leave",
     .shape = {{2, 3, 4}, 3, 2, 2, UINT32_MAX, 8},
     .rows = {{A, 0, PUT(10), NOTHING},
              {A, 4, PUT(14), NOTHING},
              {A, 8, PUT(18), NOTHING},
              {A, 0, WALK, NO},
              {B, 12, PUT(22), NOTHING},
              {B, 16, PUT(26), NOTHING},
              {B, 24, PUT(34), NOTHING},
              {B, 32, PUT(42), NOTHING},
              {B, 4, GENERATION, WAS(2)},
              {B, 4, REPLACE(44), WAS(14)},
              {A, 0, NEXT, WAS(10)},
              {A, 4, NEXT, WAS(44)},
              {A, 8, NEXT, WAS(18)},
              {A, 16, NEXT, WAS(26)},
              {A, 24, NEXT, WAS(34)},
              {A, 12, NEXT, WAS(22)},
              {A, 32, NEXT, WAS(42)},
              {A, 0, NEXT, NOTHING},
              {A, 0, NEXT, NOTHING},
              {A, 0, WALK, NO},
              {A, 0, NEXT, WAS(10)},
              {A, 16, NEXT, WAS(26)},
              {A, 32, NEXT, WAS(42)},
              {A, 4, NEXT, WAS(44)},
              {A, 8, NEXT, WAS(18)},
              {A, 24, NEXT, WAS(34)},
              {A, 12, NEXT, WAS(22)},
              {A, 0, NEXT, NOTHING},
              {A, 0, NEXT, NOTHING}},
     .keys = 7,
     .left = {{0, 10}, {4, 44}, {8, 18}, {12, 22}, {16, 26}, {24, 34}, {32, 42}}},

    /* a walk that has ended shows nothing that comes later, also where its own seat puts it, and a new one does; a walk shows what
       its seat has updated meanwhile */
    {.name = "ended_walk",
     .shape = ONE_TABLE,
     .rows = {{A, 0, WALK, NO},
              {A, 0, NEXT, NOTHING},
              {A, 0, NEXT, NOTHING},
              {A, 1, PUT(11), NOTHING},
              {A, 0, NEXT, NOTHING},
              {A, 0, NEXT, NOTHING},
              {A, 0, WALK, NO},
              {A, 1, NEXT, WAS(11)},
              {A, 0, NEXT, NOTHING},
              {A, 0, NEXT, NOTHING},
              {A, 0, WALK, NO},
              {A, 1, ONE_MORE, WAS(11)},
              {A, 1, NEXT, WAS(12)},
              {A, 0, NEXT, NOTHING},
              {A, 0, NEXT, NOTHING}},
     .keys = 1,
     .left = {{1, 12}}},

    /* a seat has two walks, each of which is where it is: a whole one within another, and two by turns */
    {.name = "two_walks_of_a_seat",
     .shape = ONE_TABLE,
     .rows = {{A, 0, PUT(10), NOTHING},
              {A, 1, PUT(11), NOTHING},
              {A, 2, PUT(12), NOTHING},
              {A, 0, WALK, NO},
              {A, 0, NEXT, WAS(10)},
              {A, 0, WALK_2, NO},
              {A, 0, NEXT_2, WAS(10)},
              {A, 1, NEXT_2, WAS(11)},
              {A, 2, NEXT_2, WAS(12)},
              {A, 0, NEXT_2, NOTHING},
              {A, 1, NEXT, WAS(11)},
              {A, 0, NEXT_2, NOTHING},
              {A, 0, WALK_2, NO},
              {A, 0, NEXT_2, WAS(10)},
              {A, 2, REMOVE, WAS(12)},
              {A, 3, PUT(13), NOTHING},
              {A, 3, NEXT, WAS(13)},
              {A, 1, NEXT_2, WAS(11)},
              {A, 0, NEXT, NOTHING},
              {A, 3, NEXT_2, WAS(13)},
              {A, 0, NEXT_2, NOTHING},
              {A, 0, NEXT, NOTHING}},
     .keys = 3,
     .left = {{0, 10}, {1, 11}, {3, 13}}},

    /* each seat has its own walk, one of which begins after the map has grown; a meeting ends none */
    {.name = "walks_of_two_seats",
     .shape = OF_TWO_SEATS,
     .rows = {{A, 0, PUT(10), NOTHING},
              {A, 4, PUT(14), NOTHING},
              {A, 8, PUT(18), NOTHING},
              {A, 0, WALK, NO},
              {B, 0, WALK, NO},
              {A, 0, NEXT, WAS(10)},
              {B, 0, NEXT, WAS(10)},
              {B, 4, NEXT, WAS(14)},
              {B, 12, PUT(22), NOTHING},
              {B, 12, GENERATION, WAS(1)},
              {B, 0, WALK_2, NO},
              {A, 4, REMOVE, WAS(14)},
              {A, 0, MEET, NO},
              {A, 8, NEXT, WAS(18)},
              {B, 8, NEXT, WAS(18)},
              {B, 0, NEXT_2, WAS(10)},
              {A, 12, NEXT, WAS(22)},
              {B, 8, NEXT_2, WAS(18)},
              {A, 0, NEXT, NOTHING},
              {B, 12, NEXT, WAS(22)},
              {B, 12, NEXT_2, WAS(22)},
              {B, 0, NEXT, NOTHING},
              {B, 0, NEXT_2, NOTHING}},
     .keys = 3,
     .left = {{0, 10}, {8, 18}, {12, 22}}},

    /* ---- all entries, and a new map */

    /* the room is too small, or just enough, or more; a walk goes on */
    {.name = "entries_with_room",
     .shape = TWO_TABLES,
     .rows = {{A, 0, ENTRIES(0), LISTED(0)},
              {A, 0, ENTRIES(3), LISTED(0)},
              FOUR_KEYS,
              {A, 0, WALK, NO},
              {A, 0, NEXT, WAS(10)},
              {A, 0, ENTRIES(0), LISTED_FOR_MORE(4)},
              {A, 0, ENTRIES(3), LISTED_FOR_MORE(4)},
              {A, 0, ENTRIES(4), LISTED(4)},
              {A, 4, PUT(14), NOTHING},
              {A, 1, REMOVE, WAS(11)},
              {A, 5, PUT(15), NOTHING},
              {A, 0, ENTRIES(4), LISTED_FOR_MORE(5)},
              {A, 0, ENTRIES(12), LISTED(5)},
              {A, 2, NEXT, WAS(12)},
              {A, 0, GENERATION, WAS(1)}},
     .keys = 5,
     .left = {{0, 10}, {2, 12}, {3, 13}, {4, 14}, {5, 15}}},

    /* a seat is lacking, and all is as it was */
    {.name = "all_seats_are_asked_for",
     .shape = OF_TWO_SEATS,
     .rows = {{A, 1, PUT(11), NOTHING},
              {B, 0, WALK, NO},
              {A, 0, ENTRIES(5), REFUSED(SAMVOLIP_E_NOT_ALL_SEATS)},
              {B, 0, ENTRIES(0), REFUSED(SAMVOLIP_E_NOT_ALL_SEATS)},
              {A, 0, RENEW(2), REFUSED(SAMVOLIP_E_NOT_ALL_SEATS)},
              {B, 0, RENEW(1), REFUSED(SAMVOLIP_E_EXPONENTS)},
              {B, 1, NEXT, WAS(11)},
              {B, 1, GET, WAS(11)}},
     .keys = 1,
     .left = {{1, 11}}},

    /* the slot of a removed key is free again; a larger map has room for more, and one that is too small is refused */
    {.name = "renewed_map",
     .shape = TWO_TABLES,
     .rows = {FOUR_KEYS,
              {A, 0, RENEW(2), NO},
              {A, 0, GENERATION, WAS(0)},
              {A, 0, OCCUPANCY, TAKEN_OF_LAST(4, 4)},
              {A, 4, PUT(14), FULL},
              {A, 3, REMOVE, WAS(13)},
              {A, 4, PUT(14), FULL},
              {A, 0, SHOULD_RENEW, YES},
              {A, 0, RENEW(2), NO},
              {A, 0, OCCUPANCY, TAKEN_OF_LAST(3, 4)},
              {A, 4, PUT(14), NOTHING},
              {A, 5, PUT(15), FULL},
              {A, 0, RENEW(3), NO},
              {A, 0, OCCUPANCY, TAKEN_OF_LAST(4, 8)},
              {A, 0, SHOULD_RENEW, NO},
              {A, 5, PUT(15), NOTHING},
              {A, 0, WALK, NO},
              {A, 0, NEXT, WAS(10)},
              {A, 0, RENEW(2), FULL},
              {A, 1, NEXT, WAS(11)},
              {A, 0, OCCUPANCY, TAKEN_OF_LAST(5, 8)},
              {A, 0, RENEW(29), REFUSED(SAMVOLIP_E_EXPONENTS)},
              {A, 2, REMOVE, WAS(12)},
              {A, 5, ADD(5), WAS(15)},
              {A, 0, RENEW(2), NO},
              {A, 0, ESTIMATE, WAS(4)},
              {A, 0, ENTRIES(12), LISTED(4)},
              {A, 5, GET, WAS(20)},
              {A, 2, GET, NOTHING}},
     .keys = 4,
     .left = {{0, 10}, {1, 11}, {4, 14}, {5, 20}}},
};

/* So many keys come to a large table, each by this step greater than the one before. The sample shows what part of the slots they
   have, also where they are alike in their low bits. */
static void samples(uint64_t keys, uint64_t step)
{
    const samvolip_shape shape = {{14}, 1, 1, 1, UINT32_MAX, 64};
    samvolip_seat seat = SAMVOLIP_SEAT_INIT;
    samvolip_slots found = {0, 0, 0};
    EXPECT(samvolip_open(&shape, &seat) == SAMVOLIP_OK);
    for (uint64_t key = 0; key < keys; key++)
        EXPECT(samvolip_put(&seat, key * step, key, NULL) == SAMVOLIP_ABSENT);
    samvolip_occupancy(&seat, &found);
    EXPECT(found.is_last == 1 && found.looked == 1024 && found.taken * step == 1024);
    EXPECT(samvolip_should_renew(&seat) == 0);
    samvolip_free(&seat);
}

static void samples_a_large_table(void)
{
    samples(1 << 13, 2);
    samples(1 << 12, 4);
    samples(1 << 11, 8);
}

int main(void)
{
    for (size_t i = 0; i < sizeof tests / sizeof *tests; i++)
        plays(&tests[i]);
    samples_a_large_table();
    puts("rows: well");
    return 0;
}
