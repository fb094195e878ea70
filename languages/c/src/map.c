/* map.c - the calls of samvolip_map.h for one key, and the beginning and the end of a map. endless.h says what these stand on. */
#include "endless.h"
#include <sys/random.h>

/* ---- calls --------------------------------------------------------------------------------- */

/* A call of this name, which READS or WRITES: it is `call` by `seat`; and after a renewal, if the part was full, all of it again. `change`
   says by its code whether a key comes or goes. What isn't the common case stands apart, so that this takes few instructions. */
#define CALL(what, name, parameters, words, call, change)                                                                            \
    static COLD int name##_slowly parameters                                                                                         \
    {                                                                                                                                \
        uint64_t found __attribute__((unused));                                                                                      \
        int code = AGAIN;                                                                                                            \
        while (code == AGAIN) {                                                                                                      \
            part *into = enter_slowly(map, what, share_of(inner_key(map, true, key)));                                               \
            if (!into)                                                                                                               \
                return SAMVOLIP_E_NESTED;                                                                                            \
            samvolip_seat *seat = used_seat(map, into);                                                                              \
            uint64_t inner = inner_key(map, place_of(map, into) > 0, key);                                                           \
            code = call;                                                                                                             \
            code = end_call(map, into, code, (change) != STAYS && counts_down(map, used_lane(map), into, change));                   \
        }                                                                                                                            \
        return code;                                                                                                                 \
    }                                                                                                                                \
    int samvolip_map_##name parameters                                                                                               \
    {                                                                                                                                \
        bool divided = is_divided(map); /* then a jump: nobody waits for the key's share */                                          \
        uint64_t inner = inner_once(map, divided, key), found __attribute__((unused));                                               \
        part *into = part_of(map, divided, share_of(inner));                                                                         \
        struct thread *me = own();                                                                                                   \
        samvolip_seat *seat = LIKELY(inner <= SAMVOLIP_KEY_MAX) ? enter_at_once(map, me, into, what) : NULL;                         \
        if (UNLIKELY(!seat))                                                                                                         \
            return name##_slowly words;                                                                                              \
        int code = call;                                                                                                             \
        bool looks = (change) != STAYS && UNLIKELY(counts_down(map, &map->lanes[me->lanes[map->cell]], into, change));               \
        if (LIKELY((what == READS || code >= 0) && !looks)) {                                                                        \
            leave_at_once(me);                                                                                                       \
            return code;                                                                                                             \
        }                                                                                                                            \
        code = end_call(map, into, code, looks);                                                                                     \
        return UNLIKELY(code == AGAIN) ? name##_slowly words : code;                                                                 \
    }
#define KEY samvolip_map *map, uint64_t key
#define COMES_IF_ABSENT (code == SAMVOLIP_ABSENT ? COMES : STAYS)
#define GOES_IF_PRESENT (code == SAMVOLIP_PRESENT ? GOES : STAYS)

CALL(READS, get, (KEY, uint64_t *number), (map, key, number), samvolip_get(seat, inner, number), STAYS)

int samvolip_map_contains(samvolip_map *map, uint64_t key)
{
    uint64_t number;
    return samvolip_map_get(map, key, &number);
}

CALL(WRITES, put, (KEY, uint64_t number, uint64_t *before), (map, key, number, before),
     samvolip_try_put(seat, inner, number, 1, before ? before : &found), COMES_IF_ABSENT)

CALL(WRITES, put_if_absent, (KEY, uint64_t number, uint64_t *before), (map, key, number, before),
     samvolip_try_put_if_absent(seat, inner, number, 1, before ? before : &found), COMES_IF_ABSENT)

CALL(WRITES, get_or_insert, (KEY, uint64_t number, uint64_t *there), (map, key, number, there),
     samvolip_get_or_insert(seat, inner, number, there), COMES_IF_ABSENT)

CALL(WRITES, fetch_max, (KEY, uint64_t number, uint64_t *before), (map, key, number, before),
     samvolip_fetch_max(seat, inner, number, before), COMES_IF_ABSENT)

CALL(WRITES, fetch_min, (KEY, uint64_t number, uint64_t *before), (map, key, number, before),
     samvolip_fetch_min(seat, inner, number, before), COMES_IF_ABSENT)

CALL(WRITES, add, (KEY, uint64_t number, uint64_t *before), (map, key, number, before),
     samvolip_try_add(seat, inner, number, 1, before ? before : &found), COMES_IF_ABSENT)

CALL(WRITES, replace, (KEY, uint64_t number, uint64_t *before), (map, key, number, before),
     samvolip_replace(seat, inner, number, before), STAYS)

CALL(WRITES, replace_if, (KEY, uint64_t old, uint64_t number), (map, key, old, number),
     samvolip_replace_if(seat, inner, old, number), STAYS)

CALL(WRITES, remove, (KEY, uint64_t *before), (map, key, before),
     samvolip_try_remove(seat, inner, 1, before ? before : &found), GOES_IF_PRESENT)

CALL(WRITES, remove_if, (KEY, uint64_t number), (map, key, number),
     samvolip_remove_if(seat, inner, number), GOES_IF_PRESENT)

CALL(WRITES, compare_exchange, (KEY, const uint64_t *expected, const uint64_t *next, samvolip_reply *reply),
     (map, key, expected, next, reply),
     samvolip_compare_exchange(seat, inner, expected, next, 1, reply),
     code < 0 || !reply->matched || !expected == !next ? STAYS : next ? COMES : GOES)

int samvolip_map_update(samvolip_map *map, uint64_t key, samvolip_updater *updater, void *context, uint64_t *before)
{
    samvolip_reply reply = {0, 0, 0};
    int code = samvolip_map_get(map, key, &reply.before);
    reply.had = code == SAMVOLIP_PRESENT;
    while (code >= 0) {
        uint64_t found = reply.before, next, *expected = reply.had ? &found : NULL;
        int stays = updater(context, expected, &next);
        if (stays < 0)
            return stays;
        code = samvolip_map_compare_exchange(map, key, expected, stays ? &next : NULL, &reply);
        if (code >= 0 && reply.matched)
            return samvolip_found(&reply, before);
    }
    return code;
}

/* A get that is made only if it neither waits nor may take long. */
static inline int get_at_once(samvolip_map *map, uint64_t key, uint64_t *number)
{
    bool divided = is_divided(map);
    uint64_t inner = inner_once(map, divided, key);
    part *into = part_of(map, divided, share_of(inner));
    struct thread *me = own();
    if (UNLIKELY(atomic_load_explicit(&map->may_fill, memory_order_relaxed)))
        return SAMVOLIP_E_MAY_SCAN;
    samvolip_seat *seat = LIKELY(inner <= SAMVOLIP_KEY_MAX) ? enter_at_once(map, me, into, READS) : NULL;
    if (UNLIKELY(!seat))
        return SAMVOLIP_E_WOULD_WAIT;
    int code = samvolip_get(seat, inner, number);
    leave_at_once(me);
    return code;
}

int64_t samvolip_map_try_get_word(samvolip_map *map, uint64_t key)
{
    uint64_t number = 0;
    int code = get_at_once(map, key, &number);
    return code < 0 ? code : code == SAMVOLIP_PRESENT ? (int64_t)number : SAMVOLIP_NONE;
}

int64_t samvolip_map_try_get_many(samvolip_map *map, const uint64_t *keys, uint64_t *numbers, uint64_t count, uint64_t other)
{
    int64_t made = 0;
    for (int code; (uint64_t)made < count && (code = get_at_once(map, keys[made], &numbers[made])) >= 0; made++)
        if (code == SAMVOLIP_ABSENT)
            numbers[made] = other;
    return made;
}

/* ---- beginning and end --------------------------------------------------------------------- */

/* The mixing of a new map. Without a source of secrets it goes by the time and the place. */
static mixing new_mixing(uint32_t keys, const samvolip_map *map)
{
    uint64_t drawn[4] = {0, SAMVOLIP_MIX_FACTOR, 0, SAMVOLIP_MIX_FACTOR};
    mixing made;
    if (keys == SAMVOLIP_KEYS_SECRET && getentropy(drawn, sizeof drawn) != 0)
        for (int i = 0; i < 4; i++)
            drawn[i] = samvolip_mix((nanoseconds() + (uintptr_t)map) * 4 + (uint64_t)i);
    for (int i = 0; i < 2; i++) {
        made.with[i] = drawn[2 * i];
        made.factor[i] = made.inverse[i] = drawn[2 * i + 1] | 1;
        for (int bits = 3; bits < 64; bits *= 2) /* Newton's rule: each turn doubles the bits that are right */
            made.inverse[i] *= 2 - made.factor[i] * made.inverse[i];
    }
    return made;
}

/* What the options say, with the defaults in place of zeros. */
static samvolip_map_options with_defaults(const samvolip_map_options *given)
{
    samvolip_map_options read = given ? *given : (samvolip_map_options)SAMVOLIP_MAP_OPTIONS_INIT;
    read.room = read.room ? read.room : 1000;
    read.growth = read.growth ? read.growth : 4;
    read.threads = read.threads ? read.threads : 64;
    return read;
}

const char *samvolip_map_wrong_option(const samvolip_map_options *options)
{
    samvolip_map_options read = with_defaults(options);
    if (read.room > MOST_ROOM)
        return "room: for at most 178956970 keys";
    if (read.growth < 2 || read.growth > 64)
        return "growth: from 2 to 64 times";
    if (read.threads > SAMVOLIP_MAP_MOST_THREADS)
        return "threads: at most 240";
    if (read.keys > SAMVOLIP_KEYS_AS_THEY_ARE)
        return "keys: secret, mixed, or as they are";
    if (read.memory != 0 && read.memory / sizeof(samvolip_entry) / 2 < slots_of(first_exponent(&read)))
        return "memory: at least that of two first tables, so that a map can be cleared and renewed; with the default room 65536";
    return NULL;
}

/* A map without a core, whose gates are closed. */
static samvolip_map *new_map(const samvolip_map_options *options)
{
    static atomic_ullong next_id = FIRST_ID;
    unsigned count = COMMON + options->threads;
    size_t size = sizeof(samvolip_map) + count * sizeof(lane);
    samvolip_map *map = aligned_alloc(_Alignof(samvolip_map), size);
    if (!map)
        return NULL;
    bool is_mixed = options->keys != SAMVOLIP_KEYS_AS_THEY_ARE;
    memset(map, 0, size);
    map->id = atomic_fetch_add(&next_id, 1);
    map->cell = map->id % CELLS;
    map->count = count;
    map->options = *options;
    map->may_fill = options->memory != 0;
    map->mixes_below = is_mixed ? SAMVOLIP_KEY_MAX + 1 : 0;
    map->mixing = new_mixing(options->keys, map);
    for (unsigned place = 0; place < PLACES; place++)
        map->parts[place].gate = CLOSED;
    pthread_mutex_init(&map->lock, NULL);
    pthread_cond_init(&map->turned, NULL);
    return map;
}

static void free_map(samvolip_map *map)
{
    for (unsigned place = 0; place < PLACES; place++)
        free_core(map, map->parts[place].core);
    pthread_cond_destroy(&map->turned);
    pthread_mutex_destroy(&map->lock);
    free(map);
}

int samvolip_map_open_with(uint32_t version, size_t options_size, size_t figures_size, const samvolip_map_options *options,
                           samvolip_map **made)
{
    if (version >> 8 != SAMVOLIP_VERSION >> 8 || version > SAMVOLIP_VERSION || options_size != sizeof *options
        || figures_size != sizeof(samvolip_map_figures))
        return SAMVOLIP_E_VERSION;
    if (samvolip_map_wrong_option(options))
        return SAMVOLIP_E_OPTIONS;
    samvolip_map_options read = with_defaults(options);
    samvolip_map *map = has_begun() ? new_map(&read) : NULL;
    if (!map)
        return SAMVOLIP_E_OUT_OF_MEMORY;
    int code = put_empty_cores(map, (range){0, 0});
    if (code < 0) {
        free_map(map);
        return code;
    }
    map->figures = (samvolip_map_figures){0};
    enlist(map);
    objects_begin(&map->objects);
    *made = map;
    return SAMVOLIP_OK;
}

void samvolip_map_lets_go(samvolip_map *map, void *(*let_go)(void), void (*take_back)(void *))
{
    map->let_go = let_go;
    map->take_back = take_back;
}

void samvolip_map_free(samvolip_map *map)
{
    if (!map)
        return;
    objects_end(&map->objects);
    delist(map);
    free_map(map);
}
