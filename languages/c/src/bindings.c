/* bindings.c - what bindings of other languages call: the calls of samvolip_map.h that answer in one word, and those of many keys or
   entries at a time. */
#include "samvolip_map.h"

/* What a call has found, by its code. */
static inline int64_t word(int code, uint64_t found)
{
    if (code < 0)
        return code;
    return code == SAMVOLIP_PRESENT ? (int64_t)found : SAMVOLIP_NONE;
}

#define WORD(name, parameters, call)                                                                                                 \
    int64_t samvolip_map_##name##_word parameters                                                                                    \
    {                                                                                                                                \
        uint64_t found = 0;                                                                                                          \
        int code = call;                                                                                                             \
        return word(code, found);                                                                                                    \
    }

WORD(get, (samvolip_map *map, uint64_t key), samvolip_map_get(map, key, &found))
WORD(put, (samvolip_map *map, uint64_t key, uint64_t number), samvolip_map_put(map, key, number, &found))
WORD(put_if_absent, (samvolip_map *map, uint64_t key, uint64_t number), samvolip_map_put_if_absent(map, key, number, &found))
WORD(fetch_max, (samvolip_map *map, uint64_t key, uint64_t number), samvolip_map_fetch_max(map, key, number, &found))
WORD(fetch_min, (samvolip_map *map, uint64_t key, uint64_t number), samvolip_map_fetch_min(map, key, number, &found))
WORD(add, (samvolip_map *map, uint64_t key, uint64_t number), samvolip_map_add(map, key, number, &found))
WORD(replace, (samvolip_map *map, uint64_t key, uint64_t number), samvolip_map_replace(map, key, number, &found))
WORD(remove, (samvolip_map *map, uint64_t key), samvolip_map_remove(map, key, &found))

int64_t samvolip_map_size_word(samvolip_map *map)
{
    uint64_t size = 0;
    int code = samvolip_map_size(map, &size);
    return code < 0 ? code : (int64_t)size;
}

int64_t samvolip_map_size_estimate_word(samvolip_map *map)
{
    uint64_t size = 0;
    int code = samvolip_map_size_estimate(map, &size);
    return code < 0 ? code : (int64_t)size;
}

/* Makes `call` for each key, up to the first one that is refused. */
#define MANY(call)                                                                                                                   \
    int64_t made = 0;                                                                                                                \
    while ((uint64_t)made < count && (call) >= 0)                                                                                    \
        made++;                                                                                                                      \
    return made;

int64_t samvolip_map_put_many(samvolip_map *map, const uint64_t *keys, const uint64_t *numbers, uint64_t count)
{
    MANY(samvolip_map_put(map, keys[made], numbers[made], NULL))
}

int64_t samvolip_map_add_many(samvolip_map *map, const uint64_t *keys, const uint64_t *numbers, uint64_t count)
{
    MANY(samvolip_map_add(map, keys[made], numbers[made], NULL))
}

/* A get whose number is `other` if there is none. */
static inline int get_or(samvolip_map *map, uint64_t key, uint64_t other, uint64_t *number)
{
    int code = samvolip_map_get(map, key, number);
    if (code == SAMVOLIP_ABSENT)
        *number = other;
    return code;
}

int64_t samvolip_map_get_many(samvolip_map *map, const uint64_t *keys, uint64_t *numbers, uint64_t count, uint64_t other)
{
    MANY(get_or(map, keys[made], other, &numbers[made]))
}

int samvolip_map_walk_some(samvolip_map_walk *walk, samvolip_entry *entries, int room)
{
    int count = 0, code = SAMVOLIP_PRESENT;
    while (count < room && (code = samvolip_map_walk_next(walk, &entries[count].key, &entries[count].number)) == SAMVOLIP_PRESENT)
        count++;
    return code < 0 ? code : count;
}
