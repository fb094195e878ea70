/* whole_map.c - the calls of samvolip_map.h that are of a whole map. But for the estimate of its size, they are alone with it. */
#include "endless.h"

int samvolip_map_size_estimate(samvolip_map *map, uint64_t *size)
{
    uint64_t sum;
    bool is_whole;
    do { /* again if the map was divided meanwhile, or is no more */
        range parts = parts_of(map);
        sum = 0;
        is_whole = true;
        for (unsigned place = parts.first; place < parts.end && is_whole; place++) {
            const part *into = enter_slowly(map, READS, place - parts.first);
            if (!into)
                return SAMVOLIP_E_NESTED;
            sum += samvolip_size_estimate(used_seat(map, into));
            is_whole = place_of(map, into) == place;
            leave();
        }
    } while (!is_whole);
    *size = sum;
    return SAMVOLIP_OK;
}

/* Begins a call that is alone with the whole map. */
static bool begin_alone(samvolip_map *map) { return go_inside() && be_alone(map, EVERYWHERE, NULL, 0); }

static int end_with(samvolip_map *map, int code)
{
    end_alone(map, EVERYWHERE);
    go_outside();
    return code;
}

int samvolip_map_snapshot(samvolip_map *map, samvolip_entry *entries, size_t room, size_t *count)
{
    if (!begin_alone(map))
        return SAMVOLIP_E_NESTED;
    job listing = {.from = parts_of(map), .list = entries};
    uint64_t writes = stop(map, listing.from, READS_ONLY);
    *count = keys_in(map, listing.from);
    int code = *count <= room ? SAMVOLIP_OK : SAMVOLIP_E_ROOM;
    if (code >= 0 && *count > 0)
        share_out(map, &listing);
    lock(map);
    go_on(map, listing.from, writes, nanoseconds());
    unlock(map);
    return end_with(map, code);
}

int samvolip_map_size(samvolip_map *map, uint64_t *size)
{
    int code = samvolip_map_snapshot(map, NULL, 0, size);
    return code == SAMVOLIP_E_ROOM ? SAMVOLIP_OK : code;
}

int samvolip_map_renew(samvolip_map *map, uint64_t room)
{
    if (room > MOST_ROOM)
        return SAMVOLIP_E_OUT_OF_MEMORY;
    return begin_alone(map) ? end_with(map, renew_by_hand(map, room)) : SAMVOLIP_E_NESTED;
}

int samvolip_map_clear(samvolip_map *map, samvolip_map_visit *visit, void *context)
{
    samvolip_map_walk walk; /* over the cores that are there before */
    if (!begin_alone(map))
        return SAMVOLIP_E_NESTED;
    begin_walk(&walk, map);
    int code = end_with(map, put_empty_cores(map, parts_of(map)));
    show_all(&walk, code >= 0 ? visit : NULL, context);
    return code;
}

int samvolip_map_look(samvolip_map *map, samvolip_map_figures *figures)
{
    uint64_t keys, slots = 0;
    if (samvolip_map_size_estimate(map, &keys) < 0 || !go_inside())
        return SAMVOLIP_E_NESTED;
    lock(map);
    for (unsigned place = 0; place < PLACES; place++)
        slots += map->parts[place].core ? slots_of(map->parts[place].core->exponent) : 0;
    *figures = map->figures;
    figures->keys = keys;
    figures->slots = slots;
    figures->own_threads = map->taken;
    unlock(map);
    go_outside();
    return SAMVOLIP_OK;
}
