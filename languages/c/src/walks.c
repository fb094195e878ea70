/* walks.c - walks over the cores that a map has at one moment, and what shows all entries one by one. */
#include "endless.h"

/* The entries in a piece of a core, from this slot on, by one of its seats: no more than it has slots. It may lie behind the last slot. */
uint64_t list_piece(samvolip_seat *seat, size_t from, samvolip_entry *entries)
{
    samvolip_cursor cursor;
    uint64_t count = 0;
    if (samvolip_walk_from(seat, from, &cursor) == SAMVOLIP_PRESENT)
        samvolip_list(seat, &cursor, from + PIECE, entries, PIECE, &count);
    return count;
}

void begin_walk(samvolip_map_walk *walk, samvolip_map *map)
{
    walk->map = map;
    walk->place = 0;
    walk->slot = walk->at = walk->count = 0;
    lock(map);
    for (unsigned place = 0; place < PLACES; place++) {
        walk->cores[place] = map->parts[place].core;
        if (walk->cores[place])
            walk->cores[place]->users++;
    }
    unlock(map);
}

/* Ends a walk, and frees its block, if it has one. */
static void end_walk(samvolip_map_walk *walk, void *block)
{
    bool was_outside = go_inside();
    leave_cores(walk->map, walk->cores, false);
    free(block);
    if (was_outside)
        go_outside();
}

/* Goes on to the next piece that has entries, or to the end. */
static void walk_on(samvolip_map_walk *walk)
{
    walk->at = walk->count = 0;
    while (walk->count == 0 && walk->place < PLACES) {
        core *in = walk->cores[walk->place];
        if (in && walk->slot < slots_of(in->exponent)) {
            lock(walk->map);
            walk->count = list_piece(&in->reserve, walk->slot, walk->some);
            unlock(walk->map);
            walk->slot += PIECE;
        } else {
            walk->place++;
            walk->slot = 0;
        }
    }
}

int samvolip_map_walk_begin(samvolip_map *map, samvolip_map_walk **made)
{
    if (!go_inside())
        return SAMVOLIP_E_NESTED;
    samvolip_map_walk *walk = malloc(sizeof *walk);
    if (walk) {
        begin_walk(walk, map);
        *made = walk;
    }
    go_outside();
    return walk ? SAMVOLIP_OK : SAMVOLIP_E_OUT_OF_MEMORY;
}

int samvolip_map_walk_next(samvolip_map_walk *walk, uint64_t *key, uint64_t *number)
{
    if (!go_inside())
        return SAMVOLIP_E_NESTED;
    if (walk->at == walk->count)
        walk_on(walk);
    bool has_next = walk->at < walk->count;
    if (has_next) {
        *key = outer_key(walk->map, walk->place > 0, walk->some[walk->at].key);
        *number = walk->some[walk->at++].number;
    }
    go_outside();
    return has_next ? SAMVOLIP_PRESENT : SAMVOLIP_ABSENT;
}

void samvolip_map_walk_end(samvolip_map_walk *walk) { end_walk(walk, walk); }

/* Shows what is left of a walk, and ends it. */
void show_all(samvolip_map_walk *walk, samvolip_map_visit *visit, void *context)
{
    uint64_t key, number;
    while (visit && samvolip_map_walk_next(walk, &key, &number) > 0)
        visit(context, key, number);
    end_walk(walk, NULL);
}

int samvolip_map_each(samvolip_map *map, samvolip_map_visit *visit, void *context)
{
    samvolip_map_walk walk;
    if (!go_inside())
        return SAMVOLIP_E_NESTED;
    begin_walk(&walk, map);
    go_outside();
    show_all(&walk, visit, context);
    return SAMVOLIP_OK;
}
