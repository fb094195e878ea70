/* moving.c - the beginning and the end of a map, and its figures. */
#include "migration.h"
#include <unistd.h>

enum { MOST_OWN_LANES = 240, LEAST_SHARED = 6, PLACES_A_LANE = 7 };

/* What the options say, with the defaults in place of zeros. */
static struct moving_options with_defaults(struct moving_options options)
{
    options.memory = options.memory ? options.memory : UINT64_MAX;
    options.slots = options.slots ? options.slots : 1024;
    options.lanes = options.lanes ? options.lanes : 64;
    return options;
}

static bool are_in_range(const struct moving_options *options)
{
    return options->lanes <= MOST_OWN_LANES && options->slots >= 4 && options->slots <= slots_of(SAMVOLIP_MAX_EXPONENT)
           && (options->slots & (options->slots - 1)) == 0;
}

/* How many lanes threads share, beside so many that have an owner. */
static uint32_t shared_lanes(uint32_t own)
{
    long processors = sysconf(_SC_NPROCESSORS_ONLN);
    uint32_t wanted = processors > LEAST_SHARED ? (uint32_t)processors : LEAST_SHARED, most = MOST_LANES - own;
    return wanted < most ? wanted : most;
}

/* A map without a core. */
static struct moving_map *new_map(const struct moving_options *options)
{
    static _Atomic uint64_t last_id;
    uint32_t lanes = options->lanes + shared_lanes(options->lanes), room = lanes * PLACES_A_LANE;
    struct moving_map *map = core_memory_take(sizeof *map + lanes * sizeof *map->lanes + room * sizeof *map->retired);
    if (!map)
        return NULL;
    map->id = atomic_fetch_add_explicit(&last_id, 1, memory_order_relaxed) + 1;
    map->cell = map->id % CELLS * sizeof(struct cell);
    map->has_membarrier = begin_fences();
    map->own_lanes = options->lanes;
    map->all_lanes = lanes;
    map->least = (uint32_t)__builtin_ctz(options->slots);
    map->room = room;
    map->memory = options->memory;
    map->retired = (_Atomic uintptr_t *)&map->lanes[lanes];
    atomic_store_explicit(&map->holders, 1, memory_order_relaxed);
    for (uint32_t i = 0; i < lanes; i++) {
        map->lanes[i].map = map;
        map->lanes[i].place = offsetof(struct core, places) + i * sizeof(struct place);
        map->lanes[i].turn = i * PLACES_A_LANE;
    }
    return map;
}

struct moving_map *moving_open(struct moving_options given)
{
    struct moving_options options = with_defaults(given);
    struct moving_map *map = are_in_range(&options) && begin_watching() ? new_map(&options) : NULL;
    struct core *first = map ? make_core(map, map->least) : NULL;
    if (first)
        atomic_store_explicit(&map->directory, (uintptr_t)first, memory_order_release);
    else if (map)
        drop_holder(map);
    return first ? map : NULL;
}

/* No call is under way: frees the cores of the row, and those on the list. What a thread has made or sealed that stands still for good in
   a call is lost. */
static void free_cores(struct moving_map *map)
{
    struct core *core = (struct core *)atomic_load_explicit(&map->directory, memory_order_acquire);
    while (core) {
        struct core *next = behind(link_of(core));
        destroy_core(map, core);
        core = next;
    }
    for (uint32_t i = 0; i < map->room; i++) {
        core = (struct core *)atomic_load_explicit(&map->retired[i], memory_order_acquire);
        if (core)
            destroy_core(map, core);
    }
}

void moving_close(struct moving_map *map)
{
    if (!map)
        return;
    moving_leave(map);
    free_cores(map);
    atomic_store_explicit(&map->closed, 1, memory_order_relaxed);
    drop_holder(map);
}

void moving_look(struct moving_map *map, struct moving_figures *figures)
{
    *figures = (struct moving_figures){
        .cores = atomic_load_explicit(&map->cores, memory_order_relaxed),
        .bytes = atomic_load_explicit(&map->bytes, memory_order_relaxed),
        .moves = atomic_load_explicit(&map->moves, memory_order_relaxed),
        .owners = atomic_load_explicit(&map->owners, memory_order_relaxed),
    };
    for (uint32_t i = 0; i < map->all_lanes; i++)
        for (unsigned slot = 0; slot < HAZARDS; slot++)
            figures->hazards += atomic_load_explicit(&map->lanes[i].hazards[slot], memory_order_relaxed) != 0;
    for (uint32_t i = 0; i < map->room; i++)
        figures->retired += atomic_load_explicit(&map->retired[i], memory_order_relaxed) != 0;
}
