/* core.c - a core's beginning and end. */
#include "migration.h"

enum { STRIPES = 16, REPROBES = 18, CHUNK = 256 };

uint64_t pieces_of(const struct core *core) { return (slots_of(core->exponent) + PIECE - 1) / PIECE; }

/* Words of 64 flags, one for each piece. */
static uint64_t flag_words(uint32_t exponent) { return (slots_of(exponent) + 64 * PIECE - 1) / (64 * PIECE); }

static size_t places_end(const struct moving_map *map)
{
    return offsetof(struct core, places) + map->all_lanes * sizeof(struct place);
}

static size_t block_size(const struct moving_map *map, uint32_t exponent)
{
    return places_end(map) + flag_words(exponent) * sizeof(uint64_t);
}

/* What a core takes: its block, and 16 bytes a slot. */
static uint64_t bytes_of(const struct moving_map *map, uint32_t exponent)
{
    return block_size(map, exponent) + slots_of(exponent) * sizeof(samvolip_entry);
}

/* Gives each lane its seat. The first one has opened the map, and has all seats until they are split off. */
static int open_seats(const struct moving_map *map, struct core *core)
{
    uint32_t lanes = map->all_lanes;
    samvolip_shape shape = {{core->exponent}, 1, lanes, lanes < STRIPES ? lanes : STRIPES, REPROBES, CHUNK};
    int code = samvolip_open(&shape, &core->places[0].seat);
    for (uint32_t i = 1; i < lanes && code >= 0; i++)
        code = samvolip_split(&core->places[0].seat, &core->places[i].seat);
    return code;
}

static void free_block(struct moving_map *map, struct core *core)
{
    for (uint32_t i = 0; i < map->all_lanes; i++)
        samvolip_free(&core->places[i].seat);
    core_memory_give(core, block_size(map, core->exponent));
}

/* Counts so many bytes more, unless there would be more than the options allow. */
static bool count_bytes(struct moving_map *map, uint64_t bytes)
{
    uint64_t before = atomic_fetch_add_explicit(&map->bytes, bytes, memory_order_relaxed);
    if (before + bytes <= map->memory)
        return true;
    atomic_fetch_sub_explicit(&map->bytes, bytes, memory_order_relaxed);
    return false;
}

/* An empty core of so many slots, which nobody else knows; NULL: memory is refused. */
struct core *make_core(struct moving_map *map, uint32_t exponent)
{
    if (exponent > SAMVOLIP_MAX_EXPONENT || !count_bytes(map, bytes_of(map, exponent)))
        return NULL;
    struct core *core = core_memory_take(block_size(map, exponent));
    if (core) {
        core->exponent = exponent;
        core->done = (_Atomic uint64_t *)((char *)core + places_end(map));
        for (uint32_t i = 0; i < map->all_lanes; i++)
            core->places[i].left = 1 + (uint32_t)(slots_of(exponent) / 8 / map->all_lanes);
        if (open_seats(map, core) >= 0) {
            atomic_fetch_add_explicit(&map->cores, 1, memory_order_relaxed);
            return core;
        }
        free_block(map, core);
    }
    atomic_fetch_sub_explicit(&map->bytes, bytes_of(map, exponent), memory_order_relaxed);
    return NULL;
}

/* Frees a core that nobody else knows. */
void destroy_core(struct moving_map *map, struct core *core)
{
    atomic_fetch_sub_explicit(&map->cores, 1, memory_order_relaxed);
    atomic_fetch_sub_explicit(&map->bytes, bytes_of(map, core->exponent), memory_order_relaxed);
    free_block(map, core);
}
