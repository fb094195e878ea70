/* retired.c - a core from the seal on: it is retired, lies on a list, and is freed once no lane names it. */
#include "migration.h"

/* ---- fences -------------------------------------------------------------------------------- */

/* A fence in all threads. It serves each core that was retired before it began. False: not this time. */
bool fence(struct moving_map *map)
{
    uint64_t mine = atomic_fetch_add_explicit(&map->fences_begun, 1, memory_order_acq_rel) + 1;
    if (!fence_all_threads())
        return false;
    uint64_t ended = atomic_load_explicit(&map->fences_ended, memory_order_acquire);
    while (ended < mine /* again only where another fence has ended */
           && !atomic_compare_exchange_strong_explicit(&map->fences_ended, &ended, mine, memory_order_acq_rel, memory_order_acquire))
        ;
    return true;
}

/* Whether there was a fence since this core was retired, or is one now. */
static bool is_fenced(struct moving_map *map, const struct core *core)
{
    return atomic_load_explicit(&map->fences_ended, memory_order_acquire) >= core->stamp || fence(map);
}

/* ---- the list ------------------------------------------------------------------------------ */

static bool is_named(const struct moving_map *map, uintptr_t core)
{
    for (const struct lane *lane = map->lanes; lane < map->lanes + map->all_lanes; lane++)
        for (unsigned slot = 0; slot < HAZARDS; slot++)
            if (atomic_load_explicit(&lane->hazards[slot], memory_order_acquire) == core)
                return true;
    return false;
}

/* The next place of the list, from anywhere: at its front those that are named would gather. */
static _Atomic uintptr_t *next_place(struct lane *lane) { return &lane->map->retired[lane->turn++ % lane->map->room]; }

/* The list has seven places for each lane. A lane names three cores at most; and who has retired a core frees one, if no lane names it,
   before it retires the next one. So there is a free place. */
static void put_on_list(struct lane *lane, const struct core *core)
{
    uintptr_t none;
    do
        none = 0;
    while (!atomic_compare_exchange_strong_explicit(next_place(lane), &none, (uintptr_t)core, memory_order_acq_rel, memory_order_relaxed));
}

/* Takes a core that no lane is seen to name; NULL: there is none. */
static struct core *take_from_list(struct lane *lane)
{
    for (uint32_t i = 0; i < lane->map->room; i++) {
        _Atomic uintptr_t *place = next_place(lane);
        uintptr_t core = atomic_load_explicit(place, memory_order_relaxed);
        if (core && !is_named(lane->map, core)
            && atomic_compare_exchange_strong_explicit(place, &core, 0, memory_order_acq_rel, memory_order_relaxed))
            return (struct core *)core;
    }
    return NULL;
}

/* Frees one core of the list, if there is one that no lane names after a fence. From then on none does: whoever stored a hazard after the
   fence finds that the core is led past. */
void free_a_retired_core(struct lane *lane)
{
    struct core *core = take_from_list(lane);
    if (!core)
        return;
    if (is_fenced(lane->map, core) && !is_named(lane->map, (uintptr_t)core))
        destroy_core(lane->map, core);
    else
        put_on_list(lane, core);
}

/* ---- how a core is retired ----------------------------------------------------------------- */

/* Leads the directory on until it leads to a core that isn't sealed. Another core than the one to be retired is named by slot 1. Each turn
   another core is sealed, or the directory was led on. */
static void lead_past_sealed(struct lane *lane, const struct core *retired)
{
    struct moving_map *map = lane->map;
    for (;;) {
        uintptr_t word = atomic_load_explicit(&map->directory, memory_order_acquire);
        struct core *core = (struct core *)word;
        if (core != retired) {
            set_hazard(lane, 1, core);
            if (atomic_load_explicit(&map->directory, memory_order_acquire) != word)
                continue;
        }
        if (!(link_of(core) & SEALED))
            return;
        lead_past(map, core);
    }
}

static void forget(struct lane *lane, const struct core *core)
{
    for (unsigned slot = 0; slot < HAZARDS; slot++)
        if (atomic_load_explicit(&lane->hazards[slot], memory_order_relaxed) == (uintptr_t)core)
            atomic_store_explicit(&lane->hazards[slot], 0, memory_order_release);
}

/* By the thread that has sealed the core, whose lane names it. */
void retire(struct lane *lane, struct core *core)
{
    lead_past_sealed(lane, core);
    core->stamp = atomic_load_explicit(&lane->map->fences_begun, memory_order_seq_cst) + 1;
    forget(lane, core);
    put_on_list(lane, core);
    lane->frees = true;
}
