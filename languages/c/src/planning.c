/* planning.c - when a core gets its link, and how large the next core is. */
#include "migration.h"

enum { CLAIMED = 64 }; /* in a plan: a thread makes the core */

/* How many slots of a core are taken when it counts as crowded; when it takes no new keys, if memory is refused; and when who finds it so
   makes the next core though another thread is at it. */
static uint64_t crowded_from(uint32_t exponent) { return slots_of(exponent) / 4 * 3; }
static uint64_t tight_from(uint32_t exponent) { return slots_of(exponent) / 8 * 7; }
static uint64_t nearly_full_from(uint32_t exponent) { return slots_of(exponent) / 16 * 15; }

/* ---- how large ----------------------------------------------------------------------------- */

/* The least exponent of a next core that isn't crowded by so many keys, nor by one more. Where copies come to this one the next has twice
   its slots at least; else cores that copies alone make crowded would follow each other without end. */
static uint32_t exponent_for(const struct lane *lane, const struct core *core, bool copies_come, uint64_t keys)
{
    uint32_t exponent = copies_come ? core->exponent + 1 : lane->map->least;
    while (keys + 1 >= crowded_from(exponent))
        exponent++;
    return exponent;
}

/* The plan for the next core, which the first one sets who asks: it holds the keys that there are, and a third more. */
static uint32_t plan_for(struct lane *lane, struct core *core, bool copies_come)
{
    uint32_t plan = atomic_load_explicit(&core->plan, memory_order_acquire);
    if (plan != 0)
        return plan;
    uint64_t keys = samvolip_size_estimate(seat_in(core, lane));
    uint32_t mine = exponent_for(lane, core, copies_come, keys + keys / 3);
    bool is_mine = atomic_compare_exchange_strong_explicit(&core->plan, &plan, mine, memory_order_acq_rel, memory_order_acquire);
    return is_mine ? mine : plan;
}

/* ---- the next core ------------------------------------------------------------------------- */

/* Links a core to the next one, which this thread has made, unless it has a link by now. */
static void link_to(struct moving_map *map, struct core *core, struct core *next)
{
    uintptr_t link = link_of(core);
    while (!behind(link)) { /* again only where it has become tight */
        if (atomic_compare_exchange_strong_explicit(&core->link, &link, (uintptr_t)next, memory_order_acq_rel, memory_order_acquire)) {
            atomic_fetch_add_explicit(&map->moves, 1, memory_order_relaxed);
            return;
        }
    }
    destroy_core(map, next);
}

/* Makes the next core, as large as planned; where memory is refused, as small as the keys allow. True: there is a link. */
static bool make_next(struct lane *lane, struct core *core, bool copies_come, uint32_t plan)
{
    struct moving_map *map = lane->map;
    uint32_t least = exponent_for(lane, core, copies_come, samvolip_size_estimate(seat_in(core, lane)));
    uint32_t exponent = plan > least ? plan : least;
    struct core *next = make_core(map, exponent);
    while (!next && exponent > least)
        next = make_core(map, --exponent);
    if (next)
        link_to(map, core, next);
    else
        atomic_store_explicit(&core->plan, exponent, memory_order_release); /* and nobody's any more */
    return behind(link_of(core));
}

/* Memory for the next core was refused to this thread, and there is hardly a slot: no new keys come from now on. */
static void tighten(struct core *core)
{
    uintptr_t none = 0;
    atomic_compare_exchange_strong_explicit(&core->link, &none, TIGHT, memory_order_acq_rel, memory_order_relaxed);
}

/* For who needs the link: makes the next core though another thread may be at it. False: memory is refused. */
bool link_now(struct lane *lane, struct core *core, bool copies_come)
{
    if (behind(link_of(core)))
        return true;
    uint32_t plan = plan_for(lane, core, copies_come) & ~(uint32_t)CLAIMED;
    if (make_next(lane, core, copies_come, plan))
        return true;
    tighten(core);
    return behind(link_of(core));
}

/* For who finds it crowded: makes the next core, unless another thread is at it. False: memory is refused. */
static bool link_if_free(struct lane *lane, struct core *core, bool copies_come)
{
    uint32_t plan = plan_for(lane, core, copies_come);
    if (plan & CLAIMED
        || !atomic_compare_exchange_strong_explicit(&core->plan, &plan, plan | CLAIMED, memory_order_acq_rel, memory_order_relaxed))
        return true;
    return make_next(lane, core, copies_come, plan);
}

/* ---- when ---------------------------------------------------------------------------------- */

/* How many keys come by this lane until it looks again: half of its share of those that make the core crowded, and a few. */
static uint32_t keys_until_look(const struct lane *lane, const struct core *core, uint64_t taken)
{
    uint64_t owners = atomic_load_explicit(&lane->map->owners, memory_order_relaxed), threads = owners ? owners : 1;
    uint64_t until = taken < crowded_from(core->exponent) ? crowded_from(core->exponent) - taken : 0;
    return (uint32_t)(1 + (until / 2 + slots_of(core->exponent) / 64) / threads);
}

/* After a key has come to a core that this lane names: looks whether it is time for a next core. */
void look_how_full(struct lane *lane, struct core *core, bool copies_come)
{
    samvolip_slots found;
    samvolip_occupancy(seat_in(core, lane), &found);
    uint64_t taken = slots_of(core->exponent) * found.taken / found.looked;
    place_in(core, lane)->left = keys_until_look(lane, core, taken);
    if (taken >= crowded_from(core->exponent) && !behind(link_of(core))) {
        bool is_urgent = taken >= nearly_full_from(core->exponent);
        bool is_well = is_urgent ? link_now(lane, core, copies_come) : link_if_free(lane, core, copies_come);
        if (!is_well && taken >= tight_from(core->exponent))
            tighten(core);
    }
    lane->frees = true;
}
