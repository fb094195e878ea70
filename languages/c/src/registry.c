/* registry.c - which lane of a map a thread has, and what becomes of its lanes when it ends. No lock is taken. The map's block stays until
   it is closed and each thread that owns a lane has given that back. */
#include "migration.h"
#include <sched.h>

static inline bool is_shared(const struct lane *lane) { return lane >= lane->map->lanes + lane->map->own_lanes; }

/* ---- lanes of one owner -------------------------------------------------------------------- */

void drop_holder(struct moving_map *map)
{
    if (atomic_fetch_sub_explicit(&map->holders, 1, memory_order_acq_rel) == 1)
        core_memory_give(map, sizeof *map + map->all_lanes * sizeof *map->lanes + map->room * sizeof *map->retired);
}

/* The owner's alone, from then on nobody's. */
static void give_back(struct lane *lane)
{
    struct moving_map *map = lane->map;
    atomic_store_explicit(&lane->owner, 0, memory_order_release);
    atomic_fetch_sub_explicit(&map->owners, 1, memory_order_relaxed);
    drop_holder(map);
}

/* Takes a lane from this thread: that of this map, or those of all maps that are closed. */
static void give_back_some(struct thread *me, const struct moving_map *one)
{
    for (struct lane **at = &me->lanes; *at;) {
        struct lane *lane = *at;
        struct moving_map *map = lane->map;
        if (map != one && (one || !atomic_load_explicit(&map->closed, memory_order_relaxed))) {
            at = &lane->next;
            continue;
        }
        *at = lane->next;
        struct cell *known = cell_of(me, map);
        if (known->id == map->id)
            known->id = 0;
        atomic_signal_fence(memory_order_seq_cst); /* a handler doesn't find it any more */
        give_back(lane);
    }
}

/* A lane that nobody had; NULL: there is none. */
static struct lane *take_lane(struct moving_map *map, struct thread *me)
{
    give_back_some(me, NULL);
    if (atomic_load_explicit(&map->owners, memory_order_relaxed) >= map->own_lanes)
        return NULL;
    for (struct lane *lane = map->lanes; !is_shared(lane); lane++) {
        uintptr_t nobody = 0;
        if (atomic_load_explicit(&lane->owner, memory_order_relaxed) == 0
            && atomic_compare_exchange_strong_explicit(&lane->owner, &nobody, (uintptr_t)me, memory_order_acq_rel, memory_order_relaxed)) {
            atomic_fetch_add_explicit(&map->owners, 1, memory_order_relaxed);
            atomic_fetch_add_explicit(&map->holders, 1, memory_order_relaxed);
            lane->next = me->lanes;
            me->lanes = lane;
            return lane;
        }
    }
    return NULL;
}

/* What this thread has, from its first call on. Without memory it has nothing as yet. */
static struct thread *begin_thread(void)
{
    struct thread *me = core_memory_take(sizeof *me);
    if (!me)
        return &no_thread;
    if (watch_thread(me)) {
        set_this_thread(me);
        return me;
    }
    core_memory_give(me, sizeof *me);
    set_this_thread(&past_thread); /* nothing would tell when it ends */
    return &past_thread;
}

/* From now on the thread finds its lane at once. */
static void know_lane(struct thread *me, struct lane *lane)
{
    struct cell *known = cell_of(me, lane->map);
    if (known->id == lane->map->id)
        return;
    known->id = 0;
    atomic_signal_fence(memory_order_seq_cst); /* a handler finds no lane of another map */
    known->lane = lane;
    atomic_signal_fence(memory_order_seq_cst);
    known->id = lane->map->id;
}

/* The lane that this thread owns, which it knows at once from then on, if its calls need no fence; NULL: it owns none. */
static struct lane *own_lane_of(struct moving_map *map)
{
    struct thread *me = this_thread() == &no_thread ? begin_thread() : this_thread();
    if (me == &no_thread || me == &past_thread)
        return NULL;
    struct lane *lane = me->lanes;
    while (lane && lane->map != map)
        lane = lane->next;
    if (!lane)
        lane = take_lane(map, me);
    if (lane && map->has_membarrier)
        know_lane(me, lane);
    return lane;
}

/* ---- lanes that threads share -------------------------------------------------------------- */

/* Takes one until the end of the call. It waits while other threads have all of them: the one wait that there is. */
static struct lane *take_shared_lane(struct moving_map *map)
{
    uint32_t count = map->all_lanes - map->own_lanes;
    for (uint32_t turn = (uint32_t)((uintptr_t)&here / sizeof here);; turn++) {
        struct lane *lane = &map->lanes[map->own_lanes + turn % count];
        uintptr_t nobody = 0;
        if (atomic_compare_exchange_strong_explicit(&lane->owner, &nobody, (uintptr_t)&here, memory_order_acq_rel, memory_order_relaxed))
            return lane;
        if (turn % count == 0)
            sched_yield();
    }
}

/* ---- calls and threads --------------------------------------------------------------------- */

static bool go_inside(void)
{
    if (atomic_load_explicit(&here.inside, memory_order_relaxed))
        return false;
    atomic_store_explicit(&here.inside, 1, memory_order_relaxed);
    atomic_signal_fence(memory_order_seq_cst);
    return true;
}

static void go_outside(void)
{
    atomic_signal_fence(memory_order_seq_cst);
    atomic_store_explicit(&here.inside, 0, memory_order_relaxed);
}

struct lane *begin_slowly(struct moving_map *map)
{
    if (!go_inside())
        return NULL;
    struct lane *lane = own_lane_of(map);
    if (!lane)
        return take_shared_lane(map);
    if (atomic_load_explicit(&lane->hazards[0], memory_order_relaxed) == 0)
        return lane;
    go_outside();
    return NULL;
}

/* A call frees one core at most, here. The first hazard goes last: it tells a handler, and others, that a call is under way. */
void end_slowly(struct lane *lane)
{
    for (unsigned slot = 1; slot < HAZARDS; slot++)
        atomic_store_explicit(&lane->hazards[slot], 0, memory_order_release);
    if (lane->frees)
        free_a_retired_core(lane);
    lane->frees = false;
    atomic_store_explicit(&lane->hazards[0], 0, memory_order_release);
    if (is_shared(lane))
        atomic_store_explicit(&lane->owner, 0, memory_order_release);
    go_outside();
}

/* A thread that owns no lane any more has nothing. */
static void leave(struct thread *me, const struct moving_map *map)
{
    give_back_some(me, map);
    if (me->lanes)
        return;
    set_this_thread(&no_thread);
    watch_thread(NULL);
    core_memory_give(me, sizeof *me);
}

void moving_leave(struct moving_map *map)
{
    struct thread *me = this_thread();
    if (!go_inside())
        return;
    if (me != &no_thread && me != &past_thread)
        leave(me, map);
    go_outside();
}

/* From then on the thread owns no lane, and a handler finds none. */
void thread_ends(struct thread *ending)
{
    set_this_thread(&past_thread);
    atomic_signal_fence(memory_order_seq_cst);
    while (ending->lanes) {
        struct lane *lane = ending->lanes;
        ending->lanes = lane->next;
        give_back(lane);
    }
    core_memory_give(ending, sizeof *ending);
}
