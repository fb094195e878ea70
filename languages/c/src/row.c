/* row.c - the calls of a key in a row of cores, and how a call enters one and goes on to the next. */
#include "migration.h"

enum { ON = 100 }; /* beside the codes of cores.h: the call has done nothing there, and goes on */

/* ---- how a call enters --------------------------------------------------------------------- */

/* The core that a call entered, by its lane. */
static inline struct core *first_of(const struct lane *lane)
{
    return (struct core *)atomic_load_explicit(&lane->hazards[0], memory_order_relaxed);
}

/* Names the core to which the directory leads. The key is stored after the hazard: a handler that comes between finds the hazard. */
static inline void name_first(struct moving_map *map, struct lane *lane, const uint64_t *brought)
{
    uintptr_t word = atomic_load_explicit(&map->directory, memory_order_acquire);
    atomic_store_explicit(&lane->hazards[0], word, memory_order_release);
    if (brought)
        atomic_store_explicit(&lane->key, *brought, memory_order_release);
}

static inline bool leads_to(struct moving_map *map, const struct core *core)
{
    return atomic_load_explicit(&map->directory, memory_order_acquire) == (uintptr_t)core;
}

/* Tries again only where another thread has led the directory on. */
static struct core *enter(struct lane *lane, const uint64_t *brought)
{
    do {
        name_first(lane->map, lane, brought);
        fence_after_hazard(lane->map);
    } while (!leads_to(lane->map, first_of(lane)));
    return first_of(lane);
}

static inline void leave_at_once(struct lane *lane) { atomic_store_explicit(&lane->hazards[0], 0, memory_order_release); }

/* The same in the common case: by the thread's own lane, which it knows only where its calls need no fence, and in no other call of it. */
static inline bool enter_at_once(struct moving_map *map, const uint64_t *brought, struct lane **lane)
{
    const struct cell *known = cell_of(this_thread(), map);
    if (UNLIKELY(known->id != map->id || first_of(known->lane)))
        return false;
    *lane = known->lane;
    name_first(map, *lane, brought);
    atomic_signal_fence(memory_order_seq_cst); /* fence_all_threads makes it a full one */
    bool is_entered = LIKELY(leads_to(map, first_of(*lane)));
    if (!is_entered)
        leave_at_once(*lane);
    return is_entered;
}

/* Goes on to the core behind one that has a link, by this slot; NULL: it is sealed, and the call begins anew at the directory. */
static struct core *go_on(struct lane *lane, unsigned slot, struct core *core)
{
    struct core *next = follow(lane, slot, core);
    if (!next)
        lead_past(lane->map, core);
    return next;
}

/* ---- reads --------------------------------------------------------------------------------- */

static inline bool has_number(int look) { return look == SAMVOLIP_CORE_OPEN || look == SAMVOLIP_CORE_FROZEN; }

/* A number, frozen or not, is the answer; none, if there is no link after that. */
static int read_in_row(struct lane *lane, uint64_t key, uint64_t *number)
{
    unsigned slot = 0;
    struct core *core = enter(lane, NULL);
    while (core) {
        int code = samvolip_core_look(seat_in(core, lane), key, number);
        if (has_number(code))
            return SAMVOLIP_PRESENT;
        if (code < 0 || (code == SAMVOLIP_CORE_ABSENT && !behind(link_of(core))))
            return code;
        slot = (slot + 1) % HAZARDS;
        core = go_on(lane, slot, core);
    }
    return ON;
}

static COLD int read_slowly(struct moving_map *map, uint64_t key, uint64_t *number)
{
    struct lane *lane = begin_slowly(map);
    if (!lane)
        return SAMVOLIP_E_NESTED;
    int code;
    do /* again only where a core has been sealed meanwhile */
        code = read_in_row(lane, key, number);
    while (code == ON);
    end_slowly(lane);
    return code;
}

/* After a read that has found no answer in the core that it entered. */
static COLD int read_anew(struct lane *lane, uint64_t key, uint64_t *number)
{
    leave_at_once(lane);
    return read_slowly(lane->map, key, number);
}

int moving_get(struct moving_map *map, uint64_t key, uint64_t *number)
{
    struct lane *lane;
    if (UNLIKELY(!enter_at_once(map, NULL, &lane)))
        return read_slowly(map, key, number);
    int code = samvolip_core_look(seat_in(first_of(lane), lane), key, number);
    if (UNLIKELY(!has_number(code) && (code != SAMVOLIP_CORE_ABSENT || behind(link_of(first_of(lane))))))
        return read_anew(lane, key, number);
    leave_at_once(lane);
    return code != SAMVOLIP_CORE_ABSENT;
}

/* ---- writes -------------------------------------------------------------------------------- */

/* One write in a core. */
static inline __attribute__((always_inline)) int write_once(samvolip_seat *seat, enum write what, uint64_t key, uint64_t number,
                                                            uint64_t old, uint64_t *found)
{
    switch (what) {
    case PUT:
        return samvolip_core_put(seat, key, number, 1, found);
    case PUT_IF_ABSENT:
        return samvolip_core_put_if_absent(seat, key, number, 1, found);
    case ADD:
        return samvolip_core_add(seat, key, number, 1, found);
    case FETCH_MAX:
        return samvolip_core_fetch_max(seat, key, number, 1, found);
    case FETCH_MIN:
        return samvolip_core_fetch_min(seat, key, number, 1, found);
    case REMOVE:
        return samvolip_core_remove(seat, key, 1, found);
    case REPLACE:
        return samvolip_core_replace(seat, key, number, 1, found);
    case REPLACE_IF:
        return samvolip_core_replace_if(seat, key, old, number, 1, found);
    default:
        return samvolip_core_remove_if(seat, key, number, 1, found);
    }
}

/* A write on its way. */
struct call {
    struct lane *lane;
    enum write what;
    uint64_t key, number, old, found;
};

/* The write in a core, again as long as other threads' writes of the key come first. */
static int write_again(struct call *call, struct core *core)
{
    int code;
    do
        code = write_once(seat_in(core, call->lane), call->what, call->key, call->number, call->old, &call->found);
    while (code == SAMVOLIP_E_CONTENDED && samvolip_rest());
    return code;
}

/* Whether a write finds no number in a core that takes no new keys. */
static bool is_turned_away(const struct call *call, struct core *core)
{
    uint64_t found;
    return link_of(core) == TIGHT && brings(call->what)
           && samvolip_core_look(seat_in(core, call->lane), call->key, &found) == SAMVOLIP_CORE_ABSENT;
}

/* A write in a core that had no link. It goes on where there is a link by now. */
static int write_in_stable(struct call *call, struct core *core, bool copies_come)
{
    int code = is_turned_away(call, core) ? SAMVOLIP_E_FULL : write_again(call, core);
    switch (code) {
    case SAMVOLIP_CORE_CAME:
        if (counts_down(core, call->lane, 1))
            look_how_full(call->lane, core, copies_come);
        return code;
    case SAMVOLIP_CORE_ABSENT:
        return behind(link_of(core)) ? ON : code;
    case SAMVOLIP_CORE_MOVED:
        return ON;
    case SAMVOLIP_E_FULL:
        return link_now(call->lane, core, copies_come) ? ON : SAMVOLIP_E_OUT_OF_MEMORY;
    default:
        return code;
    }
}

/* A write in the cores from the one on to which the directory leads. In a core that has a link it settles its key; does a piece of the
   work, if it came by the directory; and goes on. */
static int write_in_row(struct call *call)
{
    struct lane *lane = call->lane;
    struct core *core = enter(lane, brings(call->what) ? &call->key : NULL);
    unsigned slot = 0;
    for (bool came_on = false; core; came_on = true) {
        int code = behind(link_of(core)) ? ON : write_in_stable(call, core, came_on);
        if (code != ON)
            return code;
        if (!(link_of(core) & SEALED)) {
            code = settle(lane, slot, core, call->key);
            if (code < 0)
                return code;
            if (!came_on && work_in(lane, core))
                return ON;
        }
        slot = (slot + 1) % HAZARDS;
        core = go_on(lane, slot, core);
    }
    return ON;
}

/* What a write has come to, and what it has found. */
struct outcome {
    int code; /* CAME, CHANGED, KEPT, ABSENT, or why it is refused */
    uint64_t found;
};

static COLD struct outcome write_slowly(struct moving_map *map, enum write what, uint64_t key, uint64_t number, uint64_t old)
{
    struct lane *lane = begin_slowly(map);
    if (!lane)
        return (struct outcome){SAMVOLIP_E_NESTED, 0};
    struct call call = {lane, what, key, number, old, 0};
    int code;
    do /* again only where a core has been sealed meanwhile */
        code = write_in_row(&call);
    while (code == ON);
    end_slowly(lane);
    return (struct outcome){code, call.found};
}

/* After a write that has done nothing in the core that it entered. */
static COLD struct outcome write_anew(struct lane *lane, enum write what, uint64_t key, uint64_t number, uint64_t old)
{
    leave_at_once(lane);
    return write_slowly(lane->map, what, key, number, old);
}

/* After a key has come to the core that a call entered. */
static COLD void look_around(struct lane *lane)
{
    look_how_full(lane, first_of(lane), false);
    end_slowly(lane);
}

static inline bool has_found(int code) { return code == SAMVOLIP_CORE_CHANGED || code == SAMVOLIP_CORE_KEPT; }

/* A write. In the common case it is one in a core without a link. */
static inline __attribute__((always_inline)) struct outcome write_key(struct moving_map *map, enum write what, uint64_t key,
                                                                      uint64_t number, uint64_t old)
{
    struct lane *lane;
    if (UNLIKELY(!enter_at_once(map, brings(what) ? &key : NULL, &lane)))
        return write_slowly(map, what, key, number, old);
    if (UNLIKELY(link_of(first_of(lane))))
        return write_anew(lane, what, key, number, old);
    uint64_t found;
    int code = write_once(seat_in(first_of(lane), lane), what, key, number, old, &found);
    if (UNLIKELY(!has_found(code))) {
        if (code != SAMVOLIP_CORE_CAME && (code != SAMVOLIP_CORE_ABSENT || behind(link_of(first_of(lane)))))
            return write_anew(lane, what, key, number, old);
        if (code == SAMVOLIP_CORE_CAME && counts_down(first_of(lane), lane, 1))
            look_around(lane);
    }
    leave_at_once(lane);
    return (struct outcome){code, found};
}

/* A write that tells what was there. */
static inline __attribute__((always_inline)) int write_and_tell(struct moving_map *map, enum write what, uint64_t key, uint64_t number,
                                                                uint64_t *before)
{
    struct outcome outcome = write_key(map, what, key, number, 0);
    if (UNLIKELY(outcome.code < 0))
        return outcome.code;
    if (before)
        *before = outcome.found;
    return has_found(outcome.code);
}

/* A write that tells whether it was done. */
static inline __attribute__((always_inline)) int write_if(struct moving_map *map, enum write what, uint64_t key, uint64_t old,
                                                          uint64_t number)
{
    int code = write_key(map, what, key, number, old).code;
    return code < 0 ? code : code == SAMVOLIP_CORE_CHANGED;
}

int moving_put(struct moving_map *map, uint64_t key, uint64_t number, uint64_t *before)
{
    return write_and_tell(map, PUT, key, number, before);
}

int moving_put_if_absent(struct moving_map *map, uint64_t key, uint64_t number, uint64_t *before)
{
    return write_and_tell(map, PUT_IF_ABSENT, key, number, before);
}

int moving_get_or_insert(struct moving_map *map, uint64_t key, uint64_t number, uint64_t *there)
{
    uint64_t before;
    int code = write_and_tell(map, PUT_IF_ABSENT, key, number, &before);
    if (code >= 0 && there)
        *there = code == SAMVOLIP_PRESENT ? before : number;
    return code;
}

int moving_add(struct moving_map *map, uint64_t key, uint64_t number, uint64_t *before)
{
    return write_and_tell(map, ADD, key, number, before);
}

int moving_fetch_max(struct moving_map *map, uint64_t key, uint64_t number, uint64_t *before)
{
    return write_and_tell(map, FETCH_MAX, key, number, before);
}

int moving_fetch_min(struct moving_map *map, uint64_t key, uint64_t number, uint64_t *before)
{
    return write_and_tell(map, FETCH_MIN, key, number, before);
}

int moving_replace(struct moving_map *map, uint64_t key, uint64_t number, uint64_t *before)
{
    return write_and_tell(map, REPLACE, key, number, before);
}

int moving_remove(struct moving_map *map, uint64_t key, uint64_t *before) { return write_and_tell(map, REMOVE, key, 0, before); }

int moving_replace_if(struct moving_map *map, uint64_t key, uint64_t old, uint64_t number)
{
    return write_if(map, REPLACE_IF, key, old, number);
}

int moving_remove_if(struct moving_map *map, uint64_t key, uint64_t number) { return write_if(map, REMOVE_IF, key, 0, number); }

/* The exchange as a write, or as a look, where there is no number to expect and none to put. */
static struct outcome exchange(struct moving_map *map, uint64_t key, const uint64_t *expected, const uint64_t *next)
{
    if (expected && next)
        return write_key(map, REPLACE_IF, key, *next, *expected);
    if (expected)
        return write_key(map, REMOVE_IF, key, *expected, 0);
    if (next)
        return write_key(map, PUT_IF_ABSENT, key, *next, 0);
    uint64_t found = 0;
    int code = moving_get(map, key, &found);
    return (struct outcome){code == SAMVOLIP_PRESENT ? SAMVOLIP_CORE_KEPT : code, found};
}

int moving_compare_exchange(struct moving_map *map, uint64_t key, const uint64_t *expected, const uint64_t *next, samvolip_reply *reply)
{
    struct outcome outcome = exchange(map, key, expected, next);
    if (outcome.code < 0)
        return outcome.code;
    bool matched = expected ? outcome.code == SAMVOLIP_CORE_CHANGED : outcome.code != SAMVOLIP_CORE_KEPT;
    *reply = (samvolip_reply){outcome.found, has_found(outcome.code), matched};
    return SAMVOLIP_OK;
}
