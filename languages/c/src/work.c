/* work.c - the work by which all keys leave a core that has a link: the keys of late writers are closed, then all pieces settled, then it
   is sealed. Each step is done by any thread, twice or late without harm. */
#include "migration.h"

enum { PATIENCE = 4 }; /* calls that leave it to another thread to close the keys of late writers */

/* ---- late writers -------------------------------------------------------------------------- */

static bool names(const struct lane *lane, const struct core *core)
{
    for (unsigned slot = 0; slot < HAZARDS; slot++)
        if (atomic_load_explicit(&lane->hazards[slot], memory_order_acquire) == (uintptr_t)core)
            return true;
    return false;
}

/* Settles the keys of all lanes that name the core. A writer that found no link there has stored both before the fence, and they stay until
   its call is over. A key too many does no harm. False: memory is refused. */
static bool settle_late_keys(struct lane *mine, struct core *core)
{
    const struct moving_map *map = mine->map;
    for (const struct lane *lane = map->lanes; lane < map->lanes + map->all_lanes; lane++) {
        if (lane == mine || !names(lane, core))
            continue;
        uint64_t key = atomic_load_explicit(&lane->key, memory_order_acquire);
        if (settle(mine, 0, core, key) == SAMVOLIP_E_OUT_OF_MEMORY)
            return false;
    }
    return true;
}

/* Closes the keys of late writers, unless that is done. Where another thread has begun to, this one leaves it to that in its first calls.
   False: it isn't done yet. */
static bool close_late_keys(struct lane *lane, struct core *core)
{
    uint32_t state = LATE_OPEN;
    bool is_first = atomic_compare_exchange_strong_explicit(&core->late, &state, LATE_BEGUN, memory_order_acq_rel, memory_order_acquire);
    if (state == LATE_CLOSED)
        return true;
    if (!is_first && place_in(core, lane)->passed++ < PATIENCE)
        return false;
    if (!fence(lane->map) || !settle_late_keys(lane, core))
        return false;
    atomic_store_explicit(&core->late, LATE_CLOSED, memory_order_release);
    return true;
}

/* ---- pieces -------------------------------------------------------------------------------- */

/* The flags of the pieces of one word. */
static uint64_t all_flags(uint64_t pieces, uint64_t word)
{
    return pieces - word * 64 < 64 ? (UINT64_C(1) << pieces % 64) - 1 : UINT64_MAX;
}

/* A piece that isn't done, from a place on that goes by the lane; or how many there are. */
static uint64_t piece_left(const struct lane *lane, const struct core *core)
{
    uint64_t pieces = pieces_of(core), words = (pieces + 63) / 64;
    for (uint64_t i = 0; i < words; i++) {
        uint64_t word = (lane->place / sizeof(struct place) + i) % words;
        uint64_t left = all_flags(pieces, word) & ~atomic_load_explicit(&core->done[word], memory_order_acquire);
        if (left)
            return word * 64 + (uint64_t)__builtin_ctzll(left);
    }
    return pieces;
}

/* Settles the keys that have numbers in the slots up to `end`, and passes them; but none, or some, where another thread's write came first.
   False: memory is refused. */
static bool move_slots(struct lane *lane, struct core *core, uint64_t *slot, uint64_t end)
{
    samvolip_entry left[PIECE];
    samvolip_core_stretch moved = {0, 0};
    struct core *to = follow(lane, 1, core);
    if (!to) { /* it is sealed: all is settled */
        *slot = end;
        return true;
    }
    int code = samvolip_core_move_stretch(seat_in(core, lane), seat_in(to, lane), *slot, 1, left, end - *slot, &moved);
    if (counts_down(to, lane, (uint32_t)moved.passed))
        look_how_full(lane, to, true);
    for (const samvolip_entry *entry = left; entry < left + moved.left; entry++)
        if (settle_found(lane, 0, core, entry->key, SAMVOLIP_CORE_FROZEN, entry->number) < 0)
            return false;
    if (code != SAMVOLIP_E_CONTENDED)
        *slot += moved.passed;
    return true;
}

/* Settles all keys of a piece that have a number, and sets its flag, unless memory is refused. */
static void do_piece(struct lane *lane, struct core *core, uint64_t piece)
{
    uint64_t slot = piece * PIECE, slots = slots_of(core->exponent), end = slot + PIECE < slots ? slot + PIECE : slots;
    while (slot < end) /* once, and again where another thread's write came first */
        if (!move_slots(lane, core, &slot, end))
            return;
    atomic_fetch_or_explicit(&core->done[piece / 64], UINT64_C(1) << piece % 64, memory_order_acq_rel);
}

/* One piece of the work in a core to which the directory led, and which slot 0 names: so no copies come there any more. Pieces are handed
   out by a count; when all were, those that aren't done are done again. Who sees that none is left seals the core; true: it was this
   thread, which has retired it and names it no more. */
bool work_in(struct lane *lane, struct core *core)
{
    if (atomic_load_explicit(&core->late, memory_order_acquire) != LATE_CLOSED && !close_late_keys(lane, core))
        return false;
    uint64_t pieces = pieces_of(core), piece = pieces;
    if (atomic_load_explicit(&core->handed, memory_order_relaxed) < pieces)
        piece = atomic_fetch_add_explicit(&core->handed, 1, memory_order_relaxed);
    if (piece >= pieces)
        piece = piece_left(lane, core);
    if (piece < pieces)
        do_piece(lane, core, piece);
    if (atomic_load_explicit(&core->handed, memory_order_relaxed) < pieces || piece_left(lane, core) < pieces)
        return false;
    if (atomic_fetch_or_explicit(&core->link, SEALED, memory_order_acq_rel) & SEALED)
        return false;
    retire(lane, core);
    return true;
}
