/* migration.h - what the files of the map of moving.h share, which stand over the proved calls of cores.h and are not proved. The steps
   are those of docs/migration.md; here is how threads share them.

   A *core* is a proved map of one table. Its *link* leads to the core behind it, once its keys move there: they *migrate*. The map's
   *directory*, a word, leads to a core from which the links lead to all that have keys: a row. A core is *sealed* once no key has a
   number there. Who sealed it *retires* it: leads the directory past it, and puts it on a list. It is freed when no lane has a hazard
   that names it.

   A *lane* is a thread's way into a map. It has three *hazards*: each names a core that its call may touch, or none; and the *key* of a
   write that may bring a number. In each core it has a *place*: a seat, and counts of its own.

   Shared words. A call stores a hazard, and then reads again the word by which it came to the core. Who frees a core leads that word on,
   and then reads the hazards. Between its two steps each side needs a full fence. The call has none: fence_all_threads gives it to all
   threads that run. So one of the two sees what the other stored. A write stores its key between the two, and then reads the link; who
   closes the keys of late writers is on the other side.

       word                 who writes it, and how                                            who reads it
       map->directory       exchange, by who has a hazard on the sealed core that it names    each call, as it enters
       map->retired[]       exchange of 0 for a core by who retires it or puts it back;       who looks for a core to free
                            of a core for 0 by who takes it, and then alone has it
       map->fences_begun    added to by who begins a fence                                    who retires a core
       map->fences_ended    raised by who has ended one                                       who frees a core
       map->holders         added to by who takes a lane of its own; the last one frees it    who gives it up
       map->closed          stored by moving_close                                            threads with a lane there
       map->bytes, ..       counts, added to                                                  who makes a core; moving_look
       lane->owner          exchange of 0 for a thread that takes it; stored by who has it    who looks for a lane
       lane->hazards[]      stored by the lane's thread                                       who retires, frees, closes late keys
       lane->key            stored by the lane's thread, after the hazard, in a write that    who closes the keys of late writers
                            may bring a number
       core->link           exchange of 0 or TIGHT for the core behind by who made that, of   each call in the core
                            0 for TIGHT by who was refused memory; the seal by one exchange
       core->late           exchange, by who begins to close the keys of late writers; and    who works in the core
                            stored by each who has done it
       core->plan           exchange, by who found it crowded; stored by who was refused      who makes the next core
                            memory
       core->handed         added to by who takes a piece of the work                         the same
       core->done[]         set, a bit for each piece, by who has done it                     who seals the core
       here                 the thread's own words, which its handlers may find               it and its handlers

   What is written before a word names its core (a core's size, its places) is read after that word was read. A place is its lane's own,
   and goes with the lane. core->stamp is written by who has sealed the core, before it is on the list. */
#ifndef MIGRATION_H
#define MIGRATION_H
#define _GNU_SOURCE
#include "cores.h"
#include "moving.h"
#include <stdatomic.h>
#include <stdbool.h>
#include <stddef.h>
#include <string.h>

#define LIKELY(x) __builtin_expect(!!(x), 1)
#define UNLIKELY(x) __builtin_expect(!!(x), 0)
#define COLD __attribute__((cold, noinline))

enum {
    MOST_LANES = 256,             /* a core has no more seats */
    HAZARDS = 3,                  /* of a lane */
    CELLS = 64,                   /* how many maps a thread knows its lane of; a map's cell goes by its id */
    PIECE = SAMVOLIP_CORE_STRETCH /* how many slots a piece of the work has */
};

/* Bits of a link. TIGHT: there is no core behind it, memory for one was refused, and it is so full that new keys are refused. */
enum link_bit { SEALED = 1, TIGHT = 2 };

/* What a write is. The first ones may bring a number where there is none. */
enum write { PUT, PUT_IF_ABSENT, ADD, FETCH_MAX, FETCH_MIN, REMOVE, REPLACE, REPLACE_IF, REMOVE_IF };
static inline bool brings(enum write what) { return what <= FETCH_MIN; }

/* Whether the keys of late writers are closed in a core that has a link: of those who found that it has none, and may still write. */
enum late { LATE_OPEN, LATE_BEGUN, LATE_CLOSED };

/* A lane's in a core. */
struct place {
    _Alignas(64) samvolip_seat seat;
    uint32_t left;   /* keys that come until the lane looks how full the core is */
    uint32_t passed; /* calls that left it to another thread to close the keys of late writers */
};

struct core {
    _Alignas(128) _Atomic uintptr_t link;
    uint32_t exponent;      /* of two, of its slots */
    uint64_t stamp;         /* the first fence that begins after it was retired */
    _Atomic uint64_t *done; /* behind the places */
    _Alignas(64) _Atomic uint64_t handed; /* this line changes while keys leave */
    _Atomic uint32_t late; /* an enum late */
    _Atomic uint32_t plan; /* the exponent of the next core, with CLAIMED where a thread makes it; 0: none yet */
    struct place places[]; /* of each lane */
};

struct lane {
    _Alignas(128) _Atomic uint64_t key;
    _Atomic uintptr_t hazards[HAZARDS]; /* the first one is 0 between calls */
    _Atomic uintptr_t owner;            /* 0: nobody */
    struct moving_map *map;
    struct lane *next; /* among the lanes of its owner */
    size_t place;      /* how many bytes its place is behind the beginning of a core */
    uint32_t turn;     /* where it looks next for a core to free */
    bool frees;        /* the call under way looks for one in the end */
};

struct moving_map {
    _Alignas(128) uint64_t id; /* no other map of the process has it, not even later; this line is what each call reads */
    uint32_t cell;       /* where a thread has what it knows of the map, in bytes behind its first cell */
    bool has_membarrier; /* else a fence follows each hazard and key */
    uint32_t own_lanes, all_lanes;
    uint32_t least;  /* the least exponent of a core */
    uint32_t room;   /* of the list of retired cores */
    uint64_t memory; /* how many bytes the cores take at most */
    _Atomic uintptr_t *retired; /* the list; 0: a free place */
    _Atomic uintptr_t directory;
    _Alignas(128) _Atomic uint64_t fences_begun;
    _Atomic uint64_t fences_ended;
    _Atomic uint64_t cores, bytes, moves, owners;
    _Atomic uint64_t holders; /* the open map, and each thread that has a lane of its own */
    _Atomic uint32_t closed;
    struct lane lanes[]; /* those that threads share come last */
};

/* What a thread has. */
struct thread {
    struct cell {
        uint64_t id; /* of the map; 0: none */
        struct lane *lane;
    } cells[CELLS];
    struct lane *lanes; /* all that it owns */
    bool shares;        /* it owns none, since nothing tells when it ends */
};

#include "this_thread.h"

/* What a thread may know of this map. */
static inline struct cell *cell_of(struct thread *me, const struct moving_map *map)
{
    return (struct cell *)((char *)me->cells + map->cell);
}

#pragma GCC visibility push(hidden)

/* core_memory.c: all memory of a map. A block is all zero, and begins at a multiple of 128. NULL: refused. */
void *core_memory_take(size_t size);
void core_memory_give(void *block, size_t size);

/* fence.c */
bool begin_fences(void);      /* before a map's first call: whether the system has membarrier, so that calls need no fence */
bool fence_all_threads(void); /* a full fence in each thread that runs; false: not this time */

/* registry.c: which lane a thread has */
struct lane *begin_slowly(struct moving_map *map); /* a call but in the common case; NULL: in the middle of a call of this thread */
void end_slowly(struct lane *lane); /* also a call in the common case that has looked how full a core is */
void thread_ends(struct thread *ending);
void drop_holder(struct moving_map *map); /* the last one frees what is left of a map that is closed */

/* core.c: a core's beginning and end */
struct core *make_core(struct moving_map *map, uint32_t exponent);
void destroy_core(struct moving_map *map, struct core *core);
uint64_t pieces_of(const struct core *core);

/* planning.c: when a core gets a link, and how large the next core is. `copies_come`: from a core before it */
void look_how_full(struct lane *lane, struct core *core, bool copies_come);
bool link_now(struct lane *lane, struct core *core, bool copies_come);

/* settling.c: how a key leaves a core that has a link */
int settle(struct lane *lane, unsigned slot, struct core *core, uint64_t key);
int settle_found(struct lane *lane, unsigned slot, struct core *core, uint64_t key, int found, uint64_t number);

/* work.c: how all keys leave it, and it is sealed */
bool work_in(struct lane *lane, struct core *core);

/* retired.c: cores that are sealed, until they are freed */
void retire(struct lane *lane, struct core *core);
void free_a_retired_core(struct lane *lane);
bool fence(struct moving_map *map);

#pragma GCC visibility pop

/* ---- cores --------------------------------------------------------------------------------- */

static inline uint64_t slots_of(uint32_t exponent) { return UINT64_C(1) << exponent; }

static inline struct place *place_in(struct core *core, const struct lane *lane)
{
    return (struct place *)((char *)core + lane->place);
}

static inline samvolip_seat *seat_in(struct core *core, const struct lane *lane) { return &place_in(core, lane)->seat; }

/* Counts so many keys that may have come here by this lane: whether it is time to look how full the core is. */
static inline bool counts_down(struct core *core, const struct lane *lane, uint32_t keys)
{
    uint32_t *left = &place_in(core, lane)->left;
    *left -= *left > keys ? keys : *left;
    return *left == 0;
}

static inline uintptr_t link_of(struct core *core) { return atomic_load_explicit(&core->link, memory_order_acquire); }

/* The core behind, by a link; NULL: there is none. */
static inline struct core *behind(uintptr_t link) { return (struct core *)(link & ~(uintptr_t)(SEALED | TIGHT)); }

/* ---- hazards ------------------------------------------------------------------------------- */

/* After a hazard or a key was stored, and before a word is read again. */
static inline void fence_after_hazard(const struct moving_map *map)
{
    atomic_signal_fence(memory_order_seq_cst); /* fence_all_threads makes it a full one */
    if (UNLIKELY(!map->has_membarrier))
        atomic_thread_fence(memory_order_seq_cst);
}

static inline void set_hazard(struct lane *lane, unsigned slot, const struct core *core)
{
    atomic_store_explicit(&lane->hazards[slot], (uintptr_t)core, memory_order_release);
    fence_after_hazard(lane->map);
}

/* The core behind one that has a link, which this slot names then; NULL: that one is sealed. The core behind is sealed only after the one
   before, so behind a link without a seal none is freed. */
static inline struct core *follow(struct lane *lane, unsigned slot, struct core *core)
{
    uintptr_t link = link_of(core);
    if (link & SEALED)
        return NULL;
    set_hazard(lane, slot, behind(link));
    return link_of(core) & SEALED ? NULL : behind(link);
}

/* Leads the directory on past a sealed core that a hazard names, if it leads there. */
static inline void lead_past(struct moving_map *map, struct core *core)
{
    uintptr_t from = (uintptr_t)core, to = (uintptr_t)behind(link_of(core));
    atomic_compare_exchange_strong_explicit(&map->directory, &from, to, memory_order_acq_rel, memory_order_acquire);
}

#endif
