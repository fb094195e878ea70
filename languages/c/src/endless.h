/* endless.h - what the files of the map of samvolip_map.h share: map.c, lanes.c, gate.c, renewal.c, whole_map.c and walks.c, which stand
   over a proved map, called a core, and are not proved.

   A map has one part, or PARTS by bits of the key once it is large. Each part has a core, which a renewal puts another one in the
   place of, and a gate. Each thread calls by its lane, which has a seat in each core. The thread's busy word says in which part a call
   is under way, and whether it may write. The part's gate lets in all calls, or reads alone, or none. A call stores the busy word and
   then looks at the gate; who closes the gate stores it and then looks at all busy words. Between its two steps each side needs a full
   fence. A call has none: membarrier gives it to all threads that run when the gate is closed. So either the one who closes sees the
   busy word, or the call sees the gate. ../model/gate.pml is this for spin, and docs/endless.md tells it in a page. */
#ifndef ENDLESS_H
#define ENDLESS_H
#define _GNU_SOURCE
#include "objects.h"
#include <pthread.h>
#include <stdatomic.h>
#include <stddef.h>
#include <stdlib.h>
#include <string.h>

#ifndef MOST_EXPONENT /* of a table: less for a test */
#define MOST_EXPONENT SAMVOLIP_MAX_EXPONENT
#endif
#ifndef PART_BITS /* how many bits of a key say to which part it belongs */
#define PART_BITS 3
#endif
#ifndef DIVIDED_FROM /* a map of so many slots and more, by their exponent, is in parts: less for a test */
#define DIVIDED_FROM 17
#endif
#define LIKELY(x) __builtin_expect(!!(x), 1)
#define UNLIKELY(x) __builtin_expect(!!(x), 0)
#define COLD __attribute__((cold, noinline))
#define PER_THREAD _Thread_local __attribute__((tls_model("initial-exec")))

/* Place 0 is of the one part of a map that isn't divided, and the others are of the parts of one that is. */
enum { PARTS = 1 << PART_BITS, PLACES = 1 + PARTS };

/* Lane 0 is of who is alone with a part; those up to SHARED of threads that share; the others have an owner each. */
enum { SHARED = 6, COMMON = 1 + SHARED };

enum { CELLS = 64 };  /* how many maps a thread knows its lane of; a map's cell goes by its id */
enum { PIECE = 128 }; /* slots that are copied, listed or walked over at a time */
enum { AGAIN = 2 };   /* beside the codes of a call: it is to be made again */

/* A gate that is open is the map's id. FENCED is open where the system has no membarrier. A place that has no core is CLOSED. */
enum gate { FENCED = 1, READS_ONLY, CLOSED, FIRST_ID };
enum change { COMES, GOES, STAYS }; /* a key, by a write */

/* A busy word is READS or WRITES plus the part's address, or one of the others, which are of no part: at rest, in the middle of a call that
   is in no core, and at rest in a thread whose calls all begin slowly. */
enum busy { REST, READS, WRITES, WAITS, RESTS_SLOWLY };

/* A proved map of one table. */
typedef struct core {
    samvolip_seat reserve; /* the seat that no lane has, by which walks are made, with the map's lock */
    uint64_t number;       /* of all cores of the process */
    uint64_t users;        /* who renews or the map, and the walks that began here: the last one frees it */
    uint32_t exponent;
    samvolip_seat seats[]; /* one for each lane */
} core;

typedef struct part {
    _Alignas(16) atomic_ullong gate;
    core *core; /* NULL: the place has no part now */
} part;

/* A way into the map. */
typedef struct lane {
    _Alignas(128) atomic_uintptr_t busy; /* of a lane that threads share: REST, or the busy word of who has it */
    struct thread *_Atomic owner;        /* which thread has it as its own */
    uint32_t left[PLACES][2];            /* keys that come, and that go, there until it looks how full the part is */
} lane;

/* Places that follow each other, up to one before `end`; and a set of places, a bit for each. */
typedef struct range {
    unsigned first, end;
} range;
typedef uint64_t place_set;
static const range EVERYWHERE = {0, PLACES};

/* Work on all slots of some parts, which whoever waits does a piece of at a time: their entries are copied, or listed. */
typedef struct job {
    range from, to;      /* the parts that there are, and those that come in their place */
    core *cores[PLACES]; /* to come, and after the exchange those that were */
    unsigned helpers;
    atomic_size_t begun;  /* how many pieces were taken */
    size_t size;          /* slots of the largest part */
    samvolip_entry *list; /* NULL: they are copied to the cores to come */
    atomic_size_t listed;
    atomic_int refused;   /* why a core to come refused an entry */
} job;

/* A permutation of 64 bits: twice an exclusive or, a multiplication by an odd number, and the bytes turned round. */
typedef struct mixing {
    uint64_t with[2], factor[2], inverse[2];
} mixing;

struct samvolip_map {
    objects objects;           /* of objects.c, where it comes first */
    _Alignas(128) uint64_t id; /* no other map of the process has it, not even later; this line is what each call reads */
    uint64_t mixes_below;      /* which keys are mixed: all, or none */
    mixing mixing;
    atomic_bool is_divided;    /* it has PARTS parts */
    atomic_bool may_fill;      /* memory is bounded, or was refused: so a table may get full, and a read in it look at all slots */
    uint32_t cell;
    _Alignas(128) part parts[PLACES];
    _Alignas(128) pthread_mutex_t lock;
    pthread_cond_t turned; /* a gate, the work or who is alone has changed */
    atomic_uint told;      /* how often */
    _Atomic(place_set) held; /* the places with which somebody is alone, to renew, clear, count, list or fork */
    job *jobs[PLACES];     /* under way there, in which who waits may help */
    unsigned count;        /* of lanes */
    atomic_uint taken;     /* lanes with an owner */
    uint64_t slots;        /* of the cores that there are, and of those to come */
    samvolip_map_options options;
    samvolip_map_figures figures;
    void *(*let_go)(void); /* samvolip_map_lets_go; NULL: nothing is let go of */
    void (*take_back)(void *);
    samvolip_map *after; /* among all maps */
    lane lanes[];
};

_Static_assert(offsetof(samvolip_map, objects) == 0, "objects.c takes a map for its objects");
_Static_assert(PLACES < 64 && DIVIDED_FROM >= PART_BITS + 5, "a place_set has all places, and a part a table");

/* A walk over the cores that a map has at one moment, by their reserves. */
struct samvolip_map_walk {
    samvolip_map *map;
    core *cores[PLACES];
    unsigned place; /* in which it is */
    size_t slot;    /* up to which that one was listed */
    size_t at, count;
    samvolip_entry some[PIECE];
};

#pragma GCC visibility push(hidden)

/* What a thread has. Others look at its busy word, also when it has ended without a word, after the last round of its keys' destructors.
   So it lies in a block that is never unmapped, which the next thread gets. A thread that has no block, since it ends or there is no
   memory, has the first two fields alone, and no lane of its own. */
struct thread {
    _Atomic(uintptr_t) busy;
    lane *shared;            /* the lane that it shares, during a call */
    uint64_t ids[CELLS];     /* of which map it knows the lane */
    uint16_t seats[CELLS];   /* and how many bytes its seat is behind the first one of a core */
    uint8_t lanes[CELLS];
    struct thread *after;    /* among all blocks */
    struct thread *next;     /* among those that no thread has */
};
extern PER_THREAD struct thread *_Atomic here;

/* lanes.c */
bool has_begun(void);
bool go_inside(void);
void go_outside(void);
void enlist(samvolip_map *map);
void delist(samvolip_map *map);
unsigned own_lane(const samvolip_map *map);
part *enter_slowly(samvolip_map *map, unsigned what, unsigned share);
void rest_lane(void);
void leave(void);

/* gate.c */
void begin_gate(void);
void pause_for(unsigned turn);
bool admits(const part *into, unsigned what);
void open_gates(samvolip_map *map, range places);
uint64_t stop(samvolip_map *map, range places, enum gate to);
void go_on(samvolip_map *map, range places, uint64_t writes, uint64_t reads);
void share_out(samvolip_map *map, job *job);
void wait_or_help(samvolip_map *map, range places, unsigned mine);
bool be_alone(samvolip_map *map, range places, const part *with, uint64_t number);
void end_alone(samvolip_map *map, range places);

/* renewal.c */
extern const uint64_t MOST_ROOM;
uint32_t first_exponent(const samvolip_map_options *options);
void free_core(const samvolip_map *map, core *one);
void leave_cores(samvolip_map *map, core **cores, bool are_over);
uint64_t keys_in(const samvolip_map *map, range places);
int put_empty_cores(samvolip_map *map, range from);
int renew_by_hand(samvolip_map *map, uint64_t room);
int end_call(samvolip_map *map, part *in, int code, bool looks);

/* walks.c */
uint64_t list_piece(samvolip_seat *seat, size_t from, samvolip_entry *entries);
void begin_walk(samvolip_map_walk *walk, samvolip_map *map);
void show_all(samvolip_map_walk *walk, samvolip_map_visit *visit, void *context);

#pragma GCC visibility pop

/* ---- keys ---------------------------------------------------------------------------------- */

static inline uint64_t mix(const mixing *by, uint64_t key)
{
    key = __builtin_bswap64((key ^ by->with[0]) * by->factor[0]);
    return __builtin_bswap64((key ^ by->with[1]) * by->factor[1]);
}

static inline uint64_t unmix(const mixing *by, uint64_t key)
{
    key = (__builtin_bswap64(key) * by->inverse[1]) ^ by->with[1];
    return (__builtin_bswap64(key) * by->inverse[0]) ^ by->with[0];
}

/* Two numbers change places: the first that is no key, and the one that would have its place when the parts come first. */
#define FIRST_NO_KEY (SAMVOLIP_KEY_MAX + 1)
static inline uint64_t swapped(uint64_t key)
{
    const uint64_t other = FIRST_NO_KEY << PART_BITS | (PARTS - 1);
    return UNLIKELY(key == FIRST_NO_KEY || key == other) ? key ^ FIRST_NO_KEY ^ other : key;
}

/* In a divided map that mixes nothing a key belongs to the part that its lowest bits tell, and stands there as the number that its other
   bits tell, with its part before that. So keys in a row go round all parts, and have slots in a row in each; where each of 2, 4 or 8
   threads takes the next key by turns, no two share a line of the cache. Keys with the same lowest bits are all in one part. The two
   numbers that are no keys stay as they are. */
static inline uint64_t part_first(uint64_t key)
{
    key = swapped(key);
    return key >> PART_BITS | key << (64 - PART_BITS);
}

static inline uint64_t part_last(uint64_t inner) { return swapped(inner << PART_BITS | inner >> (64 - PART_BITS)); }

/* The key that stands in a core for this one, of a map that is divided or isn't. It may be none: two numbers are no keys. */
static inline uint64_t inner_once(const samvolip_map *map, bool divided, uint64_t key)
{
    if (LIKELY(key < map->mixes_below))
        return mix(&map->mixing, key);
    return divided ? part_first(key) : key;
}

/* The key that stands in a core for this one. One that is mixed to a number that is no key is mixed again. */
static inline uint64_t inner_key(const samvolip_map *map, bool divided, uint64_t key)
{
    uint64_t inner = inner_once(map, divided, key);
    while (inner > SAMVOLIP_KEY_MAX && key <= SAMVOLIP_KEY_MAX)
        inner = mix(&map->mixing, inner);
    return inner;
}

/* The key for which this one stands in a core. */
static inline uint64_t outer_key(const samvolip_map *map, bool divided, uint64_t inner)
{
    if (map->mixes_below == 0)
        return divided ? part_last(inner) : inner;
    do
        inner = unmix(&map->mixing, inner);
    while (inner > SAMVOLIP_KEY_MAX);
    return inner;
}

/* The key that stands in a core for the same as this one does in another: of the map as it was, divided or not, and as it will be. */
static inline uint64_t moved_key(const samvolip_map *map, bool was_divided, bool divided, uint64_t inner)
{
    if (was_divided == divided || map->mixes_below > 0)
        return inner;
    return divided ? part_first(inner) : part_last(inner);
}

/* Which of the parts of a divided map has what stands in a core. */
static inline unsigned share_of(uint64_t inner) { return (unsigned)(inner >> (64 - PART_BITS)); }

/* ---- places and cores ---------------------------------------------------------------------- */

static inline unsigned place_of(const samvolip_map *map, const part *one) { return (unsigned)(one - map->parts); }

/* Whether a map is divided now, and the part that has this share of it then. Before and after a division that isn't in the same place: so
   if the map is divided, or is no more, after this look, the gate there is closed. */
static inline bool is_divided(const samvolip_map *map) { return UNLIKELY(atomic_load_explicit(&map->is_divided, memory_order_relaxed)); }
static inline part *part_of(samvolip_map *map, bool divided, unsigned share)
{
    return UNLIKELY(divided) ? &map->parts[1 + share] : map->parts;
}

/* Where a map has its parts, if it is divided or not. */
static inline range places_if(bool is_divided) { return is_divided ? (range){1, PLACES} : (range){0, 1}; }
static inline range parts_of(const samvolip_map *map) { return places_if(map->is_divided); }
static inline range only(unsigned place) { return (range){place, place + 1}; }
static inline place_set set_of(range places) { return (UINT64_C(1) << places.end) - (UINT64_C(1) << places.first); }

static inline uint64_t slots_of(uint32_t exponent) { return UINT64_C(1) << exponent; }
static inline uint64_t greater(uint64_t one, uint64_t other) { return one > other ? one : other; }

/* ---- how a call begins and ends ------------------------------------------------------------ */

static inline void lock(samvolip_map *map) { pthread_mutex_lock(&map->lock); }
static inline void unlock(samvolip_map *map) { pthread_mutex_unlock(&map->lock); }

static inline uintptr_t busy_word(const part *in, unsigned what) { return (uintptr_t)in + what; }

static inline struct thread *own(void) { return atomic_load_explicit(&here, memory_order_relaxed); }

/* Begins a call in the common case: by the thread's own lane, if the part's gate is open. Else it is NULL, and the thread isn't
   inside. The busy word comes first: from then on a handler is refused, so that it can't change what the thread knows. */
static inline samvolip_seat *enter_at_once(samvolip_map *map, struct thread *me, part *into, unsigned what)
{
    if (UNLIKELY(atomic_load_explicit(&me->busy, memory_order_relaxed) != REST))
        return NULL;
    atomic_store_explicit(&me->busy, busy_word(into, what), memory_order_relaxed);
    atomic_signal_fence(memory_order_seq_cst); /* membarrier makes it a full one */
    uint32_t cell = map->cell;
    if (LIKELY(me->ids[cell] == atomic_load_explicit(&into->gate, memory_order_acquire)))
        return (samvolip_seat *)((char *)into->core->seats + me->seats[cell]);
    atomic_store_explicit(&me->busy, REST, memory_order_release);
    return NULL;
}

/* Ends a call that began so, in the common case. */
static inline void leave_at_once(struct thread *me) { atomic_store_explicit(&me->busy, REST, memory_order_release); }

/* During a call: the lane by which it is made, and its seat. */
static inline lane *used_lane(samvolip_map *map)
{
    const struct thread *me = own();
    return me->shared ? me->shared : &map->lanes[me->lanes[map->cell]];
}

static inline samvolip_seat *used_seat(samvolip_map *map, const part *in) { return &in->core->seats[used_lane(map) - map->lanes]; }

/* During a write by this lane, after which a key has come or gone: whether it is time to look how full the part is. */
static inline bool counts_down(const samvolip_map *map, lane *used, const part *in, enum change change)
{
    uint32_t *left = used->left[place_of(map, in)];
    left[GOES] += change == COMES;
    return left[change]-- == 0;
}

/* Around what may take long in a call of one key: the caller lets go of what others may want. Nothing of the map is held meanwhile. */
static inline void *let_go(const samvolip_map *map) { return map->let_go ? map->let_go() : NULL; }

static inline void take_back(const samvolip_map *map, void *held)
{
    if (map->take_back)
        map->take_back(held);
}

#endif
