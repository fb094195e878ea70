/* lanes.c - what a thread has, which lane of a map it has, how a call begins but in the common case, and what becomes of all this at a
   thread's end and at a fork. */
#include "endless.h"

enum { ARRIVALS = 100 };           /* tries to get the lock */
#define SHARES (UINT64_C(1) << 63) /* beside a map's id in a thread's cell: it has no lane of its own there */

static pthread_mutex_t all_lock = PTHREAD_MUTEX_INITIALIZER; /* of all maps; is locked before a map's lock */
static samvolip_map *maps;
static pthread_key_t at_end;

/* ---- what a thread has --------------------------------------------------------------------- */

/* The first fields of a struct thread. Until a thread has made a call it has `nobody`, which is at rest for good. */
struct spare {
    _Atomic(uintptr_t) busy;
    lane *shared;
};
static const struct spare nobody = {.busy = RESTS_SLOWLY};
static PER_THREAD struct spare spare = {.busy = WAITS};
PER_THREAD struct thread *_Atomic here = (struct thread *)&nobody;

/* The first blocks are here, so that few threads take no memory. */
enum { FIRST_BLOCKS = 32 };
static struct block {
    _Alignas(128) struct thread of;
} first[FIRST_BLOCKS];

static pthread_mutex_t blocks_lock = PTHREAD_MUTEX_INITIALIZER; /* of the next three; nobody takes memory with it */
static struct thread *blocks, *free_blocks;
static unsigned taken_first;

static inline struct thread *own_spare(void) { return (struct thread *)&spare; }

/* With its lock: a new block is among all. */
static struct thread *list_block(struct block *new)
{
    new->of.busy = WAITS;
    new->of.after = blocks;
    return blocks = &new->of;
}

/* A block that no thread has, or a new one; NULL without memory. */
static struct thread *get_block(void)
{
    pthread_mutex_lock(&blocks_lock);
    struct thread *found = free_blocks;
    if (found)
        free_blocks = found->next;
    else if (taken_first < FIRST_BLOCKS)
        found = list_block(&first[taken_first++]);
    pthread_mutex_unlock(&blocks_lock);
    struct block *new = found ? NULL : aligned_alloc(_Alignof(struct block), sizeof *new);
    if (!new)
        return found;
    memset(new, 0, sizeof *new);
    pthread_mutex_lock(&blocks_lock);
    found = list_block(new);
    pthread_mutex_unlock(&blocks_lock);
    return found;
}

/* The next thread that gets it is inside at first. */
static void free_block(struct thread *block)
{
    block->busy = WAITS;
    block->shared = NULL;
    memset(block->ids, 0, sizeof block->ids);
    pthread_mutex_lock(&blocks_lock);
    block->next = free_blocks;
    free_blocks = block;
    pthread_mutex_unlock(&blocks_lock);
}

/* At a thread's first call, and never by a handler that interrupts a call: gives it a block. Until it has one a handler finds it inside.
   The key takes memory here, so that no later call does. */
static COLD void begin_thread(void)
{
    struct thread *expected = (struct thread *)&nobody;
    if (!atomic_compare_exchange_strong(&here, &expected, own_spare()))
        return; /* a handler came first */
    struct thread *block = get_block();
    if (block && pthread_setspecific(at_end, block) == 0)
        atomic_store(&here, block);
    else if (block)
        free_block(block);
    go_outside();
}

/* Marks this thread as in the middle of a call that is in no core, unless it is in another one. */
bool go_inside(void)
{
    if (own() == (const struct thread *)&nobody)
        begin_thread();
    struct thread *me = own();
    uintptr_t busy = atomic_load_explicit(&me->busy, memory_order_relaxed);
    if (busy != REST && busy != RESTS_SLOWLY)
        return false;
    atomic_store_explicit(&me->busy, WAITS, memory_order_relaxed); /* who closes a gate doesn't look for it, but a handler does */
    atomic_signal_fence(memory_order_seq_cst);
    return true;
}

void go_outside(void)
{
    struct thread *me = own();
    atomic_store_explicit(&me->busy, me == own_spare() ? RESTS_SLOWLY : REST, memory_order_release);
}

/* ---- lanes of one owner -------------------------------------------------------------------- */

/* The lane of this owner, or 0. */
static unsigned find_lane(const samvolip_map *map, const struct thread *owner)
{
    for (unsigned i = COMMON; i < map->count; i++)
        if (map->lanes[i].owner == owner)
            return i;
    return 0;
}

/* Inside: this thread's own lane, or 0. */
unsigned own_lane(const samvolip_map *map) { return find_lane(map, own()); }

/* Gives this thread a lane of its own, if there is one that nobody has and the lock gets free within some tries: a handler waits for nobody
   here, and takes no memory. It looks soon how full the parts are. */
static COLD unsigned arrive(samvolip_map *map)
{
    bool has_lock = false;
    for (unsigned turn = 0; turn < ARRIVALS && !has_lock && own() != own_spare(); turn++) {
        has_lock = pthread_mutex_trylock(&map->lock) == 0;
        if (!has_lock)
            pause_for(turn);
    }
    if (!has_lock)
        return 0;
    unsigned mine = find_lane(map, NULL);
    if (mine) {
        map->lanes[mine].owner = own();
        memset(map->lanes[mine].left, 0, sizeof map->lanes[mine].left);
        map->taken++;
    }
    unlock(map);
    return mine;
}

/* Inside: this thread's own lane, which it remembers; or 0 if it has to share one. */
static unsigned find_or_arrive(samvolip_map *map)
{
    struct thread *me = own();
    if (me == own_spare())
        return 0;
    uint64_t *id = &me->ids[map->cell];
    if (*id == map->id)
        return me->lanes[map->cell];
    unsigned mine = *id == (map->id | SHARES) ? 0 : own_lane(map);
    if (mine == 0 && map->taken < map->count - COMMON)
        mine = arrive(map);
    me->lanes[map->cell] = (uint8_t)mine;
    me->seats[map->cell] = (uint16_t)(mine * sizeof(samvolip_seat));
    *id = mine ? map->id : map->id | SHARES;
    return mine;
}

/* Inside: takes the lane from this thread. */
static void give_back(samvolip_map *map)
{
    struct thread *me = own();
    lock(map);
    unsigned mine = find_lane(map, me);
    if (mine) {
        map->lanes[mine].owner = NULL;
        map->taken--;
    }
    unlock(map);
    if (me != own_spare() && (me->ids[map->cell] & ~SHARES) == map->id)
        me->ids[map->cell] = 0;
}

void samvolip_map_leave(samvolip_map *map)
{
    if (go_inside()) {
        give_back(map);
        go_outside();
    }
}

/* From then on the thread has `spare`, in which a handler finds it inside until its block is free. */
static void thread_ends(void *given)
{
    struct thread *block = given;
    block->busy = WAITS;
    pthread_mutex_lock(&all_lock);
    for (samvolip_map *map = maps; map; map = map->after)
        give_back(map);
    pthread_mutex_unlock(&all_lock);
    spare.busy = WAITS;
    atomic_store(&here, own_spare());
    free_block(block);
    go_outside();
}

/* ---- how a call begins slowly -------------------------------------------------------------- */

/* Takes one of the lanes that threads share, until leave or rest_lane. */
static void take_shared(samvolip_map *map, uintptr_t word)
{
    struct thread *me = own();
    unsigned first = (unsigned)(samvolip_mix((uintptr_t)me / 8) >> 32);
    for (unsigned turn = 0; !me->shared; turn++) {
        lane *one = &map->lanes[1 + (first + turn) % SHARED];
        uintptr_t none = REST;
        if (atomic_compare_exchange_strong(&one->busy, &none, word))
            me->shared = one;
        else if (turn % SHARED == SHARED - 1)
            pause_for(turn / SHARED);
    }
}

/* Ends what the call does in the core; the thread is inside still. */
void rest_lane(void)
{
    struct thread *me = own();
    if (me->shared)
        atomic_store(&me->shared->busy, REST);
    me->shared = NULL;
    atomic_store(&me->busy, WAITS);
}

void leave(void)
{
    if (own()->shared)
        rest_lane();
    go_outside();
}

/* Waits until the gate lets a read in, after the moment of an exchange. It takes no lock: its thread may be within malloc, for which a fork
   waits that has the lock. */
static void wait_to_read(samvolip_map *map, unsigned share)
{
    for (unsigned turn = 0; !admits(part_of(map, is_divided(map), share), READS); turn++)
        pause_for(turn);
}

/* Waits until the gate lets a write in, and helps meanwhile by a lane of the thread's own, if it has one. */
static void wait_to_write(samvolip_map *map, unsigned share, unsigned mine)
{
    const part *into;
    lock(map);
    while (!admits(into = part_of(map, is_divided(map), share), WRITES))
        wait_or_help(map, only(place_of(map, into)), mine);
    unlock(map);
}

/* Begins a call in the part that has this share, but in the common case; NULL within another call. While the gate doesn't let it in it
   waits by no lane. */
COLD part *enter_slowly(samvolip_map *map, unsigned what, unsigned share)
{
    if (!go_inside())
        return NULL;
    for (;;) {
        unsigned mine = find_or_arrive(map);
        part *into = part_of(map, is_divided(map), share);
        if (mine)
            atomic_store(&own()->busy, busy_word(into, what));
        else
            take_shared(map, busy_word(into, what));
        if (admits(into, what))
            return into;
        rest_lane();
        void *held = let_go(map);
        if (what == READS)
            wait_to_read(map, share);
        else
            wait_to_write(map, share, mine);
        take_back(map, held);
    }
}

/* ---- all maps, and forks ------------------------------------------------------------------- */

/* All maps are at rest but for reads, and their locks held. First it is alone with all of them, which may take as long as a renewal, and
   only then it stops them, for a moment. Reads go on: a handler may have interrupted malloc, whose lock the fork waits for. */
static void before_fork(void)
{
    go_inside();
    pthread_mutex_lock(&all_lock);
    for (samvolip_map *map = maps; map; map = map->after)
        be_alone(map, EVERYWHERE, NULL, 0);
    for (samvolip_map *map = maps; map; map = map->after) {
        stop(map, parts_of(map), READS_ONLY);
        lock(map);
    }
    pthread_mutex_lock(&blocks_lock);
}

static void after_fork(void)
{
    pthread_mutex_unlock(&blocks_lock);
    for (samvolip_map *map = maps; map; map = map->after) {
        map->held = 0;
        open_gates(map, parts_of(map));
        unlock(map);
    }
    pthread_mutex_unlock(&all_lock);
    go_outside();
}

/* Nobody else is in the middle of a call: what another thread was about to read left its lane busy, and its seat in use. */
static void free_lanes(samvolip_map *map)
{
    range parts = parts_of(map);
    for (unsigned i = 0; i < map->count; i++) {
        lane *one = &map->lanes[i];
        one->busy = REST;
        if (one->owner != own())
            one->owner = NULL;
        for (unsigned place = parts.first; place < parts.end; place++)
            map->parts[place].core->seats[i].in_use = 0;
    }
    map->taken = own_lane(map) != 0;
}

/* Only this thread is left: the lanes and blocks of all others are free. */
static void after_fork_in_child(void)
{
    pthread_mutex_init(&all_lock, NULL);
    pthread_mutex_init(&blocks_lock, NULL);
    pthread_mutex_lock(&all_lock);
    begin_gate();
    for (samvolip_map *map = maps; map; map = map->after) {
        pthread_mutex_init(&map->lock, NULL);
        pthread_cond_init(&map->turned, NULL);
        lock(map);
        free_lanes(map);
    }
    free_blocks = NULL;
    for (struct thread *block = blocks; block; block = block->after)
        if (block != own())
            free_block(block);
    pthread_mutex_lock(&blocks_lock);
    after_fork();
}

/* Whether there is what all maps need. Each step is made once, and again where it had no memory, or no key was left. */
static bool begin_all(void)
{
    static bool has_key, has_objects, has_handlers;
    has_key = has_key || pthread_key_create(&at_end, thread_ends) == 0;
    has_objects = has_objects || (has_key && objects_begin_all()); /* their locks are the last ones that a fork takes */
    has_handlers = has_handlers || (has_objects && pthread_atfork(before_fork, after_fork, after_fork_in_child) == 0);
    return has_handlers;
}

static bool is_begun;

static void begin_once(void)
{
    begin_gate();
    is_begun = begin_all();
}

bool has_begun(void)
{
    static pthread_once_t once = PTHREAD_ONCE_INIT;
    pthread_once(&once, begin_once);
    pthread_mutex_lock(&all_lock);
    bool has = is_begun = is_begun || begin_all();
    pthread_mutex_unlock(&all_lock);
    return has;
}

/* From now on threads that end give their lanes back, and forks stop it. */
void enlist(samvolip_map *map)
{
    pthread_mutex_lock(&all_lock);
    map->after = maps;
    maps = map;
    pthread_mutex_unlock(&all_lock);
}

void delist(samvolip_map *map)
{
    samvolip_map **at = &maps;
    pthread_mutex_lock(&all_lock);
    while (*at != map)
        at = &(*at)->after;
    *at = map->after;
    pthread_mutex_unlock(&all_lock);
}
