/* objects.c - the pins of samvolip_objects.h, and what was retired, in C and not proved.

   A thread that pins a map notes what the map's clock shows. What it retires goes to its open batch. A full batch gets the clock's next
   tick for a stamp, and waits in the map's queue. Who collects looks at all notes, and frees the batches whose stamp is no later than
   any of them.

   An object is out of the map before its batch is stamped. So a pin whose note is that stamp, or later, began when the object was out,
   and can't have it. A pin with an earlier note may have it, and keeps the batch, if who collects sees the note. For that a pin needs a
   full fence between its note and its first look at the map, and who collects one between the stamps and his look at the notes. A pin
   has none: membarrier gives it to all threads that run. So either the note is seen, or else what the pin gets comes after the fence,
   when the object was out. ../model/pins.pml is this for spin. */
#include "objects.h"
#include <pthread.h>
#include <stdlib.h>

#define UNLIKELY(x) __builtin_expect(!!(x), 0)

enum { CELLS = 8, BATCH = 62, MANY = 8 };

typedef struct batch {
    struct batch *after; /* in the queue */
    uint64_t stamp;
    uint64_t queued_at;  /* in nanoseconds */
    atomic_ullong count; /* is stored last, so that the child of a fork finds no half of one */
    struct retired {
        void *pointer;
        void (*free)(void *);
    } all[BATCH];
} batch;

/* What a thread has of a map. When it ends another one may get it. */
typedef struct place {
    _Alignas(128) atomic_ullong note; /* what the clock showed when the thread pinned the map; 0: it doesn't */
    atomic_ullong pins;               /* that lie in one another */
    batch *_Atomic open;              /* it has room; NULL: there is none. Is stored after its count, for the child of a fork */
    atomic_ullong retired;            /* how many objects were, by this place */
    const void *_Atomic owner;        /* the thread; NULL: none; the place itself: one that ended and left its pin */
    struct place *after;
} place;

static _Thread_local struct thread {
    volatile bool is_inside;       /* in the middle of something that a handler may not do, too */
    bool frees;                    /* it calls the functions that free */
    volatile uint64_t ids[CELLS];  /* of which map it has the place there */
    place *volatile places[CELLS];
} here __attribute__((tls_model("initial-exec")));

static pthread_mutex_t lock = PTHREAD_MUTEX_INITIALIZER; /* of what all maps have; nobody takes memory with it, nor calls others */
static objects *maps;
static uint64_t opened;
static pthread_key_t at_end;

static inline objects *of_map(samvolip_map *map) { return (objects *)map; }

static bool go_inside(void)
{
    bool was_outside = !here.is_inside;
    here.is_inside = true;
    atomic_signal_fence(memory_order_seq_cst);
    return was_outside;
}

static void go_outside(void)
{
    atomic_signal_fence(memory_order_seq_cst);
    here.is_inside = false;
}

static bool begin_locked(void) { return go_inside() && pthread_mutex_lock(&lock) == 0; }

static void end_locked(void)
{
    pthread_mutex_unlock(&lock);
    go_outside();
}

/* ---- places and pins ----------------------------------------------------------------------- */

/* The place of this owner. For its own place a thread, or a handler of it, needs no lock: no place leaves the list, and the thread alone
   gets and leaves its place. */
static place *find(const objects *of, const void *owner)
{
    place *one = of->places;
    while (one && one->owner != owner)
        one = one->after;
    return one;
}

/* Inside: this thread's place, or one that another thread has left, or a new one; NULL without memory. */
static place *get_place(objects *of)
{
    pthread_mutex_lock(&lock);
    place *mine = find(of, &here);
    if (!mine && (mine = find(of, NULL))) {
        mine->owner = &here;
        of->owned++;
    }
    pthread_mutex_unlock(&lock);
    if (mine || !(mine = aligned_alloc(128, sizeof *mine)))
        return mine;
    *mine = (place){.owner = &here};
    pthread_mutex_lock(&lock);
    mine->after = of->places;
    of->places = mine;
    of->owned++;
    pthread_mutex_unlock(&lock);
    return mine;
}

/* This thread's place, where it isn't in its cell. A handler may look into the cell between any two steps; inside it leaves the cell as it
   is, and waits for no lock: a fork may have it, and wait for the call that the handler has interrupted. */
static __attribute__((cold, noinline)) place *look_for_place(objects *of)
{
    place *mine = find(of, &here);
    if (!go_inside())
        return mine;
    if (!mine && pthread_setspecific(at_end, &here) == 0)
        mine = get_place(of);
    here.ids[of->id % CELLS] = 0;
    here.places[of->id % CELLS] = mine;
    here.ids[of->id % CELLS] = mine ? of->id : 0;
    go_outside();
    return mine;
}

/* This thread's place; NULL without memory, or inside if it has none yet. The cell's id is read last: it shows if a handler has changed
   the cell. */
static inline place *own_place(objects *of)
{
    place *mine = here.places[of->id % CELLS];
    return UNLIKELY(here.ids[of->id % CELLS] != of->id) ? look_for_place(of) : mine;
}

static int refusal(void) { return here.is_inside ? SAMVOLIP_E_NESTED : SAMVOLIP_E_OUT_OF_MEMORY; }

/* A handler may pin and unpin between any two steps of these two. A note tells it that there is a pin, and not the count: so it never
   takes a pin for one that hasn't its note yet. */
int samvolip_map_pin(samvolip_map *map)
{
    objects *of = of_map(map);
    place *mine = own_place(of);
    if (UNLIKELY(!mine))
        return refusal();
    atomic_store_explicit(&mine->pins, atomic_load_explicit(&mine->pins, memory_order_relaxed) + 1, memory_order_relaxed);
    atomic_signal_fence(memory_order_seq_cst);
    if (atomic_load_explicit(&mine->note, memory_order_relaxed) == 0) {
        uint64_t clock = atomic_load_explicit(&of->clock, memory_order_acquire);
        if (has_membarrier)
            atomic_store_explicit(&mine->note, clock, memory_order_release);
        else
            atomic_exchange(&mine->note, clock);
    }
    atomic_signal_fence(memory_order_seq_cst); /* heavy_fence makes it a full one */
    return SAMVOLIP_OK;
}

void samvolip_map_unpin(samvolip_map *map)
{
    place *mine = own_place(of_map(map));
    uint64_t pins = mine ? atomic_load_explicit(&mine->pins, memory_order_relaxed) : 0;
    if (UNLIKELY(pins == 0))
        return;
    atomic_store_explicit(&mine->pins, pins - 1, memory_order_relaxed);
    atomic_signal_fence(memory_order_seq_cst);
    if (pins == 1)
        atomic_store_explicit(&mine->note, 0, memory_order_release);
}

/* ---- what was retired ---------------------------------------------------------------------- */

/* Locked: stamps a place's open batch and queues it. */
static void queue(objects *of, place *by)
{
    batch *one = by->open;
    by->open = NULL;
    if (!one)
        return;
    one->after = NULL;
    one->queued_at = nanoseconds();
    one->stamp = atomic_fetch_add(&of->clock, 1) + 1;
    *of->last = one;
    of->last = &one->after;
    of->fresh++;
}

/* Locked: the earliest note, or this one if that is earlier. */
static uint64_t earliest(const objects *of, uint64_t note)
{
    for (place *one = of->places; one; one = one->after) {
        uint64_t other = atomic_load_explicit(&one->note, memory_order_acquire);
        note = other && other < note ? other : note;
    }
    return note;
}

/* Locked: takes the batches with stamps up to this one out of the queue. */
static batch *dequeue(objects *of, uint64_t stamp)
{
    batch *taken = of->first, **end = &taken;
    while (*end && (*end)->stamp <= stamp)
        end = &(*end)->after;
    of->first = *end;
    of->last = of->first ? of->last : &of->first;
    of->fresh = 0;
    *end = NULL;
    return taken;
}

/* Frees batches and what is in them, by functions that may call the map. */
static void free_all(objects *of, batch *taken)
{
    bool freed = here.frees;
    here.frees = true;
    for (batch *one = taken; one; one = taken) {
        for (uint64_t i = 0; i < one->count; i++)
            one->all[i].free(one->all[i].pointer);
        atomic_fetch_add(&of->freed, one->count);
        taken = one->after;
        free(one);
    }
    here.frees = freed;
}

/* Outside: frees what no pin keeps of the batches that were stamped before the fence; but not within a function that frees, so that
   these don't lie in one another. */
static void collect(objects *of)
{
    if (here.frees)
        return;
    uint64_t stamp = atomic_load(&of->clock);
    heavy_fence(); /* without membarrier each pin has its own, and the lock is this one's */
    begin_locked();
    batch *taken = dequeue(of, earliest(of, stamp));
    end_locked();
    free_all(of, taken);
}

int samvolip_map_ready(samvolip_map *map)
{
    place *mine = own_place(of_map(map));
    if (!mine || here.is_inside)
        return refusal();
    go_inside();
    batch *open = mine->open;
    if (!open && (open = malloc(sizeof *open))) {
        open->count = 0;
        atomic_store_explicit(&mine->open, open, memory_order_release);
    }
    bool is_ready = open != NULL;
    go_outside();
    return is_ready ? SAMVOLIP_OK : SAMVOLIP_E_OUT_OF_MEMORY;
}

/* Inside: adds to the open batch, and says whether it is time to collect. That is after a batch of each thread, or of MANY: a fence
   costs the other threads something, too. */
static bool add(objects *of, place *mine, struct retired out)
{
    batch *open = mine->open;
    uint64_t count = open->count;
    open->all[count] = out;
    atomic_store_explicit(&mine->retired, mine->retired + 1, memory_order_release);
    atomic_store_explicit(&open->count, count + 1, memory_order_release);
    if (count + 1 < BATCH)
        return false;
    pthread_mutex_lock(&lock);
    queue(of, mine);
    bool is_time = of->fresh >= (of->owned < MANY ? of->owned : MANY);
    pthread_mutex_unlock(&lock);
    return is_time;
}

int samvolip_map_retire(samvolip_map *map, void *pointer, void (*free_function)(void *))
{
    objects *of = of_map(map);
    int code = samvolip_map_ready(map);
    if (code < 0)
        return code;
    go_inside();
    bool is_time = add(of, own_place(of), (struct retired){pointer, free_function});
    go_outside();
    if (is_time)
        collect(of);
    return SAMVOLIP_OK;
}

int samvolip_map_collect(samvolip_map *map)
{
    objects *of = of_map(map);
    if (!begin_locked())
        return SAMVOLIP_E_NESTED;
    place *mine = find(of, &here);
    if (mine)
        queue(of, mine);
    end_locked();
    collect(of);
    return SAMVOLIP_OK;
}

static inline bool has_some(const batch *one) { return one && one->count > 0; }

/* Locked: whether something waits in an open batch. All pins keep that. */
static bool has_open(const objects *of)
{
    place *one = of->places;
    while (one && !has_some(one->open))
        one = one->after;
    return one != NULL;
}

/* Locked: for how long, or longer, a pin stands that keeps something; 0: none does. It began before the first batch that it keeps was
   queued, and before a tick that is later than its note: a look makes such a tick, and notes the time of it for the next look. */
static uint64_t age_of_oldest_pin(objects *of)
{
    uint64_t note = earliest(of, UINT64_MAX), now = nanoseconds();
    batch *kept = of->first;
    while (kept && (kept->stamp <= note || !has_some(kept)))
        kept = kept->after;
    if (note == UINT64_MAX || !(kept || has_open(of)))
        return 0;
    if (note >= of->looked) {
        of->looked = atomic_fetch_add(&of->clock, 1) + 1;
        of->looked_at = now;
    }
    uint64_t since = kept && kept->queued_at < of->looked_at ? kept->queued_at : of->looked_at;
    return now > since ? now - since : 1;
}

int samvolip_map_look_at_objects(samvolip_map *map, samvolip_object_figures *figures)
{
    objects *of = of_map(map);
    if (!begin_locked())
        return SAMVOLIP_E_NESTED;
    uint64_t freed = of->freed, retired = 0;
    for (place *one = of->places; one; one = one->after)
        retired += one->retired;
    *figures = (samvolip_object_figures){retired, retired - freed, age_of_oldest_pin(of)};
    end_locked();
    return SAMVOLIP_OK;
}

/* ---- ends, forks, beginnings --------------------------------------------------------------- */

/* Locked: nobody has the place any more. A thread that ended leaves its pin behind, and the place with it. */
static void leave_place(objects *of, place *one)
{
    queue(of, one);
    one->owner = one->pins > 0 ? one : NULL;
    of->owned--;
}

static void thread_ends(void *unused)
{
    (void)unused;
    if (!begin_locked())
        return;
    for (objects *of = maps; of; of = of->after) {
        place *mine = find(of, &here);
        if (mine)
            leave_place(of, mine);
        here.ids[of->id % CELLS] = 0;
    }
    end_locked();
}

static void before_fork(void) { begin_locked(); }

/* Only this thread is left. The pins of the others are gone; what they were about to retire or to free is never freed. */
static void after_fork_in_child(void)
{
    pthread_mutex_init(&lock, NULL);
    for (objects *of = maps; of; of = of->after)
        for (place *one = of->places; one; one = one->after)
            if (one->owner && one->owner != &here && one->owner != one) {
                one->note = 0;
                one->pins = 0;
                leave_place(of, one);
            }
    go_outside();
}

bool objects_begin_all(void)
{
    static bool has_key, has_handlers;
    has_key = has_key || pthread_key_create(&at_end, thread_ends) == 0;
    has_handlers = has_handlers || (has_key && pthread_atfork(before_fork, end_locked, after_fork_in_child) == 0);
    return has_handlers;
}

void objects_begin(objects *of)
{
    of->clock = 1;
    of->last = &of->first;
    begin_locked();
    of->id = ++opened;
    of->after = maps;
    maps = of;
    end_locked();
}

void objects_end(objects *of)
{
    batch *taken;
    do {
        begin_locked();
        for (place *one = of->places; one; one = one->after)
            queue(of, one);
        taken = dequeue(of, UINT64_MAX);
        end_locked();
        free_all(of, taken);
    } while (taken);
    begin_locked();
    objects **link = &maps;
    while (*link != of)
        link = &(*link)->after;
    *link = of->after;
    end_locked();
    for (place *one = of->places, *next; one; one = next) {
        next = one->after;
        free(one);
    }
}
