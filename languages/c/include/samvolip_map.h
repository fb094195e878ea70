/*
 * samvolip_map.h - a concurrent map without an end, which any thread may call.
 *
 * Underneath is the map of samvolip.h, which is proved. That one has an end: all its tables are
 * reserved when it is opened, a removed key keeps its slot, and only threads with a seat may call.
 * This one puts a new map in its place when it gets full, larger or smaller, and gives each thread
 * its seat. This layer is C: its protocol is model-checked, its code is tested, and docs/endless.md
 * says which is which. Where values are addresses of objects, samvolip_objects.h frees them.
 *
 *
 * Keys and values are whole numbers: a key up to SAMVOLIP_KEY_MAX, a value up to SAMVOLIP_VALUE_MAX.
 *
 *
 * A map in four lines
 *
 *     samvolip_map *map;
 *     if (samvolip_map_open(NULL, &map)) ...
 *     samvolip_map_add(map, 7, 1, NULL);      from any thread
 *     samvolip_map_free(map);
 *
 *
 * Rules
 *
 * Threads. Any thread may call, any number of threads at a time. At its first call a thread gets a
 * seat of its own, if there is one (`threads` in the options), and gives it back when it ends.
 * Threads beyond these share six seats: a call then takes one of them, and waits while others have
 * all six. A thread that shares gets a seat of its own once one is free.
 *
 * Renewals. A write that finds the map two thirds full, or far too large for its keys, puts a new
 * map in its place. Other writes wait meanwhile, and those threads help to copy. Reads go on, but
 * for the moment of the exchange. No reply shows a renewal. A renewal that is refused memory leaves
 * the map as it was. From 2^17 slots on a map is in eight parts, by bits of the key, of which each
 * is renewed for itself: then the writes of that part alone wait.
 *
 * Keys are mixed with a secret that is drawn when the map is opened, so that keys which somebody
 * else chooses don't pile up in few places. `keys` in the options says otherwise: SAMVOLIP_KEYS_MIXED
 * takes samvolip_mix, whose factor is known; SAMVOLIP_KEYS_AS_THEY_ARE mixes nothing, which is best
 * for keys whose low bits are spread, as those of a counter are.
 *
 * Refusals. A call returns 0 or 1 if it was made, and a negative code if it was refused. A refused
 * call changes nothing. The codes are those of samvolip.h, and SAMVOLIP_E_NESTED and
 * SAMVOLIP_E_OPTIONS. SAMVOLIP_E_OUT_OF_MEMORY of a write means that its key needs a slot, that all
 * of its part are taken, and that a renewal is refused memory: by the system, by `memory` of the
 * options, or since it would need more than 2^28 slots. No call is refused as full or contended, nor
 * for want of a seat.
 *
 * Signals. A handler that interrupts its thread in the middle of a call of any such map is refused
 * with SAMVOLIP_E_NESTED. Else it may read, and change the value of a key that is there, if its
 * stack has 8 KiB to spare. All other calls, a removal among them, and a first call of a thread may
 * take memory or wait for a thread that does; so a handler that may interrupt malloc or free doesn't
 * make them. In a program that forks such a handler only reads: a fork stops writes and waits for
 * malloc. A handler neither opens, frees nor leaves a map, ends no walk, and doesn't jump out of a
 * call that it interrupted. A thread isn't cancelled asynchronously in the middle of a call; calls
 * are no cancellation points.
 *
 * Forks. The child of a fork has a map of its own, as the other was between two calls, and may call
 * it. Walks of other threads go on in the parent alone; what they hold is the child's for good.
 * Make no fork in the middle of a call, as a handler could. A fork waits for calls that are under
 * way, and for renewals, of all maps; then it stops writes of all maps for a moment, and reads go
 * on: a thread that has a lock which a fork handler of the program takes makes no call, unless that
 * handler was registered after the first map was opened. The child of a raw clone makes no call.
 *
 * Filters of system calls. A process that may not call membarrier when it opens its first map has
 * maps whose calls take longer. Where it is refused later, the next renewal, exact size, list,
 * clear, fork or look for objects that can be freed says so on standard error and ends the process
 * by abort: calls that are under way count on it. So a filter comes before the first map, or allows
 * membarrier.
 *
 * Plugins. The archive isn't unloaded from a process whose threads have called a map: a shared
 * object with the archive in it is linked by -Wl,-z,nodelete, as libsamvolip.so is. Each copy of the
 * library takes 160 bytes of the static thread-local storage that the C library keeps for shared
 * objects which are loaded later: of glibc 2.36 ten copies get some.
 *
 * Pointers are not NULL, but for `options`, `before`, `there` and `visit`.
 */
#ifndef SAMVOLIP_MAP_H
#define SAMVOLIP_MAP_H

#include "samvolip.h"

#ifdef __cplusplus
extern "C" {
#endif

/* Why a call is refused, beside the codes of samvolip.h. */
enum samvolip_map_code {
    SAMVOLIP_E_NESTED = -22,     /* in the middle of a call of its own thread: by a signal handler */
    SAMVOLIP_E_OPTIONS = -23,    /* an option that is out of its range */
    SAMVOLIP_E_WOULD_WAIT = -24, /* a call that doesn't wait would have to */
    SAMVOLIP_E_MAY_SCAN = -25    /* the same, since it may have to look at all slots of a table */
};

/* What becomes of a key before it is looked for. */
enum samvolip_keys {
    SAMVOLIP_KEYS_SECRET = 0,       /* it is mixed with a secret of the map */
    SAMVOLIP_KEYS_MIXED = 1,        /* it is mixed by samvolip_mix */
    SAMVOLIP_KEYS_AS_THEY_ARE = 2   /* nothing */
};

/* The most threads with a seat of their own. */
#define SAMVOLIP_MAP_MOST_THREADS 240

/* How a map is opened. 0 stands for the default, which is told last. */
typedef struct samvolip_map_options {
    uint64_t room;    /* for how many keys there is room at first, and at least: 1000 */
    uint64_t memory;  /* how many bytes the tables take at most, with the new ones of renewals: any. At
                         least two first tables, with the default room 64 KiB: a table has 16 bytes a
                         slot, and the first one 32 slots, or the next power of 2 from 3/2 of room on */
    uint32_t growth;  /* a renewal makes room for so many times the keys that there are, 2 to 64: 4;
                         it makes twice as much from 2,000 keys on, until the map is in parts, but
                         not by hand */
    uint32_t threads; /* how many threads have a seat of their own, up to 240: 64 */
    uint32_t keys;    /* an enum samvolip_keys */
} samvolip_map_options;

#define SAMVOLIP_MAP_OPTIONS_INIT {0, 0, 0, 0, 0}

/* What happened so far, and how large the map is. Times are in nanoseconds. */
typedef struct samvolip_map_figures {
    uint64_t renewals;     /* that were made, also of one part; a clear is none */
    uint64_t refused;      /* renewals that were refused memory */
    uint64_t write_stop;   /* the longest time that writes had to wait for a renewal or the like */
    uint64_t read_stop;    /* the same of reads */
    uint64_t all_stops;    /* all those times of writes together; those of parts may overlap */
    uint64_t slots;        /* of the tables in use; each takes 16 bytes */
    uint64_t keys;         /* about how many there are */
    uint64_t own_threads;  /* threads that have a seat of their own */
} samvolip_map_figures;

typedef struct samvolip_map samvolip_map;
typedef struct samvolip_map_walk samvolip_map_walk;

/* samvolip_map_open for a program with a header of this version, whose options and figures have
   these sizes. Use samvolip_map_open, which passes its own. */
int samvolip_map_open_with(uint32_t version, size_t options_size, size_t figures_size,
                           const samvolip_map_options *options, samvolip_map **map);

/*
 * Makes an empty map. NULL stands for the defaults.
 *
 * Cost: memory for a table, of 32 KiB by default, some 250 bytes for each of the `threads`, and some
 * 10 KiB. In parts it is some 250 bytes for each of these in each part.
 * Refused: E_VERSION, E_OPTIONS, E_OUT_OF_MEMORY.
 */
static inline int samvolip_map_open(const samvolip_map_options *options, samvolip_map **map)
{
    return samvolip_map_open_with(SAMVOLIP_VERSION, sizeof(samvolip_map_options),
                                  sizeof(samvolip_map_figures), options, map);
}

/* Which option is out of its range, as E_OPTIONS says, and what that is, for people; or NULL, as for options that are NULL. */
const char *samvolip_map_wrong_option(const samvolip_map_options *options);

/* Frees a map, after the last call and the last walk have ended. Threads that called it may go on,
   and end later. NULL is no map. */
void samvolip_map_free(samvolip_map *map);

/*
 * For an interpreter whose threads take turns by a lock. Before a call of one key, or a guess of the size, waits for a renewal or
 * makes one, it calls `let_go`, and after that `take_back` with what `let_go` returned. So do those that make such calls: those of
 * many keys, samvolip_map_update, samvolip_map_look. No other call does. Neither may call a map. It is said before other threads
 * know the map.
 */
void samvolip_map_lets_go(samvolip_map *map, void *(*let_go)(void), void (*take_back)(void *));

/* Gives back this thread's seat before the thread ends. It may call again later. */
void samvolip_map_leave(samvolip_map *map);

/* ---- calls --------------------------------------------------------------------------------- */

/*
 * The calls of samvolip.h of the same names: each is one step on the map, and returns
 * SAMVOLIP_PRESENT if there was a value at the key, which is written to `value`, `before` or
 * `there`, or else SAMVOLIP_ABSENT, and 0 is written. What is refused, beside E_KEY_RANGE and
 * E_NESTED, is beside each, without SAMVOLIP_.
 *
 * Cost: that of the call of samvolip.h, two stores and some loads, and two multiplications to mix
 * the key; and of a first call of a thread a lock. get waits for nobody, but for the moment of an
 * exchange, and in a thread without a seat of its own. Writes wait for a renewal.
 */
int samvolip_map_get(samvolip_map *map, uint64_t key, uint64_t *value);

/* 1 or 0. */
int samvolip_map_contains(samvolip_map *map, uint64_t key);

/* E_VALUE_RANGE, E_OUT_OF_MEMORY */
int samvolip_map_put(samvolip_map *map, uint64_t key, uint64_t value, uint64_t *before);
int samvolip_map_put_if_absent(samvolip_map *map, uint64_t key, uint64_t value, uint64_t *before);
int samvolip_map_get_or_insert(samvolip_map *map, uint64_t key, uint64_t value, uint64_t *there);
int samvolip_map_fetch_max(samvolip_map *map, uint64_t key, uint64_t value, uint64_t *before);
int samvolip_map_fetch_min(samvolip_map *map, uint64_t key, uint64_t value, uint64_t *before);

/* E_VALUE_RANGE, E_SUM_RANGE, E_OUT_OF_MEMORY */
int samvolip_map_add(samvolip_map *map, uint64_t key, uint64_t value, uint64_t *before);

/* E_VALUE_RANGE. The second returns 1 if it did it, and else 0. */
int samvolip_map_replace(samvolip_map *map, uint64_t key, uint64_t value, uint64_t *before);
int samvolip_map_replace_if(samvolip_map *map, uint64_t key, uint64_t old, uint64_t value);

int samvolip_map_remove(samvolip_map *map, uint64_t key, uint64_t *before);

/* 1 if it did it, and else 0. E_VALUE_RANGE */
int samvolip_map_remove_if(samvolip_map *map, uint64_t key, uint64_t value);

/* Sets a key to *next if it is at *expected; NULL stands for no value. It returns SAMVOLIP_OK, and
   `reply` says what was found. E_VALUE_RANGE, E_OUT_OF_MEMORY */
int samvolip_map_compare_exchange(samvolip_map *map, uint64_t key, const uint64_t *expected,
                                  const uint64_t *next, samvolip_reply *reply);

/*
 * Exchanges what is at a key for what `updater` makes of it, as samvolip_update does, and again as
 * long as others' writes of the key come first. The updater is called between calls, so it may call
 * the map. Less than 0, if it returns that, is what samvolip_map_update returns.
 * E_VALUE_RANGE, E_OUT_OF_MEMORY
 */
int samvolip_map_update(samvolip_map *map, uint64_t key, samvolip_updater *updater, void *context,
                        uint64_t *before);

/* ---- the whole map ------------------------------------------------------------------------- */

/* How many keys there are. Exact: it waits for renewals that are under way, and then writes wait for some microseconds. */
int samvolip_map_size(samvolip_map *map, uint64_t *size);

/* About how many: a guess while others write, and exact while nobody does. A load for each of
   sixteen words at most, in each part. */
int samvolip_map_size_estimate(samvolip_map *map, uint64_t *size);

typedef void samvolip_map_visit(void *context, uint64_t key, uint64_t value);

/* Removes all keys in one step; then shows each of them to `visit`, unless that is NULL. Others may
   call meanwhile, and so may `visit`, which returns and does not jump out. E_OUT_OF_MEMORY */
int samvolip_map_clear(samvolip_map *map, samvolip_map_visit *visit, void *context);

/*
 * All entries of one moment, each key once and in no order. How many there are is written to
 * `count`. If the array, of `room` entries, is too small, it stays as it was: ask again, with some
 * more room than `count`, since others may add keys. Writes wait meanwhile, and those threads help;
 * reads go on. E_ROOM
 */
int samvolip_map_snapshot(samvolip_map *map, samvolip_entry *entries, size_t room, size_t *count);

/* A renewal by hand, with room for so many keys, or for those that there are, if these are more; 0
   stands for what the options say, with less growth if memory is refused. It gives up the slots of
   removed keys. E_OUT_OF_MEMORY */
int samvolip_map_renew(samvolip_map *map, uint64_t room);

int samvolip_map_look(samvolip_map *map, samvolip_map_figures *figures);

/* ---- walks --------------------------------------------------------------------------------- */

/*
 * A walk over the keys: any number at once, nested or not, each by one thread at a time. Others may
 * write meanwhile, and so may the thread. A walk stays with the tables in which it began: after a
 * renewal or a clear it shows what there was then. So no key is shown twice; each key that the map
 * has all the while is shown; and with each key a value that it had at some moment of the walk.
 *
 * samvolip_map_walk_next returns SAMVOLIP_PRESENT, and a key and its value are written; or
 * SAMVOLIP_ABSENT at the end.
 *
 * Cost: memory for 128 entries; a load for each slot on the way, and a lock for every 128 slots. The
 * tables in which it began are kept until it ends, beside those that `memory` in the options bounds.
 * Refused: E_NESTED; and by the first E_OUT_OF_MEMORY.
 */
int samvolip_map_walk_begin(samvolip_map *map, samvolip_map_walk **walk);
int samvolip_map_walk_next(samvolip_map_walk *walk, uint64_t *key, uint64_t *value);
void samvolip_map_walk_end(samvolip_map_walk *walk);

/* The next entries of a walk, as many as there is room for, and fewer at its end alone. It returns how many they are, or E_NESTED. */
int samvolip_map_walk_some(samvolip_map_walk *walk, samvolip_entry *entries, int room);

/* ---- answers in one word ------------------------------------------------------------------- */

/* The same calls, for languages in which it costs much to pass a pointer. Each returns the value that it would write, SAMVOLIP_NONE
   in place of SAMVOLIP_ABSENT, or the code of a refusal. */
#define SAMVOLIP_NONE INT64_MIN
int64_t samvolip_map_get_word(samvolip_map *map, uint64_t key);
int64_t samvolip_map_put_word(samvolip_map *map, uint64_t key, uint64_t value);
int64_t samvolip_map_put_if_absent_word(samvolip_map *map, uint64_t key, uint64_t value);
int64_t samvolip_map_fetch_max_word(samvolip_map *map, uint64_t key, uint64_t value);
int64_t samvolip_map_fetch_min_word(samvolip_map *map, uint64_t key, uint64_t value);
int64_t samvolip_map_add_word(samvolip_map *map, uint64_t key, uint64_t value);
int64_t samvolip_map_replace_word(samvolip_map *map, uint64_t key, uint64_t value);
int64_t samvolip_map_remove_word(samvolip_map *map, uint64_t key);
/* A get for who holds others up meanwhile, such as a virtual machine that waits for its threads. It waits for nobody, and doesn't look
   at many slots: else it is E_WOULD_WAIT, or E_MAY_SCAN where `memory` is bounded or a renewal was refused. Then nothing was done, and
   samvolip_map_get_word is the call to make. */
int64_t samvolip_map_try_get_word(samvolip_map *map, uint64_t key);

int64_t samvolip_map_size_word(samvolip_map *map);
int64_t samvolip_map_size_estimate_word(samvolip_map *map);

/* ---- many keys ----------------------------------------------------------------------------- */

/* The calls put, add and get for so many keys, one after another, each a step of its own. `values` has a value for each key; of the
   last one they are written there, `other` where there is none. Each returns how many calls were made: fewer than `count` if the next
   one is refused. The same call for that key alone says why. */
int64_t samvolip_map_put_many(samvolip_map *map, const uint64_t *keys, const uint64_t *values, uint64_t count);
int64_t samvolip_map_add_many(samvolip_map *map, const uint64_t *keys, const uint64_t *values, uint64_t count);
int64_t samvolip_map_get_many(samvolip_map *map, const uint64_t *keys, uint64_t *values, uint64_t count, uint64_t other);

/* samvolip_map_get_many by gets as samvolip_map_try_get_word makes them: it stops before one that would wait or may take long, too. */
int64_t samvolip_map_try_get_many(samvolip_map *map, const uint64_t *keys, uint64_t *values, uint64_t count, uint64_t other);

/* ------------------------------------------------------------------------------------------- */

/* What a code means, for people. */
static inline const char *samvolip_map_strerror(int code)
{
    switch (code) {
    case SAMVOLIP_E_NESTED: return "in the middle of a call of its own thread";
    case SAMVOLIP_E_OPTIONS: return "an option out of range";
    case SAMVOLIP_E_WOULD_WAIT: return "it would have to wait";
    case SAMVOLIP_E_MAY_SCAN: return "it may have to look at all slots";
    default: return samvolip_strerror(code);
    }
}

#ifdef __cplusplus
}
#endif
#endif
