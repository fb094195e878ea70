/*
 * samvolip.h - a concurrent map from whole numbers to whole numbers.
 *
 * Many threads read and write one map at the same time, and none holds up another. The library
 * behind this header is Cliff Click's non-blocking hash map, proved in Rattle; the code in the header
 * is tested. docs/c.md says what is proved, and what a caller has to keep. The header is for C99 and
 * C++11, with GCC's or Clang's builtins. samvolip.hpp is a map for C++17 over it, which any thread
 * may call.
 *
 *
 * A map in ten lines
 *
 *     samvolip_shape shape = samvolip_shape_for_keys(10000, 2);      room for 10000 keys; two seats
 *     samvolip_seat mine = SAMVOLIP_SEAT_INIT, yours = SAMVOLIP_SEAT_INIT;
 *     if (samvolip_open(&shape, &mine) || samvolip_split(&mine, &yours)) ...
 *     // yours goes to another thread; both threads call as they like:
 *     samvolip_add(&mine, 7, 1, NULL);
 *     // the other thread is joined; then the seats come together again:
 *     samvolip_ended ended = SAMVOLIP_ENDED_INIT;
 *     if (samvolip_join(&mine, &yours) || samvolip_close(&mine, &ended)) ...
 *     uint64_t size = samvolip_ended_size(&ended);
 *     samvolip_ended_free(&ended);
 *
 *
 * Rules
 *
 * Seats. A seat is the right of one thread at a time to call. Each thread calls with a seat of its
 * own. A map has as many seats as its shape says, 256 at most. samvolip_open gives all of them to
 * one handle, and samvolip_split gives one of them to another handle. There is no other way to a
 * map: no seat, no call.
 *
 * One call at a time. A seat is in one call at a time. It may go from one thread to another, if a
 * lock, a barrier, the start or the join of a thread, or a sequentially consistent atomic comes
 * between. An ended map stays on the thread that closed it.
 *
 * One map. samvolip_meet and samvolip_join take two seats of one map, and two different ones.
 *
 * Walks. A cursor is taken on by samvolip_next and samvolip_list with the handle that began it, by
 * samvolip_walk or samvolip_walk_from, and no more once that handle was joined, closed, freed or
 * renewed.
 *
 * Empty and full. A handle is a variable that the caller declares, a samvolip_seat or a
 * samvolip_ended. SAMVOLIP_SEAT_INIT or SAMVOLIP_ENDED_INIT makes it empty. So do zeros: a handle
 * whose bytes are all 0, as calloc, memset or static storage make it, is an empty one.
 * samvolip_open, samvolip_split and samvolip_close fill an empty handle. samvolip_join,
 * samvolip_close, samvolip_free and samvolip_ended_free empty a full one; the two frees take an
 * empty one, too. All other calls take a full one. So nothing is freed twice. A call after a free
 * is a call with an empty handle, which is an error of the program. Don't copy a handle: that would
 * make two seats of one.
 *
 * Keys. A key's home slot is its low bits; nothing is hashed. Keys that share their low bits, such
 * as addresses or multiples of a power of two, are searched for one after another: 20,000 keys that
 * are multiples of 65,536 take some 30 microseconds a put. Mixed by samvolip_mix before they become
 * keys, they take 0.1. samvolip_unmix turns the keys of a walk or of an ended map back.
 *
 * Pointers. No pointer is NULL, except where the call says so. What a call writes to (a value, a
 * reply, a handle, an array) overlaps nothing else that the call is given. The library keeps no
 * pointer that was passed to it.
 *
 * Refusals. A call that may be refused returns an int: 0 or 1 if it was made, and a negative enum
 * samvolip_code if it was refused. The names of these codes begin with SAMVOLIP_E_. A refused call
 * changes nothing: the map, the handles and what the caller passed are as they were. There are two
 * exceptions: SAMVOLIP_E_LOST leaves both handles empty, and SAMVOLIP_E_ROOM of samvolip_entries
 * comes with the count.
 * (For a refused write tables may have grown, which samvolip_generation shows. Its key may also
 * keep a slot without a value, so that a later new key may find less room.)
 *
 * Memory. samvolip_open reserves all tables of the map, and the map keeps them until it is freed.
 * samvolip_open, samvolip_split, samvolip_settle, samvolip_entries, samvolip_renew, samvolip_close
 * and samvolip_ended_entries take memory; no other call does. libsamvolip.so and libsamvolip.a take
 * it from the system, without a lock of their own, and tables and lists of large maps in huge pages
 * where it has some. They give it back when it is freed, but for two blocks of a size, of 2 to 16
 * MiB, while another of it is in use; those of less than 2 MiB lie together in 8 MiB of addresses,
 * which are given back with the last of them, but for two such, until a block of more than 8 MiB is
 * taken. So a handle is used with the copy of the library that opened its map.
 *
 * Versions. samvolip_open tells the library which header the program was compiled with: its version
 * and the sizes of its structs. The library takes each header of its series, from version 0.9.0 on,
 * that isn't newer than itself and has its structs. Else the call is refused with
 * SAMVOLIP_E_VERSION. There is no other way to a map.
 *
 * Signals and forks. Make no call from a signal handler, nor from the child of a fork of a process
 * with threads.
 *
 * Checks. If SAMVOLIP_CHECKED is defined before the header is included, the calls test these rules
 * as far as they can: NULL and empty handles, codes out of range, two threads in one seat, seats of
 * two maps in one call, a walk that the handle didn't begin on this map. If a rule is broken, the
 * call aborts the program, with a line on standard error that says which rule it was. Define
 * SAMVOLIP_CHECKED in all files of a program or in none.
 * Without it, nothing is tested and nothing is paid.
 */
#ifndef SAMVOLIP_H
#define SAMVOLIP_H

#include <stddef.h>
#include <stdint.h>

#ifdef __cplusplus
extern "C" {
#endif

/* Version 0.9.0, as one number. samvolip_version returns that of the library. */
#define SAMVOLIP_VERSION 0x000900u

/* The greatest key and the greatest value. */
#define SAMVOLIP_KEY_MAX (UINT64_MAX - 2)
#define SAMVOLIP_VALUE_MAX ((UINT64_C(1) << 60) - 1)

/* The most keys that samvolip_shape_for_keys makes room for. */
#define SAMVOLIP_MOST_KEYS 178956970

/* For how many turns a write by name rests after others came before it. */
#define SAMVOLIP_REST_TURNS 200

/* The most tables, seats and stripes of a map; the greatest exponent of a table; and the most slots
   of all tables together. */
#define SAMVOLIP_MAX_TABLES 16
#define SAMVOLIP_MAX_SEATS 256
#define SAMVOLIP_MAX_STRIPES 256
#define SAMVOLIP_MAX_EXPONENT 28
#define SAMVOLIP_MAX_SLOTS (1 << 30)

/* What samvolip_shape_for_keys goes by: the least exponent, by how much each exponent is above the
   one before it, the most stripes, the reprobe limit and the chunk. */
#define SAMVOLIP_FOR_KEYS_FIRST_EXPONENT 4
#define SAMVOLIP_FOR_KEYS_STEP 8
#define SAMVOLIP_FOR_KEYS_STRIPES 16
#define SAMVOLIP_FOR_KEYS_REPROBES 18
#define SAMVOLIP_FOR_KEYS_CHUNK 32

/* What samvolip_shape_for_churn goes by: the least and the greatest exponent. */
#define SAMVOLIP_CHURN_LEAST 9
#define SAMVOLIP_CHURN_GREATEST 26

/* The result of a call. */
enum samvolip_code {
    SAMVOLIP_OK = 0,      /* it was made */
    SAMVOLIP_ABSENT = 0,  /* it was made, and there was no value */
    SAMVOLIP_PRESENT = 1, /* it was made, and there was a value */

    /* what is wrong with a shape: the first of these that applies, in this order */
    SAMVOLIP_E_TABLES = -1,    /* not 1 to 16 tables */
    SAMVOLIP_E_EXPONENTS = -2, /* an exponent that isn't from 2 to 28 */
    SAMVOLIP_E_FALLING = -3,   /* a table smaller than the one before it */
    SAMVOLIP_E_SLOTS = -21,    /* more than 2^30 slots in all tables */
    SAMVOLIP_E_SEATS = -4,     /* not 1 to 256 seats */
    SAMVOLIP_E_STRIPES = -5,   /* not 1 to 256 stripes */
    SAMVOLIP_E_REPROBES = -6,  /* a reprobe limit of 0 */
    SAMVOLIP_E_CHUNK = -7,     /* a chunk that isn't a power of two from 4 to 1024 */

    SAMVOLIP_E_OUT_OF_MEMORY = -8, /* there was none */

    /* what is wrong with a call */
    SAMVOLIP_E_KEY_RANGE = -9,    /* a key past SAMVOLIP_KEY_MAX */
    SAMVOLIP_E_VALUE_RANGE = -10, /* a value past SAMVOLIP_VALUE_MAX */
    SAMVOLIP_E_WANT = -11,        /* a condition that isn't in enum samvolip_want */
    SAMVOLIP_E_CHANGE = -12,      /* a change that isn't in enum samvolip_change */

    /* why a write is refused */
    SAMVOLIP_E_FULL = -13,      /* other keys have all slots of the last table */
    SAMVOLIP_E_CONTENDED = -14, /* others wrote the key first, as often as there were tries */
    SAMVOLIP_E_SUM_RANGE = -15, /* the sum of an add is past SAMVOLIP_VALUE_MAX */

    /* why a handle isn't split, settled, renewed or closed */
    SAMVOLIP_E_NO_SEAT = -16,       /* the handle has no seat in reserve */
    SAMVOLIP_E_NOT_ALL_SEATS = -17, /* the handle doesn't have all seats of the map */

    SAMVOLIP_E_ROOM = -18, /* the array is too small */

    /* The map was given up while it was closed. A program that keeps the rules never sees this: it
       happens only if somebody has the map without having a seat. */
    SAMVOLIP_E_LOST = -19,

    SAMVOLIP_E_VERSION = -20 /* the library doesn't take the header of the program */
};

/* What a write asks of its key. */
enum samvolip_want {
    SAMVOLIP_ANY = 0,          /* nothing */
    SAMVOLIP_WANT_ABSENT = 1,  /* that there is no value */
    SAMVOLIP_WANT_PRESENT = 2, /* that there is a value */
    SAMVOLIP_EQUAL = 3,        /* that it is this one */
    SAMVOLIP_WANT_BELOW = 4    /* that there is no value, or one below this */
};

/* What a write does to its key, if the condition holds. */
enum samvolip_change {
    SAMVOLIP_PUT = 0,    /* sets it to the value */
    SAMVOLIP_REMOVE = 1, /* removes it */
    SAMVOLIP_ADD = 2     /* adds the value to what is there, or to 0 if there is none */
};

/*
 * The shape of a map. It has `tables` tables, 1 to 16. The first has 2 to the power exponents[0]
 * slots, and so on. An exponent is from 2 to 28, no table is smaller than the one before it, and
 * all tables together have 2^30 slots at most. A map grows from one table to the next when the
 * table gets crowded, and it never shrinks. The last table is the end: if other keys have all its
 * slots, a new key is refused as full. A removed key keeps its slot until its table is left.
 *
 * There are 1 to 256 `seats`. The number of keys is counted over `stripes` words, 1 to 256. As many
 * as there are writers is best for the writers; a look at the size loads each of them. A key's path
 * is its probe sequence in a table. A table that isn't the last takes a new key only in the first
 * `reprobes` slots of the key's path, and only in the first n / 4 + 2 slots of it, where n is how
 * many slots the table has. A thread that brings a new key to a table that grows helps to copy all
 * of it, `chunk` slots at a time. Large chunks take fewer steps, and small ones share the work
 * among more threads.
 */
typedef struct samvolip_shape {
    uint32_t exponents[SAMVOLIP_MAX_TABLES];
    uint32_t tables;
    uint32_t seats;
    uint32_t stripes;
    uint32_t reprobes;
    uint32_t chunk;
} samvolip_shape;

/* One thread's way to a map. The fields are the library's. */
typedef struct samvolip_seat {
    void *handle;
    uintptr_t map;   /* for the checks: which map it is of */
    uint32_t in_use; /* for the checks: whether a call is under way */
} samvolip_seat;

/* What is left of a map that was closed. The field is the library's. All calls with it are made by
   the thread that closed the map. */
typedef struct samvolip_ended {
    void *handle;
} samvolip_ended;

#define SAMVOLIP_SEAT_INIT {NULL, 0, 0}
#define SAMVOLIP_ENDED_INIT {NULL}

/* What a write found. If there was a value at its key, `before` is that value and `had` is 1;
   else both are 0. `matched` is 1 if the condition held, so that the write did what it does; else
   it is 0. */
typedef struct samvolip_reply {
    uint64_t before;
    uint32_t had;
    uint32_t matched;
} samvolip_reply;

/* A key of a map, and its value. */
typedef struct samvolip_entry {
    uint64_t key;
    uint64_t number;
} samvolip_entry;

/* How full the top table of a map is: how many of its slots were looked at, how many of these are
   taken, and 1 or 0 for whether the table is the map's last. */
typedef struct samvolip_slots {
    uint32_t taken;
    uint32_t looked;
    uint32_t is_last;
} samvolip_slots;

/* Where a walk is. samvolip_walk and samvolip_walk_from fill it. The fields are the library's, but
   `first` may be read: which table the walk's first one is. */
typedef struct samvolip_cursor {
    uint32_t first;
    uint32_t table;
    size_t slot;
    uint32_t is_over;
    uint32_t begun; /* for the checks: which handle began it, and on which map */
} samvolip_cursor;

/* What a program was compiled with: the version of its header, and the sizes of its structs. A
   binding for another language whose handles are one word gives the size of a word for these. */
typedef struct samvolip_header {
    uint32_t version;
    uint32_t shape;
    uint32_t seat;
    uint32_t ended;
    uint32_t reply;
    uint32_t entry;
    uint32_t occupancy;
    uint32_t cursor;
} samvolip_header;

#define SAMVOLIP_HEADER_INIT                                                                       \
    {SAMVOLIP_VERSION,       sizeof(samvolip_shape), sizeof(samvolip_seat),                        \
     sizeof(samvolip_ended), sizeof(samvolip_reply), sizeof(samvolip_entry),                       \
     sizeof(samvolip_slots), sizeof(samvolip_cursor)}

/*
 * A shape with room to spare for `most` different keys, and for `seats` threads. The last table has
 * half as many slots again as there are keys, or more. A put is refused as full only if other keys
 * have all slots of the last table. Each table before it has a 256th of the slots of the next one,
 * as long as that is 16 slots at least, so that a growth copies little, and a map that has few keys
 * stays in small tables. There is a stripe for each seat, up to 16. The map takes 16 bytes for each
 * slot of all tables. For more than SAMVOLIP_MOST_KEYS there is no such shape: samvolip_open refuses
 * what this returns, with SAMVOLIP_E_TABLES.
 */
static inline samvolip_shape samvolip_shape_for_keys(uint64_t most, unsigned seats)
{
    samvolip_shape shape = {{0}, 0, 0, 0, 0, 0};
    uint32_t last = 5;
    if (most > SAMVOLIP_MOST_KEYS)
        return shape;
    while ((UINT64_C(1) << last) < most + most / 2)
        last++;
    shape.seats = seats;
    shape.tables = (last - SAMVOLIP_FOR_KEYS_FIRST_EXPONENT) / SAMVOLIP_FOR_KEYS_STEP + 1;
    for (uint32_t g = 0; g < shape.tables; g++)
        shape.exponents[g] = last - SAMVOLIP_FOR_KEYS_STEP * (shape.tables - 1 - g);
    shape.stripes = seats < SAMVOLIP_FOR_KEYS_STRIPES ? seats : SAMVOLIP_FOR_KEYS_STRIPES;
    shape.reprobes = SAMVOLIP_FOR_KEYS_REPROBES;
    shape.chunk = SAMVOLIP_FOR_KEYS_CHUNK;
    return shape;
}

/*
 * A shape for keys that come and go: at most `live` keys at a time, and `ever` of them in all. Each
 * coming counts, also that of a key that was there before. All tables have one size, from 512 slots
 * on, and at least two slots for each live key. When one is full the map grows into the next, and
 * leaves the removed keys behind. So the first has n slots for new keys, and each one after it n
 * minus `live`. Together they have room for half as many keys again as `ever`. That many come before
 * a put is refused as full only if the keys' low bits are spread, as those of ids from a counter or
 * of mixed keys are: this was measured and isn't proved. The size is the smallest of which 16 tables
 * are enough. There is no reprobe limit, and a stripe for each seat, up to 16. The map takes 16
 * bytes for each slot of all tables. If there are no such tables, samvolip_open refuses what this
 * returns, with SAMVOLIP_E_TABLES: at most 2^25 keys are live, and at most 715 million come in all.
 */
static inline samvolip_shape samvolip_shape_for_churn(uint64_t live, uint64_t ever, unsigned seats)
{
    samvolip_shape shape = {{0}, 0, 0, 0, 0, 0};
    uint64_t size = UINT64_C(1) << SAMVOLIP_CHURN_LEAST, wanted, room;
    uint32_t exponent = SAMVOLIP_CHURN_LEAST;
    if (live > SAMVOLIP_MAX_SLOTS || ever > SAMVOLIP_MAX_SLOTS)
        return shape;
    wanted = ever + ever / 2;
    for (; size < 2 * live || size + (SAMVOLIP_MAX_TABLES - 1) * (size - live) < wanted; size *= 2)
        exponent++;
    if (exponent > SAMVOLIP_CHURN_GREATEST)
        return shape;
    shape.exponents[shape.tables++] = exponent;
    for (room = size; room < wanted; room += size - live)
        shape.exponents[shape.tables++] = exponent;
    shape.seats = seats;
    shape.stripes = seats < SAMVOLIP_FOR_KEYS_STRIPES ? seats : SAMVOLIP_FOR_KEYS_STRIPES;
    shape.reprobes = UINT32_MAX;
    shape.chunk = 64;
    return shape;
}

/* ---- handles ------------------------------------------------------------------------------- */

/* samvolip_open for a program with the header that `header` tells of. Use samvolip_open, which
   passes its own. */
int samvolip_open_with(const samvolip_header *header, const samvolip_shape *shape,
                       samvolip_seat *seat);

/*
 * Makes an empty map. `seat`, which is empty before, gets all seats of the map: one to call with,
 * and the others in reserve, for samvolip_split.
 *
 * Cost: memory for all tables, for a moment twice, and clearing and copying them.
 * Refused: SAMVOLIP_E_VERSION, before the shape is read; the code of what is wrong with the shape;
 * SAMVOLIP_E_OUT_OF_MEMORY.
 */
static inline int samvolip_open(const samvolip_shape *shape, samvolip_seat *seat)
{
    static const samvolip_header header = SAMVOLIP_HEADER_INIT;
    return samvolip_open_with(&header, shape, seat);
}

/*
 * Gives `other`, which is empty before, a seat that `seat` has in reserve. Any handle with seats in
 * reserve may be split.
 *
 * Cost: a few steps, and memory for a handle.
 * Refused: SAMVOLIP_E_NO_SEAT, SAMVOLIP_E_OUT_OF_MEMORY.
 */
int samvolip_split(samvolip_seat *seat, samvolip_seat *other);

/*
 * Puts all seats of `other` in the reserve of `seat`, which is of the same map. `other` is empty
 * afterwards. What `other` has seen isn't passed on: samvolip_meet does that, if it is called
 * before.
 *
 * Cost: a few steps, and a free.
 * Refused: SAMVOLIP_E_SEATS, if both together had 2^63 seats, which no two handles have.
 */
int samvolip_join(samvolip_seat *seat, samvolip_seat *other);

/*
 * With all seats of the map in `seat`: writes how many keys the map has to `size`. That is exact,
 * and no estimate. Afterwards each seat knows of all calls that were made, as if the map had been
 * closed. The map goes on, and so do the walks of `seat`.
 *
 * If several handles have the seats, join the others to one, settle that one, and split it again.
 * If the last one that was joined is split off first, and so on, each handle gets its seat again.
 *
 * Cost: a few loads, one of each stripe, a few steps for each seat, and memory for four lists of
 * seats, which is freed again.
 * Refused: SAMVOLIP_E_NOT_ALL_SEATS, SAMVOLIP_E_OUT_OF_MEMORY. Then `size` stays as it was.
 */
int samvolip_settle(samvolip_seat *seat, uint64_t *size);

/*
 * With all seats of the map in `seat`: writes all entries that the map has at this moment into the
 * caller's array, each key once and in no order, and how many there are to `count`. What is behind
 * them in the array stays. The map goes on, and so do the walks of `seat`. If the array, of `room`
 * entries, is too small, it stays as it was, but `count` is written, so that the caller can ask
 * again with more room. NULL stands for no room.
 *
 * Cost: that of a walk and of samvolip_settle, and memory for the entries.
 * Refused: SAMVOLIP_E_ROOM; SAMVOLIP_E_NOT_ALL_SEATS, SAMVOLIP_E_OUT_OF_MEMORY, and then `count`
 * stays as it was.
 */
int samvolip_entries(samvolip_seat *seat, samvolip_entry *entries, size_t room, uint64_t *count);

/* What samvolip_entries stands for in a program: the library's own function of that name takes no
   NULL. */
static inline int samvolip_entries_in_room(samvolip_seat *seat, samvolip_entry *entries,
                                           size_t room, uint64_t *count)
{
    samvolip_entry none = {0, 0};
    return samvolip_entries(seat, entries ? entries : &none, entries ? room : 0, count);
}
#define samvolip_entries samvolip_entries_in_room

/*
 * With all seats of the map in `seat`: makes a new map of a shape with the entries of the old one.
 * `seat` goes on over the new map, with all its seats, as many as the shape says. The slots of
 * removed keys are free again. The walks of `seat` end: begin new ones. If it is refused, `seat` is
 * of the old map still, whose walks go on.
 *
 * Cost: that of samvolip_entries and of samvolip_open, and of a put for each key. The memory of the
 * old map is freed in the end.
 * Refused: the code of what is wrong with the shape; SAMVOLIP_E_FULL, if the map has more keys than
 * the last table of the shape has slots; SAMVOLIP_E_NOT_ALL_SEATS, SAMVOLIP_E_OUT_OF_MEMORY.
 */
int samvolip_renew(samvolip_seat *seat, const samvolip_shape *shape);

/*
 * Ends the map of `seat`, if `seat` has all seats of the map. What is left of the map goes to
 * `ended`, which is empty before. `seat` is empty afterwards.
 *
 * Cost: a few steps for each seat, and memory for what is left.
 * Refused: SAMVOLIP_E_NOT_ALL_SEATS, SAMVOLIP_E_OUT_OF_MEMORY. SAMVOLIP_E_LOST, which a correct
 * caller never sees, leaves both handles empty.
 */
int samvolip_close(samvolip_seat *seat, samvolip_ended *ended);

/* Frees a full handle. Use samvolip_free, which takes an empty one, too. */
void samvolip_free_open(samvolip_seat *seat);

/*
 * Frees a seat. The handle is empty afterwards; an empty one stays empty. The map is freed with its
 * last handle. The seats of a handle that was freed are lost to the map: it works on, but it can't
 * be closed any more.
 */
static inline void samvolip_free(samvolip_seat *seat)
{
    if (seat->handle)
        samvolip_free_open(seat);
}

/* ---- calls --------------------------------------------------------------------------------- */

/*
 * What is at a key. It returns SAMVOLIP_PRESENT, and the value is written; or SAMVOLIP_ABSENT, and
 * 0 is written. If the call is refused, `value` stays as it was.
 *
 * Cost: wait-free. In the common case two loads. For a key that isn't there the search ends at the
 * first slot that no key has ever taken. In the last table, which keys may fill to the end, it gets
 * long: at 2^19 slots it takes 0.14 microseconds if half of them are taken, 1 to 2 if 95 % are, and
 * 1700 to 3400 if all are. Removed keys count, too.
 * Refused: SAMVOLIP_E_KEY_RANGE.
 */
int samvolip_get(samvolip_seat *seat, uint64_t key, uint64_t *value);

/*
 * What is at each of `count` keys, in their order: each is a samvolip_get of its own. values[i] is
 * what is at keys[i], or `other` if nothing is there. `room` is how many values the array holds, at
 * least `count`; those behind stay. If the call is refused, nothing happens.
 *
 * The loads of many keys are under way at once, so in a map larger than the processor's caches it
 * takes less time for each key than samvolip_get does.
 *
 * Cost: wait-free. That of samvolip_get, and one load more, for each key.
 * Refused: SAMVOLIP_E_ROOM; SAMVOLIP_E_KEY_RANGE, if one of the keys is none.
 */
int samvolip_get_many(samvolip_seat *seat, const uint64_t *keys, size_t count, uint64_t *values,
                      size_t room, uint64_t other);

/*
 * The write behind all others. If what is at the key is as `want` asks, it does what `change` says,
 * in one atomic step. `old` is the value for SAMVOLIP_EQUAL, or the limit for SAMVOLIP_WANT_BELOW.
 * `value` is the one for the change; SAMVOLIP_REMOVE doesn't read it. It returns SAMVOLIP_OK, and what it found is written to `reply`.
 * If the call is refused, `reply` stays as it was. If another thread's write of the key comes in
 * between, it tries again, `tries` times in all; 0 counts as one.
 *
 * Cost: wait-free. In the common case two loads and an exchange (a compare-and-swap), and one more
 * step on the count if a key comes or goes. A key that has no slot takes one more load and one
 * more exchange. If a new key finds its table growing, the table is copied first. If the first
 * exchange is lost, and what it found decides the write, the call rests for some microseconds.
 * Refused: SAMVOLIP_E_KEY_RANGE, SAMVOLIP_E_VALUE_RANGE, SAMVOLIP_E_WANT, SAMVOLIP_E_CHANGE,
 * SAMVOLIP_E_FULL, SAMVOLIP_E_CONTENDED, SAMVOLIP_E_SUM_RANGE.
 */
int samvolip_put_if_match(samvolip_seat *seat, uint64_t key, uint32_t want, uint64_t old,
                          uint32_t change, uint64_t value, uint32_t tries,
                          samvolip_reply *reply);

/*
 * Four writes by their names, each with `tries` as samvolip_put_if_match has them. The first puts a
 * value at a key, the second puts it if there is none, the third adds it to what is there, or to 0
 * if there is none, and the last removes the key. Each returns SAMVOLIP_PRESENT if there was a
 * value at the key, and writes that to `before`; or SAMVOLIP_ABSENT, and 0 is written. If a call
 * is refused, `before` stays as it was. samvolip_put and its like, below, are never contended, and
 * take NULL for `before`.
 *
 * Cost: that of samvolip_put_if_match in steps, and less in time, since nothing is decoded.
 * Refused: SAMVOLIP_E_KEY_RANGE, SAMVOLIP_E_CONTENDED; except for samvolip_try_remove
 * SAMVOLIP_E_VALUE_RANGE and SAMVOLIP_E_FULL; and for samvolip_try_add SAMVOLIP_E_SUM_RANGE.
 */
int samvolip_try_put(samvolip_seat *seat, uint64_t key, uint64_t value, uint32_t tries,
                     uint64_t *before);
int samvolip_try_put_if_absent(samvolip_seat *seat, uint64_t key, uint64_t value, uint32_t tries,
                               uint64_t *before);
int samvolip_try_add(samvolip_seat *seat, uint64_t key, uint64_t value, uint32_t tries,
                     uint64_t *before);
int samvolip_try_remove(samvolip_seat *seat, uint64_t key, uint32_t tries, uint64_t *before);

/*
 * The put, the add and the removal below a limit: each is made only if there is no value at the
 * key, or one below `limit`, and else leaves the key as it is. What was there is answered in any
 * case, as above: so the call was made if it returns SAMVOLIP_ABSENT, or `before` is below `limit`.
 *
 * Cost: as above. Refused: as above; a limit past the greatest value is SAMVOLIP_E_VALUE_RANGE.
 */
int samvolip_try_put_below(samvolip_seat *seat, uint64_t key, uint64_t value, uint64_t limit,
                           uint32_t tries, uint64_t *before);
int samvolip_try_add_below(samvolip_seat *seat, uint64_t key, uint64_t value, uint64_t limit,
                           uint32_t tries, uint64_t *before);
int samvolip_try_remove_below(samvolip_seat *seat, uint64_t key, uint64_t limit, uint32_t tries,
                              uint64_t *before);

/*
 * About how many keys the map has. While others write, it is no more than a guess: a sum below zero
 * counts as 0. While nobody writes, and all writes came before this call (a join or a lock orders
 * them), it is exact.
 *
 * Cost: a load for each stripe.
 */
uint64_t samvolip_size_estimate(samvolip_seat *seat);

/* What samvolip_size_estimate stands for in a program: the library's own function of that name
   answers the sum modulo 2^64. */
static inline uint64_t samvolip_size_from_0(samvolip_seat *seat)
{
    uint64_t sum = samvolip_size_estimate(seat);
    return sum <= UINT64_MAX / 2 ? sum : 0;
}
#define samvolip_size_estimate samvolip_size_from_0

/*
 * How many tables the map has left behind: from 0 to one less than the shape has.
 *
 * Cost: a load.
 */
uint32_t samvolip_generation(samvolip_seat *seat);

/*
 * How full the top table is. It looks at 1,024 of its slots, or at all of a smaller table, and
 * writes what it found. A slot is taken by a key that is there or was, or closed to keys. If the
 * table isn't the map's last, the map grows in time.
 *
 * Cost: wait-free. A load, and one for each slot that it looks at.
 */
void samvolip_occupancy(samvolip_seat *seat, samvolip_slots *found);

/*
 * Lets each of two seats of one map know all that the other has seen. What one thread has seen,
 * another sees by itself when it calls. So this is for proofs, and for two seats whose threads have
 * ended.
 *
 * Cost: six loads.
 */
void samvolip_meet(samvolip_seat *seat, samvolip_seat *other);

/*
 * Begins a walk over the map's keys, in a cursor of the caller's. Others may write the map
 * meanwhile, and so may the seat: of its calls only those end a walk that join, close, free or renew
 * it. A seat may have any number of walks at a time. There is nothing to free.
 *
 * Cost: a load.
 */
void samvolip_walk(samvolip_seat *seat, samvolip_cursor *cursor);

/*
 * The next key of a walk that this handle has begun. It returns SAMVOLIP_PRESENT, and the key and
 * its value are written; or SAMVOLIP_ABSENT, at the end of the walk and ever after. No key is
 * shown twice. Each key that the map has all the while is shown. A key that comes or goes meanwhile
 * may be shown or not. The keys come in no order.
 *
 * Cost: wait-free. If no table is being copied, a load for each slot on the way, and one more for
 * each key that has a slot. A key of a later table is looked for in the earlier ones as well.
 */
int samvolip_next(samvolip_seat *seat, samvolip_cursor *cursor, uint64_t *key, uint64_t *value);

/*
 * Begins a walk with slot `slot` of the top table, in a cursor of the caller's. Which table is the
 * top one samvolip_generation tells, and table g of the shape has 1 << exponents[g] slots. It
 * returns SAMVOLIP_PRESENT; or SAMVOLIP_ABSENT, if the table has no such slot, and then the cursor
 * stays as it was. Slot 0 makes it a walk over all keys, as samvolip_walk begins it.
 *
 * Cost: a load.
 */
int samvolip_walk_from(samvolip_seat *seat, size_t slot, samvolip_cursor *cursor);

/*
 * Goes on with a walk that this handle has begun, up to slot `end` of the walk's first table, and
 * writes what it shows into the caller's array: as many entries as there is `room` for. How many
 * they are is written to `count`. What is behind them in the array stays. It returns
 * SAMVOLIP_PRESENT if the array is full: there may be more, and the same call goes on. It returns
 * SAMVOLIP_ABSENT if the walk has come to the slot, or is beyond it. If the table has no slot
 * `end`, as with SIZE_MAX, the walk goes on through the later tables to its end. With a room of 0
 * it never gets anywhere.
 *
 * So several threads list a map together, each with a seat of its own, if one of them reckons
 * `slots` for all:
 *
 *     uint32_t top = samvolip_generation(&seat);
 *     size_t slots = (size_t)1 << shape.exponents[top];
 *
 *     size_t from = slots / threads * mine;
 *     size_t end = mine + 1 < threads ? from + slots / threads : SIZE_MAX;
 *     samvolip_walk_from(&seat, from, &cursor);
 *     do {
 *         more = samvolip_list(&seat, &cursor, end, entries, 1024, &count);
 *         ... entries[0] to entries[count - 1] ...
 *     } while (more == SAMVOLIP_PRESENT);
 *
 * A key belongs to the part that has its first place, which is in the earliest table that has the
 * key, from the walk's first one on. The last part, which goes on to the walk's end, has those of
 * later tables, too. Each part shows every key of its own that the map has all the while, and none
 * twice. If nobody writes meanwhile, all parts show together just the entries of the map, each
 * once. If others write, another table may become the top one before a part begins. So the parts fit
 * together if each cursor.first is `top`; else keys may be shown by two of them or by none.
 *
 * Cost: that of samvolip_next for each entry, without the call; and a compare for each.
 */
int samvolip_list(samvolip_seat *seat, samvolip_cursor *cursor, size_t end,
                  samvolip_entry *entries, size_t room, uint64_t *count);

/* ---- an ended map -------------------------------------------------------------------------- */

/* These calls leave the handle as it is. Like all others, they are made one at a time. */

/* How many keys the map has. */
uint64_t samvolip_ended_size(const samvolip_ended *ended);

/*
 * What is at a key, as samvolip_get.
 *
 * Refused: SAMVOLIP_E_KEY_RANGE.
 */
int samvolip_ended_get(const samvolip_ended *ended, uint64_t key, uint64_t *value);

/*
 * Writes all keys in ascending order, with their values, into the caller's array. It has room for
 * `room` entries, and there are samvolip_ended_size of them. NULL stands for no room: it is refused
 * unless the map has no keys.
 *
 * Cost: that of a search for each key and of putting them in order, and memory for them twice.
 * Refused: SAMVOLIP_E_ROOM, before anything else is done; SAMVOLIP_E_OUT_OF_MEMORY.
 */
int samvolip_ended_entries(const samvolip_ended *ended, samvolip_entry *entries, size_t room);

/* What samvolip_ended_entries stands for in a program: the library's own function of that name
   takes no NULL, and makes the list before it looks at the room. */
static inline int samvolip_ended_entries_in_room(const samvolip_ended *ended,
                                                 samvolip_entry *entries, size_t room)
{
    samvolip_entry none = {0, 0};
    if (!entries)
        room = 0;
    if (room < samvolip_ended_size(ended))
        return SAMVOLIP_E_ROOM;
    return samvolip_ended_entries(ended, entries ? entries : &none, room);
}
#define samvolip_ended_entries samvolip_ended_entries_in_room

/* Frees a full handle. Use samvolip_ended_free, which takes an empty one, too. */
void samvolip_ended_free_open(samvolip_ended *ended);

/* Frees what is left of a map. The handle is empty afterwards; an empty one stays empty. */
static inline void samvolip_ended_free(samvolip_ended *ended)
{
    if (ended->handle)
        samvolip_ended_free_open(ended);
}

/* The library's SAMVOLIP_VERSION. */
uint32_t samvolip_version(void);

/* What a code means, for people. */
static inline const char *samvolip_strerror(int code)
{
    switch (code) {
    case SAMVOLIP_OK: return "made";
    case SAMVOLIP_PRESENT: return "made, and there was a value";
    case SAMVOLIP_E_TABLES: return "number of tables out of range";
    case SAMVOLIP_E_EXPONENTS: return "exponent out of range";
    case SAMVOLIP_E_FALLING: return "a table smaller than the one before it";
    case SAMVOLIP_E_SLOTS: return "too many slots";
    case SAMVOLIP_E_SEATS: return "number of seats out of range";
    case SAMVOLIP_E_STRIPES: return "number of stripes out of range";
    case SAMVOLIP_E_REPROBES: return "reprobe limit out of range";
    case SAMVOLIP_E_CHUNK: return "chunk out of range";
    case SAMVOLIP_E_OUT_OF_MEMORY: return "out of memory";
    case SAMVOLIP_E_KEY_RANGE: return "key too large";
    case SAMVOLIP_E_VALUE_RANGE: return "value too large";
    case SAMVOLIP_E_WANT: return "no such condition";
    case SAMVOLIP_E_CHANGE: return "no such change";
    case SAMVOLIP_E_FULL: return "the map is full";
    case SAMVOLIP_E_CONTENDED: return "other writes of the key came first";
    case SAMVOLIP_E_SUM_RANGE: return "sum too large";
    case SAMVOLIP_E_NO_SEAT: return "no seat in reserve";
    case SAMVOLIP_E_NOT_ALL_SEATS: return "not all seats of the map";
    case SAMVOLIP_E_ROOM: return "the array is too small";
    case SAMVOLIP_E_LOST: return "the map was given up";
    case SAMVOLIP_E_VERSION: return "the header isn't the library's";
    default: return "no such code";
    }
}

/* ---- mixing -------------------------------------------------------------------------------- */

/* Two odd numbers whose product is 1 modulo 2^64. The first is near 2^64 over the golden ratio, as
   Fibonacci hashing takes it. */
#define SAMVOLIP_MIX_FACTOR UINT64_C(0x9e3779b97f4a7c15)
#define SAMVOLIP_MIX_INVERSE UINT64_C(0xf1de83e19937733d)

/*
 * Mixes a number, for keys that share their low bits: each low bit of the result depends on all
 * bits of the number. Different numbers have different results. Two of these are past
 * SAMVOLIP_KEY_MAX, and so no keys: those of 1504646209777642070 and of 5863696168926310861. The
 * factor is known, so somebody who chooses the numbers can choose them to collide.
 *
 * Cost: two multiplications and two changes of the order of the bytes.
 */
static inline uint64_t samvolip_mix(uint64_t number)
{
    number = __builtin_bswap64(number * SAMVOLIP_MIX_FACTOR);
    return __builtin_bswap64(number * SAMVOLIP_MIX_FACTOR);
}

/* The number that samvolip_mix made this one of. */
static inline uint64_t samvolip_unmix(uint64_t number)
{
    number = __builtin_bswap64(number) * SAMVOLIP_MIX_INVERSE;
    return __builtin_bswap64(number) * SAMVOLIP_MIX_INVERSE;
}

#ifdef __cplusplus
}
#endif

#ifdef SAMVOLIP_CHECKED
#include "samvolip_checked.h"
#endif

/* ---- a map that fills ---------------------------------------------------------------------- */

/*
 * Whether it is time for a new map: 1 if more than two thirds of the last table are taken, and else
 * 0. A taken slot stays taken, also if its key is removed. So a map in which keys come and go fills
 * up, and gets slow before it is full: that of 2^19 slots answers for a key that isn't there in
 * 0.14 microseconds while half of the slots are taken, in 1.7 at 95 percent, and in 3,400 once all
 * are. To go on, call samvolip_renew.
 *
 * Cost: that of samvolip_occupancy.
 */
static inline int samvolip_should_renew(samvolip_seat *seat)
{
    samvolip_slots found;
    samvolip_occupancy(seat, &found);
    return found.is_last && UINT64_C(3) * found.taken > UINT64_C(2) * found.looked;
}

/* ---- writes by name ------------------------------------------------------------------------ */

/*
 * The calls of java.util.concurrent.ConcurrentMap, and an add. Each is one call of the library,
 * samvolip_try_put and its like or samvolip_put_if_match, which is made again as long as other
 * writes of the key come first. So none is refused as contended. They are lock-free: only the
 * success of others costs them anything. After a write that others came before they rest for some
 * microseconds. So the others make several calls while they have the key's cache line, and threads
 * that write one key get on two to three times as fast.
 *
 * Each returns SAMVOLIP_PRESENT if there was a value at the key, and writes that to `before`. Else
 * it returns SAMVOLIP_ABSENT, and writes 0. If it is refused, `before` stays as it was. `before`
 * may be NULL. replace_if and remove_if return 1 if they did it, and else 0. The codes by which
 * each may be refused are beside it, without SAMVOLIP_.
 */

/* Lets other threads go on for a while: some microseconds. It returns 1. */
static __attribute__((cold, noinline, unused)) int samvolip_rest(void)
{
    for (int turn = 0; turn < SAMVOLIP_REST_TURNS; turn++)
        __builtin_ia32_pause();
    return 1;
}

/* The write, again as long as it is contended, and its reply. */
static inline int samvolip_write(samvolip_seat *seat, uint64_t key, uint32_t want, uint64_t old,
                                 uint32_t change, uint64_t value, samvolip_reply *reply)
{
    int code;
    do
        code = samvolip_put_if_match(seat, key, want, old, change, value, 1, reply);
    while (code == SAMVOLIP_E_CONTENDED && samvolip_rest());
    return code;
}

/* What a write found, by its reply. */
static inline int samvolip_found(const samvolip_reply *reply, uint64_t *before)
{
    if (before)
        *before = reply->before;
    return reply->had ? SAMVOLIP_PRESENT : SAMVOLIP_ABSENT;
}

/* The same write, and whether its condition held. */
static inline int samvolip_write_matched(samvolip_seat *seat, uint64_t key, uint64_t old,
                                         uint32_t change, uint64_t value)
{
    samvolip_reply reply;
    int code = samvolip_write(seat, key, SAMVOLIP_EQUAL, old, change, value, &reply);
    if (code < 0)
        return code;
    return reply.matched ? 1 : 0;
}

/* Puts a value at a key. Refused: E_KEY_RANGE, E_VALUE_RANGE, E_FULL. */
static inline int samvolip_put(samvolip_seat *seat, uint64_t key, uint64_t value,
                               uint64_t *before)
{
    uint64_t found;
    int code;
    do
        code = samvolip_try_put(seat, key, value, 1, before ? before : &found);
    while (code == SAMVOLIP_E_CONTENDED && samvolip_rest());
    return code;
}

/* Puts a value at a key that has none: SAMVOLIP_ABSENT if it did. Refused as samvolip_put. */
static inline int samvolip_put_if_absent(samvolip_seat *seat, uint64_t key, uint64_t value,
                                         uint64_t *before)
{
    uint64_t found;
    int code;
    do
        code = samvolip_try_put_if_absent(seat, key, value, 1, before ? before : &found);
    while (code == SAMVOLIP_E_CONTENDED && samvolip_rest());
    return code;
}

/* Puts a value in place of another: SAMVOLIP_PRESENT if it did. Refused: E_KEY_RANGE,
   E_VALUE_RANGE. */
static inline int samvolip_replace(samvolip_seat *seat, uint64_t key, uint64_t value,
                                   uint64_t *before)
{
    samvolip_reply reply;
    int code = samvolip_write(seat, key, SAMVOLIP_WANT_PRESENT, 0, SAMVOLIP_PUT, value, &reply);
    return code < 0 ? code : samvolip_found(&reply, before);
}

/* Puts `value` in place of `old`. Refused: E_KEY_RANGE, E_VALUE_RANGE. */
static inline int samvolip_replace_if(samvolip_seat *seat, uint64_t key, uint64_t old,
                                      uint64_t value)
{
    return samvolip_write_matched(seat, key, old, SAMVOLIP_PUT, value);
}

/* Removes a key. Refused: E_KEY_RANGE. */
static inline int samvolip_remove(samvolip_seat *seat, uint64_t key, uint64_t *before)
{
    uint64_t found;
    int code;
    do
        code = samvolip_try_remove(seat, key, 1, before ? before : &found);
    while (code == SAMVOLIP_E_CONTENDED && samvolip_rest());
    return code;
}

/* Removes a key that has this value. Refused: E_KEY_RANGE, E_VALUE_RANGE. */
static inline int samvolip_remove_if(samvolip_seat *seat, uint64_t key, uint64_t value)
{
    return samvolip_write_matched(seat, key, value, SAMVOLIP_REMOVE, 0);
}

/* Adds a value to what is at a key, or to 0 if there is none. Refused: E_KEY_RANGE,
   E_VALUE_RANGE, E_FULL, E_SUM_RANGE. */
static inline int samvolip_add(samvolip_seat *seat, uint64_t key, uint64_t value,
                               uint64_t *before)
{
    uint64_t found;
    int code;
    do
        code = samvolip_try_add(seat, key, value, 1, before ? before : &found);
    while (code == SAMVOLIP_E_CONTENDED && samvolip_rest());
    return code;
}

/*
 * Sets a key to *next if it is at *expected. NULL stands for no value. Like
 * atomic_compare_exchange it is one step, but `reply` says what was found. It is a
 * samvolip_put_if_match, with its tries and refusals.
 */
static inline int samvolip_compare_exchange(samvolip_seat *seat, uint64_t key,
                                            const uint64_t *expected, const uint64_t *next,
                                            uint32_t tries, samvolip_reply *reply)
{
    return samvolip_put_if_match(seat, key, expected ? SAMVOLIP_EQUAL : SAMVOLIP_WANT_ABSENT,
                                 expected ? *expected : 0, next ? SAMVOLIP_PUT : SAMVOLIP_REMOVE,
                                 next ? *next : 0, tries, reply);
}

/* ---- calls over calls ---------------------------------------------------------------------- */

/* These are made of the calls above, and answer as the writes by name do, except where they say
   otherwise. */

/* Whether there is a value at a key: 1 or 0. Refused: E_KEY_RANGE. */
static inline int samvolip_contains(samvolip_seat *seat, uint64_t key)
{
    uint64_t value;
    return samvolip_get(seat, key, &value);
}

/*
 * The value at a key, where `value` is put first if there is none. Either way, what is there then
 * is written to `there`, which may be NULL. It returns SAMVOLIP_ABSENT if it put the value. It is
 * one samvolip_put_if_absent, and refused as that.
 */
static inline int samvolip_get_or_insert(samvolip_seat *seat, uint64_t key, uint64_t value,
                                         uint64_t *there)
{
    uint64_t before;
    int code = samvolip_put_if_absent(seat, key, value, &before);
    if (code >= 0 && there)
        *there = code == SAMVOLIP_PRESENT ? before : value;
    return code;
}

/*
 * What samvolip_update makes of what it finds. `found` points to the value at the key, or is NULL
 * if there is none. It returns 1, and writes to `next` which value is to be there; or it returns
 * 0, and none is to be there; or it returns less than 0, which gives the update up. `context` is
 * what samvolip_update was given.
 */
typedef int samvolip_updater(void *context, const uint64_t *found, uint64_t *next);

/*
 * Reads a key, and exchanges what it finds for what `updater` makes of that. If other writes of the
 * key come first, it goes on from what they left, with `tries` exchanges in all; 0 counts as one.
 * The updater is called once for each exchange. It may make other calls with the seat, but doesn't
 * join, renew, close or free it. Less than 0, if it returns that, is what samvolip_update returns.
 *
 * Cost: that of samvolip_get and of each exchange; and the updater's.
 * Refused: E_KEY_RANGE, E_VALUE_RANGE, E_FULL; E_CONTENDED, if others came first at each try.
 */
static inline int samvolip_update(samvolip_seat *seat, uint64_t key, samvolip_updater *updater,
                                  void *context, uint32_t tries, uint64_t *before)
{
    uint64_t found, next;
    samvolip_reply reply;
    int had = samvolip_get(seat, key, &found);
    while (had >= 0) {
        int stays = updater(context, had ? &found : NULL, &next), code;
        if (stays < 0)
            return stays;
        code = samvolip_compare_exchange(seat, key, had ? &found : NULL, stays ? &next : NULL, 1,
                                         &reply);
        if (code == SAMVOLIP_OK && reply.matched)
            return samvolip_found(&reply, before);
        if (code < 0 && code != SAMVOLIP_E_CONTENDED)
            return code;
        if (tries <= 1)
            return SAMVOLIP_E_CONTENDED;
        tries--;
        had = code < 0 ? samvolip_get(seat, key, &found) : samvolip_found(&reply, &found);
    }
    return had;
}

/* Puts a value at a key, unless there is one at least as great, or at least as small: by as many
   writes as others' writes of the key make it take. */
static inline int samvolip_put_bound(samvolip_seat *seat, uint64_t key, uint64_t value,
                                     int is_greatest, uint64_t *before)
{
    samvolip_reply reply = {0, 0, 0};
    do {
        int code = samvolip_write(seat, key, reply.had ? SAMVOLIP_EQUAL : SAMVOLIP_WANT_ABSENT,
                                  reply.before, SAMVOLIP_PUT, value, &reply);
        if (code < 0)
            return code;
    } while (!reply.matched
             && !(reply.had && (is_greatest ? reply.before >= value : reply.before <= value)));
    return samvolip_found(&reply, before);
}

/* Puts a value at a key that has a smaller one or none. It is lock-free. Refused as
   samvolip_put. */
static inline int samvolip_fetch_max(samvolip_seat *seat, uint64_t key, uint64_t value,
                                     uint64_t *before)
{
    return samvolip_put_bound(seat, key, value, 1, before);
}

/* Puts a value at a key that has a greater one or none. It is lock-free. Refused as
   samvolip_put. */
static inline int samvolip_fetch_min(samvolip_seat *seat, uint64_t key, uint64_t value,
                                     uint64_t *before)
{
    return samvolip_put_bound(seat, key, value, 0, before);
}

#endif
