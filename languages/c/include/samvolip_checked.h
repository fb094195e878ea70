/* The checks of SAMVOLIP_CHECKED. samvolip.h includes this file. */
#ifndef SAMVOLIP_CHECKED_H
#define SAMVOLIP_CHECKED_H

#include <stdio.h>
#include <stdlib.h>
#include <string.h>

#ifdef __cplusplus
extern "C" {
#endif

static inline void samvolip_broken(const char *call, const char *rule)
{
    fprintf(stderr, "%s: %s\n", call, rule);
    abort();
}

static inline void samvolip_check(int holds, const char *call, const char *rule)
{
    if (!holds)
        samvolip_broken(call, rule);
}

/* Checks that the seat is full, and that this call is its only one until samvolip_leave. */
static inline void samvolip_enter(samvolip_seat *seat, const char *call)
{
    samvolip_check(seat != NULL, call, "the seat is NULL");
    samvolip_check(seat->handle != NULL, call, "the seat is empty");
    samvolip_check(!__atomic_exchange_n(&seat->in_use, 1, __ATOMIC_SEQ_CST), call,
                   "two threads are in one seat");
}

static inline void samvolip_leave(samvolip_seat *seat)
{
    __atomic_store_n(&seat->in_use, 0, __ATOMIC_SEQ_CST);
}

static inline void samvolip_enter_both(samvolip_seat *seat, samvolip_seat *other,
                                       const char *call)
{
    samvolip_check(seat != other, call, "the seats are one");
    samvolip_enter(seat, call);
    samvolip_enter(other, call);
    samvolip_check(seat->handle != other->handle, call, "the seats are copies of one");
    samvolip_check(seat->map == other->map, call, "the seats are of two maps");
}

static inline void samvolip_check_empty(const samvolip_seat *seat, const char *call)
{
    samvolip_check(seat != NULL, call, "the seat is NULL");
    samvolip_check(seat->handle == NULL, call, "the seat is full already");
}

static inline void samvolip_check_ended(const samvolip_ended *ended, const char *call)
{
    samvolip_check(ended != NULL, call, "the handle is NULL");
    samvolip_check(ended->handle != NULL, call, "the handle is empty");
}

/* How many maps the program has opened and made anew: one count for all its files. */
__attribute__((weak)) uintptr_t samvolip_checked_maps;

/* A name for a new map, from the address of what its first handle stands for and that count. Two
   maps hardly ever have one name. Then a check is missed. */
static inline uintptr_t samvolip_name_of_map(const samvolip_seat *seat)
{
    uintptr_t address;
    memcpy(&address, &seat->handle, sizeof address);
    return address + __atomic_add_fetch(&samvolip_checked_maps, 1, __ATOMIC_SEQ_CST);
}

static inline int samvolip_checked_open(const samvolip_shape *shape, samvolip_seat *seat)
{
    int code;
    samvolip_check(shape != NULL, "samvolip_open", "the shape is NULL");
    samvolip_check_empty(seat, "samvolip_open");
    code = samvolip_open(shape, seat);
    if (code == SAMVOLIP_OK) {
        seat->map = samvolip_name_of_map(seat);
        seat->in_use = 0;
    }
    return code;
}

static inline int samvolip_checked_split(samvolip_seat *seat, samvolip_seat *other)
{
    int code;
    samvolip_check_empty(other, "samvolip_split");
    samvolip_enter(seat, "samvolip_split");
    code = samvolip_split(seat, other);
    if (code == SAMVOLIP_OK) {
        other->map = seat->map;
        other->in_use = 0;
    }
    samvolip_leave(seat);
    return code;
}

static inline int samvolip_checked_join(samvolip_seat *seat, samvolip_seat *other)
{
    int code;
    samvolip_enter_both(seat, other, "samvolip_join");
    code = samvolip_join(seat, other);
    samvolip_leave(other);
    samvolip_leave(seat);
    return code;
}

static inline int samvolip_checked_settle(samvolip_seat *seat, uint64_t *size)
{
    int code;
    samvolip_check(size != NULL, "samvolip_settle", "the size is NULL");
    samvolip_enter(seat, "samvolip_settle");
    code = samvolip_settle(seat, size);
    samvolip_leave(seat);
    return code;
}

static inline int samvolip_checked_entries(samvolip_seat *seat, samvolip_entry *entries,
                                           size_t room, uint64_t *count)
{
    int code;
    samvolip_check(count != NULL, "samvolip_entries", "the count is NULL");
    samvolip_enter(seat, "samvolip_entries");
    code = samvolip_entries(seat, entries, room, count);
    samvolip_leave(seat);
    return code;
}

/* The new map gets a name of its own, so that walks of the old one are told. */
static inline int samvolip_checked_renew(samvolip_seat *seat, const samvolip_shape *shape)
{
    int code;
    samvolip_check(shape != NULL, "samvolip_renew", "the shape is NULL");
    samvolip_enter(seat, "samvolip_renew");
    code = samvolip_renew(seat, shape);
    if (code == SAMVOLIP_OK)
        seat->map = samvolip_name_of_map(seat);
    samvolip_leave(seat);
    return code;
}

static inline int samvolip_checked_close(samvolip_seat *seat, samvolip_ended *ended)
{
    int code;
    samvolip_check(ended != NULL, "samvolip_close", "the handle is NULL");
    samvolip_check(ended->handle == NULL, "samvolip_close", "the handle is full already");
    samvolip_enter(seat, "samvolip_close");
    code = samvolip_close(seat, ended);
    samvolip_leave(seat);
    return code;
}

static inline void samvolip_checked_free(samvolip_seat *seat)
{
    samvolip_check(seat != NULL, "samvolip_free", "the seat is NULL");
    if (!seat->handle)
        return;
    samvolip_enter(seat, "samvolip_free");
    samvolip_free(seat);
    samvolip_leave(seat);
}

static inline int samvolip_checked_get(samvolip_seat *seat, uint64_t key, uint64_t *value)
{
    int code;
    samvolip_check(value != NULL, "samvolip_get", "the value is NULL");
    samvolip_enter(seat, "samvolip_get");
    code = samvolip_get(seat, key, value);
    samvolip_leave(seat);
    return code;
}

static inline int samvolip_checked_get_many(samvolip_seat *seat, const uint64_t *keys, size_t count,
                                            uint64_t *values, size_t room, uint64_t other)
{
    int code;
    samvolip_check(keys != NULL && values != NULL, "samvolip_get_many", "an array is NULL");
    samvolip_enter(seat, "samvolip_get_many");
    code = samvolip_get_many(seat, keys, count, values, room, other);
    samvolip_leave(seat);
    return code;
}

static inline int samvolip_checked_put_if_match(samvolip_seat *seat, uint64_t key, uint32_t want,
                                                uint64_t old, uint32_t change, uint64_t value,
                                                uint32_t tries, samvolip_reply *reply)
{
    int code;
    samvolip_check(reply != NULL, "samvolip_put_if_match", "the reply is NULL");
    samvolip_check(want <= SAMVOLIP_WANT_BELOW, "samvolip_put_if_match", "no such condition");
    samvolip_check(change <= SAMVOLIP_ADD, "samvolip_put_if_match", "no such change");
    samvolip_enter(seat, "samvolip_put_if_match");
    code = samvolip_put_if_match(seat, key, want, old, change, value, tries, reply);
    samvolip_leave(seat);
    return code;
}

static inline int samvolip_checked_try_put(samvolip_seat *seat, uint64_t key,
                                           uint64_t value, uint32_t tries,
                                           uint64_t *before)
{
    int code;
    samvolip_check(before != NULL, "samvolip_try_put", "the value is NULL");
    samvolip_enter(seat, "samvolip_try_put");
    code = samvolip_try_put(seat, key, value, tries, before);
    samvolip_leave(seat);
    return code;
}

static inline int samvolip_checked_try_put_if_absent(samvolip_seat *seat, uint64_t key,
                                                     uint64_t value, uint32_t tries,
                                                     uint64_t *before)
{
    int code;
    samvolip_check(before != NULL, "samvolip_try_put_if_absent", "the value is NULL");
    samvolip_enter(seat, "samvolip_try_put_if_absent");
    code = samvolip_try_put_if_absent(seat, key, value, tries, before);
    samvolip_leave(seat);
    return code;
}

static inline int samvolip_checked_try_add(samvolip_seat *seat, uint64_t key,
                                           uint64_t value, uint32_t tries,
                                           uint64_t *before)
{
    int code;
    samvolip_check(before != NULL, "samvolip_try_add", "the value is NULL");
    samvolip_enter(seat, "samvolip_try_add");
    code = samvolip_try_add(seat, key, value, tries, before);
    samvolip_leave(seat);
    return code;
}

static inline int samvolip_checked_try_remove(samvolip_seat *seat, uint64_t key, uint32_t tries,
                                              uint64_t *before)
{
    int code;
    samvolip_check(before != NULL, "samvolip_try_remove", "the value is NULL");
    samvolip_enter(seat, "samvolip_try_remove");
    code = samvolip_try_remove(seat, key, tries, before);
    samvolip_leave(seat);
    return code;
}

static inline int samvolip_checked_try_put_below(samvolip_seat *seat, uint64_t key,
                                                 uint64_t value, uint64_t limit,
                                                 uint32_t tries, uint64_t *before)
{
    int code;
    samvolip_check(before != NULL, "samvolip_try_put_below", "the value is NULL");
    samvolip_enter(seat, "samvolip_try_put_below");
    code = samvolip_try_put_below(seat, key, value, limit, tries, before);
    samvolip_leave(seat);
    return code;
}

static inline int samvolip_checked_try_add_below(samvolip_seat *seat, uint64_t key,
                                                 uint64_t value, uint64_t limit,
                                                 uint32_t tries, uint64_t *before)
{
    int code;
    samvolip_check(before != NULL, "samvolip_try_add_below", "the value is NULL");
    samvolip_enter(seat, "samvolip_try_add_below");
    code = samvolip_try_add_below(seat, key, value, limit, tries, before);
    samvolip_leave(seat);
    return code;
}

static inline int samvolip_checked_try_remove_below(samvolip_seat *seat, uint64_t key,
                                                    uint64_t limit, uint32_t tries,
                                                    uint64_t *before)
{
    int code;
    samvolip_check(before != NULL, "samvolip_try_remove_below", "the value is NULL");
    samvolip_enter(seat, "samvolip_try_remove_below");
    code = samvolip_try_remove_below(seat, key, limit, tries, before);
    samvolip_leave(seat);
    return code;
}

static inline uint64_t samvolip_checked_size_estimate(samvolip_seat *seat)
{
    uint64_t size;
    samvolip_enter(seat, "samvolip_size_estimate");
    size = samvolip_size_estimate(seat);
    samvolip_leave(seat);
    return size;
}

static inline uint32_t samvolip_checked_generation(samvolip_seat *seat)
{
    uint32_t generation;
    samvolip_enter(seat, "samvolip_generation");
    generation = samvolip_generation(seat);
    samvolip_leave(seat);
    return generation;
}

static inline void samvolip_checked_occupancy(samvolip_seat *seat, samvolip_slots *found)
{
    samvolip_check(found != NULL, "samvolip_occupancy", "what is found is NULL");
    samvolip_enter(seat, "samvolip_occupancy");
    samvolip_occupancy(seat, found);
    samvolip_leave(seat);
}

static inline void samvolip_checked_meet(samvolip_seat *seat, samvolip_seat *other)
{
    samvolip_enter_both(seat, other, "samvolip_meet");
    samvolip_meet(seat, other);
    samvolip_leave(other);
    samvolip_leave(seat);
}

/* A name for the walks of a full handle on its map, which is never 0. Two handles hardly ever have
   one name. Then a check is missed. */
static inline uint32_t samvolip_name_of_walks(const samvolip_seat *seat)
{
    uintptr_t address;
    memcpy(&address, &seat->handle, sizeof address);
    return ((samvolip_mix(samvolip_mix(address) ^ seat->map) >> 32) & UINT32_MAX) | 1;
}

/* The library may write what is behind its part of a cursor, so the name is written anew. */
static inline void samvolip_checked_walk(samvolip_seat *seat, samvolip_cursor *cursor)
{
    samvolip_check(cursor != NULL, "samvolip_walk", "the cursor is NULL");
    samvolip_enter(seat, "samvolip_walk");
    samvolip_walk(seat, cursor);
    cursor->begun = samvolip_name_of_walks(seat);
    samvolip_leave(seat);
}

static inline int samvolip_checked_next(samvolip_seat *seat, samvolip_cursor *cursor,
                                        uint64_t *key, uint64_t *value)
{
    int code;
    samvolip_check(cursor != NULL, "samvolip_next", "the cursor is NULL");
    samvolip_check(key != NULL && value != NULL, "samvolip_next", "the key or value is NULL");
    samvolip_enter(seat, "samvolip_next");
    samvolip_check(cursor->begun == samvolip_name_of_walks(seat), "samvolip_next",
                   "the handle has begun no such walk on this map");
    code = samvolip_next(seat, cursor, key, value);
    cursor->begun = samvolip_name_of_walks(seat);
    samvolip_leave(seat);
    return code;
}

static inline int samvolip_checked_walk_from(samvolip_seat *seat, size_t slot,
                                             samvolip_cursor *cursor)
{
    int code;
    samvolip_check(cursor != NULL, "samvolip_walk_from", "the cursor is NULL");
    samvolip_enter(seat, "samvolip_walk_from");
    code = samvolip_walk_from(seat, slot, cursor);
    if (code == SAMVOLIP_PRESENT)
        cursor->begun = samvolip_name_of_walks(seat);
    samvolip_leave(seat);
    return code;
}

static inline int samvolip_checked_list(samvolip_seat *seat, samvolip_cursor *cursor, size_t end,
                                        samvolip_entry *entries, size_t room, uint64_t *count)
{
    int code;
    samvolip_check(cursor != NULL, "samvolip_list", "the cursor is NULL");
    samvolip_check(entries != NULL && count != NULL, "samvolip_list",
                   "the array or the count is NULL");
    samvolip_enter(seat, "samvolip_list");
    samvolip_check(cursor->begun == samvolip_name_of_walks(seat), "samvolip_list",
                   "the handle has begun no such walk on this map");
    code = samvolip_list(seat, cursor, end, entries, room, count);
    cursor->begun = samvolip_name_of_walks(seat);
    samvolip_leave(seat);
    return code;
}

static inline uint64_t samvolip_checked_ended_size(const samvolip_ended *ended)
{
    samvolip_check_ended(ended, "samvolip_ended_size");
    return samvolip_ended_size(ended);
}

static inline int samvolip_checked_ended_get(const samvolip_ended *ended, uint64_t key,
                                             uint64_t *value)
{
    samvolip_check(value != NULL, "samvolip_ended_get", "the value is NULL");
    samvolip_check_ended(ended, "samvolip_ended_get");
    return samvolip_ended_get(ended, key, value);
}

static inline int samvolip_checked_ended_entries(const samvolip_ended *ended,
                                                 samvolip_entry *entries, size_t room)
{
    samvolip_check_ended(ended, "samvolip_ended_entries");
    return samvolip_ended_entries(ended, entries, room);
}

#ifdef __cplusplus
}
#endif

#define samvolip_open samvolip_checked_open
#define samvolip_split samvolip_checked_split
#define samvolip_join samvolip_checked_join
#define samvolip_settle samvolip_checked_settle
#undef samvolip_entries
#define samvolip_entries samvolip_checked_entries
#define samvolip_renew samvolip_checked_renew
#define samvolip_close samvolip_checked_close
#define samvolip_free samvolip_checked_free
#define samvolip_get samvolip_checked_get
#define samvolip_get_many samvolip_checked_get_many
#define samvolip_put_if_match samvolip_checked_put_if_match
#define samvolip_try_put samvolip_checked_try_put
#define samvolip_try_put_if_absent samvolip_checked_try_put_if_absent
#define samvolip_try_add samvolip_checked_try_add
#define samvolip_try_remove samvolip_checked_try_remove
#define samvolip_try_put_below samvolip_checked_try_put_below
#define samvolip_try_add_below samvolip_checked_try_add_below
#define samvolip_try_remove_below samvolip_checked_try_remove_below
#undef samvolip_size_estimate
#define samvolip_size_estimate samvolip_checked_size_estimate
#define samvolip_generation samvolip_checked_generation
#define samvolip_occupancy samvolip_checked_occupancy
#define samvolip_meet samvolip_checked_meet
#define samvolip_walk samvolip_checked_walk
#define samvolip_next samvolip_checked_next
#define samvolip_walk_from samvolip_checked_walk_from
#define samvolip_list samvolip_checked_list
#define samvolip_ended_size samvolip_checked_ended_size
#define samvolip_ended_get samvolip_checked_ended_get
#undef samvolip_ended_entries
#define samvolip_ended_entries samvolip_checked_ended_entries

#endif
