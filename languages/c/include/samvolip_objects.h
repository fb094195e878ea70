/*
 * samvolip_objects.h - objects at the keys of a samvolip_map, and when they are freed.
 *
 * A value of the map is the address of an object then. Who overwrites it, or removes its key, hands
 * it to the map: it is freed when no thread reads it any more. docs/endless.md tells how this works.
 *
 *     samvolip_map_pin(map);                                      a reader
 *     if (samvolip_map_get(map, 7, &value) > 0) use((struct session *)value);
 *     samvolip_map_unpin(map);
 *
 *     if (samvolip_map_ready(map) < 0) ...                        a writer
 *     if (samvolip_map_put(map, 7, (uint64_t)session, &before) > 0)
 *         samvolip_map_retire(map, (void *)before, free);
 *
 *
 * Rules
 *
 * Addresses. Those of Linux on x86-64 are less than 2^57, and a value goes up to 2^60 - 1: so it
 * has the whole pointer. One with a tag in its high bits is refused as SAMVOLIP_E_VALUE_RANGE.
 *
 * Pins. What a thread gets after it has pinned the map isn't freed before it unpins, whoever removes
 * it meanwhile. Pins of a thread nest. A pin is of its thread: what was got under it others may read,
 * as long as it stands. A pin stops nobody, but keeps what is retired while it stands: it should be
 * short. A thread that ends leaves a pin behind that it hasn't undone: from then on nothing is freed
 * that was in the map by then, or comes later, before the map is freed.
 *
 * Retiring. An object is out of the map when it is retired, and is retired once: by the call that
 * had it in `before`, or whose compare_exchange, replace_if or remove_if found it. Then it is freed
 * when all pins are gone that there were: by a thread that retires or collects, or by
 * samvolip_map_free. A thread may retire while it pins. It remembers up to 61 objects before it
 * shows them to others, and pins that begin until then keep them, too; collect, and the thread's end,
 * show them.
 *
 * A walk that is to show objects begins after the pin, and ends before it. samvolip_map_clear shows
 * `visit` what is out already, for it to retire: where memory may be refused, keys are rather removed
 * one by one, after samvolip_map_ready.
 *
 * A pin also keeps an address from coming again: a compare_exchange that expects a pointer which was
 * got under the pin finds that very object.
 *
 * Memory. A retire that was refused memory would leave the caller with an object that it can neither
 * free nor put back. So it can take its memory first: after samvolip_map_ready the next retire of
 * the thread isn't refused. A write whose ready is refused isn't made, and nothing has changed.
 *
 * The functions that free are called by any thread that retires, collects or frees the map, between
 * its calls. They may call the map, and retire. They return and do not jump out.
 *
 * Signals. A handler may pin and unpin, if its thread has pinned the map before, also in the middle
 * of any call. What it pins it unpins. It doesn't retire nor collect: in the middle of these it is
 * refused with SAMVOLIP_E_NESTED.
 *
 * Forks. The child has the pins of its thread, and those that ended threads left. What was retired it
 * frees, as the parent does, but not what other threads were about to retire or free; that goes on
 * to count as waiting.
 */
#ifndef SAMVOLIP_OBJECTS_H
#define SAMVOLIP_OBJECTS_H

#include "samvolip_map.h"

#ifdef __cplusplus
extern "C" {
#endif

/*
 * Pins the map for this thread, and undoes that. An unpin without a pin does nothing.
 *
 * Cost: some loads and two stores each; at first a lock, and memory for 128 bytes.
 * Refused: the first pin of a thread by E_OUT_OF_MEMORY, and in a handler by E_NESTED.
 */
int samvolip_map_pin(samvolip_map *map);
void samvolip_map_unpin(samvolip_map *map);

/* Takes memory for the next retire of this thread, unless it has some: 1 KiB for every 62.
   E_OUT_OF_MEMORY, E_NESTED */
int samvolip_map_ready(samvolip_map *map);

/*
 * Has `free_function` called with `pointer` once no pin keeps it. If it is refused the pointer is
 * the caller's still; after samvolip_map_ready it isn't.
 *
 * Cost: some stores; and each 62nd time a lock, and mostly a fence in all threads of the process and
 * a look at all that have pinned the map.
 * Refused: E_OUT_OF_MEMORY, E_NESTED.
 */
int samvolip_map_retire(samvolip_map *map, void *pointer, void (*free_function)(void *));

/* Frees what this thread has retired, and what others have shown, as far as no pin keeps it. The map
   does so by itself, now and then, while threads retire. E_NESTED */
int samvolip_map_collect(samvolip_map *map);

/* What was retired, and what waits. */
typedef struct samvolip_object_figures {
    uint64_t retired;    /* so many objects were, so far */
    uint64_t waiting;    /* so many of these aren't freed yet */
    uint64_t oldest_pin; /* a pin that keeps some stands for so many nanoseconds, or more; 0: none */
} samvolip_object_figures;

/* E_NESTED */
int samvolip_map_look_at_objects(samvolip_map *map, samvolip_object_figures *figures);

/* Shows each entry to `visit`, as a walk does, and takes no memory: so before samvolip_map_free all
   objects that are in the map can be freed. E_NESTED */
int samvolip_map_each(samvolip_map *map, samvolip_map_visit *visit, void *context);

#ifdef __cplusplus
}
#endif
#endif
