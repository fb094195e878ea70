/* objects.h - what a map has of objects.c: each map begins with its `objects`. And what that takes from gate.c. */
#ifndef OBJECTS_H
#define OBJECTS_H
#include "samvolip_objects.h"
#include <stdatomic.h>
#include <stdbool.h>

typedef struct objects {
    _Alignas(128) atomic_ullong clock; /* from 1 on; it ticks when a batch is queued, and at a look */
    uint64_t id;                       /* no other map of the process has it, not even later */
    struct place *_Atomic places;      /* all that threads have, or had */
    unsigned owned;                    /* how many places a thread has now */
    unsigned fresh;                    /* batches that were queued since somebody collected */
    struct batch *first, **last;       /* the queue, in the order of stamps */
    atomic_ullong freed;               /* how many objects were */
    uint64_t looked, looked_at;        /* the clock after the tick of a look, and its time in nanoseconds; 0: there was none */
    struct objects *after;             /* those of another map */
} objects;

#pragma GCC visibility push(hidden)

/* Before the first map is open: whether there is what all of them need. It may be asked again. */
bool objects_begin_all(void);

/* Of a map that is open now. */
void objects_begin(objects *of);

/* Frees all that was retired. The functions that do it may call the map still. */
void objects_end(objects *of);

/* A full fence in all threads that run, where the system has membarrier. It is registered before a map is open, and in a child. */
extern bool has_membarrier;
void heavy_fence(void);
uint64_t nanoseconds(void);

#pragma GCC visibility pop

#endif
