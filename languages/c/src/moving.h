/* moving.h - a map that grows and shrinks, in which no call of a key waits for another thread, whatever that does: it may stand still for
   good in the middle of a call. (But where all lanes are taken: see `lanes`.) It isn't installed, and nothing installed uses it yet. As yet
   it ends at 2^28 slots, and after a fork the child must not call it. docs/migration.md tells the protocol, and migration.h how the files
   beside it share the work. Keys go up to SAMVOLIP_KEY_MAX, and are taken as they are; numbers go up to SAMVOLIP_CORE_USER_MAX. */
#ifndef MOVING_H
#define MOVING_H
#include "samvolip_map.h"

/* How a map is opened. 0 stands for the default, which is told last. */
struct moving_options {
    uint64_t memory; /* how many bytes its cores take at most: any */
    uint32_t slots;  /* of the first core, a power of two from 4 to 2^28, and of each later one at least: 1,024 */
    uint32_t lanes;  /* how many threads have a lane of their own, up to 240: 64. All others share as many as there are processors,
                        and six at least: while they have taken all of these the next one waits */
};

/* How large the map is, and what happened so far. */
struct moving_figures {
    uint64_t cores;   /* that there are */
    uint64_t hazards; /* lanes' words that say which core a call is in */
    uint64_t retired; /* cores on the list of those to be freed */
    uint64_t bytes;   /* that the cores take */
    uint64_t moves;   /* that have begun */
    uint64_t owners;  /* threads that have a lane of their own */
};

struct moving_map;

/* An empty map, or NULL: an option is out of its range, or memory is refused. */
struct moving_map *moving_open(struct moving_options options);

/* Frees a map, after the last call has ended. Threads that called it may go on, and end later. NULL is no
   map. */
void moving_close(struct moving_map *map);

/* Gives back this thread's lane before the thread ends. It may call again later. */
void moving_leave(struct moving_map *map);

void moving_look(struct moving_map *map, struct moving_figures *figures);

/* The calls of samvolip_map.h of the same names, with their replies and refusals. E_OUT_OF_MEMORY is an answer of each write: a key's
   number may have to go to a core for which there is no memory. A handler that interrupts its thread in the middle of a call is refused
   as SAMVOLIP_E_NESTED. `before`, `there` may be NULL. */
int moving_get(struct moving_map *map, uint64_t key, uint64_t *number);
int moving_put(struct moving_map *map, uint64_t key, uint64_t number, uint64_t *before);
int moving_put_if_absent(struct moving_map *map, uint64_t key, uint64_t number, uint64_t *before);
int moving_get_or_insert(struct moving_map *map, uint64_t key, uint64_t number, uint64_t *there);
int moving_add(struct moving_map *map, uint64_t key, uint64_t number, uint64_t *before);
int moving_fetch_max(struct moving_map *map, uint64_t key, uint64_t number, uint64_t *before);
int moving_fetch_min(struct moving_map *map, uint64_t key, uint64_t number, uint64_t *before);
int moving_replace(struct moving_map *map, uint64_t key, uint64_t number, uint64_t *before);
int moving_replace_if(struct moving_map *map, uint64_t key, uint64_t old, uint64_t number);
int moving_remove(struct moving_map *map, uint64_t key, uint64_t *before);
int moving_remove_if(struct moving_map *map, uint64_t key, uint64_t number);
int moving_compare_exchange(struct moving_map *map, uint64_t key, const uint64_t *expected, const uint64_t *next, samvolip_reply *reply);

#endif
