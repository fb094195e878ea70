/* the_map.c - the map that is checked, and what it asks the system for: threads' own words, fences, memory. */
#include "scenarios.h"
#include "migration.h"

enum { FIRST_SLOTS = 4 };

static struct moving_map *map;
static const struct map_options *options;
static struct own_words own_words[MOST_THREADS];
static struct thread *watched[MOST_THREADS];
struct thread no_thread, past_thread;

/* ---- threads --------------------------------------------------------------------------------- */

struct own_words *own_words_of_running(void)
{
    return &own_words[running_thread()];
}

bool begin_watching(void)
{
    return true;
}

bool watch_thread(struct thread *own)
{
    watched[running_thread()] = own;
    return true;
}

void map_thread_ends(void)
{
    struct thread *own = watched[running_thread()];
    watched[running_thread()] = NULL;
    if (own)
        thread_ends(own);
}

/* How many processors there are, of which the map makes as many lanes for threads that have none of their own. */
long checked_processors(int name)
{
    (void)name;
    return options->shared_lanes;
}

/* ---- fences ---------------------------------------------------------------------------------- */

bool begin_fences(void)
{
    return !options->is_without_membarrier;
}

/* One thread after another makes a fence, as processors do. */
bool fence_all_threads(void)
{
    if (!options->is_without_membarrier && may_refuse())
        return false;
    word_fence("membarrier");
    for (unsigned thread = 0; thread < thread_count() && !options->is_without_membarrier; thread++)
        if (buffered(thread) > 0) {
            take_step("membarrier");
            step_conflicts();
            drain_all(thread);
        }
    return true;
}

/* ---- memory ---------------------------------------------------------------------------------- */

void *core_memory_take(size_t size)
{
    return memory_take(size, 128);
}

void core_memory_give(void *block, size_t size)
{
    (void)size;
    memory_give(block);
}

/* ---- the map --------------------------------------------------------------------------------- */

void map_open(const struct map_options *given, unsigned threads)
{
    options = given;
    for (unsigned thread = 0; thread < MOST_THREADS; thread++) {
        own_words[thread] = (struct own_words){(uintptr_t)&no_thread, 0};
        watched[thread] = NULL;
    }
    map = moving_open((struct moving_options){.slots = FIRST_SLOTS, .lanes = given->own_lanes ? given->own_lanes : threads});
    if (!map)
        fail("no map is opened");
}

int map_call(const struct call *call, uint64_t *before)
{
    switch (call->operation) {
    case CALL_GET: return moving_get(map, call->key, before);
    case CALL_PUT: return moving_put(map, call->key, call->number, before);
    case CALL_PUT_IF_ABSENT: return moving_put_if_absent(map, call->key, call->number, before);
    case CALL_ADD: return moving_add(map, call->key, call->number, before);
    case CALL_REMOVE: return moving_remove(map, call->key, before);
    case CALL_REPLACE: return moving_replace(map, call->key, call->number, before);
    case CALL_REPLACE_IF: return moving_replace_if(map, call->key, call->number, call->next);
    case CALL_REMOVE_IF: return moving_remove_if(map, call->key, call->number);
    case CALL_FETCH_MAX: return moving_fetch_max(map, call->key, call->number, before);
    case CALL_LEAVE: map_leave(); return 0;
    case CALL_END: break;
    }
    fail("no such call");
}

void map_leave(void)
{
    moving_leave(map);
}

struct map_cores map_look(void)
{
    struct moving_figures figures;
    moving_look(map, &figures);
    return (struct map_cores){(unsigned)(figures.cores - figures.retired), (unsigned)figures.retired};
}

void map_close(void)
{
    moving_close(map);
}
