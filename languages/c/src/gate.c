/* gate.c - the gates of a map's parts, work that is shared out while they are closed, and who is alone with some parts. */
#include "endless.h"
#include <errno.h>
#include <linux/membarrier.h>
#include <sched.h>
#include <stdio.h>
#include <sys/syscall.h>
#include <time.h>
#include <unistd.h>

enum { AWAKE = 160 }; /* for how many turns who waits doesn't sleep */

bool has_membarrier;

/* At the beginning, and in the child of a fork. */
void begin_gate(void)
{
#ifndef NO_MEMBARRIER
    has_membarrier = syscall(__NR_membarrier, MEMBARRIER_CMD_REGISTER_PRIVATE_EXPEDITED, 0, 0) == 0;
#endif
}

/* A full fence in this thread, and in all others that run. Without membarrier calls have their own: they enter slowly. One that is refused
   later ends the process, since calls that are under way count on it. */
void heavy_fence(void)
{
    if (!has_membarrier || syscall(__NR_membarrier, MEMBARRIER_CMD_PRIVATE_EXPEDITED, 0, 0) == 0)
        return;
    fprintf(stderr, "samvolip: membarrier, which was allowed when the first map was opened, is refused now: %s\n", strerror(errno));
    abort();
}

void pause_for(unsigned turn)
{
    if (turn < 64)
        __builtin_ia32_pause();
    else if (turn < 1024)
        sched_yield();
    else /* no point at which the thread may be cancelled, as nanosleep of the C library is */
        syscall(__NR_nanosleep, &(struct timespec){0, 50000}, NULL);
}

uint64_t nanoseconds(void)
{
    struct timespec at;
    clock_gettime(CLOCK_MONOTONIC, &at);
    return (uint64_t)at.tv_sec * 1000000000u + (uint64_t)at.tv_nsec;
}

/* With the lock: a gate, the work or who is alone has changed. */
static void tell(samvolip_map *map)
{
    map->told++;
    pthread_cond_broadcast(&map->turned);
}

/* With the lock: waits until somebody tells, and sleeps only if that takes long. */
static void wait_to_be_told(samvolip_map *map)
{
    unsigned told = map->told;
    unlock(map);
    for (unsigned turn = 0; turn < AWAKE && map->told == told; turn++)
        pause_for(turn);
    lock(map);
    if (map->told != told)
        return;
    int before;
    pthread_setcancelstate(PTHREAD_CANCEL_DISABLE, &before);
    pthread_cond_wait(&map->turned, &map->lock);
    pthread_setcancelstate(before, &before);
}

/* ---- gates --------------------------------------------------------------------------------- */

bool admits(const part *into, unsigned what)
{
    uint64_t gate = atomic_load(&into->gate);
    return gate >= FIRST_ID || gate == FENCED || (gate == READS_ONLY && what == READS);
}

/* Whether a call of this kind is under way by a lane in one of these places. With the lock, so that the lane's thread doesn't end. */
static bool is_busy(const samvolip_map *map, unsigned i, range places, unsigned what)
{
    const lane *one = &map->lanes[i];
    const struct thread *owner = atomic_load(&one->owner);
    uintptr_t word = atomic_load(owner ? &owner->busy : &one->busy);
    uintptr_t from = word - (uintptr_t)&map->parts[places.first];
    return from % sizeof(part) == what && from / sizeof(part) < places.end - places.first;
}

/* Alone with these places: closes their gates, and says since when. Afterwards all writes, or all calls, have come to their end there.
   The lock is held all the while, so that no thread gives its lane back and ends; a call that is under way doesn't take it. While the
   lock is held nobody takes memory. */
uint64_t stop(samvolip_map *map, range places, enum gate to)
{
    uint64_t since = nanoseconds();
    lock(map);
    for (unsigned place = places.first; place < places.end; place++)
        atomic_store(&map->parts[place].gate, to);
    heavy_fence();
    for (unsigned i = 0; i < map->count; i++)
        for (unsigned turn = 0; is_busy(map, i, places, WRITES) || (to == CLOSED && is_busy(map, i, places, READS)); turn++)
            pause_for(turn);
    unlock(map);
    return since;
}

/* With the lock. */
void open_gates(samvolip_map *map, range places)
{
    for (unsigned place = places.first; place < places.end; place++)
        atomic_store(&map->parts[place].gate, has_membarrier ? map->id : FENCED);
    tell(map);
}

/* With the lock: opens the gates. Writes had to wait since `writes`, and reads since `reads`. */
void go_on(samvolip_map *map, range places, uint64_t writes, uint64_t reads)
{
    uint64_t opened_at = nanoseconds();
    open_gates(map, places);
    map->figures.all_stops += opened_at - writes;
    map->figures.write_stop = greater(map->figures.write_stop, opened_at - writes);
    map->figures.read_stop = greater(map->figures.read_stop, opened_at - reads);
}

/* ---- work that is shared out --------------------------------------------------------------- */

/* Puts entries into the cores to come, by a lane's seats. */
static void copy_entries(const samvolip_map *map, job *job, unsigned lane, const samvolip_entry *entries, uint64_t count)
{
    bool was_divided = job->from.first > 0, divided = job->to.first > 0, divides = divided && !was_divided;
    for (uint64_t i = 0; i < count; i++) {
        uint64_t inner = moved_key(map, was_divided, divided, entries[i].key);
        core *to = job->cores[job->to.first + (divides ? share_of(inner) : 0)];
        int code = samvolip_put_if_absent(&to->seats[lane], inner, entries[i].number, NULL);
        if (code != SAMVOLIP_ABSENT)
            atomic_store(&job->refused, code < 0 ? code : SAMVOLIP_E_LOST);
    }
}

/* Takes pieces of the work, of the parts by turns, as long as there are any, and does them by a lane's seats. */
static void do_pieces(const samvolip_map *map, job *job, unsigned lane)
{
    samvolip_entry some[PIECE];
    size_t parts = job->from.end - job->from.first, piece;
    while (atomic_load(&job->refused) == 0 && (piece = atomic_fetch_add(&job->begun, 1)) / parts * PIECE < job->size) {
        core *of = map->parts[job->from.first + piece % parts].core;
        uint64_t count = list_piece(&of->seats[lane], piece / parts * PIECE, some);
        if (job->list) {
            for (uint64_t i = 0; i < count; i++)
                some[i].key = outer_key(map, job->from.first > 0, some[i].key);
            memcpy(job->list + atomic_fetch_add(&job->listed, count), some, count * sizeof *some);
        } else {
            copy_entries(map, job, lane, some, count);
        }
    }
}

/* With the lock: helps until no piece is left. From then on nobody begins to. */
static void help(samvolip_map *map, job *job, unsigned lane)
{
    job->helpers++;
    unlock(map);
    do_pieces(map, job, lane);
    lock(map);
    for (unsigned place = job->from.first; place < job->from.end; place++)
        map->jobs[place] = NULL;
    if (--job->helpers == 0)
        tell(map);
}

/* Alone, and writes wait: does it all, with those who wait. */
void share_out(samvolip_map *map, job *job)
{
    lock(map);
    for (unsigned place = job->from.first; place < job->from.end; place++) {
        job->size = greater(job->size, slots_of(map->parts[place].core->exponent));
        map->jobs[place] = job;
    }
    tell(map);
    help(map, job, 0);
    while (job->helpers > 0)
        wait_to_be_told(map);
    unlock(map);
}

/* With the lock: waits until something has changed; or helps meanwhile in one of these places, by a lane of the thread's own. */
void wait_or_help(samvolip_map *map, range places, unsigned mine)
{
    job *one = NULL;
    for (unsigned place = places.first; place < places.end && !one; place++)
        one = map->jobs[place];
    if (one && mine)
        help(map, one, mine);
    else
        wait_to_be_told(map);
}

/* ---- who is alone -------------------------------------------------------------------------- */

/* Inside: makes this thread the only one that renews, clears, counts, lists or forks in these places. If somebody else does, it waits;
   and with a part to renew, only as long as that has the core of this number. */
bool be_alone(samvolip_map *map, range places, const part *with, uint64_t number)
{
    lock(map);
    bool is = true;
    while ((is = !with || (with->core && with->core->number == number)) && (map->held & set_of(places)))
        wait_or_help(map, places, own_lane(map));
    if (is)
        map->held |= set_of(places);
    unlock(map);
    return is;
}

void end_alone(samvolip_map *map, range places)
{
    lock(map);
    map->held &= ~set_of(places);
    tell(map);
    unlock(map);
}
