/* Threads that call one map, each with a seat of its own. A thread is given a struct that begins with its seat. */
#ifndef CREW_H
#define CREW_H
#include "samvolip.h"

#include "expect.h"

#include <pthread.h>

enum { MOST_WORKERS = 256 };

/* The seat of one of the workers, whose structs have this size. */
static inline samvolip_seat *crew_seat(void *workers, size_t size, unsigned i)
{
    return (samvolip_seat *)(void *)((char *)workers + i * size);
}

/* The first worker's seats are split among so many, and each works in a thread of its own. */
static inline void crew_works(void *workers, size_t size, unsigned count, void *(*work)(void *))
{
    pthread_t threads[MOST_WORKERS];
    EXPECT(count <= MOST_WORKERS);
    for (unsigned i = 1; i < count; i++)
        EXPECT(samvolip_split(workers, crew_seat(workers, size, i)) == SAMVOLIP_OK);
    for (unsigned i = 0; i < count; i++)
        EXPECT(pthread_create(&threads[i], NULL, work, crew_seat(workers, size, i)) == 0);
    for (unsigned i = 0; i < count; i++)
        EXPECT(pthread_join(threads[i], NULL) == 0);
}

/* The first worker has all seats again. */
static inline void crew_joins(void *workers, size_t size, unsigned count)
{
    for (unsigned i = 1; i < count; i++)
        EXPECT(samvolip_join(workers, crew_seat(workers, size, i)) == SAMVOLIP_OK);
}
#endif
