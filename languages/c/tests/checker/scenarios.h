/* scenarios.h - what threads call, and how the map is checked by it. */
#ifndef SCENARIOS_H
#define SCENARIOS_H
#include "checker.h"

enum { MOST_PROGRAMS = 4, PROGRAM = 16 };

struct map_options {
    unsigned own_lanes;    /* of threads: 0 as many as there are threads */
    unsigned shared_lanes; /* of those that have none of their own */
    bool is_without_membarrier;
};

struct scenario {
    const char *name;
    struct map_options options;
    struct call before[PROGRAM];                  /* by thread 0, before the others begin */
    struct call programs[MOST_PROGRAMS][PROGRAM]; /* of threads 1, 2 and so on */
    unsigned preemptions;                         /* in a search that doesn't take long */
    unsigned last;                                /* thread that begins once the others are over, or stand still: none is 0 */
    unsigned rounds;                              /* how often it makes its calls */
    unsigned refusals;                            /* of memory, fences and exchanges in an execution */
    bool is_reused;                               /* addresses of freed memory are given out again */
};

extern const struct scenario scenarios[]; /* up to one without a name */

/* How many cores there were at most while threads stood still, after the calls of the last one: in the row, and retired. */
extern unsigned longest_row, most_retired;

void scenario_run(const struct scenario *scenario, const struct bounds *bounds);

/* ---- the_map.c: the map that is checked */

void map_open(const struct map_options *options, unsigned threads);
int map_call(const struct call *call, uint64_t *before);
void map_leave(void); /* the running thread gives its lane back */
void map_thread_ends(void);
void map_close(void);

/* How many cores there are: those that wait on the list to be freed, and all others. */
struct map_cores {
    unsigned row, retired;
};
struct map_cores map_look(void);

#endif
