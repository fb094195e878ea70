/* scenarios.c - programs of two or three threads on one or two keys. The first core has four slots, so that keys which come and go make the
   map move. */
#include "scenarios.h"
#include "cores.h"

/* The keys that are asked for, and others that only fill cores. */
enum { ONE = 1, TWO = 2, THREE = 3, FILL = 16 };

enum { MOST_STEPS_OF_A_CALL = 2000 };

#define GET(key) {CALL_GET, key, 0, 0}
#define PUT(key, number) {CALL_PUT, key, number, 0}
#define ADD(key, number) {CALL_ADD, key, number, 0}
#define REMOVE(key) {CALL_REMOVE, key, 0, 0}
#define REPLACE(key, number) {CALL_REPLACE, key, number, 0}
#define END {CALL_END, 0, 0, 0}

/* A key that only fills cores: it comes; it comes and goes. In both cases it takes a slot for good. */
#define COMES(n) PUT(FILL + (n), 1)
#define PASSES(n) COMES(n), REMOVE(FILL + (n))

/* Two slots of the core are taken, by keys that aren't there any more. The next key makes it crowded, and the core behind has four. */
#define ALMOST_CROWDED {PUT(TWO, 3), REMOVE(TWO), PASSES(0)}

/* It has become crowded by ONE, and has a link. */
#define CROWDED {PUT(TWO, 3), REMOVE(TWO), PASSES(0), PUT(ONE, 5)}

#define AMPLE {0, 1, false}

/* Each takes its name from what its first thread does. */
const struct scenario scenarios[] = {
    {"reads", AMPLE, ALMOST_CROWDED,
     {{GET(ONE)}, {PUT(ONE, 5), COMES(2), COMES(3), REMOVE(FILL + 2), REMOVE(FILL + 3), COMES(4), COMES(5)}}, 2, 0, 0, 0, false},
    {"reads twice", AMPLE, ALMOST_CROWDED, {{GET(ONE), GET(TWO)}, {PUT(ONE, 5), PUT(TWO, 7), ADD(ONE, 1), COMES(2)}}, 1, 0, 0, 0, false},
    {"writes", AMPLE, ALMOST_CROWDED, {{ADD(ONE, 1), GET(TWO)}, {PUT(ONE, 5), ADD(ONE, 2), COMES(2), COMES(3)}}, 1, 0, 0, 0, false},
    {"writes what was removed", AMPLE, ALMOST_CROWDED, {{PUT(TWO, 7), GET(TWO)}, {COMES(1), COMES(2), COMES(3)}}, 2, 0, 0, 0, false},
    {"writes what is removed", AMPLE, ALMOST_CROWDED,
     {{ADD(ONE, 1)}, {PUT(ONE, 5), REMOVE(ONE), COMES(2), COMES(3), REMOVE(ONE)}}, 2, 0, 0, 0, false},
    {"moves, too", AMPLE, ALMOST_CROWDED, {{COMES(1), ADD(ONE, 1)}, {COMES(2), ADD(ONE, 2), COMES(3)}}, 1, 0, 0, 0, false},
    {"closes late keys", AMPLE, CROWDED,
     {{ADD(TWO, 1)}, {COMES(2), COMES(3), COMES(4), ADD(FILL + 2, 1), ADD(FILL + 3, 1), GET(ONE)}}, 1, 0, 0, 0, false},
    {"closes late keys, too", AMPLE, CROWDED,
     {{ADD(TWO, 1)}, {COMES(2), PUT(THREE, 7), GET(THREE), COMES(4), COMES(5), ADD(ONE, 1), GET(ONE)}}, 1, 0, 0, 0, false},
    {"frees what is copied", AMPLE, CROWDED,
     {{ADD(TWO, 1), COMES(6)}, {COMES(2), COMES(3), COMES(4), COMES(5), ADD(ONE, 1)}}, 1, 0, 0, 0, false},
    {"copies to a full core", AMPLE, CROWDED,
     {{ADD(TWO, 1)}, {COMES(2), COMES(3), COMES(4), COMES(5), COMES(6), COMES(7), GET(ONE)}}, 1, 0, 0, 0, false},
    {"replaces", AMPLE, {PUT(ONE, 5), PASSES(0)}, {{REPLACE(ONE, 9), GET(ONE)}, {COMES(1), COMES(2), COMES(3)}}, 2, 0, 0, 0, false},
    {"is late", AMPLE, ALMOST_CROWDED,
     {{PUT(TWO, 7), GET(TWO)}, {COMES(1), ADD(ONE, 1)}, {COMES(2), COMES(3)}}, 2, 3, 1, 0, false},
    {"stands still", AMPLE, ALMOST_CROWDED,
     {{PUT(ONE, 1), ADD(ONE, 1), COMES(9)}, {PASSES(2), PASSES(3), PASSES(4), GET(ONE), PASSES(5), PASSES(6)}},
     1, 2, 6, 0, false},
    {"two stand still", AMPLE, ALMOST_CROWDED,
     {{PUT(ONE, 1), ADD(ONE, 1)}, {ADD(ONE, 2), COMES(9)},
      {PASSES(2), PASSES(3), PASSES(4), GET(ONE), PASSES(5), PASSES(6)}}, 1, 3, 6, 0, false},
    {"at old addresses", AMPLE, ALMOST_CROWDED,
     {{ADD(ONE, 1), GET(ONE)}, {PUT(ONE, 5), COMES(2), COMES(3), REMOVE(FILL + 2), REMOVE(FILL + 3), COMES(4), COMES(5)}},
     1, 0, 0, 0, true},
    {"without membarrier", {0, 1, true}, ALMOST_CROWDED, {{PUT(TWO, 7), GET(ONE)}, {PUT(ONE, 5), COMES(2), COMES(3)}}, 1, 0, 0, 0, false},
    {"by shared lanes", {1, 2, false}, ALMOST_CROWDED, {{PUT(TWO, 7), GET(ONE)}, {PUT(ONE, 5), COMES(2), COMES(3)}}, 1, 0, 0, 0, false},
    {"is refused", AMPLE, ALMOST_CROWDED, {{PUT(ONE, 5), ADD(ONE, 1), GET(TWO)}, {COMES(2), PUT(TWO, 3), COMES(3)}}, 1, 0, 0, 1, false},
    {NULL, AMPLE, {END}, {{END}}, 0, 0, 0, 0, false},
};

static const struct scenario *scenario;
unsigned longest_row, most_retired;

static void make_call(unsigned thread, const struct call *call)
{
    uint64_t before = 0;
    begin_call(MOST_STEPS_OF_A_CALL);
    unsigned number = history_call(thread, call);
    int code = map_call(call, &before);
    if (code == SAMVOLIP_E_OUT_OF_MEMORY && scenario->refusals == 0)
        fail("a call is refused memory");
    history_reply(number, code, before);
}

/* In each round the keys that fill cores are other ones. */
static void make_calls(unsigned thread, const struct call *calls, unsigned round)
{
    for (; calls->operation != CALL_END; calls++) {
        struct call call = *calls;
        if (call.key >= FILL)
            call.key += round * PROGRAM;
        make_call(thread, &call);
    }
}

static unsigned greater(unsigned one, unsigned other)
{
    return one > other ? one : other;
}

/* The last thread has made many calls while others stand still. The row has no more cores than if these had ended, but for one that each
   may have in its hands; and those that are retired are named by these, but for one. */
static void check_cores(void)
{
    struct map_cores cores = map_look();
    unsigned still = 0;
    for (unsigned thread = 1; thread < thread_count(); thread++)
        still += stands_still(thread);
    longest_row = greater(longest_row, cores.row);
    most_retired = greater(most_retired, cores.retired);
    if (cores.row > 2 + still || cores.retired > 1 + 3 * still)
        fail("%u cores are kept in a row, and %u are retired", cores.row, cores.retired);
}

static void live(unsigned thread)
{
    for (unsigned round = 0; round < (thread == scenario->last ? scenario->rounds : 1); round++)
        make_calls(thread, scenario->programs[thread - 1], round);
    if (thread == scenario->last)
        check_cores();
    begin_call(MOST_STEPS_OF_A_CALL);
    map_thread_ends();
}

/* At the end a thread that knows of nothing reads all keys. */
static void read_all(void)
{
    static const struct call reads[] = {GET(ONE), GET(TWO), GET(THREE), END};
    make_calls(0, reads, 0);
}

void scenario_run(const struct scenario *run, const struct bounds *bounds)
{
    unsigned threads = 0;
    scenario = run;
    while (threads < MOST_PROGRAMS && run->programs[threads][0].operation != CALL_END)
        threads++;
    memory_begin(run->is_reused);
    cores_begin();
    history_begin();
    map_open(&run->options, threads);
    make_calls(0, run->before, 0);
    map_leave();
    if (!schedule_run(threads, run->last, live, bounds))
        return;
    read_all();
    history_check();
    map_close();
    map_thread_ends();
    if (memory_blocks() != 0)
        fail("%u blocks are left", memory_blocks());
}
