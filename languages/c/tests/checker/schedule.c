/* schedule.c - the threads of an execution, one at a time on one real thread. At each step another one may go on, as long as the bounds
   allow that; where a thread ends, another one has to. */
#include "checker.h"
#include <limits.h>
#include <setjmp.h>
#include <stdlib.h>
#include <ucontext.h>

enum { STACK = 1 << 17, MOST_STEPS = 100000 };

struct thread {
    jmp_buf at;
    ucontext_t first;
    void *stack;
    bool is_begun, is_over;
    bool is_preempted; /* with an empty buffer */
    uint64_t since;
};

static struct thread threads[MOST_THREADS];
static struct {
    unsigned running, count, last;
    bool is_on;  /* threads take turns */
    bool is_new; /* it shows something new so far */
    const struct bounds *bounds;
    struct bounds used;
    void (*body)(unsigned thread);
    unsigned steps, steps_alone, most_alone; /* since the call began or the thread went on; how many it may take */
} schedule;

uint64_t steps_taken;
unsigned most_steps_alone;

unsigned running_thread(void)
{
    return schedule.running;
}

unsigned thread_count(void)
{
    return schedule.count + 1;
}

bool stands_still(unsigned thread)
{
    return thread != schedule.running && !threads[thread].is_over;
}

/* ---- turns ----------------------------------------------------------------------------------- */

static void switch_to(unsigned thread)
{
    unsigned from = schedule.running;
    if (_setjmp(threads[from].at))
        return;
    schedule.running = thread;
    schedule.steps_alone = 0;
    trace("thread %u\n", thread);
    _longjmp(threads[thread].at, 1);
}

/* Whether a thread was preempted, and might as well have been before its last step. By chance that doesn't matter. */
static bool is_preempted_for_nothing(unsigned thread)
{
    return schedule.bounds->preemptions < UINT_MAX && threads[thread].is_preempted && !has_conflicted(thread, threads[thread].since);
}

/* Another thread goes on, and later this one. If that shows nothing new, the execution is left here. */
static void go_on(unsigned thread)
{
    struct thread *me = &threads[schedule.running];
    me->since = time_passes();
    switch_to(thread);
    time_passes();
    if (is_preempted_for_nothing(schedule.running)) {
        schedule.is_new = false;
        switch_to(0);
    }
    me->is_preempted = false;
}

/* Who may go on where the running thread ends: the others; the last one once these have begun, before those that were preempted. */
static unsigned candidates(unsigned *found)
{
    unsigned count = 0, last = 0;
    bool have_all_begun = true;
    for (unsigned thread = 1; thread <= schedule.count; thread++) {
        if (threads[thread].is_over)
            continue;
        if (thread == schedule.last) {
            last = thread;
            continue;
        }
        have_all_begun = have_all_begun && threads[thread].is_begun;
        found[count++] = thread;
    }
    if (last == 0 || !have_all_begun)
        return count;
    found[0] = last;
    return 1;
}

/* How many stores of the running thread may stay in its buffer, if it is taken off or ends. */
static unsigned may_stay(void)
{
    return schedule.used.delays < schedule.bounds->delays ? buffered(schedule.running) : 0;
}

static void leave(unsigned to, unsigned stay)
{
    schedule.used.delays += stay > 0;
    threads[schedule.running].is_preempted = schedule.running > 0 && stay == 0;
    unsigned stores = buffered(schedule.running) - stay;
    if (stores > 0)
        drain(schedule.running, stores);
    threads[to].is_begun = true;
    go_on(to);
}

static void end_thread(void)
{
    unsigned others[MOST_THREADS], count, stay = may_stay();
    threads[schedule.running].is_over = true;
    trace("thread %u has ended\n", schedule.running);
    count = candidates(others);
    if (count == 0) {
        switch_to(0);
        return;
    }
    unsigned choice = choose_evenly(count * (1 + stay));
    leave(others[choice % count], choice / count);
}

static void live(void)
{
    if (_setjmp(threads[schedule.running].at) == 0)
        _longjmp(threads[0].at, 1);
    step_conflicts();
    schedule.body(schedule.running);
    end_thread();
}

/* A thread at its beginning. An earlier one may have been left in the middle on this stack. */
static void make(unsigned thread)
{
    struct thread *made = &threads[thread];
    if (!made->stack && !(made->stack = malloc(STACK)))
        fail("no memory for a stack");
    if (getcontext(&made->first) != 0)
        fail("no context");
    made->first.uc_stack.ss_sp = made->stack;
    made->first.uc_stack.ss_size = STACK;
    made->is_begun = made->is_over = made->is_preempted = false;
    makecontext(&made->first, live, 0);
    schedule.running = thread;
    if (_setjmp(threads[0].at) == 0)
        setcontext(&made->first);
    schedule.running = 0;
}

bool schedule_run(unsigned count, unsigned last, void (*body)(unsigned thread), const struct bounds *bounds)
{
    unsigned others[MOST_THREADS];
    for (unsigned thread = 1; thread <= count; thread++)
        make(thread);
    schedule.count = count;
    schedule.last = last;
    schedule.body = body;
    schedule.bounds = bounds;
    schedule.used = (struct bounds){0, 0, 0, 0};
    schedule.steps = 0;
    schedule.is_on = schedule.is_new = true;
    leave(others[choose_evenly(candidates(others))], 0);
    schedule.is_on = false;
    for (unsigned thread = 1; thread <= count; thread++)
        drain_all(thread);
    return schedule.is_new;
}

/* ---- steps ----------------------------------------------------------------------------------- */

/* Whether a thread may go on in the place of the running one. The last one may once all others have begun. */
static bool is_ready(unsigned thread)
{
    if (thread == schedule.running || threads[thread].is_over)
        return false;
    for (unsigned other = 1; other <= schedule.count && thread == schedule.last; other++)
        if (other != thread && !threads[other].is_begun)
            return false;
    return true;
}

/* What may happen before a step, beside nothing: another thread goes on, and so many stores stay in the buffer of the running one; or so
   many of a thread's reach memory. */
struct moves {
    unsigned count;
    uint64_t worth; /* those that may show something new */
    struct move {
        unsigned thread, stores;
        bool drains;
    } moves[MOST_OPTIONS];
};

static void add_move(struct moves *moves, struct move move, bool is_worth)
{
    if (moves->count == MOST_OPTIONS)
        fail("too many moves");
    moves->worth |= (uint64_t)is_worth << moves->count;
    moves->moves[moves->count++] = move;
}

static void list_moves(struct moves *moves)
{
    bool may_drain = schedule.used.drains < schedule.bounds->drains;
    moves->count = 1; /* nothing */
    moves->worth = 1;
    for (unsigned thread = 1; thread <= schedule.count; thread++) {
        for (unsigned stay = 0; is_ready(thread) && stay <= may_stay(); stay++)
            add_move(moves, (struct move){thread, stay, false}, !is_preempted_for_nothing(thread));
        for (unsigned stores = 1; may_drain && thread != schedule.running && stores <= buffered(thread); stores++)
            add_move(moves, (struct move){thread, stores, true}, true);
    }
}

static void make_move(const struct move *move)
{
    schedule.used.preemptions++;
    schedule.used.drains += move->drains;
    if (move->drains)
        drain(move->thread, move->stores);
    else
        leave(move->thread, move->stores);
}

static void count_step(const char *what)
{
    steps_taken++;
    time_passes();
    if (++schedule.steps > MOST_STEPS)
        fail("the threads don't end: %s", what);
    if (++schedule.steps_alone > most_steps_alone)
        most_steps_alone = schedule.steps_alone;
    if (schedule.steps_alone > schedule.most_alone)
        fail("thread %u doesn't end its call by itself: %s", schedule.running, what);
}

void take_step(const char *what)
{
    struct moves moves;
    if (!schedule.is_on)
        return;
    count_step(what);
    if (schedule.used.preemptions < schedule.bounds->preemptions && schedule.running != schedule.last) {
        list_moves(&moves);
        unsigned choice = choose(moves.count, moves.worth);
        if (choice > 0)
            make_move(&moves.moves[choice]);
    }
    step_begins();
}

void begin_call(unsigned steps)
{
    schedule.steps_alone = 0;
    schedule.most_alone = steps;
}

bool may_refuse(void)
{
    if (!schedule.is_on || schedule.used.refusals >= schedule.bounds->refusals || choose(2, UINT64_MAX) == 0)
        return false;
    schedule.used.refusals++;
    return true;
}
