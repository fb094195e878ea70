/* checker.h - what the files of the checker share. README.md tells what it does. */
#ifndef CHECKER_H
#define CHECKER_H
#include <stdbool.h>
#include <stddef.h>
#include <stdint.h>

/* Thread 0 opens and closes the map, and makes the calls before and after those of the others. */
enum { MOST_THREADS = 5 };

/* How much of a kind an execution may have at most. */
struct bounds {
    unsigned preemptions; /* UINT_MAX: any; a thread is taken off its processor, or a buffer is drained, while another one could go on */
    unsigned delays;      /* stores are left in the buffer of a thread that is taken off, or ends */
    unsigned drains;      /* such stores reach memory in the middle of another thread's steps; each is a preemption, too */
    unsigned refusals;    /* of memory and of fences */
};

/* ---- choices.c: what an execution leaves open, as a list of numbers. The same list gives the same execution. */

enum search { SEARCH_ALL, SEARCH_RANDOM, SEARCH_REPLAY };

enum { MOST_OPTIONS = 64 };

/* A number below `options`. A search of all tries 0 and those that have their bit in `worth`. By chance it is 0 mostly; in the second call
   each is as likely, and worth trying. */
unsigned choose(unsigned options, uint64_t worth);
unsigned choose_evenly(unsigned options);

/* The first list of a search; and the next one, if there is one. */
void choices_begin(enum search search, uint64_t seed, const char *replayed);
bool choices_next(void);

/* The list, as a replay takes it. */
void choices_print(void);

/* ---- schedule.c: threads, one at a time */

/* Runs `body` in threads 1 to `count`. `last`, unless it is 0, begins once all others are over, or stand still: it isn't preempted. False:
   it was left before its end, since it shows nothing new. */
bool schedule_run(unsigned count, unsigned last, void (*body)(unsigned thread), const struct bounds *bounds);

/* Before each access of what is shared: another thread may go on here. `what` is for the trace. */
void take_step(const char *what);

unsigned running_thread(void);
unsigned thread_count(void);
bool stands_still(unsigned thread); /* it isn't over, and another one runs */
bool may_refuse(void); /* a choice: whether this request is refused */

/* A call begins in the running thread, which has so many steps to end it by itself. */
void begin_call(unsigned steps);

extern uint64_t steps_taken; /* in all executions */
extern unsigned most_steps_alone;

/* ---- buffers.c: the steps of replaced/words.h, whose stores reach memory late */

/* How many stores a thread's buffer has; lets the oldest ones reach memory. */
unsigned buffered(unsigned thread);
void drain(unsigned thread, unsigned stores);
void drain_all(unsigned thread);

enum { MEMORY_SIZE = 1 << 22 };

/* ---- memory.c: blocks, which nobody touches after they were freed */

void *memory_take(size_t size, size_t alignment); /* zeros, or NULL */
void memory_give(void *block);
void memory_touch(const void *address, size_t size); /* fails where it lies in no block */
void memory_begin(bool is_reused);                   /* an execution; whether freed addresses are given out again, the last one first */
unsigned memory_blocks(void);                        /* that were taken, and not given back */
bool memory_has(const void *address);                /* it is in the memory of the map, which threads share */

size_t memory_offset(const void *address);

/* ---- conflicts.c: which preemptions show nothing new */

uint64_t time_passes(void);
void step_begins(void);                                /* of the running thread; what follows is part of it */
void step_conflicts(void);                             /* with whatever others do */
void step_accesses(const void *word, bool writes);     /* which may conflict with what others do */
void word_is_read(const void *word);                   /* in memory, now */
void word_is_written(const void *word);
bool has_conflicted(unsigned thread, uint64_t since);  /* others' steps since then with the last step of a thread */

/* ---- cores_stand_in.c */

unsigned cores_alive(void);
void cores_begin(void); /* an execution */

/* ---- history.c: whether some order of the calls explains their replies */

enum operation {
    CALL_END, /* of a list of calls */
    CALL_GET,
    CALL_PUT,
    CALL_PUT_IF_ABSENT,
    CALL_ADD,
    CALL_REMOVE,
    CALL_REPLACE,
    CALL_REPLACE_IF,
    CALL_REMOVE_IF,
    CALL_FETCH_MAX,
    CALL_LEAVE /* gives back the thread's lane */
};

struct call {
    enum operation operation;
    uint64_t key, number, next;
};

void history_begin(void);
unsigned history_call(unsigned thread, const struct call *call); /* its number in the history */
void history_reply(unsigned number, int code, uint64_t before);
void history_check(void);

/* ---- main.c */

extern bool is_traced;
#define trace(...) (is_traced ? print_trace(__VA_ARGS__) : (void)0)
void print_trace(const char *format, ...) __attribute__((format(printf, 1, 2)));

/* Tells what is wrong, and which choices led there; ends the program. */
_Noreturn void fail(const char *format, ...) __attribute__((format(printf, 1, 2)));

#endif
