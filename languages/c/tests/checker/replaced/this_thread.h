/* this_thread.h - in the place of ../../../src/this_thread.h: what each thread of the checker has for itself. */
#ifndef THIS_THREAD_H
#define THIS_THREAD_H

struct own_words {
    uintptr_t thread; /* a struct thread, which is never 0 */
    uint32_t inside;
};

extern struct thread no_thread, past_thread;

struct own_words *own_words_of_running(void);
#define here (*own_words_of_running())

bool begin_watching(void);
bool watch_thread(struct thread *own);

static inline struct thread *this_thread(void) { return (struct thread *)here.thread; }
static inline void set_this_thread(struct thread *own) { here.thread = (uintptr_t)own; }

#endif
