/* this_thread.h - what the thread that runs has for itself, and what tells when it ends. A checker has others in place of these. */
#ifndef THIS_THREAD_H
#define THIS_THREAD_H

struct own_words {
    _Atomic uintptr_t thread; /* a struct thread, which is never 0 */
    _Atomic uint32_t inside;  /* 1: in the middle of a call, but for the common case of one; so a handler is refused */
};

#pragma GCC visibility push(hidden)
extern _Thread_local struct own_words own_words __attribute__((tls_model("initial-exec")));
#define here own_words

/* What a thread has that has made no call yet, and one that may own no lane any more. They know no map. */
extern struct thread no_thread, past_thread;

bool begin_watching(void);             /* before the first map is opened; false: the system refuses it now */
bool watch_thread(struct thread *own); /* thread_ends is called with this when the thread ends; NULL: it isn't. False: it isn't, either */
#pragma GCC visibility pop

static inline struct thread *this_thread(void)
{
    return (struct thread *)atomic_load_explicit(&here.thread, memory_order_relaxed);
}

static inline void set_this_thread(struct thread *own) { atomic_store_explicit(&here.thread, (uintptr_t)own, memory_order_relaxed); }

#endif
