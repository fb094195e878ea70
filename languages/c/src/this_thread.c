/* this_thread.c - the words of the thread that runs, and the hook at its end. */
#include "migration.h"
#include <pthread.h>

struct thread no_thread, past_thread;
_Thread_local struct own_words own_words = {.thread = (uintptr_t)&no_thread};

static _Atomic uint32_t key_and_one; /* of pthread, by which it calls end_thread: exchanged for 0 by who opens a map */

static void end_thread(void *ending) { thread_ends(ending); }

bool begin_watching(void)
{
    uint32_t none = 0;
    pthread_key_t mine;
    if (atomic_load_explicit(&key_and_one, memory_order_acquire) != 0)
        return true;
    if (pthread_key_create(&mine, end_thread) != 0)
        return false;
    if (!atomic_compare_exchange_strong_explicit(&key_and_one, &none, mine + 1, memory_order_acq_rel, memory_order_acquire))
        pthread_key_delete(mine); /* another thread's came first */
    return true;
}

bool watch_thread(struct thread *own)
{
    return pthread_setspecific(atomic_load_explicit(&key_and_one, memory_order_acquire) - 1, own) == 0;
}
