/* In the place of <stdatomic.h>, for a test: each access of a shared word that says its order is a step, before which the thread may wait.
   The test has the function. */
#ifndef DELAYED_STDATOMIC_H
#define DELAYED_STDATOMIC_H
#include_next <stdatomic.h>

void before_step(void);

#undef atomic_load_explicit
#undef atomic_store_explicit
#undef atomic_exchange_explicit
#undef atomic_compare_exchange_strong_explicit
#undef atomic_fetch_add_explicit
#undef atomic_fetch_sub_explicit
#undef atomic_fetch_or_explicit
#undef atomic_fetch_and_explicit
#define atomic_load_explicit(at, order) (before_step(), __atomic_load_n(at, order))
#define atomic_store_explicit(at, word, order) (before_step(), __atomic_store_n(at, word, order))
#define atomic_exchange_explicit(at, word, order) (before_step(), __atomic_exchange_n(at, word, order))
#define atomic_compare_exchange_strong_explicit(at, from, to, won, lost) \
    (before_step(), __atomic_compare_exchange_n(at, from, to, 0, won, lost))
#define atomic_fetch_add_explicit(at, word, order) (before_step(), __atomic_fetch_add(at, word, order))
#define atomic_fetch_sub_explicit(at, word, order) (before_step(), __atomic_fetch_sub(at, word, order))
#define atomic_fetch_or_explicit(at, word, order) (before_step(), __atomic_fetch_or(at, word, order))
#define atomic_fetch_and_explicit(at, word, order) (before_step(), __atomic_fetch_and(at, word, order))
#endif
