/* stdatomic.h - in the place of the compiler's: each access of a shared word is a step of the checker. Words are plain ones here, and
   what their orders mean is x86's: a store that isn't seq_cst goes through the thread's buffer, and each exchange empties it. */
#ifndef CHECKER_STDATOMIC_H
#define CHECKER_STDATOMIC_H
#include "words.h"

#define _Atomic

typedef enum {
    memory_order_relaxed,
    memory_order_consume,
    memory_order_acquire,
    memory_order_release,
    memory_order_acq_rel,
    memory_order_seq_cst
} memory_order;

typedef bool atomic_bool;
typedef int atomic_int;
typedef unsigned atomic_uint;
typedef long atomic_long;
typedef unsigned long atomic_ulong;
typedef long long atomic_llong;
typedef unsigned long long atomic_ullong;
typedef size_t atomic_size_t;
typedef uintptr_t atomic_uintptr_t;
typedef uint64_t atomic_uint_fast64_t;

#define CHECKER_TEXT_OF(line) #line
#define CHECKER_TEXT(line) CHECKER_TEXT_OF(line)
#define CHECKER_AT(what) __FILE__ ":" CHECKER_TEXT(__LINE__) " " what

#define atomic_init(word, value) ((void)(*(word) = (value)))

#define atomic_load_explicit(word, order) \
    ((__typeof__(*(word)))word_load(CHECKER_AT("load " #word), (word), sizeof *(word)))

#define atomic_store_explicit(word, value, order) \
    ({ \
        __typeof__(*(word)) checker_value = (value); \
        word_store(CHECKER_AT("store " #word), (word), sizeof *(word), (uint64_t)checker_value, (order) == memory_order_seq_cst); \
    })

#define atomic_exchange_explicit(word, value, order) \
    ({ \
        __typeof__(*(word)) checker_value = (value); \
        (__typeof__(*(word)))word_exchange(CHECKER_AT("exchange " #word), (word), sizeof *(word), (uint64_t)checker_value); \
    })

#define atomic_compare_exchange_strong_explicit(word, expected, value, order, other_order) \
    ({ \
        __typeof__(*(word)) checker_value = (value); \
        word_compare_exchange(CHECKER_AT("compare " #word), (word), (expected), sizeof *(word), (uint64_t)checker_value); \
    })
#define atomic_compare_exchange_weak_explicit atomic_compare_exchange_strong_explicit

#define CHECKER_FETCH(name, arithmetic, word, value) \
    ((__typeof__(*(word)))word_fetch(CHECKER_AT(name " " #word), (word), sizeof *(word), (arithmetic), (uint64_t)(value)))
#define atomic_fetch_add_explicit(word, value, order) CHECKER_FETCH("add", WORD_ADD, word, value)
#define atomic_fetch_sub_explicit(word, value, order) CHECKER_FETCH("subtract", WORD_SUBTRACT, word, value)
#define atomic_fetch_or_explicit(word, value, order) CHECKER_FETCH("or", WORD_OR, word, value)
#define atomic_fetch_and_explicit(word, value, order) CHECKER_FETCH("and", WORD_AND, word, value)
#define atomic_fetch_xor_explicit(word, value, order) CHECKER_FETCH("xor", WORD_XOR, word, value)

#define atomic_load(word) atomic_load_explicit(word, memory_order_seq_cst)
#define atomic_store(word, value) atomic_store_explicit(word, value, memory_order_seq_cst)
#define atomic_exchange(word, value) atomic_exchange_explicit(word, value, memory_order_seq_cst)
#define atomic_compare_exchange_strong(word, expected, value) \
    atomic_compare_exchange_strong_explicit(word, expected, value, memory_order_seq_cst, memory_order_seq_cst)
#define atomic_fetch_add(word, value) atomic_fetch_add_explicit(word, value, memory_order_seq_cst)
#define atomic_fetch_sub(word, value) atomic_fetch_sub_explicit(word, value, memory_order_seq_cst)
#define atomic_fetch_or(word, value) atomic_fetch_or_explicit(word, value, memory_order_seq_cst)
#define atomic_fetch_and(word, value) atomic_fetch_and_explicit(word, value, memory_order_seq_cst)

#define atomic_thread_fence(order) ((order) == memory_order_seq_cst ? word_fence(CHECKER_AT("fence")) : (void)0)
#define atomic_signal_fence(order) ((void)(order))

#endif
