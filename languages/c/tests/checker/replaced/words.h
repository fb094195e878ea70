/* words.h - steps at shared words. `what` says which, for the trace. */
#ifndef CHECKER_WORDS_H
#define CHECKER_WORDS_H
#include <stdbool.h>
#include <stddef.h>
#include <stdint.h>

enum word_arithmetic { WORD_ADD, WORD_SUBTRACT, WORD_OR, WORD_AND, WORD_XOR };

uint64_t word_load(const char *what, const void *word, size_t size);
void word_store(const char *what, void *word, size_t size, uint64_t value, bool fenced);
uint64_t word_exchange(const char *what, void *word, size_t size, uint64_t value);
bool word_compare_exchange(const char *what, void *word, void *expected, size_t size, uint64_t value);
uint64_t word_fetch(const char *what, void *word, size_t size, enum word_arithmetic arithmetic, uint64_t value);
void word_fence(const char *what);

#endif
