/* buffers.c - shared words. As on x86 a thread's plain stores go to its own buffer, in order, and reach memory later; its loads see them at
   once. An exchange, a fence and a fence in all threads drain the buffer first. */
#include "checker.h"
#include "replaced/words.h"
#include <string.h>

enum { MOST_STORES = 16 };

struct store {
    const char *what;
    void *word;
    size_t size;
    uint64_t value;
};

static struct buffer {
    unsigned count;
    struct store stores[MOST_STORES];
} buffers[MOST_THREADS];

unsigned buffered(unsigned thread)
{
    return buffers[thread].count;
}

static uint64_t read_word(const void *word, size_t size)
{
    uint64_t value = 0;
    memcpy(&value, word, size); /* the low bytes first */
    return value;
}

void drain(unsigned thread, unsigned stores)
{
    struct buffer *buffer = &buffers[thread];
    for (unsigned i = 0; i < stores; i++) {
        struct store *store = &buffer->stores[i];
        memory_touch(store->word, store->size);
        memcpy(store->word, &store->value, store->size);
        word_is_written(store->word);
        if (thread != running_thread())
            trace("        of thread %u reaches memory: %s\n", thread, store->what);
    }
    buffer->count -= stores;
    memmove(buffer->stores, buffer->stores + stores, buffer->count * sizeof *buffer->stores);
}

void drain_all(unsigned thread)
{
    if (buffers[thread].count > 0)
        drain(thread, buffers[thread].count);
}

/* The running thread's last store to a word, if it is in the buffer still. */
static const struct store *own_store(const void *word, size_t size)
{
    struct buffer *buffer = &buffers[running_thread()];
    for (unsigned i = buffer->count; i-- > 0;) {
        const struct store *store = &buffer->stores[i];
        if (store->word == word && store->size == size)
            return store;
        if ((const char *)word < (const char *)store->word + store->size && (const char *)store->word < (const char *)word + size)
            fail("a part of a word is loaded whose store is in the buffer: %s", store->what);
    }
    return NULL;
}

/* A step at a word, unless it is the thread's own. */
static void step_at(const char *what, const void *word, size_t size)
{
    if (!memory_has(word))
        return;
    take_step(what);
    memory_touch(word, size);
}

/* What the buffer has is no step: memory isn't looked at. */
uint64_t word_load(const char *what, const void *word, size_t size)
{
    const struct store *own = own_store(word, size);
    if (own)
        return own->value;
    step_at(what, word, size);
    step_accesses(word, false);
    word_is_read(word);
    uint64_t value = read_word(word, size);
    trace("    %s is %llx\n", what, (unsigned long long)value);
    return value;
}

void word_store(const char *what, void *word, size_t size, uint64_t value, bool fenced)
{
    step_at(what, word, size);
    struct buffer *buffer = &buffers[running_thread()];
    if (buffer->count == MOST_STORES)
        drain(running_thread(), 1);
    buffer->stores[buffer->count++] = (struct store){what, word, size, value};
    step_accesses(word, true);
    trace("    %s := %llx\n", what, (unsigned long long)value);
    if (fenced || !memory_has(word) || running_thread() == 0)
        drain_all(running_thread());
}

/* A locked step begins: the word's value, in memory. */
static uint64_t locked(const char *what, void *word, size_t size)
{
    step_at(what, word, size);
    drain_all(running_thread());
    step_accesses(word, true);
    word_is_read(word);
    word_is_written(word);
    return read_word(word, size);
}

uint64_t word_exchange(const char *what, void *word, size_t size, uint64_t value)
{
    uint64_t before = locked(what, word, size);
    memcpy(word, &value, size);
    trace("    %s: %llx becomes %llx\n", what, (unsigned long long)before, (unsigned long long)value);
    return before;
}

bool word_compare_exchange(const char *what, void *word, void *expected, size_t size, uint64_t value)
{
    uint64_t before = locked(what, word, size);
    bool is_expected = before == read_word(expected, size);
    trace("    %s: %llx %s %llx\n", what, (unsigned long long)before, is_expected ? "becomes" : "doesn't become",
          (unsigned long long)value);
    memcpy(is_expected ? word : expected, is_expected ? &value : &before, size);
    return is_expected;
}

uint64_t word_fetch(const char *what, void *word, size_t size, enum word_arithmetic arithmetic, uint64_t value)
{
    uint64_t before = locked(what, word, size), after = before;
    switch (arithmetic) {
    case WORD_ADD: after += value; break;
    case WORD_SUBTRACT: after -= value; break;
    case WORD_OR: after |= value; break;
    case WORD_AND: after &= value; break;
    case WORD_XOR: after ^= value; break;
    }
    memcpy(word, &after, size);
    trace("    %s: %llx becomes %llx\n", what, (unsigned long long)before, (unsigned long long)after);
    return before;
}

void word_fence(const char *what)
{
    take_step(what);
    drain_all(running_thread());
    trace("    %s\n", what);
}
