/* memory.c - the memory of what is checked: blocks in one array, at the same addresses in each execution. */
#include "checker.h"
#include <string.h>

enum { UNIT = 16, UNITS = MEMORY_SIZE / UNIT, MOST_BLOCKS = 1 << 12, FREED = 0xdd };

struct block {
    size_t first, units; /* in the array */
    bool is_taken;
};

static _Alignas(4096) unsigned char array[MEMORY_SIZE];
static uint16_t block_of[UNITS]; /* a unit's block; 0: none */
static struct block blocks[MOST_BLOCKS];
static struct {
    size_t units; /* that were ever in a block */
    unsigned count, taken;
    bool is_reused;
} memory;

void memory_begin(bool is_reused)
{
    memset(array, 0, memory.units * UNIT);
    memset(block_of, 0, memory.units * sizeof *block_of);
    memory.units = 0;
    memory.count = memory.taken = 0;
    memory.is_reused = is_reused;
}

unsigned memory_blocks(void)
{
    return memory.taken;
}

static struct block *freed_block(size_t units, size_t every)
{
    for (unsigned i = memory.count; memory.is_reused && i >= 1; i--)
        if (!blocks[i].is_taken && blocks[i].units == units && blocks[i].first % every == 0)
            return &blocks[i];
    return NULL;
}

static struct block *new_block(size_t units, size_t every)
{
    size_t first = (memory.units + every - 1) / every * every;
    if (first + units > UNITS || memory.count + 1 == MOST_BLOCKS)
        fail("the checker's memory is too small");
    struct block *block = &blocks[++memory.count];
    *block = (struct block){first, units, false};
    for (size_t unit = first; unit < first + units; unit++)
        block_of[unit] = (uint16_t)memory.count;
    memory.units = first + units;
    return block;
}

void *memory_take(size_t size, size_t alignment)
{
    size_t units = (size + UNIT - 1) / UNIT + (size == 0), every = alignment > UNIT ? alignment / UNIT : 1;
    step_conflicts();
    if (may_refuse())
        return NULL;
    struct block *block = freed_block(units, every);
    if (!block)
        block = new_block(units, every);
    block->is_taken = true;
    memory.taken++;
    return memset(array + block->first * UNIT, 0, units * UNIT);
}

bool memory_has(const void *address)
{
    return (uintptr_t)address - (uintptr_t)array < sizeof array;
}

size_t memory_offset(const void *address)
{
    return (uintptr_t)address - (uintptr_t)array;
}

/* The block of an address; NULL: it isn't in the array. */
static struct block *find(const void *address)
{
    if (!memory_has(address))
        return NULL;
    size_t at = memory_offset(address);
    if (block_of[at / UNIT] == 0)
        fail("address %p is in no block", address);
    return &blocks[block_of[at / UNIT]];
}

void memory_give(void *given)
{
    if (!given)
        return;
    struct block *block = find(given);
    if (!block || array + block->first * UNIT != given)
        fail("what is given back is no block: %p", given);
    if (!block->is_taken)
        fail("a block is given back twice: %p", given);
    block->is_taken = false;
    memory.taken--;
    step_conflicts();
    for (size_t at = 0; at < block->units * UNIT; at += sizeof(uint64_t))
        word_is_written((const char *)given + at);
    memset(given, FREED, block->units * UNIT);
}

void memory_touch(const void *address, size_t size)
{
    const struct block *block = find(address);
    if (!block)
        return;
    if (!block->is_taken)
        fail("memory is used that was given back: %p", address);
    if ((const unsigned char *)address + size > array + (block->first + block->units) * UNIT)
        fail("a block is used beyond its end: %p", address);
}

/* ---- what the compiler calls at plain accesses, by -fsanitize=thread ------------------------------ */

#define ACCESS(name, size) \
    void __tsan_##name(void *address); \
    void __tsan_##name(void *address) { memory_touch(address, size); }
ACCESS(read1, 1)
ACCESS(read2, 2)
ACCESS(read4, 4)
ACCESS(read8, 8)
ACCESS(read16, 16)
ACCESS(write1, 1)
ACCESS(write2, 2)
ACCESS(write4, 4)
ACCESS(write8, 8)
ACCESS(write16, 16)
ACCESS(unaligned_read2, 2)
ACCESS(unaligned_read4, 4)
ACCESS(unaligned_read8, 8)
ACCESS(unaligned_read16, 16)
ACCESS(unaligned_write2, 2)
ACCESS(unaligned_write4, 4)
ACCESS(unaligned_write8, 8)
ACCESS(unaligned_write16, 16)

void __tsan_read_range(void *address, size_t size);
void __tsan_read_range(void *address, size_t size)
{
    memory_touch(address, size);
}

void __tsan_write_range(void *address, size_t size);
void __tsan_write_range(void *address, size_t size)
{
    memory_touch(address, size);
}

void __tsan_init(void);
void __tsan_init(void) {}
void __tsan_func_entry(void *caller);
void __tsan_func_entry(void *caller) { (void)caller; }
void __tsan_func_exit(void);
void __tsan_func_exit(void) {}
