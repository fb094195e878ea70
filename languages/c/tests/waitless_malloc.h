/* A malloc that takes no lock, for a test that stops threads anywhere: blocks of a power of two, of one region of addresses, and for each
   size a list of those that are free, whose head is a place in the region and a count that no exchange meets twice. A block that is
   freed is overwritten, so that who reads it still finds no address. */
#ifndef WAITLESS_MALLOC_H
#define WAITLESS_MALLOC_H
#include <errno.h>
#include <stdatomic.h>
#include <stdint.h>
#include <stdlib.h>
#include <string.h>
#include <sys/mman.h>

enum { UNIT = 128, SIZES = 40 };
#define REGION ((size_t)1 << 36)

struct block {
    uint64_t size; /* its power of two, in units */
    _Atomic uint64_t next;
};

static char *_Atomic region;
static _Atomic uint64_t used = 1, heads[SIZES]; /* in units; a head's place in the lower half, 0 for none */

static struct block *block_at(uint64_t place) { return (struct block *)(region + (place & UINT32_MAX) * UNIT); }

static void map_region(void)
{
    char *none = NULL, *mapped = mmap(NULL, REGION, PROT_READ | PROT_WRITE, MAP_PRIVATE | MAP_ANONYMOUS | MAP_NORESERVE, -1, 0);
    if (mapped == MAP_FAILED)
        abort();
    if (!atomic_compare_exchange_strong(&region, &none, mapped))
        munmap(mapped, REGION);
}

/* A block's bytes come after its first unit, so they begin at a multiple of that. */
static void *take_block(size_t bytes)
{
    unsigned size = 0;
    while (((size_t)UNIT << size) < bytes + UNIT)
        size++;
    if (!region)
        map_region();
    uint64_t head = atomic_load(&heads[size]), next;
    do
        next = head & UINT32_MAX ? atomic_load(&block_at(head)->next) : 0;
    while (head & UINT32_MAX && !atomic_compare_exchange_weak(&heads[size], &head, ((head >> 32) + 1) << 32 | next));
    uint64_t place = head & UINT32_MAX ? head & UINT32_MAX : atomic_fetch_add(&used, UINT64_C(1) << size);
    if ((place + (UINT64_C(1) << size)) * UNIT > REGION)
        abort();
    block_at(place)->size = size;
    return (char *)block_at(place) + UNIT;
}

void *malloc(size_t bytes) { return take_block(bytes); }

void free(void *bytes)
{
    if (!bytes)
        return;
    struct block *block = (struct block *)((char *)bytes - UNIT);
    uint64_t place = (uint64_t)((char *)block - region) / UNIT, head = atomic_load(&heads[block->size]);
    memset(bytes, 0xdd, ((size_t)UNIT << block->size) - UNIT);
    do
        atomic_store(&block->next, head & UINT32_MAX);
    while (!atomic_compare_exchange_weak(&heads[block->size], &head, ((head >> 32) + 1) << 32 | place));
}

void *calloc(size_t count, size_t size)
{
    return memset(take_block(count * size), 0, count * size);
}

void *realloc(void *bytes, size_t size)
{
    void *other = malloc(size);
    if (bytes) {
        size_t had = ((size_t)UNIT << ((struct block *)((char *)bytes - UNIT))->size) - UNIT;
        memcpy(other, bytes, had < size ? had : size);
        free(bytes);
    }
    return other;
}

void *aligned_alloc(size_t alignment, size_t size)
{
    if (alignment > UNIT)
        abort();
    return malloc(size);
}

void *memalign(size_t alignment, size_t size) { return aligned_alloc(alignment, size); }

int posix_memalign(void **bytes, size_t alignment, size_t size)
{
    *bytes = aligned_alloc(alignment, size);
    return 0;
}
#endif
