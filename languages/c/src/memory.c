/* memory.c - the memory of libsamvolip.so and libsamvolip.a, in C and not proved. The linker puts its functions in place of those that
   the library's code calls (--wrap, by the file `links`). No call takes a lock or waits for another thread, whatever that does. A thread
   that is stopped for good within one keeps the block that it takes or gives, and the pages of one slab or large block at most.

   Large blocks, from 2 MiB on, are pages of the system, huge ones where Linux has some. All others lie in slabs. The blocks of a slab are
   of one size class; a bit for each says whether somebody has it. So a take and a give change a bit each, which is right however late it
   comes, and nobody reads what lies in a free block. With its last block a slab's pages go; those of two are kept for the next ones. A
   small slab is itself a block of a slab. All others, and large blocks, begin at a multiple of a huge page, a unit. A map of two levels
   tells for each unit whose it is: a slab's, a large block's, or nothing of this file.

   A shared word                   is written by                                          and read by
   leaves[]                        who needs a leaf first, once                           who looks what is at an address
   units[] of a leaf               who makes or gives back pages there                    who has a block there
   slabs of a class, `after`       who adds slabs, in front; none is taken out            who looks for a slab with room, or one to make
   near of a class                 who takes a block from another slab than that          who takes a block
   held of a slab                  adds 1: who is about to take a block; subtracts 1:     who looks for room, or for a slab to make;
                                   who gave one; CHANGES for 0 or NO_PAGES, and then      who gave the last block
                                   another number: who makes or unmakes the slab
   begin of a slab                 who has put CHANGES there                              who has a block of it, or takes one
   taken[] of a slab               its bit: who takes or gives a block; all: as `begin`   who takes one
   used of a size                  who takes or gives a large block of it                 who gives one
   kept[] of a size, or of slabs   who gives pages, for NULL; who takes them, NULL        the same */
#define _GNU_SOURCE
#include <stdatomic.h>
#include <stdbool.h>
#include <stdint.h>
#include <string.h>
#include <sys/mman.h>

#define PAGE ((size_t)1 << 12)
#define UNIT ((size_t)1 << 21)
#define SLAB ((size_t)1 << 23)
#define SMALL_SLAB ((size_t)1 << 18)
#define SMALL ((size_t)1 << 15)    /* the largest block of a small slab */
#define MIDDLING ((size_t)7 << 15) /* larger ones are of whole pages, and their slabs in huge pages */
#define KEPT ((size_t)1 << 24) /* the largest block that is kept */
#if !defined(OURS_FROM) && (defined(__SANITIZE_ADDRESS__) || defined(__SANITIZE_THREAD__))
#define OURS_FROM (MIDDLING + 1) /* smaller blocks are malloc's, which a sanitizer watches */
#elif !defined(OURS_FROM)
#define OURS_FROM 1
#endif

void *__real_malloc(size_t size);
void *__real_realloc(void *block, size_t size);
void __real_free(void *block);
void *__real_memset(void *at, int byte, size_t size);

/* A thread sanitizer that sees the program, and not the library, has to be told that what was done in a block comes before what its next
   owner does. Without one these are NULL. */
void __tsan_acquire(void *block) __attribute__((weak));
void __tsan_release(void *block) __attribute__((weak));

/* ---- what is at an address ----------------------------------------------------------------- */

/* For each unit of addresses: 0; the address of the slab that it is of; or 1 more than the size of the large block that it is of. */
enum { UNITS = 1 << 13, FIRST_LEAVES = 2 };
typedef struct leaf {
    _Atomic uintptr_t units[UNITS];
} leaf;
static leaf *_Atomic leaves[UNITS], first_leaves[FIRST_LEAVES];
static _Atomic unsigned leaves_made;

static void *new_zeros(size_t size)
{
    void *room = mmap(NULL, size, PROT_READ | PROT_WRITE, MAP_PRIVATE | MAP_ANONYMOUS, -1, 0);
    return room == MAP_FAILED ? NULL : room;
}

/* The leaf that somebody puts there first; NULL without memory. One that comes too late is left for good. */
static leaf *make_leaf(leaf *_Atomic *place)
{
    unsigned number = atomic_fetch_add_explicit(&leaves_made, 1, memory_order_relaxed);
    leaf *fresh = number < FIRST_LEAVES ? &first_leaves[number] : new_zeros(sizeof *fresh), *there = NULL;
    bool is_put = fresh && atomic_compare_exchange_strong_explicit(place, &there, fresh, memory_order_release, memory_order_acquire);
    return is_put ? fresh : there;
}

/* The word of an address's unit; NULL where there is no leaf, and none is to be made or can be. */
static _Atomic uintptr_t *unit_of(const void *at, bool makes)
{
    uintptr_t unit = (uintptr_t)at / UNIT, number = unit / UNITS; /* mmap gives addresses of 47 bits */
    leaf *in = number < UNITS ? atomic_load_explicit(&leaves[number], memory_order_acquire) : NULL;
    if (!in && makes)
        in = make_leaf(&leaves[number]);
    return in ? &in->units[unit % UNITS] : NULL;
}

static uintptr_t what_is_at(const void *at)
{
    _Atomic uintptr_t *unit = unit_of(at, false);
    return unit ? atomic_load_explicit(unit, memory_order_acquire) : 0;
}

/* Says what the whole units of some pages are of; false without memory. */
static bool is_told(const char *begin, size_t size, uintptr_t what)
{
    for (; size >= UNIT; begin += UNIT, size -= UNIT) {
        _Atomic uintptr_t *unit = unit_of(begin, true);
        if (!unit)
            return false;
        atomic_store_explicit(unit, what, memory_order_release);
    }
    return true;
}

/* ---- pages --------------------------------------------------------------------------------- */

/* Of slabs, or of large blocks of a size: pages that are kept for the next one; and how many such blocks are in use. */
typedef struct pages {
    _Atomic size_t used;
    char *_Atomic kept[2];
} pages;
static pages for_slabs, sizes[KEPT / PAGE + 1]; /* sizes[0] is of all that are too large to be kept */

/* Gives pages back to the system. Their units tell so before: once they are back, another's may come there. */
static void give_back(char *begin, size_t size)
{
    is_told(begin, size, 0);
    if (munmap(begin, size) != 0)
        madvise(begin, size, MADV_DONTNEED);
}

static char *take_kept(pages *of)
{
    char *first = atomic_exchange_explicit(&of->kept[0], NULL, memory_order_acquire);
    return first ? first : atomic_exchange_explicit(&of->kept[1], NULL, memory_order_acquire);
}

static bool is_kept(pages *of, char *begin)
{
    char *none = NULL, *no_other = NULL;
    return atomic_compare_exchange_strong_explicit(&of->kept[0], &none, begin, memory_order_release, memory_order_relaxed)
        || atomic_compare_exchange_strong_explicit(&of->kept[1], &no_other, begin, memory_order_release, memory_order_relaxed);
}

static void give_kept_back(pages *of, size_t size)
{
    for (char *kept; (kept = take_kept(of));)
        give_back(kept, size);
}

/* Pages that were kept, or new ones, which are all zero; their units tell what they are for. NULL without memory. They begin at a multiple
   of a unit: it takes room for one, and gives back what is before it and after the last page. */
static char *take_pages(pages *of, size_t size, uintptr_t what, bool are_huge)
{
    char *begin = take_kept(of), *room = begin ? NULL : new_zeros(size + UNIT);
    if (room) {
        size_t before = -(uintptr_t)room % UNIT;
        begin = room + before;
        if (before > 0)
            munmap(room, before);
        munmap(begin + size, UNIT - before);
        if (are_huge)
            madvise(begin, size, MADV_HUGEPAGE);
    }
    if (!begin || is_told(begin, size, what))
        return begin;
    give_back(begin, size);
    return NULL;
}

/* ---- large blocks -------------------------------------------------------------------------- */

static pages *of_size(size_t whole) { return &sizes[whole <= KEPT ? whole / PAGE : 0]; }

/* With the last block of a size those that are kept go. */
static void use_less(pages *of, size_t whole)
{
    if (atomic_fetch_sub_explicit(&of->used, 1, memory_order_acq_rel) == 1)
        give_kept_back(of, whole);
}

/* A block of whole pages; NULL where the system has none. */
static void *take_large(size_t whole)
{
    pages *of = of_size(whole);
    if (whole > SLAB)
        give_kept_back(&for_slabs, SLAB);
    atomic_fetch_add_explicit(&of->used, 1, memory_order_relaxed);
    char *block = take_pages(of, whole, whole + 1, true);
    if (!block)
        use_less(of, whole);
    return block;
}

/* If others of its size are in use, the block is kept for the next one, which then need not wait for the system to clear pages. */
static void give_large(char *block, size_t whole)
{
    pages *of = of_size(whole);
    if (whole > KEPT || atomic_load_explicit(&of->used, memory_order_relaxed) < 2 || !is_kept(of, block))
        give_back(block, whole);
    use_less(of, whole);
}

/* ---- slabs --------------------------------------------------------------------------------- */

/* A slab is never freed, nor of another class later; its pages come and go. */
typedef struct slab {
    _Alignas(64) struct slab *after;
    uint32_t each;
    uint16_t count, class; /* how many blocks it has */
    _Atomic uint64_t held; /* how many of them threads have, or are about to take or to give; or one of the next two */
    char *_Atomic begin;
    _Atomic uint64_t taken[4]; /* where there is no block a bit stays set; of a small slab they are in its head */
} slab;
#define NO_PAGES ((uint64_t)1 << 32)
#define CHANGES ((uint64_t)1 << 33) /* a thread makes or unmakes it */

/* How a small slab begins. Its last block ends with it. */
typedef struct head {
    slab *of;
    _Atomic uint64_t taken[];
} head;

/* A class for each size of blocks, and one of small slabs. */
enum { SMALL_SLABS = 503, CLASSES, FIRST_SLABS = 512, MORE_SLABS = PAGE / sizeof(slab) };
static slab *_Atomic slabs[CLASSES], *_Atomic near[CLASSES], first_slabs[FIRST_SLABS];
static _Atomic unsigned slabs_made;

static void *take(unsigned class, size_t each);
static void give(slab *to, char *block);

static bool is_small(const slab *one) { return one->each <= SMALL; }
static _Atomic uint64_t *taken_in(slab *one, char *begin) { return is_small(one) ? ((head *)(void *)begin)->taken : one->taken; }
static char *first_block(const slab *one, char *begin) { return is_small(one) ? begin + SMALL_SLAB - one->count * one->each : begin; }

/* The slab of a block in such a unit. */
static slab *slab_of(uintptr_t unit, const void *block)
{
    slab *outer = (slab *)unit;
    return outer->class == SMALL_SLABS ? ((head *)((uintptr_t)block & -SMALL_SLAB))->of : outer;
}

/* How many blocks a slab has. The head of a small one has a bit for each that would have room without it. */
static size_t count_of(size_t each)
{
    size_t head_size = sizeof(head) + (SMALL_SLAB / each + 63) / 64 * sizeof(uint64_t);
    return each <= SMALL ? (SMALL_SLAB - (head_size + 63) / 64 * 64) / each : SLAB / each;
}

/* Adds slabs without pages to a class, and returns one of them, which this thread changes; NULL without memory. */
static slab *add_slabs(unsigned class, size_t each)
{
    unsigned made = atomic_fetch_add_explicit(&slabs_made, 1, memory_order_relaxed), count = made < FIRST_SLABS ? 1 : MORE_SLABS;
    slab *fresh = count == 1 ? &first_slabs[made] : new_zeros(PAGE), *first = atomic_load_explicit(&slabs[class], memory_order_relaxed);
    if (!fresh)
        return NULL;
    for (unsigned i = 0; i < count; i++) {
        fresh[i].after = &fresh[i + 1];
        fresh[i].each = (uint32_t)each;
        fresh[i].count = (uint16_t)count_of(each);
        fresh[i].class = (uint16_t)class;
        atomic_store_explicit(&fresh[i].held, i == 0 ? CHANGES : NO_PAGES, memory_order_relaxed);
    }
    do
        fresh[count - 1].after = first;
    while (!atomic_compare_exchange_weak_explicit(&slabs[class], &first, fresh, memory_order_release, memory_order_relaxed));
    return fresh;
}

/* Whether a slab's count of blocks was this one, and this thread changes the slab now. */
static bool changes(slab *one, uint64_t from)
{
    return atomic_load_explicit(&one->held, memory_order_relaxed) == from
        && atomic_compare_exchange_strong_explicit(&one->held, &from, CHANGES, memory_order_acquire, memory_order_relaxed);
}

/* A new slab, of which this thread is about to take a block; NULL without memory. */
static slab *make_slab(unsigned class, size_t each)
{
    slab *one = atomic_load_explicit(&slabs[class], memory_order_acquire);
    while (one && !changes(one, NO_PAGES))
        one = one->after;
    if (!one && !(one = add_slabs(class, each)))
        return NULL;
    bool are_huge = each > MIDDLING && class != SMALL_SLABS;
    char *begin = is_small(one) ? take(SMALL_SLABS, SMALL_SLAB) : take_pages(&for_slabs, SLAB, (uintptr_t)one, are_huge);
    if (begin && is_small(one))
        ((head *)(void *)begin)->of = one;
    for (unsigned i = 0; begin && i < one->count; i += 64) {
        uint64_t no_blocks = one->count - i < 64 ? UINT64_MAX << (one->count - i) : 0;
        atomic_store_explicit(&taken_in(one, begin)[i / 64], no_blocks, memory_order_relaxed);
    }
    atomic_store_explicit(&one->begin, begin, memory_order_relaxed);
    atomic_store_explicit(&one->held, begin ? 1 : NO_PAGES, memory_order_release);
    return begin ? one : NULL;
}

/* Takes away the pages of a slab, if nobody has a block of it, nor is about to take one. */
static void unmake_slab(slab *one)
{
    if (!changes(one, 0))
        return;
    char *begin = atomic_load_explicit(&one->begin, memory_order_relaxed);
    if (is_small(one))
        give((slab *)what_is_at(begin), begin);
    else if (!is_kept(&for_slabs, begin))
        give_back(begin, SLAB);
    atomic_store_explicit(&one->held, NO_PAGES, memory_order_release);
}

/* Whether the slab has a block for this thread, which is counted then. An exchange fails where another thread has taken or given one. */
static bool has_room(slab *one)
{
    uint64_t held = atomic_load_explicit(&one->held, memory_order_relaxed);
    while (held < one->count)
        if (atomic_compare_exchange_weak_explicit(&one->held, &held, held + 1, memory_order_acquire, memory_order_relaxed))
            return true;
    return false;
}

/* Takes the lowest block that is free, so that few pages are touched. At each moment there is one, so a round that finds none has been
   overtaken by other threads' takes. */
static char *take_from(slab *one)
{
    char *begin = atomic_load_explicit(&one->begin, memory_order_relaxed);
    _Atomic uint64_t *taken = taken_in(one, begin);
    for (unsigned i = 0;; i = i + 64 < one->count ? i + 64 : 0) {
        uint64_t were = atomic_load_explicit(&taken[i / 64], memory_order_relaxed), block;
        while ((block = ~were & (were + 1)) != 0)
            if (atomic_compare_exchange_weak_explicit(&taken[i / 64], &were, were | block, memory_order_acquire, memory_order_relaxed))
                return first_block(one, begin) + (i + (size_t)__builtin_ctzll(block)) * one->each;
    }
}

/* A block of a class; NULL without memory. */
static void *take(unsigned class, size_t each)
{
    slab *last = atomic_load_explicit(&near[class], memory_order_acquire), *from = last;
    if (!from || !has_room(from)) {
        from = atomic_load_explicit(&slabs[class], memory_order_acquire);
        while (from && !has_room(from))
            from = from->after;
    }
    if (!from && !(from = make_slab(class, each)))
        return NULL;
    if (from != last)
        atomic_store_explicit(&near[class], from, memory_order_release);
    return take_from(from);
}

/* Gives a block back, and with the last one the pages of its slab. */
static void give(slab *to, char *block)
{
    char *begin = atomic_load_explicit(&to->begin, memory_order_relaxed);
    size_t at = (size_t)(block - first_block(to, begin)) / to->each;
    atomic_fetch_and_explicit(&taken_in(to, begin)[at / 64], ~((uint64_t)1 << at % 64), memory_order_release);
    if (atomic_fetch_sub_explicit(&to->held, 1, memory_order_release) == 1)
        unmake_slab(to);
}

__attribute__((destructor)) static void end(void) { give_kept_back(&for_slabs, SLAB); }

/* ---- what stands for the C library's ------------------------------------------------------- */

/* How large a block is that has so many bytes: four sizes for each power of two, or whole pages; and the class of such blocks. A block of
   a multiple of 2^k bytes, up to a page, begins at such a multiple, too. */
static size_t rounded(size_t size)
{
    size_t step = size > MIDDLING ? PAGE : size <= 256 ? 32 : (size_t)1 << (61 - __builtin_clzl(size - 1));
    return (size + step - 1) & -step;
}

static unsigned class_of(size_t each)
{
    if (each <= 256 || each > MIDDLING)
        return (unsigned)(each <= 256 ? each / 32 - 1 : each / PAGE - 10);
    unsigned power = 63 - (unsigned)__builtin_clzl(each - 1);
    return 4 * power + (unsigned)(each >> (power - 2)) - 29;
}

/* Clearing a large block from a unit on gives its pages back to the system: they are zero then, and cost nothing if nobody touched them. */
void *__wrap_memset(void *at, int byte, size_t size)
{
    bool is_large = byte == 0 && size >= UNIT && (uintptr_t)at % UNIT == 0 && what_is_at(at) % 2 == 1;
    size_t cleared = is_large && madvise(at, size / PAGE * PAGE, MADV_DONTNEED) == 0 ? size / PAGE * PAGE : 0;
    __real_memset((char *)at + cleared, byte, size - cleared);
    return at; /* so that it is a call and no jump: a thread sanitizer that doesn't see units knows blocks by this function */
}

void *__wrap_malloc(size_t size)
{
    if (size < OURS_FROM || size > PTRDIFF_MAX - UNIT)
        return size < OURS_FROM ? __real_malloc(size) : NULL;
    size_t each = rounded(size);
    void *block = size < UNIT ? take(class_of(each), each) : take_large(each);
    if (block != NULL && __tsan_acquire != NULL)
        __tsan_acquire(block);
    return block;
}

void *__wrap_calloc(size_t count, size_t each)
{
    size_t size;
    void *block = __builtin_mul_overflow(count, each, &size) ? NULL : __wrap_malloc(size);
    return block ? __wrap_memset(block, 0, size) : NULL;
}

void __wrap_free(void *block)
{
    uintptr_t what = what_is_at(block);
    if (what != 0 && __tsan_release != NULL)
        __tsan_release(block);
    if (what == 0)
        __real_free(block);
    else if (what % 2 == 1)
        give_large(block, what - 1);
    else
        give(slab_of(what, block), block);
}

/* What malloc gave stays with malloc, however much it grows. */
void *__wrap_realloc(void *block, size_t size)
{
    uintptr_t what = what_is_at(block);
    if (block != NULL && what == 0)
        return __real_realloc(block, size);
    size_t had = what % 2 == 1 ? what - 1 : block ? slab_of(what, block)->each : 0;
    if (size >= OURS_FROM && size <= had && rounded(size) == had)
        return block;
    void *other = __wrap_malloc(size);
    if (other != NULL && block != NULL) {
        memcpy(other, block, size < had ? size : had);
        __wrap_free(block);
    }
    return other;
}
