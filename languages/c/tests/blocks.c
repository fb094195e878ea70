/* The functions of src/memory.c by themselves. They are linked into this program as into the library, so they stand for its own
   malloc, calloc, realloc, free and memset, too (-fno-builtin leaves each of its calls a call): what blocks hold when they are new, when
   they move and when they are cleared, many blocks at once, blocks that aren't theirs, threads, threads that are stopped for good, forks,
   and memory that is refused.
       blocks [TURNS]          how often each of eight threads takes a block and frees another */
#define OURS_FROM 1
#include "../src/memory.c"

#include "expect.h"

#include <malloc.h>
#include <pthread.h>
#include <sched.h>
#include <signal.h>
#include <sys/prctl.h>
#include <sys/resource.h>
#include <sys/syscall.h>
#include <sys/wait.h>
#include <time.h>
#include <unistd.h>

enum { THREADS = 8, MANY = 1100, STOPPED = 300 };

#define MIB ((size_t)1 << 20)

#if !IS_SANITIZED
/* In place of the C library's: other threads get their turn just when the pages are free. */
int munmap(void *pages, size_t size)
{
    int error = (int)syscall(SYS_munmap, pages, size);
    sched_yield();
    return error;
}
#endif

static int is_all(const unsigned char *bytes, int byte, size_t size)
{
    return size == 0 || (bytes[0] == byte && memcmp(bytes, bytes + 1, size - 1) == 0);
}

static int is_large(const void *block)
{
    return (uintptr_t)block % (2 * MIB) == 0;
}

/* A block that begins at a multiple of the greatest power of two of which its size is one, up to a page. */
static unsigned char *taken(size_t size)
{
    unsigned char *block = malloc(size);
    size_t power = size & -size, most = power < 16 ? 16 : power < PAGE ? power : PAGE;
    EXPECT(block != NULL && (uintptr_t)block % most == 0);
    return block;
}

/* Each size has a class, and no two classes have the same. No more than a quarter of a block is left over, or 31 bytes. */
static void classes_of_sizes(void)
{
    size_t last = 0;
    unsigned classes_seen = 0;
    for (size_t size = 1; size < UNIT; size++) {
        size_t each = rounded(size);
        EXPECT(each >= size && each % 16 == 0 && (each - size < 32 || each - size < each / 5));
        if (each != last)
            EXPECT(class_of(each) == classes_seen++);
        EXPECT(class_of(each) == classes_seen - 1 && each >= last && count_of(each) >= 4);
        EXPECT(each <= SMALL || count_of(each) <= 256);
        last = each;
    }
    EXPECT(classes_seen == SMALL_SLABS && SLAB / SMALL_SLAB <= 256);
}

enum { SOME_SMALL = 20000 }; /* more than two slabs have room for */

/* Small ones of a size lie beside each other. What was given back is taken again, and no more addresses are. */
static void small_blocks(size_t size)
{
    static unsigned char *blocks[SOME_SMALL];
    const size_t some = size < 32 ? SOME_SMALL : 600000 / size + 3;
    double before = 0;
    for (int turn = 0; turn < 3; turn++) {
        for (size_t i = turn == 0 ? 0 : 1; i < some; i += turn == 0 ? 1 : 2)
            memset(blocks[i] = taken(size), (int)i, size);
        for (size_t i = 0; i < some; i++)
            EXPECT(is_all(blocks[i], (int)i % 256, size));
        EXPECT(turn > 0 || blocks[1] == blocks[0] + rounded(size));
        EXPECT(turn == 0 || IS_SANITIZED || expect_mebibytes().all == before);
        before = expect_mebibytes().all;
        for (size_t i = 1; i < some; i += 2)
            free(blocks[i]);
    }
    for (size_t i = 0; i < some; i += 2)
        free(blocks[i]);
}

static void zeroed_blocks(void)
{
    volatile size_t many = SIZE_MAX / 4;
    for (size_t size = 24; size < 10 * MIB; size *= 3) {
        unsigned char *block = memset(taken(size), 7, size);
        free(block);
        EXPECT((block = calloc(size / 8, 8)) != NULL && is_all(block, 0, size));
        free(block);
    }
    EXPECT(calloc(many, 5) == NULL && calloc(many / 2, 4) == NULL);
}

static void new_blocks(void)
{
    static const size_t sizes[] = {2 * MIB, 2 * MIB + 8, 3 * MIB - 1, 4 * MIB, 5 * MIB + 4097};
    for (int turn = 0; turn < 3; turn++)
        for (size_t i = 0; i < sizeof sizes / sizeof *sizes; i++) {
            unsigned char *block = taken(sizes[i]), *small = taken(MIB - 1);
            EXPECT(is_large(block) && is_all(block, 0, sizes[i]));
            memset(block, 1, sizes[i]);
            memset(small, 2, MIB - 1);
            EXPECT(is_all(block, 1, sizes[i]) && is_all(small, 2, MIB - 1));
            free(small);
            free(block);
        }
    EXPECT(malloc(SIZE_MAX / 2) == NULL);
    free(NULL);
}

/* Clears a part of a block that is full of ones; just this part is zero then. */
static void cleared_part(unsigned char *block, size_t whole, size_t from, size_t size)
{
    memset(block, 1, whole);
    EXPECT(memset(block + from, 0, size) == block + from);
    EXPECT(is_all(block, 1, from) && is_all(block + from, 0, size) && is_all(block + from + size, 1, whole - from - size));
}

static void clears(unsigned char *block, size_t whole)
{
    static const size_t sizes[] = {0, 1, 4096, MIB, 2 * MIB - 1, 2 * MIB, 2 * MIB + 8, 4 * MIB - 4096};
    for (size_t i = 0; i < sizeof sizes / sizeof *sizes; i++) {
        cleared_part(block, whole, 0, sizes[i]);
        cleared_part(block, whole, 16, sizes[i]);
        cleared_part(block, whole, 2 * MIB, sizes[i] / 2);
    }
    cleared_part(block, whole, 0, whole);
    memset(block, 0, whole);
    memset(block, 256, whole - 1);
    EXPECT(is_all(block, 0, whole));
    memset(block, 257, whole - 1);
    EXPECT(is_all(block, 1, whole - 1) && block[whole - 1] == 0);
}

static void cleared_blocks(void)
{
    unsigned char *block = taken(4 * MIB + 24);
    clears(block, 4 * MIB + 24);
    /* pages that are locked in memory aren't given back, and cleared nevertheless */
    int is_locked = mlock(block, 4 * MIB + 24) == 0;
    clears(block, 4 * MIB + 24);
    EXPECT(!is_locked || munlock(block, 4 * MIB + 24) == 0);
    free(block);
}

static void moved_blocks(void)
{
    static const size_t sizes[] = {1,           MIB / 4 - 1, MIB / 4, MIB / 2 + 16, 2 * MIB - 1, 2 * MIB, 3 * MIB + 5,
                                   3 * MIB + 6, 9 * MIB,     MIB + 1, 100,          127,         33000,   7000};
    for (size_t i = 0; i < sizeof sizes / sizeof *sizes; i++)
        for (size_t j = 0; j < sizeof sizes / sizeof *sizes; j++) {
            size_t both = sizes[i] < sizes[j] ? sizes[i] : sizes[j];
            unsigned char *block = taken(sizes[i]);
            memset(block, 3, sizes[i]);
            EXPECT((block = realloc(block, sizes[j])) != NULL && is_all(block, 3, both));
            memset(block, 4, sizes[j]);
            free(block);
        }
    for (size_t size = MIB; size <= 2 * MIB; size += MIB) {
        unsigned char *block = taken(size);
        memset(block, 5, size);
        EXPECT(realloc(block, SIZE_MAX / 2) == NULL && is_all(block, 5, size));
        free(block);
    }
    unsigned char *block;
    EXPECT((block = realloc(NULL, 2 * MIB)) != NULL);
    free(block);
}

/* In small pages, so that not all of them are taken. */
static void many_blocks(void)
{
    static unsigned char *blocks[MANY];
    EXPECT(prctl(PR_SET_THP_DISABLE, 1, 0, 0, 0) == 0);
    for (int turn = 0; turn < 2; turn++) {
        for (int i = 0; i < MANY; i++)
            *(blocks[i] = taken(2 * MIB + (size_t)i)) = (unsigned char)i;
        EXPECT((blocks[MANY - 1] = realloc(blocks[MANY - 1], 3 * MIB)) != NULL);
        memset(blocks[MANY - 2] + 1, 0, MIB);
        EXPECT((blocks[MANY - 3] = realloc(blocks[MANY - 3], MIB)) != NULL);
        for (int i = MANY - 1; i >= 0; i -= 2)
            EXPECT(*blocks[i] == (unsigned char)i);
        for (int i = 0; i < MANY; i++)
            free(blocks[i]);
    }
    EXPECT(prctl(PR_SET_THP_DISABLE, 0, 0, 0, 0) == 0);
}

/* Of a size that is in use two freed blocks are kept, and taken again in their order. With the last one of its size in use they go. */
static void kept_blocks(size_t size)
{
    unsigned char *blocks[4];
    for (int i = 0; i < 4; i++)
        memset(blocks[i] = taken(size), i + 1, size);
    double before = expect_mebibytes().all, mebibytes = (double)size / (double)MIB;
    for (int i = 0; i < 3; i++)
        free(blocks[i]);
    EXPECT(IS_SANITIZED || expect_mebibytes().all < before - mebibytes + 1);
    EXPECT(IS_SANITIZED || expect_mebibytes().all > before - 1.5 * mebibytes);
    EXPECT(taken(size) == blocks[0] && is_all(blocks[0], 1, size));
    EXPECT(taken(size) == blocks[1] && is_all(blocks[1], 2, size));
    memset(blocks[1], 0, size);
    EXPECT(is_all(blocks[1], 0, size));
    free(blocks[1]);
    free(blocks[3]);
    free(blocks[0]);
    EXPECT(IS_SANITIZED || expect_mebibytes().all < before - 4 * mebibytes + 1);
}

enum { SOME = 100 }; /* more than two slabs have room for */

/* Those of a middling size lie beside each other, the lowest free one first, and their pages go with the last of them, but for those
   of two slabs, which are kept for the next ones, also of another size. */
static void middling_blocks(size_t size)
{
    static unsigned char *blocks[SOME];
    const size_t each = (size + 4095) / 4096 * 4096, count = 8 * MIB / each, some = SOME / count * count;
    for (size_t i = 0; i < 33; i++)
        blocks[i] = taken(MIB / 4);
    unsigned char *kept[] = {blocks[0], blocks[32]};
    for (size_t i = 0; i < 33; i++)
        free(blocks[i]);
    double before = expect_mebibytes().all;
    for (size_t i = 0; i < some; i++) {
        blocks[i] = taken(size);
        EXPECT(i % count == 0 ? is_large(blocks[i]) : blocks[i] == blocks[i - 1] + each);
        EXPECT(i < 2 * count ? blocks[i] == kept[i / count] + i % count * each : is_all(blocks[i], 0, size));
        memset(blocks[i], (int)i + 1, size);
    }
    for (size_t i = 0; i < some; i++)
        EXPECT(is_all(blocks[i], (int)i + 1, size));
    free(blocks[2]);
    free(blocks[1]);
    EXPECT(taken(size) == blocks[1] && taken(size) == blocks[2] && is_all(blocks[2], 3, size));
    memset(blocks[2] + 1, 0, size - 2);
    EXPECT(blocks[2][0] == 3 && is_all(blocks[2] + 1, 0, size - 2) && blocks[2][size - 1] == 3);
    for (size_t i = 0; i < some; i++)
        free(blocks[i]);
    EXPECT(IS_SANITIZED || expect_mebibytes().all < before + 1);
}

/* Larger ones aren't kept. */
static void blocks_that_are_too_large_to_keep(void)
{
    unsigned char *one = taken(16 * MIB + 4096), *other = taken(16 * MIB + 4096);
    memset(one, 1, 16 * MIB);
    double before = expect_mebibytes().all;
    free(one);
    EXPECT(IS_SANITIZED || expect_mebibytes().all < before - 15);
    EXPECT(is_all(one = taken(16 * MIB + 4096), 0, 16 * MIB + 4096));
    free(one);
    free(other);
}

/* Blocks of another allocator that begin where large blocks do. */
static void blocks_of_others(void)
{
    unsigned char *block = aligned_alloc(2 * MIB, 4 * MIB);
    EXPECT(block != NULL && is_large(block));
    clears(block, 4 * MIB);
    free(block);
    block = aligned_alloc(2 * MIB, 2 * MIB);
    EXPECT(block != NULL);
    memset(block, 6, 2 * MIB);
    EXPECT((block = realloc(block, 5 * MIB)) != NULL && is_all(block, 6, 2 * MIB));
    free(block);
}

struct taker {
    pthread_t thread;
    unsigned char mark;
    int turns;
};

/* Takes, clears and frees blocks by turns with others. A block is marked at both ends. */
static void *takes_blocks(void *given)
{
    struct taker *taker = given;
    unsigned char *blocks[4] = {NULL};
    size_t sizes[4];
    uint64_t state = UINT64_C(88172645463325252) + taker->mark;
    for (int i = 0; i < taker->turns; i++) {
        state ^= state << 13;
        state ^= state >> 7;
        state ^= state << 17;
        int at = (int)(state % 4);
        unsigned char *block = blocks[at];
        if (block != NULL) {
            EXPECT(block[0] == taker->mark && block[sizes[at] - 1] == taker->mark);
            memset(block, 0, sizes[at] - 1);
            EXPECT(block[0] == 0 && block[sizes[at] - 1] == taker->mark);
            free(block);
        }
        sizes[at] = 2 * MIB + state / 4 % (state % 16 < 8 ? 8 : MIB); /* often of one size, so that freed blocks are kept and taken */
        if (state / 16 % 2)
            sizes[at] = MIB / 4 + state / 32 % 3 * 4096; /* few of each, so that slabs come and go */
        blocks[at] = block = taken(sizes[at]);
        block[0] = block[sizes[at] - 1] = taker->mark;
    }
    for (int i = 0; i < 4; i++)
        free(blocks[i]);
    return NULL;
}

static void in_threads(int turns)
{
    struct taker takers[THREADS];
    for (int i = 0; i < THREADS; i++) {
        takers[i].mark = (unsigned char)(i + 1);
        takers[i].turns = turns;
        EXPECT(pthread_create(&takers[i].thread, NULL, takes_blocks, &takers[i]) == 0);
    }
    for (int i = 0; i < THREADS; i++)
        EXPECT(pthread_join(takers[i].thread, NULL) == 0);
}

/* ---- blocks of all sizes that go from thread to thread ---------------------------------------- */

/* How many turns each of some threads has made, which go on until they are told to end. */
struct churner {
    pthread_t thread;
    uint64_t state;
    _Atomic int turns;
};
static struct churner churners[3];
static _Atomic bool is_over;
static unsigned char *_Atomic passed[64]; /* each begins with its size, and is else full of one byte */

static uint64_t drawn(uint64_t *state)
{
    *state ^= *state << 13;
    *state ^= *state >> 7;
    return *state ^= *state << 17;
}

static void check_and_free(unsigned char *block)
{
    size_t size;
    if (block == NULL)
        return;
    memcpy(&size, block, sizeof size);
    EXPECT(is_all(block + sizeof size, block[sizeof size], size - sizeof size));
    free(block);
}

/* Takes a block of any size, mostly a small one, and leaves it in place of another, which it frees. */
static void pass_one(uint64_t *state)
{
    size_t most = (size_t)1 << (drawn(state) % 64 ? 5 + drawn(state) % 11 : 22), size = 16 + drawn(state) % most;
    unsigned char *block = malloc(size);
    if (block != NULL) {
        memcpy(block, &size, sizeof size);
        memset(block + sizeof size, (int)drawn(state), size - sizeof size);
    }
    check_and_free(atomic_exchange_explicit(&passed[drawn(state) % 64], block, memory_order_acq_rel));
}

static void *churns(void *given)
{
    struct churner *mine = given;
    while (!atomic_load_explicit(&is_over, memory_order_relaxed)) {
        pass_one(&mine->state);
        atomic_fetch_add_explicit(&mine->turns, 1, memory_order_relaxed);
    }
    return NULL;
}

static void begin_churning(void)
{
    atomic_store_explicit(&is_over, false, memory_order_relaxed);
    for (unsigned i = 0; i < 3; i++) {
        churners[i].state = 88172645463325252 + i;
        EXPECT(pthread_create(&churners[i].thread, NULL, churns, &churners[i]) == 0);
    }
}

/* Each of the threads makes so many turns more. */
static void expect_turns(int turns)
{
    for (int i = 0; i < 3; i++) {
        int before = atomic_load_explicit(&churners[i].turns, memory_order_relaxed);
        while (atomic_load_explicit(&churners[i].turns, memory_order_relaxed) - before < turns)
            nanosleep(&(struct timespec){.tv_nsec = 20000}, NULL);
    }
}

static void end_churning(void)
{
    atomic_store_explicit(&is_over, true, memory_order_relaxed);
    for (int i = 0; i < 3; i++)
        EXPECT(pthread_join(churners[i].thread, NULL) == 0);
    for (int i = 0; i < 64; i++)
        check_and_free(atomic_exchange_explicit(&passed[i], NULL, memory_order_acq_rel));
}

static void passed_blocks(int turns)
{
    begin_churning();
    expect_turns(5 * turns);
    end_churning();
}

/* ---- in a process of its own --------------------------------------------------------------- */

/* Runs a function in a forked process, which has to end well within a minute. */
static void in_child(void (*run)(void))
{
    int status;
    pid_t child = fork();
    EXPECT(child >= 0);
    if (child == 0) {
        alarm(60);
        run();
        _exit(0);
    }
    EXPECT(waitpid(child, &status, 0) == child && status == 0);
}

static _Thread_local volatile sig_atomic_t is_within;
static _Atomic int stopped;

static void stops_for_good(int signal)
{
    (void)signal;
    if (!is_within)
        return;
    atomic_fetch_add_explicit(&stopped, 1, memory_order_relaxed);
    for (;;)
        pause();
}

static void *takes_until_stopped(void *given)
{
    uint64_t state = 88172645463325252 + (uintptr_t)given;
    while (!is_within) {
        size_t size = (size_t)1 << drawn(&state) % (drawn(&state) % 64 ? 21 : 23);
        is_within = 1;
        void *block = malloc(size);
        free(block);
        is_within = 0;
    }
    return NULL;
}

/* Threads are stopped for good within a take or a give, one after another, by a signal. Another goes on. What those had in hand is lost,
   and all else is used again. */
static void stopped_threads(void)
{
    const struct sigaction action = {.sa_handler = stops_for_good};
    pthread_attr_t attributes;
    uint64_t state = 88172645463325252;
    EXPECT(sigaction(SIGUSR1, &action, NULL) == 0);
    EXPECT(pthread_attr_init(&attributes) == 0 && pthread_attr_setstacksize(&attributes, 1 << 16) == 0);
    double before = expect_mebibytes().present;
    for (int i = 0; i < STOPPED; i++) {
        pthread_t thread;
        EXPECT(pthread_create(&thread, &attributes, takes_until_stopped, (void *)(uintptr_t)i) == 0);
        while (atomic_load_explicit(&stopped, memory_order_relaxed) == i) {
            nanosleep(&(struct timespec){.tv_nsec = 1 + i * 7919 % 20000}, NULL);
            EXPECT(pthread_kill(thread, SIGUSR1) == 0);
        }
        for (int turn = 0; turn < 50; turn++)
            pass_one(&state);
    }
    EXPECT(expect_mebibytes().present < before + STOPPED / 2);
}

/* A child has the blocks of its parent, whose threads may have vanished within a take or a give. It takes and gives blocks, too. */
static void churns_on(void)
{
    uint64_t state = 88172645463325252;
    for (int i = 0; i < 50; i++)
        pass_one(&state);
    for (int i = 0; i < 64; i++)
        check_and_free(atomic_exchange_explicit(&passed[i], NULL, memory_order_acq_rel));
}

static void forks(void)
{
    begin_churning();
    for (int i = 0; i < 20; i++)
        in_child(churns_on);
    end_churning();
}

/* Where memory is refused, all blocks stay as they are; and once they are given back, as many can be taken again. */
static void refused_blocks(void)
{
    enum { MOST = 100000 };
    static unsigned char *blocks[MOST];
    static const size_t sizes[] = {48, 3000, 20000, 100000, MIB, 3 * MIB};
    struct rlimit limit;
    EXPECT(getrlimit(RLIMIT_AS, &limit) == 0);
    limit.rlim_cur = (rlim_t)(expect_mebibytes().all + 40) * MIB;
    EXPECT(setrlimit(RLIMIT_AS, &limit) == 0);
    for (size_t i = 0; i < sizeof sizes / sizeof *sizes; i++) {
        int counts[2] = {0, 0};
        for (int turn = 0; turn < 2; turn++) {
            int *count = &counts[turn];
            for (; *count < MOST && (blocks[*count] = malloc(sizes[i])) != NULL; ++*count)
                memset(blocks[*count], *count, sizes[i]);
            EXPECT(*count == MOST || calloc(1, sizes[i]) == NULL);
            EXPECT(*count > 0 && realloc(blocks[0], 50 * MIB) == NULL);
            for (int one = 0; one < *count; one++) {
                EXPECT(is_all(blocks[one], one % 256, sizes[i]));
                free(blocks[one]);
            }
        }
        EXPECT(counts[0] <= counts[1]);
    }
}

int main(int count, char **words)
{
    int turns = count > 1 ? atoi(words[1]) : 2000;
    mallopt(M_MMAP_THRESHOLD, 1 << 17); /* so that malloc's large blocks go back, too */
    in_threads(10);                     /* whose stacks stay */
    free(taken(9 * MIB));               /* and no slab */
    double before = expect_mebibytes().all;
    classes_of_sizes();
    for (size_t size = 1; size <= SMALL; size += size / 3 + 1) {
        small_blocks(size);
        small_blocks((size + 127) & -(size_t)128);
    }
    zeroed_blocks();
    new_blocks();
    cleared_blocks();
    moved_blocks();
    many_blocks();
    kept_blocks(2 * MIB);
    kept_blocks(16 * MIB);
    middling_blocks(MIB / 4);
    middling_blocks(MIB / 2 + 24);
    middling_blocks(MIB + 24);
    middling_blocks(2 * MIB - 1);
    double with_slabs = expect_mebibytes().all;
    blocks_that_are_too_large_to_keep();
    EXPECT(IS_SANITIZED || expect_mebibytes().all < with_slabs - 15);
    blocks_of_others();
    in_threads(turns);
    passed_blocks(turns);
    free(taken(9 * MIB));
    EXPECT(expect_mebibytes().all < before + 1);
    if (!IS_SANITIZED) {
        in_child(stopped_threads);
        in_child(refused_blocks);
        forks();
    }
    printf("blocks: well\n");
    return 0;
}
