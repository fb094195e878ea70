/* A thread that is stopped for good just before an access that memory.c makes to a shared word, for each in a story of takes and gives of
   all kinds. Others tell the whole story then, so they don't wait for it. It is compiled with memory.c in it, whose accesses call
   `before_access`. */
#include <stdatomic.h>
static void before_access(void);
#undef atomic_load_explicit
#undef atomic_store_explicit
#undef atomic_exchange_explicit
#undef atomic_fetch_add_explicit
#undef atomic_fetch_sub_explicit
#undef atomic_fetch_and_explicit
#undef atomic_compare_exchange_strong_explicit
#undef atomic_compare_exchange_weak_explicit
#define atomic_load_explicit(at, order) (before_access(), __atomic_load_n(at, order))
#define atomic_store_explicit(at, value, order) (before_access(), __atomic_store_n(at, value, order))
#define atomic_exchange_explicit(at, value, order) (before_access(), __atomic_exchange_n(at, value, order))
#define atomic_fetch_add_explicit(at, value, order) (before_access(), __atomic_fetch_add(at, value, order))
#define atomic_fetch_sub_explicit(at, value, order) (before_access(), __atomic_fetch_sub(at, value, order))
#define atomic_fetch_and_explicit(at, value, order) (before_access(), __atomic_fetch_and(at, value, order))
#define atomic_compare_exchange_strong_explicit(at, old, value, order, other) \
    (before_access(), __atomic_compare_exchange_n(at, old, value, 0, order, other))
#define atomic_compare_exchange_weak_explicit(at, old, value, order, other) \
    (before_access(), __atomic_compare_exchange_n(at, old, value, 1, order, other))
#include "../src/memory.c"

#include "expect.h"

#include <pthread.h>
#include <semaphore.h>
#include <sys/prctl.h>
#include <sys/wait.h>
#include <unistd.h>

static _Thread_local int left; /* accesses until the thread stops */
static sem_t has_stopped;

static void before_access(void)
{
    if (left == 0 || --left > 0)
        return;
    sem_post(&has_stopped);
    for (;;)
        pause();
}

static void *filled(size_t size)
{
    unsigned char *block = __wrap_malloc(size);
    EXPECT(block != NULL);
    block[0] = block[size - 1] = (unsigned char)size;
    return block;
}

static void freed(unsigned char *block, size_t size)
{
    EXPECT(block[0] == (unsigned char)size && block[size - 1] == (unsigned char)size);
    __wrap_free(block);
}

/* Blocks of small, middling and large sizes, of some more than a slab has; a few are kept, cleared or moved. */
static void story(void)
{
    static const struct {
        size_t size;
        int count;
    } parts[] = {{40, 2}, {30000, 9}, {100000, 2}, {(size_t)1 << 20, 9}, {(size_t)3 << 20, 4}, {(size_t)9 << 20, 1}};
    void *blocks[9];
    for (unsigned i = 0; i < sizeof parts / sizeof *parts; i++) {
        size_t size = parts[i].size;
        for (int j = 0; j < parts[i].count; j++)
            blocks[j] = filled(size);
        freed(blocks[0], size);
        EXPECT((blocks[0] = __wrap_calloc(1, size)) != NULL && *(char *)blocks[0] == 0);
        EXPECT(size > MIDDLING || (blocks[0] = __wrap_realloc(blocks[0], 2 * size)) != NULL);
        __wrap_free(blocks[0]);
        for (int j = 1; j < parts[i].count; j++)
            freed(blocks[j], size);
    }
}

/* Tells the story, and stops before an access, or comes to the end. */
static void *stops(void *accesses)
{
    left = *(int *)accesses;
    story();
    *(int *)accesses = 0;
    sem_post(&has_stopped);
    return NULL;
}

/* Whether a thread of a new process has stopped so late in the story. Others tell it whole then, and it leaves little behind. */
static bool others_go_on(int accesses)
{
    int status;
    pid_t child = fork();
    EXPECT(child >= 0);
    if (child == 0) {
        pthread_t thread;
        alarm(60);
        EXPECT(sem_init(&has_stopped, 0, 0) == 0 && pthread_create(&thread, NULL, stops, &accesses) == 0);
        while (sem_wait(&has_stopped) != 0)
            continue;
        double before = expect_mebibytes().present;
        for (int i = 0; i < 3; i++)
            story();
        EXPECT(expect_mebibytes().present < before + 8); /* a slab */
        _exit(accesses == 0 ? 2 : 0);
    }
    EXPECT(waitpid(child, &status, 0) == child && WIFEXITED(status) && WEXITSTATUS(status) % 2 == 0);
    return WEXITSTATUS(status) == 0;
}

int main(void)
{
    int accesses = 1;
    EXPECT(prctl(PR_SET_THP_DISABLE, 1, 0, 0, 0) == 0); /* small pages are cleared faster */
    story();
    while (others_go_on(accesses))
        accesses++;
    EXPECT(accesses > 300);
    return 0;
}
