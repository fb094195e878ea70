/* Loaded before a program's libraries, it refuses the program's Nth request for memory or for a thread, or all of them from the
   Nth on, until there is one for a MiB or more: the program says so that memory is there again. At the end of the program it says
   how many such requests there were, how many blocks of memory were left, and how many threads began. A request for memory is one
   to malloc and its like, or to mmap; each mapped page that is left counts as a block. Blocks that the C library takes to start a
   thread aren't counted, since it keeps them for the next one. N stands in REFUSE, with a + behind it where all from the Nth on
   are refused, and the number of the descriptor to say it on in REFUSED. */
#define _GNU_SOURCE
#include <dlfcn.h>
#include <errno.h>
#include <pthread.h>
#include <stdio.h>
#include <stdlib.h>
#include <string.h>
#include <sys/mman.h>
#include <sys/syscall.h>
#include <unistd.h>

void *__libc_malloc(size_t size);
void *__libc_calloc(size_t count, size_t size);
void *__libc_realloc(void *block, size_t size);
void *__libc_memalign(size_t alignment, size_t size);
void __libc_free(void *block);

static int (*create)(pthread_t *, const pthread_attr_t *, void *(*)(void *), void *);
static unsigned long refuse;
static int all_from;
static unsigned long asked;
static long left;
static unsigned long begun;
static int told = -1;

static __thread int starts_thread;
static void *kept[64];

__attribute__((constructor)) static void begin(void)
{
    create = dlsym(RTLD_NEXT, "pthread_create");
    char *rest;
    refuse = strtoul(getenv("REFUSE"), &rest, 10);
    all_from = *rest == '+';
    told = atoi(getenv("REFUSED"));
    asked = 0;
    left = 0;
    begun = 0;
}

__attribute__((destructor)) static void end(void)
{
    char text[96];
    int length = snprintf(text, sizeof text, "%lu %ld %lu\n", asked, left, begun);
    if (told >= 0 && write(told, text, (size_t)length) != length)
        abort();
    told = -1;
}

void _exit(int status)
{
    end();
    syscall(SYS_exit_group, status);
    __builtin_unreachable();
}

static int is_refused(size_t size)
{
    unsigned long number = __atomic_add_fetch(&asked, 1, __ATOMIC_SEQ_CST);
    if (size >= 1 << 20)
        __atomic_store_n(&all_from, 0, __ATOMIC_SEQ_CST);
    return number == refuse || (number > refuse && __atomic_load_n(&all_from, __ATOMIC_SEQ_CST));
}

static int is_exchanged(void **place, void *old, void *new)
{
    return __atomic_compare_exchange_n(place, &old, new, 0, __ATOMIC_SEQ_CST, __ATOMIC_SEQ_CST);
}

/* Puts a block in place of another among those that are kept, and says whether it was there. */
static int is_kept(void *old, void *new)
{
    for (size_t i = 0; i < sizeof kept / sizeof *kept; i++)
        if (is_exchanged(&kept[i], old, new))
            return 1;
    return 0;
}

static void *taken(void *block)
{
    if (block != NULL && !(starts_thread && is_kept(NULL, block)))
        __atomic_add_fetch(&left, 1, __ATOMIC_SEQ_CST);
    return block;
}

static void *none(void)
{
    errno = ENOMEM;
    return NULL;
}

void *malloc(size_t size)
{
    return is_refused(size) ? none() : taken(__libc_malloc(size));
}

void *calloc(size_t count, size_t size)
{
    return is_refused(count * size) ? none() : taken(__libc_calloc(count, size));
}

void *aligned_alloc(size_t alignment, size_t size)
{
    return is_refused(size) ? none() : taken(__libc_memalign(alignment, size));
}

void *realloc(void *block, size_t size)
{
    if (is_refused(size))
        return none();
    void *moved = __libc_realloc(block, size);
    return block == NULL ? taken(moved) : moved;
}

void free(void *block)
{
    if (block != NULL && !is_kept(block, NULL))
        __atomic_sub_fetch(&left, 1, __ATOMIC_SEQ_CST);
    __libc_free(block);
}

static long pages(size_t size)
{
    return (long)((size + 4095) / 4096);
}

void *mmap(void *at, size_t size, int protection, int flags, int file, off_t place)
{
    if (is_refused(size)) {
        none();
        return MAP_FAILED;
    }
    void *room = (void *)syscall(SYS_mmap, at, size, protection, flags, file, place);
    if (room != MAP_FAILED)
        __atomic_add_fetch(&left, pages(size), __ATOMIC_SEQ_CST);
    return room;
}

int munmap(void *room, size_t size)
{
    int error = (int)syscall(SYS_munmap, room, size);
    if (error == 0)
        __atomic_sub_fetch(&left, pages(size), __ATOMIC_SEQ_CST);
    return error;
}

int pthread_create(pthread_t *thread, const pthread_attr_t *attributes, void *(*start)(void *), void *argument)
{
    if (is_refused(0))
        return EAGAIN;
    starts_thread = 1;
    int error = create(thread, attributes, start, argument);
    starts_thread = 0;
    if (error == 0)
        __atomic_add_fetch(&begun, 1, __ATOMIC_SEQ_CST);
    return error;
}
