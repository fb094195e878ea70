/* Pins and retired objects of samvolip_objects.h: when they are freed, and that each is freed once; ends of threads, nested pins,
   functions that call the map, handlers, forks, the figures; and readers and writers with renewals meanwhile.

       objects [ROUNDS]      how often each of the threads writes: 100000 */
#define _GNU_SOURCE
#include "samvolip_objects.h"
#include "expect.h"
#include <pthread.h>
#include <signal.h>
#include <stdatomic.h>
#include <stdbool.h>
#include <string.h>
#include <sys/wait.h>
#include <unistd.h>

enum { BATCH = 62, MANY = 8 };

static unsigned long rounds = 100000;

/* An object that tells whether it is whole. */
typedef struct object {
    uint64_t key, check;
} object;

static atomic_ullong made, freed;

static object *new_object(uint64_t key)
{
    object *fresh = malloc(sizeof *fresh);
    EXPECT(fresh != NULL);
    *fresh = (object){key, ~key};
    made++;
    return fresh;
}

static void free_object(void *pointer)
{
    object *gone = pointer;
    __tsan_acquire(gone);
    EXPECT(gone->check == ~gone->key);
    gone->check = gone->key;
    freed++;
    free(gone);
}

static samvolip_map *opened(void)
{
    samvolip_map *map;
    made = freed = 0;
    EXPECT(samvolip_map_open(NULL, &map) == SAMVOLIP_OK);
    return map;
}

static void show_object(void *unused, uint64_t key, uint64_t number)
{
    (void)unused;
    EXPECT(((object *)number)->key == key);
    free_object((void *)number);
}

/* Frees a map, with the objects that are in it; none is lost, and none freed twice. */
static void end(samvolip_map *map)
{
    EXPECT(samvolip_map_each(map, show_object, NULL) == SAMVOLIP_OK);
    samvolip_map_free(map);
    EXPECT(made == freed);
}

static object *get(samvolip_map *map, uint64_t key)
{
    uint64_t number;
    if (samvolip_map_get(map, key, &number) != SAMVOLIP_PRESENT)
        return NULL;
    __tsan_acquire((void *)number);
    return (object *)number;
}

static void put(samvolip_map *map, uint64_t key)
{
    uint64_t before;
    object *fresh = new_object(key);
    EXPECT(samvolip_map_ready(map) == SAMVOLIP_OK);
    __tsan_release(fresh);
    if (samvolip_map_put(map, key, (uint64_t)fresh, &before) == SAMVOLIP_PRESENT)
        EXPECT(samvolip_map_retire(map, (void *)before, free_object) == SAMVOLIP_OK);
}

static void erase(samvolip_map *map, uint64_t key)
{
    uint64_t before;
    if (samvolip_map_remove(map, key, &before) == SAMVOLIP_PRESENT)
        EXPECT(samvolip_map_retire(map, (void *)before, free_object) == SAMVOLIP_OK);
}

static samvolip_object_figures figures_of(samvolip_map *map)
{
    samvolip_object_figures figures;
    EXPECT(samvolip_map_look_at_objects(map, &figures) == SAMVOLIP_OK);
    return figures;
}

static void has(samvolip_map *map, uint64_t retired, uint64_t waiting)
{
    samvolip_object_figures figures = figures_of(map);
    EXPECT(figures.retired == retired && figures.waiting == waiting && freed == retired - waiting);
}

/* Runs this on a thread of its own, and waits for its end. */
static void on_thread(void *(*work)(void *), void *with)
{
    pthread_t thread;
    EXPECT(pthread_create(&thread, NULL, work, with) == 0 && pthread_join(thread, NULL) == 0);
}

/* ---- one thread ---------------------------------------------------------------------------- */

static void frees_what_no_pin_keeps(void)
{
    samvolip_map *map = opened();
    put(map, 7);
    put(map, 7);
    has(map, 1, 1);
    EXPECT(samvolip_map_collect(map) == SAMVOLIP_OK);
    has(map, 1, 0);

    /* pins nest, and each keeps what is retired while it stands */
    EXPECT(samvolip_map_pin(map) == SAMVOLIP_OK && samvolip_map_pin(map) == SAMVOLIP_OK);
    object *seen = get(map, 7);
    erase(map, 7);
    for (int pins = 2; pins > 0; pins--) {
        samvolip_map_collect(map);
        has(map, 2, 1);
        EXPECT(seen->check == ~UINT64_C(7) && figures_of(map).oldest_pin > 0);
        samvolip_map_unpin(map);
    }
    EXPECT(figures_of(map).oldest_pin == 0);
    samvolip_map_unpin(map); /* does nothing */
    samvolip_map_collect(map);
    has(map, 2, 0);

    /* also what wasn't shown, and the time counts from the first look on */
    samvolip_map_pin(map);
    EXPECT(figures_of(map).oldest_pin == 0); /* it keeps nothing */
    put(map, 7);
    put(map, 7);
    uint64_t first = figures_of(map).oldest_pin;
    usleep(2000);
    EXPECT(first > 0 && figures_of(map).oldest_pin >= 2000000);
    samvolip_map_unpin(map);
    EXPECT(figures_of(map).waiting == 1 && figures_of(map).oldest_pin == 0);
    samvolip_map_pin(map); /* another pin, of which nothing is known yet */
    EXPECT(figures_of(map).oldest_pin > 0 && figures_of(map).oldest_pin < 2000000000);
    samvolip_map_unpin(map);
    erase(map, 7);
    samvolip_map_collect(map);
    has(map, 4, 0);

    /* a pin that begins after an object was shown doesn't keep it */
    put(map, 8);
    samvolip_map_pin(map);
    erase(map, 8);
    samvolip_map_collect(map);
    samvolip_map_unpin(map);
    samvolip_map_pin(map);
    samvolip_map_collect(map);
    has(map, 5, 0);
    samvolip_map_unpin(map);
    end(map);
}

/* What another thread has retired, and hasn't shown yet, is told, too. */
static pthread_barrier_t shown;

static void *retires_and_waits(void *map)
{
    put(map, 1);
    put(map, 1);
    pthread_barrier_wait(&shown);
    pthread_barrier_wait(&shown);
    return NULL;
}

static void tells_of_other_threads(void)
{
    samvolip_map *map = opened();
    pthread_t thread;
    pthread_barrier_init(&shown, NULL, 2);
    EXPECT(pthread_create(&thread, NULL, retires_and_waits, map) == 0);
    pthread_barrier_wait(&shown);
    EXPECT(figures_of(map).waiting == 1 && figures_of(map).oldest_pin == 0);
    samvolip_map_pin(map);
    EXPECT(figures_of(map).oldest_pin > 0);
    usleep(2000);
    EXPECT(figures_of(map).oldest_pin >= 2000000 && figures_of(map).waiting == 1);
    samvolip_map_unpin(map);
    EXPECT(figures_of(map).oldest_pin == 0);
    pthread_barrier_wait(&shown);
    EXPECT(pthread_join(thread, NULL) == 0);
    end(map);
}

/* Without a call of collect: one batch and no more waits, as long as nobody pins; and under a pin all wait, and writes go on. */
static void frees_by_itself(void)
{
    samvolip_map *map = opened();
    put(map, 1);
    for (int i = 0; i < 10000; i++) {
        put(map, 1);
        EXPECT(figures_of(map).waiting < BATCH);
    }
    uint64_t freed_before = freed;
    samvolip_map_pin(map);
    for (int i = 0; i < 10000; i++)
        put(map, 1);
    EXPECT(freed == freed_before && figures_of(map).waiting >= 10000);
    samvolip_map_unpin(map);
    for (int i = 0; i < BATCH; i++)
        put(map, 1);
    EXPECT(figures_of(map).waiting < BATCH);
    samvolip_map_pin(map);
    for (int i = 0; i < 1000; i++)
        put(map, 1);
    samvolip_map_unpin(map);
    end(map); /* with things retired */
}

/* A compare-and-exchange under a pin never meets another object at the same address. */
static void keeps_addresses(void)
{
    samvolip_map *map = opened();
    put(map, 1);
    samvolip_map_pin(map);
    uint64_t seen = (uint64_t)get(map, 1);
    for (int i = 0; i < 1000; i++) {
        put(map, 1);
        EXPECT((uint64_t)get(map, 1) != seen && samvolip_map_remove_if(map, 1, seen) == 0);
    }
    samvolip_map_unpin(map);
    end(map);
}

/* ---- functions that free ------------------------------------------------------------------- */

static samvolip_map *called;
static int depth;

/* Each of them puts, retires, pins and collects in its turn. */
static void free_and_call(void *pointer)
{
    uint64_t key = ((object *)pointer)->key;
    free_object(pointer);
    EXPECT(samvolip_map_pin(called) == SAMVOLIP_OK);
    put(called, 1000 + key);
    samvolip_map_unpin(called);
    EXPECT(samvolip_map_collect(called) == SAMVOLIP_OK);
}

/* Each of them retires the next one, and collects; but they don't lie in one another. */
static void free_and_retire(void *pointer)
{
    uint64_t key = ((object *)pointer)->key;
    EXPECT(++depth == 1);
    free_object(pointer);
    if (key > 0)
        EXPECT(samvolip_map_retire(called, new_object(key - 1), free_and_retire) == SAMVOLIP_OK);
    EXPECT(samvolip_map_collect(called) == SAMVOLIP_OK);
    depth--;
}

static void functions_call_the_map(void)
{
    called = opened();
    for (uint64_t i = 0; i < 1000; i++)
        EXPECT(samvolip_map_retire(called, new_object(i % 100), free_and_call) == SAMVOLIP_OK);
    samvolip_map_collect(called);
    samvolip_map_collect(called);
    samvolip_map_collect(called);
    samvolip_object_figures figures = figures_of(called);
    EXPECT(figures.waiting == 0 && figures.retired == 1900);
    for (uint64_t i = 0; i < 200; i++)
        EXPECT(samvolip_map_retire(called, new_object(i % 5), free_and_retire) == SAMVOLIP_OK);
    samvolip_map_collect(called);
    end(called); /* with those that they have retired */
}

/* ---- threads ------------------------------------------------------------------------------- */

static void *retires_and_ends(void *map)
{
    for (uint64_t i = 0; i < 30; i++)
        put(map, i % 10);
    return NULL;
}

static void *pins_and_ends(void *map)
{
    samvolip_map_pin(map);
    samvolip_map_pin(map);
    samvolip_map_unpin(map);
    return NULL;
}

static void ends_of_threads(void)
{
    samvolip_map *map = opened();
    on_thread(retires_and_ends, map); /* what it has retired others free */
    has(map, 20, 20);
    samvolip_map_collect(map);
    has(map, 20, 0);
    on_thread(pins_and_ends, map); /* it leaves its pin behind */
    for (int i = 0; i < 10; i++)
        on_thread(retires_and_ends, map); /* no thread gets the place of that pin */
    samvolip_map_collect(map);
    has(map, 320, 300);
    EXPECT(figures_of(map).oldest_pin > 0);
    end(map);

    /* maps whose places share a cell, and a thread that outlives one of them */
    samvolip_map *maps[20];
    for (int i = 0; i < 20; i++)
        maps[i] = opened();
    for (int i = 0; i < 20; i++) {
        samvolip_map_pin(maps[i]);
        put(maps[i], 1);
        put(maps[i], 1);
    }
    for (int i = 0; i < 20; i++) {
        samvolip_map_collect(maps[i]);
        EXPECT(figures_of(maps[i]).waiting == 1);
    }
    for (int i = 0; i < 20; i++) {
        samvolip_map_unpin(maps[i]);
        samvolip_map_collect(maps[i]);
        EXPECT(figures_of(maps[i]).waiting == 0);
        EXPECT(samvolip_map_each(maps[i], show_object, NULL) == SAMVOLIP_OK);
        samvolip_map_free(maps[i]);
    }
    EXPECT(made == freed);
}

/* More threads than have a seat of their own, and pins at once. */
static pthread_barrier_t barrier;

static void *pins_with_others(void *map)
{
    samvolip_map_pin(map);
    pthread_barrier_wait(&barrier);
    object *seen = get(map, 1);
    EXPECT(seen != NULL);
    pthread_barrier_wait(&barrier); /* it is taken out */
    pthread_barrier_wait(&barrier);
    EXPECT(seen->check == ~UINT64_C(1));
    samvolip_map_unpin(map);
    return NULL;
}

static void many_threads_pin(void)
{
    enum { THREADS = 300 };
    pthread_t threads[THREADS];
    samvolip_map *map = opened();
    put(map, 1);
    EXPECT(pthread_barrier_init(&barrier, NULL, THREADS + 1) == 0);
    for (int i = 0; i < THREADS; i++)
        EXPECT(pthread_create(&threads[i], NULL, pins_with_others, map) == 0);
    pthread_barrier_wait(&barrier);
    pthread_barrier_wait(&barrier);
    erase(map, 1);
    samvolip_map_collect(map);
    has(map, 1, 1);
    pthread_barrier_wait(&barrier);
    for (int i = 0; i < THREADS; i++)
        EXPECT(pthread_join(threads[i], NULL) == 0);
    samvolip_map_collect(map);
    has(map, 1, 0);
    pthread_barrier_destroy(&barrier);
    end(map);
}

/* ---- readers and writers ------------------------------------------------------------------- */

enum { KEYS = 64, READERS = 3, WRITERS = 3 };

static atomic_bool is_over;

static uint64_t next(uint64_t *state)
{
    *state ^= *state << 13;
    *state ^= *state >> 7;
    return *state ^= *state << 17;
}

static void *reads(void *map)
{
    uint64_t state = (uint64_t)&state | 1;
    while (!is_over) {
        const object *seen[8];
        samvolip_map_pin(map);
        for (int i = 0; i < 8; i++) {
            uint64_t key = next(&state) % KEYS;
            seen[i] = get(map, key);
            EXPECT(!seen[i] || (seen[i]->key == key && seen[i]->check == ~key));
        }
        for (int i = 0; i < 8; i++)
            EXPECT(!seen[i] || seen[i]->check == ~seen[i]->key);
        samvolip_map_unpin(map);
    }
    return NULL;
}

static void *writes(void *map)
{
    uint64_t state = (uint64_t)&state | 1;
    for (unsigned long i = 0; i < rounds; i++) {
        put(map, next(&state) % KEYS);
        if (i % 3 == 0)
            erase(map, next(&state) % KEYS);
        if (i % (rounds / 20 + 1) == 0)
            EXPECT(samvolip_map_renew(map, next(&state) % 5000) == SAMVOLIP_OK);
        if (i % 100 == 0)
            samvolip_map_collect(map);
    }
    return NULL;
}

static void readers_and_writers(void)
{
    pthread_t readers[READERS], writers[WRITERS];
    samvolip_map *map = opened();
    is_over = false;
    for (int i = 0; i < READERS; i++)
        EXPECT(pthread_create(&readers[i], NULL, reads, map) == 0);
    for (int i = 0; i < WRITERS; i++)
        EXPECT(pthread_create(&writers[i], NULL, writes, map) == 0);
    for (int i = 0; i < WRITERS; i++)
        EXPECT(pthread_join(writers[i], NULL) == 0);
    is_over = true;
    for (int i = 0; i < READERS; i++)
        EXPECT(pthread_join(readers[i], NULL) == 0);
    samvolip_map_collect(map);
    EXPECT(figures_of(map).waiting == 0);
    end(map);
}

/* ---- handlers and forks -------------------------------------------------------------------- */

static samvolip_map *handled;
static volatile sig_atomic_t came, nested;

/* It pins, and reads if it doesn't come in the middle of a call; what takes the lock is refused in the middle of it. */
static void on_signal(int signal)
{
    samvolip_object_figures figures;
    (void)signal;
    came++;
    EXPECT(samvolip_map_pin(handled) == SAMVOLIP_OK);
    object *seen = get(handled, 1);
    EXPECT(!seen || seen->check == ~UINT64_C(1));
    samvolip_map_unpin(handled);
    nested += samvolip_map_look_at_objects(handled, &figures) == SAMVOLIP_E_NESTED;
}

static void *sends(void *to)
{
    while (!is_over) {
        pthread_kill(*(pthread_t *)to, SIGUSR1);
        usleep(20);
    }
    return NULL;
}

static void handlers(void)
{
    pthread_t me = pthread_self(), sender;
    handled = opened();
    put(handled, 1);
    EXPECT(signal(SIGUSR1, on_signal) != SIG_ERR);
    is_over = false;
    EXPECT(pthread_create(&sender, NULL, sends, &me) == 0);
    for (unsigned long i = 0; i < rounds || came == 0; i++) {
        put(handled, 1);
        samvolip_map_pin(handled);
        EXPECT(get(handled, 1)->check == ~UINT64_C(1));
        samvolip_map_unpin(handled);
        samvolip_map_collect(handled);
    }
    is_over = true;
    EXPECT(pthread_join(sender, NULL) == 0);
    EXPECT(came > 0 && figures_of(handled).waiting == 0);
    end(handled);
}

/* In a child its own pin stands alone. */
static void go_on_in_child(samvolip_map *map, const object *mine)
{
    samvolip_map_collect(map);
    EXPECT(mine->check == ~UINT64_C(2)); /* the pin is older than both */
    has(map, 2, 2);
    samvolip_map_unpin(map);
    samvolip_map_collect(map);
    has(map, 2, 0);
    put(map, 3);
    end(map);
    _exit(0);
}

/* A child has the pins of its thread alone, and frees what was retired. */
static void forks(void)
{
    pthread_t others[2];
    samvolip_map *map = opened();
    EXPECT(pthread_barrier_init(&barrier, NULL, 3) == 0);
    put(map, 1);
    for (int i = 0; i < 2; i++)
        EXPECT(pthread_create(&others[i], NULL, pins_with_others, map) == 0);
    pthread_barrier_wait(&barrier);
    pthread_barrier_wait(&barrier);
    erase(map, 1);
    put(map, 2);
    samvolip_map_pin(map);
    object *mine = get(map, 2);
    erase(map, 2);
    samvolip_map_collect(map);
    has(map, 2, 2);
    pid_t child = fork();
    EXPECT(child >= 0);
    if (child == 0)
        go_on_in_child(map, mine);
    int status;
    EXPECT(waitpid(child, &status, 0) == child && WIFEXITED(status) && WEXITSTATUS(status) == 0);
    samvolip_map_unpin(map);
    samvolip_map_collect(map);
    has(map, 2, 2);
    pthread_barrier_wait(&barrier);
    for (int i = 0; i < 2; i++)
        EXPECT(pthread_join(others[i], NULL) == 0);
    samvolip_map_collect(map);
    has(map, 2, 0);
    pthread_barrier_destroy(&barrier);
    end(map);
}

/* ---- handlers between any two steps -------------------------------------------------------- */

#if !IS_SANITIZED
static void (*at_each_step)(void);
static unsigned long steps;

static void on_step(int signal)
{
    (void)signal;
    steps++;
    at_each_step();
}

/* From now on the processor stops after each instruction of this thread, and a handler comes. */
static void begin_steps(void (*each)(void))
{
    at_each_step = each;
    EXPECT(signal(SIGTRAP, on_step) != SIG_ERR);
    __asm__ volatile("lea -128(%%rsp), %%rsp\n pushfq\n orq $0x100, (%%rsp)\n popfq\n lea 128(%%rsp), %%rsp" ::: "memory", "cc");
}

static void end_steps(void)
{
    __asm__ volatile("lea -128(%%rsp), %%rsp\n pushfq\n andq $~0x100, (%%rsp)\n popfq\n lea 128(%%rsp), %%rsp" ::: "memory", "cc");
}

/* Maps that this thread has pinned, so many that the first and the last have their places in the same cell. */
enum { STEPPED = 9 };
static samvolip_map *stepped[STEPPED];

static void open_stepped(void)
{
    for (int i = 0; i < STEPPED; i++) {
        stepped[i] = opened();
        EXPECT(samvolip_map_pin(stepped[i]) == SAMVOLIP_OK);
        samvolip_map_unpin(stepped[i]);
    }
}

static void end_stepped(void)
{
    for (int i = 1; i < STEPPED; i++)
        samvolip_map_free(stepped[i]);
    end(stepped[0]);
}

static void pin_both(void)
{
    for (int i = 0; i < STEPPED; i += STEPPED - 1) {
        EXPECT(samvolip_map_pin(stepped[i]) == SAMVOLIP_OK);
        samvolip_map_unpin(stepped[i]);
    }
}

static void a_handler_pins_anywhere(void)
{
    open_stepped();
    for (int i = 0; i <= BATCH; i++) {
        begin_steps(pin_both);
        EXPECT(samvolip_map_pin(stepped[0]) == SAMVOLIP_OK);
        put(stepped[0], 1);
        EXPECT(get(stepped[0], 1) != NULL);
        samvolip_map_unpin(stepped[0]);
        end_steps();
    }
    begin_steps(pin_both);
    samvolip_map_collect(stepped[0]);
    end_steps();
    has(stepped[0], BATCH, 0);
    end_stepped();
}

/* Another thread forks when it is asked to. The child frees what is retired. */
static atomic_ullong asked, forked;
static unsigned long long most; /* children: each keeps a call waiting, which so has more steps */

static void *forks_when_asked(void *map)
{
    for (; !is_over; usleep(20)) {
        if (asked == forked)
            continue;
        int status;
        pid_t child = fork();
        EXPECT(child >= 0);
        if (child == 0) {
            samvolip_map_collect(map);
            _exit(0);
        }
        EXPECT(waitpid(child, &status, 0) == child && WIFEXITED(status) && WEXITSTATUS(status) == 0);
        forked++;
    }
    return NULL;
}

/* Waits a little for the child; the fork may wait for this very thread. */
static void have_a_child(void)
{
    if (asked == forked && asked < most)
        asked++;
    for (int i = 0; asked != forked && i < 20; i++)
        usleep(100);
}

/* In the middle of a call, for which the fork waits. */
static void have_a_child_and_pin(void)
{
    if (samvolip_map_contains(stepped[0], 1) == SAMVOLIP_E_NESTED)
        have_a_child();
    pin_both();
}

static void forks_between_any_two_steps(void)
{
    pthread_t other;
    open_stepped();
    asked = forked = 0;
    most = 1000;
    is_over = false;
    EXPECT(pthread_create(&other, NULL, forks_when_asked, stepped[0]) == 0);
    put(stepped[0], 1);
    put(stepped[0], 1);
    samvolip_map_collect(stepped[0]);
    has(stepped[0], 1, 0);

    alarm(100); /* ends a deadlock */
    begin_steps(have_a_child);
    EXPECT(samvolip_map_ready(stepped[0]) == SAMVOLIP_OK); /* takes the memory of what was freed */
    end_steps();
    most = asked + 3;
    begin_steps(have_a_child_and_pin);
    EXPECT(samvolip_map_contains(stepped[0], 1) == SAMVOLIP_PRESENT);
    end_steps();
    is_over = true;
    EXPECT(pthread_join(other, NULL) == 0);
    alarm(0);
    EXPECT(forked > 0);
    end_stepped();
}
#endif

int main(int count, char **words)
{
    rounds = count > 1 ? strtoul(words[1], NULL, 10) : rounds;
    frees_what_no_pin_keeps();
    tells_of_other_threads();
    frees_by_itself();
    keeps_addresses();
    functions_call_the_map();
    ends_of_threads();
    many_threads_pin();
    readers_and_writers();
    handlers();
#ifdef __SANITIZE_ADDRESS__ /* its own lock may be held in the child */
    (void)forks;
#else
    forks();
#endif
#if !IS_SANITIZED
    a_handler_pins_anywhere();
    forks_between_any_two_steps();
#endif
    printf("objects: %llu made, %llu freed, in the last map; %d handlers, %d of them in the middle of a call\n",
           (unsigned long long)made, (unsigned long long)freed, (int)came, (int)nested);
    return 0;
}
