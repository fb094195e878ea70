/* Maps whose tables lie in large blocks, which the library takes from the system and not from malloc (src/memory.c): a new map
   is empty, whatever was in the memory before; all memory goes back to the system, also where the system refuses some of it; and a
   forked process has maps of its own.
       large [ROUNDS]          how often each of four threads opens, fills and frees a map */
#include "samvolip.h"

#include "expect.h"

#include <pthread.h>
#include <sys/resource.h>
#include <sys/wait.h>
#include <unistd.h>

enum { THREADS = 4, KEYS = 40000 };

/* blocks of 1.1, 2.3 and 18 MiB */
static const samvolip_shape shapes[] = {
    {{13, 16}, 2, 2, 1, UINT32_MAX, 8}, {{14, 17}, 2, 1, 1, UINT32_MAX, 8}, {{17, 20}, 2, 1, 1, UINT32_MAX, 8}};

static unsigned rounds = 20;

static samvolip_seat opened(const samvolip_shape *shape)
{
    samvolip_seat seat = SAMVOLIP_SEAT_INIT;
    EXPECT(samvolip_open(shape, &seat) == SAMVOLIP_OK);
    return seat;
}

/* Each key of the map is new, all over its tables. */
static void fill(samvolip_seat *seat, uint64_t number)
{
    for (uint64_t key = 0; key < KEYS; key++)
        EXPECT(samvolip_put(seat, samvolip_mix(key), number + key, NULL) == SAMVOLIP_ABSENT);
}

static void expect_filled(samvolip_seat *seat, uint64_t number)
{
    uint64_t found;
    for (uint64_t key = 0; key < KEYS; key++)
        EXPECT(samvolip_get(seat, samvolip_mix(key), &found) == SAMVOLIP_PRESENT && found == number + key);
}

static void expect_empty(samvolip_seat *seat)
{
    samvolip_cursor cursor;
    uint64_t key, number;
    samvolip_walk(seat, &cursor);
    EXPECT(samvolip_next(seat, &cursor, &key, &number) == SAMVOLIP_ABSENT && samvolip_size_estimate(seat) == 0);
}

/* Maps one after another, each in memory that others had. */
static void *makes_maps(void *unused)
{
    for (unsigned i = 0; i < rounds; i++) {
        samvolip_seat seat = opened(&shapes[i % 3]);
        expect_empty(&seat);
        fill(&seat, i);
        EXPECT(samvolip_renew(&seat, &shapes[(i + 1) % 3]) == SAMVOLIP_OK);
        expect_filled(&seat, i);
        if (i % 2 == 0) {
            samvolip_free(&seat);
            continue;
        }
        samvolip_ended ended = SAMVOLIP_ENDED_INIT;
        EXPECT(samvolip_close(&seat, &ended) == SAMVOLIP_OK && samvolip_ended_size(&ended) == KEYS);
        samvolip_ended_free(&ended);
    }
    return unused;
}

static void in_threads(void)
{
    pthread_t threads[THREADS];
    for (int i = 0; i < THREADS; i++)
        EXPECT(pthread_create(&threads[i], NULL, makes_maps, NULL) == 0);
    for (int i = 0; i < THREADS; i++)
        EXPECT(pthread_join(threads[i], NULL) == 0);
}

/* Runs a function in a forked process, which has to end well. */
static void in_child(void (*run)(samvolip_seat *), samvolip_seat *seat)
{
    int status;
    pid_t child = fork();
    EXPECT(child >= 0);
    if (child == 0) {
        run(seat);
        exit(0);
    }
    EXPECT(waitpid(child, &status, 0) == child && status == 0);
}

/* The map of before the fork, and another one. */
static void has_its_own(samvolip_seat *seat)
{
    samvolip_seat other = opened(&shapes[1]);
    expect_empty(&other);
    expect_filled(seat, 7);
    fill(&other, 8);
    for (uint64_t key = 0; key < KEYS; key++)
        EXPECT(samvolip_put(seat, samvolip_mix(key), 9 + key, NULL) == SAMVOLIP_PRESENT);
    expect_filled(seat, 9);
    samvolip_free(seat);
    expect_filled(&other, 8);
    samvolip_free(&other);
}

/* How many MiB of addresses there are, without those of slabs of tables that are kept until a large table is made. */
static double without_slabs(void)
{
    samvolip_seat large = opened(&shapes[2]);
    samvolip_free(&large);
    return expect_mebibytes().all;
}

/* Makes a call that takes the third shape, while the process may have so many MiB more, which are too few. It leaves no such table:
   what malloc keeps of a list of entries is less. */
static void refused(int (*call)(samvolip_seat *, const samvolip_shape *), samvolip_seat *seat, unsigned room)
{
    struct rlimit limit, before;
    double all = without_slabs();
    EXPECT(getrlimit(RLIMIT_AS, &before) == 0);
    limit = before;
    limit.rlim_cur = ((rlim_t)all + room) << 20;
    EXPECT(setrlimit(RLIMIT_AS, &limit) == 0);
    int code = call(seat, &shapes[2]);
    EXPECT(setrlimit(RLIMIT_AS, &before) == 0);
    EXPECT(code == SAMVOLIP_E_OUT_OF_MEMORY && without_slabs() < all + 2);
}

static int open_empty(samvolip_seat *seat, const samvolip_shape *shape)
{
    return samvolip_open(shape, seat);
}

/* Where there is no room for a table, or for one alone of the two that a map is made with, all is as it was. */
static void refuses(samvolip_seat *seat)
{
    static const unsigned rooms[] = {4, 24};
    for (int i = 0; i < 2; i++) {
        samvolip_seat other = SAMVOLIP_SEAT_INIT;
        refused(open_empty, &other, rooms[i]);
        EXPECT(other.handle == NULL);
        refused(samvolip_renew, seat, rooms[i]);
        expect_filled(seat, 7);
    }
    EXPECT(samvolip_renew(seat, &shapes[2]) == SAMVOLIP_OK);
    expect_filled(seat, 7);
}

/* The number that is in a line of a file, after these words; 0 if there is no such line. */
static double number_in(const char *file, const char *format)
{
    char line[256];
    double number = 0;
    FILE *lines = fopen(file, "r");
    while (lines != NULL && fgets(line, sizeof line, lines) != NULL && sscanf(line, format, &number) != 1)
        continue;
    if (lines != NULL)
        fclose(lines);
    return number;
}

/* A map of 18 MiB is in memory while it is there, and no longer; and while it is made it isn't there twice, if Linux has one huge page
   for all that is zero. */
static void gives_back(void)
{
    samvolip_seat seat = opened(&shapes[2]);
    samvolip_free(&seat); /* pages that small blocks lay in are kept for the next ones */
    struct mebibytes before = expect_mebibytes();
    seat = opened(&shapes[2]);
    struct mebibytes meanwhile = expect_mebibytes();
    double most = number_in("/proc/self/status", "VmHWM: %lf") / 1024;
    EXPECT(most < meanwhile.present + 9 || number_in("/sys/kernel/mm/transparent_hugepage/use_zero_page", "%lf") == 0);
    samvolip_free(&seat);
    struct mebibytes after = expect_mebibytes();
    EXPECT(meanwhile.all >= before.all + 18 && meanwhile.present >= before.present + 18);
    EXPECT(after.all == before.all && after.present < before.present + 1);
}

int main(int count, char **words)
{
    if (count > 1)
        rounds = (unsigned)strtoul(words[1], NULL, 10);
    if (!IS_SANITIZED)
        gives_back();
    samvolip_seat seat = opened(&shapes[1]);
    fill(&seat, 7);
    in_child(has_its_own, &seat);
    if (!IS_SANITIZED)
        in_child(refuses, &seat);
    expect_filled(&seat, 7);
    in_threads();
    expect_filled(&seat, 7);
    samvolip_free(&seat);
    printf("large: well\n");
    return 0;
}
