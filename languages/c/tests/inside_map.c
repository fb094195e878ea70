/* What of the map without an end only those can bring about who see its locks and gates: a handler's read while another thread has the
   lock, and a thread that is cancelled while it waits. */
#include "../src/endless.h"

#include "expect.h"

#include <signal.h>
#include <unistd.h>

static samvolip_map *map;
static atomic_int step;

static void wait_for(int wanted)
{
    while (step < wanted)
        usleep(10);
}

static void read_in_handler(int signal)
{
    uint64_t number;
    (void)signal;
    EXPECT(samvolip_map_get(map, 1, &number) == SAMVOLIP_PRESENT && number == 5);
    step = 3;
}

/* Shares a lane, since none is left. */
static void *share(void *unused)
{
    uint64_t number;
    (void)unused;
    EXPECT(samvolip_map_get(map, 1, &number) == SAMVOLIP_PRESENT);
    step = 1;
    wait_for(4);
    EXPECT(samvolip_map_get(map, 1, &number) == SAMVOLIP_PRESENT);
    return NULL;
}

/* Now there is a lane for the thread, which it can't have, since the lock is taken: it shares one still, and gets the lane later. */
static void a_read_gets_no_lane_while_the_lock_is_taken(void)
{
    const struct sigaction action = {.sa_handler = read_in_handler};
    const samvolip_map_options options = {.threads = 1};
    pthread_t thread;
    EXPECT(sigaction(SIGUSR1, &action, NULL) == 0);
    EXPECT(samvolip_map_open(&options, &map) == SAMVOLIP_OK && samvolip_map_put(map, 1, 5, NULL) == SAMVOLIP_ABSENT);
    EXPECT(pthread_create(&thread, NULL, share, NULL) == 0);
    wait_for(1);
    samvolip_map_leave(map);
    lock(map);
    EXPECT(map->taken == 0 && pthread_kill(thread, SIGUSR1) == 0);
    wait_for(3);
    EXPECT(map->taken == 0);
    unlock(map);
    step = 4;
    EXPECT(pthread_join(thread, NULL) == 0 && map->taken == 0);
    samvolip_map_free(map);
}

static void *put_once(void *unused)
{
    (void)unused;
    step = 5;
    EXPECT(samvolip_map_put(map, 1, 6, NULL) == SAMVOLIP_PRESENT);
    step = 6;
    pthread_testcancel();
    return NULL;
}

/* The write is made, and only then the thread ends; nobody waits for it then. */
static void a_thread_that_waits_is_cancelled_later(void)
{
    pthread_t thread;
    void *told = NULL;
    uint64_t number;
    EXPECT(samvolip_map_open(NULL, &map) == SAMVOLIP_OK && samvolip_map_put(map, 1, 5, NULL) == SAMVOLIP_ABSENT);
    EXPECT(be_alone(map, EVERYWHERE, NULL, 0));
    const uint64_t since = stop(map, parts_of(map), READS_ONLY);
    EXPECT(pthread_create(&thread, NULL, put_once, NULL) == 0);
    wait_for(5);
    usleep(300000);
    EXPECT(step == 5 && pthread_cancel(thread) == 0);
    usleep(100000);
    lock(map);
    go_on(map, parts_of(map), since, since);
    unlock(map);
    end_alone(map, EVERYWHERE);
    EXPECT(pthread_join(thread, &told) == 0 && told == PTHREAD_CANCELED && step == 6);
    EXPECT(samvolip_map_get(map, 1, &number) == SAMVOLIP_PRESENT && number == 6 && samvolip_map_renew(map, 0) == SAMVOLIP_OK);
    samvolip_map_free(map);
}

int main(void)
{
    alarm(60);
    a_read_gets_no_lane_while_the_lock_is_taken();
    a_thread_that_waits_is_cancelled_later();
    return 0;
}
