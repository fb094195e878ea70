/* Breaks the rule whose number it is given: the checks abort, with a line that says which. */
#define SAMVOLIP_CHECKED
#include "samvolip.h"

#include "expect.h"

#include <pthread.h>

static samvolip_seat mine = SAMVOLIP_SEAT_INIT, yours = SAMVOLIP_SEAT_INIT;
static samvolip_seat theirs = SAMVOLIP_SEAT_INIT;

static void *get_forever(void *seat)
{
    uint64_t number;
    for (;;)
        samvolip_get(seat, 1, &number);
    return NULL;
}

static void two_threads(void)
{
    pthread_t thread;
    EXPECT(pthread_create(&thread, NULL, get_forever, &mine) == 0);
    get_forever(&mine);
}

int main(int count, char **words)
{
    samvolip_shape shape = samvolip_shape_for_keys(10, 2);
    uint64_t number = 0;
    samvolip_reply reply;
    samvolip_cursor cursor = {0, 0, 0, 0, 0};
    samvolip_entry entry;
    samvolip_ended ended = SAMVOLIP_ENDED_INIT;
    EXPECT(count == 2);
    EXPECT(samvolip_open(&shape, &mine) == 0 && samvolip_split(&mine, &yours) == 0);
    EXPECT(samvolip_open(&shape, &theirs) == 0);
    switch (atoi(words[1])) {
    case 1: samvolip_get(NULL, 1, &number); break;
    case 2: samvolip_get(&mine, 1, NULL); break;
    case 3: samvolip_free(&mine), samvolip_get(&mine, 1, &number); break;
    case 4: samvolip_put_if_match(&mine, 1, 5, 0, 0, 0, 1, &reply); break;
    case 5: samvolip_put_if_match(&mine, 1, 0, 0, 3, 0, 1, &reply); break;
    case 6: two_threads(); break;
    case 7: samvolip_meet(&mine, &theirs); break;
    case 8: samvolip_join(&theirs, &yours); break;
    case 9: samvolip_meet(&mine, &mine); break;
    case 10: samvolip_open(&shape, &mine); break;
    case 11: samvolip_split(&mine, &yours); break;
    case 12: samvolip_ended_size(&ended); break;
    case 13: samvolip_join(&mine, &yours), samvolip_put(&yours, 1, 1, NULL); break;
    case 14: samvolip_try_put(&mine, 1, 1, 1, NULL); break;
    case 15: samvolip_free(&mine), samvolip_add(&mine, 1, 1, NULL); break;
    case 16: samvolip_settle(&mine, NULL); break;
    case 17: samvolip_walk(&mine, NULL); break;
    case 18: samvolip_next(&mine, &cursor, &number, &number); break;
    case 19: samvolip_walk(&mine, &cursor), samvolip_next(&yours, &cursor, &number, &number); break;
    case 20:
        samvolip_walk(&mine, &cursor), samvolip_join(&mine, &yours), samvolip_renew(&mine, &shape);
        samvolip_next(&mine, &cursor, &number, &number);
        break;
    case 21: samvolip_walk(&theirs, &cursor), samvolip_next(&mine, &cursor, &number, &number); break;
    case 22: samvolip_walk(&mine, &cursor), samvolip_next(&mine, &cursor, NULL, &number); break;
    case 23: samvolip_entries(&theirs, NULL, 0, NULL); break;
    case 24: samvolip_renew(&theirs, NULL); break;
    case 25: samvolip_occupancy(&mine, NULL); break;
    case 26: samvolip_walk_from(&mine, 0, NULL); break;
    case 27: samvolip_list(&mine, &cursor, 1, &entry, 1, &number); break;
    case 28: samvolip_walk(&mine, &cursor), samvolip_list(&mine, &cursor, 1, NULL, 0, &number); break;
    case 29: samvolip_walk_from(&mine, 0, &cursor), samvolip_list(&mine, &cursor, 1, &entry, 1, NULL); break;
    default: return 0;
    }
    return 1;
}
