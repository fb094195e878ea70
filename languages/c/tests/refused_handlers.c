/* The first map of a process for whose forks the C library has no memory: it is refused, and opened when asked again. The first of the two
   requests for handlers is refused, or the second one, by this pthread_atfork. */
#include "samvolip_objects.h"

#include "expect.h"

#include <errno.h>
#include <pthread.h>
#include <sys/wait.h>
#include <unistd.h>

extern int __register_atfork(void (*before)(void), void (*after)(void), void (*in_child)(void), void *);

static int asked, refused; /* from which one on they are */

int pthread_atfork(void (*before)(void), void (*after)(void), void (*in_child)(void))
{
    return asked++ >= refused ? ENOMEM : __register_atfork(before, after, in_child, NULL);
}

static void opens_when_asked_again(void)
{
    samvolip_map *map;
    uint64_t number = 99;
    EXPECT(samvolip_map_open(NULL, &map) == SAMVOLIP_E_OUT_OF_MEMORY);
    refused = 99;
    EXPECT(samvolip_map_open(NULL, &map) == SAMVOLIP_OK);
    EXPECT(samvolip_map_put(map, 1, 5, NULL) == SAMVOLIP_ABSENT);
    EXPECT(samvolip_map_get(map, 1, &number) == SAMVOLIP_PRESENT && number == 5 && samvolip_map_collect(map) == SAMVOLIP_OK);
    samvolip_map_free(map);
}

int main(void)
{
    for (int first = 0; first < 2; first++) {
        int status = 99;
        refused = first;
        const pid_t child = fork();
        if (child == 0) {
            opens_when_asked_again();
            _exit(0);
        }
        EXPECT(child > 0 && waitpid(child, &status, 0) == child && status == 0);
    }
    return 0;
}
