/* A program of C for .ci/installed: four threads add to one map. */
#include <pthread.h>
#include <stdio.h>
#include <samvolip_map.h>

enum { THREADS = 4, KEYS = 1000, ADDS = 20000 };

static void *work(void *map)
{
    for (unsigned i = 0; i < ADDS; i++)
        if (samvolip_map_add(map, i % KEYS, 1, NULL) < 0)
            return map;
    return NULL;
}

int main(void)
{
    samvolip_map *map;
    pthread_t threads[THREADS];
    uint64_t size, value;
    void *failed = NULL, *came;
    if (samvolip_version() != SAMVOLIP_VERSION || samvolip_map_open(NULL, &map) < 0)
        return 1;
    for (int t = 0; t < THREADS; t++)
        if (pthread_create(&threads[t], NULL, work, map))
            return 1;
    for (int t = 0; t < THREADS; t++)
        if (pthread_join(threads[t], &came) || (came && (failed = came)))
            return 1;
    if (failed || samvolip_map_size(map, &size) < 0 || samvolip_map_get(map, 7, &value) != SAMVOLIP_PRESENT)
        return 1;
    printf("%d keys, %d at 7\n", (int)size, (int)value);
    samvolip_map_free(map);
    return 0;
}
