/* What of objects.c no caller can bring about in a test: a count of pins past 2^32. It is compiled with objects.c in it. */
#include "../src/objects.c"

#include "expect.h"

static unsigned freed;

static void count_freed(void *unused)
{
    (void)unused;
    freed++;
}

/* A pin that lies within so many, as those that a program of Rust forgets, ends none of them. */
static void pins_past_32_bits_stand(uint64_t forgotten)
{
    samvolip_map *map;
    uint64_t object;
    EXPECT(samvolip_map_open(NULL, &map) == SAMVOLIP_OK && samvolip_map_pin(map) == SAMVOLIP_OK);
    own_place(of_map(map))->pins = forgotten;
    EXPECT(samvolip_map_pin(map) == SAMVOLIP_OK && samvolip_map_pin(map) == SAMVOLIP_OK);
    samvolip_map_unpin(map);
    freed = 0;
    EXPECT(samvolip_map_retire(map, &object, count_freed) == SAMVOLIP_OK && samvolip_map_collect(map) == SAMVOLIP_OK);
    EXPECT(freed == 0 && own_place(of_map(map))->note != 0 && own_place(of_map(map))->pins == forgotten + 1);
    own_place(of_map(map))->pins = 1;
    samvolip_map_unpin(map);
    EXPECT(samvolip_map_collect(map) == SAMVOLIP_OK && freed == 1);
    samvolip_map_free(map);
}

int main(void)
{
    pins_past_32_bits_stand(1);
    pins_past_32_bits_stand(UINT32_MAX - 1);
    pins_past_32_bits_stand(UINT32_MAX);
    pins_past_32_bits_stand((uint64_t)UINT32_MAX + 1);
    return 0;
}
