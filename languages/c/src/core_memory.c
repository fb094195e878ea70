/* core_memory.c - all memory of a map without an end, but for what is inside a proved map. It is malloc's; in the library that stands for
   memory.c's, which takes no lock. */
#include "migration.h"
#include <stdlib.h>

enum { ALIGNMENT = 128 };

/* In front of the block is the address of what malloc gave. */
void *core_memory_take(size_t size)
{
    char *given = malloc(size + ALIGNMENT + sizeof given);
    if (!given)
        return NULL;
    char *block = given + sizeof given;
    block += -(uintptr_t)block % ALIGNMENT;
    memcpy(block - sizeof given, &given, sizeof given);
    return memset(block, 0, size);
}

void core_memory_give(void *block, size_t size)
{
    char *given;
    (void)size;
    memcpy(&given, (char *)block - sizeof given, sizeof given);
    free(given);
}
