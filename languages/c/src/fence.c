/* fence.c - a full fence in all threads of the process that run. */
#include "migration.h"
#include <errno.h>
#include <linux/membarrier.h>
#include <sched.h>
#include <stdio.h>
#include <stdlib.h>
#include <sys/syscall.h>
#include <unistd.h>

static _Atomic uint32_t has_membarrier; /* stored by begin_fences, read by who fences */

bool begin_fences(void)
{
#ifndef NO_MEMBARRIER
    bool has = syscall(SYS_membarrier, MEMBARRIER_CMD_REGISTER_PRIVATE_EXPEDITED, 0, 0) == 0;
    if (has)
        atomic_store_explicit(&has_membarrier, 1, memory_order_relaxed);
    return has;
#else
    return false;
#endif
}

/* Gives this thread a turn on each processor that the process may run on: a thread that ran there has made a fence to make way. */
static bool visit_processors(void)
{
    cpu_set_t before, one;
    if (sched_getaffinity(0, sizeof before, &before) != 0)
        return false;
    bool is_done = true;
    for (size_t processor = 0; processor < CPU_SETSIZE && is_done; processor++) {
        CPU_ZERO(&one);
        CPU_SET(processor, &one);
        is_done = sched_setaffinity(0, sizeof one, &one) == 0 || errno == EINVAL; /* it isn't there */
    }
    return sched_setaffinity(0, sizeof before, &before) == 0 && is_done;
}

bool fence_all_threads(void)
{
    if (!atomic_load_explicit(&has_membarrier, memory_order_relaxed)) {
        atomic_thread_fence(memory_order_seq_cst); /* all others have a fence of their own after each hazard */
        return true;
    }
    if (syscall(SYS_membarrier, MEMBARRIER_CMD_PRIVATE_EXPEDITED, 0, 0) == 0)
        return true;
    int why = errno;
    if (why == ENOMEM || visit_processors())
        return why != ENOMEM;
    errno = why;
    perror("samvolip: membarrier, which was allowed when a map was opened, is refused now, and so is sched_setaffinity");
    abort();
}
