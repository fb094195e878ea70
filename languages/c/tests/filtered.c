/* A map under filters of system calls that refuse membarrier, as those of seccomp do: before the first map is opened it has fences of its
   own; afterwards the process ends, and says why. */
#define _GNU_SOURCE
#include "samvolip_objects.h"

#include "expect.h"

#include <errno.h>
#include <linux/filter.h>
#include <linux/membarrier.h>
#include <linux/seccomp.h>
#include <pthread.h>
#include <signal.h>
#include <stddef.h>
#include <string.h>
#include <sys/prctl.h>
#include <sys/resource.h>
#include <sys/syscall.h>
#include <sys/wait.h>
#include <unistd.h>

enum { KEYS = 5000, WORKERS = 4 };

static samvolip_map *map;

/* From now on membarrier is refused so. */
static void refuse_membarrier(int why)
{
    struct sock_filter steps[] = {
        BPF_STMT(BPF_LD | BPF_W | BPF_ABS, offsetof(struct seccomp_data, nr)),
        BPF_JUMP(BPF_JMP | BPF_JEQ | BPF_K, __NR_membarrier, 0, 1),
        BPF_STMT(BPF_RET | BPF_K, SECCOMP_RET_ERRNO | (unsigned)why),
        BPF_STMT(BPF_RET | BPF_K, SECCOMP_RET_ALLOW),
    };
    const struct sock_fprog program = {sizeof steps / sizeof *steps, steps};
    EXPECT(prctl(PR_SET_NO_NEW_PRIVS, 1, 0, 0, 0) == 0 && prctl(PR_SET_SECCOMP, SECCOMP_MODE_FILTER, &program) == 0);
    EXPECT(syscall(__NR_membarrier, MEMBARRIER_CMD_QUERY, 0, 0) == -1 && errno == why);
}

static void *add_all(void *unused)
{
    (void)unused;
    for (uint64_t key = 0; key < KEYS; key++)
        EXPECT(samvolip_map_add(map, key, 1, NULL) >= 0);
    return NULL;
}

static void opens_behind_a_filter(int why)
{
    pthread_t threads[WORKERS];
    uint64_t number, size;
    refuse_membarrier(why);
    EXPECT(samvolip_map_open(NULL, &map) == SAMVOLIP_OK);
    for (int i = 0; i < WORKERS; i++)
        EXPECT(pthread_create(&threads[i], NULL, add_all, NULL) == 0);
    for (int i = 0; i < WORKERS; i++)
        EXPECT(pthread_join(threads[i], NULL) == 0);
    EXPECT(samvolip_map_size(map, &size) == SAMVOLIP_OK && size == KEYS);
    EXPECT(samvolip_map_get(map, KEYS - 1, &number) == SAMVOLIP_PRESENT && number == WORKERS);
    EXPECT(samvolip_map_collect(map) == SAMVOLIP_OK);
    samvolip_map_free(map);
}

static void renews_behind_a_filter(int why)
{
    const struct rlimit none = {0, 0};
    EXPECT(setrlimit(RLIMIT_CORE, &none) == 0);
    EXPECT(samvolip_map_open(NULL, &map) == SAMVOLIP_OK && samvolip_map_put(map, 1, 1, NULL) == SAMVOLIP_ABSENT);
    refuse_membarrier(why);
    EXPECT(samvolip_map_put(map, 2, 1, NULL) == SAMVOLIP_ABSENT); /* calls need no fence */
    samvolip_map_renew(map, 0);
}

/* Runs it in a child, whose status and standard error are answered. */
static int run(void (*work)(int), int why, char *told, size_t room)
{
    int ends[2], status = 99;
    size_t length = 0;
    ssize_t got;
    EXPECT(pipe(ends) == 0);
    const pid_t child = fork();
    if (child == 0) {
        alarm(60);
        dup2(ends[1], STDERR_FILENO);
        work(why);
        _exit(0);
    }
    close(ends[1]);
    while ((got = read(ends[0], told + length, room - 1 - length)) > 0)
        length += (size_t)got;
    told[length] = 0;
    close(ends[0]);
    EXPECT(child > 0 && waitpid(child, &status, 0) == child);
    return status;
}

int main(void)
{
    const int reasons[] = {EPERM, ENOSYS};
    char told[1000];
    for (int i = 0; i < 2; i++) {
        int status = run(opens_behind_a_filter, reasons[i], told, sizeof told);
        EXPECT(status == 0 && told[0] == 0);
        status = run(renews_behind_a_filter, reasons[i], told, sizeof told);
        EXPECT(WIFSIGNALED(status) && WTERMSIG(status) == SIGABRT);
        EXPECT(strstr(told, "samvolip: membarrier") && strstr(told, strerror(reasons[i])));
    }
    printf("filtered: 4 processes\n");
    return 0;
}
