/* Runs a program of several threads and stops one of them for a while.

   stop THREAD STEPS PROGRAM WORD..  lets the THREADth thread that the program starts, counted from 1, make so many machine steps,
   and then holds it up until all other started threads have ended and the first one waits. Then it lets it go on. It ends with
   the program's status; with 90 where the thread ended before; and with 91 where the others made no end within ten seconds. */
#define _GNU_SOURCE
#include <signal.h>
#include <stdio.h>
#include <stdlib.h>
#include <string.h>
#include <sys/ptrace.h>
#include <sys/syscall.h>
#include <sys/types.h>
#include <sys/wait.h>
#include <time.h>
#include <unistd.h>

enum { EARLY = 90, HUNG = 91, WRONG = 92 };

static pid_t first;
static pid_t held;
static int started;
static int running;

static double now(void)
{
    struct timespec time;
    clock_gettime(CLOCK_MONOTONIC, &time);
    return (double)time.tv_sec + 1e-9 * (double)time.tv_nsec;
}

static void check(long answer, const char *what)
{
    if (answer == -1) {
        perror(what);
        exit(WRONG);
    }
}

/* Whether the first thread waits for something to happen. */
static int first_waits(void)
{
    char path[64], line[64] = "";
    snprintf(path, sizeof path, "/proc/%d/syscall", first);
    FILE *file = fopen(path, "r");
    if (file == NULL || fgets(line, sizeof line, file) == NULL)
        line[0] = 0;
    if (file != NULL)
        fclose(file);
    return atoi(line) == SYS_futex && strncmp(line, "running", 7) != 0;
}

/* Lets a thread that has stopped go on, with the signal that it stopped for, if that is one of its own. */
static void go_on(pid_t thread, int status)
{
    int number = WSTOPSIG(status);
    int is_own = number != SIGTRAP && number != SIGSTOP;
    check(ptrace(PTRACE_CONT, thread, NULL, (void *)(long)(is_own ? number : 0)), "go on");
}

/* Takes note of the next thing that a thread has come to, if there is one. Ends with the program. */
static pid_t next(int options, int *status)
{
    pid_t thread = waitpid(-1, status, __WALL | options);
    check(thread, "wait");
    if (thread == first && WIFEXITED(*status))
        exit(held == 0 ? EARLY : WEXITSTATUS(*status));
    if (thread == first && WIFSIGNALED(*status))
        exit(WRONG);
    if (thread > 0 && thread != first && (WIFEXITED(*status) || WIFSIGNALED(*status)))
        running -= 1;
    return thread;
}

/* Lets the thread make so many steps, and says whether it lives. The others go on beside it. */
static int steps_of(pid_t thread, long steps)
{
    for (long made = 0; made < steps; made += 1) {
        check(ptrace(PTRACE_SINGLESTEP, thread, NULL, NULL), "step");
        for (;;) {
            int status;
            pid_t came = next(0, &status);
            if (came == thread && !WIFSTOPPED(status))
                return 0;
            if (came == thread)
                break;
            if (WIFSTOPPED(status)) {
                if (status >> 8 == (SIGTRAP | PTRACE_EVENT_CLONE << 8)) {
                    started += 1;
                    running += 1;
                }
                go_on(came, status);
            }
        }
    }
    return 1;
}

/* Waits until all started threads but the held one have ended, and the first one waits. */
static void see_the_others_end(void)
{
    double late = now() + 10;
    while (running > 1 || !first_waits()) {
        int status;
        pid_t came = next(WNOHANG, &status);
        if (came > 0 && WIFSTOPPED(status)) {
            if (status >> 8 == (SIGTRAP | PTRACE_EVENT_CLONE << 8)) {
                started += 1;
                running += 1;
            }
            go_on(came, status);
        } else if (came == 0) {
            usleep(200);
        }
        if (now() > late)
            exit(HUNG);
    }
}

int main(int count, char **words)
{
    if (count < 4)
        return WRONG;
    int wanted = atoi(words[1]);
    long steps = atol(words[2]);
    first = fork();
    check(first, "fork");
    if (first == 0) {
        check(ptrace(PTRACE_TRACEME, 0, NULL, NULL), "trace");
        execv(words[3], words + 3);
        _exit(WRONG);
    }
    int status;
    check(waitpid(first, &status, 0), "begin");
    check(ptrace(PTRACE_SETOPTIONS, first, NULL, (void *)(PTRACE_O_TRACECLONE | PTRACE_O_EXITKILL)), "options");
    check(ptrace(PTRACE_CONT, first, NULL, NULL), "begin");
    pid_t mine = 0;
    int begun = 0;
    for (;;) {
        pid_t came = next(0, &status);
        if (!WIFSTOPPED(status))
            continue;
        if (status >> 8 == (SIGTRAP | PTRACE_EVENT_CLONE << 8)) {
            unsigned long thread;
            check(ptrace(PTRACE_GETEVENTMSG, came, NULL, &thread), "thread");
            started += 1;
            running += 1;
            if (started == wanted)
                mine = (pid_t)thread;
            go_on(came, status);
        } else if (came == mine && !begun) {
            begun = 1;
            if (!steps_of(mine, steps))
                continue;
            held = mine;
            see_the_others_end();
            check(ptrace(PTRACE_CONT, mine, NULL, NULL), "let go");
        } else {
            go_on(came, status);
        }
    }
}
