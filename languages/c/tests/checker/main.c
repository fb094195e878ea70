/* main.c - runs scenarios through all interleavings with a number of preemptions, through random ones, or through one that was told. */
#include "scenarios.h"
#include <limits.h>
#include <signal.h>
#include <stdarg.h>
#include <stdio.h>
#include <stdlib.h>
#include <string.h>
#include <time.h>

enum { MOST_PREEMPTIONS = 4 };

bool is_traced;

static struct options {
    struct bounds bounds; /* preemptions: UINT_MAX is what each scenario says */
    unsigned deeper;      /* so many more than that */
    uint64_t random, seed, most; /* executions by chance; executions of a search at most, 0: any number */
    double seconds;              /* of a search at most */
    const char *replayed;
} options = {{UINT_MAX, 1, 0, 0}, 0, 0, 1, 0, 1e9, NULL};

static const char *running = "";
static struct bounds running_bounds;
static uint64_t executions;

void print_trace(const char *format, ...)
{
    va_list arguments;
    va_start(arguments, format);
    vprintf(format, arguments);
    va_end(arguments);
}

void fail(const char *format, ...)
{
    va_list arguments;
    printf("%s: BROKEN in execution %llu: ", running, (unsigned long long)executions);
    va_start(arguments, format);
    vprintf(format, arguments);
    va_end(arguments);
    printf("\n    checker --preemptions %u --delays %u --drains %u --replay ", running_bounds.preemptions, running_bounds.delays,
           running_bounds.drains);
    choices_print();
    printf(" \"%s\"\n", running);
    exit(1);
}

static double seconds_now(void)
{
    struct timespec now;
    clock_gettime(CLOCK_PROCESS_CPUTIME_ID, &now);
    return (double)now.tv_sec + (double)now.tv_nsec / 1e9;
}

/* Runs a scenario as a search says. */
static void explore(const struct scenario *scenario, enum search search, const struct bounds *bounds)
{
    double begun = seconds_now();
    uint64_t steps = steps_taken, most = search == SEARCH_RANDOM ? options.random : options.most;
    bool is_whole = false;
    running = scenario->name;
    running_bounds = *bounds;
    executions = 0;
    most_steps_alone = longest_row = most_retired = 0;
    choices_begin(search, options.seed, options.replayed);
    do {
        executions++;
        scenario_run(scenario, bounds);
        is_whole = !choices_next();
    } while (!is_whole && executions != most && (executions % 64 || seconds_now() - begun < options.seconds));
    char kind[32];
    snprintf(kind, sizeof kind, search == SEARCH_RANDOM ? "by chance" : "%u preemptions", bounds->preemptions);
    printf("%-22s %-14s %9llu executions %11llu steps, %4u alone at most, %6.2f s: none broken%s\n", running, kind,
           (unsigned long long)executions, (unsigned long long)(steps_taken - steps), most_steps_alone, seconds_now() - begun,
           is_whole || search == SEARCH_RANDOM ? "" : ", not all seen");
    if (longest_row > 0)
        printf("    while threads stand still: %u cores in a row at most, and %u retired\n", longest_row, most_retired);
    fflush(stdout);
}

static unsigned most_preemptions(const struct scenario *scenario)
{
    return options.bounds.preemptions == UINT_MAX ? scenario->preemptions + options.deeper : options.bounds.preemptions;
}

/* Searches a scenario with so many preemptions, or, if it has more than any, by chance. */
static void check(const struct scenario *scenario, unsigned preemptions)
{
    struct bounds bounds = options.bounds;
    bounds.preemptions = preemptions;
    bounds.refusals = scenario->refusals;
    if (options.replayed)
        explore(scenario, SEARCH_REPLAY, &bounds);
    else if (preemptions <= most_preemptions(scenario))
        explore(scenario, SEARCH_ALL, &bounds);
    else if (preemptions == UINT_MAX) {
        bounds.delays = bounds.drains = UINT_MAX;
        explore(scenario, SEARCH_RANDOM, &bounds);
    }
}

static void usage(void)
{
    fprintf(stderr, "checker [--preemptions N | --deeper N] [--delays N] [--drains N] [--most EXECUTIONS] [--seconds S]\n"
                    "        [--random EXECUTIONS] [--seed N] [--replay LIST] [SCENARIO..]\n");
    exit(2);
}

static void read_option(const char *name, const char *value)
{
    if (!value)
        usage();
    else if (!strcmp(name, "--preemptions"))
        options.bounds.preemptions = (unsigned)atoi(value);
    else if (!strcmp(name, "--delays"))
        options.bounds.delays = (unsigned)atoi(value);
    else if (!strcmp(name, "--drains"))
        options.bounds.drains = (unsigned)atoi(value);
    else if (!strcmp(name, "--most"))
        options.most = strtoull(value, NULL, 10);
    else if (!strcmp(name, "--seconds"))
        options.seconds = atof(value);
    else if (!strcmp(name, "--random"))
        options.random = strtoull(value, NULL, 10);
    else if (!strcmp(name, "--seed"))
        options.seed = strtoull(value, NULL, 10);
    else if (!strcmp(name, "--deeper"))
        options.deeper = (unsigned)atoi(value);
    else if (!strcmp(name, "--replay"))
        options.replayed = value;
    else
        usage();
}

static _Noreturn void wild_address(int signal)
{
    (void)signal;
    fail("an address is none");
}

static bool is_wanted(const struct scenario *scenario, int count, char **names)
{
    for (int i = 0; i < count; i++)
        if (!strcmp(names[i], scenario->name))
            return true;
    return count == 0;
}

static void check_all(unsigned preemptions, int count, char **names)
{
    for (const struct scenario *scenario = scenarios; scenario->name; scenario++)
        if (is_wanted(scenario, count, names))
            check(scenario, preemptions);
}

int main(int count, char **words)
{
    int at = 1;
    signal(SIGSEGV, wild_address);
    while (at < count && !strncmp(words[at], "--", 2)) {
        read_option(words[at], words[at + 1]);
        at += 2;
    }
    is_traced = options.replayed;
    if (options.replayed)
        check_all(options.bounds.preemptions, count - at, words + at);
    for (unsigned preemptions = 0; preemptions <= MOST_PREEMPTIONS && !options.replayed; preemptions++)
        check_all(preemptions, count - at, words + at);
    if (options.random > 0)
        check_all(UINT_MAX, count - at, words + at);
    return 0;
}
