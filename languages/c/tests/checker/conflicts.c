/* conflicts.c - a search leaves out executions that show nothing new. Thread A takes a step, is preempted, and goes on later. If the
   others did nothing meanwhile that conflicts with that step, all is as if A had been preempted before it: another execution, with no
   more preemptions. */
#include "checker.h"

enum { MOST_ACCESSES = 12, WORD = 8 };

struct access {
    size_t word;
    bool writes;
};

/* What a thread's last step was, up to the next one. */
static struct step {
    unsigned count;
    bool conflicts; /* with all */
    struct access accesses[MOST_ACCESSES];
} steps[MOST_THREADS];

static uint64_t now;
static uint64_t read_at[MEMORY_SIZE / WORD], written_at[MEMORY_SIZE / WORD]; /* when a word was, last */

uint64_t time_passes(void)
{
    return ++now;
}

void step_begins(void)
{
    steps[running_thread()].count = 0;
    steps[running_thread()].conflicts = false;
}

void step_conflicts(void)
{
    steps[running_thread()].conflicts = true;
}

void step_accesses(const void *word, bool writes)
{
    struct step *step = &steps[running_thread()];
    if (!memory_has(word))
        return;
    if (step->count == MOST_ACCESSES)
        step->conflicts = true;
    else
        step->accesses[step->count++] = (struct access){memory_offset(word) / WORD, writes};
}

void word_is_read(const void *word)
{
    if (memory_has(word))
        read_at[memory_offset(word) / WORD] = now;
}

void word_is_written(const void *word)
{
    if (memory_has(word))
        written_at[memory_offset(word) / WORD] = now;
}

bool has_conflicted(unsigned thread, uint64_t since)
{
    const struct step *step = &steps[thread];
    for (unsigned i = 0; i < step->count; i++) {
        const struct access *access = &step->accesses[i];
        if (written_at[access->word] > since || (access->writes && read_at[access->word] > since))
            return true;
    }
    return step->conflicts;
}
