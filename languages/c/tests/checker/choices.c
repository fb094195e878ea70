/* choices.c - what an execution leaves open, as a list of numbers: all lists one after another, each deeper place first; lists by chance;
   or one list that was told before. */
#include "checker.h"
#include <stdio.h>
#include <stdlib.h>

enum { MOST_CHOICES = 1 << 16 };

static struct {
    enum search search;
    uint64_t random;
    unsigned rarely; /* by chance a number other than 0 is chosen once in so many times */
    size_t at, count; /* where the execution is, and how many are fixed before it */
    struct {
        uint8_t taken, options;
        uint64_t worth; /* a bit for each option that is worth trying */
    } list[MOST_CHOICES];
} choices;

static uint64_t draw(void)
{
    choices.random += UINT64_C(0x9e3779b97f4a7c15);
    uint64_t z = choices.random;
    z = (z ^ z >> 30) * UINT64_C(0xbf58476d1ce4e5b9);
    z = (z ^ z >> 27) * UINT64_C(0x94d049bb133111eb);
    return z ^ z >> 31;
}

/* A number that the list doesn't fix. */
static unsigned free_choice(unsigned options, bool evenly)
{
    if (choices.search != SEARCH_RANDOM)
        return 0;
    if (evenly)
        return (unsigned)(draw() % options);
    return draw() % choices.rarely ? 0 : 1 + (unsigned)(draw() % (options - 1));
}

static unsigned choose_by(unsigned options, uint64_t worth, bool evenly)
{
    if (options < 2)
        return 0;
    if (options > MOST_OPTIONS || choices.at == MOST_CHOICES)
        fail("too many choices");
    size_t at = choices.at++;
    if (at >= choices.count) {
        choices.list[at].taken = (uint8_t)free_choice(options, evenly);
        choices.count = at + 1;
    }
    choices.list[at].options = (uint8_t)options;
    choices.list[at].worth = worth;
    if (choices.list[at].taken >= options)
        fail("choice %zu is %u of %u: this is another execution than the one that was told", at, choices.list[at].taken, options);
    return choices.list[at].taken;
}

unsigned choose(unsigned options, uint64_t worth)
{
    return choose_by(options, worth, false);
}

unsigned choose_evenly(unsigned options)
{
    return choose_by(options, UINT64_MAX, true);
}

/* Numbers other than 0 of a list, as choices_print writes it: PLACE:NUMBER, with commas between. */
static void read_list(const char *text)
{
    while (*text) {
        char *end;
        size_t at = strtoul(text, &end, 10);
        if (*end != ':' || at >= MOST_CHOICES)
            fail("no list of choices: %s", text);
        choices.list[at].taken = (uint8_t)strtoul(end + 1, &end, 10);
        choices.count = at + 1;
        text = *end ? end + 1 : end;
    }
}

static void begin_by_chance(void)
{
    static const unsigned rarely[] = {2, 6, 15, 40, 100};
    choices.count = 0;
    choices.rarely = rarely[draw() % (sizeof rarely / sizeof *rarely)];
}

void choices_begin(enum search search, uint64_t seed, const char *replayed)
{
    choices.search = search;
    choices.random = seed * UINT64_C(0x2545f4914f6cdd1d);
    choices.at = choices.count = 0;
    if (search == SEARCH_REPLAY)
        read_list(replayed);
    if (search == SEARCH_RANDOM)
        begin_by_chance();
}

bool choices_next(void)
{
    choices.at = 0;
    if (choices.search == SEARCH_RANDOM)
        begin_by_chance();
    if (choices.search != SEARCH_ALL)
        return choices.search == SEARCH_RANDOM;
    while (choices.count > 0) {
        size_t last = choices.count - 1;
        while (++choices.list[last].taken < choices.list[last].options)
            if (choices.list[last].worth >> choices.list[last].taken & 1)
                return true;
        choices.count--;
    }
    return false;
}

void choices_print(void)
{
    const char *between = "";
    for (size_t i = 0; i < choices.at; i++)
        if (choices.list[i].taken > 0) {
            printf("%s%zu:%u", between, i, choices.list[i].taken);
            between = ",";
        }
    if (!*between)
        printf("0:0");
}
