/* history.c - the calls of an execution, when they began and ended, and what they replied: is there an order of them, which keeps what came
   before what in time, in which a plain map replies the same? Each key is a map of its own. */
#include "checker.h"
#include "cores.h"
#include <string.h>

enum { MOST_CALLS = 256 };
#define NONE UINT64_MAX

struct entry {
    struct call call;
    unsigned thread, begun, ended;
    int code;
    uint64_t before;
    bool is_placed; /* in the order */
};

static struct entry history[MOST_CALLS];
static unsigned count, now;

void history_begin(void)
{
    count = now = 0;
}

static const char *const names[] = {"end",     "get",        "put",       "put_if_absent", "add",
                                    "remove",  "replace",    "replace_if", "remove_if",     "fetch_max", "leave"};

unsigned history_call(unsigned thread, const struct call *call)
{
    step_conflicts();
    if (count == MOST_CALLS)
        fail("too many calls");
    history[count] = (struct entry){*call, thread, now++, 0, 0, 0, false};
    trace("thread %u begins %s of %llx, %llx\n", thread, names[call->operation], (unsigned long long)call->key,
          (unsigned long long)call->number);
    return count++;
}

void history_reply(unsigned number, int code, uint64_t before)
{
    struct entry *entry = &history[number];
    step_conflicts();
    entry->code = code;
    entry->before = before;
    entry->ended = now++;
    trace("thread %u: %s of %llx replies %d, %llx\n", entry->thread, names[entry->call.operation], (unsigned long long)entry->call.key,
          code, (unsigned long long)before);
}

/* Whether a call leaves another number than it finds, and which. */
static bool acts(const struct call *call, uint64_t there, uint64_t *left)
{
    bool had = there != NONE;
    *left = call->number;
    switch (call->operation) {
    case CALL_PUT: return true;
    case CALL_PUT_IF_ABSENT: return !had;
    case CALL_ADD: *left = had ? there + call->number : call->number; return *left <= SAMVOLIP_CORE_USER_MAX;
    case CALL_REMOVE: *left = NONE; return had;
    case CALL_REPLACE: return had;
    case CALL_REPLACE_IF: *left = call->next; return there == call->number;
    case CALL_REMOVE_IF: *left = NONE; return there == call->number;
    case CALL_FETCH_MAX: return !had || there < call->number;
    case CALL_GET: case CALL_LEAVE: case CALL_END: break;
    }
    return false;
}

/* Whether a plain map with `there` at the key replies so; *left is what it has then. */
static bool replies_so(const struct entry *entry, uint64_t there, uint64_t *left)
{
    bool had = there != NONE, acted = acts(&entry->call, there, left);
    if (!acted)
        *left = there;
    switch (entry->call.operation) {
    case CALL_REPLACE_IF: case CALL_REMOVE_IF: return entry->code == acted;
    case CALL_ADD:
        if (!acted)
            return entry->code == SAMVOLIP_E_SUM_RANGE;
        /* fall through */
    default: return entry->code == had && entry->before == (had ? there : 0);
    }
}

/* Whether all calls of the key that aren't placed have an order after those that are. */
static bool has_order(uint64_t key, uint64_t there)
{
    unsigned first_end = UINT32_MAX; /* of a call that isn't placed: what begins later comes after it */
    for (unsigned i = 0; i < count; i++)
        if (history[i].call.key == key && !history[i].is_placed && history[i].ended < first_end)
            first_end = history[i].ended;
    if (first_end == UINT32_MAX)
        return true;
    for (unsigned i = 0; i < count; i++) {
        struct entry *entry = &history[i];
        uint64_t left;
        if (entry->call.key != key || entry->is_placed || entry->begun > first_end || !replies_so(entry, there, &left))
            continue;
        entry->is_placed = true;
        bool found = has_order(key, left);
        entry->is_placed = false;
        if (found)
            return true;
    }
    return false;
}

void history_check(void)
{
    for (unsigned i = 0; i < count; i++) {
        if (history[i].code == SAMVOLIP_E_OUT_OF_MEMORY)
            history[i].is_placed = true; /* with no effect */
        else if (history[i].code < 0 && history[i].code != SAMVOLIP_E_SUM_RANGE)
            fail("%s is refused with %d", names[history[i].call.operation], history[i].code);
    }
    for (unsigned i = 0; i < count; i++) {
        bool is_first = true;
        for (unsigned j = 0; j < i; j++)
            is_first = is_first && history[j].call.key != history[i].call.key;
        if (is_first && !has_order(history[i].call.key, NONE))
            fail("no order of the calls explains the replies at key %llx", (unsigned long long)history[i].call.key);
    }
}
