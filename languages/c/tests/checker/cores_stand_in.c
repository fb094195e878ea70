/* cores_stand_in.c - in the place of the proved library: a core is an array of slots, and each call of ../../src/cores.h that is one step
   of the proved map is one step here. A write that acts is a locked step; reads, and writes that leave all as it is, aren't. */
#include "checker.h"
#include "cores.h"
#include <string.h>

#define FROZEN (UINT64_C(1) << 59)
#define CLOSED SAMVOLIP_VALUE_MAX
#define NONE UINT64_MAX /* no number is there now */

struct slot {
    uint64_t key, number;
    bool is_claimed; /* it has had a number of this key, or has one */
};

struct core {
    uint32_t handles, slot_count;
    struct slot slots[];
};

struct handle {
    struct core *core;
    uint32_t reserve; /* seats beside its own */
    bool is_in_call;
};

static unsigned alive;

unsigned cores_alive(void)
{
    return alive;
}

void cores_begin(void)
{
    alive = 0;
}

/* ---- handles --------------------------------------------------------------------------------- */

int samvolip_open_with(const samvolip_header *header, const samvolip_shape *shape, samvolip_seat *seat)
{
    (void)header;
    if (shape->tables != 1 || shape->exponents[0] < 2 || shape->seats < 1)
        fail("a core has no such shape");
    uint32_t slot_count = UINT32_C(1) << shape->exponents[0];
    struct handle *handle = memory_take(sizeof *handle, sizeof(void *));
    struct core *core = handle ? memory_take(sizeof *core + slot_count * sizeof *core->slots, 64) : NULL;
    if (!core) {
        memory_give(handle);
        return SAMVOLIP_E_OUT_OF_MEMORY;
    }
    *core = (struct core){1, slot_count};
    *handle = (struct handle){core, shape->seats - 1, false};
    *seat = (samvolip_seat){handle, 0, 0};
    alive++;
    return SAMVOLIP_OK;
}

/* A call begins by this seat: its core. */
static struct core *enter(samvolip_seat *seat)
{
    memory_touch(seat, sizeof *seat);
    struct handle *handle = seat->handle;
    if (!handle)
        fail("a call by an empty seat");
    memory_touch(handle, sizeof *handle);
    if (handle->is_in_call)
        fail("two threads call by one seat");
    handle->is_in_call = true;
    return handle->core;
}

static void leave(samvolip_seat *seat)
{
    struct handle *handle = seat->handle;
    memory_touch(handle, sizeof *handle);
    handle->is_in_call = false;
}

int samvolip_split(samvolip_seat *seat, samvolip_seat *other)
{
    struct handle *handle = seat->handle;
    struct core *core = enter(seat);
    struct handle *made = handle->reserve > 0 ? memory_take(sizeof *made, sizeof(void *)) : NULL;
    leave(seat);
    if (!made)
        return handle->reserve > 0 ? SAMVOLIP_E_OUT_OF_MEMORY : SAMVOLIP_E_NO_SEAT;
    handle->reserve--;
    core->handles++;
    *made = (struct handle){core, 0, false};
    *other = (samvolip_seat){made, 0, 0};
    return SAMVOLIP_OK;
}

void samvolip_free_open(samvolip_seat *seat)
{
    const struct handle *handle = seat->handle;
    if (handle->is_in_call)
        fail("a core is freed in the middle of a call");
    struct core *core = enter(seat);
    memory_touch(core, sizeof *core);
    memory_give(seat->handle);
    seat->handle = NULL;
    if (--core->handles == 0) {
        memory_give(core);
        alive--;
    }
}

int samvolip_join(samvolip_seat *seat, samvolip_seat *other)
{
    struct handle *into = seat->handle, *from = other->handle;
    if (enter(seat) != enter(other))
        fail("seats of two cores are joined");
    into->reserve += 1 + from->reserve;
    into->core->handles--;
    memory_give(from);
    other->handle = NULL;
    leave(seat);
    return SAMVOLIP_OK;
}

/* ---- slots ----------------------------------------------------------------------------------- */

/* A slot, which is looked at. */
static struct slot *seen(struct core *core, size_t at)
{
    struct slot *slot = &core->slots[at];
    step_accesses(slot, false);
    word_is_read(slot);
    return slot;
}

/* A key's slot, or the one that it would take; NULL where other keys have all of them. */
static struct slot *slot_of(struct core *core, uint64_t key)
{
    memory_touch(core, sizeof *core);
    for (uint32_t i = 0; i < core->slot_count; i++) {
        struct slot *slot = seen(core, (key + i) % core->slot_count);
        if (!slot->is_claimed || slot->key == key)
            return slot;
    }
    return NULL;
}

static uint64_t number_in(const struct slot *slot)
{
    return slot && slot->is_claimed ? slot->number : NONE;
}

/* In a locked step a number comes to a slot of the key. */
static void set(struct slot *slot, uint64_t key, uint64_t number)
{
    drain_all(running_thread());
    step_accesses(slot, true);
    word_is_written(slot);
    *slot = (struct slot){key, number, true};
}

/* What a number says, and what of it is told. */
static int told(uint64_t number, uint64_t *found)
{
    *found = number == NONE || number == CLOSED ? 0 : number & (FROZEN - 1);
    return number == NONE ? SAMVOLIP_CORE_ABSENT : number == CLOSED ? SAMVOLIP_CORE_CLOSED :
           number >= FROZEN ? SAMVOLIP_CORE_FROZEN : SAMVOLIP_CORE_OPEN;
}

static const char *const codes[] = {"absent", "open",  "frozen",     "closed", "came",   "changed",
                                    "kept",   "moved", "had number", "full",   "settled"};

static int answered(const char *what, const void *core, uint64_t key, uint64_t number, int code)
{
    trace("    core %p %s key %llx number %llx: %s\n", core, what, (unsigned long long)key, (unsigned long long)number,
          code >= 0 ? codes[code] : samvolip_strerror(code));
    return code;
}

int samvolip_core_look(samvolip_seat *seat, uint64_t key, uint64_t *found)
{
    struct core *core = enter(seat);
    take_step("look");
    int code = told(number_in(slot_of(core, key)), found);
    leave(seat);
    return answered("look", core, key, *found, code);
}

/* ---- writes ---------------------------------------------------------------------------------- */

struct write {
    const char *what;
    uint32_t want, change;
    uint64_t old, number;
};

/* What a write leaves where there is this number, one of the user's or none; *found is that. */
static int decided(const struct write *write, uint64_t there, uint64_t *left)
{
    bool is_absent = there == NONE, holds = write->want == SAMVOLIP_ANY || (write->want == SAMVOLIP_WANT_ABSENT && is_absent) ||
                                            (write->want == SAMVOLIP_WANT_PRESENT && !is_absent) ||
                                            (write->want == SAMVOLIP_EQUAL && there == write->old);
    if (!holds)
        return is_absent ? SAMVOLIP_CORE_ABSENT : SAMVOLIP_CORE_KEPT;
    if (write->change == SAMVOLIP_REMOVE) {
        *left = NONE;
        return is_absent ? SAMVOLIP_CORE_ABSENT : SAMVOLIP_CORE_CHANGED;
    }
    *left = write->number + (write->change == SAMVOLIP_ADD && !is_absent ? there : 0);
    if (*left > SAMVOLIP_CORE_USER_MAX)
        return SAMVOLIP_E_SUM_RANGE;
    return is_absent ? SAMVOLIP_CORE_CAME : SAMVOLIP_CORE_CHANGED;
}

/* Whether a call is refused since another thread has changed the key after this one has read `loaded` there. */
static bool is_contended(struct core *core, uint64_t key, uint64_t loaded)
{
    return number_in(slot_of(core, key)) != loaded && choose(2, UINT64_MAX) == 1;
}

static int written(struct core *core, const struct write *write, uint64_t key, uint64_t *found)
{
    struct slot *slot = slot_of(core, key);
    uint64_t there = number_in(slot), left;
    if (there != NONE && there > SAMVOLIP_CORE_USER_MAX) {
        *found = 0;
        return SAMVOLIP_CORE_MOVED;
    }
    int code = decided(write, there, &left);
    if (code == SAMVOLIP_CORE_CAME && !slot)
        return SAMVOLIP_E_FULL;
    if (code < 0)
        return code;
    if (code == SAMVOLIP_CORE_CAME || code == SAMVOLIP_CORE_CHANGED)
        set(slot, key, left);
    *found = there == NONE ? 0 : there;
    return code;
}

static int write_at(samvolip_seat *seat, uint64_t key, struct write write, uint64_t *found)
{
    if (write.change != SAMVOLIP_REMOVE && write.number > SAMVOLIP_CORE_USER_MAX)
        return SAMVOLIP_E_VALUE_RANGE;
    struct core *core = enter(seat);
    uint64_t loaded = number_in(slot_of(core, key));
    take_step(write.what);
    int code = is_contended(core, key, loaded) ? SAMVOLIP_E_CONTENDED : written(core, &write, key, found);
    leave(seat);
    return answered(write.what, core, key, write.number, code);
}

int samvolip_core_put(samvolip_seat *seat, uint64_t key, uint64_t number, uint32_t tries, uint64_t *found)
{
    (void)tries;
    return write_at(seat, key, (struct write){"put", SAMVOLIP_ANY, SAMVOLIP_PUT, 0, number}, found);
}

int samvolip_core_put_if_absent(samvolip_seat *seat, uint64_t key, uint64_t number, uint32_t tries, uint64_t *found)
{
    (void)tries;
    return write_at(seat, key, (struct write){"put if absent", SAMVOLIP_WANT_ABSENT, SAMVOLIP_PUT, 0, number}, found);
}

int samvolip_core_add(samvolip_seat *seat, uint64_t key, uint64_t number, uint32_t tries, uint64_t *found)
{
    (void)tries;
    return write_at(seat, key, (struct write){"add", SAMVOLIP_ANY, SAMVOLIP_ADD, 0, number}, found);
}

int samvolip_core_remove(samvolip_seat *seat, uint64_t key, uint32_t tries, uint64_t *found)
{
    (void)tries;
    return write_at(seat, key, (struct write){"remove", SAMVOLIP_ANY, SAMVOLIP_REMOVE, 0, 0}, found);
}

int samvolip_core_replace_if(samvolip_seat *seat, uint64_t key, uint64_t old, uint64_t next, uint32_t tries, uint64_t *found)
{
    (void)tries;
    return write_at(seat, key, (struct write){"replace if", SAMVOLIP_EQUAL, SAMVOLIP_PUT, old, next}, found);
}

int samvolip_core_remove_if(samvolip_seat *seat, uint64_t key, uint64_t number, uint32_t tries, uint64_t *found)
{
    (void)tries;
    return write_at(seat, key, (struct write){"remove if", SAMVOLIP_EQUAL, SAMVOLIP_REMOVE, number, 0}, found);
}

int samvolip_core_compare_exchange(samvolip_seat *seat, uint64_t key, uint32_t want, uint64_t old, uint32_t change, uint64_t number,
                                   uint32_t tries, uint64_t *found)
{
    (void)tries;
    return write_at(seat, key, (struct write){"compare exchange", want, change, old, number}, found);
}

/* A write that reads first, and then exchanges what it found, once. `keeps` says which numbers it leaves. */
static int read_and_write(samvolip_seat *seat, uint64_t key, struct write write, bool (*keeps)(uint64_t there, uint64_t number),
                          uint64_t *found)
{
    uint64_t there, now;
    int code = samvolip_core_look(seat, key, &there);
    if (code == SAMVOLIP_CORE_OPEN && keeps(there, write.number))
        code = SAMVOLIP_CORE_KEPT;
    else if (code == SAMVOLIP_CORE_OPEN) {
        write.want = SAMVOLIP_EQUAL;
        write.old = there;
        code = write_at(seat, key, write, &now);
        if (code == SAMVOLIP_CORE_ABSENT || code == SAMVOLIP_CORE_KEPT || code == SAMVOLIP_CORE_MOVED)
            code = SAMVOLIP_E_CONTENDED;
    } else if (code == SAMVOLIP_CORE_ABSENT && write.want == SAMVOLIP_ANY) {
        write.want = SAMVOLIP_WANT_ABSENT;
        code = write_at(seat, key, write, &now);
        if (code == SAMVOLIP_CORE_KEPT || code == SAMVOLIP_CORE_MOVED)
            code = SAMVOLIP_E_CONTENDED;
    } else if (code != SAMVOLIP_CORE_ABSENT)
        code = SAMVOLIP_CORE_MOVED;
    if (code >= 0)
        *found = code == SAMVOLIP_CORE_MOVED ? 0 : there;
    return code;
}

static bool keeps_none(uint64_t there, uint64_t number)
{
    (void)there;
    (void)number;
    return false;
}

static bool keeps_greater(uint64_t there, uint64_t number)
{
    return there >= number;
}

static bool keeps_less(uint64_t there, uint64_t number)
{
    return there <= number;
}

int samvolip_core_replace(samvolip_seat *seat, uint64_t key, uint64_t number, uint32_t tries, uint64_t *found)
{
    (void)tries;
    return read_and_write(seat, key, (struct write){"replace", SAMVOLIP_WANT_PRESENT, SAMVOLIP_PUT, 0, number}, keeps_none, found);
}

int samvolip_core_fetch_max(samvolip_seat *seat, uint64_t key, uint64_t number, uint32_t tries, uint64_t *found)
{
    (void)tries;
    return read_and_write(seat, key, (struct write){"fetch max", SAMVOLIP_ANY, SAMVOLIP_PUT, 0, number}, keeps_greater, found);
}

int samvolip_core_fetch_min(samvolip_seat *seat, uint64_t key, uint64_t number, uint32_t tries, uint64_t *found)
{
    (void)tries;
    return read_and_write(seat, key, (struct write){"fetch min", SAMVOLIP_ANY, SAMVOLIP_PUT, 0, number}, keeps_less, found);
}

/* ---- steps by which a key leaves a core ------------------------------------------------------ */

/* In one step puts `next` where the key has `there`. */
static int stepped(struct core *core, uint64_t key, uint64_t there, uint64_t next, uint64_t *found)
{
    struct slot *slot = slot_of(core, key);
    if (!slot && there == NONE)
        return SAMVOLIP_E_FULL;
    if (number_in(slot) == there)
        set(slot, key, next);
    return told(number_in(slot), found);
}

/* Answers as a look after it. */
static int step_at(samvolip_seat *seat, const char *what, uint64_t key, uint64_t there, uint64_t next, uint64_t *found)
{
    struct core *core = enter(seat);
    uint64_t loaded = number_in(slot_of(core, key));
    take_step(what);
    int code = is_contended(core, key, loaded) ? SAMVOLIP_E_CONTENDED : stepped(core, key, there, next, found);
    leave(seat);
    return answered(what, core, key, there, code);
}

int samvolip_core_freeze(samvolip_seat *seat, uint64_t key, uint64_t number, uint32_t tries, uint64_t *found)
{
    (void)tries;
    if (number > SAMVOLIP_CORE_USER_MAX)
        return SAMVOLIP_E_VALUE_RANGE;
    return step_at(seat, "freeze", key, number, number | FROZEN, found);
}

int samvolip_core_mark(samvolip_seat *seat, uint64_t key, uint64_t number, uint32_t tries, uint64_t *found)
{
    (void)tries;
    if (number > SAMVOLIP_CORE_USER_MAX)
        return SAMVOLIP_E_VALUE_RANGE;
    return step_at(seat, "mark", key, number | FROZEN, CLOSED, found);
}

int samvolip_core_close_if_absent(samvolip_seat *seat, uint64_t key, uint32_t tries, uint64_t *found)
{
    (void)tries;
    return step_at(seat, "close if absent", key, NONE, CLOSED, found);
}

/* ---- copies ---------------------------------------------------------------------------------- */

int samvolip_core_copy(samvolip_seat *target, uint64_t key, uint64_t number)
{
    if (number > SAMVOLIP_CORE_USER_MAX)
        return SAMVOLIP_E_VALUE_RANGE;
    struct core *core = enter(target);
    take_step("copy");
    struct slot *slot = slot_of(core, key);
    int code = SAMVOLIP_CORE_HAD_NUMBER;
    if (!slot)
        code = SAMVOLIP_CORE_FULL;
    else if (!slot->is_claimed) {
        set(slot, key, number);
        code = SAMVOLIP_CORE_CAME;
    } else if (slot->number == CLOSED)
        code = SAMVOLIP_CORE_CLOSED;
    leave(target);
    return answered("copy", core, key, number, code);
}

int samvolip_core_copy_on(samvolip_seat *source, samvolip_seat *target, uint64_t key, uint64_t number)
{
    uint64_t there;
    int code = samvolip_core_look(source, key, &there);
    if (code != SAMVOLIP_CORE_FROZEN || there != number)
        return SAMVOLIP_CORE_SETTLED;
    return samvolip_core_copy(target, key, number);
}

int samvolip_core_copy_and_mark(samvolip_seat *source, samvolip_seat *target, uint64_t key, uint64_t number, uint32_t tries)
{
    uint64_t found;
    int code = samvolip_core_copy(target, key, number);
    if (code != SAMVOLIP_CORE_CAME && code != SAMVOLIP_CORE_HAD_NUMBER)
        return code;
    int marked = samvolip_core_mark(source, key, number, tries, &found);
    return marked < 0 ? marked : code;
}

/* ---- a stretch of slots at once -------------------------------------------------------------- */

/* Entries that were frozen, at their slots, and what their copies came to. */
struct frozen {
    uint64_t count, passed;
    struct slot *slots[SAMVOLIP_CORE_STRETCH];
    uint64_t numbers[SAMVOLIP_CORE_STRETCH];
    int copied[SAMVOLIP_CORE_STRETCH];
};

/* False: another write came first. */
static bool freeze_slot(struct core *core, size_t at, struct frozen *frozen)
{
    take_step("look at a slot");
    struct slot *slot = seen(core, at);
    uint64_t there = number_in(slot);
    if (there == NONE || there == CLOSED)
        return true;
    if (there < FROZEN) {
        take_step("freeze a slot");
        if (number_in(seen(core, at)) != there)
            return false;
        set(slot, slot->key, there | FROZEN);
    }
    frozen->slots[frozen->count] = slot;
    frozen->numbers[frozen->count++] = there & (FROZEN - 1);
    return true;
}

static void freeze_stretch(struct core *core, size_t first, size_t room, struct frozen *frozen)
{
    frozen->count = frozen->passed = 0;
    while (frozen->passed < room && first + frozen->passed < core->slot_count) {
        memory_touch(core, sizeof *core);
        if (!freeze_slot(core, first + frozen->passed, frozen))
            break;
        frozen->passed++;
    }
}

static bool has_come(int copied)
{
    return copied == SAMVOLIP_CORE_CAME || copied == SAMVOLIP_CORE_HAD_NUMBER;
}

/* Marks those that have come. E_CONTENDED: one is left. */
static int mark_stretch(struct core *core, const struct frozen *frozen)
{
    int code = SAMVOLIP_OK;
    for (uint64_t i = 0; i < frozen->count; i++) {
        struct slot *slot = frozen->slots[i];
        if (!has_come(frozen->copied[i]))
            continue;
        uint64_t loaded = number_in(slot), found;
        take_step("mark a slot");
        memory_touch(core, sizeof *core);
        if (is_contended(core, slot->key, loaded))
            code = SAMVOLIP_E_CONTENDED;
        else
            stepped(core, slot->key, frozen->numbers[i] | FROZEN, CLOSED, &found);
    }
    return code;
}

int samvolip_core_move_stretch(samvolip_seat *source, samvolip_seat *target, size_t first, uint32_t tries, samvolip_entry *left,
                               size_t room, samvolip_core_stretch *told_of)
{
    struct frozen frozen;
    struct core *core = enter(source);
    (void)tries;
    freeze_stretch(core, first, room < SAMVOLIP_CORE_STRETCH ? room : SAMVOLIP_CORE_STRETCH, &frozen);
    *told_of = (samvolip_core_stretch){frozen.passed, 0};
    for (uint64_t i = 0; i < frozen.count; i++) {
        frozen.copied[i] = samvolip_core_copy(target, frozen.slots[i]->key, frozen.numbers[i]);
        if (!has_come(frozen.copied[i]))
            left[told_of->left++] = (samvolip_entry){frozen.slots[i]->key, frozen.numbers[i]};
    }
    int code = mark_stretch(core, &frozen);
    leave(source);
    return answered("move a stretch", core, first, frozen.passed, code);
}

/* ---- all slots ------------------------------------------------------------------------------- */

#undef samvolip_size_estimate
uint64_t samvolip_size_estimate(samvolip_seat *seat)
{
    uint64_t size = 0;
    struct core *core = enter(seat);
    take_step("size");
    memory_touch(core, sizeof *core);
    for (uint32_t i = 0; i < core->slot_count; i++)
        size += number_in(seen(core, i)) != NONE;
    leave(seat);
    return size;
}

void samvolip_occupancy(samvolip_seat *seat, samvolip_slots *found)
{
    struct core *core = enter(seat);
    take_step("occupancy");
    memory_touch(core, sizeof *core);
    *found = (samvolip_slots){0, core->slot_count, 1};
    for (uint32_t i = 0; i < core->slot_count; i++)
        found->taken += seen(core, i)->is_claimed;
    leave(seat);
}

int samvolip_walk_from(samvolip_seat *seat, size_t slot, samvolip_cursor *cursor)
{
    struct core *core = enter(seat);
    leave(seat);
    if (slot >= core->slot_count)
        return SAMVOLIP_ABSENT;
    *cursor = (samvolip_cursor){0, 0, slot, 0, 0};
    return SAMVOLIP_PRESENT;
}

void samvolip_walk(samvolip_seat *seat, samvolip_cursor *cursor)
{
    samvolip_walk_from(seat, 0, cursor);
}

/* The slots are looked at one by one. */
int samvolip_list(samvolip_seat *seat, samvolip_cursor *cursor, size_t end, samvolip_entry *entries, size_t room, uint64_t *count)
{
    struct core *core = enter(seat);
    *count = 0;
    while (*count < room && cursor->slot < end && cursor->slot < core->slot_count) {
        take_step("list a slot");
        memory_touch(core, sizeof *core);
        const struct slot *slot = seen(core, cursor->slot++);
        if (number_in(slot) != NONE)
            entries[(*count)++] = (samvolip_entry){slot->key, slot->number};
    }
    leave(seat);
    return *count == room ? SAMVOLIP_PRESENT : SAMVOLIP_ABSENT;
}

int samvolip_next(samvolip_seat *seat, samvolip_cursor *cursor, uint64_t *key, uint64_t *value)
{
    samvolip_entry entry = {0, 0};
    uint64_t count;
    samvolip_list(seat, cursor, SIZE_MAX, &entry, 1, &count);
    *key = entry.key;
    *value = entry.number;
    return count == 1 ? SAMVOLIP_PRESENT : SAMVOLIP_ABSENT;
}
