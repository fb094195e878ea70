/* settling.c - how a key leaves a core that has a link: its number is frozen, copied to the core behind, and then the key is closed. Any
   thread does this for any key, however late. */
#include "migration.h"

/* The third of the slots. */
static unsigned other_slot(unsigned one, unsigned two) { return HAZARDS - one - two; }

/* After a core had no place for a copy, since the key is closed there or no slot is left: to the core behind it, by this slot. NULL: where
   this core is sealed, so is the source, and the key is settled; or `refused`, a link that it needs. */
static struct core *go_behind(struct lane *lane, unsigned slot, struct core *core, int code, bool *refused)
{
    *refused = code == SAMVOLIP_CORE_FULL && !link_now(lane, core, true);
    return *refused ? NULL : follow(lane, slot, core);
}

/* Copies a number that is frozen in a core, which this slot names, and closes its key there. Before a copy goes on behind a core it looks
   at the source again: where the number isn't frozen any more the key is settled. It ends with the row. */
static int copy_behind(struct lane *lane, unsigned slot, struct core *source, uint64_t key, uint64_t number)
{
    samvolip_seat *from = seat_in(source, lane);
    unsigned at = (slot + 1) % HAZARDS;
    bool refused = false;
    struct core *to = follow(lane, at, source);
    int code = to ? samvolip_core_copy_and_mark(from, seat_in(to, lane), key, number, 1) : SAMVOLIP_CORE_SETTLED;
    while (code == SAMVOLIP_CORE_CLOSED || code == SAMVOLIP_CORE_FULL) {
        at = other_slot(slot, at);
        to = go_behind(lane, at, to, code, &refused);
        if (!to)
            return refused ? SAMVOLIP_E_OUT_OF_MEMORY : SAMVOLIP_OK;
        code = samvolip_core_copy_on(from, seat_in(to, lane), key, number);
        if (code == SAMVOLIP_CORE_CAME || code == SAMVOLIP_CORE_HAD_NUMBER)
            samvolip_core_mark(from, key, number, 1, &number); /* contended: another thread has closed it */
    }
    bool may_have_come = code == SAMVOLIP_CORE_CAME || code == SAMVOLIP_E_CONTENDED;
    if (may_have_come && counts_down(to, lane, 1))
        look_how_full(lane, to, true);
    return SAMVOLIP_OK;
}

/* Settles a key in a core that has a link, and which this slot names; `found` and `number` are what a look at it has told. It begins anew
   only where a write of the key by another thread came first, which is late or settles, too. It returns SAMVOLIP_OK, or
   E_OUT_OF_MEMORY, or E_KEY_RANGE. */
int settle_found(struct lane *lane, unsigned slot, struct core *core, uint64_t key, int found, uint64_t number)
{
    samvolip_seat *seat = seat_in(core, lane);
    for (;;)
        switch (found) {
        case SAMVOLIP_CORE_OPEN:
            found = samvolip_core_freeze(seat, key, number, 1, &number);
            break;
        case SAMVOLIP_CORE_FROZEN:
            return copy_behind(lane, slot, core, key, number);
        case SAMVOLIP_CORE_ABSENT:
            found = samvolip_core_close_if_absent(seat, key, 1, &number);
            break;
        case SAMVOLIP_E_CONTENDED:
            found = samvolip_core_look(seat, key, &number);
            break;
        case SAMVOLIP_E_KEY_RANGE:
            return found;
        default: /* it is closed; or no slot is left for it, which needs no mark */
            return SAMVOLIP_OK;
        }
}

int settle(struct lane *lane, unsigned slot, struct core *core, uint64_t key)
{
    uint64_t number = 0;
    int found = samvolip_core_look(seat_in(core, lane), key, &number);
    return settle_found(lane, slot, core, key, found, number);
}
