/* cores.h - the calls of keys that move from map to map, for the files beside this one. It isn't installed. docs/migration.md tells the
   protocol that these are the steps of, and crates/nb_ffi/src/exports/cores.rt what each is proved to be.

   A core is a map of one table. Its numbers up to SAMVOLIP_CORE_USER_MAX are the user's. From 2^59 on a number is frozen, and the greatest
   one stands where a key is closed; no call takes these. A call with `tries` tries so often, and at least once. Each returns a code
   of the enum below or, refused, a negative one. What is found is written to `found`, or 0 where there is no number to tell; of a call
   that is refused, nothing is written. */
#ifndef SAMVOLIP_CORES_H
#define SAMVOLIP_CORES_H
#include "samvolip.h"

#ifdef __cplusplus
extern "C" {
#endif

/* The greatest number of the user. A greater one is refused as SAMVOLIP_E_VALUE_RANGE before anything is called. */
#define SAMVOLIP_CORE_USER_MAX ((UINT64_C(1) << 59) - 2)

/* What a call in a core comes to. */
enum samvolip_core_code {
    SAMVOLIP_CORE_ABSENT = 0,     /* the key has no number, and none was put: so the caller looks at the core's link */
    SAMVOLIP_CORE_OPEN = 1,       /* it has this number, which writes may change */
    SAMVOLIP_CORE_FROZEN = 2,     /* it has this number, frozen: it stays until the key is closed */
    SAMVOLIP_CORE_CLOSED = 3,     /* it is closed: its number, if any, is in a core behind; a copy goes on there */
    SAMVOLIP_CORE_CAME = 4,       /* it had no number, and has one by this call */
    SAMVOLIP_CORE_CHANGED = 5,    /* it had this number, and the write has changed it, or taken it out */
    SAMVOLIP_CORE_KEPT = 6,       /* it has this number, which is left */
    SAMVOLIP_CORE_MOVED = 7,      /* its number is frozen, or it is closed: the write goes on behind the core */
    SAMVOLIP_CORE_HAD_NUMBER = 8, /* it has a number where one was to be copied, or had one: so that had come before */
    SAMVOLIP_CORE_FULL = 9,       /* other keys have all slots where it was to be copied, for good: the copy goes on behind */
    SAMVOLIP_CORE_SETTLED = 10    /* its number isn't frozen in the source any more: nothing is copied */
};

/* ---- a look: ABSENT, OPEN, FROZEN, CLOSED ---------------------------------------------------- */

/* One read. Refused: E_KEY_RANGE. */
int samvolip_core_look(samvolip_seat *seat, uint64_t key, uint64_t *found);

/* ---- writes: ABSENT, CAME, CHANGED, KEPT, MOVED ----------------------------------------------- */

/* Each acts only where there is no number or one of the user's. All are refused as E_KEY_RANGE, E_VALUE_RANGE, E_CONTENDED, and E_FULL
   where they may put a number at a new key. */

/* Puts a number. */
int samvolip_core_put(samvolip_seat *seat, uint64_t key, uint64_t number, uint32_t tries, uint64_t *found);

/* Puts a number at a key that has none. */
int samvolip_core_put_if_absent(samvolip_seat *seat, uint64_t key, uint64_t number, uint32_t tries, uint64_t *found);

/* Adds to a number, or to 0 where there is none. E_SUM_RANGE: the sum is none of the user's numbers. */
int samvolip_core_add(samvolip_seat *seat, uint64_t key, uint64_t number, uint32_t tries, uint64_t *found);

/* Takes out the key. */
int samvolip_core_remove(samvolip_seat *seat, uint64_t key, uint32_t tries, uint64_t *found);

/* Puts `next` in place of `old`. */
int samvolip_core_replace_if(samvolip_seat *seat, uint64_t key, uint64_t old, uint64_t next, uint32_t tries, uint64_t *found);

/* Takes out a key that has this number. */
int samvolip_core_remove_if(samvolip_seat *seat, uint64_t key, uint64_t number, uint32_t tries, uint64_t *found);

/* Exchanges what `want` says, SAMVOLIP_WANT_ABSENT or SAMVOLIP_EQUAL to `old`, for what `change` says, SAMVOLIP_PUT of `number` or
   SAMVOLIP_REMOVE. Refused as E_WANT and E_CHANGE, too. */
int samvolip_core_compare_exchange(samvolip_seat *seat, uint64_t key, uint32_t want, uint64_t old, uint32_t change, uint64_t number,
                                   uint32_t tries, uint64_t *found);

/* The next three read first, and then exchange what they found, once; E_CONTENDED where it isn't there any more. */

/* Puts a number in place of another. */
int samvolip_core_replace(samvolip_seat *seat, uint64_t key, uint64_t number, uint32_t tries, uint64_t *found);

/* Raises the number to this one, where it is less or absent. */
int samvolip_core_fetch_max(samvolip_seat *seat, uint64_t key, uint64_t number, uint32_t tries, uint64_t *found);

/* Lowers it to this one, where it is greater or absent. */
int samvolip_core_fetch_min(samvolip_seat *seat, uint64_t key, uint64_t number, uint32_t tries, uint64_t *found);

/* ---- steps by which a key leaves a core: ABSENT, OPEN, FROZEN, CLOSED, as a look after it ------- */

/* Freezes this number of the user. Refused: E_KEY_RANGE, E_VALUE_RANGE, E_CONTENDED. */
int samvolip_core_freeze(samvolip_seat *seat, uint64_t key, uint64_t number, uint32_t tries, uint64_t *found);

/* Closes the key, whose number is this one frozen, and has come to the core behind, or is known to have been there. Refused: as above. */
int samvolip_core_mark(samvolip_seat *seat, uint64_t key, uint64_t number, uint32_t tries, uint64_t *found);

/* Closes a key that has no number. Refused: E_KEY_RANGE, E_CONTENDED; E_FULL, and then the key needs no mark. */
int samvolip_core_close_if_absent(samvolip_seat *seat, uint64_t key, uint32_t tries, uint64_t *found);

/* ---- copies to a core behind: CAME, HAD_NUMBER, CLOSED, FULL ------------------------------------ */

/* The two seats are of two maps. All are refused as E_KEY_RANGE, E_VALUE_RANGE, and E_TABLES where the target has more tables than one. */

/* Copies a number that is frozen in the core before, if the key never had one here. */
int samvolip_core_copy(samvolip_seat *target, uint64_t key, uint64_t number);

/* Goes on with a copy for which a core had no place, to one behind that, where the number is frozen in its source still; else SETTLED. */
int samvolip_core_copy_on(samvolip_seat *source, samvolip_seat *target, uint64_t key, uint64_t number);

/* Copies, and then, where the number has come or had come, marks the source. Refused as the mark is, too. */
int samvolip_core_copy_and_mark(samvolip_seat *source, samvolip_seat *target, uint64_t key, uint64_t number, uint32_t tries);

/* ---- a stretch of slots at once ---------------------------------------------------------------- */

enum samvolip_core_limit {
    SAMVOLIP_CORE_STRETCH = 128 /* how many slots are moved by a call at most */
};

typedef struct samvolip_core_stretch {
    uint64_t passed; /* how many slots are done, from the first one on */
    uint64_t left;   /* how many entries were written whose copies go on behind the target */
} samvolip_core_stretch;

/* Freezes the numbers of a stretch of slots of the source where they stand, copies them to the target, and marks them. It goes over `room`
   slots from `first` on, but no more than SAMVOLIP_CORE_STRETCH, and none behind the last one; fewer, where another write came first:
   then the caller goes on from there. `left` gets the keys and numbers, frozen in the source still, for which the target had no place.
   Returns SAMVOLIP_OK; E_CONTENDED, where a mark was refused: then some are frozen still, and the same stretch is moved again; or
   E_TABLES, where one of the two has more tables than one, and nothing happened. */
int samvolip_core_move_stretch(samvolip_seat *source, samvolip_seat *target, size_t first, uint32_t tries, samvolip_entry *left,
                               size_t room, samvolip_core_stretch *told);

#ifdef __cplusplus
}
#endif
#endif
