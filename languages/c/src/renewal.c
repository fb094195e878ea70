/* renewal.c - the cores of a map's parts, and when others are put in their place: larger or smaller ones, or one for each part where
   the whole map had one. */
#include "endless.h"

enum { LEAST_LEFT = 16, FAST_FROM = 2000 };

/* Why a part is renewed, if it is: it is two thirds full, or far too large; or it has few slots left, or none, or somebody asks for it. */
enum why { NOT_YET, CROWDED, SPARSE, TIGHT, FULL, ASKED };

static atomic_ullong numbers; /* of the next core */

/* ---- cores --------------------------------------------------------------------------------- */

void free_core(const samvolip_map *map, core *one)
{
    if (!one)
        return;
    for (unsigned i = 0; i < map->count; i++)
        samvolip_free(&one->seats[i]);
    samvolip_free(&one->reserve);
    free(one);
}

/* A core to come, with a seat for each lane; or why there is none: memory is refused, by the system or since the options allow no more
   slots beside all others that there are. What was made of it goes by leave_cores then, too. */
static int new_core(samvolip_map *map, uint32_t exponent, core **made)
{
    samvolip_shape shape = {{exponent}, 1, map->count + 1, map->count < 16 ? map->count : 16, 18, 256};
    core *fresh = *made = calloc(1, sizeof *fresh + map->count * sizeof *fresh->seats);
    if (!fresh)
        return SAMVOLIP_E_OUT_OF_MEMORY;
    *fresh = (core){.number = atomic_fetch_add(&numbers, 1), .users = 1, .exponent = exponent};
    lock(map);
    map->slots += slots_of(exponent);
    bool is_allowed = map->options.memory == 0 || map->slots <= map->options.memory / sizeof(samvolip_entry);
    unlock(map);
    int code = is_allowed ? samvolip_open(&shape, &fresh->reserve) : SAMVOLIP_E_OUT_OF_MEMORY;
    for (unsigned i = 0; i < map->count && code >= 0; i++)
        code = samvolip_split(&fresh->reserve, &fresh->seats[i]);
    return code;
}

/* One user less for each of these: who was the last one frees it. `are_over`: it was the map, which has their slots no more. */
void leave_cores(samvolip_map *map, core **cores, bool are_over)
{
    lock(map);
    for (unsigned place = 0; place < PLACES; place++) {
        map->slots -= cores[place] && are_over ? slots_of(cores[place]->exponent) : 0;
        if (cores[place] && --cores[place]->users > 0)
            cores[place] = NULL;
    }
    unlock(map);
    for (unsigned place = 0; place < PLACES; place++)
        free_core(map, cores[place]);
}

/* Alone with these parts: about how many keys they have, and just so many while nobody writes. */
uint64_t keys_in(const samvolip_map *map, range places)
{
    uint64_t keys = 0;
    for (unsigned place = places.first; place < places.end; place++)
        keys += samvolip_size_estimate(&map->parts[place].core->seats[0]);
    return keys;
}

/* ---- how large ----------------------------------------------------------------------------- */

/* For how many keys there is room in the largest table. */
const uint64_t MOST_ROOM = (UINT64_C(1) << MOST_EXPONENT) / 3 * 2;

/* The least exponent of a table of so many slots, or one more than the greatest. */
static uint32_t exponent_of(uint64_t slots)
{
    uint32_t exponent = 5;
    while (exponent <= MOST_EXPONENT && slots_of(exponent) < slots)
        exponent++;
    return exponent;
}

/* How many slots make room for so many keys: half as many again. */
static uint64_t with_half(uint64_t keys) { return keys + keys / 2; }

/* Whether that is one of the parts of a divided map; and for how many keys the options ask for room there. */
static bool is_part(range places) { return places.first > 0 && places.end - places.first == 1; }
static uint64_t room_in(const samvolip_map *map, range places) { return map->options.room / (is_part(places) ? PARTS : 1); }

/* By their exponents, how many slots cores in place of some have together: at least, and best. */
typedef struct size {
    uint32_t least, best;
} size;

/* Alone with these parts: how large they should be, with `asked` for so many keys if these are asked for. It is time when there are about
   2/3 as many keys as slots: by 5/4, and not 3/2, 4 times as many don't become 8 times by rounding. From FAST_FROM keys on, and until it is
   in parts, a map grows twice as fast, so that renewals come less often. */
static size size_for(const samvolip_map *map, range places, enum why why, uint64_t asked)
{
    uint64_t keys = keys_in(map, places), room = room_in(map, places), grown = keys * map->options.growth * 5 / 4;
    uint64_t least = why == FULL || why == ASKED ? keys + 1 : with_half(keys);
    if (why == ASKED)
        least = greater(least, with_half(asked ? asked : room));
    else if (keys >= FAST_FROM && why != SPARSE && !is_part(places))
        grown *= 2;
    uint32_t best = exponent_of(greater(greater(least, with_half(greater(keys, room))), asked ? 0 : grown));
    return (size){exponent_of(least), best < MOST_EXPONENT ? best : MOST_EXPONENT};
}

/* From so many slots on that are taken a part is to be renewed; and its writes wait for who does so, since they get slow. */
static uint64_t crowded(uint64_t slots) { return slots * 2 / 3; }
static uint64_t tight(uint64_t slots) { return slots * 7 / 8; }

/* Fewer keys than these are too few for a part. */
static uint64_t least_keys(const samvolip_map *map, const part *in)
{
    uint64_t slots = slots_of(in->core->exponent), room = room_in(map, only(place_of(map, in)));
    return slots > slots_of(exponent_of(with_half(room))) ? slots / (8 * map->options.growth) : 0;
}

/* Says when a lane looks how full a part is again, of whose slots so many are taken: after its share of the keys that may come before
   the part is crowded, or if it is, tight; or of those that may go before it is sparse. It looks now and then in any case, since others
   may have taken keys out. */
static void count_anew(const samvolip_map *map, const part *in, uint64_t taken, uint64_t keys, uint32_t *left)
{
    uint64_t slots = slots_of(in->core->exponent), most = taken < crowded(slots) ? crowded(slots) : tight(slots);
    uint64_t least = least_keys(map, in);
    /* none shares while lanes are free */
    uint64_t writers = greater(1, map->taken < map->count - COMMON ? map->taken : map->taken + SHARED);
    uint64_t at_least = LEAST_LEFT + slots / greater(512, 64 * writers);
    uint64_t comes = taken < most ? (most - taken) / writers : slots / 64, goes = least < keys ? (keys - least) / writers : 0;
    left[COMES] = (uint32_t)greater(at_least, comes < slots / 8 ? comes : slots / 8);
    left[GOES] = least == 0 ? INT32_MAX : (uint32_t)greater(at_least, goes);
}

/* ---- the exchange -------------------------------------------------------------------------- */

/* With the lock, and all calls in these parts at their end: the cores that were and those to come change places. */
static void change_cores(samvolip_map *map, job *of)
{
    range places = of->from.first == of->to.first ? of->to : EVERYWHERE;
    for (unsigned place = places.first; place < places.end; place++) {
        core *was = map->parts[place].core;
        map->parts[place].core = of->cores[place];
        of->cores[place] = was;
    }
    for (unsigned place = of->to.first; place < of->to.end; place++) {
        uint64_t keys = keys_in(map, only(place));
        uint32_t left[2];
        count_anew(map, &map->parts[place], keys, keys, left);
        for (unsigned i = 0; i < map->count; i++)
            memcpy(map->lanes[i].left[place], left, sizeof left);
    }
    map->is_divided = of->to.first > 0;
}

/* Alone with these parts: puts the cores to come in the place of those that there are, with all their entries or without. Before the
   gates are closed the new cores are ready, and after they are open the old ones go. */
static int exchange(samvolip_map *map, job *of, bool copies)
{
    uint64_t writes = stop(map, of->from, READS_ONLY);
    if (copies)
        share_out(map, of);
    uint64_t reads = stop(map, of->from, CLOSED);
    lock(map);
    if (of->refused == 0)
        change_cores(map, of);
    go_on(map, of->refused == 0 ? of->to : of->from, writes, reads);
    unlock(map);
    leave_cores(map, of->cores, true);
    return of->refused;
}

/* Alone with these parts: puts cores of so many slots together in the place of those that there are, with all their entries or without.
   All memory is taken before. Parts that stay are renewed one after another, each with a table that is large enough for its keys; else all
   change in one step. It is refused as full where too many keys came since. */
static int put_cores(samvolip_map *map, range from, range to, uint32_t exponent, bool copies)
{
    job all = {.from = from, .to = to};
    bool is_each = copies && from.first == to.first;
    int code = SAMVOLIP_OK;
    for (unsigned place = to.first; place < to.end && code >= 0; place++) {
        uint64_t least = is_each ? exponent_of(keys_in(map, only(place)) + 1) : 0;
        code = new_core(map, (uint32_t)greater(least, exponent - (to.end - to.first > 1 ? PART_BITS : 0)), &all.cores[place]);
    }
    if (!is_each && code >= 0)
        return exchange(map, &all, copies);
    for (unsigned place = to.first; place < to.end && code >= 0; place++) {
        job one = {.from = only(place), .to = only(place)};
        one.cores[place] = all.cores[place];
        all.cores[place] = NULL;
        code = exchange(map, &one, true);
    }
    leave_cores(map, all.cores, true);
    return code;
}

/* ---- renewals ------------------------------------------------------------------------------ */

/* Where the parts are of a map of so many slots. */
static range parts_for(uint32_t exponent) { return places_if(exponent >= DIVIDED_FROM); }

/* Alone with these parts, the whole map or one of several: renews them with so many slots. */
static int renew_with(samvolip_map *map, range from, uint32_t exponent)
{
    range to = is_part(from) ? from : parts_for(exponent);
    int code = put_cores(map, from, to, exponent, true);
    if (code == SAMVOLIP_E_FULL && to.first > from.first) /* most keys are of few parts: it isn't divided then */
        code = put_cores(map, from, from, exponent, true);
    return code;
}

/* Alone with these parts: renews them, with room for `asked` keys if so many are asked for; and with less than the options say if memory is
   refused, but not with less than is asked for, nor for nothing. */
static int renew(samvolip_map *map, range places, enum why why, uint64_t asked)
{
    int code = SAMVOLIP_E_FULL;
    while (code == SAMVOLIP_E_FULL) { /* more keys came than there were when it looked */
        size to = size_for(map, places, why, asked);
        code = SAMVOLIP_E_OUT_OF_MEMORY;
        for (uint32_t exponent = to.best; exponent >= to.least && code == SAMVOLIP_E_OUT_OF_MEMORY; exponent--)
            code = renew_with(map, places, exponent);
    }
    lock(map);
    map->figures.renewals += code >= 0;
    map->figures.refused += code < 0;
    unlock(map);
    if (code < 0)
        map->may_fill = true;
    return code;
}

int renew_by_hand(samvolip_map *map, uint64_t room) { return renew(map, parts_of(map), ASKED, room); }

/* Of the table, or of all those of parts together, that a map has when it is opened or cleared. */
uint32_t first_exponent(const samvolip_map_options *options) { return exponent_of(with_half(options->room)); }

/* Alone: puts empty cores in the place of these, as large as the options say. */
int put_empty_cores(samvolip_map *map, range from)
{
    uint32_t exponent = first_exponent(&map->options);
    return put_cores(map, from, parts_for(exponent), exponent, false);
}

/* ---- when ---------------------------------------------------------------------------------- */

/* Whether it is time to renew a part: more than two thirds of its slots are taken, or its table is much too large for its keys. It also
   says when the lane looks again. */
static COLD enum why look_for_time(samvolip_map *map, part *in)
{
    samvolip_seat *seat = used_seat(map, in);
    samvolip_slots found;
    samvolip_occupancy(seat, &found);
    uint64_t slots = slots_of(in->core->exponent), keys = samvolip_size_estimate(seat), taken = slots * found.taken / found.looked;
    count_anew(map, in, taken, keys, used_lane(map)->left[place_of(map, in)]);
    if (taken > crowded(slots))
        return taken > tight(slots) ? TIGHT : CROWDED;
    return keys < least_keys(map, in) ? SPARSE : NOT_YET;
}

/* Alone with a part, or if it is sparse with all: what is to be renewed, which is the whole map if that may be too small for parts. */
static range to_renew(const samvolip_map *map, range in, enum why why)
{
    bool joins = why == SPARSE && map->is_divided && size_for(map, parts_of(map), why, 0).best < DIVIDED_FROM;
    return joins ? parts_of(map) : in;
}

/* After a write that was full, or came when it was time: renews the part, unless somebody does; if few slots are left it waits for that.
   It is alone with all parts if the map has one, or may be too small for several, or if memory may be refused: then no others have
   reserved some. A write that was full is to be made again, or is refused if the renewal was. */
static COLD int renew_after(samvolip_map *map, part *in, int code, enum why why)
{
    uint64_t number = in->core->number; /* the core can't be exchanged before the lane rests */
    range one = only(place_of(map, in)), alone_with = map->is_divided && (why == CROWDED || why == TIGHT) ? one : EVERYWHERE;
    int renewed = SAMVOLIP_OK;
    rest_lane();
    if (why >= TIGHT || !(map->held & set_of(alone_with))) {
        void *held = let_go(map);
        if (be_alone(map, alone_with, in, number)) {
            renewed = renew(map, to_renew(map, one, why), why, 0);
            end_alone(map, alone_with);
        }
        take_back(map, held);
    }
    go_outside();
    return why != FULL ? code : renewed < 0 ? renewed : AGAIN;
}

/* Ends a call: its code, or that it is to be made again. `looks`: it is time to look how full the part is. */
int end_call(samvolip_map *map, part *in, int code, bool looks)
{
    enum why why = code == SAMVOLIP_E_FULL ? FULL : looks ? look_for_time(map, in) : NOT_YET;
    if (UNLIKELY(why != NOT_YET))
        return renew_after(map, in, code, why);
    leave();
    return UNLIKELY(code == SAMVOLIP_E_CONTENDED) && samvolip_rest() ? AGAIN : code;
}
