/* gate.pml - how the calls, renewals and other works of a map (../src/endless.h) keep out of each other's way, for spin. README.md says
   what is in it and what isn't, how it is run, and what each name of an #ifdef breaks.

   A renewal copies the entries of a part's core into a core to come, and puts that in its place; a division does so with the one part
   of a map and two parts, and a joining the other way round. Calls go on meanwhile without a lock and without a fence: a call looks
   where its part is, stores its thread's busy word, and then reads the gate there. Who is alone with a part closes its gate, gives all
   threads a fence by membarrier, and then reads all busy words. There is no end to the renewals. Each process may stop wherever nobody
   waits for it; so whoever waits for ever is found as an invalid end state. */
#ifndef THREADS
#define THREADS 2
#endif
#ifndef WHOLES
#define WHOLES 1 /* who renew, divide, join, clear, count, list and fork */
#endif
#ifndef OWN
#define OWN 1 /* lanes that have one owner */
#endif
#ifndef SHARED
#define SHARED 1 /* lanes for all */
#endif
#ifndef STORES
#define STORES 2 /* that a processor holds back */
#endif
#ifndef PIECES
#define PIECES 2 /* of the entries: helpers take one at a time */
#endif
/* For fewer states: RENEWALS_ALONE leaves out all other works, and of two threads the first one writes alone; with LANES_ARE_KEPT no
   thread gives its lane back or ends, and the second one reads alone. HANDLERS lets handlers call. */

/* Lane 0 is of who is alone; as a thread's own lane it says that the thread has none. */
#define FIRST (1 + SHARED)
#define LANES (FIRST + OWN)

#define OPEN 0 /* a gate */
#define READS_ONLY 1
#define CLOSED 2

/* Place 0 is of the one part of a map, and 1 and 2 of the parts of a divided one. A set of places has a bit for each. */
#define PLACES 3
#define ALL_PLACES 7
#define WHOLE 1
#define BOTH 6
#define set_of(place) (1 << (place))
#define has(set, place) (((set) & (1 << (place))) != 0)
#define parts_now (divided -> BOTH : WHOLE)
#ifdef ONE_PLACE_FOR_BOTH
#define place_for(share) (divided && share == 2 -> 2 : 0)
#undef BOTH
#define BOTH 5
#else
#define place_for(share) (divided -> share : 0)
#endif

#define REST 0 /* a busy word; also of a thread that waits, or calls by a shared lane: who closes the gate takes both as rest */
#define READS 1
#define WRITES 2
#define HELPS 3 /* in `works` alone */
#define word(what, place) (what + 2 * (place))
#define is_read(word) (((word) & 1) == 1)
#define lies_in(word, set) has(set, ((word) - 1) / 2)
#define lets(word, set, to) (word == REST || !lies_in(word, set) || (to == READS_ONLY && is_read(word)))

#define NOTHING 0 /* a job */
#define COPYING 1
#define LISTING 2

/* The map. Steps under its lock are one atomic step, since what they change is looked at under the lock, too, but for gates and where
   the parts are. */
byte gate[PLACES], held;
bool divided, locked;
bool heap; /* malloc's lock, which a thread has that a handler interrupts, and which a fork waits for */
byte asleep; /* a bit for each who waits for the map's condition */
byte owner[LANES];     /* 0 if the lane has none, and else 1 + who it is */
byte lane_busy[LANES]; /* of a lane for all */
byte busy[THREADS];

/* The job of each who is alone; its number is that of its process without the threads. */
byte job[WHOLES], job_in[WHOLES], pieces[WHOLES], helpers[WHOLES];
bool refused[WHOLES];

/* A thread's plain stores to its busy word, on their way to memory. */
chan stores[THREADS] = [STORES] of { byte };

/* For the assertions alone: who works by a lane's seats, and in which place; which calls can't be under way there; whether a job's
   memory is still there, and a thread's. */
byte works[LANES], works_in[LANES], still[PLACES];
bool is_job[WHOLES], has_ended[THREADS];

byte t; /* within a step; else 0 */

#define admits(what, place) (gate[place] == OPEN || (gate[place] == READS_ONLY && what == READS))
#define may_be(what, place) (still[place] == OPEN || what == REST || (still[place] == READS_ONLY && what != WRITES))
#define is_awake(who) ((asleep & (1 << who)) == 0)

inline sleep(who) { asleep = asleep | (1 << who) }

inline tell() { asleep = 0 }

/* The fence of this thread, which is in each locked step, too: what it stored is in memory. */
inline drain(who) {
    do
    :: stores[who] ? busy[who]
    :: empty(stores[who]) -> break
    od
}

/* Plain stores come to memory one after another, at any time. */
proctype memory(byte who) {
end:
    do
    :: stores[who] ? busy[who]
    od
}

/* ---- work that is shared out ---------------------------------------------------------------- */

/* Takes pieces of a job, and does them by the lane's seats, until none is left. */
inline help(by, j) {
    do
    :: atomic { pieces[j] > 0 && !refused[j] -> assert(is_job[j]); assert(works[by] == REST || by == 0); pieces[j]--; works[by] = HELPS };
       atomic {
           assert(is_job[j]);
           for (t : 0 .. PLACES - 1) { assert(!has(job_in[j], t) || still[t] != OPEN) }
           t = 0;
           if
           :: true
           :: job[j] == COPYING -> refused[j] = true
           fi;
           works[by] = REST
       }
    :: atomic {
           !locked && (pieces[j] == 0 || refused[j]) ->
           assert(is_job[j]);
#ifndef JOB_STAYS
           job[j] = NOTHING;
#endif
           helpers[j]--;
#ifndef HELPER_TELLS_NOBODY
           if :: helpers[j] == 0 -> tell() :: else fi;
#endif
           break
       }
    od
}

inline share_out(kind) {
    atomic {
        !locked ->
        job[mine] = kind;
        job_in[mine] = from;
        pieces[mine] = PIECES;
        refused[mine] = false;
        is_job[mine] = true;
        helpers[mine]++;
        tell()
    };
    help(0, mine);
#ifndef NO_WAIT_FOR_HELPERS
    do
    :: atomic { !locked -> if :: helpers[mine] == 0 -> break :: else -> sleep(me) fi };
       is_awake(me)
    od;
#endif
    atomic { assert(pieces[mine] == 0 || refused[mine]); is_job[mine] = false; job_in[mine] = 0 }
}

/* With the lock: begins to help in one of these places, or to wait. */
inline wait_or_help(set) {
    if
    :: mine != 0 && job[0] != NOTHING && (job_in[0] & (set)) != 0 -> task = 1; helpers[0]++
    :: WHOLES > 1 && mine != 0 && job[WHOLES - 1] != NOTHING && (job_in[WHOLES - 1] & (set)) != 0 -> task = WHOLES; helpers[WHOLES - 1]++
    :: else -> sleep(me)
    fi
}

/* Without it: does so. */
inline and_does() {
    if
    :: task != 0 -> help(mine, (task - 1)); task = 0
    :: else -> is_awake(me)
    fi
}

/* ---- threads -------------------------------------------------------------------------------- */

/* A call, and where its key belongs once the map is divided. */
inline read_or_write() {
    if
#ifdef RENEWALS_ALONE
    :: THREADS == 1 || me > 0 -> what = READS
#else
    :: what = READS
#endif
#ifdef LANES_ARE_KEPT
    :: THREADS == 1 || me == 0 -> what = WRITES
#else
    :: what = WRITES
#endif
    fi;
    if :: me == 0 -> share = 1 :: me + 1 == THREADS -> share = 2 fi
}

/* A call takes any time between these two. No other call has the seat, and it is of the part that has the key. */
inline begins_work() {
    atomic {
        assert(works[used] == REST);
        assert(may_be(what, place));
        assert(place == place_for(share));
        works[used] = what;
        works_in[used] = place
    }
}

inline ends_work() {
    assert(works[used] == what);
    assert(may_be(what, place));
    assert(place == place_for(share));
    works[used] = REST;
    works_in[used] = 0
}

/* With the lock: gives the lane back. */
inline give_back() {
    drain(me);
    owner[mine] = 0;
#ifndef LANE_STAYS
    mine = 0
#endif
}

/* Gets a lane of its own; or goes without, as where no lane is free, or the lock isn't. */
inline arrive() {
    atomic {
#ifdef ARRIVES_BY_LOCK
        !locked ->
#endif
        drain(me);
        if
        :: locked && SHARED > 0
        :: !locked && owner[FIRST] == 0 -> mine = FIRST
        :: !locked && OWN > 1 && owner[FIRST] != 0 && owner[FIRST + 1] == 0 -> mine = FIRST + 1
        :: SHARED > 0
        fi;
        if :: mine != 0 -> owner[mine] = 1 + me :: else fi
    }
}

/* A compare-and-swap of the lane's busy word. */
inline take_shared(one) {
#ifdef SHARED_BY_TWO_STEPS
    lane_busy[one] == REST -> atomic { drain(me); lane_busy[one] = word(what, place); used = one }
#else
    atomic { lane_busy[one] == REST -> drain(me); lane_busy[one] = word(what, place); used = one }
#endif
}

/* Locked stores: the call isn't in the core. */
inline rest_lane() {
    drain(me);
    if
    :: used == mine -> busy[me] = REST
    :: else -> lane_busy[used] = REST
    fi
}

/* A signal handler may come here. Its call is refused in the middle of another call of the thread. Else it is a call like others, and
   the thread goes on here afterwards. */
inline interrupted(where) {
#ifdef HANDLERS
    if
    :: true
#ifdef HANDLER_CALLS_WITHIN
    :: at == 0 ->
#else
    :: at == 0 && !inside ->
#endif
        at = where; its_what = what; its_share = share; its_place = place; its_lane = used; read_or_write(); goto asks
#ifdef LANE_BACK_WHILE_BUSY
    :: !locked && mine != 0 -> give_back()
#endif
    fi
#else
    skip
#endif
}

inline goes_on() {
    at = 0;
    inside = its_lane != 0;
    what = its_what; share = its_share; place = its_place; used = its_lane;
    its_what = 0; its_share = 0; its_place = 0; its_lane = 0
}

proctype thread(byte me) {
    byte mine, used, what, share, place, task; /* its own lane; the lane of its call, and what that is, of which part; 1 + its job */
    byte at, its_lane, its_what, its_share, its_place; /* where a handler interrupted it, in which call */
    bool inside;                                       /* in the middle of a call */
outside:
    if
    :: atomic { read_or_write(); goto asks }
#ifdef HANDLERS
    :: atomic { at == 0 && !heap -> heap = true; at = 6; read_or_write(); what = READS; goto asks } /* a handler within malloc reads */
#endif
#ifndef LANES_ARE_KEPT
    :: atomic { !locked && mine != 0 && at == 0 -> give_back(); goto outside }
#endif
#ifndef RENEWALS_ALONE
    :: do /* waits to be alone, and is for a moment */
       :: atomic { !locked && at == 0 -> drain(me); if :: held == 0 -> held = ALL_PLACES; break :: else -> wait_or_help(ALL_PLACES) fi };
          and_does()
       od;
       atomic { !locked -> held = 0; tell(); goto outside }
#endif
#ifndef LANES_ARE_KEPT
    :: atomic { !locked && at == 0 -> if :: mine != 0 -> give_back() :: else fi; has_ended[me] = true; goto over } /* ends */
#else
    :: goto over /* stops */
#endif
    fi;
asks: /* the common case: where the part is, a plain store, and a load */
    atomic {
        place = place_for(share);
        interrupted(1)
    };
back1:
    atomic {
        inside = true;
        if
#ifndef FENCED
        :: mine != 0
#endif
        :: else -> place = 0; goto slowly /* without a lane: nobody reads its busy word */
        fi;
#ifdef BUSY_AFTER_GATE
        if :: gate[place] == OPEN :: else -> place = 0; goto slowly fi;
#endif
        stores[me] ! word(what, place)
    };
    atomic {
        interrupted(2);
back2:  if
#ifdef BUSY_AFTER_GATE
        :: true -> used = mine; goto enters
#else
        :: gate[place] == OPEN -> used = mine; assert(mine != 0); goto enters
        :: else -> stores[me] ! REST; place = 0
#endif
        fi
    };
slowly: /* all else: a locked store, and a load */
    if
    :: mine == 0 && OWN > 0 -> arrive()
    :: mine != 0 || SHARED > 0
    fi;
    place = place_for(share);
    if
    :: atomic { mine != 0 -> drain(me); busy[me] = word(what, place); used = mine }
    :: mine == 0 && SHARED > 0 -> take_shared(1)
    :: mine == 0 && SHARED > 1 -> take_shared(2)
    fi;
    atomic {
        interrupted(3);
back3:  if
        :: admits(what, place) -> goto enters
        :: else
        fi
    };
#ifndef WAITS_BUSY
    atomic { rest_lane(); used = 0 };
#endif
    do
#ifndef READS_WAIT_BY_LOCK
    :: atomic { what == READS && admits(READS, place_for(share)) -> drain(me); break } /* looks again and again, without the lock */
#endif
    :: atomic {
#ifndef READS_WAIT_BY_LOCK
           what == WRITES &&
#endif
           !locked ->
           drain(me);
#ifndef WAITS_AT_THE_OLD_PLACE
           place = place_for(share);
#endif
           if :: admits(what, place) -> break :: else -> wait_or_help(set_of(place)) fi
       };
       and_does()
    od;
#ifdef ENTERS_AFTER_WAITING
    if :: atomic { mine != 0 -> drain(me); busy[me] = word(what, place); used = mine; goto enters } :: else fi;
#endif
    place = 0;
    goto slowly;
enters:
#ifdef RESTS_EARLY
    atomic { rest_lane() };
#endif
    begins_work();
    atomic {
        interrupted(4);
back4:  ends_work();
        interrupted(5);
back5:
#ifndef RESTS_EARLY
        if
        :: used == mine -> stores[me] ! REST /* plain */
        :: else -> rest_lane()
        fi;
#endif
        inside = false; used = 0; what = 0; share = 0; place = 0;
        if
        :: at == 0 -> goto outside
        :: at == 1 -> goes_on(); goto back1
        :: at == 2 -> goes_on(); inside = true; goto back2
        :: at == 3 -> goes_on(); inside = true; goto back3
        :: at == 4 -> goes_on(); inside = true; goto back4
        :: at == 5 -> goes_on(); inside = true; goto back5
        :: at == 6 -> heap = false; at = 0; goto outside
        fi
    };
over:
    skip
}

/* ---- who is alone --------------------------------------------------------------------------- */

/* Gives each thread a fence, wherever it is. */
inline membarrier() {
#if defined(NO_MEMBARRIER) || defined(FENCED)
    skip
#else
    atomic { for (t : 0 .. THREADS - 1) { drain(t) } t = 0 }
#endif
}

#ifdef CLOSES_ONE_GATE
#define closed_now (from & (WHOLE | 2))
#else
#define closed_now from
#endif
#ifdef LOOKS_AT_ONE_PART
#define looked_at (from & (WHOLE | 2))
#else
#define looked_at from
#endif

/* For one lane after another: reads the busy word of its owner, or its own if it has none, until that lets the gates be so. */
inline look(to) {
    i = 1;
    do
    :: atomic { i < LANES -> who = owner[i] };
       if
       :: atomic { who == 0 && lets(lane_busy[i], looked_at, to) -> i++ }
       :: atomic { who != 0 && lets(busy[who - 1], looked_at, to) -> assert(!has_ended[who - 1]); i++; who = 0 }
       fi
    :: atomic { i == LANES -> i = 0; break }
    od
}

inline set_gates(set, to) { for (t : 0 .. PLACES - 1) { if :: has(set, t) -> gate[t] = to :: else fi } t = 0 }

/* With the lock all the while. Afterwards all writes, or all calls, have come to their end in these places. */
inline close_gates(to) {
#ifdef GATE_AFTER_LOOK
    atomic { !locked -> locked = true };
    membarrier();
    look(to);
    atomic { set_gates(from, to) };
#else
    atomic { !locked -> locked = true; set_gates(closed_now, to) };
#ifdef LOOKS_WITHOUT_LOCK
    locked = false;
#endif
    membarrier();
#ifdef NO_LOOK_AT_WRITES
    if :: to == READS_ONLY :: else -> look(to) fi;
#elif defined(NO_LOOK_AT_READS)
    if :: to == CLOSED :: else -> look(to) fi;
#else
    look(to);
#endif
#endif
    atomic {
        locked = false;
        for (t : 0 .. PLACES - 1) { if :: has(from, t) -> still[t] = to :: else fi }
        for (t : 1 .. LANES - 1) { assert(works[t] == HELPS || may_be(works[t], works_in[t])) }
        t = 0
    }
}

/* With the lock. */
inline open_gates(set) {
    for (t : 0 .. PLACES - 1) { if :: has(set, t) -> gate[t] = OPEN; still[t] = OPEN :: else fi }
    t = 0;
#ifndef OPENS_AND_TELLS_NOBODY
    tell()
#endif
}

/* The cores to come are the current ones; then the gates are opened, or they alone are. */
inline exchange_and_open() {
    if
    :: has_failed -> atomic { !locked -> open_gates(from) }
    :: else ->
        atomic {
            !locked ->
            locked = true;
            for (t : 1 .. LANES - 1) { assert(works[t] == REST || !has(from, works_in[t])) }
            t = 0;
            if :: to_come == from :: else -> divided = (to_come != WHOLE) fi
        };
#ifdef OLD_GATE_IS_OPEN
        atomic { locked = false; open_gates(from | to_come) }
#else
        atomic { locked = false; open_gates(to_come) }
#endif
    fi
}

/* Alone with `alone_with`: which parts are renewed, and what comes in their place. */
inline choose() {
    if
    :: has(alone_with, 0) -> from = parts_now; if :: to_come = from :: to_come = (from == WHOLE -> BOTH : WHOLE) fi
    :: has(alone_with, 0) && divided -> from = set_of(1); to_come = from /* by hand its parts come one after another */
    :: else -> from = (alone_with & BOTH); to_come = from
    fi
}

/* With all entries; or a clear, with none. */
inline renew() {
    atomic { has_failed = false; choose() };
    close_gates(READS_ONLY);
    if
    :: true
    :: share_out(COPYING); has_failed = refused[mine] /* more keys came than the core to come has slots, too */
    fi;
#ifndef EXCHANGES_WHILE_READS_GO_ON
    close_gates(CLOSED);
#endif
    exchange_and_open()
}

/* The map's size; or a list of its entries. */
inline count() {
    from = parts_now;
    close_gates(READS_ONLY);
    if
    :: true
    :: share_out(LISTING)
    fi;
    atomic { !locked -> open_gates(from) }
}

/* With the lock it waits for malloc's. The child has the memory of this step, and none of the other threads: no lane has one of them as
   its owner any more. It lays the lanes' busy words to rest. Reads may be under way, which have changed nothing. */
inline fork() {
    from = parts_now;
#ifdef FORK_STOPS_READS
    close_gates(CLOSED);
#else
    close_gates(READS_ONLY);
#endif
    atomic { !locked -> locked = true };
    atomic {
        !heap ->
        for (t : 0 .. WHOLES - 1) { assert(job[t] == NOTHING && helpers[t] == 0) }
        for (t : 1 .. LANES - 1) {
            assert(works[t] == REST || works[t] == READS);
#ifdef CHILD_STAYS_BUSY
            assert(lane_busy[t] == REST)
#endif
        }
        t = 0;
        locked = false;
        held = 0;
        open_gates(from)
    }
}

proctype whole(byte me) {
    byte i, who, alone_with, from, to_come;
    byte mine = me - THREADS;
    bool has_failed;
    do
    :: if
       :: alone_with = ALL_PLACES
       :: alone_with = set_of(1 + mine)
       fi;
       do
#ifdef NOT_ALONE
       :: atomic { divided || alone_with == ALL_PLACES -> break }
#endif
#ifdef ALONE_WITH_ONE_PART
       :: atomic { !locked -> if :: (held & (alone_with == ALL_PLACES -> 5 : alone_with)) == 0 -> held = held | alone_with; break
                                 :: else -> sleep(me) fi };
#else
       :: atomic { !locked -> if :: (held & alone_with) == 0 -> held = held | alone_with; break :: else -> sleep(me) fi };
#endif
          is_awake(me)
       od;
       if
       :: alone_with == ALL_PLACES || divided -> renew()
       :: alone_with != ALL_PLACES && !divided /* the part isn't there any more */
#ifndef RENEWALS_ALONE
       :: alone_with == ALL_PLACES -> count()
       :: alone_with == ALL_PLACES -> fork(); goto next_one
#endif
       fi;
       atomic {
           !locked ->
           held = held & ~alone_with;
#ifndef ENDS_ALONE_AND_TELLS_NOBODY
           tell()
#endif
       };
next_one:
       atomic { from = 0; to_come = 0; alone_with = 0; has_failed = false }
    :: break
    od
}

init {
    atomic {
        for (t : 1 .. PLACES - 1) { gate[t] = CLOSED; still[t] = CLOSED }
        for (t : 0 .. THREADS - 1) { run thread(t); run memory(t) }
        for (t : THREADS .. THREADS + WHOLES - 1) { run whole(t) }
        t = 0
    }
}
