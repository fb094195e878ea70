/* pins.pml - the pins of ../src/objects.c, and what is retired, for spin. README.md says what each name of an #ifdef breaks.

   One key has one object after another. Readers pin, get the object, use it and unpin, without an end; at each step a handler may come,
   which does the same. Writers put other objects there and retire what was there before: first into their open batch, which they stamp
   and queue at any time. They collect at any time, and who comes last collects once more. A reader's note goes through a store buffer,
   as in gate.pml. The clock ticks for each batch alone, so the states repeat. */
#ifndef READERS
#define READERS 1
#endif
#ifndef WRITERS
#define WRITERS 2
#endif
#ifndef OBJECTS
#define OBJECTS 3 /* 1 is there at first; of two writers one puts the last, and the other those between */
#endif
#define STORES 3

byte held = 1;                     /* which object the key has */
byte clock = 1, note[READERS];
byte stamp[OBJECTS + 1];           /* of the object's batch; 0: it isn't in the queue */
bool locked;                       /* the queue is */
bool retired[OBJECTS + 1], gone[OBJECTS + 1];
byte writers = WRITERS, readers = READERS; /* that haven't ended */
chan stores[READERS] = [STORES] of { byte };

inline use(object) { assert(!gone[object]) }

/* ---- readers */

inline store_note(at) {
    mine = at;
    stores[me] ! at
#ifdef FENCED
    ; empty(stores[me])
#endif
}

/* A handler at this step: it pins, and so on, between any two steps of its thread. */
inline handler() {
    if
    :: true
#ifdef HANDLERS
    :: pins++;
#ifdef HANDLER_TRUSTS_THE_COUNT
       if :: pins == 1 -> inner_at = clock; store_note(inner_at) :: else fi;
#else
       if :: mine == 0 -> inner_at = clock; store_note(inner_at) :: else fi;
#endif
       inner = held; use(inner); inner = 0; inner_at = 0;
       pins--;
#ifdef EACH_UNPIN_CLEARS
       mine = 0; stores[me] ! 0
#else
       if :: pins == 0 -> mine = 0; stores[me] ! 0 :: else fi
#endif
#endif
    fi
}

proctype reader(byte me) {
    byte mine, pins, at, object, inner_at, inner; /* `mine`: the note as its thread sees it */
    do
    ::
#ifdef GETS_BEFORE_PIN
       object = held;
#endif
       pins++; handler();
       if
       :: mine == 0 -> at = clock; handler(); store_note(at); at = 0
       :: else
       fi;
#ifndef GETS_BEFORE_PIN
       object = held;
#endif
       handler();
#ifndef USES_AFTER_UNPIN
       use(object); object = 0;
#endif
       pins--; handler();
       if :: pins == 0 -> mine = 0; stores[me] ! 0 :: else fi;
#ifdef USES_AFTER_UNPIN
       use(object); object = 0
#endif
    :: break
    od;
    empty(stores[me]); readers--
}

/* What is in a store buffer comes to memory at any time, in its order. */
proctype buffer(byte me) {
    byte value;
end: do
    :: atomic { stores[me] ? value -> note[me] = value; value = 0 }
    od
}

/* ---- writers */

inline lock() { atomic { !locked -> locked = true } }

inline retire_what_was() {
#ifdef STAMPS_BEFORE_EXCHANGE
    if :: early == 0 -> atomic { clock++; early = clock } :: else fi;
#endif
    atomic { open[held] = true; retired[held] = true; held = fresh; fresh++; has_open = true }
}

/* The batch gets its stamp, and is in the queue. */
inline queue_open() {
    lock();
    d_step {
#ifdef STAMPS_BEFORE_EXCHANGE
        tick = early; early = 0;
#elif defined(STAMPS_WITHOUT_TICK)
        tick = clock;
#else
        clock++; tick = clock;
#endif
        for (i : 1 .. OBJECTS) { if :: open[i] -> stamp[i] = tick; open[i] = false :: else fi }
        i = 0; tick = 0; has_open = false; locked = false
    }
}

/* All notes that readers have stored are in memory: without membarrier they have seen to that. */
inline heavy_fence() {
#if defined(NO_FENCE) || defined(FENCED)
    skip
#else
    atomic { for (i : 0 .. READERS - 1) { do :: stores[i] ? from -> note[i] = from :: empty(stores[i]) -> break od } i = 0; from = 0 }
#endif
}

inline look_at_notes() {
    oldest = limit;
    i = 0;
    do
    :: i < READERS -> atomic { if :: note[i] && note[i] < oldest -> oldest = note[i] :: else fi; i++ }
    :: else -> break
    od;
    i = 0
}

#ifdef FREES_ONE_TOO_MANY
#define MAY_FREE(one) (stamp[one] && stamp[one] <= oldest + 1)
#else
#define MAY_FREE(one) (stamp[one] && stamp[one] <= oldest)
#endif

inline collect() {
#ifdef LIMIT_AFTER_FENCE
    heavy_fence(); limit = clock;
#else
    limit = clock; heavy_fence();
#endif
#ifdef TAKES_BY_TWO_STEPS
    lock(); look_at_notes(); locked = false;
    d_step { for (i : 1 .. OBJECTS) { if :: MAY_FREE(i) -> taken[i] = true :: else fi } i = 0 };
    d_step { for (i : 1 .. OBJECTS) { if :: taken[i] -> stamp[i] = 0 :: else fi } i = 0 };
#else
    lock(); look_at_notes();
    d_step {
        for (i : 1 .. OBJECTS) {
            if
            :: MAY_FREE(i) -> taken[i] = true; stamp[i] = 0
#ifdef DROPS_WHAT_IS_KEPT
            :: !MAY_FREE(i) -> stamp[i] = 0
#else
            :: else
#endif
            fi
        }
        i = 0; locked = false
    };
#endif
    i = 1;
    do
    :: atomic { i <= OBJECTS && taken[i] -> assert(!gone[i]); gone[i] = true; taken[i] = false }
    :: atomic { i <= OBJECTS && !taken[i] -> i++ }
    :: i > OBJECTS -> break
    od;
    atomic { i = 0; limit = 0; oldest = 0 }
}

proctype writer(byte fresh, last) {
    bool open[OBJECTS + 1], taken[OBJECTS + 1], has_open;
    byte i, from, limit, oldest, tick, early;
    do
    :: fresh <= last -> retire_what_was()
    :: has_open -> queue_open()
    :: collect()
    :: fresh > last && !has_open -> break
    od;
    writers--
}

/* Who comes last finds all that was retired. */
proctype at_last() {
    bool taken[OBJECTS + 1];
    byte i, from, limit, oldest;
    (writers == 0 && readers == 0);
    collect();
    for (i : 1 .. OBJECTS) { assert(gone[i] == retired[i]); assert(gone[i] == (i != held)) }
}

init {
    atomic {
        run reader(0); run buffer(0);
        if :: READERS > 1 -> run reader(1); run buffer(1) :: else fi;
        if :: WRITERS > 1 -> run writer(2, OBJECTS - 1); run writer(OBJECTS, OBJECTS) :: else -> run writer(2, OBJECTS) fi;
        run at_last()
    }
}
