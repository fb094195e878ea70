/* walks.pml - how long a core of a map (../src/endless.h) lives, for spin. README.md says what each name of an #ifdef breaks.

   A walk stays in the core in which it began, also when another one has come into its place. Each core counts its users: the map, or who
   is about to put it there, and walks. The last one frees it. Whoever is alone with the map puts another core in, or gives that up and
   frees it, or clears: then it walks over the core that was. Steps under the map's lock are one atomic step. */
#ifndef THREADS
#define THREADS 3
#endif
#define CORES 4 /* blocks of memory; if none is left, a core to come is refused */

byte current;                        /* the map's core */
byte users[CORES];
bool lives[CORES];                   /* its memory isn't freed */
byte walkers[CORES];                 /* for the assertions alone: who may still walk there */
bool alone;

inline free_core(one) {
    atomic { assert(lives[one]); assert(walkers[one] == 0); assert(one != current); lives[one] = false }
}

/* With the lock. */
inline begin_walk(over) {
    walk = over;
    assert(lives[walk]);
    users[walk]++;
    walkers[walk]++
}

inline walk_on() {
    do
    :: atomic { assert(lives[walk]) } /* the next entries, with the lock */
    :: break
    od
}

inline end_walk() {
#ifdef ENDS_WALK_BY_TWO_STEPS
    atomic { assert(lives[walk]); users[walk]--; walkers[walk]-- };
    atomic { assert(lives[walk]); is_last = (users[walk] == 0) };
#else
    atomic {
        assert(lives[walk]);
        users[walk]--;
        walkers[walk]--;
#ifdef LAST_WALK_FREES_NOTHING
        is_last = false
#elif defined(EACH_WALK_FREES)
        is_last = (walk != current)
#else
        is_last = (users[walk] == 0)
#endif
    };
#endif
    if
    :: is_last -> free_core(walk)
    :: else
    fi;
    atomic { walk = 0; is_last = false }
}

/* `gone` is over: frees it, unless walks go on there. */
inline drop() {
#ifdef LOOKS_FOR_WALKS_LATER
    atomic { assert(lives[gone]); users[gone]-- };
    atomic { assert(lives[gone]); is_last = (users[gone] == 0) };
#else
    atomic {
        assert(lives[gone]);
#ifndef OVER_BEFORE_EXCHANGE
        users[gone]--;
#endif
#ifdef FREES_DURING_WALKS
        is_last = true
#else
        is_last = (users[gone] == 0)
#endif
    };
#endif
    if
    :: is_last -> free_core(gone)
    :: else
    fi;
    atomic { gone = 0; is_last = false }
}

/* With the lock. */
inline exchange() {
    gone = current;
    current = fresh;
    fresh = 0
}

proctype thread() {
    byte walk, fresh, gone; /* the core of its walk; the core to come; the one that it drops */
    bool is_last;
    do
    :: /* walks */
#ifdef BEGINS_WALK_WITHOUT_LOCK
       walk = current;
       atomic { begin_walk(walk) };
#else
       atomic { begin_walk(current) };
#endif
       walk_on();
       end_walk()
    :: atomic { !alone -> alone = true };
       atomic {
           if
           :: !lives[0] -> fresh = 0
           :: !lives[1] -> fresh = 1
           :: !lives[2] -> fresh = 2
           :: !lives[3] -> fresh = 3
           :: alone = false; goto on /* memory is refused */
           fi;
           lives[fresh] = true;
           users[fresh] = 1
       };
#ifdef OVER_BEFORE_EXCHANGE
       users[current]--;
#endif
       if
#ifndef OVER_BEFORE_EXCHANGE
       :: atomic { gone = fresh; fresh = 0 }; /* gives up */
          drop();
          alone = false
#endif
       :: atomic { exchange() }; /* renews */
          drop();
          alone = false
       :: /* clears */
#ifdef CLEAR_WALKS_LATE
          atomic { exchange(); walk = gone };
          drop();
          atomic { begin_walk(walk) };
#else
          atomic { begin_walk(current) };
          atomic { exchange() };
          drop();
#endif
          alone = false;
          walk_on();
          end_walk()
       fi;
on:    skip
    :: break
    od
}

init {
    byte one;
    atomic {
        lives[0] = true;
        users[0] = 1;
        for (one : 1 .. THREADS) { run thread() }
    };
    _nr_pr == 1; /* all threads have come to their end */
    for (one : 0 .. CORES - 1) { assert(lives[one] == (one == current)) }
}
