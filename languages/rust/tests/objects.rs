//! Maps of objects: their calls, that each object is dropped once and none that a pin keeps, and threads that read and write them
//! while the map is renewed.

use samvolip::{Error, ObjectMap, Operation, Options, Pin, KEY_MAX};
use std::panic::{catch_unwind, AssertUnwindSafe};
use std::sync::atomic::{AtomicBool, AtomicU64, Ordering};
use std::sync::mpsc::channel;
use std::sync::{Arc, Weak};
use std::thread;
use std::time::Duration;

/// How many objects were made and dropped.
#[derive(Default)]
struct Counts {
    made: AtomicU64,
    dropped: AtomicU64,
}

impl Counts {
    fn object(&self, number: u64) -> Object<'_> {
        self.made.fetch_add(1, Ordering::Relaxed);
        Object { number, check: !number, counts: self }
    }

    fn dropped(&self) -> u64 {
        self.dropped.load(Ordering::Relaxed)
    }

    fn all_dropped(&self) {
        assert_eq!(self.made.load(Ordering::Relaxed), self.dropped());
    }
}

/// An object that tells whether it is whole, and counts itself.
struct Object<'c> {
    number: u64,
    check: u64,
    counts: &'c Counts,
}

impl Object<'_> {
    fn is_whole(&self) -> bool {
        self.check == !self.number
    }
}

impl Drop for Object<'_> {
    fn drop(&mut self) {
        assert!(self.is_whole());
        self.check = self.number;
        self.counts.dropped.fetch_add(1, Ordering::Relaxed);
    }
}

fn number(object: Option<&Object>) -> Option<u64> {
    object.map(|object| object.number)
}

#[test]
fn calls_of_one_key() {
    let counts = Counts::default();
    let map = ObjectMap::new();
    let pin = map.pin();
    assert!(map.insert(7, counts.object(1), &pin).is_none() && map.contains_key(7) && !map.contains_key(8));
    let first = map.get(7, &pin).unwrap();
    assert_eq!(number(map.insert(7, counts.object(2), &pin)), Some(1));
    assert_eq!(number(map.remove(7, &pin)), Some(2));
    assert!(map.remove(7, &pin).is_none() && map.get(7, &pin).is_none());
    map.collect();
    assert!(first.is_whole() && counts.dropped() == 0 && map.object_figures().waiting == 2);
    assert!(map.object_figures().oldest_pin.is_some());
    drop(pin);
    map.collect();
    assert!(counts.dropped() == 2 && map.object_figures().waiting == 0 && map.object_figures().oldest_pin.is_none());

    let pin = map.pin();
    assert_eq!(map.get_or_insert_with(7, || counts.object(3), &pin).number, 3);
    assert_eq!(map.get_or_insert_with(7, || unreachable!(), &pin).number, 3);
    let disturbed = || {
        map.insert(8, counts.object(4), &pin);
        counts.object(5)
    };
    assert_eq!(map.get_or_insert_with(8, disturbed, &pin).number, 4);
    assert_eq!((map.len(), map.len_estimate(), map.is_empty()), (2, 2, false));
    drop(pin);
    drop(map);
    counts.all_dropped();
}

#[test]
fn computes() {
    let counts = Counts::default();
    let map = ObjectMap::new();
    let pin = map.pin();
    let more = |found: Option<&Object>| Operation::Insert(counts.object(number(found).unwrap_or(0) + 1));
    for i in 1..100 {
        assert_eq!(number(map.compute(7, more, &pin)), Some(i));
    }
    assert!(map.compute(8, |_| Operation::Remove, &pin).is_none());
    assert_eq!(number(map.compute(7, |_| Operation::Abort, &pin)), Some(99));
    // others come first, twice
    let mut calls = 0;
    let found = map.compute(
        7,
        |found| {
            calls += 1;
            if calls <= 2 {
                map.insert(7, counts.object(1000 * calls), &pin);
            }
            Operation::Insert(counts.object(number(found).unwrap() + 1))
        },
        &pin,
    );
    assert_eq!((number(found), calls), (Some(2001), 3));
    let mut calls = 0;
    let removed = map.compute(
        7,
        |_| {
            calls += 1;
            if calls == 1 {
                map.insert(7, counts.object(1), &pin);
            }
            Operation::Remove
        },
        &pin,
    );
    assert!(removed.is_none() && calls == 2 && map.is_empty());
    drop(pin);
    drop(map);
    counts.all_dropped();
}

#[test]
fn whole_maps() {
    let counts = Counts::default();
    let mut map: ObjectMap<_> = (0..3000).map(|key| (key, counts.object(key))).collect();
    map.extend([(5000, counts.object(1))]);
    let pin = map.pin();
    let mut shown = 0;
    for (key, object) in map.iter(&pin) {
        assert!(object.is_whole() && (object.number == key || key == 5000));
        map.remove(key, &pin);
        shown += 1;
        if shown == 1000 {
            map.renew(0).unwrap();
            map.collect();
        }
        assert!(object.is_whole());
    }
    assert!(shown == 3001 && map.is_empty() && counts.dropped() == 0);
    drop(pin);
    map.extend((0..100).map(|key| (key, counts.object(key))));
    assert_eq!(map.retain(|key, object| key % 2 == 0 && object.is_whole()), 50);
    assert_eq!(map.retain(|_, _| true), 0);
    map.clear();
    assert!(map.is_empty() && map.figures().renewals > 0);
    map.collect();
    counts.all_dropped();
    let texts: ObjectMap<String> = [(7, "Ada".to_string())].into_iter().collect();
    assert_eq!(
        (format!("{texts:?}"), texts.get_cloned(7), texts.get_cloned(8)),
        ("{7: \"Ada\"}".to_string(), Some("Ada".to_string()), None)
    );
}

/// What a `Map` has, too: handles to one map, walks over keys and objects, and a map of entries.
#[test]
fn as_a_map() {
    let counts = Counts::default();
    let map = ObjectMap::from([(1, counts.object(10)), (2, counts.object(20))]);
    (&map).extend([(3, counts.object(30))]);
    let other = map.clone();
    let pin = map.pin();
    other.insert(4, counts.object(40), &pin); // the pin of one is a pin of all
    let mut keys: Vec<_> = other.keys().collect();
    let mut numbers: Vec<_> = map.values(&pin).map(|object| object.number).collect();
    keys.sort();
    numbers.sort();
    assert_eq!((keys, numbers), (vec![1, 2, 3, 4], vec![10, 20, 30, 40]));
    let mut sum = 0;
    for (key, object) in &pin {
        assert_eq!(object.number, 10 * key);
        sum += key;
        map.remove(key, &pin);
    }
    assert_eq!((sum, other.len()), (10, 0));
    map.insert(5, counts.object(50), &pin);
    drop(pin);
    let pin = other.pin();
    drop(map); // the other handle has it
    assert_eq!(number(other.get(5, &pin)), Some(50));
    let shown = thread::scope(|scope| {
        let keys = other.keys();
        scope.spawn(|| keys.count()).join().unwrap() // a walk over keys may go to another thread
    });
    assert_eq!(shown, 1);
    drop(pin);
    drop(other);
    counts.all_dropped();
}

/// Also of objects that wait in the batch of a thread, this one or another, before they are shown to others.
#[test]
fn the_oldest_pin_is_told() {
    let map = ObjectMap::from([(1, 1), (2, 2)]);
    let oldest = || map.object_figures().oldest_pin;
    let pin = map.pin();
    assert_eq!(oldest(), None); // it keeps nothing
    map.remove(1, &pin);
    assert!(oldest().is_some());
    thread::sleep(Duration::from_millis(2));
    assert!(oldest().unwrap() >= Duration::from_millis(2));
    drop(pin);
    assert_eq!((oldest(), map.object_figures().waiting), (None, 1));
    map.collect();
    // pins of a thread that overlap are one, which ends with the last of them
    let (first, second) = (map.pin(), map.pin());
    map.insert(3, 3, &first);
    map.remove(3, &first);
    drop(first);
    let third = map.pin();
    drop(second);
    map.collect();
    assert_eq!(map.object_figures().waiting, 1);
    drop(third);
    map.collect();
    assert_eq!(map.object_figures().waiting, 0);
    let (removed, is_removed) = channel();
    let (seen, is_seen) = channel::<()>();
    thread::scope(|scope| {
        let map = &map;
        scope.spawn(move || {
            map.remove(2, &map.pin());
            removed.send(()).unwrap();
            let _ = is_seen.recv();
        });
        is_removed.recv().unwrap();
        assert_eq!((oldest(), map.object_figures().waiting), (None, 1));
        let pin = map.pin();
        assert!(oldest().is_some());
        drop(pin);
        assert_eq!(oldest(), None);
        seen.send(()).unwrap();
    });
}

#[test]
fn refusals_and_panics() {
    let counts = Counts::default();
    let map = ObjectMap::new();
    let pin = map.pin();
    let (error, object) = map.try_insert(KEY_MAX + 1, counts.object(7), &pin).err().unwrap();
    assert_eq!((error, object.number), (Error::KeyRange, 7));
    assert!(map.get(KEY_MAX + 1, &pin).is_none() && map.remove(KEY_MAX + 1, &pin).is_none() && !map.contains_key(KEY_MAX + 1));
    assert!(catch_unwind(AssertUnwindSafe(|| map.insert(KEY_MAX + 1, counts.object(8), &pin).is_some())).is_err());
    assert!(catch_unwind(AssertUnwindSafe(|| map.compute(7, |_| panic!("as asked"), &pin).is_some())).is_err());
    assert!(catch_unwind(AssertUnwindSafe(|| map.get_or_insert_with(7, || panic!("as asked"), &pin).number)).is_err());
    assert!(ObjectMap::<u64>::with_options(Options::new().threads(0)).is_err());
    // a pin of another map
    let other = ObjectMap::new();
    assert!(catch_unwind(AssertUnwindSafe(|| other.insert(7, counts.object(9), &pin).is_some())).is_err());
    assert!(catch_unwind(AssertUnwindSafe(|| other.get(7, &pin).is_some())).is_err());
    assert!(catch_unwind(AssertUnwindSafe(|| other.iter(&pin).count())).is_err());
    assert!(map.is_empty() && other.is_empty());
    drop(object);
    counts.all_dropped();
}

#[test]
fn forgotten_pins_stand() {
    let counts = Counts::default();
    let map = ObjectMap::new();
    thread::scope(|scope| {
        scope.spawn(|| std::mem::forget(map.pin())).join().unwrap();
    });
    let pin = map.pin();
    map.insert(7, counts.object(1), &pin);
    map.remove(7, &pin);
    drop(pin);
    map.collect();
    assert_eq!((counts.dropped(), map.object_figures().waiting), (0, 1));
    drop(map);
    counts.all_dropped();
}

/// Objects without a size, and those whose drop calls the map.
#[test]
fn other_objects() {
    let units: ObjectMap<()> = (0..100).map(|key| (key, ())).collect();
    let pin = units.pin();
    assert!(units.remove(7, &pin) == Some(&()) && units.get(7, &pin).is_none() && units.len() == 99);

    struct Link(Weak<ObjectMap<Link>>, u64);
    impl Drop for Link {
        fn drop(&mut self) {
            if let Some(map) = self.0.upgrade() {
                map.remove(self.1, &map.pin());
            }
        }
    }
    let links = Arc::new(ObjectMap::new());
    for key in 1..200 {
        links.insert(key, Link(Arc::downgrade(&links), key + 1), &links.pin());
    }
    links.remove(1, &links.pin());
    (0..200).for_each(|_| links.collect());
    assert!(links.is_empty() && links.object_figures().waiting == 0);
}

/// Eight threads count by copies and insert, remove and read others, while the map is renewed: no count is lost, and each object is
/// dropped once.
#[test]
fn threads_count_through_renewals() {
    const THREADS: u64 = 8;
    const ROUNDS: u64 = if cfg!(samvolip_tells_order) { 2_000 } else { 10_000 };
    let counts = Counts::default();
    let map = ObjectMap::with_options(Options::new().room(10).threads(4)).unwrap();
    let is_over = AtomicBool::new(false);
    let work = |me: u64| {
        for i in 0..ROUNDS {
            let pin = map.pin();
            map.compute(i % 16, |found| Operation::Insert(counts.object(number(found).unwrap_or(0) + 1)), &pin);
            let key = 1000 * (me + 1) + i % 100;
            map.insert(key, counts.object(i), &pin);
            for other in 0..THREADS {
                let found = map.get(1000 * (other + 1) + i % 100, &pin);
                assert!(found.map_or(true, |object| object.is_whole() && object.number % 100 == i % 100));
            }
            if i % 3 == me % 3 {
                map.remove(1000 * (i % THREADS + 1) + i % 100, &pin);
            }
            if i % (ROUNDS / 4) == me {
                map.retain(|key, object| key < 1000 || object.number % 2 == 0);
                map.renew(100 * me as usize).unwrap();
            }
        }
    };
    let read = || {
        while !is_over.load(Ordering::Relaxed) {
            let pin: Pin<_> = map.pin();
            assert!(map.iter(&pin).all(|(_, object)| object.is_whole()));
        }
    };
    thread::scope(|scope| {
        let reader = scope.spawn(read);
        let work = &work;
        let workers: Vec<_> = (0..THREADS).map(|me| scope.spawn(move || work(me))).collect();
        workers.into_iter().for_each(|worker| worker.join().unwrap());
        is_over.store(true, Ordering::Relaxed);
        reader.join().unwrap();
    });
    let pin = map.pin();
    assert_eq!((0..16).map(|key| number(map.get(key, &pin)).unwrap()).sum::<u64>(), THREADS * ROUNDS);
    drop(pin);
    map.collect();
    let live = map.len() as u64;
    assert_eq!((map.object_figures().waiting, counts.made.load(Ordering::Relaxed)), (0, counts.dropped() + live));
    drop(map);
    counts.all_dropped();
}
