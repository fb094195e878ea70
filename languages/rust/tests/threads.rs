//! Many threads: they add and renew with exact sums, come and go, are more than the map has ways for, hand work around, and
//! outlive maps.

use samvolip::{Error, Keys, Map, Options};
use std::collections::BTreeMap;
use std::sync::atomic::{AtomicBool, AtomicU64, Ordering};
use std::sync::mpsc::{channel, Receiver, Sender};
use std::sync::{Arc, Barrier, Mutex, MutexGuard, OnceLock};
use std::thread;

/// Runs this in so many threads at once, with a number for each, and waits until they have ended.
fn in_threads(count: u64, work: impl Fn(u64) + Sync) {
    let (work, start) = (&work, &Barrier::new(count as usize));
    thread::scope(|scope| {
        let begin = move |number| {
            start.wait();
            work(number)
        };
        let threads: Vec<_> = (0..count).map(|number| scope.spawn(move || begin(number))).collect();
        threads.into_iter().for_each(|thread| thread.join().unwrap());
    });
}

/// Takes a lock by turns. The thread sanitizer doesn't see how `std` lets threads wait for one.
fn lock<T>(mutex: &Mutex<T>) -> MutexGuard<'_, T> {
    loop {
        match mutex.try_lock() {
            Ok(guard) => return guard,
            Err(_) => thread::yield_now(),
        }
    }
}

/// Lets others run until the work is done, whatever becomes of it.
fn beside(others: impl Fn(&AtomicBool) + Sync, work: impl FnOnce()) {
    struct Ends<'f>(&'f AtomicBool);
    impl Drop for Ends<'_> {
        fn drop(&mut self) {
            self.0.store(true, Ordering::Relaxed);
        }
    }
    let is_over = AtomicBool::new(false);
    thread::scope(|scope| {
        let other = scope.spawn(|| others(&is_over));
        let ends = Ends(&is_over);
        work();
        drop(ends);
        other.join().unwrap();
    });
}

fn small() -> Map {
    Map::with_options(Options::new().room(21).growth(2)).unwrap()
}

#[test]
fn eight_threads_and_growth() {
    for keys in [Keys::Secret, Keys::Mixed, Keys::AsTheyAre] {
        // keys as they are that share their low bits would be slow
        let step = if keys == Keys::AsTheyAre { 1 } else { 65_536 };
        let map = Map::with_options(Options::new().room(21).growth(2).keys(keys)).unwrap();
        in_threads(8, |number| {
            for i in 0..20_000 {
                let key = (i * 7 + number * 625) % 5000 * step;
                map.add(key, 1);
                assert!(map.contains_key(key));
                if i % 10_000 == 0 {
                    let shown: BTreeMap<_, _> = map.iter().collect();
                    assert!(shown.keys().all(|key| key % step == 0 && *key < 5000 * step));
                }
            }
        });
        let mut entries = map.snapshot();
        entries.sort();
        assert!(entries.into_iter().eq((0..5000).map(|i| (i * step, 32))));
        assert!(map.figures().renewals > 0);
    }
}

/// Keys come and go while four threads add to others: no addition is lost, and no thread sees a sum become less.
#[test]
fn renewals_under_load() {
    let map = small();
    let added = AtomicU64::new(0);
    let add = |is_over: &AtomicBool| {
        in_threads(4, |number| {
            let mut seen = [0; 64];
            for i in 0.. {
                let key = (i * 13 + number) % 64;
                let before = map.add(key, 1).unwrap_or(0);
                let after = map.get(key).unwrap();
                assert!(seen[key as usize] <= before && before < after);
                seen[key as usize] = after;
                if is_over.load(Ordering::Relaxed) {
                    added.fetch_add(i + 1, Ordering::Relaxed);
                    break;
                }
            }
        });
    };
    beside(add, || {
        // until all threads have added to all keys
        for key in (1000..).take_while(|&key| key < 30_000 || map.len_estimate() < 564) {
            assert_eq!(map.insert(key, key), None);
            if key % 1000 == 0 {
                map.renew(key as usize % 3000).unwrap();
            }
            if key >= 1500 {
                assert_eq!(map.remove(key - 500), Some(key - 500));
            }
        }
    });
    assert!(map.figures().renewals >= 29, "{:?}", map.figures());
    assert_eq!(map.retain(|key, _| key < 64), 500);
    assert_eq!((map.len(), map.values().sum()), (64, added.into_inner()));
}

/// A snapshot is of one moment: who adds to one key and then to another is at most one ahead with the first.
#[test]
fn snapshots_beside_writers() {
    let map: Map = (0..8).map(|key| (key, 0)).collect();
    let write = |is_over: &AtomicBool| {
        in_threads(4, |number| {
            for key in (1000 + number..).step_by(4) {
                map.add(2 * number, 1);
                map.add(2 * number + 1, 1);
                map.insert(key, number);
                map.remove(key - 100);
                if is_over.load(Ordering::Relaxed) {
                    break;
                }
            }
        });
    };
    beside(write, || {
        let mut lengths = 0;
        for _ in 0..200 {
            let entries: BTreeMap<_, _> = map.snapshot().into_iter().collect();
            for number in 0..4 {
                let (first, second) = (entries[&(2 * number)], entries[&(2 * number + 1)]);
                assert!(first == second || first == second + 1, "{first} and {second}");
            }
            lengths += map.len();
        }
        assert!((200 * 8..=200 * 112).contains(&lengths));
    });
}

/// A snapshot of a map that grows has, of each thread's keys, all up to some one.
#[test]
fn snapshots_of_a_map_that_grows() {
    let map = small();
    let grow =
        |_: &AtomicBool| in_threads(3, |number| (0..40_000).for_each(|i| assert_eq!(map.insert(3 * i + number, i), None)));
    beside(grow, || {
        let mut sizes = [0; 3];
        while sizes.iter().sum::<u64>() < 120_000 {
            let (before, entries) = (map.len(), map.snapshot());
            assert!(before <= entries.len() && entries.len() <= map.len());
            let (mut counts, mut greatest) = ([0; 3], [0; 3]);
            for (key, value) in entries {
                let number = (key % 3) as usize;
                counts[number] += 1;
                greatest[number] = value.max(greatest[number]);
            }
            for number in 0..3 {
                assert!(counts[number] == 0 || counts[number] == greatest[number] + 1, "{counts:?}, {greatest:?}");
                assert!(sizes[number] <= counts[number]);
            }
            sizes = counts;
        }
    });
}

/// What is drained, and what is left, is all that was added.
#[test]
fn drained_beside_writers() {
    let map = small();
    let total = AtomicU64::new(0);
    let drain = |is_over: &AtomicBool| {
        while !is_over.load(Ordering::Relaxed) {
            let sum: u64 = map.drain().into_iter().map(|(_, value)| value).sum();
            total.fetch_add(sum, Ordering::Relaxed);
        }
    };
    beside(drain, || {
        in_threads(4, |number| {
            for i in 0..50_000 {
                map.add((i * 31 + number) % 300, 1);
            }
        });
    });
    assert_eq!(total.into_inner() + map.values().sum::<u64>(), 200_000);
}

/// Each walk shows each key that is there all the while, once, though the map is renewed and others come and go.
#[test]
fn walks_beside_writers() {
    let map: Map = (0..500).map(|key| (key, key)).collect();
    let churn = |is_over: &AtomicBool| {
        for key in 1000.. {
            map.insert(key, key);
            map.remove(key - 400);
            if key % 3000 == 0 {
                map.renew(if key % 2000 == 0 { 10_000 } else { 0 }).unwrap();
            }
            if is_over.load(Ordering::Relaxed) {
                break;
            }
        }
    };
    beside(churn, || {
        in_threads(3, |_| {
            for _ in 0..60 {
                let mut kept = vec![];
                for (key, value) in &map {
                    assert_eq!(key, value);
                    kept.extend((key < 500).then_some(key));
                    if key % 250 == 0 {
                        assert!(map.keys().filter(|&key| key < 500).count() == 500);
                    }
                }
                kept.sort();
                assert!(kept.into_iter().eq(0..500));
            }
        });
    });
}

/// Who retains and who adds loses no sum: a key goes at the very value of which `keep` said false last.
#[test]
fn retained_beside_writers() {
    let map = small();
    let taken = AtomicU64::new(0);
    let retain = |is_over: &AtomicBool| {
        while !is_over.load(Ordering::Relaxed) {
            let mut refused = BTreeMap::new();
            let removed = map.retain(|key, value| {
                refused.insert(key, value);
                value < 3 && refused.remove(&key).is_some()
            });
            assert_eq!(removed, refused.len());
            taken.fetch_add(refused.into_values().sum(), Ordering::Relaxed);
        }
    };
    beside(retain, || {
        in_threads(4, |number| {
            for i in 0..30_000 {
                map.update((i * 31 + number) % 100, |found| Some(found.unwrap_or(0) + 1));
            }
        });
    });
    assert_eq!(map.values().sum::<u64>() + taken.into_inner(), 120_000);
}

/// Exchanges by four threads: each step up is made once.
#[test]
fn exchanges_by_four() {
    let map = Map::new();
    in_threads(4, |_| {
        for _ in 0..10_000 {
            let mut found = None;
            while let Err(other) = map.compare_exchange(1, found, Some(found.unwrap_or(0) + 1)) {
                found = other;
            }
        }
    });
    assert_eq!(map.get(1), Some(40_000));
}

#[test]
fn three_hundred_threads() {
    for threads in [1, 64, 240] {
        let map = Map::with_options(Options::new().room(21).threads(threads)).unwrap();
        in_threads(300, |number| {
            for i in 0..100 {
                assert_eq!(map.insert(1000 + 100 * number + i, i), None);
                map.add(i, 1);
                assert_eq!(map.get(1000 + 100 * number + i), Some(i));
            }
            if number % 10 == 0 {
                assert_eq!(map.keys().filter(|&key| key / 100 == 10 + number).count(), 100);
            }
        });
        assert!((0..100).all(|key| map.get(key) == Some(300)));
        assert_eq!(map.len(), 30_100);
        assert!(map.figures().own_threads <= u64::from(threads));
    }
}

#[test]
fn threads_come_and_go() {
    let map = Map::with_options(Options::new().room(21).threads(4)).unwrap();
    for round in 0..200 {
        let threads: Vec<_> = (0..8)
            .map(|number| {
                let map = map.clone();
                thread::spawn(move || {
                    map.insert(1000 + 8 * round + number, round);
                    map.add(number, 1)
                })
            })
            .collect();
        for thread in threads {
            assert_eq!(thread.join().unwrap(), (round > 0).then_some(round));
        }
        assert_eq!(map.figures().own_threads, 1, "all but this one have ended");
    }
    assert_eq!(map.len(), 1608);
}

/// Sixteen workers take work from one queue: each piece has maps with it, goes on by whoever takes it, and may be the last to
/// have them.
#[test]
fn a_pool_hands_work_around() {
    type Work = Box<dyn FnOnce(&Sender<Option<Piece>>) + Send>;
    struct Piece(Work);
    fn piece(map: Map, sums: Map, left: u64) -> Piece {
        Piece(Box::new(move |queue| {
            map.add(left % 7, 1);
            let sum = sums.add(left, 1).map_or(1, |before| before + 1);
            assert_eq!(sums.get(left).map(|now| now >= sum), Some(true));
            match left {
                0 => assert_eq!(map.values().sum::<u64>(), 201),
                _ => queue.send(Some(piece(map, sums, left - 1))).unwrap(),
            }
        }))
    }
    let (queue, pieces) = channel::<Option<Piece>>();
    let (sums, pieces) = (Map::new(), Mutex::new(pieces));
    for _ in 0..40 {
        queue.send(Some(piece(Map::new(), sums.clone(), 200))).unwrap();
    }
    let queue = Mutex::new(queue);
    let next = || lock(&pieces).recv().unwrap();
    in_threads(16, |_| {
        let queue = lock(&queue).clone();
        while let Some(Piece(work)) = next() {
            work(&queue);
            if sums.get(0) == Some(40) {
                queue.send(None).unwrap();
            }
        }
        queue.send(None).unwrap();
    });
    assert_eq!((sums.len(), sums.values().all(|value| value == 40)), (201, true));
}

/// Tasks that go from thread to thread at each rest, some in the middle of a walk, as those of an async runtime do.
mod tasks {
    use super::*;
    use std::future::{poll_fn, Future};
    use std::pin::Pin;
    use std::task::{Context, Poll, Wake, Waker};

    struct Task {
        work: Mutex<Pin<Box<dyn Future<Output = ()> + Send>>>,
        queue: Mutex<Sender<Arc<Task>>>,
    }

    impl Wake for Task {
        fn wake(self: Arc<Task>) {
            let queue = lock(&self.queue).clone();
            queue.send(self).unwrap();
        }
    }

    /// Lets the other tasks go on.
    async fn rest() {
        let mut rested = false;
        poll_fn(|context| {
            if rested {
                return Poll::Ready(());
            }
            rested = true;
            context.waker().wake_by_ref();
            Poll::Pending
        })
        .await
    }

    async fn work(map: Map, done: Map) {
        for i in 0..50 {
            map.add(i, 1);
            rest().await;
        }
        let mut shown = 0;
        for (key, value) in &map {
            assert!(value > 0);
            shown += u64::from(key < 50);
            if key % 10 == 0 {
                rest().await;
            }
        }
        assert_eq!(shown, 50);
        done.add(0, 1);
    }

    fn run(pieces: &Mutex<Receiver<Arc<Task>>>, done: &Map, tasks: u64) {
        while done.get(0) != Some(tasks) {
            let next = lock(pieces).try_recv();
            match next {
                Ok(task) => {
                    let waker = Waker::from(Arc::clone(&task));
                    let _ = lock(&task.work).as_mut().poll(&mut Context::from_waker(&waker));
                }
                Err(_) => thread::yield_now(),
            }
        }
    }

    #[test]
    fn a_runtime_moves_tasks() {
        let (map, done) = (small(), Map::new());
        let (queue, pieces) = channel();
        let task = |_| {
            let work = Mutex::new(Box::pin(work(map.clone(), done.clone())) as _);
            Arc::new(Task { work, queue: Mutex::new(queue.clone()) })
        };
        let tasks: Vec<_> = (0..60).map(task).collect();
        tasks.iter().for_each(|task| queue.send(Arc::clone(task)).unwrap());
        let pieces = Mutex::new(pieces);
        in_threads(6, |_| run(&pieces, &done, 60));
        assert!(map.values().all(|value| value == 60));
    }
}

/// A map may go before the threads that called it, and a thread may call many.
#[test]
fn many_maps() {
    let (maps, given) = channel::<Map>();
    let (answer, answers) = channel();
    let thread = thread::spawn(move || {
        for map in given {
            let answered = map.add(1, 1);
            drop(map);
            answer.send(answered).unwrap();
        }
    });
    let kept: Vec<_> = (0..20).map(|_| Map::new()).collect();
    for _ in 0..100 {
        maps.send(Map::new()).unwrap();
        assert_eq!(answers.recv().unwrap(), None);
    }
    for round in 0..100 {
        for map in &kept {
            maps.send(map.clone()).unwrap();
            assert_eq!(answers.recv().unwrap(), (round > 0).then_some(round));
        }
    }
    assert!(kept.iter().all(|map| map.get(1) == Some(100) && map.figures().own_threads == 2));
    drop(kept);
    drop(maps);
    thread.join().unwrap();
}

/// Threads end while maps that they called are freed, and others are made.
#[test]
fn maps_go_while_threads_end() {
    for _ in 0..200 {
        let map = Map::with_options(Options::new().room(21)).unwrap();
        let (done, calls_done) = channel();
        let threads: Vec<_> = (0..4)
            .map(|key| {
                let (map, done) = (map.clone(), done.clone());
                thread::spawn(move || {
                    map.add(key, 1);
                    drop(map);
                    done.send(()).unwrap(); // its way into the map goes back after this
                })
            })
            .collect();
        assert_eq!(calls_done.iter().take(4).count(), 4);
        assert_eq!((map.len(), map.values().sum()), (4, 4));
        drop(map);
        threads.into_iter().for_each(|thread| thread.join().unwrap());
    }
}

/// A walk goes on by another thread than began it, also when that has ended.
#[test]
fn walks_are_sent() {
    let map: Map = (0..1000).map(|key| (key, key)).collect();
    let (walk, first) = thread::scope(|scope| {
        let begin = || {
            let mut walk = map.iter();
            let first = walk.next().unwrap();
            (walk, first)
        };
        scope.spawn(begin).join().unwrap()
    });
    map.renew(100_000).unwrap();
    let mut shown = thread::scope(|scope| scope.spawn(|| walk.collect::<Vec<_>>()).join().unwrap());
    shown.push(first);
    shown.sort();
    assert!(shown.into_iter().eq((0..1000).map(|key| (key, key))));
}

static KEPT: OnceLock<Map> = OnceLock::new();

/// What a thread does as it ends: it calls a map, and is the last to have another one.
struct LastCall(Map);

impl Drop for LastCall {
    fn drop(&mut self) {
        let map = KEPT.get().unwrap();
        map.add(1, self.0.get(1).unwrap());
        map.add(map.len() as u64 + 1, 1);
    }
}

thread_local!(static LAST: LastCall = LastCall(Map::from([(1, 1)])));

#[test]
fn calls_as_threads_end() {
    let map = KEPT.get_or_init(small);
    for round in 0..100 {
        let end = move || {
            if round % 2 == 0 {
                LAST.with(|last| last.0.insert(2, 1));
            }
            map.add(1, 1);
            LAST.with(|last| last.0.insert(3, 1));
        };
        thread::spawn(end).join().unwrap();
    }
    assert_eq!((map.get(1), map.len(), map.figures().own_threads), (Some(200), 101, 1));
}

/// A handler that interrupts its thread in the middle of a call is refused; elsewhere it may call.
mod signals {
    use super::*;
    use std::time::{Duration, Instant};

    const SIGUSR1: i32 = 10;

    extern "C" {
        fn signal(number: i32, handler: extern "C" fn(i32)) -> usize;
        fn pthread_self() -> usize;
        fn pthread_kill(thread: usize, number: i32) -> i32;
    }

    static MAP: OnceLock<Map> = OnceLock::new();
    static MADE: AtomicU64 = AtomicU64::new(0);
    static NESTED: AtomicU64 = AtomicU64::new(0);

    extern "C" fn handle(_: i32) {
        let map = MAP.get().unwrap();
        match (map.try_get(1), map.try_add(2, 1)) {
            (Ok(found), Ok(_)) => MADE.fetch_add(u64::from(found == Some(5)), Ordering::Relaxed),
            (Err(Error::Nested), Err(Error::Nested)) => NESTED.fetch_add(1, Ordering::Relaxed),
            answers => panic!("{answers:?}"),
        };
    }

    #[test]
    fn handlers_call() {
        let map = MAP.get_or_init(|| Map::from([(1, 5), (2, 0)]));
        let (caller, told) = channel();
        // SAFETY: what the handler calls may be called by a handler.
        unsafe { signal(SIGUSR1, handle) };
        let call = |is_over: &AtomicBool| {
            map.add(3, 1); // a first call takes memory, which a handler may not
                           // SAFETY: any thread may ask.
            caller.send(unsafe { pthread_self() }).unwrap();
            while !is_over.load(Ordering::Relaxed) {
                map.add(3, 1);
            }
        };
        beside(call, || {
            // the thread sanitizer keeps signals back until calls of C have ended
            let keeps_back = std::env::var_os("TSAN_OPTIONS").is_some();
            let most = Duration::from_millis(if keeps_back { 200 } else { 60_000 });
            let (caller, end) = (told.recv().unwrap(), Instant::now() + most);
            while NESTED.load(Ordering::Relaxed) == 0 || MADE.load(Ordering::Relaxed) == 0 {
                // SAFETY: the thread goes on until this work is done.
                assert_eq!(unsafe { pthread_kill(caller, SIGUSR1) }, 0);
                thread::yield_now();
                if Instant::now() >= end {
                    assert!(keeps_back, "no call was interrupted");
                    break;
                }
            }
        });
        assert_eq!(map.get(2), Some(MADE.load(Ordering::Relaxed)));
    }
}

/// A map that may have no more memory refuses new keys alike by all threads, and goes on.
#[test]
fn no_memory_for_many() {
    let map = Map::with_options(Options::new().room(600).memory(2 * 1024 * 16)).unwrap();
    let refused = AtomicU64::new(0);
    in_threads(8, |number| {
        for key in (0..3200).skip(number as usize).step_by(8) {
            match map.try_insert(key, number) {
                Ok(before) => assert_eq!(before, None),
                Err(error) => {
                    assert_eq!((error, map.replace(key, 0)), (Error::OutOfMemory, None));
                    refused.fetch_add(1, Ordering::Relaxed);
                }
            }
        }
    });
    assert_eq!((map.len(), refused.into_inner()), (1024, 3200 - 1024));
}
