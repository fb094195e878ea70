//! What a call takes, in nanoseconds, beside a `HashMap` of std behind a `Mutex` or an `RwLock`: by one thread with keys in order and in
//! no order, and by four that call at once with keys in no order. Each figure is the best of some rounds, so that it holds on a busy
//! machine, too. Build it with --release. `cost KEYS ROUNDS` says how many keys and rounds there are; else 65,536 and 60.
//! `bench/Cargo.toml` builds it with dashmap beside.
#![allow(unexpected_cfgs)]

use samvolip::{Keys, Map, Options};
use std::collections::HashMap;
use std::env::args;
use std::hint::black_box;
use std::sync::{Barrier, Mutex, RwLock};
use std::thread;
use std::time::Instant;

/// The step from key to key in order, and in no order: so each key comes once before one comes again.
const IN_ORDER: u64 = 1;
const IN_NO_ORDER: u64 = 2_654_435_761;

/// How it is measured.
#[derive(Clone, Copy)]
struct Plan {
    keys: u64,
    rounds: u64,
}

fn main() {
    let word = |place, usual| args().nth(place).map_or(usual, |word| word.parse().expect("a number"));
    let plan = Plan { keys: word(1, 65_536), rounds: word(2, 60) };
    let entries = || (0..plan.keys).map(|key| (key, key));
    let map = |keys| {
        let map = Map::with_options(Options::new().keys(keys)).unwrap();
        map.try_extend(entries()).unwrap();
        map
    };
    println!("{:34} {:>12} {:>12} {:>12}", "", "in order", "in no order", "4 threads");
    let tell = |name: &str, call: &(dyn Fn(u64) -> Option<u64> + Sync)| {
        let costs = [(1, IN_ORDER), (1, IN_NO_ORDER), (4, IN_NO_ORDER)].map(|(threads, step)| cost(plan, threads, step, call));
        println!("{name:34} {:12.1} {:12.1} {:12.1}", costs[0], costs[1], costs[2]);
    };
    for (name, keys) in [("Map", Keys::Secret), ("Map, keys as they are", Keys::AsTheyAre)] {
        let map = map(keys);
        tell(&format!("get, {name}"), &|key| map.get(key));
        tell(&format!("add, {name}"), &|key| map.add(key, 1));
        tell(&format!("remove and insert, {name}"), &|key| map.remove(key).and_then(|value| map.insert(key, value)));
    }
    {
        let mutex: Mutex<HashMap<u64, u64>> = Mutex::new(entries().collect());
        tell("get, Mutex<HashMap>", &|key| mutex.lock().unwrap().get(&key).copied());
        tell("add, Mutex<HashMap>", &|key| {
            mutex.lock().unwrap().get_mut(&key).map(|value| std::mem::replace(value, *value + 1))
        });
        tell("remove and insert, Mutex<HashMap>", &|key| {
            let value = mutex.lock().unwrap().remove(&key).unwrap_or(0);
            mutex.lock().unwrap().insert(key, value)
        });
        let rwlock = RwLock::new(mutex.into_inner().unwrap());
        tell("get, RwLock<HashMap>", &|key| rwlock.read().unwrap().get(&key).copied());
    }
    #[cfg(feature = "dashmap")]
    {
        let next = |found: &mut u64| std::mem::replace(found, *found + 1);
        let own: dashmap5::DashMap<_, _> = entries().collect();
        tell("get, dashmap", &|key| own.get(&key).map(|found| *found));
        tell("add, dashmap", &|key| own.get_mut(&key).map(|mut found| next(&mut found)));
        tell("remove and insert, dashmap", &|key| own.remove(&key).and_then(|(_, value)| own.insert(key, value)));
        let fx: dashmap5::DashMap<_, _, fxhash::FxBuildHasher> = entries().collect();
        tell("get, dashmap, fxhash", &|key| fx.get(&key).map(|found| *found));
        tell("add, dashmap, fxhash", &|key| fx.get_mut(&key).map(|mut found| next(&mut found)));
        tell("remove and insert, dashmap, fxhash", &|key| fx.remove(&key).and_then(|(_, value)| fx.insert(key, value)));
    }
}

/// What one of so many threads takes for a call, while the others call: the best of the rounds, each of which goes once through the
/// keys, from the first thread's beginning to the last one's end.
fn cost(plan: Plan, threads: u64, step: u64, call: &(dyn Fn(u64) -> Option<u64> + Sync)) -> f64 {
    let (start, step) = (&Barrier::new(threads as usize), step % plan.keys);
    let round = move |first: u64| {
        start.wait();
        let begun = Instant::now();
        let mut key = first;
        for _ in 0..plan.keys {
            black_box(call(black_box(key)));
            key += step;
            key -= if key < plan.keys { 0 } else { plan.keys };
        }
        (begun, Instant::now())
    };
    let times: Vec<Vec<_>> = thread::scope(|scope| {
        let work = |number| scope.spawn(move || (0..plan.rounds).map(|_| round(number * plan.keys / threads)).collect());
        let workers: Vec<_> = (0..threads).map(work).collect();
        workers.into_iter().map(|worker| worker.join().unwrap()).collect()
    });
    let length = |i: u64| {
        let begun = times.iter().map(|times| times[i as usize].0).min().unwrap();
        let ended = times.iter().map(|times| times[i as usize].1).max().unwrap();
        (ended - begun).as_nanos() as f64 / plan.keys as f64
    };
    (0..plan.rounds).map(length).fold(f64::INFINITY, f64::min)
}
