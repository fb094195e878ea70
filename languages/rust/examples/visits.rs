//! Counts visits: eight threads add to one map, and the three busiest visitors are printed.

use samvolip::Map;
use std::thread;

fn main() {
    let visits = Map::new();
    thread::scope(|scope| {
        for _ in 0..8 {
            scope.spawn(|| count(&visits));
        }
    });

    visits.retain(|_, times| times >= 100); // who came rarely is forgotten
    let mut busiest = visits.snapshot();
    busiest.sort_by_key(|&(_, times)| u64::MAX - times);
    for (visitor, times) in &busiest[..3] {
        println!("visitor {visitor} came {times} times");
    }
}

/// What one thread sees: visitor v comes v times.
fn count(visits: &Map) {
    for visitor in 1..1000 {
        for _ in 0..visitor {
            visits.add(visitor, 1);
        }
    }
}
