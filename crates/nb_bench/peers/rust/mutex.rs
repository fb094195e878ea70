// std's `HashMap`, with its own hash, in a `Mutex`.
mod workloads;

use std::collections::HashMap;
use std::sync::Mutex;
use workloads::{Peer, SMALLEST};

struct Locked(Mutex<HashMap<u64, u64>>);

impl Peer for Locked {
    fn new(size: usize) -> Locked {
        match size {
            SMALLEST => Locked(Mutex::default()),
            _ => Locked(Mutex::new(HashMap::with_capacity(size))),
        }
    }

    fn get(&self, key: u64) -> u64 {
        self.0.lock().unwrap().get(&key).map_or(0, |found| *found)
    }

    fn put(&self, key: u64, number: u64) {
        self.0.lock().unwrap().insert(key, number);
    }

    fn remove(&self, key: u64) {
        self.0.lock().unwrap().remove(&key);
    }
}

fn main() {
    workloads::run::<Locked>("mutex");
}
