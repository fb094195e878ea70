// dashmap: shards of hash tables, each with a lock for readers and writers. It has the fx hash; or, with HASH=own, the one that it has if
// none is named, which has a secret.
mod workloads;

use dashmap::DashMap;
use fxhash::FxBuildHasher;
use std::collections::hash_map::RandomState;
use std::env;
use std::hash::BuildHasher;
use workloads::{Peer, SMALLEST};

struct Dash<S>(DashMap<u64, u64, S>);

impl<S: BuildHasher + Clone + Default + Send + Sync> Peer for Dash<S> {
    fn new(size: usize) -> Dash<S> {
        match size {
            SMALLEST => Dash(DashMap::with_hasher(S::default())),
            _ => Dash(DashMap::with_capacity_and_hasher(size, S::default())),
        }
    }

    fn get(&self, key: u64) -> u64 {
        self.0.get(&key).map_or(0, |found| *found)
    }

    fn put(&self, key: u64, number: u64) {
        self.0.insert(key, number);
    }

    fn remove(&self, key: u64) {
        self.0.remove(&key);
    }
}

fn main() {
    match env::var("HASH").as_deref() {
        Ok("own") => workloads::run::<Dash<RandomState>>("dash"),
        _ => workloads::run::<Dash<FxBuildHasher>>("dash"),
    }
}
