//! A map from whole numbers to whole numbers that many threads read and write at the same time. It begins small, and grows and
//! shrinks as keys come and go.
//!
//! ```
//! use samvolip::Map;
//! use std::thread;
//!
//! let visits = Map::new();
//! thread::scope(|scope| {
//!     for _ in 0..8 {
//!         scope.spawn(|| visits.add(7, 1));
//!     }
//! });
//! assert_eq!(visits.get(7), Some(8));
//! ```
//!
//! It calls libsamvolip. The map in it is proved in Rattle, and ends when its tables are full; a layer of C puts another one in
//! its place then. That layer and this crate are tested.
//!
//! # Threads
//!
//! A [`Map`] is `Send` and `Sync`, and its clones are handles to one map. Any thread may call, any number of threads at a time.
//! 64 threads have a way of their own into the map ([`Options::threads`]), which they give back when they end; more than these
//! share six, and wait for each other there.
//!
//! A signal handler may read, and write keys that are there. In the middle of another call of its thread it is refused. Other
//! calls of a handler may wait for ever, as those of `malloc` in a handler may.
//!
//! # Larger and smaller
//!
//! A write that finds the map two thirds full, or far too large for its keys, puts other tables in the place of those that there
//! are. Other writes wait meanwhile, and those threads help to copy. Reads go on, but for the moment of the exchange. No answer
//! shows it. [`Map::figures`] tells how often that was, and how long it took.
//!
//! # Keys and values
//!
//! Keys are at most [`KEY_MAX`], and values at most [`VALUE_MAX`]. A key or a value past these is in no map: reads and removals
//! find nothing there. A write of one is refused. [`key_of`] makes keys of strings, and of all that has a hash.
//!
//! # Objects
//!
//! An [`ObjectMap`] has values of a type of your own in place of numbers. What is overwritten and removed is dropped when nobody
//! reads it any more.
//!
//! # Panics
//!
//! A call that is refused panics; one of a single key has changed nothing:
//!
//! - a write of a key or a value that is out of range, or an addition whose sum is;
//! - a write of a new key, or another call that needs memory, if there is none for the map's tables;
//! - any call by a signal handler in the middle of another call of its thread.
//!
//! Most calls that may be refused for a range or for memory have a `try_` form, which answers an [`Error`] in place of that. So
//! [`Map::try_insert`] is [`Map::insert`], and not [`Map::insert_if_absent`].
//!
//! The functions that are given to a call may call the map, and may panic.
//!
//! # Versions
//!
//! It takes Rust 1.73 or later, edition 2021, on Linux on x86-64, and has no dependencies. The build script finds libsamvolip by
//! `SAMVOLIP_LIB`, which names a folder or a file; else in the crate's own folder; else by pkg-config.

#![deny(missing_docs, unsafe_code)]

mod error;
mod hash;
mod map;
mod objects;
mod options;
mod sys;

pub use error::Error;
pub use hash::key_of;
pub use map::{Iter, Map};
pub use objects::{ObjectMap, Objects, Operation, Pin};
pub use options::{Figures, Keys, ObjectFigures, Options, WrongOption};
pub use sys::{KEY_MAX, VALUE_MAX};
