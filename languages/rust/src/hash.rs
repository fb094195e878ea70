//! Keys of what isn't a number.

use crate::KEY_MAX;
use std::hash::{BuildHasher, Hash};

/// A key for anything that has a hash, such as a string. The hasher of `std`, [`RandomState`], has a secret, so that nobody can
/// choose strings whose keys meet.
///
/// Two strings may have one key: of a million, some two have with a chance of 1 in 37 million, and of a billion of 1 in 37.
///
/// ```
/// use samvolip::{key_of, Map};
/// use std::collections::hash_map::RandomState;
///
/// let words = RandomState::new();
/// let counts = Map::new();
/// for word in "to be or not to be".split(' ') {
///     counts.add(key_of(&words, word), 1);
/// }
/// assert_eq!(counts.get(key_of(&words, "be")), Some(2));
/// ```
///
/// [`RandomState`]: std::collections::hash_map::RandomState
pub fn key_of(hasher: &impl BuildHasher, of: &(impl Hash + ?Sized)) -> u64 {
    hasher.hash_one(of) % (KEY_MAX + 1)
}
