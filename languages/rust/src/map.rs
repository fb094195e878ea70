//! A map that any thread may call.

use crate::error::sure;
use crate::{sys, Error, Figures, Options};
use std::fmt;
use std::iter::FusedIterator;

/// A map that any thread may call, by `&`. [The crate's first page](crate) says what that means, and when a call panics.
///
/// A clone is a handle to the same map, as that of an `Arc` is. The map goes with its last handle.
///
/// ```
/// use samvolip::Map;
///
/// let map = Map::new();
/// map.insert(7, 5);
/// assert_eq!(map.get_or_insert(7, 1), 5);
/// map.update(7, |found| found.map(|value| value * 2));
/// assert_eq!(map.snapshot(), [(7, 10)]);
/// ```
#[derive(Clone)]
pub struct Map {
    handle: sys::Handle,
}

/// How a map begins.
impl Map {
    /// An empty map. It takes 32 KiB for its tables, and becomes larger and smaller as its keys do.
    ///
    /// # Panics
    ///
    /// Without memory, or if the library is of another version than this crate.
    #[track_caller]
    pub fn new() -> Map {
        sure(Map::with_options(Options::new()))
    }

    /// An empty map that is opened so. Refused as [`Error::Options`], [`Error::OutOfMemory`] or [`Error::Version`].
    pub fn with_options(options: Options) -> Result<Map, Error> {
        Ok(Map { handle: sys::Handle::open(&options.0)? })
    }
}

/// Calls of one key. Each is one step on the map.
impl Map {
    /// The value at a key. It waits for nobody, but for the moment in which one table takes another's place.
    #[inline]
    #[track_caller]
    pub fn get(&self, key: u64) -> Option<u64> {
        sure(self.try_get(key))
    }

    /// Whether there is a value at a key.
    #[inline]
    #[track_caller]
    pub fn contains_key(&self, key: u64) -> bool {
        sure(nowhere(self.handle.contains(key), false))
    }

    /// Sets a key to a value, and returns what was there.
    #[inline]
    #[track_caller]
    pub fn insert(&self, key: u64, value: u64) -> Option<u64> {
        sure(self.try_insert(key, value))
    }

    /// Sets a key to a value if it has none, and returns what was there.
    ///
    /// ```
    /// # let map = samvolip::Map::new();
    /// assert_eq!(map.insert_if_absent(7, 5), None);
    /// assert_eq!(map.insert_if_absent(7, 6), Some(5));
    /// assert_eq!(map.get(7), Some(5));
    /// ```
    #[inline]
    #[track_caller]
    pub fn insert_if_absent(&self, key: u64, value: u64) -> Option<u64> {
        sure(self.try_insert_if_absent(key, value))
    }

    /// The value at a key, which is set to this one if it has none.
    #[inline]
    #[track_caller]
    pub fn get_or_insert(&self, key: u64, value: u64) -> u64 {
        self.insert_if_absent(key, value).unwrap_or(value)
    }

    /// The value at a key. If it has none, it is set to what `make` makes, unless another thread comes first. `make` may call
    /// the map.
    #[track_caller]
    pub fn get_or_insert_with(&self, key: u64, make: impl FnOnce() -> u64) -> u64 {
        match self.get(key) {
            Some(value) => value,
            None => self.get_or_insert(key, make()),
        }
    }

    /// Sets a key to a value if it has one, and returns what was there.
    #[inline]
    #[track_caller]
    pub fn replace(&self, key: u64, value: u64) -> Option<u64> {
        sure(self.try_replace(key, value))
    }

    /// Sets a key to a value if it is at `old`, and returns whether it was.
    #[inline]
    #[track_caller]
    pub fn replace_if(&self, key: u64, old: u64, value: u64) -> bool {
        sure(self.try_replace_if(key, old, value))
    }

    /// Removes a key, and returns what was there.
    #[inline]
    #[track_caller]
    pub fn remove(&self, key: u64) -> Option<u64> {
        sure(nowhere(self.handle.remove(key), None))
    }

    /// Removes a key if it is at this value, and returns whether it was.
    #[inline]
    #[track_caller]
    pub fn remove_if(&self, key: u64, value: u64) -> bool {
        sure(nowhere(self.handle.remove_if(key, value), false))
    }

    /// Adds to the value at a key, or to 0, and returns what was there.
    ///
    /// ```
    /// # let map = samvolip::Map::new();
    /// assert_eq!(map.add(7, 2), None);
    /// assert_eq!(map.add(7, 3), Some(2));
    /// assert_eq!(map.get(7), Some(5));
    /// ```
    #[inline]
    #[track_caller]
    pub fn add(&self, key: u64, value: u64) -> Option<u64> {
        sure(self.try_add(key, value))
    }

    /// Sets a key to the greater one of its value and this one, or to this one if it has none, and returns what was there.
    #[inline]
    #[track_caller]
    pub fn fetch_max(&self, key: u64, value: u64) -> Option<u64> {
        sure(self.try_fetch_max(key, value))
    }

    /// Sets a key to the smaller one of its value and this one, or to this one if it has none, and returns what was there.
    #[inline]
    #[track_caller]
    pub fn fetch_min(&self, key: u64, value: u64) -> Option<u64> {
        sure(self.try_fetch_min(key, value))
    }

    /// Sets a key to `new` if it is at `current`, where `None` is no value. Either way it returns what was there: as `Ok` if
    /// that was `current`.
    ///
    /// ```
    /// # let map = samvolip::Map::new();
    /// assert_eq!(map.compare_exchange(7, None, Some(5)), Ok(None));
    /// assert_eq!(map.compare_exchange(7, Some(4), Some(6)), Err(Some(5)));
    /// assert_eq!(map.compare_exchange(7, Some(5), None), Ok(Some(5)));
    /// assert!(map.is_empty());
    /// ```
    #[inline]
    #[track_caller]
    pub fn compare_exchange(&self, key: u64, current: Option<u64>, new: Option<u64>) -> Result<Option<u64>, Option<u64>> {
        sure(self.try_compare_exchange(key, current, new))
    }

    /// Sets a key to what `next` makes of its value, where `None` is no value, and returns what was there. If another thread
    /// writes the key meanwhile, `next` is called again. It may call the map.
    ///
    /// ```
    /// # let map = samvolip::Map::new();
    /// let halve = |found: Option<u64>| found.map(|value| value / 2).filter(|&half| half > 0);
    /// map.insert(7, 2);
    /// assert_eq!(map.update(7, halve), Some(2));
    /// assert_eq!(map.update(7, halve), Some(1));
    /// assert_eq!(map.update(7, halve), None);
    /// ```
    #[track_caller]
    pub fn update(&self, key: u64, next: impl FnMut(Option<u64>) -> Option<u64>) -> Option<u64> {
        sure(self.try_update(key, next))
    }
}

/// The whole map.
impl Map {
    /// How many keys there are. Exact; writes wait for some microseconds.
    #[track_caller]
    pub fn len(&self) -> usize {
        sure(self.handle.size()) as usize
    }

    /// Whether there are no keys. As [`len`](Map::len).
    #[track_caller]
    pub fn is_empty(&self) -> bool {
        self.len() == 0
    }

    /// About how many keys there are: a guess while others write, and exact while nobody does. Nobody waits.
    #[track_caller]
    pub fn len_estimate(&self) -> usize {
        sure(self.handle.size_estimate()) as usize
    }

    /// Removes all keys, in one step.
    #[track_caller]
    pub fn clear(&self) {
        sure(self.try_clear())
    }

    /// Removes all keys, in one step, and returns them with their values, in no order.
    #[track_caller]
    pub fn drain(&self) -> Vec<(u64, u64)> {
        sure(self.try_drain())
    }

    /// All keys with their values, of one moment and in no order. Writes wait meanwhile; reads go on.
    #[track_caller]
    pub fn snapshot(&self) -> Vec<(u64, u64)> {
        sure(self.try_snapshot())
    }

    /// A walk over the keys and their values, while all threads may write, this one too. Any number of walks go on at a time,
    /// one in another or not.
    ///
    /// No key comes twice. Each key that the map has all the while comes. With it comes a value that it had at some moment of
    /// the walk. After the map was given other tables, or cleared, the walk shows what there was then.
    ///
    /// ```
    /// # let map = samvolip::Map::from([(1, 5), (2, 5), (3, 6)]);
    /// let mut pairs = 0;
    /// for (key, value) in &map {
    ///     pairs += map.iter().filter(|&(other, same)| other != key && same == value).count();
    /// }
    /// assert_eq!(pairs, 2);
    /// ```
    #[track_caller]
    pub fn iter(&self) -> Iter<'_> {
        Iter::over(&self.handle)
    }

    /// A walk over the keys, as [`iter`](Map::iter).
    #[track_caller]
    pub fn keys(&self) -> impl FusedIterator<Item = u64> + Send + '_ {
        self.iter().map(|(key, _)| key)
    }

    /// A walk over the values, as [`iter`](Map::iter).
    #[track_caller]
    pub fn values(&self) -> impl FusedIterator<Item = u64> + Send + '_ {
        self.iter().map(|(_, value)| value)
    }

    /// Removes the keys of which `keep` says false, and returns how many.
    ///
    /// It walks as [`iter`](Map::iter) does. A key is removed at the very value of which `keep` said false; if another thread
    /// writes the key before, `keep` is asked again. `keep` may call the map.
    ///
    /// ```
    /// # let map = samvolip::Map::from([(1, 5), (2, 5), (3, 6)]);
    /// assert_eq!(map.retain(|key, value| key == 1 || value == 6), 1);
    /// assert_eq!(map.len(), 2);
    /// ```
    #[track_caller]
    pub fn retain(&self, mut keep: impl FnMut(u64, u64) -> bool) -> usize {
        let mut removed = 0;
        for (key, mut value) in self {
            while !keep(key, value) {
                match self.compare_exchange(key, Some(value), None) {
                    Err(Some(other)) => value = other,
                    Err(None) => break,
                    Ok(_) => {
                        removed += 1;
                        break;
                    }
                }
            }
        }
        removed
    }

    /// Gives the map other tables, with room for so many keys, or for those that there are, if these are more; 0 stands for
    /// what the options say. It needn't be called: the map does so by itself. It saves the way there before many keys come.
    ///
    /// Refused as [`Error::OutOfMemory`] or [`Error::Nested`].
    pub fn renew(&self, room: usize) -> Result<(), Error> {
        self.handle.renew(room as u64)
    }

    /// What happened to the map so far, and how large it is.
    #[track_caller]
    pub fn figures(&self) -> Figures {
        Figures::of(sure(self.handle.look()))
    }
}

/// The calls that may be refused, each with its refusal for an answer.
impl Map {
    /// [`get`](Map::get), for a signal handler: refused as [`Error::Nested`].
    #[inline]
    pub fn try_get(&self, key: u64) -> Result<Option<u64>, Error> {
        nowhere(self.handle.get(key), None)
    }

    /// [`insert`](Map::insert), also where there is a value. Refused as [`Error::KeyRange`], [`Error::ValueRange`],
    /// [`Error::OutOfMemory`] or [`Error::Nested`].
    ///
    /// ```
    /// use samvolip::{Error, Map, VALUE_MAX};
    ///
    /// let map = Map::new();
    /// assert_eq!(map.try_insert(7, VALUE_MAX), Ok(None));
    /// assert_eq!(map.try_insert(7, VALUE_MAX + 1), Err(Error::ValueRange));
    /// ```
    #[inline]
    pub fn try_insert(&self, key: u64, value: u64) -> Result<Option<u64>, Error> {
        self.handle.put(key, value)
    }

    /// [`insert_if_absent`](Map::insert_if_absent). Refused as [`try_insert`](Map::try_insert).
    #[inline]
    pub fn try_insert_if_absent(&self, key: u64, value: u64) -> Result<Option<u64>, Error> {
        self.handle.put_if_absent(key, value)
    }

    /// [`replace`](Map::replace). Refused as [`try_insert`](Map::try_insert), but not for memory.
    #[inline]
    pub fn try_replace(&self, key: u64, value: u64) -> Result<Option<u64>, Error> {
        self.handle.replace(key, value)
    }

    /// [`replace_if`](Map::replace_if). Refused as [`try_replace`](Map::try_replace).
    #[inline]
    pub fn try_replace_if(&self, key: u64, old: u64, value: u64) -> Result<bool, Error> {
        self.handle.replace_if(key, old, value)
    }

    /// [`add`](Map::add). Refused as [`try_insert`](Map::try_insert), or as [`Error::SumRange`].
    #[inline]
    pub fn try_add(&self, key: u64, value: u64) -> Result<Option<u64>, Error> {
        self.handle.add(key, value)
    }

    /// [`fetch_max`](Map::fetch_max). Refused as [`try_insert`](Map::try_insert).
    #[inline]
    pub fn try_fetch_max(&self, key: u64, value: u64) -> Result<Option<u64>, Error> {
        self.handle.fetch_max(key, value)
    }

    /// [`fetch_min`](Map::fetch_min). Refused as [`try_insert`](Map::try_insert).
    #[inline]
    pub fn try_fetch_min(&self, key: u64, value: u64) -> Result<Option<u64>, Error> {
        self.handle.fetch_min(key, value)
    }

    /// [`compare_exchange`](Map::compare_exchange). Refused as [`try_insert`](Map::try_insert).
    #[inline]
    pub fn try_compare_exchange(
        &self,
        key: u64,
        current: Option<u64>,
        new: Option<u64>,
    ) -> Result<Result<Option<u64>, Option<u64>>, Error> {
        self.handle.compare_exchange(key, current, new)
    }

    /// [`update`](Map::update). Refused as [`try_insert`](Map::try_insert).
    pub fn try_update(&self, key: u64, mut next: impl FnMut(Option<u64>) -> Option<u64>) -> Result<Option<u64>, Error> {
        let mut found = self.try_get(key)?;
        loop {
            match self.try_compare_exchange(key, found, next(found))? {
                Ok(before) => return Ok(before),
                Err(other) => found = other,
            }
        }
    }

    /// Sets each key to its value, one after another. Refused as [`try_insert`](Map::try_insert); then those before the
    /// refused one are in the map.
    pub fn try_extend(&self, entries: impl IntoIterator<Item = (u64, u64)>) -> Result<(), Error> {
        for (key, value) in entries {
            self.try_insert(key, value)?;
        }
        Ok(())
    }

    /// [`clear`](Map::clear). Refused as [`Error::OutOfMemory`], since other tables take the place of the old ones, or as
    /// [`Error::Nested`].
    pub fn try_clear(&self) -> Result<(), Error> {
        self.handle.clear()
    }

    /// [`drain`](Map::drain). Refused as [`try_clear`](Map::try_clear).
    pub fn try_drain(&self) -> Result<Vec<(u64, u64)>, Error> {
        self.handle.drain()
    }

    /// [`snapshot`](Map::snapshot). Refused as [`Error::OutOfMemory`] or [`Error::Nested`].
    pub fn try_snapshot(&self) -> Result<Vec<(u64, u64)>, Error> {
        let mut entries = Vec::new();
        let mut spare = 16;
        let mut count = self.handle.size_estimate()? as usize;
        loop {
            // others may add keys until it is listed
            entries.try_reserve(count + spare).map_err(|_| Error::OutOfMemory)?;
            match self.handle.snapshot(&mut entries)? {
                None => return Ok(entries.into_iter().map(|entry: sys::Entry| (entry.key, entry.number)).collect()),
                Some(more) => count = more,
            }
            spare += count / 8;
        }
    }
}

/// What a read or a removal answers to a key or a value that is out of range: there is none such.
#[inline]
pub(crate) fn nowhere<T>(answer: Result<T, Error>, none: T) -> Result<T, Error> {
    match answer {
        Err(Error::KeyRange | Error::ValueRange) => Ok(none),
        answer => answer,
    }
}

impl Default for Map {
    #[track_caller]
    fn default() -> Map {
        Map::new()
    }
}

/// The keys with their values, as [`iter`](Map::iter) shows them.
impl fmt::Debug for Map {
    fn fmt(&self, f: &mut fmt::Formatter<'_>) -> fmt::Result {
        f.debug_map().entries(self).finish()
    }
}

impl Extend<(u64, u64)> for Map {
    fn extend<I: IntoIterator<Item = (u64, u64)>>(&mut self, entries: I) {
        sure(self.try_extend(entries))
    }
}

impl Extend<(u64, u64)> for &Map {
    fn extend<I: IntoIterator<Item = (u64, u64)>>(&mut self, entries: I) {
        sure(self.try_extend(entries))
    }
}

/// ```
/// use samvolip::Map;
///
/// let squares: Map = (0..100).map(|i| (i, i * i)).collect();
/// assert_eq!(squares.get(9), Some(81));
/// ```
impl FromIterator<(u64, u64)> for Map {
    fn from_iter<I: IntoIterator<Item = (u64, u64)>>(entries: I) -> Map {
        let map = Map::new();
        sure(map.try_extend(entries));
        map
    }
}

impl<const N: usize> From<[(u64, u64); N]> for Map {
    fn from(entries: [(u64, u64); N]) -> Map {
        entries.into_iter().collect()
    }
}

impl<'m> IntoIterator for &'m Map {
    type Item = (u64, u64);
    type IntoIter = Iter<'m>;

    #[track_caller]
    fn into_iter(self) -> Iter<'m> {
        self.iter()
    }
}

/// A walk over a map: [`Map::iter`]. It may go to another thread.
pub struct Iter<'m> {
    walk: sys::Walk<'m>,
}

impl Iter<'_> {
    #[track_caller]
    pub(crate) fn over(handle: &sys::Handle) -> Iter<'_> {
        Iter { walk: sure(handle.walk()) }
    }
}

impl Iterator for Iter<'_> {
    type Item = (u64, u64);

    fn next(&mut self) -> Option<(u64, u64)> {
        sure(self.walk.next())
    }
}

impl FusedIterator for Iter<'_> {}

impl fmt::Debug for Iter<'_> {
    fn fmt(&self, f: &mut fmt::Formatter<'_>) -> fmt::Result {
        f.debug_struct("Iter").finish_non_exhaustive()
    }
}
