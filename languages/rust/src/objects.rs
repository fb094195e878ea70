//! A map from whole numbers to objects.

use crate::error::sure;
use crate::map::{nowhere, Iter};
use crate::{sys, Error, Figures, ObjectFigures, Options};
use std::fmt;
use std::iter::FusedIterator;

/// A map from whole numbers to objects, that any thread may call by `&`. What is overwritten and removed is dropped when nobody
/// reads it any more.
///
/// A thread gets objects by a [`Pin`], and has them as long as that lives, whoever removes them meanwhile. A clone is a handle to
/// the same map, as that of an `Arc` is, and the pin of one is a pin of all. The map goes with its last handle.
///
/// ```
/// use samvolip::ObjectMap;
///
/// let names = ObjectMap::new();
/// let pin = names.pin();
/// names.insert(7, "Ada".to_string(), &pin);
/// let ada = names.get(7, &pin).unwrap();
/// assert_eq!(names.remove(7, &pin).unwrap(), "Ada");
/// assert_eq!(ada, "Ada");
/// assert!(names.get(7, &pin).is_none());
/// ```
///
/// Nothing is had longer than its pin:
///
/// ```compile_fail,E0505
/// # let names = samvolip::ObjectMap::new();
/// let pin = names.pin();
/// let ada: Option<&String> = names.get(7, &pin);
/// drop(pin);
/// println!("{ada:?}");
/// ```
///
/// nor is a pin longer than its map, nor goes it to another thread:
///
/// ```compile_fail,E0505
/// let names = samvolip::ObjectMap::<String>::new();
/// let pin = names.pin();
/// drop(names);
/// drop(pin);
/// ```
///
/// ```compile_fail,E0277
/// # let names = samvolip::ObjectMap::<String>::new();
/// let pin = names.pin();
/// std::thread::scope(|scope| {
///     scope.spawn(move || drop(pin));
/// });
/// ```
///
/// Objects are shared by threads and dropped by any of them, and live as long as the map:
///
/// ```compile_fail,E0277
/// let map = samvolip::ObjectMap::<std::cell::Cell<u64>>::new();
/// ```
///
/// ```compile_fail,E0597
/// let names = samvolip::ObjectMap::<&str>::new();
/// {
///     let ada = "Ada".to_string();
///     names.insert(7, &ada, &names.pin());
/// }
/// println!("{}", names.len());
/// ```
///
/// A call with a pin of another map panics; the other panics are those of [the crate's first page](crate).
pub struct ObjectMap<V: Send + Sync> {
    boxes: sys::Boxes<V>,
}

/// A pin on an [`ObjectMap`], of its thread: [`ObjectMap::pin`].
///
/// It stops nobody, but all that is overwritten and removed while it lives is kept; so it should be short. Who forgets one
/// (`std::mem::forget`) has it stand until the map goes. Pins of a thread may lie in one another, and cost little then; they are one
/// pin, which ends with the last of them. So tasks of one thread, as those of `spawn_local`, hold none where they wait.
///
/// A loop over it shows all objects, as [`ObjectMap::iter`] does:
///
/// ```
/// let names = samvolip::ObjectMap::from([(7, "Ada"), (8, "Grace")]);
/// let mut letters = 0;
/// for (_, name) in &names.pin() {
///     letters += name.len();
/// }
/// assert_eq!(letters, 8);
/// ```
pub struct Pin<'m, V: Send + Sync> {
    pin: sys::Pin<'m, V>,
}

/// What [`ObjectMap::compute`] does with a key.
#[derive(Clone, Copy, Debug, PartialEq, Eq)]
pub enum Operation<V> {
    /// Puts an object there, in place of what there is.
    Insert(V),
    /// Removes it.
    Remove,
    /// Leaves it as it is.
    Abort,
}

/// How a map begins, and what it tells of itself.
impl<V: Send + Sync> ObjectMap<V> {
    /// An empty map.
    #[track_caller]
    pub fn new() -> ObjectMap<V> {
        sure(ObjectMap::with_options(Options::new()))
    }

    /// An empty map that is opened so. Refused as [`Map::with_options`](crate::Map::with_options).
    pub fn with_options(options: Options) -> Result<ObjectMap<V>, Error> {
        Ok(ObjectMap { boxes: sys::Boxes::open(&options.0)? })
    }

    /// How many keys there are. Exact; writes wait for some microseconds.
    #[track_caller]
    pub fn len(&self) -> usize {
        sure(self.boxes.handle().size()) as usize
    }

    /// Whether there are no keys. As [`len`](ObjectMap::len).
    #[track_caller]
    pub fn is_empty(&self) -> bool {
        self.len() == 0
    }

    /// About how many keys there are: a guess while others write.
    #[track_caller]
    pub fn len_estimate(&self) -> usize {
        sure(self.boxes.handle().size_estimate()) as usize
    }

    /// Gives the map other tables, as [`Map::renew`](crate::Map::renew) does.
    pub fn renew(&self, room: usize) -> Result<(), Error> {
        self.boxes.handle().renew(room as u64)
    }

    /// What happened to the map so far, and how large it is.
    #[track_caller]
    pub fn figures(&self) -> Figures {
        Figures::of(sure(self.boxes.handle().look()))
    }

    /// How many objects were overwritten and removed, and how many of these wait for pins.
    #[track_caller]
    pub fn object_figures(&self) -> ObjectFigures {
        ObjectFigures::of(sure(self.boxes.look_at_objects()))
    }

    /// Drops what no pin keeps of all that was overwritten and removed, but for the last 61 of each other thread. The map does so
    /// by itself, now and then.
    #[track_caller]
    pub fn collect(&self) {
        sure(self.boxes.collect())
    }
}

/// Calls of one key.
impl<V: Send + Sync> ObjectMap<V> {
    /// A pin of this thread.
    ///
    /// # Panics
    ///
    /// Without memory, at the first pin of a thread.
    #[inline]
    #[track_caller]
    pub fn pin(&self) -> Pin<'_, V> {
        sure(self.try_pin())
    }

    /// [`pin`](ObjectMap::pin). Refused as [`Error::OutOfMemory`]; and the first pin of a thread as [`Error::Nested`].
    #[inline]
    pub fn try_pin(&self) -> Result<Pin<'_, V>, Error> {
        Ok(Pin { pin: self.boxes.pin()? })
    }

    /// The object at a key.
    #[inline]
    #[track_caller]
    pub fn get<'p>(&self, key: u64, pin: &'p Pin<'_, V>) -> Option<&'p V> {
        sure(nowhere(self.with(pin).get(key), None))
    }

    /// A clone of the object at a key.
    #[inline]
    #[track_caller]
    pub fn get_cloned(&self, key: u64) -> Option<V>
    where
        V: Clone,
    {
        self.get(key, &self.pin()).cloned()
    }

    /// Whether there is an object at a key.
    #[inline]
    #[track_caller]
    pub fn contains_key(&self, key: u64) -> bool {
        sure(nowhere(self.boxes.handle().contains(key), false))
    }

    /// Sets a key to an object, and returns what was there.
    #[track_caller]
    pub fn insert<'p>(&self, key: u64, object: V, pin: &'p Pin<'_, V>) -> Option<&'p V> {
        sure(self.try_insert(key, object, pin).map_err(|(error, _)| error))
    }

    /// [`insert`](ObjectMap::insert). Refused as [`Error::KeyRange`] or [`Error::OutOfMemory`], with the object.
    #[track_caller]
    pub fn try_insert<'p>(&self, key: u64, object: V, pin: &'p Pin<'_, V>) -> Result<Option<&'p V>, (Error, V)> {
        self.with(pin).put(key, Box::new(object)).map_err(|(error, object)| (error, *object))
    }

    /// Removes a key, and returns what was there.
    #[track_caller]
    pub fn remove<'p>(&self, key: u64, pin: &'p Pin<'_, V>) -> Option<&'p V> {
        sure(self.try_remove(key, pin))
    }

    /// [`remove`](ObjectMap::remove). Refused as [`Error::OutOfMemory`]: it takes memory to remember what it takes out.
    #[track_caller]
    pub fn try_remove<'p>(&self, key: u64, pin: &'p Pin<'_, V>) -> Result<Option<&'p V>, Error> {
        nowhere(self.with(pin).remove(key), None)
    }

    /// The object at a key. If it has none, it is set to what `make` makes, unless another thread comes first. `make` may call
    /// the map.
    ///
    /// ```
    /// let map = samvolip::ObjectMap::new();
    /// let pin = map.pin();
    /// assert_eq!(map.get_or_insert_with(7, || "Ada", &pin), &"Ada");
    /// assert_eq!(map.get_or_insert_with(7, || unreachable!(), &pin), &"Ada");
    /// ```
    #[track_caller]
    pub fn get_or_insert_with<'p>(&self, key: u64, make: impl FnOnce() -> V, pin: &'p Pin<'_, V>) -> &'p V {
        let by = self.with(pin);
        if let Some(object) = self.get(key, pin) {
            return object;
        }
        let mut made = Box::new(make());
        loop {
            made = match by.exchange(key, None, made) {
                Ok(object) => return object,
                Err((Some(error), _)) => sure(Err(error)),
                Err((None, made)) => made,
            };
            if let Some(object) = self.get(key, pin) {
                return object;
            }
        }
    }

    /// Does with a key what `next` says of its object, and returns what it has then. If another thread writes the key meanwhile,
    /// `next` is called again. It may call the map.
    ///
    /// ```
    /// use samvolip::{ObjectMap, Operation};
    ///
    /// let map = ObjectMap::new();
    /// let pin = map.pin();
    /// let longer = |found: Option<&String>| match found {
    ///     Some(text) if text.len() == 3 => Operation::Remove,
    ///     Some(text) => Operation::Insert(format!("{text}a")),
    ///     None => Operation::Insert("a".to_string()),
    /// };
    /// assert_eq!(map.compute(7, longer, &pin).unwrap(), "a");
    /// map.compute(7, longer, &pin);
    /// assert_eq!(map.compute(7, longer, &pin).unwrap(), "aaa");
    /// assert_eq!(map.compute(7, longer, &pin), None);
    /// ```
    #[track_caller]
    pub fn compute<'p>(
        &self,
        key: u64,
        mut next: impl FnMut(Option<&V>) -> Operation<V>,
        pin: &'p Pin<'_, V>,
    ) -> Option<&'p V> {
        let by = self.with(pin);
        loop {
            let found = self.get(key, pin);
            match (next(found), found) {
                (Operation::Abort, _) | (Operation::Remove, None) => return found,
                (Operation::Remove, Some(object)) => {
                    if sure(by.remove_at(key, object)) {
                        return None;
                    }
                }
                (Operation::Insert(object), _) => match by.exchange(key, found, Box::new(object)) {
                    Ok(object) => return Some(object),
                    Err((Some(error), _)) => sure(Err(error)),
                    Err((None, _)) => {}
                },
            }
        }
    }

    /// The pin of a call, which has to be one on this map.
    #[inline]
    #[track_caller]
    fn with<'p, 'm>(&self, pin: &'p Pin<'m, V>) -> &'p sys::Pin<'m, V> {
        assert!(pin.pin.is_on(&self.boxes), "samvolip: a pin on another map");
        &pin.pin
    }
}

/// The whole map.
impl<V: Send + Sync> ObjectMap<V> {
    /// A walk over the keys and their objects, while all threads may write: it shows what [`Map::iter`](crate::Map::iter) does.
    #[track_caller]
    pub fn iter<'p>(&self, pin: &'p Pin<'_, V>) -> Objects<'p, V> {
        Objects { walk: sure(self.with(pin).walk()) }
    }

    /// A walk over the keys, as [`Map::keys`](crate::Map::keys). It needs no pin.
    #[track_caller]
    pub fn keys(&self) -> impl FusedIterator<Item = u64> + Send + '_ {
        Iter::over(self.boxes.handle()).map(|(key, _)| key)
    }

    /// A walk over the objects, as [`iter`](ObjectMap::iter).
    #[track_caller]
    pub fn values<'p>(&self, pin: &'p Pin<'_, V>) -> impl FusedIterator<Item = &'p V> {
        self.iter(pin).map(|(_, object)| object)
    }

    /// Removes the keys of which `keep` says false, in the course of a walk, and returns how many. The very object is removed of
    /// which it said so: if another one took its place, `keep` is asked again. It may call the map.
    ///
    /// ```
    /// let map: samvolip::ObjectMap<_> = (0..100).map(|key| (key, key * key)).collect();
    /// assert_eq!(map.retain(|key, square| key % 2 == 0 && *square < 100), 95);
    /// assert_eq!(map.len(), 5);
    /// ```
    #[track_caller]
    pub fn retain(&self, mut keep: impl FnMut(u64, &V) -> bool) -> usize {
        let pin = self.pin();
        let mut removed = 0;
        for (key, _) in self.iter(&pin) {
            let mut is_there = false;
            let left = self.compute(
                key,
                |found| {
                    is_there = found.is_some();
                    match found {
                        Some(object) if !keep(key, object) => Operation::Remove,
                        _ => Operation::Abort,
                    }
                },
                &pin,
            );
            removed += usize::from(is_there && left.is_none());
        }
        removed
    }

    /// Removes all keys, one after another.
    #[track_caller]
    pub fn clear(&self) {
        self.retain(|_, _| false);
    }
}

impl<V: Send + Sync> Clone for ObjectMap<V> {
    fn clone(&self) -> ObjectMap<V> {
        ObjectMap { boxes: self.boxes.clone() }
    }
}

impl<V: Send + Sync> Default for ObjectMap<V> {
    #[track_caller]
    fn default() -> ObjectMap<V> {
        ObjectMap::new()
    }
}

impl<V: Send + Sync + fmt::Debug> fmt::Debug for ObjectMap<V> {
    fn fmt(&self, f: &mut fmt::Formatter<'_>) -> fmt::Result {
        f.debug_map().entries(self.iter(&self.pin())).finish()
    }
}

impl<V: Send + Sync> Extend<(u64, V)> for ObjectMap<V> {
    fn extend<I: IntoIterator<Item = (u64, V)>>(&mut self, entries: I) {
        (&*self).extend(entries)
    }
}

impl<V: Send + Sync> Extend<(u64, V)> for &ObjectMap<V> {
    fn extend<I: IntoIterator<Item = (u64, V)>>(&mut self, entries: I) {
        for (key, object) in entries {
            self.insert(key, object, &self.pin());
        }
    }
}

impl<V: Send + Sync> FromIterator<(u64, V)> for ObjectMap<V> {
    fn from_iter<I: IntoIterator<Item = (u64, V)>>(entries: I) -> ObjectMap<V> {
        let mut map = ObjectMap::new();
        map.extend(entries);
        map
    }
}

impl<V: Send + Sync, const N: usize> From<[(u64, V); N]> for ObjectMap<V> {
    fn from(entries: [(u64, V); N]) -> ObjectMap<V> {
        entries.into_iter().collect()
    }
}

impl<'p, V: Send + Sync> IntoIterator for &'p Pin<'_, V> {
    type Item = (u64, &'p V);
    type IntoIter = Objects<'p, V>;

    #[track_caller]
    fn into_iter(self) -> Objects<'p, V> {
        Objects { walk: sure(self.pin.walk()) }
    }
}

impl<V: Send + Sync> fmt::Debug for Pin<'_, V> {
    fn fmt(&self, f: &mut fmt::Formatter<'_>) -> fmt::Result {
        f.debug_struct("Pin").finish_non_exhaustive()
    }
}

/// A walk over an [`ObjectMap`]: [`ObjectMap::iter`].
pub struct Objects<'p, V: Send + Sync> {
    walk: sys::ObjectWalk<'p, V>,
}

impl<'p, V: Send + Sync> Iterator for Objects<'p, V> {
    type Item = (u64, &'p V);

    fn next(&mut self) -> Option<(u64, &'p V)> {
        sure(self.walk.next())
    }
}

impl<V: Send + Sync> FusedIterator for Objects<'_, V> {}

impl<V: Send + Sync> fmt::Debug for Objects<'_, V> {
    fn fmt(&self, f: &mut fmt::Formatter<'_>) -> fmt::Result {
        f.debug_struct("Objects").finish_non_exhaustive()
    }
}
