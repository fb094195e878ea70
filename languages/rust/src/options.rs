//! How a map is opened, and what it tells of itself.

use crate::sys;
use std::fmt;
use std::time::Duration;

/// What becomes of a key before it is looked for. All calls and walks speak of the keys that were given.
#[derive(Clone, Copy, Debug, Default, PartialEq, Eq)]
pub enum Keys {
    /// It is mixed with a secret that is drawn when the map is opened, so that keys which somebody else chooses don't pile up
    /// in few places.
    #[default]
    Secret,
    /// It is mixed by a rule that is known. That is as fast, and two maps list the same keys in the same order.
    Mixed,
    /// Nothing. This is best for keys whose low bits are spread, as those of a counter are, and slow for keys that share
    /// their low bits.
    AsTheyAre,
}

/// How a map is opened: [`Map::with_options`](crate::Map::with_options).
///
/// ```
/// use samvolip::{Keys, Map, Options};
///
/// let map = Map::with_options(Options::new().room(1_000_000).keys(Keys::AsTheyAre))?;
/// # map.insert(1, 2);
/// # Ok::<(), samvolip::Error>(())
/// ```
#[derive(Clone, Copy, Debug, Default, PartialEq, Eq)]
#[must_use]
pub struct Options(pub(crate) sys::Options);

impl Options {
    /// The defaults.
    pub fn new() -> Options {
        Options::default()
    }

    /// For how many keys there is room at first, and at least. 1000, if it isn't said.
    pub fn room(self, keys: usize) -> Options {
        Options(sys::Options { room: keys.max(1) as u64, ..self.0 })
    }

    /// How many bytes the tables take at most, old and new ones together. Any number, if it isn't said; two first tables, 64 KiB with
    /// the default room, or more.
    pub fn memory(self, bytes: usize) -> Options {
        Options(sys::Options { memory: bytes.max(1) as u64, ..self.0 })
    }

    /// Larger tables have room for so many times the keys that there are, 2 to 64. 4, if it isn't said.
    pub fn growth(self, times: u32) -> Options {
        // C takes 0 for the default; 1 is out of range as it is
        Options(sys::Options { growth: times.max(1), ..self.0 })
    }

    /// How many threads have a way of their own into the map, 1 to 240; further ones share some. 64, if it isn't said.
    pub fn threads(self, threads: u32) -> Options {
        Options(sys::Options { threads: if threads == 0 { u32::MAX } else { threads }, ..self.0 })
    }

    /// What becomes of a key before it is looked for. [`Keys::Secret`], if it isn't said.
    pub fn keys(self, keys: Keys) -> Options {
        let keys = match keys {
            Keys::Secret => sys::KEYS_SECRET,
            Keys::Mixed => sys::KEYS_MIXED,
            Keys::AsTheyAre => sys::KEYS_AS_THEY_ARE,
        };
        Options(sys::Options { keys, ..self.0 })
    }
}

/// Which option is out of its range. As a text it tells the range, too.
///
/// ```
/// use samvolip::{Error, Map, Options, WrongOption};
///
/// let refused = Map::with_options(Options::new().threads(1000)).unwrap_err();
/// assert_eq!(refused, Error::Options(WrongOption::Threads));
/// assert_eq!(refused.to_string(), "threads: from 1 to 240");
/// ```
#[derive(Clone, Copy, Debug, PartialEq, Eq, Hash)]
#[non_exhaustive]
pub enum WrongOption {
    /// [`Options::room`].
    Room,
    /// [`Options::memory`].
    Memory,
    /// [`Options::growth`].
    Growth,
    /// [`Options::threads`].
    Threads,
}

impl WrongOption {
    /// The option that a text of C's tells of, which begins with its name.
    pub(crate) fn of_text(text: &[u8]) -> WrongOption {
        match text.split(|&letter| letter == b':').next() {
            Some(b"room") => WrongOption::Room,
            Some(b"memory") => WrongOption::Memory,
            Some(b"growth") => WrongOption::Growth,
            Some(b"threads") => WrongOption::Threads,
            _ => unreachable!("an option of libsamvolip"),
        }
    }
}

impl fmt::Display for WrongOption {
    fn fmt(&self, f: &mut fmt::Formatter<'_>) -> fmt::Result {
        f.write_str(match self {
            WrongOption::Room => "room: for at most 178956970 keys",
            WrongOption::Memory => "memory: at least that of two first tables, 65536 with the default room",
            WrongOption::Growth => "growth: from 2 to 64 times",
            WrongOption::Threads => "threads: from 1 to 240",
        })
    }
}

/// What happened to a map so far, and how large it is: [`Map::figures`](crate::Map::figures).
#[derive(Clone, Copy, Debug, PartialEq, Eq)]
#[non_exhaustive]
pub struct Figures {
    /// How often it was given other tables; a clear doesn't count.
    pub renewals: u64,
    /// How often it wasn't, for want of memory.
    pub refused: u64,
    /// The longest time that writes had to wait for that, or for `len`, `snapshot` or `clear`.
    pub longest_stop_of_writes: Duration,
    /// The same of reads.
    pub longest_stop_of_reads: Duration,
    /// All those times of writes together.
    pub all_stops_of_writes: Duration,
    /// How many slots its table has. Each takes 16 bytes.
    pub slots: u64,
    /// About how many keys there are.
    pub keys: u64,
    /// How many threads have a way of their own into it.
    pub own_threads: u64,
}

impl Figures {
    pub(crate) fn of(told: sys::Figures) -> Figures {
        Figures {
            renewals: told.renewals,
            refused: told.refused,
            longest_stop_of_writes: Duration::from_nanos(told.write_stop),
            longest_stop_of_reads: Duration::from_nanos(told.read_stop),
            all_stops_of_writes: Duration::from_nanos(told.all_stops),
            slots: told.slots,
            keys: told.keys,
            own_threads: told.own_threads,
        }
    }
}

/// How many objects were taken out of an [`ObjectMap`](crate::ObjectMap), and wait: [`object_figures`].
///
/// [`object_figures`]: crate::ObjectMap::object_figures
#[derive(Clone, Copy, Debug, PartialEq, Eq)]
#[non_exhaustive]
pub struct ObjectFigures {
    /// How many were overwritten or removed.
    pub retired: u64,
    /// How many of these aren't dropped yet.
    pub waiting: u64,
    /// For how long, or longer, a pin stands that keeps some of them; none, if none does.
    pub oldest_pin: Option<Duration>,
}

impl ObjectFigures {
    pub(crate) fn of(told: sys::ObjectFigures) -> ObjectFigures {
        let oldest_pin = (told.oldest_pin > 0).then(|| Duration::from_nanos(told.oldest_pin));
        ObjectFigures { retired: told.retired, waiting: told.waiting, oldest_pin }
    }
}
