//! Why calls are refused.

use crate::{sys, WrongOption};
use std::fmt;

/// Why a call was refused. A refused call has changed nothing, but a call of many keys may have made some of its changes.
#[derive(Clone, Copy, Debug, PartialEq, Eq, Hash)]
#[non_exhaustive]
pub enum Error {
    /// The key is past [`KEY_MAX`](crate::KEY_MAX).
    KeyRange,
    /// A value is past [`VALUE_MAX`](crate::VALUE_MAX).
    ValueRange,
    /// The sum is past [`VALUE_MAX`](crate::VALUE_MAX).
    SumRange,
    /// There is no memory for the map's tables: the system gives none, or [`Options::memory`](crate::Options::memory) allows
    /// no more. A write is refused so when its key needs a slot, and all are taken.
    OutOfMemory,
    /// An option is out of its range: this one.
    Options(WrongOption),
    /// A signal handler called in the middle of another call of its thread.
    Nested,
    /// The library is of another version than this crate.
    Version,
}

impl Error {
    /// The error that is this code of the header.
    #[cold]
    pub(crate) fn of_code(code: i32) -> Error {
        match code {
            sys::E_KEY_RANGE => Error::KeyRange,
            sys::E_VALUE_RANGE => Error::ValueRange,
            sys::E_SUM_RANGE => Error::SumRange,
            sys::E_OUT_OF_MEMORY => Error::OutOfMemory,
            sys::E_NESTED => Error::Nested,
            sys::E_VERSION => Error::Version,
            code => unreachable!("code {code} of libsamvolip"),
        }
    }
}

impl fmt::Display for Error {
    fn fmt(&self, f: &mut fmt::Formatter<'_>) -> fmt::Result {
        f.write_str(match self {
            Error::Options(wrong) => return wrong.fmt(f),
            Error::KeyRange => "the key is past KEY_MAX, which is 2^64 - 3",
            Error::ValueRange => "the value is past VALUE_MAX, which is 2^60 - 1",
            Error::SumRange => "the sum is past VALUE_MAX, which is 2^60 - 1",
            Error::OutOfMemory => "there is no memory for the map's tables",
            Error::Nested => "a signal handler called in the middle of another call of its thread",
            Error::Version => "libsamvolip is of another version than the crate",
        })
    }
}

impl std::error::Error for Error {}

/// What a call answered. A refusal is a panic, of the line that called.
#[inline]
#[track_caller]
pub(crate) fn sure<T>(answer: Result<T, Error>) -> T {
    match answer {
        Ok(answer) => answer,
        Err(error) => refuse(error),
    }
}

#[cold]
#[inline(never)]
#[track_caller]
fn refuse(error: Error) -> ! {
    panic!("samvolip: {error}")
}
