// SPDX-License-Identifier: MIT
//! What a call may answer in place of a result.
use crate::{MAX_KEY, MAX_VALUE};
use std::fmt;

/// Why a call did not do what was asked.
#[derive(Clone, Copy, Debug, PartialEq, Eq)]
#[non_exhaustive]
pub enum Error {
    /// Others worked on the key's bucket all the while: call again, or treat a get as a miss.
    Busy,
    /// No segment that expires in time has a row left. Of a put: no segment can be had, since somebody reads or holds there,
    /// or a bucket of its keys is busy; with the feature `wide` also if the item has more rows than a segment.
    NoRoom,
    /// The key's bucket has no free word.
    BucketFull,
    /// A key has 1 to [`MAX_KEY`](crate::MAX_KEY) bytes.
    BadKey,
    /// A value has [`MAX_VALUE`](crate::MAX_VALUE) bytes at most.
    BadValue,
    /// The buffer is too short for the value, which has so many bytes. Nothing was copied.
    ShortBuffer(usize),
    /// Such a number of keys or of threads, or such a shape, can't be.
    BadShape,
    /// The memory was refused.
    OutOfMemory,
    /// The client holds a value: drop that hold first.
    AlreadyHolding,
    /// A client of the cache is still there.
    ClientOut,
    /// The note is of another cache.
    Foreign,
    /// The archive has another version than the crate.
    OtherVersion,
    /// The archive has longer or shorter keys or values than the crate.
    OtherSizes,
    /// An answer that the call never gives; it would be a fault of the library.
    Unexpected(u32),
}

impl Error {
    pub(crate) fn of(status: u32) -> Error {
        match status {
            2 => Error::Busy,
            3 => Error::NoRoom,
            4 => Error::BucketFull,
            8 => Error::BadKey,
            9 => Error::BadValue,
            11 => Error::BadShape,
            12 => Error::OutOfMemory,
            14 => Error::AlreadyHolding,
            16 => Error::ClientOut,
            17 => Error::Foreign,
            other => Error::Unexpected(other),
        }
    }
}

impl fmt::Display for Error {
    fn fmt(&self, f: &mut fmt::Formatter<'_>) -> fmt::Result {
        f.write_str(match self {
            Error::Busy => "others worked on the key's bucket all the while",
            Error::NoRoom => "no segment can be had to store into",
            Error::BucketFull => "the key's bucket is full",
            Error::BadKey => return write!(f, "a key has 1 to {MAX_KEY} bytes"),
            Error::BadValue => return write!(f, "a value has {MAX_VALUE} bytes at most"),
            Error::ShortBuffer(length) => return write!(f, "the buffer is too short for {length} bytes"),
            Error::BadShape => "such a shape can't be",
            Error::OutOfMemory => "out of memory",
            Error::AlreadyHolding => "the client holds a value already",
            Error::ClientOut => "a client of the cache is still there",
            Error::Foreign => "the note is of another cache",
            Error::OtherVersion => "the library has another version than the crate",
            Error::OtherSizes => "the library has other sizes than the crate",
            Error::Unexpected(status) => return write!(f, "unexpected status {status}"),
        })
    }
}

impl std::error::Error for Error {}
