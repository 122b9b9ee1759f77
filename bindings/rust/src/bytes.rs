// SPDX-License-Identifier: MIT
//! Keys and values as the library hands them out: a few bytes, by value. Longer values are on the heap.
use std::fmt;
use std::ops::Deref;

/// At most `N` bytes, which are copied with it. It reads as a slice.
#[derive(Clone, Copy, PartialEq, Eq, PartialOrd, Ord, Hash)]
pub struct Bytes<const N: usize> {
    // The rest are zeros, so equal bytes are equal values; and shorter ones come first.
    bytes: [u8; N],
    length: usize,
}

/// What the library writes into a buffer and a length.
pub(crate) trait Written: Sized {
    /// What this call returns, and what it wrote.
    fn written<T>(write: impl FnOnce(*mut u8, usize, &mut usize) -> T) -> (T, Self);
}

impl<const N: usize> Written for Bytes<N> {
    fn written<T>(write: impl FnOnce(*mut u8, usize, &mut usize) -> T) -> (T, Bytes<N>) {
        let (mut bytes, mut length) = ([0; N], 0);
        let status = write(bytes.as_mut_ptr(), N, &mut length);
        (status, Bytes { bytes, length: length.min(N) })
    }
}

impl<const N: usize> Bytes<N> {
    /// The first of these bytes, of which the others are zeros.
    #[cfg(not(feature = "wide"))]
    pub(crate) fn of(bytes: [u8; N], length: usize) -> Bytes<N> {
        Bytes { bytes, length: length.min(N) }
    }

    /// The bytes.
    pub fn as_slice(&self) -> &[u8] {
        &self.bytes[..self.length]
    }
}

impl<const N: usize> Deref for Bytes<N> {
    type Target = [u8];

    fn deref(&self) -> &[u8] {
        self.as_slice()
    }
}

impl<const N: usize> AsRef<[u8]> for Bytes<N> {
    fn as_ref(&self) -> &[u8] {
        self
    }
}

impl<const N: usize> PartialEq<[u8]> for Bytes<N> {
    fn eq(&self, other: &[u8]) -> bool {
        self.as_slice() == other
    }
}

impl<const N: usize, const M: usize> PartialEq<&[u8; M]> for Bytes<N> {
    fn eq(&self, other: &&[u8; M]) -> bool {
        self.as_slice() == *other
    }
}

impl<const N: usize> fmt::Debug for Bytes<N> {
    fn fmt(&self, f: &mut fmt::Formatter<'_>) -> fmt::Result {
        write!(f, "b\"{}\"", self.escape_ascii())
    }
}

/// A value: at most [`crate::MAX_VALUE`] bytes, which it owns. It reads as a slice.
#[cfg(feature = "wide")]
#[derive(Clone, PartialEq, Eq, PartialOrd, Ord, Hash)]
pub struct Value {
    bytes: Box<[u8]>,
}

#[cfg(feature = "wide")]
mod wide {
    use super::{Value, Written};
    use crate::MAX_VALUE;
    use std::fmt;
    use std::ops::Deref;

    impl Written for Value {
        fn written<T>(write: impl FnOnce(*mut u8, usize, &mut usize) -> T) -> (T, Value) {
            let (mut bytes, mut length) = ([0; MAX_VALUE], 0);
            let status = write(bytes.as_mut_ptr(), MAX_VALUE, &mut length);
            (status, Value { bytes: bytes[..length.min(MAX_VALUE)].into() })
        }
    }

    impl Value {
        /// The bytes.
        pub fn as_slice(&self) -> &[u8] {
            &self.bytes
        }

        /// The bytes, for you to own.
        #[must_use]
        pub fn into_boxed_slice(self) -> Box<[u8]> {
            self.bytes
        }
    }

    impl Deref for Value {
        type Target = [u8];

        fn deref(&self) -> &[u8] {
            self.as_slice()
        }
    }

    impl AsRef<[u8]> for Value {
        fn as_ref(&self) -> &[u8] {
            self
        }
    }

    impl PartialEq<[u8]> for Value {
        fn eq(&self, other: &[u8]) -> bool {
            self.as_slice() == other
        }
    }

    impl<const M: usize> PartialEq<&[u8; M]> for Value {
        fn eq(&self, other: &&[u8; M]) -> bool {
            self.as_slice() == *other
        }
    }

    impl fmt::Debug for Value {
        fn fmt(&self, f: &mut fmt::Formatter<'_>) -> fmt::Result {
            write!(f, "b\"{}\"", self.escape_ascii())
        }
    }
}
