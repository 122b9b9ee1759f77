// SPDX-License-Identifier: MIT
//! The cache that the clients share: how it is made, and what it lists at its end.
use crate::bytes::Written;
use crate::raw::{self, Handle};
use crate::{Client, Error, Key, Value};
use std::fmt;
use std::sync::{Arc, Mutex, PoisonError};

/// The size of a cache of one table. [`Builder::keys`] makes shapes up from a number of keys. Each bucket,
/// overflow bucket and row takes 64 bytes, and each segment 8; all of them together have 512 MiB at most, and twice that for a
/// moment while the cache is made. The clients take 3 bytes more for each row, one for each eight rows of a
/// segment, and 56 for each segment, to know what was read and when it expires.
#[repr(C)]
#[derive(Clone, Copy, Debug, PartialEq, Eq)]
pub struct Shape {
    /// A power of two, 65,536 at most. A bucket has words for 7 keys.
    pub buckets: u32,
    /// Overflow buckets, 65,536 at most, each for 6 keys more of one bucket.
    pub overflow: u32,
    /// Clients, 1 to 64.
    pub passes: u32,
    /// Segments of each client, 1 to 1,024. By queues two of several are held free, or three if they have one row; by
    /// [`Client::keep_from`] one, and none by [`Client::keep_nothing`].
    pub segments_each: u32,
    /// Rows of a segment, 1 to 4,096. Without the feature `wide` each item takes one.
    pub rows: u32,
    /// The version that all buckets begin with; 0 will do.
    pub first_version: u32,
}

/// The status of a cursor behind its last pair.
const END: u32 = 18;

/// The handle, which one thread uses at a time. Clients hold on to it, so that they can be given back.
#[derive(Debug)]
pub(crate) struct Shared {
    handle: Mutex<Handle>,
}

impl Shared {
    /// Does something with the handle.
    pub(crate) fn with<T>(&self, act: impl FnOnce(&mut Handle) -> T) -> T {
        act(&mut self.handle.lock().unwrap_or_else(PoisonError::into_inner))
    }
}

impl Drop for Shared {
    fn drop(&mut self) {
        // SAFETY: the handle is the cache's, or none; all clients were given back when they were dropped.
        self.with(|cache| unsafe { raw::segcache_raw_free(cache) });
    }
}

/// How large a cache is to be, before it is made.
#[derive(Clone, Copy, Debug)]
pub struct Builder {
    keys: u32,
    threads: u32,
    writers: Option<u32>,
    items: Option<(u32, u32)>,
    bytes: Option<u64>,
    shape: Option<Shape>,
}

impl Builder {
    /// How many keys the cache is to have room for. 10,000 if it isn't said. Each client stores into its own equal
    /// share of the room, so all keys fit if the clients store about as many each. In a small cache, for at most
    /// 65,536 / threads keys, all keys fit whichever clients store them. A client isn't told of what others delete:
    /// where they delete what it stores, in the same order all the while, it can evict keys that have room. There is a
    /// table for every 200,000 keys, and each key belongs to one of the tables by its hash. With the feature `wide`
    /// there is room for so many keys if each item takes one row, as with 32 bytes of value. Longer items take more, and
    /// in a small cache the longest may never be stored: see [`Builder::items`].
    #[must_use]
    pub fn keys(mut self, keys: u32) -> Builder {
        self.keys = keys;
        self
    }

    /// How many clients are made, 1 to 64: one for each thread. 1 if it isn't said.
    #[must_use]
    pub fn threads(mut self, threads: u32) -> Builder {
        self.threads = threads;
        self
    }

    /// How many of the threads store, whichever these are: 1 to all of them. All, if it isn't said. The share of
    /// each client is then its part of the keys among the writers: with one writer that one has room for all keys.
    #[must_use]
    pub fn writers(mut self, writers: u32) -> Builder {
        self.writers = Some(writers);
        self
    }

    /// How many items the cache is to have room for, and how many bytes key and value of an item have together on the
    /// mean, in place of the numbers of keys and writers. It is as [`Builder::keys`] where each item takes one row. With
    /// the feature `wide` count a key of fewer than 24 bytes as 24 for the mean, and round each key and each value up to
    /// a multiple of 8: else some items can go. The mean and 8 bytes are divided by 64 and rounded up: so many rows are
    /// planned for each item. The cache has two rows for each planned one. An item that has more rows than a segment of the cache is never
    /// stored, and a put of it is [`Error::NoRoom`]. With 4,352 planned rows for each thread every item can be stored.
    #[must_use]
    pub fn items(mut self, items: u32, mean_bytes: u32) -> Builder {
        self.items = Some((items, mean_bytes));
        self
    }

    /// How many bytes the cache may take, in place of the numbers of keys, writers and items, also while it is made. What
    /// making it needs for a moment, one table, is free afterwards. Notes and a close take more. With the feature
    /// `wide` an item is taken to have four rows on the mean, about 230 bytes of key and value.
    #[must_use]
    pub fn bytes(mut self, bytes: u64) -> Builder {
        self.bytes = Some(bytes);
        self
    }

    /// The shape of one table, in place of the numbers of keys, threads, writers, items and bytes.
    #[must_use]
    pub fn shape(mut self, shape: Shape) -> Builder {
        self.shape = Some(shape);
        self
    }

    /// Makes the cache and its clients, and takes their memory.
    ///
    /// # Errors
    /// [`Error::BadShape`], [`Error::OutOfMemory`], [`Error::OtherVersion`] and [`Error::OtherSizes`].
    pub fn build(self) -> Result<(Cache, Vec<Client>), Error> {
        if crate::library_version() != crate::VERSION_NUMBER {
            return Err(Error::OtherVersion);
        }
        if crate::library_sizes() != crate::SIZES {
            return Err(Error::OtherSizes);
        }
        let count = self.shape.map_or(self.threads, |shape| shape.passes);
        if count > 64 {
            return Err(Error::BadShape);
        }
        let mut cache = Handle::none();
        let mut clients: Vec<Handle> = (0..count).map(|_| Handle::none()).collect();
        let (at, len) = (clients.as_mut_ptr(), clients.len());
        // SAFETY: the handles are none and apart from each other, and the length is that of the list.
        let status = unsafe {
            if let Some(shape) = &self.shape {
                raw::segcache_raw_open_shape(shape, &mut cache, at, len)
            } else if let Some(bytes) = self.bytes {
                raw::segcache_raw_open_bytes(bytes, &mut cache, at, len)
            } else if let Some((items, mean_bytes)) = self.items {
                raw::segcache_raw_open_items(items, mean_bytes, &mut cache, at, len)
            } else if let Some(writers) = self.writers {
                raw::segcache_raw_open_for_writers(self.keys, writers, &mut cache, at, len)
            } else {
                raw::segcache_raw_open(self.keys, self.threads, &mut cache, at, len)
            }
        };
        if status != 0 {
            return Err(Error::of(status));
        }
        give_back_unused();
        let shared = Arc::new(Shared { handle: Mutex::new(cache) });
        let clients = clients.into_iter().map(|handle| Client::new(Arc::clone(&shared), handle));
        Ok((Cache { shared: Arc::clone(&shared) }, clients.collect()))
    }
}

/// Gives the table that only the opening needed back to the system. It may lie between others, and would stay resident.
fn give_back_unused() {
    #[cfg(all(target_env = "gnu", not(miri)))]
    {
        extern "C" {
            fn malloc_trim(pad: usize) -> std::ffi::c_int;
        }
        // SAFETY: any thread may call it at any time.
        unsafe { malloc_trim(0) };
    }
}

/// A cache. It is only needed for [`Cache::close`]: the clients read and write, and the memory is given
/// back when the cache and its clients are all dropped, in any order.
#[derive(Debug)]
pub struct Cache {
    shared: Arc<Shared>,
}

impl Cache {
    /// Begins to say how large a cache is to be.
    #[must_use]
    pub fn builder() -> Builder {
        Builder { keys: 10_000, threads: 1, writers: None, items: None, bytes: None, shape: None }
    }

    /// Closes the cache, once its clients are dropped, and lists its content: table by table, each in the order
    /// of the keys. Keys that have expired are listed until they are evicted.
    ///
    /// # Errors
    /// [`Error::ClientOut`], with the cache as it was. [`Error::OutOfMemory`], with the cache as it was, or
    /// without it if the content is lost. No other is known.
    pub fn close(self) -> Result<Content, Unclosed> {
        let mut cursor = Handle::none();
        // SAFETY: the handle is the cache's, and the cursor is none.
        match self.shared.with(|cache| unsafe { raw::segcache_raw_close(cache, &mut cursor) }) {
            0 => Ok(Content { cursor, whole: true }),
            status => {
                let lost = self.shared.with(|cache| cache.is_none());
                Err(Unclosed { cache: if lost { None } else { Some(self) }, error: Error::of(status) })
            }
        }
    }
}

/// A cache that could not be closed, and why.
#[derive(Debug)]
pub struct Unclosed {
    /// The cache, if its content isn't lost.
    pub cache: Option<Cache>,
    /// Why.
    pub error: Error,
}

impl fmt::Display for Unclosed {
    fn fmt(&self, f: &mut fmt::Formatter<'_>) -> fmt::Result {
        self.error.fmt(f)
    }
}

impl std::error::Error for Unclosed {
    fn source(&self) -> Option<&(dyn std::error::Error + 'static)> {
        Some(&self.error)
    }
}

/// The content of a closed cache: the pairs of each table in the order of their keys' bytes. The tables are
/// closed one after another, as their pairs are wanted. Where memory for that is refused, the table is left out:
/// `next` returns None, and [`Content::is_whole`] false from then on. A loop ends there, and the next call goes on
/// with the next table.
#[derive(Debug)]
pub struct Content {
    cursor: Handle,
    whole: bool,
}

impl Content {
    /// Whether no table was left out so far.
    #[must_use]
    pub fn is_whole(&self) -> bool {
        self.whole
    }
}

impl Iterator for Content {
    type Item = (Key, Value);

    fn next(&mut self) -> Option<(Key, Value)> {
        let cursor: *mut Handle = &mut self.cursor;
        let ((status, value), key) = Key::written(|key, key_room, key_len| {
            Value::written(|value, value_room, value_len| {
                // SAFETY: the cursor is this one's, and the buffers are apart and as long as is said.
                unsafe {
                    raw::segcache_raw_next(cursor, key, key_room, key_len, value, value_room, value_len)
                }
            })
        });
        self.whole &= status == 0 || status == END;
        (status == 0).then_some((key, value))
    }
}

impl Drop for Content {
    fn drop(&mut self) {
        // SAFETY: the cursor is this one's, and isn't used after this.
        unsafe { raw::segcache_raw_cursor_free(&mut self.cursor) };
    }
}
