// SPDX-License-Identifier: MIT
//! A client: what one thread reads and writes the cache by.
use crate::bytes::Written;
use crate::cache::Shared;
#[cfg(feature = "wide")]
use crate::raw::KeyPlace;
#[cfg(not(feature = "wide"))]
use crate::raw::Lookup;
use crate::raw::{self, Handle};
use crate::{Error, Hold, Note, Value};
use std::cell::{Cell, UnsafeCell};
use std::num::NonZeroU8;
use std::sync::Arc;

pub(crate) const OK: u32 = 0;
const MISS: u32 = 1;
const NO_ROOM: u32 = 3;
const NOT_STORED: u32 = 5;
const EXISTS: u32 = 6;
const NOT_FOUND: u32 = 7;
const SHORT_BUFFER: u32 = 10;

// So many keys are looked ahead for at a time.
#[cfg(feature = "wide")]
const AHEAD: usize = 16;

/// The version of a key's bucket, from [`Client::gets`] for [`Client::cas`].
#[derive(Clone, Copy, Debug, PartialEq, Eq, Hash)]
pub struct Version(pub u32);

/// What a [`Client::cas`] came to.
#[derive(Clone, Copy, Debug, PartialEq, Eq)]
pub enum Cas {
    /// The value was stored.
    Stored,
    /// The bucket was written since the `gets`, by this key or another one: `gets` again.
    Exists,
    /// The key is absent.
    NotFound,
}

/// How many calls of one client came to what; holds aren't counted. `keys_evicted` has the keys that stood, expired ones
/// among them. Where nothing expires, more than 0 says that the client had too little room for what it stored, that a
/// bucket was full, or that a segment was held. All calls that store can evict keys, and `make_room` can.
#[repr(C)]
#[derive(Clone, Copy, Debug, Default, PartialEq, Eq)]
#[allow(missing_docs)]
pub struct Stats {
    pub hits: u64,
    pub misses: u64,
    pub stored: u64,
    pub not_stored: u64,
    pub exists: u64,
    pub not_found: u64,
    pub deleted: u64,
    pub no_room: u64,
    pub bucket_full: u64,
    pub busy: u64,
    pub segments_refilled: u64,
    pub items_kept: u64,
    pub keys_evicted: u64,
}

/// How full the tables are: the sums over all tables of the cache.
#[repr(C)]
#[derive(Clone, Copy, Debug, Default, PartialEq, Eq)]
pub struct IndexStats {
    /// Overflow buckets in use, of all chains.
    pub overflow_buckets: u32,
    /// Used rows of this client's segments.
    pub used_rows: u32,
    /// Those that a key stands for; the others are dead.
    pub named_rows: u32,
}

/// A client, for one thread at a time: it may be sent to another thread, and can't be shared. When it is
/// dropped, it is given back to its cache.
#[derive(Debug)]
pub struct Client {
    shared: Arc<Shared>,
    // The calls need it to themselves. No two are at work at once: a client isn't `Sync`, and no call runs the
    // program's own code.
    handle: UnsafeCell<Handle>,
    now: Cell<u32>,
}

#[cfg(not(feature = "wide"))]
type ReadMany = unsafe extern "C" fn(*mut Handle, *const u8, usize, *mut Lookup, usize, u32) -> u32;
type Write = unsafe extern "C" fn(*mut Handle, *const u8, usize, *const u8, usize, u32) -> u32;

impl Client {
    pub(crate) fn new(shared: Arc<Shared>, handle: Handle) -> Client {
        Client { shared, handle: UnsafeCell::new(handle), now: Cell::new(0) }
    }

    pub(crate) fn handle(&self) -> *mut Handle {
        self.handle.get()
    }

    /// Sets the client's clock, a number in units of your choice. It stands still until it is set again. It may go
    /// back: then the client can find what had expired. At `u32::MAX` every key is absent; a clock in milliseconds is
    /// there after 49 days.
    pub fn set_now(&self, now: u32) {
        self.now.set(now);
    }

    /// The value of a key, or `None` if it is absent.
    ///
    /// # Errors
    /// [`Error::Busy`], [`Error::BadKey`].
    pub fn get(&self, key: impl AsRef<[u8]>) -> Result<Option<Value>, Error> {
        let (key, now) = (key.as_ref(), self.now.get());
        // SAFETY: the handle is this client's; the slices are borrowed, and the buffer is apart.
        let (status, value) = Value::written(|value, room, length| unsafe {
            raw::segcache_raw_get(self.handle(), key.as_ptr(), key.len(), value, room, length, now)
        });
        found(status, value)
    }

    /// The value of a key with the version of its bucket, for [`Client::cas`].
    ///
    /// # Errors
    /// As [`Client::get`].
    pub fn gets(&self, key: impl AsRef<[u8]>) -> Result<Option<(Value, Version)>, Error> {
        let (key, now, mut version) = (key.as_ref(), self.now.get(), 0);
        let (at, len) = (key.as_ptr(), key.len());
        // SAFETY: as in get.
        let (status, value) = Value::written(|value, room, length| unsafe {
            raw::segcache_raw_gets(self.handle(), at, len, value, room, length, &mut version, now)
        });
        Ok(found(status, value)?.map(|value| (value, Version(version))))
    }

    /// Copies the value of a key to the front of a buffer. Returns how many bytes it has, or `None` if the key is absent.
    ///
    /// # Errors
    /// [`Error::ShortBuffer`], [`Error::Busy`], [`Error::BadKey`]. The buffer is then as it was.
    pub fn get_into(&self, key: impl AsRef<[u8]>, buffer: &mut [u8]) -> Result<Option<usize>, Error> {
        let (key, now, mut length) = (key.as_ref(), self.now.get(), 0);
        let (at, len, value, room) = (key.as_ptr(), key.len(), buffer.as_mut_ptr(), buffer.len());
        // SAFETY: the handle is this client's, the slice is borrowed, and the buffer is borrowed to be written.
        let status = unsafe { raw::segcache_raw_get(self.handle(), at, len, value, room, &mut length, now) };
        copied(status, length)
    }

    /// A [`Client::get_into`] that also returns the version of the key's bucket, for [`Client::cas`].
    ///
    /// # Errors
    /// As [`Client::get_into`].
    pub fn gets_into(
        &self,
        key: impl AsRef<[u8]>,
        buffer: &mut [u8],
    ) -> Result<Option<(usize, Version)>, Error> {
        let (key, now, mut length, mut version) = (key.as_ref(), self.now.get(), 0, 0);
        let (at, len, value, room) = (key.as_ptr(), key.len(), buffer.as_mut_ptr(), buffer.len());
        // SAFETY: as in get_into.
        let status = unsafe {
            raw::segcache_raw_gets(self.handle(), at, len, value, room, &mut length, &mut version, now)
        };
        Ok(copied(status, length)?.map(|length| (length, Version(version))))
    }

    /// The value of each key, in their order: one get after another. In a cache for 6,554 keys or more, and for 820 or
    /// more of 2 to 9 threads, the waits for memory of 8 keys or more overlap.
    ///
    /// # Errors
    /// Of each key, as [`Client::get`].
    pub fn get_many<K: AsRef<[u8]>>(&self, keys: &[K]) -> Vec<Result<Option<Value>, Error>> {
        #[cfg(feature = "wide")]
        return self.read_each(keys, |key| self.get(key));
        #[cfg(not(feature = "wide"))]
        self.look_up(raw::segcache_raw_get_many, keys).iter().map(Lookup::value).collect()
    }

    /// The value of each key with its version, in their order, for [`Client::cas`].
    ///
    /// # Errors
    /// Of each key, as [`Client::get`].
    #[allow(clippy::type_complexity)]
    pub fn gets_many<K: AsRef<[u8]>>(&self, keys: &[K]) -> Vec<Result<Option<(Value, Version)>, Error>> {
        #[cfg(feature = "wide")]
        return self.read_each(keys, |key| self.gets(key));
        #[cfg(not(feature = "wide"))]
        let versioned = |it: &Lookup| Ok(it.value()?.map(|value| (value, Version(it.version))));
        #[cfg(not(feature = "wide"))]
        self.look_up(raw::segcache_raw_gets_many, keys).iter().map(versioned).collect()
    }

    /// Holds the value of a key, or `None` if it is absent: until the hold is dropped it reads the same, also
    /// past its deadline and whatever becomes of the key. A client holds one value at a time.
    ///
    /// # Errors
    /// [`Error::Busy`], [`Error::BadKey`], [`Error::AlreadyHolding`].
    pub fn hold(&self, key: impl AsRef<[u8]>) -> Result<Option<Hold<'_>>, Error> {
        let (key, now) = (key.as_ref(), self.now.get());
        // SAFETY: the handle is this client's, and the slice is borrowed.
        match unsafe { raw::segcache_raw_hold(self.handle(), key.as_ptr(), key.len(), now) } {
            OK => Ok(Some(Hold::new(self))),
            MISS => Ok(None),
            other => Err(Error::of(other)),
        }
    }

    /// Stores a value, and makes room for it. If no row is left, the client recycles segments of its own: it moves
    /// items that were read to another segment, and evicts the other keys. If the key's bucket is full, it evicts one
    /// item of its own there, or none. After an error the old value may stand; delete the key if nobody may read it.
    ///
    /// # Errors
    /// [`Error::NoRoom`], [`Error::BucketFull`], [`Error::Busy`], [`Error::BadKey`], [`Error::BadValue`].
    pub fn put(&self, key: impl AsRef<[u8]>, value: impl AsRef<[u8]>) -> Result<(), Error> {
        done(self.write(raw::segcache_raw_put, key.as_ref(), value.as_ref()))
    }

    /// A [`Client::put`] of an item with a time to live of its own, in place of the client's: it lives for that time
    /// at most, and for seven eighths of it at least, unless it is evicted, replaced or deleted before. Any number
    /// will do. At 0 the item is absent at once.
    ///
    /// # Errors
    /// As [`Client::put`].
    pub fn put_for(
        &self,
        key: impl AsRef<[u8]>,
        value: impl AsRef<[u8]>,
        time_to_live: u32,
    ) -> Result<(), Error> {
        let (key, value, now) = (key.as_ref(), value.as_ref(), self.now.get());
        let (at, length) = (value.as_ptr(), value.len());
        // SAFETY: the handle is this client's, and the slices are borrowed.
        done(unsafe {
            raw::segcache_raw_put_for(self.handle(), key.as_ptr(), key.len(), at, length, time_to_live, now)
        })
    }

    /// A [`Client::put`] by one of these clients, which the key chooses: so one thread fills a cache, and uses the
    /// room of all clients. A key that is filled twice goes to the same client. Its time to live and its clock are
    /// those of the client that is chosen: set all of them before.
    ///
    /// # Errors
    /// As [`Client::put`].
    ///
    /// # Panics
    /// If there is no client.
    pub fn fill(clients: &[Client], key: impl AsRef<[u8]>, value: impl AsRef<[u8]>) -> Result<(), Error> {
        let with_byte = |hash: u32, byte: &u8| (hash ^ u32::from(*byte)).wrapping_mul(16_777_619);
        let hash = key.as_ref().iter().fold(2_166_136_261, with_byte);
        clients[(hash ^ hash >> 15) as usize % clients.len()].put(key, value)
    }

    /// Stores a value, and makes no room: [`Error::NoRoom`] if the client finds no segment of its own with a row left in
    /// which the value lives as long as after a put, as before its first put; with the feature `wide` also if the
    /// segment that it stores into has fewer rows left than the item takes. Then [`Client::make_room`], and set again.
    ///
    /// # Errors
    /// As [`Client::put`].
    pub fn set(&self, key: impl AsRef<[u8]>, value: impl AsRef<[u8]>) -> Result<(), Error> {
        done(self.write(raw::segcache_raw_set, key.as_ref(), value.as_ref()))
    }

    /// Stores a value if the key is absent, and says whether it did.
    ///
    /// # Errors
    /// As [`Client::set`].
    pub fn add(&self, key: impl AsRef<[u8]>, value: impl AsRef<[u8]>) -> Result<bool, Error> {
        either(self.write(raw::segcache_raw_add, key.as_ref(), value.as_ref()), NOT_STORED)
    }

    /// Stores a value if the key is present, and says whether it did.
    ///
    /// # Errors
    /// As [`Client::set`].
    pub fn replace(&self, key: impl AsRef<[u8]>, value: impl AsRef<[u8]>) -> Result<bool, Error> {
        either(self.write(raw::segcache_raw_replace, key.as_ref(), value.as_ref()), NOT_STORED)
    }

    /// Stores a value if the key's bucket wasn't written since the `gets` that gave the version.
    ///
    /// # Errors
    /// As [`Client::set`].
    pub fn cas(
        &self,
        key: impl AsRef<[u8]>,
        value: impl AsRef<[u8]>,
        version: Version,
    ) -> Result<Cas, Error> {
        let (key, value, now) = (key.as_ref(), value.as_ref(), self.now.get());
        let (at, length) = (value.as_ptr(), value.len());
        // SAFETY: the handle is this client's, and the slices are borrowed.
        let status = unsafe {
            raw::segcache_raw_cas(self.handle(), key.as_ptr(), key.len(), at, length, version.0, now)
        };
        match status {
            OK => Ok(Cas::Stored),
            EXISTS => Ok(Cas::Exists),
            NOT_FOUND => Ok(Cas::NotFound),
            other => Err(Error::of(other)),
        }
    }

    /// Takes a key out, and says whether it was there.
    ///
    /// # Errors
    /// [`Error::Busy`], [`Error::BadKey`].
    pub fn delete(&self, key: impl AsRef<[u8]>) -> Result<bool, Error> {
        let (key, now) = (key.as_ref(), self.now.get());
        // SAFETY: the handle is this client's, and the slice is borrowed.
        let status = unsafe { raw::segcache_raw_delete(self.handle(), key.as_ptr(), key.len(), now) };
        either(status, NOT_FOUND)
    }

    /// A note of all that this client has seen, its own puts among it. Send it to another thread beside what
    /// you tell that one; see [`Client::learn`].
    ///
    /// # Errors
    /// [`Error::OutOfMemory`].
    pub fn note(&self) -> Result<Note, Error> {
        let mut note = Handle::none();
        // SAFETY: the handle is this client's, and the note is none.
        done(unsafe { raw::segcache_raw_note(self.handle(), &mut note) })?;
        Ok(Note::new(&self.shared, note))
    }

    /// This client has then seen what the note has. Its gets read what the note's client has put, or what was
    /// stored since, or are Busy; or miss it, if it was deleted, evicted or expired since. That is proved.
    /// A get reads the same without a note of each put that had returned when the get began.
    ///
    /// # Errors
    /// [`Error::Foreign`], if the note is of another cache.
    pub fn learn(&self, mut note: Note) -> Result<(), Error> {
        if !note.is_of(&self.shared) {
            return Err(Error::Foreign);
        }
        // SAFETY: the handle is this client's, and the note is of the same cache, which is still there.
        done(unsafe { raw::segcache_raw_learn(self.handle(), note.handle()) })
    }

    /// What this client stores from now on lives for this time at most, and for seven eighths of it at least, unless
    /// it is evicted, replaced or deleted before. The unit is that of `set_now`, whose clock stands still until it is
    /// set again. [`Client::put_for`] has a time of its own. A set, an add, a replace or a cas is
    /// [`Error::NoRoom`] where the client has no segment with such a deadline: `make_room` then begins one.
    /// At the start the time is `u32::MAX`, and nothing expires before. With 0 what is stored is absent at once.
    pub fn set_time_to_live(&self, time_to_live: u32) {
        // SAFETY: the handle is this client's.
        unsafe { raw::segcache_raw_set_time_to_live(self.handle(), time_to_live) };
    }

    /// The client recycles its segments by turns from now on, and keeps items of this frequency or more, or
    /// nothing. From the start it keeps what was read in main segments, and no call goes back to that.
    pub fn keep_from(&self, cutoff: Option<NonZeroU8>) {
        let cutoff = cutoff.map_or(0, NonZeroU8::get).into();
        // SAFETY: the handle is this client's.
        unsafe { raw::segcache_raw_keep_from(self.handle(), cutoff) };
    }

    /// The client recycles its segments by turns from now on, with all keys in them.
    pub fn keep_nothing(&self) {
        self.keep_from(None);
    }

    /// Begins another segment of this client's, and returns whether one could be had: in the table of its last
    /// write, if that was answered by [`Error::NoRoom`], and else in each table. It may evict keys that this
    /// client stored. A client that keeps by queues does nothing where its segment has the deadline that is asked and
    /// room for the longest item, or no used row. Else each call begins another one, also where the one before has rows left. So call
    /// it where a write found no room, and not before each.
    ///
    /// # Errors
    /// None that is known.
    pub fn make_room(&self) -> Result<bool, Error> {
        // SAFETY: the handle is this client's.
        either(unsafe { raw::segcache_raw_make_room(self.handle(), self.now.get()) }, NO_ROOM)
    }

    /// What this client's calls came to so far.
    pub fn stats(&self) -> Stats {
        let mut stats = Stats::default();
        // SAFETY: the handle is this client's.
        unsafe { raw::segcache_raw_stats(self.handle(), &mut stats) };
        stats
    }

    /// How full the tables are. It looks at all rows of the client's segments.
    pub fn index_stats(&self) -> IndexStats {
        let mut stats = IndexStats::default();
        // SAFETY: the handle is this client's.
        unsafe { raw::segcache_raw_index_stats(self.handle(), &mut stats) };
        stats
    }

    // What this read returns for each key, where it has looked ahead for sixteen keys at a time. A list of lookups
    // would have room for the longest value of each.
    #[cfg(feature = "wide")]
    fn read_each<'k, K: AsRef<[u8]>, T>(&self, keys: &'k [K], read: impl Fn(&'k K) -> T) -> Vec<T> {
        let mut found = Vec::with_capacity(keys.len());
        for piece in keys.chunks(AHEAD) {
            self.look_ahead(piece);
            found.extend(piece.iter().map(&read));
        }
        found
    }

    // Loads what gets of these keys will read. No answer depends on it. A key that is too long is passed over.
    #[cfg(feature = "wide")]
    fn look_ahead<K: AsRef<[u8]>>(&self, keys: &[K]) {
        let (mut bytes, mut places) = (Vec::new(), Vec::with_capacity(keys.len()));
        for key in keys.iter().map(AsRef::as_ref) {
            let key = if key.len() <= crate::MAX_KEY { key } else { &[] };
            places.push(KeyPlace { key_at: bytes.len(), key_len: key.len() });
            bytes.extend_from_slice(key);
        }
        let (at, len) = (bytes.as_ptr(), bytes.len());
        // SAFETY: the handle is this client's, and both lists are this call's own.
        unsafe { raw::segcache_raw_look_ahead(self.handle(), at, len, places.as_ptr(), places.len()) };
    }

    // The keys' bytes stand one behind another.
    #[cfg(not(feature = "wide"))]
    fn look_up<K: AsRef<[u8]>>(&self, read: ReadMany, keys: &[K]) -> Vec<Lookup> {
        let (mut bytes, mut lookups) = (Vec::new(), Vec::with_capacity(keys.len()));
        for key in keys.iter().map(AsRef::as_ref) {
            lookups.push(Lookup::of(bytes.len(), key.len()));
            bytes.extend_from_slice(key);
        }
        let (at, count, now) = (lookups.as_mut_ptr(), lookups.len(), self.now.get());
        // SAFETY: the handle is this client's, and both lists are this call's own.
        let status = unsafe { read(self.handle(), bytes.as_ptr(), bytes.len(), at, count, now) };
        if status != OK {
            lookups.iter_mut().for_each(|lookup| lookup.status = status);
        }
        lookups
    }

    fn write(&self, write: Write, key: &[u8], value: &[u8]) -> u32 {
        let now = self.now.get();
        // SAFETY: the handle is this client's, and the slices are borrowed.
        unsafe { write(self.handle(), key.as_ptr(), key.len(), value.as_ptr(), value.len(), now) }
    }
}

#[cfg(not(feature = "wide"))]
impl Lookup {
    fn of(key_at: usize, key_len: usize) -> Lookup {
        Lookup { key_at, key_len, value_len: 0, status: OK, version: 0, value: [0; crate::MAX_VALUE] }
    }

    fn value(&self) -> Result<Option<Value>, Error> {
        found(self.status, Value::of(self.value, self.value_len))
    }
}

impl Drop for Client {
    fn drop(&mut self) {
        let handle = self.handle.get_mut();
        // SAFETY: the client is of this cache, and isn't used after this.
        self.shared.with(|cache| unsafe { raw::segcache_raw_give_back(cache, handle) });
    }
}

fn done(status: u32) -> Result<(), Error> {
    match status {
        OK => Ok(()),
        other => Err(Error::of(other)),
    }
}

fn either(status: u32, no: u32) -> Result<bool, Error> {
    match status {
        OK => Ok(true),
        other if other == no => Ok(false),
        other => Err(Error::of(other)),
    }
}

fn copied(status: u32, length: usize) -> Result<Option<usize>, Error> {
    match status {
        OK => Ok(Some(length)),
        MISS => Ok(None),
        SHORT_BUFFER => Err(Error::ShortBuffer(length)),
        other => Err(Error::of(other)),
    }
}

fn found(status: u32, value: Value) -> Result<Option<Value>, Error> {
    match status {
        OK => Ok(Some(value)),
        MISS => Ok(None),
        other => Err(Error::of(other)),
    }
}
