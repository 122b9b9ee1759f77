// SPDX-License-Identifier: MIT
//! The crate `lru`, in shards behind a mutex each.

use crate::bytes::{Entry, Fnv, Key, Value, Write};
use crate::{hash_of, room_of_shard, shard_of, SHARDS};
use lru::LruCache;
use std::hash::BuildHasherDefault;
use std::sync::{Mutex, MutexGuard};

// So that no two locks are in one line of the processor's cache.
#[repr(align(64))]
struct Shard(Mutex<LruCache<Key, Entry, BuildHasherDefault<Fnv>>>);

pub struct Cache(Vec<Shard>);

impl Cache {
    fn shard(&self, key: &Key) -> MutexGuard<'_, LruCache<Key, Entry, BuildHasherDefault<Fnv>>> {
        self.0[shard_of(hash_of(key))].0.lock().unwrap()
    }
}

/// A cache with so much room, or room for all of so many keys. It is never freed.
#[no_mangle]
pub extern "C" fn rust_lru_new(keys: u32, room: u32) -> &'static Cache {
    let shard = |number| {
        let lru = LruCache::with_hasher(room_of_shard(keys, room, number), Default::default());
        Shard(Mutex::new(lru))
    };
    Box::leak(Box::new(Cache((0..SHARDS).map(shard).collect())))
}

/// Whether the key was found. Its entry is then written to `found`.
#[no_mangle]
pub extern "C" fn rust_lru_get(cache: &Cache, key: &Key, found: &mut Entry) -> bool {
    match cache.shard(key).get(key) {
        Some(entry) => {
            *found = *entry;
            true
        }
        None => false,
    }
}

/// Whether the write was done.
#[no_mangle]
pub extern "C" fn rust_lru_write(
    cache: &Cache,
    write: Write,
    key: &Key,
    value: &Value,
    expected: u32,
) -> bool {
    let mut shard = cache.shard(key);
    let present = shard.get_mut(key);
    let is_allowed = write.is_allowed(present.as_deref(), expected);
    if is_allowed {
        let entry = Entry::after(present.as_deref(), value);
        match present {
            Some(place) => *place = entry,
            None => drop(shard.put(*key, entry)),
        }
    }
    is_allowed
}

/// Whether there was such a key.
#[no_mangle]
pub extern "C" fn rust_lru_remove(cache: &Cache, key: &Key) -> bool {
    cache.shard(key).pop(key).is_some()
}
