// SPDX-License-Identifier: MIT
//! DashMap behind calls of C, so that the same driver measures it as the other stores.
//! The types and the rules of writes are those of `bench/common`.

#[path = "../../../common/bytes.rs"]
mod bytes;

use bytes::{Entry, Fnv, Key, Value, Write};
use dashmap::mapref::entry::Entry as Slot;
use dashmap::DashMap;
use std::hash::BuildHasherDefault;

pub type Map = DashMap<Key, Entry, BuildHasherDefault<Fnv>>;

/// A map with room for so many keys. It is never freed.
#[no_mangle]
pub extern "C" fn dashmap_new(keys: u32) -> &'static Map {
    Box::leak(Box::new(Map::with_capacity_and_hasher(keys as usize, Default::default())))
}

/// Whether the key was found. Its entry is then written to `found`.
#[no_mangle]
pub extern "C" fn dashmap_get(map: &Map, key: &Key, found: &mut Entry) -> bool {
    match map.get(key) {
        Some(entry) => {
            *found = *entry;
            true
        }
        None => false,
    }
}

/// Whether the write was done.
#[no_mangle]
pub extern "C" fn dashmap_write(map: &Map, write: Write, key: &Key, value: &Value, expected: u32) -> bool {
    match map.entry(*key) {
        Slot::Occupied(mut slot) => {
            let is_allowed = write.is_allowed(Some(slot.get()), expected);
            if is_allowed {
                let entry = Entry::after(Some(slot.get()), value);
                slot.insert(entry);
            }
            is_allowed
        }
        Slot::Vacant(slot) => {
            let is_allowed = write.is_allowed(None, expected);
            if is_allowed {
                slot.insert(Entry::after(None, value));
            }
            is_allowed
        }
    }
}

/// Whether there was such a key.
#[no_mangle]
pub extern "C" fn dashmap_remove(map: &Map, key: &Key) -> bool {
    map.remove(key).is_some()
}
