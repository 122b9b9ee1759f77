// SPDX-License-Identifier: MIT
//! The exports of libsegcache.a. A slice of the library is a pointer and a length here.

/// What a handle is to the library; zeroed, it is none.
#[repr(C)]
#[derive(Debug)]
pub(crate) struct Handle {
    pub(crate) at: *mut u8,
    pub(crate) full: bool,
}

// SAFETY: what a handle owns was proved to be `Send`. A handle isn't `Sync`, and has no methods.
unsafe impl Send for Handle {}

impl Handle {
    pub(crate) fn is_none(&self) -> bool {
        !self.full
    }

    pub(crate) fn none() -> Handle {
        Handle { at: std::ptr::null_mut(), full: false }
    }
}

/// The place of a key among the bytes of a call, and what came of it. With long values the crate makes single gets, since
/// each of these has room for the longest one.
#[repr(C)]
#[derive(Clone, Copy)]
#[cfg_attr(feature = "wide", allow(dead_code))]
pub(crate) struct Lookup {
    pub(crate) key_at: usize,
    pub(crate) key_len: usize,
    pub(crate) value_len: usize,
    pub(crate) status: u32,
    pub(crate) version: u32,
    pub(crate) value: [u8; crate::MAX_VALUE],
}

/// The place of a key among the bytes of a look ahead.
#[repr(C)]
#[derive(Clone, Copy)]
#[cfg_attr(not(feature = "wide"), allow(dead_code))]
pub(crate) struct KeyPlace {
    pub(crate) key_at: usize,
    pub(crate) key_len: usize,
}

#[cfg(test)]
pub(crate) use crate::fake::*;

#[rustfmt::skip]
#[cfg(not(test))]
#[allow(dead_code)] // the lookups of many keys in one build, and the look ahead in the other
extern "C" {
    pub(crate) fn segcache_raw_version() -> u32;
    pub(crate) fn segcache_raw_sizes() -> u32;
    pub(crate) fn segcache_raw_open(keys: u32, threads: u32, cache: *mut Handle, clients: *mut Handle, clients_len: usize) -> u32;
    pub(crate) fn segcache_raw_open_for_writers(keys: u32, writers: u32, cache: *mut Handle, clients: *mut Handle, clients_len: usize) -> u32;
    pub(crate) fn segcache_raw_open_items(items: u32, mean_bytes: u32, cache: *mut Handle, clients: *mut Handle, clients_len: usize) -> u32;
    pub(crate) fn segcache_raw_open_bytes(bytes: u64, cache: *mut Handle, clients: *mut Handle, clients_len: usize) -> u32;
    pub(crate) fn segcache_raw_open_shape(shape: *const crate::Shape, cache: *mut Handle, clients: *mut Handle, clients_len: usize) -> u32;
    pub(crate) fn segcache_raw_get(client: *mut Handle, key: *const u8, key_len: usize, value: *mut u8, room: usize, value_len: *mut usize, now: u32) -> u32;
    pub(crate) fn segcache_raw_gets(client: *mut Handle, key: *const u8, key_len: usize, value: *mut u8, room: usize, value_len: *mut usize, version: *mut u32, now: u32) -> u32;
    pub(crate) fn segcache_raw_get_many(client: *mut Handle, keys: *const u8, keys_len: usize, lookups: *mut Lookup, count: usize, now: u32) -> u32;
    pub(crate) fn segcache_raw_gets_many(client: *mut Handle, keys: *const u8, keys_len: usize, lookups: *mut Lookup, count: usize, now: u32) -> u32;
    pub(crate) fn segcache_raw_look_ahead(client: *mut Handle, keys: *const u8, keys_len: usize, places: *const KeyPlace, places_len: usize) -> u32;
    pub(crate) fn segcache_raw_put(client: *mut Handle, key: *const u8, key_len: usize, value: *const u8, value_len: usize, now: u32) -> u32;
    pub(crate) fn segcache_raw_put_for(client: *mut Handle, key: *const u8, key_len: usize, value: *const u8, value_len: usize, seconds: u32, now: u32) -> u32;
    pub(crate) fn segcache_raw_set(client: *mut Handle, key: *const u8, key_len: usize, value: *const u8, value_len: usize, now: u32) -> u32;
    pub(crate) fn segcache_raw_add(client: *mut Handle, key: *const u8, key_len: usize, value: *const u8, value_len: usize, now: u32) -> u32;
    pub(crate) fn segcache_raw_replace(client: *mut Handle, key: *const u8, key_len: usize, value: *const u8, value_len: usize, now: u32) -> u32;
    pub(crate) fn segcache_raw_cas(client: *mut Handle, key: *const u8, key_len: usize, value: *const u8, value_len: usize, version: u32, now: u32) -> u32;
    pub(crate) fn segcache_raw_delete(client: *mut Handle, key: *const u8, key_len: usize, now: u32) -> u32;
    pub(crate) fn segcache_raw_hold(client: *mut Handle, key: *const u8, key_len: usize, now: u32) -> u32;
    pub(crate) fn segcache_raw_held_value(client: *mut Handle, value: *mut u8, room: usize, value_len: *mut usize) -> u32;
    pub(crate) fn segcache_raw_release(client: *mut Handle) -> u32;
    pub(crate) fn segcache_raw_note(client: *mut Handle, note: *mut Handle) -> u32;
    pub(crate) fn segcache_raw_learn(client: *mut Handle, note: *mut Handle) -> u32;
    pub(crate) fn segcache_raw_note_free(note: *mut Handle) -> u32;
    pub(crate) fn segcache_raw_set_time_to_live(client: *mut Handle, seconds: u32) -> u32;
    pub(crate) fn segcache_raw_keep_from(client: *mut Handle, cutoff: u32) -> u32;
    pub(crate) fn segcache_raw_make_room(client: *mut Handle, now: u32) -> u32;
    pub(crate) fn segcache_raw_stats(client: *mut Handle, counts: *mut crate::Stats) -> u32;
    pub(crate) fn segcache_raw_index_stats(client: *mut Handle, counts: *mut crate::IndexStats) -> u32;
    pub(crate) fn segcache_raw_give_back(cache: *mut Handle, client: *mut Handle) -> u32;
    pub(crate) fn segcache_raw_close(cache: *mut Handle, cursor: *mut Handle) -> u32;
    pub(crate) fn segcache_raw_next(cursor: *mut Handle, key: *mut u8, key_room: usize, key_len: *mut usize, value: *mut u8, value_room: usize, value_len: *mut usize) -> u32;
    pub(crate) fn segcache_raw_cursor_free(cursor: *mut Handle) -> u32;
    pub(crate) fn segcache_raw_free(cache: *mut Handle) -> u32;
}
