// SPDX-License-Identifier: MIT
//! What the unit tests have in place of the library: each function writes down what it was handed, and returns the
//! status that it was told. So they see what no run of the cache shows, as the moment of a set, and an answer that is
//! Busy. A handle is its number here.
use crate::raw::{Handle, KeyPlace, Lookup};
use crate::{IndexStats, Shape, Stats, Version, MAX_KEY, MAX_VALUE, SIZES};
use std::cell::{Cell, RefCell};

/// What is read where a call writes a value: the first bytes of the buffer.
pub(crate) const VALUE: &[u8] = b"value";

/// The status of a call whose buffer is too short.
pub(crate) const SHORT_BUFFER: u32 = 10;

/// The status of a call whose handle is none.
pub(crate) const NO_HANDLE: u32 = 13;

/// The version that is written.
pub(crate) const VERSION: Version = Version(77);

thread_local! {
    static CALLS: RefCell<Vec<String>> = const { RefCell::new(Vec::new()) };
    static STATUS: Cell<u32> = const { Cell::new(0) };
    static LOSES: Cell<bool> = const { Cell::new(false) };
    static LIBRARY: Cell<u32> = const { Cell::new(crate::VERSION_NUMBER) };
    static LIBRARY_SIZES: Cell<u32> = const { Cell::new(SIZES) };
}

/// Sets the version of the library that is made up.
pub(crate) fn be_of_version(number: u32) {
    LIBRARY.with(|it| it.set(number));
}

pub(crate) unsafe extern "C" fn segcache_raw_version() -> u32 {
    LIBRARY.with(Cell::get)
}

/// Sets the longest key and value of the library that is made up.
pub(crate) fn be_of_sizes(key: u32, value: u32) {
    LIBRARY_SIZES.with(|it| it.set(key << 16 | value));
}

pub(crate) unsafe extern "C" fn segcache_raw_sizes() -> u32 {
    LIBRARY_SIZES.with(Cell::get)
}

/// Sets what the calls of this thread return from now on.
pub(crate) fn answer(status: u32) {
    STATUS.with(|it| it.set(status));
}

/// Whether a close that fails loses the cache from now on.
pub(crate) fn lose(loses: bool) {
    LOSES.with(|it| it.set(loses));
}

/// The calls of this thread since the last time.
pub(crate) fn calls() -> Vec<String> {
    CALLS.with(RefCell::take)
}

fn status() -> u32 {
    STATUS.with(Cell::get)
}

fn tell(call: String) -> u32 {
    CALLS.with(|calls| calls.borrow_mut().push(call));
    status()
}

unsafe fn text<'t>(at: *const u8, length: usize) -> &'t str {
    std::str::from_utf8(std::slice::from_raw_parts(at, length)).unwrap()
}

unsafe fn number(handle: *mut Handle) -> usize {
    (*handle).at as usize
}

/// Fills handles if the status is 0, and numbers them.
unsafe fn fill(handles: *mut Handle, count: usize, from: usize) {
    for place in 0..count {
        if status() == 0 {
            *handles.add(place) = Handle { at: (from + place) as *mut u8, full: true };
        }
    }
}

/// Writes the value, if the status is 0, and its length, also if the buffer is too short.
unsafe fn write(value: *mut u8, room: usize, length: *mut usize) {
    if status() == 0 {
        assert!(room >= VALUE.len());
        value.copy_from(VALUE.as_ptr(), VALUE.len());
    }
    if status() == 0 || status() == SHORT_BUFFER {
        *length = VALUE.len();
    }
}

/// Each lookup's status, a value and a version. A call without a handle leaves them.
unsafe fn write_each(lookups: *mut Lookup, count: usize, version: u32) {
    for lookup in std::slice::from_raw_parts_mut(lookups, count) {
        if status() != NO_HANDLE {
            lookup.status = status();
            lookup.value[..VALUE.len()].copy_from_slice(VALUE);
            lookup.value_len = VALUE.len();
            lookup.version = version;
        }
    }
}

/// What a call of many keys returns, whatever the lookups have.
fn tell_many(call: String) -> u32 {
    if tell(call) == NO_HANDLE {
        NO_HANDLE
    } else {
        0
    }
}

/// The keys that the lookups name.
unsafe fn keys_of(keys: *const u8, length: usize, lookups: *mut Lookup, count: usize) -> Vec<String> {
    let bytes = std::slice::from_raw_parts(keys, length);
    let lookups = std::slice::from_raw_parts(lookups, count);
    lookups.iter().map(|it| String::from_utf8_lossy(&bytes[it.key_at..][..it.key_len]).into()).collect()
}

pub(crate) unsafe extern "C" fn segcache_raw_open(
    keys: u32,
    threads: u32,
    cache: *mut Handle,
    clients: *mut Handle,
    clients_len: usize,
) -> u32 {
    fill(cache, 1, 1);
    fill(clients, clients_len, 100);
    tell(format!("open {keys} {threads} {clients_len}"))
}

pub(crate) unsafe extern "C" fn segcache_raw_open_for_writers(
    keys: u32,
    writers: u32,
    cache: *mut Handle,
    clients: *mut Handle,
    clients_len: usize,
) -> u32 {
    fill(cache, 1, 1);
    fill(clients, clients_len, 100);
    tell(format!("open_for_writers {keys} {writers} {clients_len}"))
}

pub(crate) unsafe extern "C" fn segcache_raw_open_items(
    items: u32,
    mean_bytes: u32,
    cache: *mut Handle,
    clients: *mut Handle,
    clients_len: usize,
) -> u32 {
    fill(cache, 1, 1);
    fill(clients, clients_len, 100);
    tell(format!("open_items {items} {mean_bytes} {clients_len}"))
}

pub(crate) unsafe extern "C" fn segcache_raw_open_bytes(
    bytes: u64,
    cache: *mut Handle,
    clients: *mut Handle,
    clients_len: usize,
) -> u32 {
    fill(cache, 1, 1);
    fill(clients, clients_len, 100);
    tell(format!("open_bytes {bytes} {clients_len}"))
}

pub(crate) unsafe extern "C" fn segcache_raw_open_shape(
    shape: *const Shape,
    cache: *mut Handle,
    clients: *mut Handle,
    clients_len: usize,
) -> u32 {
    fill(cache, 1, 1);
    fill(clients, clients_len, 100);
    tell(format!("open_shape {:?} {clients_len}", *shape))
}

pub(crate) unsafe extern "C" fn segcache_raw_get(
    client: *mut Handle,
    key: *const u8,
    key_len: usize,
    value: *mut u8,
    room: usize,
    value_len: *mut usize,
    now: u32,
) -> u32 {
    write(value, room, value_len);
    tell(format!("get {} {} {now}, {room}", number(client), text(key, key_len)))
}

#[allow(clippy::too_many_arguments)]
pub(crate) unsafe extern "C" fn segcache_raw_gets(
    client: *mut Handle,
    key: *const u8,
    key_len: usize,
    value: *mut u8,
    room: usize,
    value_len: *mut usize,
    version: *mut u32,
    now: u32,
) -> u32 {
    write(value, room, value_len);
    *version = VERSION.0;
    tell(format!("gets {} {} {now}, {room}", number(client), text(key, key_len)))
}

pub(crate) unsafe extern "C" fn segcache_raw_get_many(
    client: *mut Handle,
    keys: *const u8,
    keys_len: usize,
    lookups: *mut Lookup,
    count: usize,
    now: u32,
) -> u32 {
    write_each(lookups, count, 0);
    let keys = keys_of(keys, keys_len, lookups, count);
    tell_many(format!("get_many {} {keys:?} {now}", number(client)))
}

pub(crate) unsafe extern "C" fn segcache_raw_gets_many(
    client: *mut Handle,
    keys: *const u8,
    keys_len: usize,
    lookups: *mut Lookup,
    count: usize,
    now: u32,
) -> u32 {
    write_each(lookups, count, VERSION.0);
    let keys = keys_of(keys, keys_len, lookups, count);
    tell_many(format!("gets_many {} {keys:?} {now}", number(client)))
}

/// It is Ok, whatever the next calls return.
pub(crate) unsafe extern "C" fn segcache_raw_look_ahead(
    client: *mut Handle,
    keys: *const u8,
    keys_len: usize,
    places: *const KeyPlace,
    places_len: usize,
) -> u32 {
    let bytes = std::slice::from_raw_parts(keys, keys_len);
    let places = std::slice::from_raw_parts(places, places_len);
    let keys: Vec<_> =
        places.iter().map(|it| String::from_utf8_lossy(&bytes[it.key_at..][..it.key_len])).collect();
    assert_eq!(keys_len, places.iter().map(|it| it.key_len).sum());
    tell(format!("look_ahead {} {keys:?}", number(client)));
    0
}

macro_rules! writes {
    ($($function:ident $name:literal;)*) => { $(
        pub(crate) unsafe extern "C" fn $function(
            client: *mut Handle,
            key: *const u8,
            key_len: usize,
            value: *const u8,
            value_len: usize,
            now: u32,
        ) -> u32 {
            let (key, value) = (text(key, key_len), text(value, value_len));
            tell(format!("{} {} {key} {value} {now}", $name, number(client)))
        }
    )* };
}

writes! {
    segcache_raw_put "put";
    segcache_raw_set "set";
    segcache_raw_add "add";
    segcache_raw_replace "replace";
}

pub(crate) unsafe extern "C" fn segcache_raw_put_for(
    client: *mut Handle,
    key: *const u8,
    key_len: usize,
    value: *const u8,
    value_len: usize,
    seconds: u32,
    now: u32,
) -> u32 {
    let (key, value) = (text(key, key_len), text(value, value_len));
    tell(format!("put_for {} {key} {value} {seconds} {now}", number(client)))
}

pub(crate) unsafe extern "C" fn segcache_raw_cas(
    client: *mut Handle,
    key: *const u8,
    key_len: usize,
    value: *const u8,
    value_len: usize,
    version: u32,
    now: u32,
) -> u32 {
    let (key, value) = (text(key, key_len), text(value, value_len));
    tell(format!("cas {} {key} {value} {version} {now}", number(client)))
}

pub(crate) unsafe extern "C" fn segcache_raw_delete(
    client: *mut Handle,
    key: *const u8,
    key_len: usize,
    now: u32,
) -> u32 {
    tell(format!("delete {} {} {now}", number(client), text(key, key_len)))
}

pub(crate) unsafe extern "C" fn segcache_raw_hold(
    client: *mut Handle,
    key: *const u8,
    key_len: usize,
    now: u32,
) -> u32 {
    tell(format!("hold {} {} {now}", number(client), text(key, key_len)))
}

pub(crate) unsafe extern "C" fn segcache_raw_held_value(
    client: *mut Handle,
    value: *mut u8,
    room: usize,
    value_len: *mut usize,
) -> u32 {
    assert_eq!(room, MAX_VALUE);
    write(value, room, value_len);
    tell(format!("held_value {}", number(client)))
}

pub(crate) unsafe extern "C" fn segcache_raw_note(client: *mut Handle, note: *mut Handle) -> u32 {
    fill(note, 1, 200);
    tell(format!("note {}", number(client)))
}

pub(crate) unsafe extern "C" fn segcache_raw_set_time_to_live(client: *mut Handle, seconds: u32) -> u32 {
    tell(format!("set_time_to_live {} {seconds}", number(client)))
}

pub(crate) unsafe extern "C" fn segcache_raw_keep_from(client: *mut Handle, cutoff: u32) -> u32 {
    tell(format!("keep_from {} {cutoff}", number(client)))
}

pub(crate) unsafe extern "C" fn segcache_raw_make_room(client: *mut Handle, now: u32) -> u32 {
    tell(format!("make_room {} {now}", number(client)))
}

pub(crate) unsafe extern "C" fn segcache_raw_stats(client: *mut Handle, counts: *mut Stats) -> u32 {
    (*counts).hits = 9;
    tell(format!("stats {}", number(client)))
}

pub(crate) unsafe extern "C" fn segcache_raw_index_stats(
    client: *mut Handle,
    counts: *mut IndexStats,
) -> u32 {
    (*counts).used_rows = 9;
    tell(format!("index_stats {}", number(client)))
}

pub(crate) unsafe extern "C" fn segcache_raw_close(cache: *mut Handle, cursor: *mut Handle) -> u32 {
    fill(cursor, 1, 300);
    if status() == 0 || LOSES.with(Cell::get) {
        *cache = Handle::none();
    }
    tell("close".into())
}

pub(crate) unsafe extern "C" fn segcache_raw_next(
    cursor: *mut Handle,
    key: *mut u8,
    key_room: usize,
    key_len: *mut usize,
    value: *mut u8,
    value_room: usize,
    value_len: *mut usize,
) -> u32 {
    assert_eq!((key_room, value_room), (MAX_KEY, MAX_VALUE));
    write(value, value_room, value_len);
    key.copy_from(b"key".as_ptr(), 3);
    *key_len = 3;
    tell(format!("next {}", number(cursor)))
}

macro_rules! handles {
    ($($function:ident $name:literal ($($handle:ident),*);)*) => { $(
        pub(crate) unsafe extern "C" fn $function($($handle: *mut Handle),*) -> u32 {
            let numbers = [$(number($handle).to_string()),*];
            tell(format!("{} {}", $name, numbers.join(" ")))
        }
    )* };
}

handles! {
    segcache_raw_release "release" (client);
    segcache_raw_learn "learn" (client, note);
    segcache_raw_note_free "note_free" (note);
    segcache_raw_give_back "give_back" (cache, client);
    segcache_raw_cursor_free "cursor_free" (cursor);
    segcache_raw_free "free" (cache);
}
