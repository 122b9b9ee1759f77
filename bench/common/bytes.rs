// SPDX-License-Identifier: MIT
//! Keys, values and entries of the stores in Rust, and the rules of writes: those of `bytes.hpp` and `store.hpp`.

use std::hash::{Hash, Hasher};

#[repr(C)]
#[derive(Clone, Copy, PartialEq, Eq)]
pub struct Key {
    pub bytes: [u8; 24],
    pub length: u8,
}

#[repr(C)]
#[derive(Clone, Copy)]
pub struct Value {
    pub bytes: [u8; 32],
    pub length: u8,
}

#[repr(C)]
#[derive(Clone, Copy)]
pub struct Entry {
    pub value: Value,
    pub version: u32,
}

#[repr(C)]
#[derive(Clone, Copy)]
pub enum Write {
    Set,
    Add,
    Replace,
    Cas,
}

impl Hash for Key {
    fn hash<H: Hasher>(&self, state: &mut H) {
        state.write(&self.bytes[..usize::from(self.length)]);
    }
}

/// 64-bit FNV-1a.
pub struct Fnv(u64);

impl Default for Fnv {
    fn default() -> Fnv {
        Fnv(0xcbf2_9ce4_8422_2325)
    }
}

impl Hasher for Fnv {
    fn write(&mut self, bytes: &[u8]) {
        for byte in bytes {
            self.0 = (self.0 ^ u64::from(*byte)).wrapping_mul(0x100_0000_01b3);
        }
    }

    fn finish(&self) -> u64 {
        self.0
    }
}

impl Write {
    /// Whether a write is to be done, by the entry that stands under its key.
    pub fn is_allowed(self, present: Option<&Entry>, expected: u32) -> bool {
        match self {
            Write::Set => true,
            Write::Add => present.is_none(),
            Write::Replace => present.is_some(),
            Write::Cas => present.map(|entry| entry.version) == Some(expected),
        }
    }
}

impl Entry {
    /// The entry that a write leaves where one stands or none.
    pub fn after(present: Option<&Entry>, value: &Value) -> Entry {
        let version = present.map_or(1, |entry| entry.version.wrapping_add(1));
        Entry {
            value: *value,
            version,
        }
    }
}
