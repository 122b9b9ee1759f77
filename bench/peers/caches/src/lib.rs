// SPDX-License-Identifier: MIT
//! Caches in Rust behind calls of C, so that the same driver measures them as the other stores: the crate `lru` behind
//! mutexes, and S3-FIFO in shards.

// Not all that DashMap needs of it is needed here.
#[allow(dead_code)]
#[path = "../../../common/bytes.rs"]
mod bytes;
mod lru_mutexes;
mod s3fifo;

use bytes::{Fnv, Key};
use std::hash::{Hash, Hasher};

/// How many shards each cache has.
pub const SHARDS: usize = 64;

pub fn hash_of(key: &Key) -> u64 {
    let mut hasher = Fnv::default();
    key.hash(&mut hasher);
    hasher.finish()
}

/// The shard of a hash, by bits that a map of a shard's size doesn't look at first.
pub fn shard_of(hash: u64) -> usize {
    (hash >> 40) as usize & (SHARDS - 1)
}

/// The room of one of the shards: the same as `room_of_shard` in `store.hpp`.
pub fn room_of_shard(keys: u32, room: u32, number: usize) -> usize {
    let (keys, room) = (keys as usize, room as usize);
    if room == 0 {
        return keys / SHARDS * 5 / 4 + 16;
    }
    (room / SHARDS + usize::from(number < room % SHARDS)).max(1)
}
