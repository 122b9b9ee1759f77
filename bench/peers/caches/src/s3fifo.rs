// SPDX-License-Identifier: MIT
//! S3-FIFO in shards: a small queue, a main one for what was hit twice in it, and a memory of what left the small one.
//! A get only counts a hit, so gets share a shard's lock.

use crate::bytes::{Entry, Fnv, Key, Value, Write};
use crate::{hash_of, room_of_shard, shard_of, SHARDS};
use std::collections::{HashMap, VecDeque};
use std::hash::BuildHasherDefault;
use std::sync::atomic::{AtomicU8, Ordering::Relaxed};
use std::sync::RwLock;

/// Hits of an item count up to this.
const MOST_HITS: u8 = 3;

/// So many hits in the small queue take an item to the main one.
const HITS_TO_STAY: u8 = 2;

struct Node {
    key: Key,
    /// None once the key was deleted. The node stays in its queue until its turn, for the same key.
    entry: Option<Entry>,
    hits: AtomicU8,
}

/// Which keys left the small queue last, by their hashes. One may be forgotten for another in its place.
struct Ghosts {
    /// Other bits of the hash than those of the place, and when it left; 0 if none did.
    left: Vec<(u32, u32)>,
    now: u32,
}

impl Ghosts {
    fn place(&self, hash: u64) -> usize {
        (hash >> 7) as usize & (self.left.len() - 1)
    }

    fn add(&mut self, hash: u64) {
        let place = self.place(hash);
        self.now += 1;
        self.left[place] = ((hash >> 32) as u32, self.now);
    }

    /// Whether the key was among the last so many. It is forgotten then.
    fn take(&mut self, hash: u64, last: usize) -> bool {
        let place = self.place(hash);
        let (tag, at) = self.left[place];
        let is_there = at > 0 && tag == (hash >> 32) as u32 && self.now - at < last as u32;
        if is_there {
            self.left[place] = (0, 0);
        }
        is_there
    }
}

struct Queues {
    room: usize,
    small_room: usize,
    places: HashMap<Key, u32, BuildHasherDefault<Fnv>>,
    nodes: Vec<Node>,
    small: VecDeque<u32>,
    main: VecDeque<u32>,
    ghosts: Ghosts,
}

impl Queues {
    fn new(room: usize) -> Queues {
        let small_room = (room / 10).max(1);
        let ghosts = (room - small_room).max(1).next_power_of_two();
        Queues {
            room,
            small_room,
            places: HashMap::with_capacity_and_hasher(room, Default::default()),
            nodes: Vec::with_capacity(room),
            small: VecDeque::new(),
            main: VecDeque::new(),
            ghosts: Ghosts {
                left: vec![(0, 0); ghosts],
                now: 0,
            },
        }
    }

    fn find(&self, key: &Key) -> Option<(u32, &Entry)> {
        let place = *self.places.get(key)?;
        let node = &self.nodes[place as usize];
        let entry = node.entry.as_ref()?;
        if node.hits.load(Relaxed) < MOST_HITS {
            node.hits.fetch_add(1, Relaxed);
        }
        Some((place, entry))
    }

    fn write(&mut self, write: Write, key: &Key, value: &Value, expected: u32, hash: u64) -> bool {
        let found = self.find(key);
        let present = found.map(|(_, entry)| entry);
        if !write.is_allowed(present, expected) {
            return false;
        }
        let entry = Entry::after(present, value);
        match found
            .map(|(place, _)| place)
            .or_else(|| self.places.get(key).copied())
        {
            Some(place) => self.nodes[place as usize].entry = Some(entry),
            None => self.add(key, entry, hash),
        }
        true
    }

    /// Stores a key that has no node.
    fn add(&mut self, key: &Key, entry: Entry, hash: u64) {
        let node = Node {
            key: *key,
            entry: Some(entry),
            hits: AtomicU8::new(0),
        };
        let place = if self.nodes.len() < self.room {
            self.nodes.push(node);
            self.nodes.len() as u32 - 1
        } else {
            let place = self.evict();
            self.nodes[place as usize] = node;
            place
        };
        self.places.insert(*key, place);
        if self.ghosts.take(hash, self.room - self.small_room) {
            self.main.push_back(place);
        } else {
            self.small.push_back(place);
        }
    }

    /// The place of the item that had to go.
    fn evict(&mut self) -> u32 {
        if self.small.len() > self.small_room || self.main.is_empty() {
            while let Some(place) = self.small.pop_front() {
                let node = &mut self.nodes[place as usize];
                if node.entry.is_none() || *node.hits.get_mut() < HITS_TO_STAY {
                    self.ghosts.add(hash_of(&node.key));
                    self.places.remove(&node.key);
                    return place;
                }
                *node.hits.get_mut() = 0;
                self.main.push_back(place);
            }
        }
        loop {
            let place = self.main.pop_front().expect("the queues hold all nodes");
            let node = &mut self.nodes[place as usize];
            if node.entry.is_none() || *node.hits.get_mut() == 0 {
                self.places.remove(&node.key);
                return place;
            }
            *node.hits.get_mut() -= 1;
            self.main.push_back(place);
        }
    }
}

#[repr(align(64))]
struct Shard(RwLock<Queues>);

pub struct Cache(Vec<Shard>);

/// A cache with so much room, or room for all of so many keys. It is never freed.
#[no_mangle]
pub extern "C" fn s3fifo_new(keys: u32, room: u32) -> &'static Cache {
    let shard = |number| Shard(RwLock::new(Queues::new(room_of_shard(keys, room, number))));
    Box::leak(Box::new(Cache((0..SHARDS).map(shard).collect())))
}

/// Whether the key was found. Its entry is then written to `found`.
#[no_mangle]
pub extern "C" fn s3fifo_get(cache: &Cache, key: &Key, found: &mut Entry) -> bool {
    let queues = cache.0[shard_of(hash_of(key))].0.read().unwrap();
    match queues.find(key) {
        Some((_, entry)) => {
            *found = *entry;
            true
        }
        None => false,
    }
}

/// Whether the write was done.
#[no_mangle]
pub extern "C" fn s3fifo_write(
    cache: &Cache,
    write: Write,
    key: &Key,
    value: &Value,
    expected: u32,
) -> bool {
    let hash = hash_of(key);
    let mut queues = cache.0[shard_of(hash)].0.write().unwrap();
    queues.write(write, key, value, expected, hash)
}

/// Whether there was such a key.
#[no_mangle]
pub extern "C" fn s3fifo_remove(cache: &Cache, key: &Key) -> bool {
    let mut queues = cache.0[shard_of(hash_of(key))].0.write().unwrap();
    match queues.places.get(key).copied() {
        Some(place) => queues.nodes[place as usize].entry.take().is_some(),
        None => false,
    }
}
