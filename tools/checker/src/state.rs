// SPDX-License-Identifier: MIT
//! A bucket of a cache of one thread, and which of the calls that are under way have been taken there.
use crate::call::{Access, CasReply, Item, KEYS, Operation, PutEnd, Read, Refusal, THREADS};
use crate::replay::Rules;
use crate::sets::Set;
use std::mem;

/// How many words a bucket of a chain has for keys. The last of the chain has one more. A chain can have four
/// buckets, which so few keys never need.
const WORDS: u32 = 6;

/// The highest cutoff that a keep can have here. Frequencies from it on count as this one.
pub const HIGHEST_CUTOFF: u8 = 4;

/// An item that stands under a key.
#[derive(Clone, Copy, PartialEq, Eq)]
struct Standing {
    item: Item,
    /// The highest frequency that the item can have. A hit needn't count.
    frequency: u8,
}

/// What a state has of a thread.
#[derive(Clone, Copy, Default, PartialEq, Eq)]
struct Hand {
    /// Whether the call that is under way has been taken.
    is_done: bool,
    /// How many keys of this bucket the thread's evict or keep took out of its segment.
    taken: u32,
    /// How many of the keys the thread's several gets have read.
    read: usize,
    /// The item that the thread holds, of a key of this bucket.
    held: Option<Item>,
}

/// A bucket as it can be at one moment.
#[derive(Clone, Copy, PartialEq, Eq)]
pub struct State {
    items: [Option<Standing>; KEYS],
    /// How many buckets the chain has.
    width: u32,
    version: u32,
    /// The frequency of an item that is stored.
    first: u8,
    /// Whether a key can go at any moment, which nobody is told.
    evicts_unseen: bool,
    is_locked: bool,
    hands: [Hand; THREADS],
}

impl State {
    /// A state in which no key stands.
    pub fn new(rules: &Rules) -> State {
        State {
            items: [None; KEYS],
            width: 1,
            version: rules.first_version,
            first: rules.first_frequency(),
            evicts_unseen: rules.evicts_unseen,
            is_locked: false,
            hands: [Hand::default(); THREADS],
        }
    }

    /// Whether the thread's call has been taken.
    pub fn is_done(&self, thread: usize) -> bool {
        self.hands[thread].is_done
    }

    /// How many buckets the chain has.
    pub fn width(&self) -> u32 {
        self.width
    }

    pub fn is_locked(&self) -> bool {
        self.is_locked
    }

    /// The segments in which a key stands.
    pub fn stood(&self) -> Set {
        self.items.iter().flatten().map(|standing| Set::of(standing.item.segment)).collect()
    }

    /// The segments of which an item is held.
    pub fn held(&self) -> Set {
        self.held_beside(THREADS)
    }

    /// The segments of which another thread than this one holds an item.
    pub fn held_beside(&self, thread: usize) -> Set {
        let others = self.hands.iter().enumerate().filter(|(other, _)| *other != thread);
        others.filter_map(|(_, hand)| hand.held).map(|item| Set::of(item.segment)).collect()
    }

    /// Whether just these values stand, each under its key.
    pub fn has_just(&self, values: &[Option<u32>; KEYS]) -> bool {
        self.items.iter().map(|standing| standing.map(|it| it.item.value)).eq(values.iter().copied())
    }

    /// How many keys the thread's evict or keep took out.
    pub fn taken(&self, thread: usize) -> u32 {
        self.hands[thread].taken
    }

    /// The state once the thread's call has returned.
    pub fn returned(mut self, thread: usize) -> State {
        self.hands[thread].is_done = false;
        self
    }

    /// The same state, with nothing taken out by the thread.
    pub fn counted(mut self, thread: usize) -> State {
        self.hands[thread].taken = 0;
        self
    }

    /// Whether nothing is lost by taking the operation here as soon as it is allowed. A miss can evict.
    pub fn takes_freely(&self, operation: &Operation) -> bool {
        operation.is_free() && !(self.evicts_unseen && operation.misses())
    }

    /// The state after the whole of a thread's operation, if the cache allows this answer here.
    /// Of several gets, it is the state after those that it allows one after the other.
    pub fn after(&self, thread: usize, operation: &Operation) -> Option<State> {
        let mut next = *self;
        let hand = &mut next.hands[thread];
        hand.is_done = true;
        let is_allowed = match operation {
            Operation::OnKey { place, now, access } | Operation::ClearingStore { place, now, access, .. } => {
                next.access(thread, place.key, *now, access)
            }
            Operation::Held { value, .. } => hand.held.is_some_and(|item| item.value == *value),
            Operation::Release { .. } => hand.held.take().is_some(),
            Operation::Lock { .. } => !mem::replace(&mut next.is_locked, true),
            Operation::Unlock { .. } => mem::replace(&mut next.is_locked, false),
            Operation::Refused { place, refusal } => {
                *refusal != Refusal::BucketFull || self.is_full_for(place.key)
            }
            Operation::Evict { .. } | Operation::Keep { .. } => {
                operation.emptied().is_some_and(|segment| !self.stood().has(segment))
            }
            Operation::Refill { segment, .. } => !(self.stood() | self.held()).has(*segment),
            Operation::GetMany { now, reads, .. } => return Some(self.read_on(thread, *now, reads)),
            Operation::Put { place, ended: PutEnd::Stored(item), .. } => next.store(place.key, *item),
            Operation::Put { place, ended: PutEnd::Refused(_), .. } => self.is_full_for(place.key),
            Operation::RefillRefused { .. } | Operation::MakeRoom { .. } => true,
        };
        is_allowed.then_some(next)
    }

    /// The state once the thread's several gets have read as many keys as they can here.
    fn read_on(&self, thread: usize, now: u32, reads: &[Read; KEYS]) -> State {
        let mut next = *self;
        let hand = &mut next.hands[thread];
        let is_right = |(key, read): (usize, &Read)| match read {
            Read::Value(value) => self.present(key, now).map(|item| item.value) == *value,
            Read::Busy => true,
        };
        hand.read += reads.iter().enumerate().skip(hand.read).take_while(|read| is_right(*read)).count();
        if hand.read == reads.len() {
            hand.is_done = true;
            hand.read = 0;
        }
        next
    }

    /// The state after a thread's evict, keep or client's call took this key out of its segment, if the key
    /// stands there. It took out no more keys than it returned.
    /// A keep moves the key's item into another segment.
    pub fn without(&self, thread: usize, key: usize, operation: &Operation) -> Option<State> {
        let (segment, most, cutoff) = match *operation {
            Operation::Evict { segment, taken, .. } => (segment, taken, 0),
            Operation::Keep { segment, cutoff, taken, .. } => (segment, taken, cutoff),
            _ => operation.recycled().map(|recycled| (recycled.segment, recycled.taken, 0))?,
        };
        let old = self.items[key]?;
        let is_there = old.item.segment == segment && cutoff <= old.frequency;
        if !is_there || self.is_locked || most <= self.taken(thread) {
            return None;
        }
        let mut next = *self;
        next.items[key] = match *operation {
            Operation::Keep { into, .. } => {
                Some(Standing { item: Item { segment: into, ..old.item }, ..old })
            }
            _ => None,
        };
        next.hands[thread].taken += 1;
        Some(next)
    }

    /// Whether the cache allows this answer to a call on a key. If so, the state is then as after the call.
    fn access(&mut self, thread: usize, key: usize, now: u32, access: &Access) -> bool {
        if self.evicts_unseen && access.misses() {
            self.items[key] = None;
        }
        let present = self.present(key, now);
        let value = present.map(|item| item.value);
        match *access {
            Access::Get(read) => {
                self.hit(key, read.is_some());
                read == value
            }
            Access::Gets(read) => {
                self.hit(key, read.is_some());
                read == value.map(|value| (value, self.version))
            }
            Access::Hold(read) => {
                self.hands[thread].held = present;
                read == value
            }
            Access::Set(item) => self.store(key, item),
            Access::Add(Some(item)) => present.is_none() && self.store(key, item),
            Access::Replace(Some(item)) => present.is_some() && self.store(key, item),
            Access::Cas { expected, reply: CasReply::Stored(item) } => {
                present.is_some() && expected == self.version && self.store(key, item)
            }
            Access::Delete { is_deleted: true } => present.is_some() && self.write(key, None),
            Access::Add(None) => present.is_some() && !self.is_locked,
            Access::Cas { expected, reply: CasReply::Exists } => {
                present.is_some() && expected != self.version && !self.is_locked
            }
            Access::Replace(None)
            | Access::Cas { reply: CasReply::NotFound, .. }
            | Access::Delete { is_deleted: false } => present.is_none() && !self.is_locked,
        }
    }

    /// The item that a call at this moment finds under a key.
    fn present(&self, key: usize, now: u32) -> Option<Item> {
        self.items[key].map(|standing| standing.item).filter(|item| now < item.deadline)
    }

    /// Counts a hit of a key, if there was one.
    fn hit(&mut self, key: usize, was_hit: bool) {
        if let Some(standing) = self.items[key].as_mut().filter(|_| was_hit) {
            standing.frequency = (standing.frequency + 1).min(HIGHEST_CUTOFF);
        }
    }

    /// Stores an item under a key, and returns whether that is allowed.
    /// A new key that finds no word makes the chain longer.
    fn store(&mut self, key: usize, item: Item) -> bool {
        if self.has_no_word_for(key) {
            self.width += 1;
        }
        self.write(key, Some(Standing { item, frequency: self.first }))
    }

    /// Writes a key, and returns whether that is allowed: whether the bucket isn't locked.
    fn write(&mut self, key: usize, standing: Option<Standing>) -> bool {
        self.items[key] = standing;
        self.version = self.version.wrapping_add(1);
        !self.is_locked
    }

    /// Whether the key is new, and a bucket's chain has no word for it.
    fn has_no_word_for(&self, key: usize) -> bool {
        let standing = self.items.iter().flatten().count() as u32;
        self.items[key].is_none() && self.width * WORDS < standing
    }

    /// Whether a store of the key finds no word. Whether an overflow bucket is left isn't known here.
    fn is_full_for(&self, key: usize) -> bool {
        self.has_no_word_for(key) && !self.is_locked
    }
}
