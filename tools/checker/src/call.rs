// SPDX-License-Identifier: MIT
//! What a thread asked in a call, and what it was told.
use crate::sets::Set;

/// How many keys a bucket has at most.
pub const KEYS: usize = 9;

/// How many threads there are at most.
pub const THREADS: usize = 8;

/// A key, by the number of its bucket and its own number there.
#[derive(Clone, Copy, Debug, PartialEq, Eq)]
pub struct Place {
    pub bucket: usize,
    pub key: usize,
}

/// A value as it was stored: its number, the segment, and the deadline of the segment.
#[derive(Clone, Copy, Debug, PartialEq, Eq)]
pub struct Item {
    pub value: u32,
    pub segment: u32,
    pub deadline: u32,
}

/// What a call on a key asked, and its answer.
#[derive(Clone, Copy, Debug, PartialEq, Eq)]
pub enum Access {
    /// The value, or none at a Miss.
    Get(Option<u32>),
    /// The value and the version, or none at a Miss.
    Gets(Option<(u32, u32)>),
    /// The value that is held from now on, or none at a Miss.
    Hold(Option<u32>),
    Set(Item),
    /// What was stored, or none at `NotStored`.
    Add(Option<Item>),
    /// What was stored, or none at `NotStored`.
    Replace(Option<Item>),
    Cas {
        expected: u32,
        reply: CasReply,
    },
    Delete {
        is_deleted: bool,
    },
}

/// The answer to a cas.
#[derive(Clone, Copy, Debug, PartialEq, Eq)]
pub enum CasReply {
    Stored(Item),
    Exists,
    NotFound,
}

/// Why a call on a key was refused.
#[derive(Clone, Copy, Debug, PartialEq, Eq)]
pub enum Refusal {
    /// A get or a hold was disturbed too often.
    ReadBusy,
    /// A store found the bucket's bit set too often.
    StoreBusy,
    /// A gets, a delete or a lock found the bucket's bit set too often.
    Busy,
    /// A store found no row.
    NoRoom,
    /// The store of a new key found no word.
    BucketFull,
}

/// How a keep ended.
#[derive(Clone, Copy, Debug, PartialEq, Eq)]
pub enum Ended {
    Whole,
    NoRoom,
    Busy,
}

/// The answer to one of several gets: the value, or none at a Miss.
#[derive(Clone, Copy, Debug, PartialEq, Eq)]
pub enum Read {
    Value(Option<u32>),
    Busy,
}

/// What a call of a client did to its segments, which it recycles unseen.
#[derive(Clone, Copy, Debug, PartialEq, Eq)]
pub struct Recycled {
    /// One number for all segments of the client.
    pub segment: u32,
    /// How many keys were evicted.
    pub taken: u32,
    /// How many items were moved within the segments.
    pub kept: u32,
    /// Whether a segment was refilled.
    pub has_refilled: bool,
}

/// How a put ended.
#[derive(Clone, Copy, Debug, PartialEq, Eq)]
pub enum PutEnd {
    Stored(Item),
    Refused(Refusal),
}

/// What a call asked, and its answer.
#[derive(Clone, Copy, Debug, PartialEq, Eq)]
pub enum Operation {
    /// A call on a key, at the moment `now`.
    OnKey {
        place: Place,
        now: u32,
        access: Access,
    },
    /// A call on a key that was refused. It changes nothing.
    Refused {
        place: Place,
        refusal: Refusal,
    },
    /// The value that the thread holds, of a key of this bucket.
    Held {
        bucket: usize,
        value: u32,
    },
    /// The end of a hold.
    Release {
        bucket: usize,
    },
    Lock {
        bucket: usize,
    },
    Unlock {
        bucket: usize,
    },
    /// So many keys were taken out of the segment. If the evict was whole, none stands there afterwards.
    Evict {
        segment: u32,
        taken: u32,
        is_whole: bool,
    },
    /// So many items were moved from the segment into another one, which has the same deadline.
    /// Each had at least the cutoff as its frequency.
    Keep {
        segment: u32,
        into: u32,
        cutoff: u8,
        taken: u32,
        ended: Ended,
    },
    Refill {
        segment: u32,
        deadline: u32,
    },
    /// A refill that was refused: an item of the segment was read or held, or else the segment was in use.
    RefillRefused {
        segment: u32,
        is_held: bool,
    },
    /// Gets of all keys of a bucket at one moment, one after the other.
    GetMany {
        bucket: usize,
        now: u32,
        reads: [Read; KEYS],
    },
    /// A client's put, which can evict keys of any bucket before it stores its own.
    Put {
        place: Place,
        now: u32,
        recycled: Recycled,
        ended: PutEnd,
    },
    /// A client's store that makes no room, but clears rows of its segments once it stored.
    ClearingStore {
        place: Place,
        now: u32,
        access: Access,
        recycled: Recycled,
    },
    /// A client's call that makes room, and whether it did.
    MakeRoom {
        recycled: Recycled,
        is_made: bool,
    },
}

/// A call of a thread.
/// The stamps are of one counter for all threads. One is drawn before the call, and one after its return.
#[derive(Clone, Copy, Debug, PartialEq, Eq)]
pub struct Call {
    pub called: u64,
    pub returned: u64,
    pub operation: Operation,
}

impl Access {
    /// Whether the call is a store or a delete, which sets the bucket's bit.
    fn writes(&self) -> bool {
        !matches!(self, Access::Get(_) | Access::Gets(_) | Access::Hold(_))
    }

    /// Whether the call was to store an item.
    pub fn is_store(&self) -> bool {
        self.writes() && !matches!(self, Access::Delete { .. })
    }

    /// The item that the call stored, if it stored one.
    pub fn stored(&self) -> Option<Item> {
        match *self {
            Access::Set(item) | Access::Cas { reply: CasReply::Stored(item), .. } => Some(item),
            Access::Add(stored) | Access::Replace(stored) => stored,
            _ => None,
        }
    }

    /// Whether the answer says that the key was absent.
    pub fn misses(&self) -> bool {
        matches!(
            self,
            Access::Get(None)
                | Access::Gets(None)
                | Access::Hold(None)
                | Access::Add(Some(_))
                | Access::Replace(None)
                | Access::Cas { reply: CasReply::NotFound, .. }
                | Access::Delete { is_deleted: false }
        )
    }

    /// Whether the call changes the cache, or lets the thread hold an item.
    fn changes(&self) -> bool {
        match self {
            Access::Hold(found) => found.is_some(),
            Access::Delete { is_deleted } => *is_deleted,
            _ => self.stored().is_some(),
        }
    }

    /// Whether the call can have made its bucket's chain longer.
    fn can_grow(&self) -> bool {
        matches!(self, Access::Set(_) | Access::Add(Some(_)))
    }
}

impl Operation {
    /// The bucket that the operation is of, or none if it is of all buckets.
    pub fn bucket(&self) -> Option<usize> {
        match *self {
            Operation::OnKey { place, .. }
            | Operation::Refused { place, .. }
            | Operation::Put { place, .. }
            | Operation::ClearingStore { place, .. } => Some(place.bucket),
            Operation::Held { bucket, .. }
            | Operation::Release { bucket }
            | Operation::Lock { bucket }
            | Operation::Unlock { bucket }
            | Operation::GetMany { bucket, .. } => Some(bucket),
            Operation::Evict { .. }
            | Operation::Keep { .. }
            | Operation::Refill { .. }
            | Operation::RefillRefused { .. }
            | Operation::MakeRoom { .. } => None,
        }
    }

    /// The one bucket that the operation bears on, if it is of one alone.
    pub fn only_bucket(&self) -> Option<usize> {
        self.bucket().filter(|_| self.recycled().is_none())
    }

    /// What the operation recycled, if it is a client's call that recycles segments.
    pub fn recycled(&self) -> Option<Recycled> {
        match *self {
            Operation::Put { recycled, .. }
            | Operation::ClearingStore { recycled, .. }
            | Operation::MakeRoom { recycled, .. } => Some(recycled),
            _ => None,
        }
    }

    /// Whether the operation depends on this bucket's state, or changes it.
    pub fn is_of(&self, number: usize) -> bool {
        match *self {
            Operation::Refused { place, refusal } => refusal == Refusal::BucketFull && place.bucket == number,
            Operation::RefillRefused { .. } => false,
            _ if self.recycled().is_some() => self.taken().is_some() || self.ends_in(number),
            _ => self.bucket().is_none_or(|bucket| bucket == number),
        }
    }

    /// Whether the operation is a client's that stored in this bucket, or a put that found it full.
    fn ends_in(&self, number: usize) -> bool {
        match self {
            Operation::ClearingStore { place, .. }
            | Operation::Put {
                place, ended: PutEnd::Stored(_) | PutEnd::Refused(Refusal::BucketFull), ..
            } => place.bucket == number,
            _ => false,
        }
    }

    /// The segments in which the operation can be inside while keys of this bucket stand in these,
    /// and items of it are held in those. A release is taken early, and can leave late.
    pub fn inside(&self, number: usize, stood: Set, held: Set) -> Set {
        if self.bucket() != Some(number) {
            return Set::default();
        }
        match self {
            Operation::OnKey { .. }
            | Operation::Refused { .. }
            | Operation::GetMany { .. }
            | Operation::ClearingStore { .. } => stood,
            Operation::Release { .. } => held,
            _ => Set::default(),
        }
    }

    /// Whether nothing is lost by taking the operation as soon as it is allowed:
    /// whatever could come next without it can come next after it.
    pub fn is_free(&self) -> bool {
        match self {
            Operation::OnKey { access, .. } => !access.changes(),
            Operation::Lock { .. } => false,
            _ => self.recycled().is_none(),
        }
    }

    /// Whether the operation's answer says that its key was absent.
    pub fn misses(&self) -> bool {
        matches!(self, Operation::OnKey { access, .. } if access.misses())
    }

    /// How many keys the operation took out of its segment, one after the other, if it is an evict or a
    /// keep, or a client's call that took any.
    pub fn taken(&self) -> Option<u32> {
        match *self {
            Operation::Evict { taken, .. } | Operation::Keep { taken, .. } => Some(taken),
            _ => self.recycled().map(|recycled| recycled.taken).filter(|taken| *taken > 0),
        }
    }

    /// The segment out of which the operation took every key, if there is one.
    pub fn emptied(&self) -> Option<u32> {
        match *self {
            Operation::Evict { segment, is_whole: true, .. }
            // Every item has the frequency 1 at least.
            | Operation::Keep { segment, cutoff: 0 | 1, ended: Ended::Whole, .. } => Some(segment),
            _ => None,
        }
    }

    /// Whether the operation can return though keys of this bucket still stand in its segment.
    /// A client's can't where it stored, or found the bucket full.
    pub fn is_cut_off(&self, number: usize) -> bool {
        self.taken().is_some() && self.emptied().is_none() && !self.ends_in(number)
    }

    /// Whether the operation can take this key of the bucket out once it was taken there, or before.
    /// A client that stored another key clears a segment then. Only a put evicts before, too.
    pub fn can_take_out(&self, bucket: usize, key: usize, is_done: bool) -> bool {
        match *self {
            Operation::Put { place, ended: PutEnd::Stored(_), .. } => !is_done || place.key != key,
            Operation::ClearingStore { place, .. } => place.bucket != bucket || is_done && place.key != key,
            _ => !is_done,
        }
    }

    /// Whether the operation can set the bit of this bucket. Keys of these segments can stand there.
    pub fn sets_bit(&self, number: usize, stood: Set) -> bool {
        let is_here = self.bucket() == Some(number);
        match *self {
            Operation::OnKey { access, .. } => is_here && access.writes(),
            Operation::Refused { refusal, .. } => is_here && refusal == Refusal::BucketFull,
            // An unlock is taken early, and can clear the bit late.
            Operation::Lock { .. } | Operation::Unlock { .. } => is_here,
            Operation::Evict { segment, .. } | Operation::Keep { segment, .. } => stood.has(segment),
            _ => self.recycled().is_some_and(|recycled| is_here || stood.has(recycled.segment)),
        }
    }

    /// How many entries of this bucket's keys the operation can have added, at most.
    pub fn entries(&self, number: usize) -> u64 {
        let is_here = self.bucket() == Some(number);
        match (self, self.recycled()) {
            (Operation::OnKey { access, .. }, _) => u64::from(is_here && access.writes()),
            // A put sets twice at most in a bucket that isn't busy, the first time in vain.
            (_, Some(Recycled { taken, kept, .. })) => {
                u64::from(taken) + u64::from(kept) + if is_here { 2 } else { 0 }
            }
            _ => u64::from(self.taken().unwrap_or(0)),
        }
    }

    /// Whether the operation can have made its bucket's chain longer.
    pub fn can_grow(&self) -> bool {
        match self {
            Operation::OnKey { access, .. } | Operation::ClearingStore { access, .. } => access.can_grow(),
            Operation::Put { ended, .. } => matches!(ended, PutEnd::Stored(_)),
            _ => false,
        }
    }
}
