// SPDX-License-Identifier: MIT
//! Answers altered so that no cache gives them in turn. By these the checker's own strength is measured.
use crate::call::{Access, CasReply, Ended, Item, Operation, PutEnd, Read, Recycled, Refusal};
use crate::log::Kind;

/// What is made of an answer.
#[derive(Clone, Copy, Debug, PartialEq, Eq)]
pub enum Alteration {
    Opposite,
    Value,
    EarlyEnd,
    MoreKeys,
    FewerKeys,
    BusyOrHeld,
    NoRoom,
    BucketFull,
    Version,
    OneOfSeveral,
    Segment,
}

use Alteration::{
    BucketFull, BusyOrHeld, EarlyEnd, FewerKeys, MoreKeys, NoRoom, OneOfSeveral, Opposite, Segment, Value,
    Version,
};

impl Alteration {
    /// All of them, each with its name. The last one is for calls that were told a segment.
    pub const ALL: [(Alteration, &str); 11] = [
        (Opposite, "opposite"),
        (Value, "value"),
        (EarlyEnd, "early end"),
        (MoreKeys, "more keys"),
        (FewerKeys, "fewer keys"),
        (BusyOrHeld, "Busy or Held"),
        (NoRoom, "NoRoom or NotEvicted"),
        (BucketFull, "BucketFull"),
        (Version, "version"),
        (OneOfSeveral, "one of several gets"),
        (Segment, "segment"),
    ];

    /// The operation with its answer altered, if this alteration fits it.
    /// Were the calls made in turn, the altered answer can't be right, whatever the others did before.
    /// Whether a row is left for a client isn't followed, so a store of its that stored nothing can be NoRoom.
    /// Of a cache that evicts unseen every key can be absent, so only another value is sure to be wrong.
    pub fn of(self, operation: &Operation, kind: Kind) -> Option<Operation> {
        let is_open = match kind {
            Kind::Passes => false,
            Kind::Clients => self == Segment || self.is_open_to_client(operation),
            Kind::Any => self != Value,
        };
        if is_open {
            return None;
        }
        match *operation {
            Operation::OnKey { place, now, access } => match self.refusal_of(&access) {
                Some(refusal) => Some(Operation::Refused { place, refusal }),
                None => Some(Operation::OnKey { place, now, access: self.access(access)? }),
            },
            Operation::Refused { place, refusal } => {
                Some(Operation::Refused { place, refusal: self.other_refusal(refusal)? })
            }
            Operation::Held { bucket, value } if self == Value => {
                Some(Operation::Held { bucket, value: value.wrapping_add(1) })
            }
            Operation::Lock { bucket } if self == BusyOrHeld => {
                let place = crate::call::Place { bucket, key: 0 };
                Some(Operation::Refused { place, refusal: Refusal::Busy })
            }
            _ => self.of_segment(operation),
        }
    }

    /// Whether the altered answer can be right for a client, of whose rows nothing is known.
    fn is_open_to_client(self, operation: &Operation) -> bool {
        match operation {
            Operation::OnKey { access, .. } => self == NoRoom && access.stored().is_none(),
            Operation::Refused { .. } => matches!(self, NoRoom | BucketFull),
            _ => false,
        }
    }

    /// Another answer to a call on a segment.
    fn of_segment(self, operation: &Operation) -> Option<Operation> {
        match *operation {
            Operation::Evict { segment, taken, .. } if operation.emptied().is_some() => {
                Some(Operation::Evict { segment, taken: self.count(taken)?, is_whole: self != EarlyEnd })
            }
            Operation::Keep { segment, into, cutoff, taken, .. } if operation.emptied().is_some() => {
                let ended = if self == EarlyEnd { Ended::Busy } else { Ended::Whole };
                Some(Operation::Keep { segment, into, cutoff, taken: self.count(taken)?, ended })
            }
            Operation::Refill { segment, .. } => match self {
                BusyOrHeld => Some(Operation::RefillRefused { segment, is_held: true }),
                NoRoom => Some(Operation::RefillRefused { segment, is_held: false }),
                _ => None,
            },
            Operation::RefillRefused { segment, is_held } if self == BusyOrHeld => {
                Some(Operation::RefillRefused { segment, is_held: !is_held })
            }
            Operation::Put { place, now, recycled, ended } => {
                let (recycled, ended) = self.put(recycled, ended)?;
                Some(Operation::Put { place, now, recycled, ended })
            }
            Operation::ClearingStore { place, now, access, recycled } => {
                Some(Operation::ClearingStore { place, now, access, recycled: self.recycled(recycled, 1)? })
            }
            Operation::GetMany { bucket, now, mut reads } if self == OneOfSeveral => {
                reads[0] = match reads[0] {
                    Read::Value(Some(_)) => Read::Value(None),
                    Read::Value(None) => Read::Value(Some(1)),
                    Read::Busy => return None,
                };
                Some(Operation::GetMany { bucket, now, reads })
            }
            Operation::MakeRoom { recycled, is_made: true } if self == Opposite => {
                Some(Operation::MakeRoom { recycled, is_made: false })
            }
            Operation::MakeRoom { recycled, is_made } => {
                Some(Operation::MakeRoom { recycled: self.recycled(recycled, 1)?, is_made })
            }
            _ => None,
        }
    }

    /// Another answer to a put, or another number of keys that it evicted.
    /// It can evict the key that it stores, too, which nobody sees. So the number differs by two.
    fn put(self, recycled: Recycled, ended: PutEnd) -> Option<(Recycled, PutEnd)> {
        if let Some(other) = self.recycled(recycled, 2) {
            return Some((other, ended));
        }
        let refusal = match (ended, self) {
            (PutEnd::Stored(_), BusyOrHeld) => Refusal::StoreBusy,
            (PutEnd::Stored(_), NoRoom) => Refusal::NoRoom,
            (PutEnd::Stored(_), BucketFull) => Refusal::BucketFull,
            (PutEnd::Stored(_), _) => return None,
            (PutEnd::Refused(refusal), _) => self.other_refusal(refusal)?,
        };
        Some((recycled, PutEnd::Refused(refusal)))
    }

    /// So many keys more or fewer that a client's call evicted.
    fn recycled(self, recycled: Recycled, by: u32) -> Option<Recycled> {
        let taken = match self {
            MoreKeys => recycled.taken + by,
            FewerKeys => recycled.taken.checked_sub(by)?,
            _ => return None,
        };
        Some(Recycled { taken, ..recycled })
    }

    /// One key more or fewer. A call that is altered to have ended early keeps its count.
    fn count(self, taken: u32) -> Option<u32> {
        match self {
            EarlyEnd => Some(taken),
            MoreKeys => Some(taken + 1),
            FewerKeys => taken.checked_sub(1),
            _ => None,
        }
    }

    /// A refusal in place of an answer.
    fn refusal_of(self, access: &Access) -> Option<Refusal> {
        match (self, access) {
            (BusyOrHeld, Access::Get(_) | Access::Hold(_)) => Some(Refusal::ReadBusy),
            (BusyOrHeld, Access::Gets(Some(_)) | Access::Delete { .. }) => Some(Refusal::Busy),
            (BusyOrHeld, _) if access.is_store() => Some(Refusal::StoreBusy),
            (NoRoom, _) if access.is_store() => Some(Refusal::NoRoom),
            (BucketFull, Access::Set(_) | Access::Add(Some(_))) => Some(Refusal::BucketFull),
            _ => None,
        }
    }

    /// Another refusal in place of one.
    fn other_refusal(self, refusal: Refusal) -> Option<Refusal> {
        match (self, refusal) {
            (BusyOrHeld, Refusal::NoRoom | Refusal::BucketFull) => Some(Refusal::StoreBusy),
            (NoRoom, Refusal::StoreBusy | Refusal::BucketFull) => Some(Refusal::NoRoom),
            (BucketFull, Refusal::StoreBusy | Refusal::NoRoom) => Some(Refusal::BucketFull),
            _ => None,
        }
    }

    /// Another answer to a call on a key that isn't refused.
    fn access(self, access: Access) -> Option<Access> {
        match self {
            Opposite => opposite(access),
            Value => with_value(access),
            Version => with_version(access),
            Segment => with_segment(access),
            _ => None,
        }
    }
}

/// A Miss for a hit, a refusal by the cache for a store, and the like.
fn opposite(access: Access) -> Option<Access> {
    match access {
        Access::Get(read) => Some(Access::Get(if read.is_some() { None } else { Some(1) })),
        Access::Gets(read) => Some(Access::Gets(if read.is_some() { None } else { Some((1, 1)) })),
        Access::Hold(read) => Some(Access::Hold(if read.is_some() { None } else { Some(1) })),
        Access::Add(Some(_)) => Some(Access::Add(None)),
        Access::Replace(Some(_)) => Some(Access::Replace(None)),
        Access::Cas { expected, reply: CasReply::Exists } => {
            Some(Access::Cas { expected, reply: CasReply::NotFound })
        }
        Access::Cas { expected, .. } => Some(Access::Cas { expected, reply: CasReply::Exists }),
        Access::Delete { is_deleted } => Some(Access::Delete { is_deleted: !is_deleted }),
        Access::Set(_) | Access::Add(None) | Access::Replace(None) => None,
    }
}

/// Another value that is read.
fn with_value(access: Access) -> Option<Access> {
    match access {
        Access::Get(Some(value)) => Some(Access::Get(Some(value.wrapping_add(1)))),
        Access::Gets(Some((value, version))) => Some(Access::Gets(Some((value.wrapping_add(1), version)))),
        Access::Hold(Some(value)) => Some(Access::Hold(Some(value.wrapping_add(1)))),
        _ => None,
    }
}

/// Another version.
fn with_version(access: Access) -> Option<Access> {
    match access {
        Access::Gets(Some((value, version))) => Some(Access::Gets(Some((value, version.wrapping_sub(1))))),
        Access::Cas { expected, reply: reply @ CasReply::Stored(_) } => {
            Some(Access::Cas { expected: expected.wrapping_sub(1), reply })
        }
        _ => None,
    }
}

/// Another segment into which the item is stored.
fn with_segment(access: Access) -> Option<Access> {
    let other = |item: Item| Item { segment: item.segment ^ 1, ..item };
    match access {
        Access::Set(item) => Some(Access::Set(other(item))),
        Access::Add(Some(item)) => Some(Access::Add(Some(other(item)))),
        Access::Replace(Some(item)) => Some(Access::Replace(Some(other(item)))),
        _ => None,
    }
}
