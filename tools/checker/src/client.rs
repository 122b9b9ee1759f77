// SPDX-License-Identifier: MIT
//! What is known of the segment that a client stores into, by the answers to the client's calls.
//! A client with queues also refills segments aside, for the items that it moves. So the count of
//! its refills doesn't tell which segment was refilled, but the rows that are left do.
use crate::call::{Access, Call, Item, Operation, PutEnd, Recycled, Refusal};
use crate::replay::Fault;

/// A client, as a log tells of it.
#[derive(Clone, Copy, Debug, PartialEq, Eq)]
pub struct Client {
    pub time_to_live: u32,
    /// Whether it keeps by queues, and not by how often an item was read.
    pub has_queues: bool,
}

/// How a store ended, as far as its segment allows it or not.
#[derive(Clone, Copy, PartialEq, Eq)]
enum StoreEnd {
    Stored,
    NoRoom,
    /// It found room, and stored nothing.
    Unstored,
}

/// The least and the most rows that can be left: 0 if there is no segment.
/// It isn't told which of the items that a client moved came into it.
#[derive(Clone, Copy)]
struct Left {
    least: u32,
    most: u32,
    /// Whether a call that made no room can have evicted the segment though a row was left.
    is_unsure: bool,
}

/// Goes through the calls of a client whose segments have so many rows, up to the first that its segment or
/// its time to live doesn't allow.
pub fn judge(client: Client, rows: u32, calls: &[Call]) -> Result<(), Fault> {
    let mut left = Left { least: 0, most: 0, is_unsure: false };
    // A client without queues refills no segment aside. One whose items expire stores into several by turns.
    let has_one_open = client.has_queues && client.time_to_live == u32::MAX;
    for call in calls {
        let is_allowed =
            client.is_timely(&call.operation) && (!has_one_open || left.follow(rows, &call.operation));
        if !is_allowed {
            return Err(Fault::NoSegment(call.returned));
        }
    }
    Ok(())
}

impl Client {
    /// Whether what was stored lives seven eighths of its time or more, and no longer.
    fn is_timely(self, operation: &Operation) -> bool {
        let (now, stored) = match *operation {
            Operation::OnKey { now, access, .. } | Operation::ClearingStore { now, access, .. } => {
                (now, access.stored())
            }
            Operation::Put { now, ended: PutEnd::Stored(item), .. } => (now, Some(item)),
            _ => return true,
        };
        let latest = now.saturating_add(self.time_to_live);
        let earliest = if latest == u32::MAX { latest } else { latest - self.time_to_live / 8 };
        stored.is_none_or(|Item { deadline, .. }| (earliest..=latest).contains(&deadline))
    }
}

impl StoreEnd {
    fn of_put(ended: PutEnd) -> StoreEnd {
        match ended {
            PutEnd::Stored(_) => StoreEnd::Stored,
            PutEnd::Refused(Refusal::NoRoom) => StoreEnd::NoRoom,
            PutEnd::Refused(_) => StoreEnd::Unstored,
        }
    }

    fn of_access(access: &Access) -> StoreEnd {
        access.stored().map_or(StoreEnd::Unstored, |_| StoreEnd::Stored)
    }
}

impl Left {
    /// Goes on by an operation of the client. Returns whether the segment allows its answer.
    fn follow(&mut self, rows: u32, operation: &Operation) -> bool {
        let is_allowed = match *operation {
            Operation::OnKey { access, .. } | Operation::ClearingStore { access, .. } => {
                !access.is_store() || self.store(StoreEnd::of_access(&access))
            }
            Operation::Refused { refusal: Refusal::NoRoom, .. } => self.store(StoreEnd::NoRoom),
            Operation::Refused { refusal: Refusal::StoreBusy | Refusal::BucketFull, .. } => {
                self.store(StoreEnd::Unstored)
            }
            Operation::Put { recycled, ended, .. } => self.put(rows, StoreEnd::of_put(ended), recycled),
            Operation::MakeRoom { recycled, is_made } => self.make_room(rows, is_made, recycled),
            _ => true,
        };
        // So many items were moved, each into this segment or into another.
        let kept = operation.recycled().map_or(0, |recycled| recycled.kept);
        self.least = self.least.saturating_sub(kept);
        is_allowed
    }

    /// Goes on by a put. It refills a segment for itself just if no row is left.
    fn put(&mut self, rows: u32, ended: StoreEnd, recycled: Recycled) -> bool {
        let (lacks_room, has_room) = (self.most == 0, self.least > 0 && !self.is_unsure);
        let has_refilled = recycled.has_refilled;
        self.is_unsure = ended == StoreEnd::NoRoom && self.most > 0;
        if ended == StoreEnd::NoRoom {
            return !has_room && !has_refilled;
        }
        let is_stored = ended == StoreEnd::Stored;
        // Only a put that stored refills segments aside.
        let is_allowed = if lacks_room { has_refilled } else { !has_room || is_stored || !has_refilled };
        if has_refilled && !has_room {
            self.least = if lacks_room || !is_stored { rows } else { 1 };
            self.most = rows;
        }
        self.has_row();
        if is_stored {
            self.use_row();
        }
        is_allowed
    }

    /// Goes on by a call that made room or didn't.
    fn make_room(&mut self, rows: u32, is_made: bool, recycled: Recycled) -> bool {
        self.is_unsure = !is_made && self.most > 0;
        if recycled.has_refilled {
            (self.least, self.most) = (rows, rows);
            return is_made;
        }
        if is_made {
            self.has_row();
        }
        !is_made || self.most > 0
    }

    /// Goes on by a store that makes no room.
    fn store(&mut self, ended: StoreEnd) -> bool {
        let left = *self;
        self.is_unsure = false;
        if ended == StoreEnd::NoRoom {
            (self.least, self.most) = (0, 0);
            return left.least == 0 || left.is_unsure;
        }
        self.has_row();
        if ended == StoreEnd::Stored {
            self.use_row();
        }
        left.most > 0
    }

    /// A row is left.
    fn has_row(&mut self) {
        self.least = self.least.max(1);
    }

    fn use_row(&mut self) {
        self.least = self.least.saturating_sub(1);
        self.most = self.most.saturating_sub(1);
    }
}
