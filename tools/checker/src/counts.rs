// SPDX-License-Identifier: MIT
//! How many answers a history has, and of which sorts.
use crate::call::{Call, Operation, PutEnd, Refusal};
use std::ops::AddAssign;

/// How many answers there were.
#[derive(Clone, Copy, Debug, Default, PartialEq, Eq)]
pub struct Counts {
    pub all: u64,
    /// Those of them between whose stamps another thread drew one.
    pub beside: u64,
    /// The refusals among them, by what was in the way: others, rows, words, a reader.
    pub busy: u64,
    pub no_room: u64,
    pub bucket_full: u64,
    pub held: u64,
    /// The items that passes moved.
    pub moved: u64,
    /// The items that clients kept, and the keys that they evicted.
    pub kept: u64,
    pub evicted: u64,
}

impl AddAssign for Counts {
    fn add_assign(&mut self, other: Counts) {
        self.all += other.all;
        self.beside += other.beside;
        self.busy += other.busy;
        self.no_room += other.no_room;
        self.bucket_full += other.bucket_full;
        self.held += other.held;
        self.moved += other.moved;
        self.kept += other.kept;
        self.evicted += other.evicted;
    }
}

impl Counts {
    /// The counts of these calls.
    pub fn of<'a>(calls: impl IntoIterator<Item = &'a Call>) -> Counts {
        let mut counts = Counts::default();
        for call in calls {
            counts.all += 1;
            counts.beside += u64::from(call.called + 1 < call.returned);
            counts.add(&call.operation);
        }
        counts
    }

    /// Counts a refusal, or what was moved or evicted.
    fn add(&mut self, operation: &Operation) {
        if let Some(recycled) = operation.recycled() {
            self.kept += u64::from(recycled.kept);
            self.evicted += u64::from(recycled.taken);
        }
        match *operation {
            Operation::Refused { refusal, .. } | Operation::Put { ended: PutEnd::Refused(refusal), .. } => {
                match refusal {
                    Refusal::NoRoom => self.no_room += 1,
                    Refusal::BucketFull => self.bucket_full += 1,
                    Refusal::ReadBusy | Refusal::StoreBusy | Refusal::Busy => self.busy += 1,
                }
            }
            Operation::RefillRefused { is_held: true, .. } => self.held += 1,
            Operation::Keep { taken, .. } => self.moved += u64::from(taken),
            _ => {}
        }
    }
}
