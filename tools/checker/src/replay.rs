// SPDX-License-Identifier: MIT
//! The calls of all threads in the order of their stamps, bucket by bucket.
use crate::bucket::{Bucket, Pending};
use crate::call::{Call, Ended, KEYS, Operation, PutEnd, Read, Refusal, THREADS};
use crate::segments::{SEGMENTS, Segments};
use crate::sets::Set;
use crate::state::HIGHEST_CUTOFF;
use std::fmt;

/// Why calls weren't accepted.
#[derive(Clone, Copy, Debug, PartialEq, Eq)]
pub enum Fault {
    /// The last stamp of the first call whose answer has no place in an order.
    NoOrder(u64),
    /// The last stamp of the first call that its thread's own calls before it don't allow.
    NoSegment(u64),
    /// The last stamp of the first refusal to which no other call gave a reason.
    NoReason(u64),
    /// A first or a last stamp that isn't in order, or that of a call of which a number is out of bounds.
    BadCall(u64),
    TooMany,
}

impl Fault {
    /// A stamp of the call that wasn't accepted.
    pub fn stamp(&self) -> Option<u64> {
        match *self {
            Fault::NoOrder(stamp)
            | Fault::NoSegment(stamp)
            | Fault::NoReason(stamp)
            | Fault::BadCall(stamp) => Some(stamp),
            Fault::TooMany => None,
        }
    }
}

impl fmt::Display for Fault {
    fn fmt(&self, f: &mut fmt::Formatter) -> fmt::Result {
        f.write_str(match self {
            Fault::NoOrder(_) => "no order explains the answer",
            Fault::NoSegment(_) => "the thread's segments don't allow the answer",
            Fault::NoReason(_) => "nothing was in the way of the call that was refused",
            Fault::BadCall(_) => "the stamps are not in order, or a number is out of bounds",
            Fault::TooMany => "there are too many orders to look at",
        })
    }
}

impl std::error::Error for Fault {}

/// What cache gave the answers.
#[derive(Clone, Copy, Debug, PartialEq, Eq)]
pub struct Rules {
    pub buckets: usize,
    /// How many buckets there are by which chains can grow.
    pub overflow: u32,
    /// How many rows each segment has.
    /// None if the segments are recycled unseen: then what is left of them isn't followed.
    pub rows: Option<u32>,
    pub first_version: u32,
    /// Whether a key can go at any moment, which nobody is told.
    pub evicts_unseen: bool,
}

impl Rules {
    /// The frequency of what is stored. It needn't be followed where items are kept unseen.
    pub fn first_frequency(&self) -> u8 {
        self.rows.map_or(HIGHEST_CUTOFF, |_| 1)
    }
}

/// How far the calls of all threads were followed.
pub struct Replay {
    rules: Rules,
    buckets: Vec<Bucket>,
    segments: Option<[Segments; THREADS]>,
    pending: Pending,
    /// How many keys each thread's last call took out, if that call was of a client and took any.
    taken: [Option<u32>; THREADS],
    /// One more than the last stamp; 0 before the first.
    stamp: u64,
}

/// Looks for an order of the calls in which a cache of one thread returns each of their answers.
/// Every call stands in the order between its two stamps. The calls of each thread come one after the other.
/// A call that was refused needs a reason: a bit or entries of other threads, a reader, or that no room was
/// left.
///
/// An evict or a keep takes out each of its keys at a moment of its own.
/// How many keys it took out of all buckets together is checked when it returns.
/// Later answers of one bucket don't bear on the others.
pub fn check(rules: Rules, threads: &[Vec<Call>]) -> Result<Replay, Fault> {
    if threads.len() > THREADS {
        return Err(Fault::BadCall(0));
    }
    let mut replay = Replay::new(rules);
    // How many calls of each thread have returned.
    let mut returned = [0; THREADS];
    loop {
        let calls = threads.iter().enumerate().filter_map(|(thread, calls)| {
            let call = calls.get(returned[thread])?;
            Some((replay.next_stamp(thread, call), thread, call))
        });
        let Some((stamp, thread, call)) = calls.min_by_key(|(stamp, ..)| *stamp) else {
            return Ok(replay);
        };
        if replay.follow(stamp, thread, call)? {
            returned[thread] += 1;
        }
    }
}

/// The buckets that an operation bears on.
fn concerned<'a>(buckets: &'a mut [Bucket], operation: &Operation) -> &'a mut [Bucket] {
    match operation.only_bucket() {
        Some(number) => &mut buckets[number..=number],
        None => buckets,
    }
}

impl Replay {
    fn new(rules: Rules) -> Replay {
        Replay {
            rules,
            buckets: (0..rules.buckets).map(|number| Bucket::new(number, &rules)).collect(),
            segments: rules.rows.map(|rows| [Segments::new(rows); THREADS]),
            pending: [None; THREADS],
            taken: [None; THREADS],
            stamp: 0,
        }
    }

    /// Whether the cache can have just these values at the end: for each bucket those of its keys.
    pub fn can_end_with(&self, content: &[[Option<u32>; KEYS]]) -> bool {
        self.buckets.len() == content.len()
            && self.buckets.iter().zip(content).all(|(bucket, values)| bucket.can_have(values))
    }

    /// The stamp of the call or, if it is under way, of its return.
    fn next_stamp(&self, thread: usize, call: &Call) -> u64 {
        if self.pending[thread].is_some() { call.returned } else { call.called }
    }

    /// Goes on to the next stamp, which is one of this call. Returns whether the call has returned.
    fn follow(&mut self, stamp: u64, thread: usize, call: &Call) -> Result<bool, Fault> {
        if stamp < self.stamp || stamp == u64::MAX {
            return Err(Fault::BadCall(stamp));
        }
        self.stamp = stamp + 1;
        let is_under_way = self.pending[thread].is_some();
        if is_under_way {
            self.end(thread, call)?;
        } else if self.is_known(&call.operation) {
            self.begin(thread, &call.operation);
        } else {
            return Err(Fault::BadCall(stamp));
        }
        Ok(is_under_way)
    }

    fn begin(&mut self, thread: usize, operation: &Operation) {
        if operation.taken().is_some() {
            self.forget(thread);
        }
        self.pending[thread] = Some(*operation);
        for bucket in concerned(&mut self.buckets, operation) {
            bucket.begin(thread, &self.pending);
        }
    }

    /// Whether the operation's bucket, key and segments exist, and what it took out can be counted.
    fn is_known(&self, operation: &Operation) -> bool {
        operation.bucket().is_none_or(|number| number < self.buckets.len())
            && operation.taken().is_none_or(|taken| taken < 64)
            && match *operation {
                Operation::OnKey { place, .. }
                | Operation::Refused { place, .. }
                | Operation::Put { place, .. }
                | Operation::ClearingStore { place, .. } => place.key < KEYS,
                Operation::Keep { cutoff, .. } => cutoff <= HIGHEST_CUTOFF,
                Operation::Refill { segment, .. } => (segment as usize) < SEGMENTS,
                _ => true,
            }
    }

    fn end(&mut self, thread: usize, call: &Call) -> Result<(), Fault> {
        let operation = &call.operation;
        if !self.answer(thread, operation)? || !self.has_overflow() {
            return Err(Fault::NoOrder(call.returned));
        }
        if self.segments.as_mut().is_some_and(|all| !all[thread].follow(operation)) {
            return Err(Fault::NoSegment(call.returned));
        }
        if !self.has_reason(thread, operation) {
            return Err(Fault::NoReason(call.returned));
        }
        for bucket in concerned(&mut self.buckets, operation) {
            bucket.end(thread, operation);
        }
        self.pending[thread] = None;
        Ok(())
    }

    /// Whether there can be as many overflow buckets as the chains need at least.
    fn has_overflow(&self) -> bool {
        self.rules.evicts_unseen
            || self.buckets.iter().map(Bucket::fewest_drawn).sum::<u32>() <= self.rules.overflow
    }

    /// Whether all overflow buckets can have been drawn, some by stores of other threads that are under way.
    fn can_lack_overflow(&self, thread: usize) -> bool {
        let drawn: u32 = self.buckets.iter().map(Bucket::most_drawn).sum();
        let others = self.pending.iter().enumerate().filter(|(other, _)| *other != thread);
        let growing = others.filter(|(_, operation)| operation.is_some_and(|operation| operation.can_grow()));
        self.rules.overflow <= drawn + growing.count() as u32
    }

    /// Whether the operation, if it was refused or ended early, can have had a reason that others gave it.
    fn has_reason(&self, thread: usize, operation: &Operation) -> bool {
        match *operation {
            Operation::Put { recycled, ended: PutEnd::Refused(Refusal::NoRoom), .. }
            | Operation::MakeRoom { recycled, is_made: false } => self.was_denied(thread, recycled.segment),
            Operation::Refused { place, refusal }
            | Operation::Put { place, ended: PutEnd::Refused(refusal), .. } => {
                self.can_refuse(thread, place.bucket, refusal)
            }
            Operation::GetMany { bucket, reads, .. } => {
                !reads.contains(&Read::Busy) || self.can_refuse(thread, bucket, Refusal::ReadBusy)
            }
            Operation::RefillRefused { segment, is_held: true } => self.was_entered(thread, segment),
            Operation::Evict { segment, is_whole: false, .. }
            | Operation::Keep { segment, ended: Ended::Busy, .. } => self.was_in_the_way(thread, segment),
            Operation::Keep { segment, ended: Ended::NoRoom, .. } => {
                !self.has_target(thread, segment) || self.stood_in(thread, segment)
            }
            _ => true,
        }
    }

    /// Whether a call in this bucket can have been refused so.
    fn can_refuse(&self, thread: usize, bucket: usize, refusal: Refusal) -> bool {
        let watch = self.buckets[bucket].watch(thread);
        match refusal {
            Refusal::ReadBusy => watch.was_disturbed(),
            Refusal::StoreBusy | Refusal::Busy => watch.was_set(),
            Refusal::BucketFull => self.can_lack_overflow(thread),
            Refusal::NoRoom => true,
        }
    }

    fn has_target(&self, thread: usize, segment: u32) -> bool {
        self.segments.as_ref().is_some_and(|all| all[thread].has_target(segment))
    }

    /// Whether a reader can have been in the segment, or an item of it can have been held.
    fn was_entered(&self, thread: usize, segment: u32) -> bool {
        self.buckets
            .iter()
            .any(|bucket| (bucket.entered(thread, &self.pending) | bucket.watch(thread).held()).has(segment))
    }

    /// Whether others can have kept a client from a segment. It has several, which have one number,
    /// and what it holds itself is in one of them alone.
    fn was_denied(&self, thread: usize, segment: u32) -> bool {
        self.was_in_the_way(thread, segment)
            || self.buckets.iter().any(|bucket| {
                (bucket.entered(thread, &self.pending) | bucket.held_beside(thread)).has(segment)
            })
    }

    /// Whether a key can have stood in the segment.
    fn stood_in(&self, thread: usize, segment: u32) -> bool {
        self.buckets.iter().any(|bucket| bucket.watch(thread).stood().has(segment))
    }

    /// Whether a key can have stood in the segment, and its bucket's bit can have been found set.
    fn was_in_the_way(&self, thread: usize, segment: u32) -> bool {
        self.buckets
            .iter()
            .map(|bucket| bucket.watch(thread))
            .any(|watch| watch.was_set() && watch.stood().has(segment))
    }

    /// The operation is taken at the latest now. Returns whether that is possible.
    fn answer(&mut self, thread: usize, operation: &Operation) -> Result<bool, Fault> {
        for bucket in concerned(&mut self.buckets, operation) {
            if operation.is_of(bucket.number()) && !bucket.answer(thread, &self.pending)? {
                return Ok(false);
            }
        }
        if let Some(taken) = operation.taken() {
            self.taken[thread] = Some(taken);
        }
        let is_possible = self.count_all(operation);
        if operation.taken().is_some() && operation.recycled().is_none() {
            self.forget(thread);
        }
        Ok(is_possible)
    }

    /// Counts what was taken out, if the operation is one that tells of it. Returns whether that is possible.
    fn count_all(&mut self, operation: &Operation) -> bool {
        let tells = operation.taken().is_some() || matches!(operation, Operation::GetMany { .. });
        !tells || (0..THREADS).all(|thread| self.taken[thread].is_none_or(|taken| self.count(thread, taken)))
    }

    /// The thread's evict or keep took so many keys out of all buckets together. Returns whether that is
    /// possible.
    fn count(&mut self, thread: usize, taken: u32) -> bool {
        (0..self.buckets.len()).all(|number| {
            let others = self.counts_beside(thread, number);
            self.buckets[number].keep(thread, others.rests(taken))
        })
    }

    /// What the thread took out isn't counted any longer.
    fn forget(&mut self, thread: usize) {
        if self.taken[thread].take().is_some() {
            for bucket in &mut self.buckets {
                bucket.forget(thread);
            }
        }
    }

    /// Which numbers of keys the thread's evict or keep may have taken out of all buckets but this one.
    fn counts_beside(&self, thread: usize, number: usize) -> Set {
        let others = self.buckets.iter().filter(|bucket| bucket.number() != number);
        others.fold(Set::of(0), |sums, bucket| sums.sums(bucket.counts(thread)))
    }
}
