// SPDX-License-Identifier: MIT
//! All the states in which a bucket can be, by the answers so far.
//! A call is taken at the latest when it returns, and only in a state that allows its answer.
use crate::call::{KEYS, Operation, THREADS};
use crate::replay::{Fault, Rules};
use crate::sets::Set;
use crate::state::State;
use crate::watch::{Look, Watch};
use std::mem;

/// How many states of a bucket are looked at for one answer, at most.
const LIMIT: usize = 1 << 14;

/// The operations that were called and didn't return, by their threads.
pub type Pending = [Option<Operation>; THREADS];

/// The operations that are under way, each with its thread.
fn under_way(pending: &Pending) -> impl Iterator<Item = (usize, &Operation)> {
    pending.iter().enumerate().filter_map(|(thread, operation)| Some((thread, operation.as_ref()?)))
}

pub struct Bucket {
    number: usize,
    states: Vec<State>,
    /// The states that the search for an answer reached. The list is kept only for its memory.
    seen: Vec<State>,
    /// What can have been so since each thread's call began.
    watches: [Watch; THREADS],
}

impl Bucket {
    pub fn new(number: usize, rules: &Rules) -> Bucket {
        Bucket {
            number,
            states: vec![State::new(rules)],
            seen: Vec::new(),
            watches: [Watch::default(); THREADS],
        }
    }

    pub fn number(&self) -> usize {
        self.number
    }

    /// How many buckets the chain has beside its first, at least.
    pub fn fewest_drawn(&self) -> u32 {
        self.states.iter().map(|state| state.width() - 1).min().unwrap_or(0)
    }

    /// How many buckets the chain has beside its first, at most.
    pub fn most_drawn(&self) -> u32 {
        self.states.iter().map(|state| state.width() - 1).max().unwrap_or(0)
    }

    /// Whether just these values can stand, each under its key.
    pub fn can_have(&self, values: &[Option<u32>; KEYS]) -> bool {
        self.states.iter().any(|state| state.has_just(values))
    }

    /// What can have been so of the bucket since the thread's call began.
    pub fn watch(&self, thread: usize) -> &Watch {
        &self.watches[thread]
    }

    /// The segments of which another thread holds an item in one of the states.
    pub fn held_beside(&self, thread: usize) -> Set {
        self.states.iter().map(|state| state.held_beside(thread)).collect()
    }

    /// The segments that another thread's call can have entered during the thread's call.
    pub fn entered(&self, thread: usize, pending: &Pending) -> Set {
        let others = under_way(pending).filter(|(other, _)| *other != thread);
        let inside = others.map(|(other, operation)| self.watches[other].inside(operation, self.number));
        inside.fold(self.watches[thread].read(), |all, segments| all | segments)
    }

    /// A thread's operation is called. It is among those that are under way.
    pub fn begin(&mut self, thread: usize, pending: &Pending) {
        let look = Look::at(&self.states);
        let mut own = Watch::new(look);
        for (other, operation) in under_way(pending) {
            if other == thread {
                for (_, watch) in self.watches.iter_mut().enumerate().filter(|(place, _)| *place != thread) {
                    watch.meet(operation, self.number, look.stood);
                }
            } else {
                own.meet(operation, self.number, self.watches[other].stood());
            }
        }
        self.watches[thread] = own;
    }

    /// A thread's operation has returned.
    pub fn end(&mut self, thread: usize, operation: &Operation) {
        let inside = self.watches[thread].inside(operation, self.number);
        for (_, watch) in self.watches.iter_mut().enumerate().filter(|(other, _)| *other != thread) {
            watch.read_by_other(inside);
        }
    }

    /// Which numbers of keys the thread's evict or keep can have taken out.
    pub fn counts(&self, thread: usize) -> Set {
        self.states.iter().map(|state| Set::of(state.taken(thread))).collect()
    }

    /// Keeps those states in which the thread's evict or keep took out one of these numbers of keys.
    /// Returns whether there is any such state.
    pub fn keep(&mut self, thread: usize, counts: Set) -> bool {
        self.states.retain(|state| counts.has(state.taken(thread)));
        !self.states.is_empty()
    }

    /// Forgets how many keys the thread's evict or keep took out.
    pub fn forget(&mut self, thread: usize) {
        self.seen.clear();
        for state in &self.states {
            add(&mut self.seen, state.counted(thread));
        }
        mem::swap(&mut self.states, &mut self.seen);
    }

    /// The thread's operation returns. Then the bucket can be in those states
    /// that the calls under way lead to, the thread's among them.
    /// Each call is taken in a state that allows it.
    /// Returns whether there is any such state.
    pub fn answer(&mut self, thread: usize, pending: &Pending) -> Result<bool, Fault> {
        self.search(thread, pending)?;
        let look = Look::at(&self.seen);
        for watch in &mut self.watches {
            watch.see(look);
        }
        Ok(!self.states.is_empty())
    }

    /// Looks for the states in which the thread's operation can return.
    fn search(&mut self, thread: usize, pending: &Pending) -> Result<(), Fault> {
        let is_cut_off = pending[thread].is_some_and(|operation| operation.is_cut_off(self.number));
        self.seen.clear();
        for state in &self.states {
            add(&mut self.seen, settled(*state, self.number, pending));
        }
        self.states.clear();
        for place in 0..LIMIT {
            let Some(state) = self.seen.get(place).copied() else {
                return Ok(());
            };
            if state.is_done(thread) || is_cut_off {
                add(&mut self.states, state.returned(thread));
            }
            if state.is_done(thread) {
                self.take_out(&state, thread, pending);
            } else {
                self.go_on(&state, pending);
            }
        }
        Err(Fault::TooMany)
    }

    /// Adds the states in which the thread's call took one key more out of its segment.
    fn take_out(&mut self, state: &State, thread: usize, pending: &Pending) {
        let Some(operation) = pending[thread].as_ref() else {
            return;
        };
        if !operation.is_of(self.number) || operation.taken().is_none() {
            return;
        }
        for key in 0..KEYS {
            if operation.can_take_out(self.number, key, state.is_done(thread))
                && let Some(next) = state.without(thread, key, operation)
            {
                add(&mut self.seen, settled(next, self.number, pending));
            }
        }
    }

    /// Adds the states that one more call leads to from this one.
    fn go_on(&mut self, state: &State, pending: &Pending) {
        for (thread, operation) in under_way(pending) {
            self.take_out(state, thread, pending);
            if !state.is_done(thread)
                && operation.is_of(self.number)
                && !operation.is_cut_off(self.number)
                && let Some(next) = state.after(thread, operation)
            {
                add(&mut self.seen, settled(next, self.number, pending));
            }
        }
    }
}

/// Takes each operation that is free and allowed. A release or an unlock can allow others, so this is done
/// twice.
fn settled(mut state: State, bucket: usize, pending: &Pending) -> State {
    for _ in 0..2 {
        for (thread, operation) in under_way(pending) {
            if state.takes_freely(operation) && operation.is_of(bucket) && !state.is_done(thread) {
                state = state.after(thread, operation).unwrap_or(state);
            }
        }
    }
    state
}

/// Adds a state, unless it is there.
fn add(states: &mut Vec<State>, state: State) {
    if !states.contains(&state) {
        states.push(state);
    }
}
