// SPDX-License-Identifier: MIT
//! How strong the checker is: of answers that are altered in a history, one at a time, how many it refuses.
use crate::alteration::Alteration;
use crate::call::{Call, Operation};
use crate::log::{Kind, Round};
use crate::random::Random;
use crate::replay::{Fault, Rules, check};
use std::fmt;
use std::mem;
use std::ops::AddAssign;

/// Only the first calls of each thread are altered, so that what comes before them is short.
const FIRST: usize = 1000;

/// Calls that return from this stamp on are left out, so that a history that is accepted is short.
const END: u64 = 16_000;

/// How often a call is drawn that has an answer to alter.
const TRIES: u32 = 256;

/// Where a call is: its thread, and its place among the calls of that thread.
type Spot = (usize, usize);

/// How many answers were altered, and how many of them the checker accepts all the same.
#[derive(Clone, Copy, Debug, Default)]
struct Count {
    altered: u32,
    accepted: u32,
}

/// The counts of each alteration.
#[derive(Clone, Copy, Debug, Default)]
pub struct Strength([Count; Alteration::ALL.len()]);

impl AddAssign for Strength {
    fn add_assign(&mut self, other: Strength) {
        for (count, more) in self.0.iter_mut().zip(other.0) {
            count.altered += more.altered;
            count.accepted += more.accepted;
        }
    }
}

impl fmt::Display for Strength {
    fn fmt(&self, f: &mut fmt::Formatter) -> fmt::Result {
        let counts = self.0.iter().zip(Alteration::ALL);
        for (Count { altered, accepted }, (_, name)) in counts.filter(|(count, _)| count.altered > 0) {
            write!(f, "; {name}: {accepted} of {altered}")?;
        }
        Ok(())
    }
}

impl Strength {
    /// Alters so many answers of a round whose calls were made in turn, each alone.
    pub fn of(round: &Round, count: usize) -> Result<Strength, Fault> {
        let mut told = round.told.clone();
        for calls in &mut told {
            calls.retain(|call| call.returned < END);
        }
        let mut random = Random::new(round.seed);
        let mut strength = Strength::default();
        for _ in 0..count {
            let kind = random.below(Alteration::ALL.len());
            if let Some((spot, other)) = draw(&told, &mut random, Alteration::ALL[kind].0, round.kind) {
                let is_accepted = !is_refused(round.rules, &mut told, spot, other)?;
                strength.0[kind].altered += 1;
                strength.0[kind].accepted += u32::from(is_accepted);
            }
        }
        Ok(strength)
    }

    /// An alteration of which more than one is accepted, and more than one in 1000.
    pub fn gap(&self) -> Option<&'static str> {
        let mut counts = self.0.iter().zip(Alteration::ALL);
        counts
            .find(|(count, _)| count.accepted > 1 && count.altered < count.accepted * 1000)
            .map(|(_, (_, name))| name)
    }
}

/// A call, drawn at random, and its operation with another answer.
fn draw(
    told: &[Vec<Call>],
    random: &mut Random,
    alteration: Alteration,
    kind: Kind,
) -> Option<(Spot, Operation)> {
    (0..TRIES).find_map(|_| {
        let thread = random.below(told.len());
        let place = random.below(told[thread].len().clamp(1, FIRST));
        let call = told[thread].get(place)?;
        Some(((thread, place), alteration.of(&call.operation, kind)?))
    })
}

/// Whether the history is refused with this operation in place of its own. Afterwards it is as it was.
fn is_refused(
    rules: Rules,
    told: &mut [Vec<Call>],
    (thread, place): Spot,
    other: Operation,
) -> Result<bool, Fault> {
    let own = mem::replace(&mut told[thread][place].operation, other);
    let ended = check(rules, told);
    told[thread][place].operation = own;
    match ended {
        Ok(_) => Ok(false),
        Err(Fault::TooMany) => Err(Fault::TooMany),
        Err(_) => Ok(true),
    }
}
