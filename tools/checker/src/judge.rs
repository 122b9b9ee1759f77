// SPDX-License-Identifier: MIT
//! Judges a round, and the rounds of a log on several threads.
use crate::call::Call;
use crate::client;
use crate::counts::Counts;
use crate::log::{BadLine, HEAD, Kind, Round, TAIL};
use crate::replay::{Fault, check};
use crate::strength::Strength;
use std::fmt;
use std::io::{self, BufRead};
use std::ops::AddAssign;
use std::sync::{Mutex, mpsc};
use std::thread;

/// Why a round isn't accepted.
#[derive(Debug)]
pub enum Failure {
    BadLine(BadLine),
    /// The answer, and the line that has it.
    History {
        fault: Fault,
        line: String,
    },
    /// What the cache listed at its end isn't what the calls left.
    WrongContent,
}

impl fmt::Display for Failure {
    fn fmt(&self, f: &mut fmt::Formatter) -> fmt::Result {
        match self {
            Failure::BadLine(bad) => bad.fmt(f),
            Failure::History { fault, line } if line.is_empty() => fault.fmt(f),
            Failure::History { fault, line } => write!(f, "{fault}: `{line}`"),
            Failure::WrongContent => f.write_str("what the cache lists at its end isn't what the calls left"),
        }
    }
}

/// What came of the rounds of a log that are accepted.
#[derive(Clone, Copy, Debug, Default)]
pub struct Verdict {
    pub rounds: u64,
    pub answers: Counts,
    /// Those answers that were given to threads beside each other.
    pub on_threads: u64,
    /// The answers to passes and to other callers that were altered, one at a time, and those that are
    /// accepted all the same.
    pub of_passes: Strength,
    /// The same of answers to clients.
    pub of_clients: Strength,
}

impl AddAssign for Verdict {
    fn add_assign(&mut self, other: Verdict) {
        self.rounds += other.rounds;
        self.answers += other.answers;
        self.on_threads += other.on_threads;
        self.of_passes += other.of_passes;
        self.of_clients += other.of_clients;
    }
}

/// Judges the text of a round. If its calls were made in turn, so many of its answers are altered.
pub fn judge(text: &str, alter: usize) -> Result<Verdict, Failure> {
    let round = Round::read(text).map_err(Failure::BadLine)?;
    let failure = |fault: Fault| Failure::History { fault, line: line_of(text, &round, &fault) };
    for (thread, client) in &round.clients {
        client::judge(*client, round.rows, &round.told[*thread]).map_err(failure)?;
    }
    let replay = check(round.rules, &round.told).map_err(failure)?;
    if round.content.as_ref().is_some_and(|content| !replay.can_end_with(content)) {
        return Err(Failure::WrongContent);
    }
    let answers = Counts::of(round.told.iter().flatten());
    let mut verdict = Verdict { rounds: 1, answers, ..Verdict::default() };
    if round.is_in_turn {
        let strength = Strength::of(&round, alter).map_err(failure)?;
        *(if round.kind == Kind::Clients { &mut verdict.of_clients } else { &mut verdict.of_passes }) =
            strength;
    } else {
        verdict.on_threads = answers.all;
    }
    Ok(verdict)
}

/// The line of the call that a fault is about.
fn line_of(text: &str, round: &Round, fault: &Fault) -> String {
    let is_meant = |call: &Call| [Some(call.called), Some(call.returned)].contains(&fault.stamp());
    let mut threads = round.told.iter().enumerate();
    let spot = threads.find_map(|(thread, calls)| Some((thread, calls.iter().position(is_meant)?)));
    let line = spot.and_then(|(thread, place)| {
        let thread = thread.to_string();
        text.lines().filter(|line| line.split(' ').next() == Some(&thread)).nth(place)
    });
    line.unwrap_or_default().to_owned()
}

/// The first round of a log that isn't accepted: its text, and why.
pub struct Refused {
    pub round: String,
    pub failure: Failure,
}

/// Judges the rounds of a log as they come, so many at a time, up to the first that isn't accepted.
pub fn judge_all(mut log: impl BufRead, alter: usize, jobs: usize) -> io::Result<Result<Verdict, Refused>> {
    let (rounds, taken) = mpsc::sync_channel::<String>(jobs);
    let (taken, ended) = (Mutex::new(taken), Mutex::new(Ok(Verdict::default())));
    let work = || {
        loop {
            let Ok(round) = taken.lock().unwrap().recv() else { return };
            let judged = judge(&round, alter);
            let mut ended = ended.lock().unwrap();
            match (judged, ended.as_mut()) {
                (Ok(more), Ok(all)) => *all += more,
                (Err(failure), Ok(_)) => *ended = Err(Refused { round, failure }),
                (_, Err(_)) => {}
            }
        }
    };
    let read = thread::scope(|scope| {
        for _ in 0..jobs.max(1) {
            scope.spawn(work);
        }
        let mut is_over = false;
        while !is_over && ended.lock().unwrap().is_ok() {
            let round = read_round(&mut log)?;
            is_over = round.is_empty() || rounds.send(round).is_err();
        }
        drop(rounds);
        io::Result::Ok(())
    });
    read.map(|()| ended.into_inner().unwrap())
}

/// The lines of the next round, or none at the end. A round that isn't closed ends with the log.
fn read_round(log: &mut impl BufRead) -> io::Result<String> {
    let mut round = String::new();
    loop {
        let start = round.len();
        if log.read_line(&mut round)? == 0 {
            return Ok(round);
        }
        match round[start..].trim_end() {
            TAIL => return Ok(round),
            line if start == 0 && !line.starts_with(HEAD) => round.clear(),
            _ => {}
        }
    }
}
