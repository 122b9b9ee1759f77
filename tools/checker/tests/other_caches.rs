// SPDX-License-Identifier: MIT
//! Other caches, logged on threads by the times of a clock as README.md tells: one that is right and evicts, and
//! wrong ones.
use checker::{Failure, Fault, judge};
use std::collections::HashMap;
use std::fmt::Write;
use std::sync::{Barrier, Mutex};
use std::thread;
use std::time::Instant;

const THREADS: usize = 4;
const KEYS: u32 = 4;
const CALLS: u32 = 5_000;

#[derive(Clone, Copy)]
enum Call {
    Get,
    Put(u32),
    Add(u32),
    Delete,
}

#[derive(Clone, Copy)]
enum Answer {
    Found(u32),
    Miss,
    Stored,
    NotStored,
    Deleted,
    NotFound,
}

/// A cache for threads. It is told the number of the thread, too.
trait Cache: Sync {
    fn serve(&self, thread: usize, key: u32, call: Call) -> Answer;
}

/// A map behind a lock, that leaves out each key in turn.
#[derive(Default)]
struct Locked {
    map: Mutex<(HashMap<u32, u32>, u32)>,
}

impl Locked {
    fn evicting(&self, key: u32, call: Call) -> Answer {
        let (map, calls) = &mut *self.map.lock().unwrap();
        *calls += 1;
        if calls.is_multiple_of(16) {
            map.remove(&(*calls / 16 % KEYS));
        }
        match call {
            Call::Get => map.get(&key).map_or(Answer::Miss, |value| Answer::Found(*value)),
            Call::Put(value) => {
                map.insert(key, value);
                Answer::Stored
            }
            Call::Add(_) if map.contains_key(&key) => Answer::NotStored,
            Call::Add(value) => {
                map.insert(key, value);
                Answer::Stored
            }
            Call::Delete => map.remove(&key).map_or(Answer::NotFound, |_| Answer::Deleted),
        }
    }
}

impl Cache for Locked {
    fn serve(&self, _thread: usize, key: u32, call: Call) -> Answer {
        self.evicting(key, call)
    }
}

/// Each thread reads what it last found, eight times in nine.
#[derive(Default)]
struct Stale {
    below: Locked,
    copies: [Mutex<(HashMap<u32, u32>, u32)>; THREADS],
}

impl Cache for Stale {
    fn serve(&self, thread: usize, key: u32, call: Call) -> Answer {
        let (copy, reads) = &mut *self.copies[thread].lock().unwrap();
        *reads += 1;
        match (call, copy.get(&key)) {
            (Call::Get, Some(value)) if !reads.is_multiple_of(9) => return Answer::Found(*value),
            _ => {}
        }
        let answer = self.below.evicting(key, call);
        match (call, answer) {
            (Call::Get, Answer::Found(value)) | (Call::Put(value), _) => copy.insert(key, value),
            _ => copy.remove(&key),
        };
        answer
    }
}

/// Two maps, to which a call that writes is made one after the other. Half of the threads read the second.
#[derive(Default)]
struct Twice {
    first: Locked,
    second: Locked,
}

impl Cache for Twice {
    fn serve(&self, thread: usize, key: u32, call: Call) -> Answer {
        match call {
            Call::Get if thread.is_multiple_of(2) => self.second.evicting(key, call),
            Call::Get => self.first.evicting(key, call),
            _ => {
                let answer = self.first.evicting(key, call);
                thread::yield_now();
                self.second.evicting(key, call);
                answer
            }
        }
    }
}

/// What a thread asks at random. No value comes twice.
fn drawn(thread: usize, number: u32) -> (u32, Call) {
    let draw =
        u64::from(number * THREADS as u32 + thread as u32 + 1).wrapping_mul(0x9e37_79b9_7f4a_7c15) >> 33;
    let value = thread as u32 * CALLS + number + 1;
    let call = match draw / u64::from(KEYS) % 8 {
        0..=3 => Call::Get,
        4 | 5 => Call::Put(value),
        6 => Call::Add(value),
        _ => Call::Delete,
    };
    ((draw % u64::from(KEYS)) as u32, call)
}

fn line(thread: usize, times: (u128, u128), key: u32, call: Call, answer: Answer) -> String {
    let asked = match call {
        Call::Get => format!("get {key}"),
        Call::Put(value) => format!("put {key} {value}"),
        Call::Add(value) => format!("add {key} {value}"),
        Call::Delete => format!("delete {key}"),
    };
    let told = match answer {
        Answer::Found(value) => format!("Found {value}"),
        Answer::Miss => "Miss".to_owned(),
        Answer::Stored => "Stored".to_owned(),
        Answer::NotStored => "NotStored".to_owned(),
        Answer::Deleted => "Deleted".to_owned(),
        Answer::NotFound => "NotFound".to_owned(),
    };
    format!("{thread} {} {} {asked} {told}", times.0, times.1)
}

/// The log of threads that use a cache at once.
fn record(cache: &impl Cache) -> String {
    let start = Instant::now();
    let all_are_there = Barrier::new(THREADS);
    let work = |thread| {
        let mut lines = String::new();
        all_are_there.wait();
        for number in 0..CALLS {
            // So that threads meet where there are fewer processors, too.
            if number.is_multiple_of(16) {
                thread::yield_now();
            }
            let (key, call) = drawn(thread, number);
            let before = start.elapsed().as_nanos();
            let answer = cache.serve(thread, key, call);
            let after = start.elapsed().as_nanos();
            writeln!(lines, "{}", line(thread, (before, after), key, call, answer)).unwrap();
        }
        lines
    };
    let calls: String = thread::scope(|scope| {
        let threads: Vec<_> = (0..THREADS).map(|thread| scope.spawn(move || work(thread))).collect();
        threads.into_iter().map(|thread| thread.join().unwrap()).collect()
    });
    format!("round any threads seed 1 calling {THREADS} keys {KEYS}\n{calls}close\n")
}

/// Whether one of so many histories is refused: threads don't meet in each.
fn is_refused<C: Cache + Default>() -> bool {
    (0..20).any(|_| match judge(&record(&C::default()), 0) {
        Ok(_) => false,
        Err(Failure::History { fault: Fault::NoOrder(_), .. }) => true,
        Err(failure) => panic!("{failure}"),
    })
}

#[test]
fn a_right_one() {
    let verdict = judge(&record(&Locked::default()), 0).unwrap_or_else(|failure| panic!("{failure}"));
    assert_eq!(verdict.answers.all, u64::from(CALLS) * THREADS as u64);
}

#[test]
fn one_that_reads_copies() {
    assert!(is_refused::<Stale>());
}

#[test]
fn one_that_writes_twice() {
    assert!(is_refused::<Twice>());
}
