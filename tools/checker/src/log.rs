// SPDX-License-Identifier: MIT
//! Reads a round of a log. README.md has the format.
use crate::call::{
    Access, Call, CasReply, Ended, Item, KEYS, Operation, Place, PutEnd, Read, Recycled, Refusal, THREADS,
};
use crate::client::Client;
use crate::replay::Rules;
use std::fmt;
use std::str::FromStr;

/// What made the calls of a round.
#[derive(Clone, Copy, Debug, PartialEq, Eq)]
pub enum Kind {
    /// Passes of the index, which empty and refill their segments themselves.
    Passes,
    /// Clients, which recycle their segments unseen.
    Clients,
    /// Callers of any cache, which evicts what it likes and tells nobody.
    Any,
}

/// What the threads of one cache were told.
#[derive(Debug)]
pub struct Round {
    pub kind: Kind,
    /// Whether no call overlapped another one.
    pub is_in_turn: bool,
    pub seed: u64,
    pub rules: Rules,
    pub rows: u32,
    pub clients: Vec<(usize, Client)>,
    /// The calls of each thread.
    pub told: Vec<Vec<Call>>,
    /// What the cache listed at its end, if it did: for each bucket the values of its keys.
    pub content: Option<Vec<[Option<u32>; KEYS]>>,
}

/// A line that isn't one of a log.
#[derive(Clone, Debug, PartialEq, Eq)]
pub struct BadLine {
    pub line: String,
    pub why: Unread,
}

#[derive(Clone, Copy, Debug, PartialEq, Eq)]
pub enum Unread {
    /// A word is missing, isn't a number, or is too many.
    NotAsWritten,
    /// No such call returns this.
    NoAnswer,
    /// A thread, a bucket or a key that the round hasn't, or a key that is listed twice.
    NotThere,
}

impl fmt::Display for BadLine {
    fn fmt(&self, f: &mut fmt::Formatter) -> fmt::Result {
        let why = match self.why {
            Unread::NotAsWritten => "is no line of a log",
            Unread::NoAnswer => "has an answer that no such call returns",
            Unread::NotThere => "names what the round hasn't, or lists a key twice",
        };
        write!(f, "the line `{}` {why}", self.line)
    }
}

impl std::error::Error for BadLine {}

/// The line that begins a round.
pub const HEAD: &str = "round";

/// The line that ends a round.
pub const TAIL: &str = "close";

impl Round {
    /// Reads the lines of one round, from its head to its tail.
    pub fn read(text: &str) -> Result<Round, BadLine> {
        let mut lines = text.lines().filter(|line| !line.is_empty() && !line.starts_with('#'));
        let head = lines.next().unwrap_or("");
        let mut round = read_head(&mut Words::of(head)).map_err(|why| bad(head, why))?;
        for line in lines {
            round.add(line).map_err(|why| bad(line, why))?;
        }
        if round.kind == Kind::Any {
            number_stamps(&mut round.told);
        }
        Ok(round)
    }

    fn add(&mut self, line: &str) -> Result<(), Unread> {
        let words = &mut Words::of(line);
        match words.word()? {
            TAIL => {}
            "client" => {
                let thread = words.below(self.told.len())?;
                let time_to_live = words.number()?;
                let has_queues = words.word()? == "queues";
                self.clients.push((thread, Client { time_to_live, has_queues }));
            }
            "listed" => {
                self.content.get_or_insert_with(|| vec![[None; KEYS]; self.rules.buckets]);
            }
            "left" => self.leave(words)?,
            thread => {
                let thread = thread.parse::<usize>().ok().filter(|thread| *thread < self.told.len());
                let calls = &mut self.told[thread.ok_or(Unread::NotThere)?];
                let (called, returned) = (words.number()?, words.number()?);
                calls.push(Call { called, returned, operation: words.operation(self.kind)? });
            }
        }
        words.end()
    }

    /// A key stands at the end.
    fn leave(&mut self, words: &mut Words) -> Result<(), Unread> {
        let content = self.content.get_or_insert_with(|| vec![[None; KEYS]; self.rules.buckets]);
        let (bucket, key) = (words.below(content.len())?, words.below(KEYS)?);
        match content[bucket][key].replace(words.number()?) {
            None => Ok(()),
            Some(_) => Err(Unread::NotThere),
        }
    }
}

fn bad(line: &str, why: Unread) -> BadLine {
    BadLine { line: line.to_owned(), why }
}

fn read_head(words: &mut Words) -> Result<Round, Unread> {
    words.expect(HEAD)?;
    let kind = match words.word()? {
        "passes" => Kind::Passes,
        "clients" => Kind::Clients,
        "any" => Kind::Any,
        _ => return Err(Unread::NotAsWritten),
    };
    let is_in_turn = match words.word()? {
        "in-turn" => true,
        "threads" => false,
        _ => return Err(Unread::NotAsWritten),
    };
    let seed = words.named("seed")?;
    let threads: usize = words.named("calling")?;
    let buckets = words.named(if kind == Kind::Any { "keys" } else { "buckets" })?;
    let (mut rows, mut overflow, mut first_version) = (0, 0, 0);
    if kind != Kind::Any {
        overflow = words.named("overflow")?;
        rows = words.named("rows")?;
        first_version = words.named("version")?;
    }
    words.end()?;
    if threads > THREADS {
        return Err(Unread::NotThere);
    }
    let followed = (kind == Kind::Passes).then_some(rows);
    let rules = Rules { buckets, overflow, rows: followed, first_version, evicts_unseen: kind == Kind::Any };
    let (clients, told) = (Vec::new(), vec![Vec::new(); threads]);
    Ok(Round { kind, is_in_turn, seed, rules, rows, clients, told, content: None })
}

/// Numbers the times of a clock in their order, so that no two are the same. Of calls and returns at one time
/// the calls come first: the calls then overlap.
fn number_stamps(told: &mut [Vec<Call>]) {
    let calls = told.iter_mut().flatten();
    let mut stamps: Vec<(u64, bool, &mut u64)> = calls
        .flat_map(|call| [(call.called, false, &mut call.called), (call.returned, true, &mut call.returned)])
        .collect();
    stamps.sort_by_key(|(time, is_return, _)| (*time, *is_return));
    for (number, (.., stamp)) in stamps.into_iter().enumerate() {
        *stamp = number as u64;
    }
}

/// The words of a line that weren't read yet. Brackets stand between words, too.
struct Words<'a> {
    rest: &'a str,
}

const BETWEEN: [char; 4] = [' ', '(', ')', ','];

impl<'a> Words<'a> {
    fn of(line: &'a str) -> Words<'a> {
        Words { rest: line.trim_matches(BETWEEN) }
    }

    fn word(&mut self) -> Result<&'a str, Unread> {
        let (word, rest) = self.rest.split_at(self.rest.find(BETWEEN).unwrap_or(self.rest.len()));
        self.rest = rest.trim_start_matches(BETWEEN);
        if word.is_empty() { Err(Unread::NotAsWritten) } else { Ok(word) }
    }

    fn number<T: FromStr>(&mut self) -> Result<T, Unread> {
        self.word()?.parse().map_err(|_| Unread::NotAsWritten)
    }

    fn below(&mut self, bound: usize) -> Result<usize, Unread> {
        Some(self.number()?).filter(|number| *number < bound).ok_or(Unread::NotThere)
    }

    fn expect(&mut self, wanted: &str) -> Result<(), Unread> {
        if self.word()? == wanted { Ok(()) } else { Err(Unread::NotAsWritten) }
    }

    fn named<T: FromStr>(&mut self, name: &str) -> Result<T, Unread> {
        self.expect(name)?;
        self.number()
    }

    fn end(&self) -> Result<(), Unread> {
        if self.rest.is_empty() { Ok(()) } else { Err(Unread::NotAsWritten) }
    }

    fn place(&mut self) -> Result<Place, Unread> {
        Ok(Place { bucket: self.number()?, key: self.number()? })
    }

    fn item(&mut self) -> Result<Item, Unread> {
        Ok(Item { value: self.number()?, segment: self.number()?, deadline: self.number()? })
    }

    fn read(&mut self) -> Result<Read, Unread> {
        match self.word()? {
            "Found" => Ok(Read::Value(Some(self.number()?))),
            "Miss" => Ok(Read::Value(None)),
            "Busy" => Ok(Read::Busy),
            _ => Err(Unread::NoAnswer),
        }
    }

    fn operation(&mut self, kind: Kind) -> Result<Operation, Unread> {
        let verb = self.word()?;
        if kind == Kind::Any {
            return self.plain(verb);
        }
        match verb {
            "get" | "gets" | "hold" | "set" | "add" | "replace" | "cas" | "delete" => {
                let (place, now) = (self.place()?, self.number()?);
                let told = self.told(verb)?;
                self.on_key(kind, place, now, told)
            }
            "put" => self.put(),
            "get_many" => self.get_many(),
            "make_room" => {
                let segment = self.number()?;
                let is_made = match self.word()? {
                    "Made" => true,
                    "NotMade" => false,
                    _ => return Err(Unread::NoAnswer),
                };
                Ok(Operation::MakeRoom { recycled: self.recycled(segment)?, is_made })
            }
            "held" => Ok(Operation::Held { bucket: self.number()?, value: self.number()? }),
            "release" => Ok(Operation::Release { bucket: self.number()? }),
            "lock" => self.lock(),
            "unlock" => {
                let bucket = self.number()?;
                self.expect("Unlocked").map_err(|_| Unread::NoAnswer)?;
                Ok(Operation::Unlock { bucket })
            }
            "evict" => self.evict(),
            "keep" => self.keep(),
            "refill" => self.refill(),
            _ => Err(Unread::NotAsWritten),
        }
    }

    /// A call of any cache. Each key is a bucket of its own, and what is stored has no deadline.
    fn plain(&mut self, verb: &str) -> Result<Operation, Unread> {
        let place = Place { bucket: self.number()?, key: 0 };
        let item = match verb {
            "get" | "delete" => None,
            "put" | "add" | "replace" => Some(Item { value: self.number()?, segment: 0, deadline: u32::MAX }),
            _ => return Err(Unread::NotAsWritten),
        };
        let access = match (verb, item, self.word()?) {
            ("get", _, "Found") => Access::Get(Some(self.number()?)),
            ("get", _, "Miss") => Access::Get(None),
            ("put", Some(item), "Stored") => Access::Set(item),
            ("add", _, "Stored") => Access::Add(item),
            ("add", _, "NotStored") => Access::Add(None),
            ("replace", _, "Stored") => Access::Replace(item),
            ("replace", _, "NotStored") => Access::Replace(None),
            ("delete", _, "Deleted") => Access::Delete { is_deleted: true },
            ("delete", _, "NotFound") => Access::Delete { is_deleted: false },
            _ => return Err(Unread::NoAnswer),
        };
        Ok(Operation::OnKey { place, now: 0, access })
    }

    /// What a call on a key was told, or why it was refused.
    fn told(&mut self, verb: &str) -> Result<Result<Access, Refusal>, Unread> {
        let told = match verb {
            "get" => match self.read()? {
                Read::Value(read) => Ok(Access::Get(read)),
                Read::Busy => Err(Refusal::ReadBusy),
            },
            "hold" => match self.read()? {
                Read::Value(read) => Ok(Access::Hold(read)),
                Read::Busy => Err(Refusal::ReadBusy),
            },
            "gets" => match self.read()? {
                Read::Value(Some(value)) => Ok(Access::Gets(Some((value, self.number()?)))),
                Read::Value(None) => Ok(Access::Gets(None)),
                Read::Busy => Err(Refusal::Busy),
            },
            "delete" => match self.word()? {
                "Deleted" => Ok(Access::Delete { is_deleted: true }),
                "NotFound" => Ok(Access::Delete { is_deleted: false }),
                "Busy" => Err(Refusal::Busy),
                _ => return Err(Unread::NoAnswer),
            },
            _ => self.store(verb)?,
        };
        Ok(told)
    }

    /// What a store was told. Only one that can add a key needs a word.
    fn store(&mut self, verb: &str) -> Result<Result<Access, Refusal>, Unread> {
        let item = self.item()?;
        let expected = if verb == "cas" { self.number()? } else { 0 };
        Ok(match (verb, self.word()?) {
            (_, "Busy") => Err(Refusal::StoreBusy),
            (_, "NoRoom") => Err(Refusal::NoRoom),
            ("set" | "add", "BucketFull") => Err(Refusal::BucketFull),
            ("set", "Stored") => Ok(Access::Set(item)),
            ("add", "Stored") => Ok(Access::Add(Some(item))),
            ("add", "NotStored") => Ok(Access::Add(None)),
            ("replace", "Stored") => Ok(Access::Replace(Some(item))),
            ("replace", "NotStored") => Ok(Access::Replace(None)),
            ("cas", "Stored") => Ok(Access::Cas { expected, reply: CasReply::Stored(item) }),
            ("cas", "Exists") => Ok(Access::Cas { expected, reply: CasReply::Exists }),
            ("cas", "NotFound") => Ok(Access::Cas { expected, reply: CasReply::NotFound }),
            _ => return Err(Unread::NoAnswer),
        })
    }

    /// A call on a key. Of a client's only a store recycles, once it stored.
    fn on_key(
        &mut self,
        kind: Kind,
        place: Place,
        now: u32,
        told: Result<Access, Refusal>,
    ) -> Result<Operation, Unread> {
        let operation = match told {
            Ok(access) => Operation::OnKey { place, now, access },
            Err(refusal) => Operation::Refused { place, refusal },
        };
        if kind == Kind::Passes || self.rest.is_empty() {
            return Ok(operation);
        }
        let stored = told.ok().and_then(|access| Some((access, access.stored()?)));
        let recycled = self.recycled(stored.map_or(0, |(_, item)| item.segment))?;
        match stored {
            _ if recycled.taken == 0 && recycled.kept == 0 => Ok(operation),
            Some((access, _)) => Ok(Operation::ClearingStore { place, now, access, recycled }),
            None => Err(Unread::NoAnswer),
        }
    }

    fn recycled(&mut self, segment: u32) -> Result<Recycled, Unread> {
        let (taken, kept, refilled) = (self.number()?, self.number()?, self.number::<u64>()?);
        Ok(Recycled { segment, taken, kept, has_refilled: refilled > 0 })
    }

    fn put(&mut self) -> Result<Operation, Unread> {
        let (place, now, item) = (self.place()?, self.number()?, self.item()?);
        let ended = match self.word()? {
            "Stored" => PutEnd::Stored(item),
            "NoRoom" => PutEnd::Refused(Refusal::NoRoom),
            "BucketFull" => PutEnd::Refused(Refusal::BucketFull),
            "Busy" => PutEnd::Refused(Refusal::StoreBusy),
            _ => return Err(Unread::NoAnswer),
        };
        Ok(Operation::Put { place, now, recycled: self.recycled(item.segment)?, ended })
    }

    fn get_many(&mut self) -> Result<Operation, Unread> {
        let (bucket, now) = (self.number()?, self.number()?);
        let mut reads = [Read::Busy; KEYS];
        for read in &mut reads {
            *read = self.read()?;
        }
        Ok(Operation::GetMany { bucket, now, reads })
    }

    fn lock(&mut self) -> Result<Operation, Unread> {
        let bucket = self.number()?;
        match self.word()? {
            "Locked" => Ok(Operation::Lock { bucket }),
            "Busy" => Ok(Operation::Refused { place: Place { bucket, key: 0 }, refusal: Refusal::Busy }),
            _ => Err(Unread::NoAnswer),
        }
    }

    fn evict(&mut self) -> Result<Operation, Unread> {
        let segment = self.number()?;
        let is_whole = match self.word()? {
            "Evicted" => true,
            "Busy" => false,
            _ => return Err(Unread::NoAnswer),
        };
        Ok(Operation::Evict { segment, taken: self.number()?, is_whole })
    }

    fn keep(&mut self) -> Result<Operation, Unread> {
        let (segment, into, cutoff) = (self.number()?, self.number()?, self.number()?);
        let ended = match self.word()? {
            "Kept" => Ended::Whole,
            "NoRoom" => Ended::NoRoom,
            "Busy" => Ended::Busy,
            _ => return Err(Unread::NoAnswer),
        };
        Ok(Operation::Keep { segment, into, cutoff, taken: self.number()?, ended })
    }

    fn refill(&mut self) -> Result<Operation, Unread> {
        let (segment, deadline) = (self.number()?, self.number()?);
        match self.word()? {
            "Refilled" => Ok(Operation::Refill { segment, deadline }),
            "Held" => Ok(Operation::RefillRefused { segment, is_held: true }),
            "NotEvicted" => Ok(Operation::RefillRefused { segment, is_held: false }),
            _ => Err(Unread::NoAnswer),
        }
    }
}
