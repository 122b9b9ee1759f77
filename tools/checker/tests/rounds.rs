// SPDX-License-Identifier: MIT
//! What a log has beside calls of passes: clients, callers of any cache, and lines that are none.
mod common;

use checker::Fault::{self, NoOrder, NoSegment};
use checker::{BadLine, Failure, Unread, judge, judge_all};
use common::{CLIENTS, changed, judge_rows, verdict};

/// What the checker has to say of one call, or of some, of client 0.
fn verdict_of_client(client: &str, calls: &str) -> Result<(), Fault> {
    verdict(&format!("{}\n{client}\n{calls}\nclose\n", CLIENTS.replace("rows 8", "rows 2")))
}

#[test]
fn time_to_live() {
    // Seven eighths of 16 at least, and no more.
    for (until, is_right) in [(23, false), (24, true), (26, true), (27, false)] {
        let wanted = if is_right { Ok(()) } else { Err(NoSegment(1)) };
        let put = format!("0 0 1 put 0 0 10 1 0 {until} Stored 0 0 1");
        assert_eq!(verdict_of_client("client 0 16 other", &put), wanted, "put until {until}");
        let set = format!("0 0 1 set 0 0 10 1 0 {until} Stored 0 0 0");
        assert_eq!(verdict_of_client("client 0 16 other", &set), wanted, "set until {until}");
    }
    let forever = "client 0 4294967295 other";
    assert_eq!(verdict_of_client(forever, "0 0 1 put 0 0 10 1 0 99 Stored 0 0 1"), Err(NoSegment(1)));
}

// A client with queues has two rows, and the room of a third put.
const QUEUES: &str = "client 0 4294967295 queues
0 0 1 put 0 0 0 1 0 4294967295 Stored 0 0 1
0 2 3 put 0 1 0 2 0 4294967295 Stored 0 0 0
0 4 5 put 0 2 0 3 0 4294967295 Stored 0 0 1
0 6 7 set 0 3 0 4 0 4294967295 Stored 0 0 0
0 8 9 set 0 3 0 5 0 4294967295 NoRoom 0 0 0
0 10 11 make_room 0 Made 0 0 1
0 12 13 add 0 3 0 6 0 4294967295 NotStored 0 0 0
";

#[test]
fn rows_of_a_client() {
    judge_rows(
        &CLIENTS.replace("rows 8", "rows 2"),
        QUEUES,
        &[
            ("as it is", Ok(()), &[]),
            (
                "a put that stored past the last row, and refilled nothing",
                Err(NoSegment(5)),
                &["0 4 5 put 0 2 0 3 0 4294967295 Stored 0 0 0"],
            ),
            ("a segment that a put refilled aside", Ok(()), &["0 2 3 put 0 1 0 2 0 4294967295 Stored 0 0 1"]),
            (
                "a refused put that refilled with a row left",
                Err(NoSegment(3)),
                &["0 2 3 put 0 1 0 2 0 4294967295 BucketFull 0 0 1"],
            ),
            (
                "a put without room, and a row left",
                Err(NoSegment(3)),
                &["0 2 3 put 0 1 0 2 0 4294967295 NoRoom 0 0 0"],
            ),
            ("a NoRoom with a row left", Err(NoSegment(7)), &["0 6 7 set 0 3 0 4 0 4294967295 NoRoom 0 0 0"]),
            ("a set past the last row", Err(NoSegment(9)), &["0 8 9 set 0 3 0 5 0 4294967295 Stored 0 0 0"]),
            ("room that was made of nothing", Err(NoSegment(11)), &["0 10 11 make_room 0 Made 0 0 0"]),
            (
                "room that was refilled, and not made",
                Err(NoSegment(11)),
                &["0 10 11 make_room 0 NotMade 0 0 1"],
            ),
            (
                "items that were moved into the segment or into another",
                Ok(()),
                &[
                    "0 4 5 put 0 2 0 3 0 4294967295 Stored 0 1 1",
                    "0 6 7 set 0 3 0 4 0 4294967295 NoRoom 0 0 0",
                    "0 12 13 replace 0 3 0 6 0 4294967295 NotStored 0 0 0",
                ],
            ),
        ],
    );
}

const ANY: &str = "round any threads seed 1 calling 2 keys 2";

// Thread 1 works beside thread 0. Both read one clock, and some times are the same.
const PLAIN: &str = "
0 100 110 put 0 7 Stored
1 105 120 get 0 Found 7
0 130 140 put 0 8 Stored
1 140 150 get 0 Found 8
1 160 170 get 0 Miss
0 180 190 add 0 9 Stored
1 200 210 replace 0 10 Stored
0 220 230 get 0 Found 10
0 240 250 delete 0 Deleted
1 260 270 get 1 Miss
";

#[test]
fn any_cache() {
    judge_rows(
        ANY,
        PLAIN,
        &[
            ("as it is", Ok(()), &[]),
            ("the old value at the time at which the put returned", Ok(()), &["1 140 150 get 0 Found 7"]),
            ("a key that was evicted before it was deleted", Ok(()), &["0 240 250 delete 0 NotFound"]),
            ("an add that finds the key absent", Ok(()), &["1 160 170 get 1 Miss"]),
            ("the old value after the put", Err(NoOrder(9)), &["1 160 170 get 0 Found 7"]),
            ("a value that nobody put", Err(NoOrder(19)), &["1 260 270 get 1 Found 5"]),
            ("a value that came back", Err(NoOrder(11)), &["0 180 190 get 0 Found 8"]),
            ("a replace that isn't seen", Err(NoOrder(15)), &["0 220 230 get 0 Found 9"]),
            ("an add over the key", Err(NoOrder(15)), &["1 200 210 get 0 Miss", "0 220 230 get 0 Found 9"]),
        ],
    );
}

#[test]
fn late_miss() {
    let log = "
0 0 1 put 0 7 Stored
0 2 9 get 0 Miss
1 4 5 get 0 Found 7
0 10 11 get 0 Miss
";
    judge_rows(
        ANY,
        log,
        &[
            ("a key that is evicted after another read it", Ok(()), &[]),
            ("a key that is read after another missed it", Err(NoOrder(7)), &["0 10 11 get 0 Found 7"]),
        ],
    );
}

/// The log of two callers in turn over a cache of one thread that evicts at random, and where one get of so
/// many returns the value before the last.
fn simulated(calls: u64, stale: u64) -> String {
    let mut log = "round any in-turn seed 5 calling 2 keys 3\n".to_owned();
    let mut stored = [[None; 2]; 3];
    for number in 0..calls {
        let draw = number.wrapping_mul(0x9e37_79b9_7f4a_7c15) >> 33;
        let key = (draw % 3) as usize;
        let call = match draw / 3 % 4 {
            0 => {
                stored[key] = [Some(number), stored[key][0]];
                format!("put {key} {number} Stored")
            }
            1 if draw / 12 % 3 == 0 => {
                stored[key][0] = None;
                format!("get {key} Miss")
            }
            _ => match stored[key][usize::from(stale > 0 && draw % stale == 1)] {
                Some(value) => format!("get {key} Found {value}"),
                None => format!("get {key} Miss"),
            },
        };
        log += &format!("{} {} {} {call}\n", number % 2, number * 2, number * 2 + 1);
    }
    log + "close\n"
}

#[test]
fn simulated_cache() {
    let verdict = judge(&simulated(4_000, 0), 200).unwrap_or_else(|failure| panic!("{failure}"));
    assert_eq!(verdict.answers.all, 4_000);
    assert_eq!(verdict.of_passes.gap(), None);
    let told = verdict.of_passes.to_string();
    assert!(told.starts_with("; value: 0 of ") && told.len() > "; value: 0 of 9".len(), "{told}");
    assert!(judge(&simulated(4_000, 50), 0).is_err());
}

#[test]
fn lines() {
    let call = |line| changed(CLIENTS, line, &[]);
    for (line, why) in [
        ("0 0 1 evict 0 NotYours", Unread::NoAnswer),
        ("0 0 1 hold 0 0 0 AlreadyHolding", Unread::NoAnswer),
        ("0 0 1 unlock 0 NotLocked", Unread::NoAnswer),
        ("0 0 1 replace 0 0 0 1 0 100 BucketFull 0 0 0", Unread::NoAnswer),
        ("0 0 1 get 0 0 0 Miss 1 0 0", Unread::NoAnswer),
        ("0 0 1 get 0 0 0", Unread::NotAsWritten),
        ("0 0 1 get 0 0 0 Miss 1", Unread::NotAsWritten),
        ("0 0 1 take 0 0 0 Miss", Unread::NotAsWritten),
        ("0 0 -1 get 0 0 0 Miss", Unread::NotAsWritten),
        ("2 0 1 get 0 0 0 Miss", Unread::NotThere),
        ("left 2 0 1", Unread::NotThere),
        ("left 0 9 1", Unread::NotThere),
        ("left 0 0 1\nleft 0 0 1", Unread::NotThere),
    ] {
        let Err(Failure::BadLine(bad)) = judge(&call(line), 0) else { panic!("`{line}` is read") };
        let line = line.lines().last().unwrap().to_owned();
        assert_eq!(bad, BadLine { line, why });
    }
    assert!(matches!(judge("round passes", 0), Err(Failure::BadLine(_))));
}

#[test]
fn logs() {
    let round = changed(ANY, PLAIN, &[]);
    let log = format!("{round}\n{round}\n");
    let Ok(Ok(verdict)) = judge_all(log.as_bytes(), 0, 2) else { panic!("refused") };
    assert_eq!((verdict.rounds, verdict.answers.all, verdict.on_threads), (2, 20, 20));
    let wrong = round.replace("add 0 9 Stored", "get 0 Found 8");
    let Ok(Err(refused)) = judge_all(format!("{log}{wrong}\n{round}\n").as_bytes(), 0, 2) else {
        panic!("not refused")
    };
    assert_eq!(refused.round.trim(), wrong);
    assert_eq!(refused.failure.to_string(), "no order explains the answer: `0 180 190 get 0 Found 8`");
}
