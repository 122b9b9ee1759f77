// SPDX-License-Identifier: MIT
//! Histories of two threads over two buckets, written by hand: legal ones, and what can and can't stand there
//! in their place. A row that fails has the return of the first call that can't be explained.
mod common;

use checker::Fault::{BadCall, NoOrder, NoReason, NoSegment};
use checker::{Failure, judge};
use common::{CLIENTS, changed, judge_rows};

const PASSES: &str = "round passes threads seed 1 calling 2 buckets 2 overflow 1 rows 8 version 7";

// Thread 0 owns segment 0. Key 0 is written four times, and key 1 is added and deleted.
// Thread 1 owns segment 1. It reads while key 0 is set, and while the other cas is made.
const WRITTEN: &str = "
0 0 1 refill 0 100 Refilled
1 2 3 refill 1 100 Refilled
0 4 5 set 0 0 0 1 0 100 Stored
0 6 7 add 0 1 0 2 0 100 Stored
1 8 9 gets 0 1 0 Found 2 9
0 10 13 set 0 0 0 3 0 100 Stored
1 11 12 get 0 0 0 Found 3
1 14 15 gets 0 0 0 Found 3 10
0 16 19 cas 0 0 0 4 0 100 10 Stored
1 17 18 cas 0 0 0 9 1 100 10 Exists
1 20 21 get 0 0 0 Found 4
0 22 23 add 0 1 0 9 0 100 NotStored
0 24 25 delete 0 1 0 Deleted
1 26 27 get 0 1 0 Miss
1 28 29 gets 0 0 0 Found 4 12
0 30 33 evict 0 Evicted(1)
1 34 35 get 0 0 0 Miss
0 36 37 refill 0 100 Refilled
1 38 39 add 0 0 0 5 1 100 Stored
0 40 41 gets 0 0 0 Found 5 13
0 42 43 delete 0 1 0 NotFound
";

#[test]
fn written() {
    judge_rows(
        PASSES,
        WRITTEN,
        &[
            ("as it is", Ok(()), &[]),
            ("the value before the set beside it", Ok(()), &["1 11 12 get 0 0 0 Found 1"]),
            ("stale read", Err(NoOrder(27)), &["1 26 27 get 0 1 0 Found 2"]),
            ("lost write", Err(NoOrder(21)), &["1 17 18 set 0 0 0 6 1 100 Stored"]),
            ("value never written", Err(NoOrder(12)), &["1 11 12 get 0 0 0 Found 9"]),
            ("version skipped", Err(NoOrder(41)), &["0 40 41 gets 0 0 0 Found 5 14"]),
            ("version back", Err(NoOrder(41)), &["0 40 41 gets 0 0 0 Found 5 12"]),
            ("key lost by an eviction that took none", Err(NoOrder(33)), &["0 30 33 evict 0 Evicted(0)"]),
            ("miss of a present key", Err(NoOrder(21)), &["1 20 21 get 0 0 0 Miss"]),
            // Both were stored, so the later versions are higher by one.
            (
                "two cas on one version",
                Err(NoOrder(19)),
                &[
                    "1 17 18 cas 0 0 0 6 1 100 10 Stored",
                    "1 28 29 gets 0 0 0 Found 4 13",
                    "0 40 41 gets 0 0 0 Found 5 14",
                ],
            ),
            (
                "add over a present key",
                Err(NoOrder(23)),
                &[
                    "0 22 23 add 0 1 0 7 0 100 Stored",
                    "1 28 29 gets 0 0 0 Found 4 13",
                    "0 40 41 gets 0 0 0 Found 5 14",
                ],
            ),
        ],
    );
}

// Thread 0 owns segment 0, and stores a key there in each of the buckets.
// Thread 1 holds the key of bucket 0 from 9 to 29, over a lock of the bucket and an evict of both keys.
const HELD: &str = "
0 0 1 refill 0 100 Refilled
1 2 3 refill 1 100 Refilled
0 4 5 set 0 0 0 1 0 100 Stored
0 6 7 set 1 0 0 2 0 100 Stored
1 8 9 hold 0 0 99 Found 1
1 10 11 get 0 0 100 Miss
0 12 13 lock 0 Locked
1 14 15 get 0 0 0 Found 1
0 16 17 unlock 0 Unlocked
1 18 19 gets 0 0 0 Found 1 8
0 20 25 evict 0 Evicted(2)
1 21 22 get 1 0 0 Found 2
1 26 27 held 0 1
1 28 29 release 0
0 30 31 refill 0 100 Refilled
1 32 33 get 0 0 0 Miss
";

#[test]
fn held() {
    judge_rows(
        PASSES,
        HELD,
        &[
            ("as it is", Ok(()), &[]),
            ("a key taken out already", Ok(()), &["1 21 22 get 1 0 0 Miss"]),
            (
                "an evict that was Busy, and goes on",
                Ok(()),
                &[
                    "1 18 19 lock 0 Locked",
                    "0 20 25 evict 0 Busy(1)",
                    "1 26 27 unlock 0 Unlocked",
                    "1 28 29 get 0 0 0 Found 1",
                    "0 30 31 evict 0 Evicted(1)",
                ],
            ),
            ("a delete of an expired key", Ok(()), &["1 10 11 delete 0 0 100 NotFound"]),
            (
                "an add over an expired key",
                Ok(()),
                &[
                    "1 10 11 add 0 0 100 3 1 100 Stored",
                    "1 14 15 get 0 0 0 Found 3",
                    "1 18 19 gets 0 0 0 Found 3 9",
                    "0 20 25 evict 0 Evicted(1)",
                    "1 32 33 get 0 0 0 Found 3",
                ],
            ),
            (
                "a delete, after which an evict takes out the other key",
                Ok(()),
                &[
                    "1 10 11 delete 0 0 0 Deleted",
                    "1 14 15 get 0 0 0 Miss",
                    "1 18 19 gets 0 0 0 Miss",
                    "0 20 25 evict 0 Evicted(1)",
                ],
            ),
            (
                "a lock that isn't had twice",
                Ok(()),
                &[
                    "1 18 19 lock 0 Locked",
                    "0 20 25 evict 0 Busy(1)",
                    "0 30 31 evict 0 Busy(0)",
                    "1 32 33 get 0 0 0 Found 1",
                ],
            ),
            ("a write before the lock", Ok(()), &["1 10 11 add 0 0 0 9 1 100 NotStored"]),
            ("a write while locked", Err(NoOrder(15)), &["1 14 15 set 0 0 0 9 1 100 Stored"]),
            ("a refused write while locked", Err(NoOrder(15)), &["1 14 15 add 0 0 0 9 1 100 NotStored"]),
            ("a lock while locked", Err(NoOrder(15)), &["1 14 15 lock 0 Locked"]),
            ("an unlock while not locked", Err(NoOrder(19)), &["1 18 19 unlock 0 Unlocked"]),
            ("a hit of an expired key", Err(NoOrder(11)), &["1 10 11 get 0 0 100 Found 1"]),
            ("a delete of an expired key", Err(NoOrder(11)), &["1 10 11 delete 0 0 100 Deleted"]),
            ("a replace of an expired key", Err(NoOrder(11)), &["1 10 11 replace 0 0 100 9 1 100 Stored"]),
            ("a refused add of an expired key", Err(NoOrder(11)), &["1 10 11 add 0 0 100 9 1 100 NotStored"]),
            ("a Miss before the deadline", Err(NoOrder(11)), &["1 10 11 get 0 0 99 Miss"]),
            ("another value held", Err(NoOrder(27)), &["1 26 27 held 0 2"]),
            ("a refill while held", Err(NoOrder(31)), &["1 28 29 held 0 1"]),
            ("a release of nothing", Err(NoOrder(33)), &["1 32 33 release 0"]),
            ("an evict that took too few", Err(NoOrder(25)), &["0 20 25 evict 0 Evicted(1)"]),
            ("an evict that took too many", Err(NoOrder(25)), &["0 20 25 evict 0 Evicted(3)"]),
            ("a refill before all were taken out", Err(NoOrder(31)), &["0 20 25 get 0 0 0 Found 1"]),
            ("a key that was evicted", Err(NoOrder(33)), &["1 32 33 get 0 0 0 Found 1"]),
            ("a hold of an absent key", Err(NoOrder(33)), &["1 32 33 hold 0 0 0 Found 1"]),
        ],
    );
}

#[test]
fn no_calls() {
    let other = "1 2 3 get 0 0 0 Miss\n";
    judge_rows(
        PASSES,
        &format!("0 0 1 get 0 0 0 Miss\n{other}"),
        &[
            ("no such bucket", Err(BadCall(0)), &["0 0 1 get 2 0 0 Miss"]),
            ("no such key", Err(BadCall(0)), &["0 0 1 get 0 9 0 Miss"]),
            ("too many keys taken out", Err(BadCall(0)), &["0 0 1 evict 0 Evicted(64)"]),
            ("one stamp for two", Err(BadCall(0)), &["0 0 0 get 0 0 0 Miss"]),
        ],
    );
    let back = format!("0 1 0 get 0 0 0 Miss\n{other}");
    judge_rows(PASSES, &back, &[("a return before the call", Err(BadCall(0)), &[])]);
    let shared = format!("0 2 4 get 0 0 0 Miss\n{other}");
    judge_rows(PASSES, &shared, &[("the stamp of another thread", Err(BadCall(2)), &[])]);
}

// Thread 0 owns segments 0 and 1, which have one deadline.
// It stores a key of each bucket in segment 0, and moves both.
// Thread 1 holds the key of bucket 0 from 11 to 22, in the segment that the key leaves.
const MOVED: &str = "
0 0 1 refill 0 100 Refilled
1 2 3 refill 2 100 Refilled
0 4 5 set 0 0 0 1 0 100 Stored
0 6 7 set 1 0 0 2 0 100 Stored
0 8 9 refill 1 100 Refilled
1 10 11 hold 0 0 0 Found 1
0 12 15 keep 0 1 0 Kept(2)
1 13 14 get 1 0 0 Found 2
1 16 17 gets 0 0 0 Found 1 8
0 18 19 evict 0 Evicted(0)
1 22 23 release 0
0 24 25 refill 0 100 Refilled
1 26 27 get 0 0 0 Found 1
0 28 29 evict 1 Evicted(2)
1 30 31 get 0 0 0 Miss
";

#[test]
fn moved() {
    judge_rows(
        PASSES,
        MOVED,
        &[
            ("as it is", Ok(()), &[]),
            (
                "a keep that ended at a lock, and an evict of the key that was left",
                Ok(()),
                &[
                    "1 10 11 lock 0 Locked",
                    "0 12 15 keep 0 1 0 Busy(1)",
                    "1 16 17 unlock 0 Unlocked",
                    "0 18 19 evict 0 Evicted(1)",
                    "1 22 23 get 0 0 0 Miss",
                    "1 26 27 get 0 0 0 Miss",
                    "0 28 29 evict 1 Evicted(1)",
                ],
            ),
            (
                "a keep of items that were never read",
                Ok(()),
                &[
                    "1 10 11 lock 1 Locked",
                    "0 12 15 keep 0 1 2 Kept(0)",
                    "1 16 17 unlock 1 Unlocked",
                    "0 18 19 evict 0 Evicted(2)",
                    "1 22 23 get 0 0 0 Miss",
                    "1 26 27 get 0 0 0 Miss",
                    "0 28 29 evict 1 Evicted(0)",
                ],
            ),
            (
                "a keep of the one item that was read",
                Ok(()),
                &[
                    "1 10 11 get 0 0 0 Found 1",
                    "0 12 15 keep 0 1 2 Kept(1)",
                    "0 18 19 evict 0 Evicted(1)",
                    "1 22 23 get 0 0 0 Found 1",
                    "0 28 29 evict 1 Evicted(1)",
                ],
            ),
            (
                "a refill of the segment that was left, while the item is held in the other one",
                Ok(()),
                &["1 10 11 get 0 0 0 Found 1", "1 16 17 hold 0 0 0 Found 1", "1 22 23 held 0 1"],
            ),
            ("a keep that moved too few", Err(NoOrder(15)), &["0 12 15 keep 0 1 0 Kept(1)"]),
            ("a keep that moved too many", Err(NoOrder(15)), &["0 12 15 keep 0 1 0 Kept(3)"]),
            (
                "a keep of an item that was never read",
                Err(NoOrder(15)),
                &["1 10 11 get 0 0 0 Found 1", "0 12 15 keep 0 1 3 Kept(1)"],
            ),
            (
                "a keep in a locked bucket",
                Err(NoOrder(15)),
                &["1 10 11 lock 0 Locked", "1 22 23 unlock 0 Unlocked"],
            ),
            (
                "a key that is taken out of the segment that it left",
                Err(NoOrder(19)),
                &["0 18 19 evict 0 Evicted(1)"],
            ),
            ("keys that are left, and not taken out", Err(NoOrder(19)), &["0 12 15 keep 0 1 2 Kept(0)"]),
            (
                "a key that stays in a segment that is evicted",
                Err(NoOrder(29)),
                &["0 28 29 evict 1 Evicted(1)"],
            ),
            (
                "a refill of the segment that was left, while the item is held there",
                Err(NoOrder(25)),
                &["1 22 23 held 0 1"],
            ),
            (
                "a refill of the segment that the keys moved into",
                Err(NoOrder(25)),
                &["0 24 25 refill 1 100 Refilled"],
            ),
            (
                "a store into the segment before, which has the same deadline",
                Err(NoSegment(15)),
                &["0 12 15 set 0 1 0 9 0 100 Stored"],
            ),
            ("a move that changes the version", Err(NoOrder(17)), &["1 16 17 gets 0 0 0 Found 1 9"]),
            ("a Miss once the key moved", Err(NoOrder(17)), &["1 16 17 get 0 0 0 Miss"]),
            ("a Miss while the key moves", Err(NoOrder(14)), &["1 13 14 get 1 0 0 Miss"]),
        ],
    );
}

// Pass 0 puts a key of each bucket. For a third key it evicts one of them, that of bucket 0.
// Pass 1 puts key 2 of bucket 0, and reads while pass 0 evicts and puts.
const PUT: &str = "
0 0 1 put 0 0 0 1 0 100 Stored 0 0 1
0 2 3 put 1 0 0 2 0 100 Stored 0 0 0
1 4 5 put 0 2 0 4 1 100 Stored 0 0 1
1 6 7 get 0 0 0 Found 1
0 8 13 put 0 1 0 3 0 100 Stored 1 0 1
1 9 10 get 0 0 0 Found 1
1 11 12 get 0 0 0 Found 1
1 14 15 get 0 0 0 Miss
1 16 17 get 1 0 0 Found 2
1 18 19 get 0 1 0 Found 3
1 20 21 get 0 2 0 Found 4
0 22 23 get_many 0 0 Miss Found 3 Found 4 Miss Miss Miss Miss Miss Miss
";

// A put that stored nothing, and what is found then.
const NO_PUT: [&str; 2] =
    ["1 18 19 get 0 1 0 Miss", "0 22 23 get_many 0 0 Miss Miss Found 4 Miss Miss Miss Miss Miss Miss"];

// An add by pass 0 of key 1 of bucket 0, which cleared a key afterwards.
const CLEARING: &str = "0 8 13 add 0 1 0 3 0 100 Stored 1 0 0";

// What is found where key 0 of bucket 0 stands at the end, and key 1 doesn't.
const WITHOUT_OWN: [&str; 3] = [
    "1 14 15 get 0 0 0 Found 1",
    "1 18 19 get 0 1 0 Miss",
    "0 22 23 get_many 0 0 Found 1 Miss Found 4 Miss Miss Miss Miss Miss Miss",
];

#[test]
fn put() {
    judge_rows(
        CLIENTS,
        PUT,
        &[
            ("as it is", Ok(()), &[]),
            (
                "a key that was evicted before the put stored",
                Ok(()),
                &["1 9 10 get 0 0 0 Miss", "1 11 12 get 0 0 0 Miss"],
            ),
            ("a key that was evicted after the put stored", Ok(()), &["1 9 10 get 0 1 0 Found 3"]),
            (
                "a key that was evicted before the put's own key was there",
                Ok(()),
                &["1 9 10 get 0 0 0 Miss", "1 11 12 get 0 1 0 Miss"],
            ),
            ("an add that cleared a key once it stored", Ok(()), &[CLEARING, "1 9 10 get 0 1 0 Found 3"]),
            (
                "a put that evicted the key of the other bucket",
                Ok(()),
                &[
                    "1 14 15 get 0 0 0 Found 1",
                    "1 16 17 get 1 0 0 Miss",
                    "0 22 23 get_many 0 0 Found 1 Found 3 Found 4 Miss Miss Miss Miss Miss Miss",
                ],
            ),
            (
                "a put without room that evicted a key",
                Ok(()),
                &["0 8 13 put 0 1 0 3 0 100 NoRoom 1 0 0", NO_PUT[0], NO_PUT[1]],
            ),
            (
                "room that was made by an evict",
                Ok(()),
                &["0 8 13 make_room 0 Made 1 0 1", NO_PUT[0], NO_PUT[1]],
            ),
            (
                "a key that an evict took out of another pass's segment",
                Err(NoOrder(21)),
                &["1 20 21 get 0 2 0 Miss"],
            ),
            (
                "the old value once a put has returned",
                Err(NoOrder(15)),
                &["0 8 13 put 0 0 0 3 0 100 Stored 0 0 0", "1 14 15 get 0 0 0 Found 1"],
            ),
            (
                "a put that evicted one key more than it counted",
                Err(NoOrder(15)),
                &["0 8 13 put 0 1 0 3 0 100 Stored 0 0 0"],
            ),
            (
                "a put that evicted one key fewer than it counted",
                Err(NoOrder(17)),
                &["0 8 13 put 0 1 0 3 0 100 Stored 2 0 1"],
            ),
            (
                "a put that evicted more keys than stood",
                Err(NoOrder(13)),
                &["0 8 13 put 0 1 0 3 0 100 Stored 3 0 1"],
            ),
            (
                "a put that evicted a key of each bucket, and counted one",
                Err(NoOrder(23)),
                &["1 16 17 get 1 0 0 Miss"],
            ),
            ("a put that evicted the key that it stored", Err(NoOrder(19)), &WITHOUT_OWN),
            (
                "an add that cleared a key before it stored",
                Err(NoOrder(12)),
                &[CLEARING, "1 9 10 get 0 0 0 Miss", "1 11 12 get 0 1 0 Miss"],
            ),
            (
                "an add that cleared the key that it stored",
                Err(NoOrder(19)),
                &[CLEARING, WITHOUT_OWN[0], WITHOUT_OWN[1], WITHOUT_OWN[2]],
            ),
            (
                "a replace of an absent key that cleared another",
                Err(NoOrder(13)),
                &["0 8 13 replace 0 1 0 3 0 100 Stored 1 0 0"],
            ),
            ("a put that wasn't made", Err(NoOrder(19)), &["1 18 19 get 0 1 0 Miss"]),
            (
                "a put that is Busy with nobody at the bucket",
                Err(NoReason(3)),
                &["0 2 3 put 0 1 0 2 0 100 Busy 0 0 0"],
            ),
            ("a BucketFull of one key", Err(NoOrder(3)), &["0 2 3 put 0 1 0 2 0 100 BucketFull 0 0 0"]),
            ("a put without room beside nobody", Err(NoReason(3)), &["0 2 3 put 0 1 0 2 0 100 NoRoom 0 0 0"]),
            ("room that wasn't made beside nobody", Err(NoReason(3)), &["0 2 3 make_room 0 NotMade 0 0 0"]),
            (
                "a Miss of a present key among several gets",
                Err(NoOrder(23)),
                &["0 22 23 get_many 0 0 Miss Found 3 Miss Miss Miss Miss Miss Miss Miss"],
            ),
        ],
    );
}

// Two rows in each segment, and no overflow buckets.
const SMALL: &str = "round passes threads seed 1 calling 2 buckets 2 overflow 0 rows 2 version 7";

// Thread 0 owns segments 0 and 1. Thread 1 owns segment 2, and holds key 0 from 11 to 23.
const REFUSED: &str = "
0 0 1 refill 0 100 Refilled
1 2 3 refill 2 100 Refilled
0 4 5 set 0 0 0 1 0 100 Stored
0 6 7 set 0 1 0 2 0 100 Stored
0 8 9 set 0 2 0 9 0 100 NoRoom
1 10 11 hold 0 0 0 Found 1
0 12 15 evict 0 Evicted(2)
1 13 14 set 0 3 0 3 2 100 Stored
1 16 17 get 0 3 0 Found 3
0 18 21 refill 0 100 Held
1 19 20 get 0 3 0 Found 3
1 22 23 release 0
0 24 25 refill 1 100 Refilled
0 26 27 refill 1 100 NotEvicted
";

#[test]
fn refused() {
    judge_rows(
        SMALL,
        REFUSED,
        &[
            ("as it is", Ok(()), &[]),
            (
                "a store that was Busy beside a store",
                Ok(()),
                &[
                    "0 6 7 get 0 1 0 Miss",
                    "0 8 9 get 0 1 0 Miss",
                    "0 12 15 set 0 2 0 9 0 100 Busy",
                    "0 18 21 get 0 1 0 Miss",
                ],
            ),
            (
                "an evict beside a store in the bucket",
                Ok(()),
                &["0 12 15 evict 0 Busy(0)", "0 18 21 set 0 2 0 9 0 100 NoRoom"],
            ),
            (
                "a refill beside a get that began while the item stood there",
                Ok(()),
                &[
                    "1 10 11 get 0 0 0 Found 1",
                    "1 13 14 get 0 0 0 Miss",
                    "1 16 17 get 0 0 0 Miss",
                    "1 19 20 get 0 0 0 Miss",
                    "1 22 23 get 0 0 0 Miss",
                    "0 18 21 refill 0 100 Refilled",
                    "0 24 25 get 0 0 0 Miss",
                    "0 26 27 get 0 0 0 Miss",
                ],
            ),
            (
                "a store after the current segment was evicted",
                Ok(()),
                &["0 24 25 set 0 2 0 9 0 100 NoRoom", "0 26 27 set 0 2 0 9 0 100 NoRoom"],
            ),
            ("a store past the last row", Err(NoSegment(9)), &["0 8 9 set 0 1 0 4 0 100 Stored"]),
            (
                "an add that isn't stored past the last row",
                Err(NoSegment(9)),
                &["0 8 9 add 0 1 0 4 0 100 NotStored"],
            ),
            ("a NoRoom with a row left", Err(NoSegment(7)), &["0 6 7 set 0 2 0 9 0 100 NoRoom"]),
            ("a store into another segment", Err(NoSegment(7)), &["0 6 7 set 0 1 0 2 1 100 Stored"]),
            ("a Busy with nobody at the bucket", Err(NoReason(9)), &["0 8 9 gets 0 2 0 Busy"]),
            (
                "a store that is Busy with nobody at the bucket",
                Err(NoReason(7)),
                &["0 6 7 set 0 2 0 9 0 100 Busy"],
            ),
            ("a get that is Busy beside one store", Err(NoReason(15)), &["0 12 15 get 0 2 0 Busy"]),
            ("a BucketFull of two keys", Err(NoOrder(7)), &["0 6 7 set 0 2 0 9 0 100 BucketFull"]),
            (
                "an evict that is Busy beside a get",
                Err(NoReason(15)),
                &["0 12 15 evict 0 Busy(0)", "1 13 14 get 0 3 0 Miss"],
            ),
            (
                "a Held once the hold is released",
                Err(NoReason(21)),
                &["1 16 17 release 0", "1 22 23 get 0 3 0 Found 3"],
            ),
            (
                "a Held beside a get that began later",
                Err(NoReason(21)),
                &["1 16 17 release 0", "1 19 20 get 0 0 0 Miss", "1 22 23 get 0 3 0 Found 3"],
            ),
            ("a Held of a segment in use", Err(NoSegment(15)), &["0 12 15 refill 0 100 Held"]),
            (
                "a NotEvicted of a segment that was emptied",
                Err(NoSegment(21)),
                &["0 18 21 refill 0 100 NotEvicted"],
            ),
        ],
    );
}

#[test]
fn ends_late() {
    let unlock = "
0 0 1 refill 0 100 Refilled
1 2 3 refill 2 100 Refilled
1 4 5 lock 0 Locked
1 10 21 unlock 0 Unlocked
0 12 13 get 0 0 0 Miss
0 14 15 set 0 2 0 9 0 100 Busy
";
    judge_rows(PASSES, unlock, &[("an unlock that ends after the store that it refuses", Ok(()), &[])]);
    let release = "
0 0 1 refill 0 100 Refilled
1 2 3 refill 2 100 Refilled
0 4 5 set 0 0 0 1 0 100 Stored
1 6 7 hold 0 0 0 Found 1
1 10 21 release 0
0 12 13 get 0 0 0 Found 1
0 14 15 evict 0 Evicted(1)
0 16 17 refill 0 100 Held
";
    judge_rows(PASSES, release, &[("a release that ends after the refill that it refuses", Ok(()), &[])]);
}

#[test]
fn comes_late() {
    let refill = "
0 0 1 refill 0 100 Refilled
1 2 15 get 0 0 0 Miss
0 4 5 set 0 0 0 1 0 100 Stored
0 6 7 evict 0 Evicted(1)
0 8 9 refill 0 100 Held
";
    let row = ("a get that began before the item stood there, and was inside afterwards", Ok(()), &[][..]);
    judge_rows(PASSES, refill, &[row]);
}

// Thread 0 stores seven keys in bucket 0, which fill its words, and then one more.
// Thread 1 looks for a key beside the last set.
const FILLED: &str = "
0 0 1 refill 0 100 Refilled
0 2 3 set 0 0 0 1 0 100 Stored
0 4 5 set 0 1 0 2 0 100 Stored
0 6 7 set 0 2 0 3 0 100 Stored
0 8 9 set 0 3 0 4 0 100 Stored
0 10 11 set 0 4 0 5 0 100 Stored
0 12 13 set 0 5 0 6 0 100 Stored
0 14 15 set 0 6 0 7 0 100 Stored
1 16 17 get 0 0 0 Found 1
0 18 23 set 0 7 0 8 0 100 Stored
1 19 20 delete 0 8 0 NotFound
0 24 25 get 0 0 0 Found 1
";

const FULL: &str = "0 18 23 set 0 7 0 9 0 100 BucketFull";

const DELETE: &str = "1 19 20 delete 0 0 0 Deleted";

const GONE: &str = "0 24 25 get 0 0 0 Miss";

#[test]
fn full() {
    judge_rows(
        PASSES,
        FILLED,
        &[("a chain that grows", Ok(()), &[]), ("a refused key with one left", Err(NoReason(23)), &[FULL])],
    );
    judge_rows(
        &PASSES.replace("overflow 1", "overflow 0"),
        FILLED,
        &[
            ("a chain that grows by none", Err(NoOrder(23)), &[]),
            ("a refused key with none left", Ok(()), &[FULL]),
            ("a refused key before a delete", Ok(()), &[FULL, DELETE, GONE]),
            ("a Busy beside a refused key", Ok(()), &[FULL, "1 19 20 delete 0 8 0 Busy"]),
            ("a refused key after a delete", Err(NoOrder(23)), &["1 16 17 delete 0 0 0 Deleted", FULL, GONE]),
            ("a refused key that stands", Err(NoOrder(23)), &["0 18 23 set 0 6 0 9 0 100 BucketFull"]),
        ],
    );
}

/// Whether these values can stand in bucket 0 at the end, by the numbers of their keys. No key has value 0.
fn can_end_with(changes: &[&str], values: &[u32]) -> bool {
    let mut text = changed(PASSES, FILLED, changes).replace("close", "listed\n");
    for (key, value) in values.iter().enumerate().filter(|(_, value)| **value > 0) {
        text += &format!("left 0 {key} {value}\n");
    }
    match judge(&text, 0) {
        Ok(_) => true,
        Err(Failure::WrongContent) => false,
        Err(failure) => panic!("{failure}"),
    }
}

#[test]
fn ends() {
    let gone = [DELETE, GONE];
    let rows: [(&str, &[&str], &[u32], bool); 7] = [
        ("all keys", &[], &[1, 2, 3, 4, 5, 6, 7, 8], true),
        ("a key that is lost", &[], &[0, 2, 3, 4, 5, 6, 7, 8], false),
        ("the last key is lost", &[], &[1, 2, 3, 4, 5, 6, 7], false),
        ("a value that is another's", &[], &[2, 1, 3, 4, 5, 6, 7, 8], false),
        ("a key that was deleted", &gone, &[1, 2, 3, 4, 5, 6, 7, 8], false),
        ("the keys but one that was deleted", &gone, &[0, 2, 3, 4, 5, 6, 7, 8], true),
        // A delete and a set of one key at the same time.
        (
            "a key that was set after its delete",
            &["0 18 23 set 0 0 0 1 0 100 Stored", DELETE],
            &[1, 2, 3, 4, 5, 6, 7],
            true,
        ),
    ];
    for (name, changes, values, wanted) in rows {
        assert_eq!(can_end_with(changes, values), wanted, "{name}");
    }
}
