// SPDX-License-Identifier: MIT
//! What each call hands to the library, and what it makes of each answer, over functions that are made up (`fake`).
use crate::fake::{answer, be_of_sizes, be_of_version, calls, lose, NO_HANDLE, SHORT_BUFFER, VALUE, VERSION};
use crate::{Builder, Cache, Cas, Client, Error, Shape, Version, MAX_KEY, MAX_VALUE};
use std::num::NonZeroU8;

/// The statuses that a call can't turn into anything else.
const ERRORS: [(u32, Error); 11] = [
    (2, Error::Busy),
    (3, Error::NoRoom),
    (4, Error::BucketFull),
    (8, Error::BadKey),
    (9, Error::BadValue),
    (11, Error::BadShape),
    (12, Error::OutOfMemory),
    (14, Error::AlreadyHolding),
    (16, Error::ClientOut),
    (17, Error::Foreign),
    (99, Error::Unexpected(99)),
];

fn open(builder: Builder) -> (Cache, Vec<Client>) {
    answer(0);
    builder.build().unwrap()
}

/// A cache with one client, whose clock has this moment. What opened it is forgotten.
fn at(now: u32) -> (Cache, Client) {
    let (cache, mut clients) = open(Cache::builder());
    calls();
    let client = clients.remove(0);
    client.set_now(now);
    (cache, client)
}

/// The call hands this to the library; each status that is an error for it comes back as that error.
fn passes<T: std::fmt::Debug>(call: impl Fn() -> Result<T, Error>, wanted: &str, taken: &[u32]) {
    answer(0);
    call().unwrap();
    assert_eq!(calls()[0], wanted);
    for (status, error) in ERRORS {
        if !taken.contains(&status) {
            answer(status);
            assert_eq!(call().err(), Some(error));
        }
    }
    calls();
    answer(0);
}

/// What the call returns for this status.
fn returns<T>(status: u32, call: impl Fn() -> T) -> T {
    answer(status);
    let returned = call();
    answer(0);
    calls();
    returned
}

#[test]
fn each_read_hands_its_arguments_on() {
    let (_cache, client) = at(7);
    passes(|| client.get("one"), &format!("get 100 one 7, {MAX_VALUE}"), &[]);
    passes(|| client.gets("two"), &format!("gets 100 two 7, {MAX_VALUE}"), &[]);
    client.set_now(8);
    passes(|| client.hold("three").map(|hold| hold.is_some()), "hold 100 three 8", &[]);
    passes(|| client.get_into("four", &mut [0; 5]), "get 100 four 8, 5", &[]);
    passes(|| client.gets_into("five", &mut [0; 6]), "gets 100 five 8, 6", &[]);
}

#[cfg(not(feature = "wide"))]
#[test]
fn many_keys_are_read_by_one_call() {
    let (_cache, client) = at(8);
    passes(|| client.get_many(&["a", "bc"])[1], "get_many 100 [\"a\", \"bc\"] 8", &[]);
    passes(|| client.gets_many(&["a", "bc"])[0], "gets_many 100 [\"a\", \"bc\"] 8", &[]);
}

/// Sixteen keys at a time. One that is too long is passed over, and has its get.
#[cfg(feature = "wide")]
#[test]
fn many_keys_are_read_one_by_one_behind_looks_ahead() {
    let (_cache, client) = at(8);
    for count in [0, 1, 15, 16, 17, 33] {
        let length = |number: usize| match number % 10 {
            3 => MAX_KEY + 1,
            4 => MAX_KEY,
            _ => 1 + number,
        };
        let keys: Vec<String> = (0..count).map(|number| "k".repeat(length(number))).collect();
        let mut wanted = [Vec::new(), Vec::new()];
        for (call, wanted) in ["get", "gets"].iter().zip(&mut wanted) {
            for piece in keys.chunks(16) {
                let ahead = |key: &'_ String| if key.len() > MAX_KEY { String::new() } else { key.clone() };
                wanted.push(format!("look_ahead 100 {:?}", piece.iter().map(ahead).collect::<Vec<_>>()));
                wanted.extend(piece.iter().map(|key| format!("{call} 100 {key} 8, {MAX_VALUE}")));
            }
        }
        assert!(client.get_many(&keys).iter().all(|found| found.as_ref().unwrap().as_deref() == Some(VALUE)));
        assert_eq!(calls(), wanted[0]);
        assert!(client
            .gets_many(&keys)
            .iter()
            .all(|found| found.as_ref().unwrap().as_ref().unwrap().1 == VERSION));
        assert_eq!(calls(), wanted[1]);
        for (status, error) in ERRORS {
            assert!(returns(status, || client.get_many(&keys)).iter().all(|found| *found == Err(error)));
            assert!(returns(status, || client.gets_many(&keys)).iter().all(|found| *found == Err(error)));
        }
    }
}

#[test]
fn each_write_hands_its_arguments_on() {
    let (_cache, client) = at(9);
    passes(|| client.put("k", "v"), "put 100 k v 9", &[]);
    passes(|| client.put_for("kf", "vf", 56), "put_for 100 kf vf 56 9", &[]);
    passes(|| client.set("ka", "va"), "set 100 ka va 9", &[]);
    passes(|| client.add("kb", "vb"), "add 100 kb vb 9", &[]);
    client.set_now(10);
    passes(|| client.replace("kc", "vc"), "replace 100 kc vc 10", &[]);
    passes(|| client.cas("kd", "vd", Version(55)), "cas 100 kd vd 55 10", &[]);
    passes(|| client.delete("ke"), "delete 100 ke 10", &[]);
    passes(|| client.make_room(), "make_room 100 10", &[3]);
}

#[test]
fn a_key_is_filled_by_one_client() {
    let (_cache, clients) = open(Cache::builder().threads(4));
    calls();
    let filled = |number: u32| {
        clients[2].set_now(3);
        Client::fill(&clients, number.to_string(), "v").unwrap();
        calls().remove(0)
    };
    let firsts: Vec<String> = (0..100).map(filled).collect();
    for number in 0..100 {
        assert_eq!(filled(number), firsts[number as usize]);
    }
    for handle in 100..104 {
        let now = if handle == 102 { 3 } else { 0 };
        let number = firsts.iter().position(|call| call.starts_with(&format!("put {handle}"))).unwrap();
        assert_eq!(firsts[number], format!("put {handle} {number} v {now}"));
    }
    let (_other, client) = at(0);
    passes(|| Client::fill(std::slice::from_ref(&client), "k", "v"), "put 100 k v 0", &[]);
}

#[test]
fn settings_and_counts_hand_their_arguments_on() {
    let (_cache, client) = at(0);
    client.set_time_to_live(12);
    client.keep_from(NonZeroU8::new(13));
    client.keep_from(None);
    client.keep_nothing();
    assert_eq!(client.stats().hits, 9);
    assert_eq!(client.index_stats().used_rows, 9);
    let wanted = ["set_time_to_live 100 12", "keep_from 100 13", "keep_from 100 0", "keep_from 100 0"];
    assert_eq!(calls()[..4], wanted);
}

#[test]
fn what_is_found_is_returned() {
    let (_cache, client) = at(0);
    let versioned = Ok(Some((client.get("k").unwrap().unwrap(), VERSION)));
    assert_eq!(client.get("k").unwrap().unwrap().as_slice(), VALUE);
    assert_eq!(client.gets("k"), versioned);
    assert_eq!(client.get_many(&["k"])[0], client.get("k"));
    assert_eq!(client.gets_many(&["k"])[0], versioned);
    assert_eq!(client.hold("k").unwrap().unwrap().value().as_slice(), VALUE);
}

#[test]
fn a_value_is_its_bytes_and_no_more() {
    let (_cache, client) = at(0);
    let value = client.get("k").unwrap().unwrap();
    assert!(value == *VALUE && value == b"value" && value[1..] == *b"alue" && value.as_ref() == VALUE);
    assert!(value != b"valu" && value != b"values" && value != b"valve" && value != b"valve"[..]);
    assert_eq!(format!("{value:?}"), "b\"value\"");
}

#[test]
fn what_is_found_is_copied_into_a_buffer_that_is_long_enough() {
    let (_cache, client) = at(0);
    let mut buffer = [b'?'; 7];
    assert_eq!(client.get_into("k", &mut buffer), Ok(Some(VALUE.len())));
    assert_eq!(&buffer, b"value??");
    let mut buffer = [b'?'; 5];
    assert_eq!(client.gets_into("k", &mut buffer), Ok(Some((VALUE.len(), VERSION))));
    assert_eq!(&buffer, VALUE);
    assert_eq!(returns(SHORT_BUFFER, || client.get_into("k", &mut [])), Err(Error::ShortBuffer(VALUE.len())));
    assert_eq!(
        returns(SHORT_BUFFER, || client.gets_into("k", &mut [])),
        Err(Error::ShortBuffer(VALUE.len()))
    );
    assert_eq!(returns(1, || client.get_into("k", &mut [])), Ok(None));
    assert_eq!(returns(1, || client.gets_into("k", &mut [])), Ok(None));
}

#[test]
fn an_absent_key_is_none_and_nothing_else_is() {
    let (_cache, client) = at(0);
    assert_eq!(returns(1, || client.get("k")), Ok(None));
    assert_eq!(returns(1, || client.gets("k")), Ok(None));
    assert_eq!(returns(1, || client.get_many(&["k"])), [Ok(None)]);
    assert_eq!(returns(1, || client.gets_many(&["k"])), [Ok(None)]);
    assert_eq!(returns(1, || client.hold("k").map(|hold| hold.is_some())), Ok(false));
    assert_eq!(returns(NO_HANDLE, || client.get_many(&["k"])), [Err(Error::Unexpected(13))]);
    assert_eq!(returns(NO_HANDLE, || client.gets_many(&["k"])), [Err(Error::Unexpected(13))]);
}

#[test]
fn a_write_that_did_not_store_says_why() {
    let (_cache, client) = at(0);
    assert_eq!(returns(0, || client.add("k", "v")), Ok(true));
    assert_eq!(returns(5, || client.add("k", "v")), Ok(false));
    assert_eq!(returns(5, || client.replace("k", "v")), Ok(false));
    assert_eq!(returns(7, || client.delete("k")), Ok(false));
    assert_eq!(returns(3, || client.make_room()), Ok(false));
    assert_eq!(returns(0, || client.cas("k", "v", Version(0))), Ok(Cas::Stored));
    assert_eq!(returns(6, || client.cas("k", "v", Version(0))), Ok(Cas::Exists));
    assert_eq!(returns(7, || client.cas("k", "v", Version(0))), Ok(Cas::NotFound));
}

#[test]
fn each_error_has_its_text() {
    let texts = [
        (Error::Busy, "others worked on the key's bucket all the while"),
        (Error::NoRoom, "no segment can be had to store into"),
        (Error::BucketFull, "the key's bucket is full"),
        (Error::BadKey, if MAX_KEY == 24 { "a key has 1 to 24 bytes" } else { "a key has 1 to 250 bytes" }),
        (
            Error::BadValue,
            if MAX_VALUE == 32 { "a value has 32 bytes at most" } else { "a value has 4064 bytes at most" },
        ),
        (Error::ShortBuffer(7), "the buffer is too short for 7 bytes"),
        (Error::BadShape, "such a shape can't be"),
        (Error::OutOfMemory, "out of memory"),
        (Error::AlreadyHolding, "the client holds a value already"),
        (Error::ClientOut, "a client of the cache is still there"),
        (Error::Foreign, "the note is of another cache"),
        (Error::OtherVersion, "the library has another version than the crate"),
        (Error::OtherSizes, "the library has other sizes than the crate"),
        (Error::Unexpected(99), "unexpected status 99"),
    ];
    for (error, text) in texts {
        assert_eq!(error.to_string(), text);
    }
}

#[test]
fn a_builder_asks_for_what_it_was_told() {
    open(Cache::builder());
    assert_eq!(calls()[0], "open 10000 1 1");
    open(Cache::builder().keys(5).threads(64));
    assert_eq!(calls()[0], "open 5 64 64");
    open(Cache::builder().keys(5).threads(3).writers(2));
    assert_eq!(calls()[0], "open_for_writers 5 2 3");
    open(Cache::builder().keys(5).threads(3).writers(2).items(6, 230));
    assert_eq!(calls()[0], "open_items 6 230 3");
    open(Cache::builder().items(6, 230).threads(64));
    assert_eq!(calls()[0], "open_items 6 230 64");
    open(Cache::builder().keys(5).threads(3).writers(2).items(6, 230).bytes(1 << 40));
    assert_eq!(calls()[0], "open_bytes 1099511627776 3");
    let shape = Shape { buckets: 1, overflow: 2, passes: 64, segments_each: 4, rows: 5, first_version: 6 };
    open(Cache::builder().keys(5).threads(3).writers(2).items(6, 230).bytes(1 << 20).shape(shape));
    assert_eq!(calls()[0], format!("open_shape {shape:?} 64"));
    open(Cache::builder().keys(5).threads(2).shape(shape));
    assert_eq!(calls()[0], format!("open_shape {shape:?} 64"));
    assert_eq!(Cache::builder().threads(65).build().err(), Some(Error::BadShape));
    assert_eq!(Cache::builder().threads(65).items(6, 230).build().err(), Some(Error::BadShape));
    assert_eq!(Cache::builder().shape(Shape { passes: 65, ..shape }).build().err(), Some(Error::BadShape));
    assert_eq!(calls().len(), 0);
    for (status, error) in ERRORS {
        assert_eq!(returns(status, || Cache::builder().build().err()), Some(error));
        assert_eq!(returns(status, || Cache::builder().items(6, 230).build().err()), Some(error));
    }
}

#[test]
fn a_library_of_another_version_opens_nothing() {
    for number in [crate::VERSION_NUMBER - 1, crate::VERSION_NUMBER + 1] {
        be_of_version(number);
        assert_eq!(crate::library_version(), number);
        assert_eq!(Cache::builder().build().err(), Some(Error::OtherVersion));
        assert_eq!(Cache::builder().threads(65).build().err(), Some(Error::OtherVersion));
        assert_eq!(calls().len(), 0);
    }
    be_of_version(crate::VERSION_NUMBER);
    open(Cache::builder());
}

#[test]
fn a_library_of_other_sizes_opens_nothing() {
    assert_eq!((MAX_KEY, MAX_VALUE), if cfg!(feature = "wide") { (250, 4064) } else { (24, 32) });
    let (key, value) = (MAX_KEY as u32, MAX_VALUE as u32);
    let other = if cfg!(feature = "wide") { (24, 32) } else { (250, 4064) };
    for (key, value) in [(key, value + 1), (key - 1, value), other] {
        be_of_sizes(key, value);
        assert_eq!(Cache::builder().build().err(), Some(Error::OtherSizes));
        assert_eq!(Cache::builder().threads(65).build().err(), Some(Error::OtherSizes));
        assert_eq!(calls().len(), 0);
    }
    be_of_sizes(key, value);
    open(Cache::builder());
}

#[test]
fn the_number_is_that_of_the_version() {
    let (numbers, is_release) = match crate::VERSION.strip_suffix("-dev") {
        Some(numbers) => (numbers, 0),
        None => (crate::VERSION, 1),
    };
    let parts: Vec<u32> = numbers.split('.').map(|part| part.parse().unwrap()).collect();
    assert_eq!(parts.len(), 3);
    assert_eq!(1_000_000 * parts[0] + 10_000 * parts[1] + 100 * parts[2] + is_release, crate::VERSION_NUMBER);
}

#[test]
fn what_is_dropped_is_given_back() {
    let (cache, clients) = open(Cache::builder().threads(2));
    calls();
    drop(clients[0].hold("k").unwrap());
    drop(clients[1].note().unwrap());
    assert_eq!(calls(), ["hold 100 k 0", "release 100", "note 101", "note_free 200"]);
    drop(clients);
    assert_eq!(calls(), ["give_back 1 100", "give_back 1 101"]);
    drop(cache);
    assert_eq!(calls(), ["free 1"]);
}

#[test]
fn a_cache_is_freed_after_its_last_client() {
    let (cache, client) = at(0);
    drop(cache);
    assert_eq!(calls().len(), 0);
    drop(client);
    assert_eq!(calls(), ["give_back 1 100", "free 1"]);
}

#[test]
fn a_close_lists_the_content_and_frees_the_list() {
    let (cache, client) = at(0);
    drop(client);
    answer(16);
    let unclosed = cache.close().unwrap_err();
    assert_eq!(unclosed.error, Error::ClientOut);
    assert_eq!(unclosed.to_string(), Error::ClientOut.to_string());
    let source = std::error::Error::source(&unclosed).unwrap();
    assert_eq!(source.to_string(), Error::ClientOut.to_string());
    answer(0);
    let mut content = unclosed.cache.unwrap().close().unwrap();
    calls();
    let (key, value) = content.next().unwrap();
    assert_eq!((key.as_slice(), value.as_slice()), (&b"key"[..], VALUE));
    answer(18);
    assert!(content.next().is_none() && content.is_whole());
    answer(12);
    assert!(content.next().is_none() && !content.is_whole());
    answer(0);
    assert!(content.next().is_some() && !content.is_whole());
    drop(content);
    assert_eq!(calls(), ["next 300", "next 300", "next 300", "next 300", "cursor_free 300"]);
}

#[test]
fn a_cache_whose_content_is_lost_is_not_returned() {
    for loses in [false, true] {
        let (cache, client) = at(0);
        drop(client);
        answer(12);
        lose(loses);
        let unclosed = cache.close().unwrap_err();
        lose(false);
        answer(0);
        assert_eq!((unclosed.cache.is_none(), unclosed.error), (loses, Error::OutOfMemory));
    }
}

#[test]
fn the_last_client_learns_a_note_of_its_own() {
    let (cache, client) = at(0);
    drop(cache);
    assert_eq!(client.learn(client.note().unwrap()), Ok(()));
}

#[test]
fn a_note_is_learned_and_then_freed() {
    let (_cache, client) = at(0);
    let (_other, foreign) = at(0);
    let note = client.note().unwrap();
    assert_eq!(calls(), ["note 100"]);
    client.learn(note).unwrap();
    assert_eq!(calls(), ["learn 100 200", "note_free 200"]);
    let note = client.note().unwrap();
    calls();
    assert_eq!(foreign.learn(note), Err(Error::Foreign));
    assert_eq!(calls(), ["note_free 200"]);
    assert_eq!(returns(12, || client.note().err()), Some(Error::OutOfMemory));
}
