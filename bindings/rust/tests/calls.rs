// SPDX-License-Identifier: MIT
//! Each call of the crate, and each error that a program can bring about.
use segcache::{Cache, Cas, Client, Error, Shape, Version, MAX_KEY, MAX_VALUE};
use std::num::NonZeroU8;
use std::thread;

// Two clients of 64 segments with 250 rows each.
fn two() -> (Cache, Client, Client) {
    let (cache, mut clients) = Cache::builder().keys(1000).threads(2).build().unwrap();
    let second = clients.pop().unwrap();
    (cache, clients.pop().unwrap(), second)
}

#[test]
fn a_bad_shape_is_an_error() {
    assert_eq!(Cache::builder().threads(0).build().err(), Some(Error::BadShape));
    assert_eq!(Cache::builder().threads(65).build().err(), Some(Error::BadShape));
    let shape = Shape { buckets: 3, overflow: 0, passes: 1, segments_each: 2, rows: 8, first_version: 0 };
    assert_eq!(Cache::builder().shape(shape).build().err(), Some(Error::BadShape));
}

#[test]
fn a_builder_that_is_told_nothing_makes_one_client_for_10_000_keys() {
    let (_cache, clients) = Cache::builder().build().unwrap();
    assert_eq!(clients.len(), 1);
    let stays = |keys: u32| {
        (0..keys).for_each(|key| _ = clients[0].put(key.to_le_bytes(), "v"));
        (0..keys).filter(|key| clients[0].get(key.to_le_bytes()).unwrap().is_some()).count()
    };
    assert_eq!(stays(10_000), 10_000);
    assert!(stays(100_000) < 40_000);
}

fn found(client: &Client, keys: u32) -> usize {
    (0..keys).filter(|key| client.get(key.to_le_bytes()).unwrap().is_some()).count()
}

#[test]
fn one_writer_of_four_clients_has_room_for_all_keys() {
    let (_cache, clients) = Cache::builder().keys(1_000).threads(4).writers(1).build().unwrap();
    for _ in 0..10 {
        (0_u32..1_000).for_each(|key| clients[2].put(key.to_le_bytes(), "v").unwrap());
    }
    assert_eq!(found(&clients[0], 1_000), 1_000);
    assert_eq!(clients[2].stats().keys_evicted, 0);
    for writers in [0, 5] {
        let builder = Cache::builder().threads(4).writers(writers);
        assert_eq!(builder.build().err(), Some(Error::BadShape));
    }
}

#[test]
fn one_thread_fills_the_room_of_all_clients() {
    let (_cache, clients) = Cache::builder().keys(1_000).threads(4).build().unwrap();
    (0_u32..1_000).for_each(|key| Client::fill(&clients, key.to_le_bytes(), "v").unwrap());
    assert_eq!(found(&clients[3], 1_000), 1_000);
}

#[test]
fn as_many_clients_as_there_may_be_share_a_cache() {
    let (_cache, clients) = Cache::builder().keys(1000).threads(64).build().unwrap();
    assert_eq!(clients.len(), 64);
    for (key, client) in (0_u8..).zip(&clients) {
        client.put([key], [key]).unwrap();
    }
    for (key, client) in (0_u8..).zip(clients.iter().rev()) {
        assert_eq!(client.get([key]).unwrap().unwrap(), &[key]);
    }
}

#[test]
fn a_key_reads_what_was_put() {
    let (_cache, one, other) = two();
    assert_eq!(one.get("k"), Ok(None));
    assert_eq!(one.put("k", "value"), Ok(()));
    let value = other.get("k").unwrap().unwrap();
    assert_eq!(value, b"value");
    assert_eq!(format!("{value:?}"), "b\"value\"");
    assert_eq!(other.delete("k"), Ok(true));
    assert_eq!(one.delete("k"), Ok(false));
    assert_eq!(one.put([0; MAX_KEY], [1; MAX_VALUE]), Ok(()));
    assert_eq!(other.get([0; MAX_KEY]).unwrap().unwrap().as_slice(), [1; MAX_VALUE]);
    assert_eq!(other.get([0; MAX_KEY - 1]), Ok(None));
}

#[test]
fn a_value_is_copied_into_a_buffer_that_is_long_enough() {
    let (_cache, one, other) = two();
    let mut buffer = [b'?'; 6];
    assert_eq!(other.get_into("k", &mut buffer), Ok(None));
    one.put("k", "value").unwrap();
    assert_eq!(other.get_into("k", &mut buffer[..4]), Err(Error::ShortBuffer(5)));
    assert_eq!(other.gets_into("k", &mut buffer[..4]), Err(Error::ShortBuffer(5)));
    assert_eq!(&buffer, b"??????");
    assert_eq!(other.get_into("k", &mut buffer), Ok(Some(5)));
    assert_eq!(&buffer, b"value?");
    let (length, version) = other.gets_into("k", &mut buffer[..5]).unwrap().unwrap();
    assert_eq!((length, version), (5, other.gets("k").unwrap().unwrap().1));
    assert_eq!(other.get_into("", &mut buffer), Err(Error::BadKey));
}

#[test]
fn a_cache_for_items_has_room_for_them() {
    let (_cache, clients) = Cache::builder().items(5_000, 30).threads(2).build().unwrap();
    (0_u32..5_000).for_each(|key| clients[key as usize % 2].put(key.to_le_bytes(), [1; 26]).unwrap());
    assert_eq!(found(&clients[0], 5_000), 5_000);
    assert_eq!(Cache::builder().items(5_000, 30).threads(0).build().err(), Some(Error::BadShape));
}

#[test]
fn many_keys_have_their_answers_in_their_order() {
    let (_cache, client, other) = two();
    let mut keys: Vec<Vec<u8>> = (0..40).map(|number: u8| vec![b'k', number]).collect();
    for key in keys.iter().step_by(2) {
        client.put(key, [&b"of "[..], key].concat()).unwrap();
    }
    keys[3] = vec![];
    keys[19] = vec![b'k'; MAX_KEY + 1];
    keys[39] = vec![b'k'; 500];
    let answers = other.get_many(&keys);
    assert_eq!(answers.len(), 40);
    let versioned = other.gets_many(&keys);
    for ((key, answer), with_version) in keys.iter().zip(&answers).zip(&versioned) {
        assert_eq!(*answer, other.get(key));
        assert_eq!(*with_version, other.gets(key));
    }
    assert_eq!(answers[2].as_ref().unwrap().as_deref(), Some(&b"of k\x02"[..]));
    assert_eq!((&answers[1], &answers[19]), (&Ok(None), &Err(Error::BadKey)));
    assert_eq!(other.stats().hits, 80);
    assert_eq!(other.get_many::<&str>(&[]), []);
}

#[test]
fn lengths_are_judged() {
    let (_cache, client, _other) = two();
    assert_eq!(client.get(""), Err(Error::BadKey));
    assert_eq!(client.put([1; MAX_KEY + 1], ""), Err(Error::BadKey));
    assert_eq!(client.put("k", [1; MAX_VALUE + 1]), Err(Error::BadValue));
}

#[test]
fn add_replace_and_cas_look_first() {
    let (_cache, client, other) = two();
    assert_eq!(client.set("k", "1"), Err(Error::NoRoom));
    assert_eq!(client.make_room(), Ok(true));
    assert_eq!(client.replace("k", "1"), Ok(false));
    assert_eq!(client.add("k", "1"), Ok(true));
    assert_eq!(client.add("k", "2"), Ok(false));
    assert_eq!(client.replace("k", "3"), Ok(true));
    let (value, version) = client.gets("k").unwrap().unwrap();
    assert_eq!(value, b"3");
    assert_eq!(client.cas("k", "4", version), Ok(Cas::Stored));
    assert_eq!(client.cas("k", "5", version), Ok(Cas::Exists));
    assert_eq!(client.cas("none", "5", Version(0)), Ok(Cas::NotFound));
    assert_eq!(other.get("k").unwrap().unwrap(), b"4");
    let stats = client.stats();
    assert_eq!((stats.hits, stats.misses, stats.stored, stats.not_stored), (1, 0, 3, 2));
    assert_eq!((stats.exists, stats.not_found, stats.no_room), (1, 1, 1));
    let table = client.index_stats();
    assert_eq!((table.used_rows, table.named_rows), (3, 1));
}

// A client whose values can be read before 180.
fn until_180() -> (Cache, Client) {
    let (cache, client, _other) = two();
    client.set_time_to_live(80);
    client.set_now(100);
    assert_eq!(client.make_room(), Ok(true));
    client.set_now(105);
    (cache, client)
}

// Whether each call that reads finds the key at this moment, or none of them.
fn is_read_at(client: &Client, now: u32) -> bool {
    client.set_now(now);
    let found = client.get("k").unwrap().is_some();
    assert_eq!(client.gets("k").unwrap().is_some(), found);
    assert_eq!(client.get_into("k", &mut [0; MAX_VALUE]).unwrap().is_some(), found);
    assert_eq!(client.gets_into("k", &mut [0; MAX_VALUE]).unwrap().is_some(), found);
    assert_eq!(matches!(client.get_many(&["k"])[0], Ok(Some(_))), found);
    assert_eq!(matches!(client.gets_many(&["k"])[0], Ok(Some(_))), found);
    assert_eq!(client.hold("k").unwrap().is_some(), found);
    found
}

#[test]
fn what_is_stored_expires_for_each_read() {
    let (_cache, client) = until_180();
    client.set("k", "v").unwrap();
    assert!(is_read_at(&client, 105));
    assert!(is_read_at(&client, 179));
    assert!(!is_read_at(&client, 180));
    assert!(!is_read_at(&client, u32::MAX - 1));
}

#[test]
fn what_is_stored_expires_for_each_write_that_looks_first() {
    let (_cache, client) = until_180();
    client.set("k", "v").unwrap();
    client.set_now(109);
    let version = client.gets("k").unwrap().unwrap().1;
    assert_eq!(client.add("k", "w"), Ok(false));
    client.set_now(180);
    assert_eq!(client.make_room(), Ok(true));
    assert_eq!(client.replace("k", "w"), Ok(false));
    assert_eq!(client.cas("k", "w", version), Ok(Cas::NotFound));
    assert_eq!(client.delete("k"), Ok(false));
    client.set_now(109);
    assert_eq!(client.cas("k", "w", version), Ok(Cas::Stored));
    assert_eq!(client.replace("k", "x"), Ok(true));
    assert_eq!(client.delete("k"), Ok(true));
    client.set("k", "v").unwrap();
    client.set_now(180);
    assert_eq!(client.add("k", "w"), Ok(true)); // where the deadline of the key's segment has come
    assert!(is_read_at(&client, 250));
}

// A value that is stored at 110 lives for 70, seven eighths of 80, and at 111 it would for 69.
#[test]
fn a_write_has_no_room_where_its_value_expires_early() {
    let (_cache, client) = until_180();
    client.set_now(110);
    client.set("k", "v").unwrap();
    client.set_now(111);
    assert_eq!(client.set("k", "w"), Err(Error::NoRoom));
    assert_eq!(client.replace("k", "w"), Err(Error::NoRoom));
    assert_eq!(client.add("new", "w"), Err(Error::NoRoom));
    assert_eq!(client.get("k").unwrap().unwrap(), b"v");
    assert_eq!(client.make_room(), Ok(true));
    client.set("k", "w").unwrap();
    assert!(is_read_at(&client, 189));
    assert!(!is_read_at(&client, 190));
}

// A put for a time of its own leaves the client's time as it is. At 0 what is put is absent at once.
#[test]
fn what_is_put_for_a_time_of_its_own_lives_by_that() {
    let (_cache, client) = until_180();
    client.set_time_to_live(10);
    client.put_for("k", "v", 80).unwrap();
    client.put("other", "v").unwrap();
    assert!(is_read_at(&client, 105 + 69));
    assert_eq!(client.get("other"), Ok(None));
    assert!(!is_read_at(&client, 105 + 80));
    client.set_now(105);
    client.put_for("k", "v", 0).unwrap();
    assert!(!is_read_at(&client, 105));
}

// A small cache has room for all keys by whichever client, and for eight times as many.
#[test]
fn one_client_of_a_small_cache_has_room_for_all_keys() {
    let (_cache, clients) = Cache::builder().keys(1_000).threads(4).build().unwrap();
    (0_u32..8_000).for_each(|key| clients[2].put(key.to_le_bytes(), "v").unwrap());
    assert_eq!(found(&clients[0], 8_000), 8_000);
}

// What is put lives for its time at most, and for seven eighths of it at least: here for 9 or 10.
#[test]
fn what_is_put_lives_for_seven_eighths_of_its_time() {
    let (_cache, client) = until_180();
    client.set_time_to_live(10);
    client.set_now(109);
    client.put("k", "v").unwrap();
    assert!(is_read_at(&client, 117));
    assert!(!is_read_at(&client, 119));
    client.set_now(110);
    client.put("k", "w").unwrap();
    assert!(is_read_at(&client, 118));
    assert!(!is_read_at(&client, 120));
}

// One client with sixteen segments of four rows. A key is read at each third put of another one.
fn missed_reads(set: impl Fn(&Client)) -> usize {
    let shape = Shape { buckets: 64, overflow: 0, passes: 1, segments_each: 16, rows: 4, first_version: 0 };
    let (_cache, clients) = Cache::builder().shape(shape).build().unwrap();
    set(&clients[0]);
    clients[0].put("often", "read").unwrap();
    let reads = (0_u32..300).filter(|number| {
        clients[0].put(number.to_le_bytes(), "x").unwrap();
        number % 3 == 2 && clients[0].get("often").unwrap().is_none()
    });
    reads.count()
}

#[test]
fn what_is_read_is_kept_unless_nothing_is() {
    assert_eq!(missed_reads(|_| ()), 0);
    assert_eq!(missed_reads(|client| client.keep_from(NonZeroU8::new(2))), 0);
    // The 64th of the others recycles its segment. The 21 reads before that find it.
    assert_eq!(missed_reads(Client::keep_nothing), 79);
    assert_eq!(missed_reads(|client| client.keep_from(None)), 79);
}

#[test]
fn what_is_held_stays() {
    let (_cache, one, other) = two();
    assert!(one.hold("k").unwrap().is_none());
    assert_eq!(one.hold("").err(), Some(Error::BadKey));
    other.put("k", "first").unwrap();
    let hold = one.hold("k").unwrap().unwrap();
    assert_eq!(one.hold("k").err(), Some(Error::AlreadyHolding));
    other.put("k", "second").unwrap();
    assert_eq!(one.get("k").unwrap().unwrap(), b"second");
    assert_eq!(one.delete("k"), Ok(true));
    assert_eq!(hold.value(), b"first");
    assert_eq!(hold.value(), hold.value());
    drop(hold);
    assert!(one.hold("k").unwrap().is_none());
}

#[test]
fn a_held_segment_is_not_recycled() {
    let shape = Shape { buckets: 4, overflow: 0, passes: 2, segments_each: 1, rows: 2, first_version: 0 };
    let (_cache, clients) = Cache::builder().shape(shape).build().unwrap();
    clients[0].put("k", "1").unwrap();
    clients[0].put("k", "2").unwrap();
    let hold = clients[1].hold("k").unwrap().unwrap();
    assert_eq!(clients[0].put("k", "3"), Err(Error::NoRoom));
    assert_eq!(hold.value(), b"2");
    // A hold that is lost ends with its client.
    std::mem::forget(hold);
    assert_eq!(clients[0].put("k", "3"), Err(Error::NoRoom));
    let mut clients = clients.into_iter();
    let writer = clients.next().unwrap();
    drop(clients);
    assert_eq!(writer.put("k", "3"), Ok(()));
}

#[test]
fn a_note_is_learned_by_a_client_of_its_cache() {
    let (_cache, one, other) = two();
    let (another, foreign, _) = two();
    one.put("k", "v").unwrap();
    let note = one.note().unwrap();
    let reader = thread::spawn(move || {
        other.learn(note).unwrap();
        other.get("k").unwrap()
    });
    assert_eq!(reader.join().unwrap().unwrap(), b"v");
    assert_eq!(one.learn(foreign.note().unwrap()), Err(Error::Foreign));
    let late = foreign.note().unwrap();
    drop((another, foreign));
    assert_eq!(one.learn(late), Err(Error::Foreign));
    drop(one.note());
}

// Each next cache may have the address of one that was freed.
#[test]
fn a_note_of_a_cache_that_was_freed_is_of_another_one() {
    let notes: Vec<_> = (0..50).map(|_| two().1.note().unwrap()).collect();
    let (_cache, client, _other) = two();
    for note in notes {
        assert_eq!(client.learn(note), Err(Error::Foreign));
    }
    client.learn(client.note().unwrap()).unwrap();
}

#[test]
fn the_content_is_listed_in_order() {
    let (cache, one, other) = two();
    one.put("b", "2").unwrap();
    other.put("a", "1").unwrap();
    drop(one);
    let unclosed = cache.close().unwrap_err();
    assert_eq!(unclosed.error, Error::ClientOut);
    assert_eq!(other.get("b").unwrap().unwrap(), b"2");
    drop(other);
    let content: Vec<_> = unclosed.cache.unwrap().close().unwrap().collect();
    assert_eq!(content.len(), 2);
    assert!(content[0].0 == b"a" && content[0].1 == b"1");
    assert!(content[1].0 == b"b" && content[1].1 == b"2");
}

#[test]
fn clients_outlive_their_cache() {
    let (cache, one, other) = two();
    drop(cache);
    drop(other);
    assert_eq!(one.put("k", "v"), Ok(()));
    assert!(one.get("k").unwrap().is_some());
}

// A cache from its opening to its end, with segments that are recycled.
fn a_whole_life() {
    let (cache, clients) = Cache::builder().keys(500).threads(2).writers(2).build().unwrap();
    for key in 0_u32..3_000 {
        clients[0].put(key.to_le_bytes(), [1; 32]).unwrap();
        clients[1].get(key.to_le_bytes()).unwrap();
    }
    assert!(clients[0].stats().keys_evicted > 0);
    let keys: Vec<_> = (2_900_u32..3_000).map(u32::to_le_bytes).collect();
    assert!(clients[1].get_many(&keys).iter().all(|found| matches!(found, Ok(Some(_)))));
    assert!(clients[1].gets_many(&keys).iter().all(|found| matches!(found, Ok(Some(_)))));
    let hold = clients[1].hold(keys[0]).unwrap().unwrap();
    clients[1].learn(clients[0].note().unwrap()).unwrap();
    assert_eq!(hold.value().as_slice(), [1; 32]);
    drop(hold);
    assert_eq!(clients[1].delete(keys[0]), Ok(true));
    assert!(clients[0].index_stats().used_rows > 0);
    drop(clients);
    assert!(cache.close().unwrap().count() > 100);
}

// As the crate's page says.
const LEAST_STACK: usize = if cfg!(feature = "wide") { 96 * 1024 } else { 64 * 1024 };

#[test]
fn a_thread_of_the_least_stack_can_make_each_call() {
    let small = thread::Builder::new().stack_size(LEAST_STACK);
    small.spawn(a_whole_life).unwrap().join().unwrap();
}

#[test]
fn four_threads_read_what_belongs_to_the_key() {
    let (_cache, clients) = Cache::builder().keys(500).threads(4).build().unwrap();
    let hits: Vec<u64> = thread::scope(|scope| {
        let running: Vec<_> = clients.into_iter().map(|client| scope.spawn(move || run(client))).collect();
        running.into_iter().map(|thread| thread.join().unwrap()).collect()
    });
    assert!(hits.iter().all(|hits| *hits > 0));
}

// Gets and puts of a client; how many gets found their key's value.
fn run(client: Client) -> u64 {
    let (mut drawn, mut hits) = (1_u32, 0);
    for _ in 0..20_000 {
        drawn = drawn.wrapping_mul(1_664_525).wrapping_add(1_013_904_223);
        let key = (drawn >> 8) % 500;
        match client.get(key.to_le_bytes()) {
            Ok(Some(value)) => {
                assert_eq!(value.as_slice(), key.to_be_bytes());
                hits += 1;
            }
            Ok(None) | Err(Error::Busy) => _ = client.put(key.to_le_bytes(), key.to_be_bytes()),
            Err(error) => panic!("{error}"),
        }
    }
    hits
}
