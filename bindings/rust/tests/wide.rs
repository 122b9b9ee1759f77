// SPDX-License-Identifier: MIT
//! The wide build: long keys and values. All clocks begin at 2, since the stand-in of `server/tests` refuses less.
#![cfg(feature = "wide")]
use segcache::{Cache, Client, Error, MAX_KEY, MAX_VALUE};
use std::thread;

// Two clients of a cache with room for each item.
fn two() -> (Cache, Client, Client) {
    let (cache, mut clients) = Cache::builder().items(1_000, 4_000).threads(2).build().unwrap();
    clients.iter().for_each(|client| client.set_now(2));
    let second = clients.pop().unwrap();
    (cache, clients.pop().unwrap(), second)
}

// A value of this length, whose bytes follow from its key and its length.
fn value_of(key: u32, length: usize) -> Vec<u8> {
    let first = key.wrapping_mul(0x9e37_79b9) ^ (length as u32).wrapping_mul(0x85eb_ca6b);
    (0..length as u32)
        .map(|place| (first.wrapping_add(place).wrapping_mul(0x27d4_eb2f) >> 24) as u8)
        .collect()
}

#[test]
fn a_key_reads_what_was_put_whatever_the_lengths() {
    let (_cache, one, other) = two();
    for key_length in [4, 24, 25, MAX_KEY] {
        for length in [0, 31, 32, 33, 96, 97, MAX_VALUE] {
            let (key, value) = (vec![b'k'; key_length], value_of(key_length as u32, length));
            one.put(&key, &value).unwrap();
            assert_eq!(other.get(&key).unwrap().unwrap().as_slice(), value);
            assert_eq!(other.gets(&key).unwrap().unwrap().0.into_boxed_slice(), value.clone().into());
            let mut buffer = vec![b'?'; length + 1];
            assert_eq!(other.get_into(&key, &mut buffer[..length]), Ok(Some(length)));
            assert!(buffer[..length] == value && buffer[length] == b'?');
            buffer.fill(b'?');
            if length > 0 {
                let short = other.get_into(&key, &mut buffer[..length - 1]);
                assert_eq!(short, Err(Error::ShortBuffer(length)));
                assert!(buffer.iter().all(|byte| *byte == b'?'));
            }
            let hold = other.hold(&key).unwrap().unwrap();
            assert_eq!(one.delete(&key), Ok(true));
            assert_eq!(hold.value().as_slice(), value);
            assert_eq!(other.get(&key), Ok(None));
        }
    }
}

#[test]
fn lengths_are_judged() {
    let (_cache, client, _other) = two();
    assert_eq!(client.put([1; MAX_KEY + 1], ""), Err(Error::BadKey));
    assert_eq!(client.get([1; MAX_KEY + 1]), Err(Error::BadKey));
    assert_eq!(client.put("k", [1; MAX_VALUE + 1]), Err(Error::BadValue));
}

#[test]
fn many_keys_have_their_answers_in_their_order() {
    let (_cache, client, other) = two();
    let mut keys: Vec<Vec<u8>> = (0..40).map(|number: u8| vec![b'k'; 1 + usize::from(number)]).collect();
    for key in keys.iter().step_by(2) {
        client.put(key, value_of(0, 100 * key.len())).unwrap();
    }
    keys[39] = vec![b'k'; MAX_KEY + 1];
    let answers = other.get_many(&keys);
    let versioned = other.gets_many(&keys);
    for ((key, answer), with_version) in keys.iter().zip(&answers).zip(&versioned) {
        assert_eq!(*answer, other.get(key));
        assert_eq!(*with_version, other.gets(key));
    }
    assert_eq!(answers[2].as_ref().unwrap().as_deref(), Some(&value_of(0, 300)[..]));
    assert_eq!((&answers[1], &answers[39]), (&Ok(None), &Err(Error::BadKey)));
}

#[test]
fn the_content_has_long_values() {
    let (cache, one, other) = two();
    one.put([b'k'; MAX_KEY], value_of(1, MAX_VALUE)).unwrap();
    drop((one, other));
    let content: Vec<_> = cache.close().unwrap().collect();
    assert_eq!(content.len(), 1);
    assert!(content[0].0.as_slice() == [b'k'; MAX_KEY] && content[0].1.as_slice() == value_of(1, MAX_VALUE));
}

#[test]
fn four_threads_read_what_belongs_to_the_key() {
    let (_cache, clients) = Cache::builder().items(2_500, 230).threads(4).build().unwrap();
    let hits: Vec<u64> = thread::scope(|scope| {
        let running: Vec<_> = clients.into_iter().map(|client| scope.spawn(move || run(client))).collect();
        running.into_iter().map(|thread| thread.join().unwrap()).collect()
    });
    assert!(hits.iter().all(|hits| *hits > 0));
}

// Gets and puts of a client; how many gets found a value of their key.
fn run(client: Client) -> u64 {
    let (mut drawn, mut hits) = (1_u32, 0);
    client.set_now(2);
    for _ in 0..5_000 {
        drawn = drawn.wrapping_mul(1_664_525).wrapping_add(1_013_904_223);
        let (key, length) = ((drawn >> 8) % 300, (drawn >> 18) as usize % 700);
        match client.get(key.to_le_bytes()) {
            Ok(Some(value)) => {
                assert_eq!(value.as_slice(), value_of(key, value.len()));
                hits += 1;
                if length % 8 == 0 {
                    _ = client.put(key.to_le_bytes(), value_of(key, length));
                }
            }
            Ok(None) | Err(Error::Busy) => _ = client.put(key.to_le_bytes(), value_of(key, length)),
            Err(error) => panic!("{error}"),
        }
    }
    hits
}
