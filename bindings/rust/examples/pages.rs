// SPDX-License-Identifier: MIT
//! Four threads share a cache. Each looks a page up, and stores it where it is missing.
use segcache::{Cache, Client, Error};
use std::thread;

fn look(client: &Client) -> Result<u32, Error> {
    let mut found = 0;
    for look in 0..100_000_u32 {
        client.set_now(look / 1_000);
        let key = format!("page:{}", look.wrapping_mul(7_919) % 1_000);
        match client.get(&key) {
            Ok(Some(_page)) => found += 1,
            Ok(None) | Err(Error::Busy) => client.put(&key, "the page")?,
            Err(error) => return Err(error),
        }
    }
    Ok(found)
}

fn main() -> Result<(), Error> {
    let (_cache, mut clients) = Cache::builder().keys(1_000).threads(4).build()?;
    thread::scope(|scope| {
        for client in &mut clients {
            scope.spawn(move || match look(client) {
                Ok(found) => println!("found {found} of 100000"),
                Err(error) => println!("{error}"),
            });
        }
    });
    Ok(())
}
