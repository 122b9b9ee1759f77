// SPDX-License-Identifier: MIT
//! The lines that the README shows, as a program.
use segcache::{Cache, Error};

fn main() -> Result<(), Error> {
    let (_cache, clients) = Cache::builder().keys(100_000).threads(4).build()?;
    clients[0].put("key", "value")?;
    println!("{:?}", clients[1].get("key")?); // Some(b"value")
    Ok(())
}
