// SPDX-License-Identifier: MIT
//! A cache for the threads of one program, over a proved index: safe Rust over `libsegcache.a`.
//!
//! Each thread has a [`Client`] of its own, and reads what all of them put. No call of a client waits. Dropping a
//! client waits while another thread drops one of the same cache. A key has 1 to 24 bytes, a value at most 32:
//! [`MAX_KEY`] and [`MAX_VALUE`]. The cache takes its memory when it is made; notes, a close, [`Client::get_many`] and
//! [`Client::gets_many`] take more. With the feature `wide` each value that a get returns takes some, too.
//!
//! A client's clock stands at 0 until [`Client::set_now`] moves it, and times to live have its unit. What is put
//! expires only after [`Client::set_time_to_live`], or by [`Client::put_for`].
//!
//! ```
//! let (_cache, mut clients) = segcache::Cache::builder().keys(1_000).threads(2).build()?;
//! std::thread::scope(|scope| {
//!     for client in &mut clients {
//!         scope.spawn(move || match client.get("page") {
//!             Ok(Some(page)) => println!("found {page:?}"),
//!             _ => _ = client.put("page", "the page"),
//!         });
//!     }
//! });
//! assert_eq!(clients[0].get("page")?.as_deref(), Some(&b"the page"[..]));
//! # Ok::<(), segcache::Error>(())
//! ```
//!
//! A client may go to another thread, and can't be shared by two:
//!
//! ```
//! fn goes_to_another_thread<T: Send>() {}
//! goes_to_another_thread::<segcache::Client>();
//! ```
//! ```compile_fail,E0277
//! fn is_shared<T: Sync>() {}
//! is_shared::<segcache::Client>();
//! ```
//! ```compile_fail,E0277
//! let (_cache, clients) = segcache::Cache::builder().build()?;
//! std::thread::scope(|scope| {
//!     scope.spawn(|| clients[0].get("page"));
//! });
//! # Ok::<(), segcache::Error>(())
//! ```
//!
//! A number is raised by [`Client::gets`] and [`Client::cas`]. A call that is [`Error::Busy`] was disturbed by others:
//! make it again. Where more threads run than the machine has processors, sleep for 100 µs after each try from the
//! 50th on, since the thread that works there may wait for one. Of the calls that store only [`Client::put`], [`Client::put_for`] and [`Client::fill`] make room by
//! themselves; for the others there is [`Client::make_room`], which may evict keys that this client stored. Any call that
//! stores may then evict some keys ahead, so that the next ones find room:
//!
//! ```
//! use segcache::{Cas, Client, Error};
//!
//! fn count(client: &Client, page: &str) -> Result<Option<u8>, Error> {
//!     while let Some((value, version)) = client.gets(page)? {
//!         let next = value[0].wrapping_add(1);
//!         match client.cas(page, [next], version) {
//!             Ok(Cas::Stored) => return Ok(Some(next)),
//!             Err(Error::NoRoom) if !client.make_room()? => return Err(Error::NoRoom),
//!             Ok(_) | Err(Error::NoRoom | Error::Busy) => {}
//!             Err(error) => return Err(error),
//!         }
//!     }
//!     Ok(None)
//! }
//! # let (_cache, clients) = segcache::Cache::builder().build()?;
//! # clients[0].put("page", [7])?;
//! assert_eq!(count(&clients[0], "page")?, Some(8));
//! # Ok::<(), Error>(())
//! ```
//!
//! [`Client::get_many`] gets several keys. In a cache for 6,554 keys or more, and for 820 or more of 2 to 9 threads, the
//! waits for memory of 8 keys or more overlap. Where gets wait for memory, each key then takes less time. Fewer keys are
//! single gets, and so are any of a smaller cache.
//!
//! A value that is held reads the same until the hold is dropped, whatever becomes of its key:
//!
//! ```
//! # let (_cache, clients) = segcache::Cache::builder().build()?;
//! # let client = &clients[0];
//! client.put("page", "first")?;
//! if let Some(hold) = client.hold("page")? {
//!     client.put("page", "second")?;
//!     assert_eq!(hold.value(), b"first");
//! }
//! # Ok::<(), segcache::Error>(())
//! ```
//!
//! A get copies the value. [`Client::get_into`] copies it into a buffer of yours:
//!
//! ```
//! # let (_cache, clients) = segcache::Cache::builder().build()?;
//! # clients[0].put("page", "the page")?;
//! let mut buffer = [0; segcache::MAX_VALUE];
//! if let Some(length) = clients[0].get_into("page", &mut buffer)? {
//!     assert_eq!(&buffer[..length], b"the page");
//! }
//! # Ok::<(), segcache::Error>(())
//! ```
//!
//! **With the feature `wide`** the crate is for the library's wide build, `libsegcachewide.a`: keys have up to 250 bytes,
//! values up to 4,064. There an item takes as many rows of 64 bytes as it needs, so [`Builder::items`] opens a cache. A
//! `Value` then owns its bytes on the heap, and isn't `Copy`; `get_into` allocates nothing. The feature is the choice of
//! the program, which has one library: a crate in between leaves it off, and takes a value for what reads as a slice.
//!
//! **What is proved**: the functions of the library's default build, under Rattle, where their caller keeps to what
//! the header `segcache.h` lists. The wide build was proved whole at an earlier commit, and in part since: the
//! repository's `docs/FORMAT.md` has what was proved when ("Items of several rows"). This crate is written by hand,
//! and keeps to the header's list by ownership and borrows: a client is moved and never copied, no two threads share
//! it, and it is given back to its own cache. One thing is left to the program: a thread that calls has 64 KiB of
//! stack, or 96 KiB with the feature `wide`, as each has that wasn't made by
//! [`std::thread::Builder::stack_size`] with less.
#![warn(missing_docs)]

mod bytes;
mod cache;
mod client;
mod error;
#[cfg(test)]
#[allow(dead_code)] // some of it is for one of the two builds
mod fake;
mod hold;
mod raw;
#[cfg(test)]
mod tests;

pub use bytes::Bytes;
#[cfg(feature = "wide")]
pub use bytes::Value;
pub use cache::{Builder, Cache, Content, Shape, Unclosed};
pub use client::{Cas, Client, IndexStats, Stats, Version};
pub use error::Error;
pub use hold::{Hold, Note};

/// The version of this crate. A library of another version opens no cache: [`Error::OtherVersion`].
pub const VERSION: &str = env!("CARGO_PKG_VERSION");

/// The crate's version as a number: 1,000,000 times the first number, 10,000 times the second and 100 times the third.
/// A release has 1 more than what came before it (`-dev`).
pub const VERSION_NUMBER: u32 = 40_000;

/// The number of the library's version. It is [`VERSION_NUMBER`], if library and crate belong together.
pub fn library_version() -> u32 {
    // SAFETY: the call takes nothing, and reads nothing.
    unsafe { raw::segcache_raw_version() }
}

/// The longest key and value of the crate, as the library says its own: 65,536 times the bytes of the one, and the bytes
/// of the other.
const SIZES: u32 = (MAX_KEY << 16 | MAX_VALUE) as u32;

/// The library's longest key and value.
fn library_sizes() -> u32 {
    // SAFETY: the call takes nothing, and reads nothing.
    unsafe { raw::segcache_raw_sizes() }
}

/// The longest key, in bytes: 24, or 250 with the feature `wide`.
pub const MAX_KEY: usize = if cfg!(feature = "wide") { 250 } else { 24 };

/// The longest value, in bytes: 32, or 4,064 with the feature `wide`.
pub const MAX_VALUE: usize = if cfg!(feature = "wide") { 4_064 } else { 32 };

/// A key of the content: 1 to [`MAX_KEY`] bytes.
pub type Key = Bytes<MAX_KEY>;

/// A value: at most [`MAX_VALUE`] bytes.
#[cfg(not(feature = "wide"))]
pub type Value = Bytes<MAX_VALUE>;
