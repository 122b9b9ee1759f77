// SPDX-License-Identifier: MIT
//! Holds and notes.
use crate::bytes::Written;
use crate::cache::Shared;
use crate::client::OK;
use crate::raw::{self, Handle};
use crate::{Client, Value};
use std::sync::{Arc, Weak};

/// A value that a client holds, from [`Client::hold`] until this is dropped. The client may make other calls
/// meanwhile. The segment of a held value isn't recycled: hold for a short time.
#[derive(Debug)]
pub struct Hold<'c> {
    client: &'c Client,
}

impl<'c> Hold<'c> {
    pub(crate) fn new(client: &'c Client) -> Hold<'c> {
        Hold { client }
    }

    /// The value, which is the same each time.
    #[must_use]
    pub fn value(&self) -> Value {
        // SAFETY: the handle is the client's, and the buffer is apart.
        let (status, value) = Value::written(|value, room, length| unsafe {
            raw::segcache_raw_held_value(self.client.handle(), value, room, length)
        });
        debug_assert_eq!(status, OK);
        value
    }
}

impl Drop for Hold<'_> {
    fn drop(&mut self) {
        // SAFETY: the handle is the client's.
        unsafe { raw::segcache_raw_release(self.client.handle()) };
    }
}

/// What a client had seen, from [`Client::note`] for [`Client::learn`].
#[derive(Debug)]
pub struct Note {
    of: Weak<Shared>,
    handle: Handle,
}

impl Note {
    pub(crate) fn new(of: &Arc<Shared>, handle: Handle) -> Note {
        Note { of: Arc::downgrade(of), handle }
    }

    pub(crate) fn is_of(&self, shared: &Arc<Shared>) -> bool {
        std::ptr::eq(self.of.as_ptr(), Arc::as_ptr(shared))
    }

    pub(crate) fn handle(&mut self) -> *mut Handle {
        &mut self.handle
    }
}

impl Drop for Note {
    fn drop(&mut self) {
        // SAFETY: the note is this one's, or none, and isn't used after this.
        unsafe { raw::segcache_raw_note_free(&mut self.handle) };
    }
}
