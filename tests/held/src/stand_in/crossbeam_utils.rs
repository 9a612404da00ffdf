//! What `deque.rs` takes from crossbeam-utils. Neither makes a shared access.

use ::core::ops::{Deref, DerefMut};

use crate::gate;

/// Called by the Rust at each place where it waits for another thread.
pub struct Backoff;

impl Backoff {
    pub fn new() -> Self {
        Backoff
    }

    /// After a failed compare: the call goes on by itself.
    pub fn spin(&self) {}

    /// After a load that showed that another thread must move first.
    pub fn snooze(&self) {
        gate::waiting();
    }
}

/// Padding changes no answer, so there is none.
pub struct CachePadded<T>(T);

impl<T> CachePadded<T> {
    pub fn new(value: T) -> Self {
        CachePadded(value)
    }
}

impl<T> Deref for CachePadded<T> {
    type Target = T;

    fn deref(&self) -> &T {
        &self.0
    }
}

impl<T> DerefMut for CachePadded<T> {
    fn deref_mut(&mut self) -> &mut T {
        &mut self.0
    }
}
