//! What `deque.rs` takes from crossbeam-epoch: where a `Worker` keeps its buffer. A ring of 64
//! tokens is never resized (NO_ROOM comes first), so no buffer is ever swapped and nothing waits
//! for epochs.

use ::core::marker::PhantomData;
use ::core::sync::atomic::Ordering;
use rust::boxed::Box;

pub struct Guard;

pub fn pin() -> Guard {
    Guard
}

pub fn is_pinned() -> bool {
    false
}

pub unsafe fn unprotected() -> &'static Guard {
    &Guard
}

impl Guard {
    pub unsafe fn defer_unchecked<F: FnOnce()>(&self, _: F) {
        unreachable!("a ring of 64 tokens is never resized");
    }

    pub fn flush(&self) {}
}

pub struct Atomic<T>(*mut T);

impl<T> Atomic<T> {
    pub fn new(value: T) -> Self {
        Atomic(Box::into_raw(Box::new(value)))
    }

    pub fn load<'g>(&self, _: Ordering, _: &'g Guard) -> Shared<'g, T> {
        Shared(self.0, PhantomData)
    }

    pub fn swap<'g>(&self, _: Shared<'_, T>, _: Ordering, _: &'g Guard) -> Shared<'g, T> {
        unreachable!("a ring of 64 tokens is never resized");
    }
}

pub struct Owned<T>(*mut T);

impl<T> Owned<T> {
    pub fn new(value: T) -> Self {
        Owned(Box::into_raw(Box::new(value)))
    }

    pub fn into_shared<'g>(self, _: &'g Guard) -> Shared<'g, T> {
        Shared(self.0, PhantomData)
    }

    pub fn into_box(self) -> Box<T> {
        unsafe { Box::from_raw(self.0) }
    }
}

pub struct Shared<'g, T>(*mut T, PhantomData<&'g T>);

impl<'g, T> Shared<'g, T> {
    pub unsafe fn deref(&self) -> &'g T {
        &*self.0
    }

    pub unsafe fn into_owned(self) -> Owned<T> {
        Owned(self.0)
    }
}

impl<T> PartialEq for Shared<'_, T> {
    fn eq(&self, other: &Self) -> bool {
        self.0 == other.0
    }
}
