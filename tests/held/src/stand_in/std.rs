//! `std` as `deque.rs` names it. Gated: slot states, block pointers, tasks, taking and giving back
//! a block. Everything else is the real standard library.

pub use ::core::{cmp, fmt, marker, mem, ptr};

pub mod alloc {
    pub use ::core::alloc::Layout;

    use crate::gate::{self, Access};
    use crate::pool;

    /// Only `Block::new` allocates so: a block out of the pool, or null if none is free.
    #[track_caller]
    pub unsafe fn alloc_zeroed(layout: Layout) -> *mut u8 {
        gate::stop(Access::Take);
        pool::take(layout)
    }

    /// The Rust's own way out where there is no memory; here it unwinds the push.
    pub fn handle_alloc_error(_: Layout) -> ! {
        gate::no_block()
    }
}

pub mod boxed {
    use ::core::mem;
    use ::core::ptr::NonNull;
    use rust::boxed::Box as Real;

    use crate::gate::{self, Access};
    use crate::pool;

    /// A block out of the pool, or the memory of an owner's ring.
    pub struct Box<T: ?Sized>(NonNull<T>);

    impl<T: ?Sized> Box<T> {
        pub unsafe fn from_raw(raw: *mut T) -> Self {
            Box(NonNull::new_unchecked(raw))
        }

        pub fn into_raw(this: Self) -> *mut T {
            let raw = this.0.as_ptr();
            mem::forget(this);
            raw
        }
    }

    impl<T> FromIterator<T> for Box<[T]> {
        fn from_iter<I: IntoIterator<Item = T>>(iter: I) -> Self {
            let real: Real<[T]> = iter.into_iter().collect();
            unsafe { Box::from_raw(Real::into_raw(real)) }
        }
    }

    impl<T: ?Sized> Drop for Box<T> {
        fn drop(&mut self) {
            let address = self.0.as_ptr().cast::<u8>() as usize;
            if pool::holds(address) {
                gate::stop(Access::GiveBack(address));
                pool::give_back(address);
            } else {
                drop(unsafe { Real::from_raw(self.0.as_ptr()) });
            }
        }
    }
}

pub mod cell {
    pub use ::core::cell::Cell;

    use ::core::cell::UnsafeCell as RealUnsafeCell;
    use ::core::ops::{Deref, DerefMut};

    use crate::gate::{self, Access};

    /// The task of a slot.
    pub struct UnsafeCell<T>(RealUnsafeCell<T>);

    impl<T> UnsafeCell<T> {
        /// No access yet: the Rust reads or writes through what it gets.
        pub fn get(&self) -> Task<T> {
            Task(self.0.get())
        }
    }

    /// Where a task lies.
    pub struct Task<T>(*mut T);

    impl<T> Task<T> {
        #[track_caller]
        pub unsafe fn write(self, value: T) {
            gate::stop(Access::Write(self.0 as usize));
            self.0.write(value);
        }

        #[track_caller]
        pub unsafe fn read(self) -> T {
            gate::stop(Access::Read(self.0 as usize));
            self.0.read()
        }
    }

    // Only `Drop` of the Injector goes this way, and it is never run here.
    impl<T> Deref for Task<T> {
        type Target = T;

        fn deref(&self) -> &T {
            unsafe { &*self.0 }
        }
    }

    impl<T> DerefMut for Task<T> {
        fn deref_mut(&mut self) -> &mut T {
            unsafe { &mut *self.0 }
        }
    }
}

pub mod sync {
    pub use rust::sync::Arc;

    pub mod atomic {
        pub use ::core::sync::atomic::{fence, Ordering};

        use ::core::sync::atomic::{AtomicPtr as RealPtr, AtomicUsize as RealUsize};

        use crate::gate::{self, Access};

        /// The block of head or tail, or the next of a block.
        pub struct AtomicPtr<T>(RealPtr<T>);

        impl<T> AtomicPtr<T> {
            pub fn new(value: *mut T) -> Self {
                AtomicPtr(RealPtr::new(value))
            }

            #[track_caller]
            pub fn load(&self, _: Ordering) -> *mut T {
                gate::stop(Access::Load(self.address()));
                let value = self.0.load(Ordering::SeqCst);
                gate::saw(value as u64);
                value
            }

            #[track_caller]
            pub fn store(&self, value: *mut T, _: Ordering) {
                gate::stop(Access::Store(self.address()));
                self.0.store(value, Ordering::SeqCst);
            }

            pub fn get_mut(&mut self) -> &mut *mut T {
                self.0.get_mut()
            }

            pub(crate) fn address(&self) -> usize {
                self as *const Self as usize
            }
        }

        /// The state of a slot.
        pub struct AtomicUsize(RealUsize);

        impl AtomicUsize {
            #[track_caller]
            pub fn load(&self, _: Ordering) -> usize {
                gate::stop(Access::Load(self.address()));
                self.0.load(Ordering::SeqCst)
            }

            #[track_caller]
            pub fn fetch_or(&self, bits: usize, _: Ordering) -> usize {
                gate::stop(Access::Or(self.address(), bits));
                self.0.fetch_or(bits, Ordering::SeqCst)
            }

            fn address(&self) -> usize {
                self as *const Self as usize
            }
        }
    }
}
