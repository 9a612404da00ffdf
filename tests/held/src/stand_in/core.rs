//! `core::sync::atomic` as `deque.rs` names it: the index of head and tail is gated, the front and
//! back of the owner's ring is the real thing and makes no step.

pub mod sync {
    pub mod atomic {
        pub use ::core::sync::atomic::AtomicI64;

        use ::core::sync::atomic::{AtomicU64 as Real, Ordering};

        use crate::gate::{self, Access};

        /// The packed index of head or tail.
        pub struct AtomicU64(Real);

        impl AtomicU64 {
            pub fn new(value: u64) -> Self {
                AtomicU64(Real::new(value))
            }

            #[track_caller]
            pub fn load(&self, _: Ordering) -> u64 {
                gate::stop(Access::Load(self.address()));
                let value = self.0.load(Ordering::SeqCst);
                gate::saw(value);
                value
            }

            #[track_caller]
            pub fn store(&self, value: u64, _: Ordering) {
                gate::stop(Access::Store(self.address()));
                self.0.store(value, Ordering::SeqCst);
            }

            /// Strong: it fails only where the value differs, or where a slip was asked for.
            #[track_caller]
            pub fn compare_exchange_weak(
                &self,
                current: u64,
                new: u64,
                _: Ordering,
                _: Ordering,
            ) -> Result<u64, u64> {
                gate::stop(Access::Compare(self.address()));
                let outcome = if gate::slips() {
                    Err(self.0.load(Ordering::SeqCst))
                } else {
                    self.0
                        .compare_exchange(current, new, Ordering::SeqCst, Ordering::SeqCst)
                };
                if let Err(value) = outcome {
                    gate::saw(value);
                }
                outcome
            }

            pub fn get_mut(&mut self) -> &mut u64 {
                self.0.get_mut()
            }

            pub(crate) fn address(&self) -> usize {
                self as *const Self as usize
            }
        }
    }
}
