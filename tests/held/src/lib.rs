//! The published `deque.rs`, compiled unchanged, held before each shared access of the Injector.
//!
//! The crate is `no_std`, so that the names `std`, `crossbeam_epoch` and `crossbeam_utils` are free
//! for modules of its own; `core` is shadowed by a module, too. The file is included into the crate
//! root, where its `use` lines and its `core::sync::atomic::AtomicU64` find those stand-ins.
//! The real standard library goes by the name `rust` here.
#![no_std]
// The published file names a cfg of its own build, and its items are not all used here.
#![allow(unexpected_cfgs, dead_code)]

extern crate std as rust;

pub mod gate;
pub mod hall;
pub mod line;
pub mod peek;
pub mod pool;

#[path = "stand_in/core.rs"]
mod core;
#[path = "stand_in/crossbeam_epoch.rs"]
mod crossbeam_epoch;
#[path = "stand_in/crossbeam_utils.rs"]
mod crossbeam_utils;
#[path = "stand_in/std.rs"]
mod std;

include!("published/deque.rs");
