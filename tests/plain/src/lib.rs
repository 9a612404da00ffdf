//! Document 01's step table as an ordinary Rust program, without proofs: the baseline of the speed
//! figures, and a reading of the table made apart from the Rust that `held` runs.

mod count;
pub mod coverage;
mod dump;
pub mod index;
pub mod machine;
pub mod memory;
mod push;
pub mod replay;
pub mod ring;
mod steal;
mod text;
