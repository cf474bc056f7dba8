//! Differential runs and timings of the Rattle functions beside the Rust.
//!
//! To add a part, write `parts/NAME.rs` with a type that implements [`parts::Part`], and add it to
//! the table [`parts::PARTS`]. `parts/num.rs` is the model: it declares the functions that the crate
//! `exports` exports for the part, pairs each with its Rust in a [`check::Function`], and lists the
//! inputs.

pub mod bench;
pub mod check;
pub mod exact;
pub mod lent;
pub mod options;
pub mod parts;
pub mod progress;
pub mod replay;
pub mod rng;
pub mod values;
pub mod words;
