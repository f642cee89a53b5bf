//! Duty planning in ordinary Rust, without proofs: the same rules, rounds and file format as the
//! verified kernel, written apart from it. It serves to compare answers and running times.

pub mod automata;
pub mod depot;
pub mod frames;
pub mod measures;
pub mod odd;
pub mod plan;
pub mod random;
pub mod rules;
pub mod settling;
pub mod setup;
pub mod sweeps;
