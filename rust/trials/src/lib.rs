//! Trials of the proved functions: each is held to the second engine and to the paper's laws, on many inputs.
//!
//! A trial takes the function to try as an argument, so that the tests also see that wrong versions are found.
//!
//! The tests make a bounded number of lists of calls and damaged books. More of them, with counts:
//! `cargo run --release -p trials --bin soak_engine -- CALLS SEED`.

pub mod books;
pub mod clears;
pub mod damaged;
pub mod deep;
pub mod engine;
pub mod exported;
pub mod layout;
pub mod limits;
pub mod lists;
pub mod plain;
pub mod random;
pub mod sharing;
pub mod stack;
pub mod takes;
pub mod timing;
