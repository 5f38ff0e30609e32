//! The second engine of Cenduxari: paper 01, "Term contracts for electricity", and those of paper 02's requests that the
//! proved engine has, in plain Rust. It is written from the papers alone, so that the two can be compared.

pub mod beside;
pub mod book;
pub mod calls;
pub mod clearing;
pub mod damage;
pub mod fits;
pub mod generate;
pub mod limits;
pub mod lists;
pub mod manners;
pub mod orders;
pub mod random;
pub mod rehearse;
pub mod replay;
pub mod rooms;
pub mod sharing;
pub mod sound;
pub mod staff;
pub mod tally;
