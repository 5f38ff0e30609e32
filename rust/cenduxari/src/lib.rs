//! Term contracts for electricity: the proved engine of Cenduxari, for trading screens.
//!
//! A [`Book`] takes the calls of a trading day and answers, to the kWh, whether a declaration fits, what it trades and
//! what the delivery [`Curve`] looks like. [`limits`] and [`share`] are the limits of a unit and the sharing of an
//! amount on their own; [`lent`] has the calls on memory of the caller's, and [`replay`] answers calls that are written
//! in lines.
//!
//! All of it is written and proved in Rattle (`crates/` of the repository); this crate links it. Energy is in whole kWh,
//! capacity in kW, a price in thousandths of a yuan per MWh. A call that is turned down returns a [`Refusal`] and changes
//! nothing.

#![deny(missing_docs)]

mod book;
mod curve;
mod kinds;
pub mod lent;
mod limits;
mod refusal;
pub mod replay;
mod rows;
mod sharing;
mod sys;

pub use book::Book;
pub use curve::Curve;
pub use kinds::{Direction, Kind, Way};
pub use limits::{limits, Limits};
pub use refusal::Refusal;
pub use rows::{Ordered, Row, Rows};
pub use sharing::share;
