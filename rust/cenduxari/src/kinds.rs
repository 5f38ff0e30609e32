//! The field's words for numbers of the paper: kinds, directions, ways.

/// The kind of a unit.
#[derive(Clone, Copy, Debug, PartialEq, Eq, Hash)]
#[repr(u64)]
pub enum Kind {
    /// 1: a solar generator, with hours 6 to 19.
    Solar = 1,
    /// 2: another generator.
    Generator = 2,
    /// 3: a wholesale user.
    WholesaleUser = 3,
    /// 4: a retailer.
    Retailer = 4,
}

impl Kind {
    /// The paper's number.
    pub const fn number(self) -> u64 {
        self as u64
    }
}

/// The direction of an order.
#[derive(Clone, Copy, Debug, PartialEq, Eq, Hash)]
#[repr(u64)]
pub enum Direction {
    /// 0: it sells.
    Sell = 0,
    /// 1: it buys.
    Buy = 1,
}

impl Direction {
    /// The paper's number.
    pub const fn number(self) -> u64 {
        self as u64
    }
}

/// How a trade came about.
#[derive(Clone, Copy, Debug, PartialEq, Eq, Hash)]
#[repr(u64)]
pub enum Way {
    /// 1: a bilateral offer, taken by its partner.
    Bilateral = 1,
    /// 2: a listing, taken.
    Listing = 2,
    /// 3: clearing.
    Clear = 3,
    /// 4: an order that met another in the rolling phase.
    Rolling = 4,
}

impl Way {
    /// The paper's number.
    pub const fn number(self) -> u64 {
        self as u64
    }

    /// The way of a row's number.
    pub(crate) fn of(number: u64) -> Way {
        match number {
            1 => Way::Bilateral,
            2 => Way::Listing,
            3 => Way::Clear,
            4 => Way::Rolling,
            _ => unreachable!("the contract names no other way"),
        }
    }
}
