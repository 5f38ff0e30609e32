//! The refusals: paper 01, "Refusals by place of check".

use std::error::Error;
use std::fmt;

/// Why a call was turned down, by the paper's number.
///
/// A call meets its checks in rising number and returns the first.
///
/// ```
/// use cenduxari::Refusal;
///
/// assert_eq!(Refusal::Energy.number(), 9);
/// assert_eq!(Refusal::from_number(9), Some(Refusal::Energy));
/// assert_eq!(Refusal::Kind.to_string(), "the kind is not 1 to 4");
/// ```
#[derive(Clone, Copy, Debug, PartialEq, Eq, PartialOrd, Ord, Hash)]
#[non_exhaustive]
#[repr(u64)]
pub enum Refusal {
    /// 1: memory too short, or not a sound book.
    UnsoundBook = 1,
    /// 2: days or prices out of range.
    DaysOrPrices = 2,
    /// 3: kind not 1 to 4.
    Kind = 3,
    /// 4: capacity or asset energy out of range.
    CapacityOrAsset = 4,
    /// 5: 64 units stand.
    UnitsFull = 5,
    /// 6: unit or non-zero partner unknown.
    UnknownUnit = 6,
    /// 7: take, order, clear: under 744 rows lent; curve: under 48 numbers; sharing: fewer parts than amounts.
    RowsShort = 7,
    /// 8: price outside floor to ceiling.
    Price = 8,
    /// 9: quantity or total 0 or over 4,000,000,000; wrong list length; sharing: amount over the total.
    Energy = 9,
    /// 10: no such period or day.
    Period = 10,
    /// 11: no open offer of that number (cancel: no open order); withdraw, cancel: or another's.
    Number = 11,
    /// 12: wrong side or partner, unknown direction, quantity the offer can't give.
    Party = 12,
    /// 13: withdraw after a take.
    AlreadyTaken = 13,
    /// 14: clear in the rolling phase.
    RollingPhase = 14,
    /// 15: order: unit has an open order or a trade of way 3 or 4 today, same period, other direction.
    OtherDirection = 15,
    /// 16: order in the call phase: unit has two open in that period.
    TwoOpen = 16,
    /// 17: 8 offers already open, or 256 orders, unless the order trades whole at once.
    TableFull = 17,
    /// 18: 65,535 numbers used.
    NumbersUsed = 18,
    /// 19: hour doesn't fit, or lowering past held.
    HourLimit = 19,
    /// 20: term doesn't fit.
    TermLimit = 20,
    /// 21: volume doesn't fit.
    VolumeLimit = 21,
}

/// All refusals, in the order of their numbers.
const ALL: [Refusal; 21] = [
    Refusal::UnsoundBook,
    Refusal::DaysOrPrices,
    Refusal::Kind,
    Refusal::CapacityOrAsset,
    Refusal::UnitsFull,
    Refusal::UnknownUnit,
    Refusal::RowsShort,
    Refusal::Price,
    Refusal::Energy,
    Refusal::Period,
    Refusal::Number,
    Refusal::Party,
    Refusal::AlreadyTaken,
    Refusal::RollingPhase,
    Refusal::OtherDirection,
    Refusal::TwoOpen,
    Refusal::TableFull,
    Refusal::NumbersUsed,
    Refusal::HourLimit,
    Refusal::TermLimit,
    Refusal::VolumeLimit,
];

impl Refusal {
    /// The paper's number.
    pub const fn number(self) -> u64 {
        self as u64
    }

    /// The refusal of this number, if the paper has one.
    #[inline]
    pub fn from_number(number: u64) -> Option<Refusal> {
        ALL.into_iter().find(|refusal| refusal.number() == number)
    }
}

impl fmt::Display for Refusal {
    fn fmt(&self, f: &mut fmt::Formatter<'_>) -> fmt::Result {
        f.write_str(match self {
            Refusal::UnsoundBook => "the memory is too short, or not a sound book",
            Refusal::DaysOrPrices => "the days or the prices are out of range",
            Refusal::Kind => "the kind is not 1 to 4",
            Refusal::CapacityOrAsset => "the capacity or the asset energy is out of range",
            Refusal::UnitsFull => "64 units stand",
            Refusal::UnknownUnit => "the unit or the non-zero partner is unknown",
            Refusal::RowsShort => {
                "under 744 rows are lent, or for a curve under 48 numbers, or for sharing fewer parts than amounts"
            }
            Refusal::Price => "the price is outside floor to ceiling",
            Refusal::Energy => {
                "the quantity or the total is 0 or over 4,000,000,000, the list has a wrong length, \
                 or more is to be shared than remains"
            }
            Refusal::Period => "there is no such period or day",
            Refusal::Number => "no offer or order of that number is open, or it is another's",
            Refusal::Party => {
                "the side or partner is wrong, the direction unknown, or the quantity one that the offer can't give"
            }
            Refusal::AlreadyTaken => "some of the offer is taken",
            Refusal::RollingPhase => "the book is in the rolling phase",
            Refusal::OtherDirection => {
                "the unit has an open order or a trade of way 3 or 4 today, same period, other direction"
            }
            Refusal::TwoOpen => "the unit has two orders open in that period",
            Refusal::TableFull => {
                "8 offers are already open, or 256 orders, and some of this one would wait"
            }
            Refusal::NumbersUsed => "65,535 numbers are used",
            Refusal::HourLimit => {
                "the declaration doesn't fit the hour limit, or lowers more than was held"
            },
            Refusal::TermLimit => "the declaration doesn't fit the term limit",
            Refusal::VolumeLimit => "the declaration doesn't fit the volume limit",
        })
    }
}

impl Error for Refusal {}

/// What an exported function's number says: 0 that the call was accepted.
#[inline]
pub(crate) fn outcome(number: u64) -> Result<(), Refusal> {
    match number {
        0 => Ok(()),
        _ => Err(Refusal::from_number(number).expect("the contract names no other number")),
    }
}
