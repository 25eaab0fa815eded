//! 'Where input is turned down': the numbers of the table.
//!
//! Number 17 is about networks and buffers handed in by a caller; a plan cannot reach it.

/// Why a field or an event is refused.
#[derive(Clone, Copy, Debug, PartialEq, Eq)]
pub enum Refusal {
    /// Only one or two bytes left, or the value is cut short.
    CutShort = 1,
    UnknownTag = 2,
    WrongLength = 3,
    /// Field out of order, an event before any view, or the plan ends without a view.
    OutOfOrder = 4,
    BridgeCount = 5,
    TooManyLinks = 6,
    LinkEnds = 7,
    TooManyViews = 8,
    CostTooHigh = 9,
    /// No such bridge, view or link.
    NoSuch = 10,
    NotOnLink = 11,
    /// Cut of an end that is down, restore of an end that is up.
    AlreadySo = 12,
    /// The sender's end for a send, the receiver's for a delivery or a repeat.
    EndDown = 13,
    FlightFull = 14,
    NoMessage = 15,
    NumbersUsedUp = 16,
    PlanTooLong = 18,
}

impl Refusal {
    /// The number of the table.
    pub fn number(self) -> u8 {
        self as u8
    }
}
