//! Document 01's refusals.

use std::error::Error;
use std::fmt;

/// Why a call was refused. The numbers are document 01's.
#[derive(Clone, Copy, Debug, PartialEq, Eq, Hash)]
#[repr(u32)]
pub enum Refusal {
    /// The type is outside 1 to 10.
    Type = 1,
    /// A number is not finite, or over 1,000 in magnitude.
    Number = 2,
    /// The conductivity is not above 0.
    Conductivity = 3,
    /// The MHz are outside 1 to 30.
    Frequency = 4,
    /// A curtain of more than 64 bays.
    Bays = 5,
    /// A table or an answer has another length.
    Length = 7,
    /// The carried height is not finite.
    Height = 9,
    /// A series has not settled after eight turns.
    Unsettled = 11,
}

impl Refusal {
    const ALL: [Refusal; 8] = [
        Refusal::Type,
        Refusal::Number,
        Refusal::Conductivity,
        Refusal::Frequency,
        Refusal::Bays,
        Refusal::Length,
        Refusal::Height,
        Refusal::Unsettled,
    ];

    /// Document 01's number.
    pub fn number(self) -> u32 {
        self as u32
    }

    /// The refusal of a number, if an entry has it.
    pub fn of_number(number: u32) -> Option<Refusal> {
        Self::ALL.into_iter().find(|r| r.number() == number)
    }
}

impl fmt::Display for Refusal {
    fn fmt(&self, f: &mut fmt::Formatter<'_>) -> fmt::Result {
        f.write_str(match self {
            Refusal::Type => "the type is outside 1 to 10",
            Refusal::Number => "a number is not finite or over 1,000 in magnitude",
            Refusal::Conductivity => "the conductivity is not above 0",
            Refusal::Frequency => "the MHz are outside 1 to 30",
            Refusal::Bays => "the curtain has more than 64 bays",
            Refusal::Length => "a table or an answer has another length",
            Refusal::Height => "the carried height is not finite",
            Refusal::Unsettled => "a series has not settled after eight turns",
        })
    }
}

impl Error for Refusal {}
