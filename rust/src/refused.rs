//! What is turned away.

use std::error::Error;
use std::fmt;

/// A call was turned away: the number of the reason, and where in the records.
#[derive(Clone, Copy, Debug, PartialEq, Eq)]
pub struct Refused {
    /// 1 to 17, as the README's table lists them.
    pub number: u64,
    /// The place of the refused record's kind byte, counted from 0; 0 for 1, 14, 15 and 17.
    pub place: u64,
}

impl Refused {
    /// The refusal of a report's first two words, where 0 means that there is none.
    pub(crate) fn of(number: u64, place: u64) -> Option<Refused> {
        (number != 0).then_some(Refused { number, place })
    }

    /// The reason in words.
    pub fn reason(&self) -> &'static str {
        match self.number {
            1 => "the input is longer than 32,768 bytes",
            2 => "a kind of record that this call does not take",
            3 => "the record is cut off by the end",
            4 => "a link over 63 or a session over 31",
            5 => "a capacity, access rate or maximum outside its range",
            6 => "a path that is damaged",
            7 => "the link is declared already, or the session is declared or active already",
            8 => "the path names a link that is not declared",
            9 => "a leave or change of a session that is not active",
            10 => "a join of a session that has left and still has a packet in flight",
            11 => "a position past the end of the list, or out of turn",
            12 => "a sum or a link's share would be too fine",
            13 => "more than 256 packets would be in flight",
            14 => "the table has a fault",
            15 => "a lent slice has fewer than 32 places",
            16 => "a maximum above the session's access rate",
            17 => "a lent slice is shorter than the output",
            _ => "a number that the library does not have",
        }
    }
}

/// As the programs print it: `refused N at P`.
impl fmt::Display for Refused {
    fn fmt(&self, f: &mut fmt::Formatter<'_>) -> fmt::Result {
        write!(f, "refused {} at {}", self.number, self.place)
    }
}

impl Error for Refused {}
