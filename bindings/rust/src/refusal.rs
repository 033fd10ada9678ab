//! The numbers by which the library refuses.

use std::error::Error;
use std::fmt;

/// Why a call was refused. The discriminant is the number of document 01, and [`fmt::Display`] writes number and
/// meaning.
///
/// A refused call has changed none of its buffers and no table, except where the call's own page says otherwise (6,
/// 13 and 14). When several reasons hold at once, the call answers the first in the order that its page lists.
#[derive(Clone, Copy, Debug, PartialEq, Eq, Hash, PartialOrd, Ord)]
#[repr(u32)]
pub enum Refusal {
    /// 1: the element width b is below 4 or above 14.
    Width = 1,
    /// 2: a dimension, the length of a lent buffer or the room of an output is wrong, or C·b is below 264 where a row
    /// must hold a record.
    Shape = 2,
    /// 3: the random words ran out first.
    WordsEnd = 3,
    /// 4: the sampler's interval is 0 or above 1,431,655,765.
    Interval = 4,
    /// 5: a position isn't a row of the database, or two of the four are the same.
    Positions = 5,
    /// 6: adding Δ to a query entry would wrap around.
    Wraps = 6,
    /// 7: a query for this digest is pending already.
    Pending = 7,
    /// 8: all 64 slots are taken.
    Full = 8,
    /// 9: the table has given out every ticket number that it may.
    Numbers = 9,
    /// 10: no query is pending under this ticket.
    NotPending = 10,
    /// 11: a line or the bytes of a matrix aren't well formed, or a line was to be written for ticket 0.
    Malformed = 11,
    /// 12: a response hasn't one word for each column.
    Length = 12,
    /// 13: a row hasn't its end marker where it must be.
    Marker = 13,
    /// 14: a row carries another digest than the one asked for.
    Digest = 14,
    /// 15: the proposed order of writing breaks the placement rule.
    Placement = 15,
    /// 16: the value has more bytes than a row can hold.
    TooLong = 16,
    /// 17: an element of a row doesn't fit into b bits.
    Element = 17,
    /// 18: the table is malformed; [`Table`](crate::Table) says when one is.
    Table = 18,
}

impl Refusal {
    /// Every refusal, in the order of the numbers: number `i` stands at `i - 1`.
    pub const ALL: [Refusal; 18] = [
        Refusal::Width,
        Refusal::Shape,
        Refusal::WordsEnd,
        Refusal::Interval,
        Refusal::Positions,
        Refusal::Wraps,
        Refusal::Pending,
        Refusal::Full,
        Refusal::Numbers,
        Refusal::NotPending,
        Refusal::Malformed,
        Refusal::Length,
        Refusal::Marker,
        Refusal::Digest,
        Refusal::Placement,
        Refusal::TooLong,
        Refusal::Element,
        Refusal::Table,
    ];

    /// The number of document 01, 1 to 18.
    pub fn number(self) -> u32 {
        self as u32
    }

    /// What the number means, in one line without the number.
    pub fn meaning(self) -> &'static str {
        match self {
            Refusal::Width => "the element width b is outside 4..=14",
            Refusal::Shape => "a dimension or the length of a buffer is wrong, or C·b is below 264",
            Refusal::WordsEnd => "the random words end before enough of them are accepted",
            Refusal::Interval => "the ternary interval is outside 1..=1431655765",
            Refusal::Positions => "a position is no row of the database, or two of the four are equal",
            Refusal::Wraps => "a query entry plus Δ is 2^32 or more at one of the four positions",
            Refusal::Pending => "a query for this digest is already pending",
            Refusal::Full => "all 64 slots are taken",
            Refusal::Numbers => "the next ticket number is 2^32-1, which is never given out",
            Refusal::NotPending => "no query is pending under this ticket",
            Refusal::Malformed => "a line or matrix bytes are malformed, or a line is for ticket 0",
            Refusal::Length => "the response has not one word for each column",
            Refusal::Marker => "the row has no end marker where one must be",
            Refusal::Digest => "the row carries another digest than the one asked for",
            Refusal::Placement => "the order of writing breaks the placement rule",
            Refusal::TooLong => "the value is longer than a row can hold",
            Refusal::Element => "an element of a row does not fit into b bits",
            Refusal::Table => "the pending table is malformed",
        }
    }

    /// The refusal that a nonzero answer stands for. The archive is proved to answer these numbers alone; another
    /// file linked in its place might not, and that is a broken build and no refusal.
    fn of(number: u32) -> Refusal {
        match Refusal::ALL.iter().find(|refusal| refusal.number() == number) {
            Some(refusal) => *refusal,
            None => panic!("the archive answered {number}, a number that document 01 doesn't have"),
        }
    }
}

impl fmt::Display for Refusal {
    fn fmt(&self, f: &mut fmt::Formatter<'_>) -> fmt::Result {
        write!(f, "{}: {}", self.number(), self.meaning())
    }
}

impl Error for Refusal {}

/// A number of the archive as a result: 0 is success.
pub(crate) fn answer(number: u32) -> Result<(), Refusal> {
    match number {
        0 => Ok(()),
        refused => Err(Refusal::of(refused)),
    }
}

#[cfg(test)]
mod tests {
    use super::*;

    #[test]
    fn zero_is_success_and_each_number_is_its_refusal() {
        assert_eq!(answer(0), Ok(()));
        for (at, refusal) in Refusal::ALL.into_iter().enumerate() {
            assert_eq!(refusal.number() as usize, at + 1);
            assert_eq!(answer(refusal.number()), Err(refusal));
        }
    }

    #[test]
    #[should_panic(expected = "a number that document 01 doesn't have")]
    fn nineteen_is_a_broken_archive() {
        let _ = answer(19);
    }
}
