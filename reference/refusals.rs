//! The refusals of 01 and of 02 as far as A12, with their numbers and the place that
//! a 3, a 27, a 28 or a 31 carries.

use std::fmt;

/// A call that is refused tells one of these. A term out of range, a typed line that cannot
/// be read and two terms that disagree are not told without the place, and nothing else has
/// one.
#[derive(Clone, Copy, PartialEq, Eq, Debug)]
pub enum Refusal {
    /// 1: "the modulus is below 2 or above 4,095".
    Modulus,
    /// 2: "the count of terms, or of cells to run, is above 128".
    TooMany,
    /// 3: "one of the terms is not below the modulus", with the first such place,
    /// "counted from 0 (for a single term, the reading's count)"; for a term of a column
    /// "the reading's count at that moment". 02, A10: "a digit above 1 gets 3".
    Term(usize),
    /// 4: "a slip holds something other than zero past its count".
    Padding,
    /// 5: a lent buffer has another length than it must have; 02, A7: "5 measures
    /// records by 778".
    Buffer,
    /// 25: "a claim's length is above 128".
    ClaimLength,
    /// 6: "a coefficient not below m, a nonzero a past l or b past l-1".
    Claim,
    /// 26: "a_0 is not 1".
    ClaimStart,
    /// 21: a reading that would get 1 to 4 if it were a slip.
    Reading,
    /// 22: "a term is offered to a reading that holds 128".
    Full,
    /// 23: "the shelf's length is not a multiple of 776"; 02, A7: it "now counts in 778s".
    Shelf,
    /// 24: "the record found is a bad claim .. or its test against the slip says no".
    Record,
    /// 27: "the line breaks its form", with "the place of the first byte that no line
    /// of this form with the same bytes before it has there, or the line's length if it
    /// ends too soon".
    LineForm(usize),
    /// 28: "a term, or a modulus above 2,147,483,647, is out of that range", with "the
    /// place of the digit that passes it".
    LineRange(usize),
    /// 29: "the counts differ".
    Counts,
    /// 30: "the multiple is above the modulus limit".
    Multiple,
    /// 31: "two terms disagree modulo the common divisor, with the first place".
    Disagreement(usize),
    /// 32: "the period is none of these seven".
    Period,
    /// 33: "the power is above 4,096, or the number is not below it".
    Census,
    /// 34: "the bundle holds more than 16 slips".
    Bundle,
}

impl Refusal {
    /// The number in the papers.
    pub fn number(self) -> u32 {
        match self {
            Refusal::Modulus => 1,
            Refusal::TooMany => 2,
            Refusal::Term(_) => 3,
            Refusal::Padding => 4,
            Refusal::Buffer => 5,
            Refusal::Claim => 6,
            Refusal::Reading => 21,
            Refusal::Full => 22,
            Refusal::Shelf => 23,
            Refusal::Record => 24,
            Refusal::ClaimLength => 25,
            Refusal::ClaimStart => 26,
            Refusal::LineForm(_) => 27,
            Refusal::LineRange(_) => 28,
            Refusal::Counts => 29,
            Refusal::Multiple => 30,
            Refusal::Disagreement(_) => 31,
            Refusal::Period => 32,
            Refusal::Census => 33,
            Refusal::Bundle => 34,
        }
    }

    /// The place carried along.
    pub fn place(self) -> Option<usize> {
        match self {
            Refusal::Term(place)
            | Refusal::LineForm(place)
            | Refusal::LineRange(place)
            | Refusal::Disagreement(place) => Some(place),
            _ => None,
        }
    }
}

/// The words of the listing and of a replay: "refused 1", "refused 3 at 7".
impl fmt::Display for Refusal {
    fn fmt(&self, text: &mut fmt::Formatter) -> fmt::Result {
        write!(text, "refused {}", self.number())?;
        match self.place() {
            Some(place) => write!(text, " at {place}"),
            None => Ok(()),
        }
    }
}
