//! A refusal, whichever call gives it.

use std::error::Error;
use std::fmt;

use crate::words::{broken, value, Words};
use crate::Reason;

/// A refusal: why, and where. Document 01 has nothing else in it.
///
/// As an error it says `refused with 19 at place 4: the weighted sum is too large for the node's
/// value`.
#[derive(Clone, Copy, Debug, PartialEq, Eq)]
pub struct Refusal {
    /// Why.
    pub reason: Reason,
    /// The index of a word, from 0; the length of the list if a word is lacking. It lies in the
    /// model for numbers 1 to 6, in the table for 11 to 21 and 51 to 53, in the zone with the bad
    /// word for 32 and 33. For 31, 54 to 56 and 58 to 60, which are about no word, it is 0.
    pub place: usize,
}

impl Refusal {
    /// Takes words that are no acceptance; `numbers` are those that the call gives.
    pub(crate) fn from_words(
        call: &str,
        mut numbers: impl Iterator<Item = u32>,
        words: Words,
    ) -> Refusal {
        let number = value(call, words, 0);
        let mut all = Reason::ALL.iter();
        match all.find(|reason| reason.number() == number) {
            Some(&reason) if numbers.any(|given| given == number) => Refusal {
                reason,
                place: value(call, words, 1),
            },
            _ => broken(call, words),
        }
    }

    /// The line that document 01's program prints.
    pub(crate) fn write_line(self, out: &mut fmt::Formatter<'_>) -> fmt::Result {
        write!(out, "REFUSED {} {}", self.reason.number(), self.place)
    }
}

impl fmt::Display for Refusal {
    fn fmt(&self, out: &mut fmt::Formatter<'_>) -> fmt::Result {
        let Refusal { reason, place } = self;
        let (number, meaning) = (reason.number(), reason.meaning());
        write!(out, "refused with {number} at place {place}: {meaning}")
    }
}

impl Error for Refusal {}
