//! The answers of the two questions about zones.

use std::fmt;

use crate::words::{broken, Words};
use crate::Refusal;

/// The answer of [`zone_empty`](crate::zone_empty). It prints as `EMPTY`, `NOT EMPTY` or
/// `REFUSED number place`.
#[derive(Clone, Copy, Debug, PartialEq, Eq)]
#[must_use = "the question may be refused"]
pub enum Emptiness {
    /// No scale has a valuation in the zone.
    Empty,
    /// Some scale has one.
    NotEmpty,
    /// The question is refused, with 31 or 32.
    Refused(Refusal),
}

impl Emptiness {
    /// The same as a `Result`: whether the zone is empty.
    pub fn result(self) -> Result<bool, Refusal> {
        match self {
            Emptiness::Empty => Ok(true),
            Emptiness::NotEmpty => Ok(false),
            Emptiness::Refused(refusal) => Err(refusal),
        }
    }

    /// The refusal, if this is one.
    #[must_use]
    pub fn refusal(self) -> Option<Refusal> {
        self.result().err()
    }

    pub(crate) fn from_words(words: Words) -> Emptiness {
        const CALL: &str = "zone_empty";
        match (words[0], words[1]) {
            (0, 1) => Emptiness::Empty,
            (0, 0) => Emptiness::NotEmpty,
            (0, _) => broken(CALL, words),
            _ => Emptiness::Refused(Refusal::from_words(CALL, 31..=32, words)),
        }
    }
}

impl fmt::Display for Emptiness {
    fn fmt(&self, out: &mut fmt::Formatter<'_>) -> fmt::Result {
        match self {
            Emptiness::Empty => out.write_str("EMPTY"),
            Emptiness::NotEmpty => out.write_str("NOT EMPTY"),
            Emptiness::Refused(refusal) => refusal.write_line(out),
        }
    }
}

/// The answer of [`zone_inside`](crate::zone_inside). It prints as `INSIDE`, `NOT INSIDE` or
/// `REFUSED number place`.
#[derive(Clone, Copy, Debug, PartialEq, Eq)]
#[must_use = "the question may be refused"]
pub enum Inclusion {
    /// At every scale, each valuation in the first zone is in the second.
    Inside,
    /// Some scale has a valuation in the first zone that is not in the second.
    NotInside,
    /// The question is refused, with 31 to 33.
    Refused(Refusal),
}

impl Inclusion {
    /// The same as a `Result`: whether the first zone lies inside the second.
    pub fn result(self) -> Result<bool, Refusal> {
        match self {
            Inclusion::Inside => Ok(true),
            Inclusion::NotInside => Ok(false),
            Inclusion::Refused(refusal) => Err(refusal),
        }
    }

    /// The refusal, if this is one.
    #[must_use]
    pub fn refusal(self) -> Option<Refusal> {
        self.result().err()
    }

    pub(crate) fn from_words(words: Words) -> Inclusion {
        const CALL: &str = "zone_inside";
        match (words[0], words[1]) {
            (0, 1) => Inclusion::Inside,
            (0, 0) => Inclusion::NotInside,
            (0, _) => broken(CALL, words),
            _ => Inclusion::Refused(Refusal::from_words(CALL, 31..=33, words)),
        }
    }
}

impl fmt::Display for Inclusion {
    fn fmt(&self, out: &mut fmt::Formatter<'_>) -> fmt::Result {
        match self {
            Inclusion::Inside => out.write_str("INSIDE"),
            Inclusion::NotInside => out.write_str("NOT INSIDE"),
            Inclusion::Refused(refusal) => refusal.write_line(out),
        }
    }
}
