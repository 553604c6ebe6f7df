//! The answer of judging.

use std::fmt;

use crate::words::{value, Words};
use crate::Refusal;

/// What an accepted table certifies.
#[derive(Clone, Copy, Debug, PartialEq, Eq)]
pub struct Certificate {
    /// The start node's value; b / V is the certified fraction, not reduced.
    pub b: u32,
    /// V, of the table's head.
    pub whole: u32,
    /// How many nodes the table has.
    pub nodes: usize,
}

/// The answer of [`judge`](crate::judge) and of a submission ([`submit`](crate::submit),
/// [`Board::submit`](crate::Board::submit)). It prints as document 01's program prints it,
/// `ACCEPTED b V nodes` or `REFUSED number place`.
#[derive(Clone, Copy, Debug, PartialEq, Eq)]
#[must_use = "the table may be refused"]
pub enum Verdict {
    /// The table is accepted.
    Accepted(Certificate),
    /// The model is refused, with 1 to 6 and a place in the model, or else the table, with 11 to 21
    /// or 51 to 53 and a place in the table. A submission may be refused before that, with 54 to
    /// 56.
    Refused(Refusal),
}

impl Verdict {
    /// The same as a `Result`.
    pub fn result(self) -> Result<Certificate, Refusal> {
        match self {
            Verdict::Accepted(certificate) => Ok(certificate),
            Verdict::Refused(refusal) => Err(refusal),
        }
    }

    /// The refusal, if this is one.
    #[must_use]
    pub fn refusal(self) -> Option<Refusal> {
        self.result().err()
    }

    pub(crate) fn of_judge(words: Words) -> Verdict {
        Verdict::from_words("judge", numbers_of_judge(), words)
    }

    pub(crate) fn of_submission(words: Words) -> Verdict {
        Verdict::from_words("submit", numbers_of_judge().chain(54..=56), words)
    }

    fn from_words(call: &str, numbers: impl Iterator<Item = u32>, words: Words) -> Verdict {
        match words[0] {
            0 => Verdict::Accepted(Certificate {
                b: value(call, words, 1),
                whole: value(call, words, 2),
                nodes: value(call, words, 3),
            }),
            _ => Verdict::Refused(Refusal::from_words(call, numbers, words)),
        }
    }
}

/// The refusals of `judge`.
fn numbers_of_judge() -> impl Iterator<Item = u32> {
    (1..=6).chain(11..=21).chain(51..=53)
}

impl fmt::Display for Verdict {
    fn fmt(&self, out: &mut fmt::Formatter<'_>) -> fmt::Result {
        match self {
            Verdict::Accepted(given) => {
                write!(out, "ACCEPTED {} {} {}", given.b, given.whole, given.nodes)
            }
            Verdict::Refused(refusal) => refusal.write_line(out),
        }
    }
}
