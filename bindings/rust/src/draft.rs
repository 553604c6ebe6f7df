//! The answers of drafting a table.

use std::fmt;

use crate::words::{broken, value, Words};
use crate::Refusal;

/// No draft takes more words than this: a head and the start node, and 64 nodes, each with its word,
/// 20 bounds, its value and rows of 128 words (32 actions of 4 edges).
pub const DRAFT_WORDS: usize = 9602;

/// The answer of [`draft`](crate::draft). It prints as `DRAFTED length` or `REFUSED number place`.
#[derive(Clone, Debug, PartialEq, Eq)]
#[must_use = "the draft may be refused"]
pub enum DraftAnswer {
    /// The words of the table.
    Drafted(Vec<u32>),
    /// The model is refused, with 1 to 6 and a place in it, or else the draft, with 58 or 59.
    Refused(Refusal),
}

impl DraftAnswer {
    /// The same as a `Result`.
    pub fn result(self) -> Result<Vec<u32>, Refusal> {
        match self {
            DraftAnswer::Drafted(table) => Ok(table),
            DraftAnswer::Refused(refusal) => Err(refusal),
        }
    }

    /// The refusal, if this is one.
    #[must_use]
    pub fn refusal(&self) -> Option<Refusal> {
        match self {
            DraftAnswer::Drafted(_) => None,
            DraftAnswer::Refused(refusal) => Some(*refusal),
        }
    }
}

impl fmt::Display for DraftAnswer {
    fn fmt(&self, out: &mut fmt::Formatter<'_>) -> fmt::Result {
        match self {
            DraftAnswer::Drafted(table) => write!(out, "DRAFTED {}", table.len()),
            DraftAnswer::Refused(refusal) => refusal.write_line(out),
        }
    }
}

/// The answer of [`draft_into`](crate::draft_into). It prints as `DRAFTED length` or
/// `REFUSED number place`.
#[derive(Clone, Copy, Debug, PartialEq, Eq)]
#[must_use = "the draft may be refused"]
pub enum DraftLength {
    /// How many of the lent words, from the first on, are the table.
    Drafted(usize),
    /// The model is refused, with 1 to 6 and a place in it, or else the draft, with 58 to 60.
    Refused(Refusal),
}

impl DraftLength {
    /// The same as a `Result`.
    pub fn result(self) -> Result<usize, Refusal> {
        match self {
            DraftLength::Drafted(length) => Ok(length),
            DraftLength::Refused(refusal) => Err(refusal),
        }
    }

    /// The refusal, if this is one.
    #[must_use]
    pub fn refusal(self) -> Option<Refusal> {
        self.result().err()
    }

    /// Takes the words of an answer; `lent` is how many words there are for the table.
    pub(crate) fn from_words(words: Words, lent: usize) -> DraftLength {
        const CALL: &str = "draft";
        match words[0] {
            0 => match value(CALL, words, 1) {
                length if length <= lent => DraftLength::Drafted(length),
                _ => broken(CALL, words),
            },
            _ => {
                let numbers = (1..=6).chain(58..=60);
                DraftLength::Refused(Refusal::from_words(CALL, numbers, words))
            }
        }
    }
}

impl fmt::Display for DraftLength {
    fn fmt(&self, out: &mut fmt::Formatter<'_>) -> fmt::Result {
        match self {
            DraftLength::Drafted(length) => write!(out, "DRAFTED {length}"),
            DraftLength::Refused(refusal) => refusal.write_line(out),
        }
    }
}
