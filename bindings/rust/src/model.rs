//! The answer of reading a model.

use std::fmt;

use crate::words::{value, Words};
use crate::Refusal;

/// What an accepted model holds.
#[derive(Clone, Copy, Debug, PartialEq, Eq)]
pub struct Counts {
    /// How many locations.
    pub locations: usize,
    /// How many actions, over all locations.
    pub actions: usize,
    /// How many edges, over all actions.
    pub edges: usize,
}

/// The answer of [`read_model`](crate::read_model). It prints as
/// `ACCEPTED locations actions edges` or `REFUSED number place`.
#[derive(Clone, Copy, Debug, PartialEq, Eq)]
#[must_use = "the model may be refused"]
pub enum ModelAnswer {
    /// The model is accepted.
    Accepted(Counts),
    /// The model is refused, with 1 to 6.
    Refused(Refusal),
}

impl ModelAnswer {
    /// The same as a `Result`.
    pub fn result(self) -> Result<Counts, Refusal> {
        match self {
            ModelAnswer::Accepted(counts) => Ok(counts),
            ModelAnswer::Refused(refusal) => Err(refusal),
        }
    }

    /// The refusal, if this is one.
    #[must_use]
    pub fn refusal(self) -> Option<Refusal> {
        self.result().err()
    }

    pub(crate) fn from_words(words: Words) -> ModelAnswer {
        const CALL: &str = "read_model";
        match words[0] {
            0 => ModelAnswer::Accepted(Counts {
                locations: value(CALL, words, 1),
                actions: value(CALL, words, 2),
                edges: value(CALL, words, 3),
            }),
            _ => ModelAnswer::Refused(Refusal::from_words(CALL, 1..=6, words)),
        }
    }
}

impl fmt::Display for ModelAnswer {
    fn fmt(&self, out: &mut fmt::Formatter<'_>) -> fmt::Result {
        match self {
            ModelAnswer::Accepted(counts) => write!(
                out,
                "ACCEPTED {} {} {}",
                counts.locations, counts.actions, counts.edges
            ),
            ModelAnswer::Refused(refusal) => refusal.write_line(out),
        }
    }
}
