//! Answers as the case files and the program write them, in the numbers of documents 01 and 02.

use std::fmt;

use super::words::number;
use crate::reading::{Certificate, Counts, Refusal};

#[derive(Clone, Copy, Debug, PartialEq, Eq)]
pub enum Answer {
    Empty(bool),
    Inside(bool),
    /// Locations, actions and edges, or b, V and nodes.
    Accepted([usize; 3]),
    Refused(Refusal),
}

/// Reads an answer.
pub fn answer(text: &str) -> Result<Answer, String> {
    let parts: Vec<&str> = text.split_whitespace().collect();
    match parts[..] {
        ["EMPTY"] => Ok(Answer::Empty(true)),
        ["NOT", "EMPTY"] => Ok(Answer::Empty(false)),
        ["INSIDE"] => Ok(Answer::Inside(true)),
        ["NOT", "INSIDE"] => Ok(Answer::Inside(false)),
        ["ACCEPTED", a, b, c] => Ok(Answer::Accepted([number(a)?, number(b)?, number(c)?])),
        ["REFUSED", refusal, place] => Ok(Answer::Refused(Refusal {
            number: number(refusal)?,
            place: number(place)?,
        })),
        _ => Err(format!("'{text}' is no answer")),
    }
}

impl fmt::Display for Answer {
    fn fmt(&self, out: &mut fmt::Formatter<'_>) -> fmt::Result {
        match self {
            Answer::Empty(true) => write!(out, "EMPTY"),
            Answer::Empty(false) => write!(out, "NOT EMPTY"),
            Answer::Inside(true) => write!(out, "INSIDE"),
            Answer::Inside(false) => write!(out, "NOT INSIDE"),
            Answer::Accepted([a, b, c]) => write!(out, "ACCEPTED {a} {b} {c}"),
            Answer::Refused(Refusal { number, place }) => write!(out, "REFUSED {number} {place}"),
        }
    }
}

impl From<Counts> for Answer {
    fn from(counts: Counts) -> Answer {
        Answer::Accepted([counts.locations, counts.actions, counts.edges])
    }
}

impl From<Certificate> for Answer {
    fn from(accepted: Certificate) -> Answer {
        Answer::Accepted([accepted.b as usize, accepted.whole as usize, accepted.nodes])
    }
}

#[cfg(test)]
mod tests {
    use super::*;

    #[test]
    fn answers_are_written_as_they_are_read() {
        for text in [
            "EMPTY",
            "NOT EMPTY",
            "INSIDE",
            "NOT INSIDE",
            "ACCEPTED 1 10 3",
            "REFUSED 19 4",
        ] {
            let read = answer(text).map(|answer| answer.to_string());
            assert_eq!(read.as_deref(), Ok(text));
        }
    }

    #[test]
    fn what_is_no_answer_is_told() {
        for text in [
            "",
            "empty",
            "ACCEPTED 1 10",
            "REFUSED 19",
            "REFUSED 19 -4",
            "REFUSED 19 04",
            "19 4",
        ] {
            assert!(answer(text).is_err(), "{text}");
        }
    }
}
