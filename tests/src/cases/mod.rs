//! The cases that stand as text under `tests/cases`, a case a line: its name, the call with its words,
//! and the answer of documents 01 and 02; or its name and the history of a board.
//!
//! `lines` takes a text apart, `words` reads lists of words, `changes` the changes in one, `calls` the
//! calls and `answers` what they answer, `boards` the boards and `histories` what is done with one,
//! `drafts` drafted tables; `files` puts the cases together. `run` asks the library, the independent reading and the plain
//! judge and, where the words are a whole file, the program. `tests/cases/README.md` says how the
//! lines are written.

pub mod answers;
pub mod boards;
pub mod calls;
mod changes;
pub mod drafts;
pub mod files;
pub mod histories;
mod lines;
pub mod run;
mod words;

use std::fmt;

use answers::Answer;
use calls::Call;
use drafts::Draft;
use histories::History;

/// A case, and where it stands.
#[derive(Clone, Debug)]
pub struct Case {
    pub file: String,
    pub line: usize,
    pub name: String,
    pub question: Question,
}

/// What is asked, with its answers.
#[derive(Clone, Debug, PartialEq)]
pub enum Question {
    Call(Call, Answer),
    History(History),
    Draft(Draft),
}

impl fmt::Display for Question {
    /// As it is written, with every word written out.
    fn fmt(&self, out: &mut fmt::Formatter<'_>) -> fmt::Result {
        match self {
            Question::Call(call, answer) => write!(out, "{call} | {answer}"),
            Question::History(history) => write!(out, "{history}"),
            Question::Draft(draft) => write!(out, "{draft}"),
        }
    }
}

/// What makes a case file unreadable.
#[derive(Debug)]
pub struct Mistake {
    pub file: String,
    /// From 1, or 0 where it is no line's.
    pub line: usize,
    pub what: String,
}

impl fmt::Display for Mistake {
    fn fmt(&self, out: &mut fmt::Formatter<'_>) -> fmt::Result {
        match self.line {
            0 => write!(out, "{}: {}", self.file, self.what),
            line => write!(out, "{}:{line}: {}", self.file, self.what),
        }
    }
}
