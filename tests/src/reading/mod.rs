//! An independent reading of document 01, the miss-chance judge, and of document 02: card 1, which
//! lets a table cut a node in two, card 3, the board of slots, card 4, by which a landing outside an
//! invariant is a miss, and card 5, the drafted table.
//!
//! This file holds what the calls of "The four calls and their refusals" answer, and the two that
//! read whole files. Words are parsed into a tree (`words`, `cursor`, `model`, `table`), and the
//! tree is judged (`zones`, `judging`). `questions` and `program` are the other calls of document
//! 01, `board` has those of card 3, `draft` that of card 5.

mod board;
mod cursor;
mod draft;
pub mod judging;
pub mod model;
mod program;
mod questions;
pub mod table;
pub mod words;
pub mod zones;

pub use board::{rank, submit, Slot};
pub use draft::draft;
pub use judging::{judge_table, reach_of_row};
pub use model::{parse_model, Action, Edge, Location, Model, Start};
pub use program::program;
pub use questions::{zone_empty, zone_inside};
pub use table::{parse_table, Body, Cut, Node, NodeRef, Row, Table};
pub use words::Bound;
pub use zones::Zone;

/// A refusal's number and the index of the word it lies at.
#[derive(Clone, Copy, Debug, PartialEq, Eq)]
pub struct Refusal {
    pub number: u32,
    pub place: usize,
}

/// What reading a model accepts with.
#[derive(Clone, Copy, Debug, PartialEq, Eq)]
pub struct Counts {
    pub locations: usize,
    pub actions: usize,
    pub edges: usize,
}

/// What judging accepts with: the certified fraction is `b / whole`.
#[derive(Clone, Copy, Debug, PartialEq, Eq)]
pub struct Certificate {
    pub b: u32,
    /// V.
    pub whole: u32,
    pub nodes: usize,
}

/// Reads a model.
pub fn read_model(words: &[u32]) -> Result<Counts, Refusal> {
    let model = parse_model(words)?;
    Ok(Counts {
        locations: model.locations.len(),
        actions: model.actions().count(),
        edges: model.edges().count(),
    })
}

/// Judges a table against a model.
pub fn judge(model: &[u32], table: &[u32]) -> Result<Certificate, Refusal> {
    let model = parse_model(model)?;
    let table = parse_table(&model, table)?;
    judge_table(&model, &table)
}

#[cfg(test)]
mod tests;
