//! A plain judge, written for speed and without proofs: the second baseline of the figures.
//!
//! A bound is one number, zones are tightened where they stand, and what is kept of a file lies in
//! arrays on the stack: no call allocates. It shares no code with the reading or the proved crates,
//! and its answers are compared like theirs.

mod board;
mod draft;
mod few;
mod judging;
mod model;
mod program;
mod table;
mod zone;

pub use board::{rank, submit, Slot};
pub use draft::draft;
pub use program::program;

use judging::judge_table;
use model::Model;
use table::Table;
use zone::Zone;

/// A refusal's number and place.
#[derive(Clone, Copy, Debug, PartialEq, Eq)]
pub struct Refusal {
    pub number: u32,
    pub place: usize,
}

/// The counts of an accepted model.
pub struct Counts {
    pub locations: usize,
    pub actions: usize,
    pub edges: usize,
}

/// An accepted table certifies `value / whole`.
pub struct Certificate {
    pub value: u32,
    pub whole: u32,
    pub nodes: usize,
}

pub fn judge(model_words: &[u32], table_words: &[u32]) -> Result<Certificate, Refusal> {
    let mut model = Model::new();
    model.read(model_words)?;
    let mut table = Table::new();
    table.read(&model, table_words)?;
    judge_table(&model, &table, table_words)
}

pub fn read_model(words: &[u32]) -> Result<Counts, Refusal> {
    let mut model = Model::new();
    model.read(words)?;
    Ok(Counts {
        locations: model.locations.len(),
        actions: model.actions.len(),
        edges: model.edges.len(),
    })
}

pub fn zone_empty(clocks: u32, words: &[u32]) -> Result<bool, Refusal> {
    demand((1..=4).contains(&clocks), 31, 0)?;
    let mut zone = zone_of(clocks, words, 32)?;
    zone.tighten(clocks);
    Ok(zone.is_empty())
}

pub fn zone_inside(clocks: u32, first: &[u32], second: &[u32]) -> Result<bool, Refusal> {
    demand((1..=4).contains(&clocks), 31, 0)?;
    let mut zone = zone_of(clocks, first, 32)?;
    let other = zone_of(clocks, second, 33)?;
    zone.tighten(clocks);
    Ok(zone.is_empty() || zone.inside_after_reset(clocks, 0, &other))
}

/// The zone of a list of bounds and nothing else, or a refusal with this number.
fn zone_of(clocks: u32, words: &[u32], number: u32) -> Result<Zone, Refusal> {
    let mut zone = Zone::ALL;
    let end = zone.take_bounds(clocks, false, words, 0, number)?;
    demand(end == words.len(), number, end)?;
    Ok(zone)
}

fn demand(met: bool, number: u32, place: usize) -> Result<(), Refusal> {
    if met {
        Ok(())
    } else {
        Err(Refusal { number, place })
    }
}
