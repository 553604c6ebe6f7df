//! How often drafts met what they should meet.

use super::law;
use crate::flawed_draft::DraftFlaw;
use crate::reading::judging::ModelZones;
use crate::reading::{parse_model, parse_table, Body, Model, Refusal, Row, Table, Zone};

/// Counted while drafts are compared.
#[derive(Default)]
pub struct DraftTally {
    /// Models for which a table was drafted; of these, how many have what `Look` looks for.
    pub models: usize,
    pub with: Look,
    /// Small models besides, for which a table was drafted.
    pub small: usize,
    /// Models refused with 58; of these, where the 65th node has a bound beyond 4,095 as well.
    pub too_many: usize,
    pub both_due: usize,
    /// Models refused with 59 at node 0, and later.
    pub far_at_once: usize,
    pub far_later: usize,
    /// Models whose own refusal was handed on.
    pub handed_on: usize,
    /// Drafts into exactly enough words, and refusals 60: one word too few, none at all.
    pub exact: usize,
    pub one_too_few: usize,
    pub none_lent: usize,
    /// Pairs of drafts of one model where more rounds gave a smaller fraction.
    pub fell: usize,
    /// Drafts that the exhaustive player played.
    pub played: usize,
}

/// What a draft has, or how many drafts have it.
#[derive(Default)]
pub struct Look {
    /// An empty node.
    pub empty: usize,
    /// A successor that is not new.
    pub reused: usize,
    /// A successor in the own row or before it.
    pub back: usize,
    /// An edge that can land outside.
    pub outside: usize,
    /// A node that keeps V by a cycle: no target and no landing outside is ever met from it.
    pub kept: usize,
    /// As many nodes as there may be.
    pub full: usize,
    /// A fraction between 0 and 1.
    pub between: usize,
}

/// Rounds after which a value without a cycle has settled, since there are at most 64 nodes.
const SETTLED: u64 = 64;

impl DraftTally {
    /// A model's draft after the most rounds that were asked.
    pub fn drafted(&mut self, model: &[u32], rounds: u64, table: &[u32]) {
        let Ok(model) = parse_model(model) else {
            return;
        };
        let Ok(table) = parse_table(&model, table) else {
            return;
        };
        self.models += 1;
        self.with.add(&Look::of(&model, rounds, &table));
    }

    /// A model for which no table is drafted, however many words are lent.
    pub fn refused(&mut self, model: &[u32], refusal: &Refusal) {
        match refusal.number {
            58 => {
                let other = DraftFlaw::Asks59Before58.draft(model, 0, &mut []);
                self.too_many += 1;
                self.both_due += usize::from(other.is_err_and(|other| other.number == 59));
            }
            59 if starts_far(model) => self.far_at_once += 1,
            59 => self.far_later += 1,
            _ => self.handed_on += 1,
        }
    }

    /// A draft into so many words, where so many are needed.
    pub fn lent(&mut self, words: usize, length: usize) {
        self.exact += usize::from(words == length);
        self.one_too_few += usize::from(words + 1 == length);
        self.none_lent += usize::from(words == 0);
    }
}

/// Whether the start zone has a bound beyond 4,095.
fn starts_far(model: &[u32]) -> bool {
    let model = parse_model(model);
    let bounds = model.map(|model| model.start_zone().all_bounds());
    bounds.is_ok_and(|bounds| bounds.iter().any(|bound| bound.d.abs() > 4095))
}

impl Look {
    fn add(&mut self, other: &Look) {
        self.empty += other.empty;
        self.reused += other.reused;
        self.back += other.back;
        self.outside += other.outside;
        self.kept += other.kept;
        self.full += other.full;
        self.between += other.between;
    }

    fn of(model: &Model, rounds: u64, table: &Table) -> Look {
        let nodes = &table.nodes;
        let outside = outside(model, table);
        let missing = missing(model, table, &outside);
        let numbered = || nodes.iter().enumerate();
        let keeps =
            |(number, missing): (usize, &bool)| !missing && nodes[number].value == law::WHOLE;
        let kept = rounds >= SETTLED && missing.iter().enumerate().any(keeps);
        let back =
            numbered().any(|(number, _)| named(table, number).iter().any(|&to| to <= number));
        let between = (1..law::WHOLE).contains(&nodes[0].value);
        Look {
            empty: usize::from(nodes.iter().any(law::is_empty)),
            reused: usize::from(law::successors(table).len() >= nodes.len()),
            back: usize::from(back),
            outside: usize::from(outside.contains(&true)),
            kept: usize::from(kept),
            full: usize::from(nodes.len() == 64),
            between: usize::from(between),
        }
    }
}

/// The nodes that a node's rows name.
fn named(table: &Table, number: usize) -> Vec<usize> {
    let Body::Rows(rows) = &table.nodes[number].body else {
        return Vec::new();
    };
    let named = rows.iter().flat_map(|row| match row {
        Row::Successors(successors) => &successors[..],
        Row::Blocked { .. } => &[],
    });
    named.map(|successor| successor.node).collect()
}

/// By node, whether one of its edges can land outside.
fn outside(model: &Model, table: &Table) -> Vec<bool> {
    let zones = ModelZones::of(model);
    let can_miss = |node: &crate::reading::Node| {
        let Body::Rows(rows) = &node.body else {
            return false;
        };
        let zone = Zone::of(model.clocks, &node.bounds);
        let delayed = zones.delayed(node.location, &zone);
        let actions = &model.locations[node.location].actions;
        let mut numbered = actions.iter().enumerate().take(rows.len());
        numbered.any(|(number, action)| {
            let reach = zones.reach(node.location, number, &delayed);
            let mut edges = action.edges.iter();
            edges.any(|edge| zones.landings(edge, &reach).can_miss)
        })
    };
    table.nodes.iter().map(can_miss).collect()
}

/// By node, whether a target or a landing outside can be met from it.
fn missing(model: &Model, table: &Table, outside: &[bool]) -> Vec<bool> {
    let is_target = |number: usize| model.locations[table.nodes[number].location].target;
    let count = table.nodes.len();
    let mut missing: Vec<bool> = (0..count).map(|at| is_target(at) || outside[at]).collect();
    for _ in 0..count {
        for number in 0..count {
            let met = named(table, number).iter().any(|&to| missing[to]);
            missing[number] |= met;
        }
    }
    missing
}
