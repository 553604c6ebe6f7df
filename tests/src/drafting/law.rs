//! What document 02, card 5, says of every draft, whoever made it. Held against the words alone: nothing
//! is drafted here. That the judge accepts a draft is asked of the judge.

use crate::reading::words::Bound;
use crate::reading::{parse_model, parse_table, Body, Certificate, Model, Node, Row, Table, Zone};

/// V.
pub const WHOLE: u32 = 1_000_000;

/// An empty zone's only bound.
const NEVER: Bound = Bound {
    i: 1,
    j: 0,
    d: -1,
    strict: false,
};

/// The words of a draft after so many rounds.
pub fn words(model: &[u32], rounds: u64, table: &[u32]) -> Result<(), String> {
    let unread = |_| "the draft or its model does not parse".to_string();
    let model = parse_model(model).map_err(unread)?;
    let table = parse_table(&model, table).map_err(unread)?;
    demand(table.whole == WHOLE, || "another V".to_string())?;
    let at_start = table.start.node == 0 && table.nodes[0].location == model.start.location;
    demand(at_start, || "node 0 is not the start's".to_string())?;
    in_order_of_discovery(&table)?;
    for (number, node) in table.nodes.iter().enumerate() {
        let told = |what| format!("node {number}: {what}");
        bounds(&model, node).map_err(told)?;
        value(&model, node, rounds).map_err(told)?;
        let same = |other: &Node| other.location == node.location && other.bounds == node.bounds;
        demand(!table.nodes[..number].iter().any(same), || {
            told("it is there already")
        })?;
    }
    Ok(())
}

fn demand(met: bool, told: impl Fn() -> String) -> Result<(), String> {
    match met {
        true => Ok(()),
        false => Err(told()),
    }
}

/// "Nodes in order of discovery, then by action and edge": going through the rows, each successor is one
/// that was named before, or the next.
fn in_order_of_discovery(table: &Table) -> Result<(), String> {
    let mut known = 1;
    for successor in successors(table) {
        demand(successor <= known, || {
            format!("{successor} is named before {known}")
        })?;
        known = known.max(successor + 1);
    }
    demand(known == table.nodes.len(), || {
        "a node is never named".to_string()
    })
}

/// The nodes that the rows name, in the order of the words.
pub fn successors(table: &Table) -> Vec<usize> {
    let rows = table.nodes.iter().flat_map(|node| match &node.body {
        Body::Rows(rows) => &rows[..],
        Body::Cut(_) => &[],
    });
    let named = rows.flat_map(|row| match row {
        Row::Successors(successors) => &successors[..],
        Row::Blocked { .. } => &[],
    });
    named.map(|successor| successor.node).collect()
}

pub fn is_empty(node: &Node) -> bool {
    node.bounds == [NEVER]
}

/// All finite tightened bounds by i, then j, in the invariant; or the one of an empty zone.
fn bounds(model: &Model, node: &Node) -> Result<(), &'static str> {
    if is_empty(node) {
        return Ok(());
    }
    let zone = Zone::of(model.clocks, &node.bounds);
    let invariant = Zone::of(model.clocks, &model.locations[node.location].invariant);
    if zone.is_empty() {
        return Err("an empty zone with other bounds");
    }
    if zone.all_bounds() != node.bounds {
        return Err("not all its tightened bounds, or not in order");
    }
    match zone.inside(&invariant) {
        true => Ok(()),
        false => Err("not within the invariant"),
    }
}

/// "Every value begins" at V, a target's stays there.
fn value(model: &Model, node: &Node, rounds: u64) -> Result<(), &'static str> {
    let as_begun = rounds == 0 || model.locations[node.location].target;
    match node.value == WHOLE || !as_begun && node.value < WHOLE {
        true => Ok(()),
        false => Err("another value than V"),
    }
}

/// Whether a word is a node's value.
pub fn is_value(word: u32) -> bool {
    word >> 28 == 9
}

/// "More rounds never give a larger fraction", nor another value that is larger; nothing else depends on
/// them.
pub fn more_rounds(fewer: (u64, &[u32]), more: (u64, &[u32])) -> Result<(), String> {
    let (words, later) = (fewer.1, more.1);
    demand(words.len() == later.len(), || {
        "another length after more rounds".to_string()
    })?;
    for (place, (&word, &later)) in words.iter().zip(later).enumerate() {
        let good = word == later || is_value(word) && is_value(later) && later < word;
        demand(good, || format!("word {place} after more rounds"))?;
    }
    let counts_alike = fewer.0.min(1000) == more.0.min(1000);
    demand(words == later || !counts_alike, || {
        "rounds above 1,000 count".to_string()
    })
}

/// What a draft must be judged with: b is node 0's value.
pub fn certificate(table: &[u32]) -> Certificate {
    let first = table.iter().find(|&&word| is_value(word));
    Certificate {
        b: first.map_or(0, |word| word & 0x0FFF_FFFF),
        whole: WHOLE,
        nodes: table.iter().filter(|&&word| word >> 28 == 8).count(),
    }
}
