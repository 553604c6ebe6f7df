//! Tables near an explored one: looser, tighter, or with a row or node number changed.

use crate::cuts::cut_some;
use crate::drafts::{Draft, DraftNode};
use crate::explore::hull;
use crate::models::diagonal;
use crate::random::Random;
use crate::reading::{Bound, Model};

/// Bounds up, not strict, or dropped; values up; a zone merged with another; nodes cut.
pub fn loosen(random: &mut Random, model: &Model, draft: &mut Draft) {
    let number = random.below(draft.nodes.len());
    match random.below(7) {
        0 => change_bound(random, &mut draft.nodes[number], |bound| bound.d += 1),
        1 => change_bound(random, &mut draft.nodes[number], |bound| {
            bound.strict = false
        }),
        2 => drop_bound(random, &mut draft.nodes[number]),
        3 => draft.nodes[number].value = (draft.nodes[number].value + 1).min(draft.whole),
        4 => merge(random, draft, number),
        5 => cut_some(random, model, draft),
        _ => draft.nodes[number].bounds.clear(),
    }
    if random.one_in(2) {
        draft.settle_values(model);
    }
}

/// Bounds down by one, strict, or added; values down by one.
pub fn tighten(random: &mut Random, model: &Model, draft: &mut Draft) {
    let number = random.below(draft.nodes.len());
    let node = &mut draft.nodes[number];
    match random.below(5) {
        0 => change_bound(random, node, |bound| bound.d -= 1),
        1 => change_bound(random, node, |bound| bound.strict = true),
        2 => node.bounds.push(some_bound(random, model.clocks)),
        3 => node.value = node.value.saturating_sub(1),
        _ => node.value = random.below(node.value as usize + 1) as u32,
    }
}

/// A row blocked or given successors, a successor or the start node changed, a node moved to another
/// location.
pub fn reroute(random: &mut Random, model: &Model, draft: &mut Draft) {
    let nodes = draft.nodes.len();
    let number = random.below(nodes);
    let (any_node, any_location) = (random.below(nodes), random.below(model.locations.len()));
    match random.below(8) {
        0 => draft.start = any_node,
        1 => draft.nodes[number].location = any_location,
        2..=4 => change_row(random, draft, number, |row| row.clear()),
        5 => change_row(random, draft, number, |row| {
            if let Some(first) = row.first_mut() {
                *first = any_node;
            }
        }),
        _ => unblock(random, model, draft, number),
    }
}

pub fn change_bound(random: &mut Random, node: &mut DraftNode, change: impl Fn(&mut Bound)) {
    if node.bounds.is_empty() {
        return;
    }
    let at = random.below(node.bounds.len());
    change(&mut node.bounds[at]);
    node.bounds[at].d = node.bounds[at].d.clamp(-4095, 4095);
}

pub fn drop_bound(random: &mut Random, node: &mut DraftNode) {
    if !node.bounds.is_empty() {
        node.bounds.swap_remove(random.below(node.bounds.len()));
    }
}

/// Merges the zone with that of another node of the location; all that went to the other goes here.
fn merge(random: &mut Random, draft: &mut Draft, number: usize) {
    let other = random.below(draft.nodes.len());
    if draft.nodes[other].location != draft.nodes[number].location {
        return;
    }
    let merged = hull(
        &draft.nodes[number].bounds,
        &draft.nodes[other].bounds,
        false,
    );
    draft.nodes[number].bounds = merged;
    for named in draft.nodes.iter_mut().flat_map(DraftNode::named_mut) {
        if *named == other {
            *named = number;
        }
    }
}

fn change_row(
    random: &mut Random,
    draft: &mut Draft,
    number: usize,
    change: impl Fn(&mut Vec<usize>),
) {
    let rows = draft.nodes[number].rows_mut();
    if !rows.is_empty() {
        let at = random.below(rows.len());
        change(&mut rows[at]);
    }
}

/// Gives a row one successor per edge, mostly of the edge's location.
fn unblock(random: &mut Random, model: &Model, draft: &mut Draft, number: usize) {
    if draft.nodes[number].rows().is_empty() {
        return;
    }
    let at = random.below(draft.nodes[number].rows().len());
    let Some(action) = model.locations[draft.nodes[number].location]
        .actions
        .get(at)
    else {
        return;
    };
    let mut row = Vec::new();
    for edge in &action.edges {
        let fitting = draft
            .nodes
            .iter()
            .position(|node| node.location == edge.location);
        let any = random.below(draft.nodes.len());
        row.push(if random.one_in(8) {
            any
        } else {
            fitting.unwrap_or(any)
        });
    }
    draft.nodes[number].rows_mut()[at] = row;
}

fn some_bound(random: &mut Random, clocks: usize) -> Bound {
    if clocks > 1 && random.one_in(3) {
        return diagonal(random, clocks, 3, 3);
    }
    let clock = 1 + random.below(clocks);
    let strict = random.one_in(3);
    if random.one_in(3) {
        Bound {
            i: 0,
            j: clock,
            d: random.between(-3, 0),
            strict,
        }
    } else {
        Bound {
            i: clock,
            j: 0,
            d: random.between(0, 5),
            strict,
        }
    }
}
