//! Cuts of a table's nodes, as in document 02, card 1: good ones, which leave a table as acceptable as
//! it was, and ones with a fault.
//!
//! As in `explore`, the zones are those of the independent reading, and nothing rests on them.

use crate::drafts::{Draft, DraftBody, DraftNode};
use crate::edits::{change_bound, drop_bound};
use crate::explore::spelled;
use crate::random::Random;
use crate::reading::judging::ModelZones;
use crate::reading::{Action, Bound, Model, Zone};

const MOST_NODES: usize = 64;

/// Cuts up to six nodes, also the start node, parts of others, and nodes without rows. A node keeps its
/// number and zone.
pub fn cut_some(random: &mut Random, model: &Model, draft: &mut Draft) {
    let zones = ModelZones::of(model);
    let mut cutter = Cutter {
        random,
        model,
        zones,
        draft,
    };
    for _ in 0..cutter.random.pick(&[1, 1, 2, 3, 6]) {
        let number = cutter.some_node();
        cutter.cut(number);
    }
    draft.settle_values(model);
}

struct Cutter<'a> {
    random: &'a mut Random,
    model: &'a Model,
    zones: ModelZones,
    draft: &'a mut Draft,
}

impl Cutter<'_> {
    /// Often the start node or the last one, which may be a part of another.
    fn some_node(&mut self) -> usize {
        let nodes = self.draft.nodes.len();
        match self.random.below(4) {
            0 => self.draft.start,
            1 => nodes - 1,
            _ => self.random.below(nodes),
        }
    }

    /// Gives a node a cut in place of its rows; nothing at a target, at a cut node, and where there is
    /// no room.
    fn cut(&mut self, number: usize) {
        let node = &self.draft.nodes[number];
        let target = self.model.locations[node.location].target;
        if target || node.is_cut() || self.draft.nodes.len() + 2 > MOST_NODES {
            return;
        }
        let bound = self.some_bound(number);
        let parts = [bound, bound.negated()].map(|side| self.node_for(number, &side));
        self.draft.nodes[number].body = DraftBody::Cut(bound, parts);
    }

    /// An upper bound of one clock, mostly where the zone, the invariant or a guard has one. Some leave
    /// a part empty.
    fn some_bound(&mut self, number: usize) -> Bound {
        let i = 1 + self.random.below(self.model.clocks);
        let node = &self.draft.nodes[number];
        let at = &self.model.locations[node.location];
        let guards = at.actions.iter().flat_map(|action| &action.guard);
        let around = node.bounds.iter().chain(&at.invariant).chain(guards);
        let constants: Vec<i32> = around.filter_map(|bound| constant(bound, i)).collect();
        let random = &mut self.random;
        let d = match random.below(6) {
            0 => random.pick(&[-4095, -1, 0, 0, 4095]),
            1 => random.between(0, 4),
            _ if constants.is_empty() => random.between(0, 2),
            _ => random.pick(&constants) + random.pick(&[-1, 0, 0, 0, 1]),
        };
        Bound {
            i,
            j: 0,
            d: d.clamp(-4095, 4095),
            strict: random.one_in(2),
        }
    }

    /// A node for the part of a node's zone on one side: an old one above it that holds the part, or a
    /// new one with the part's zone, tightened or not, or with the whole zone.
    fn node_for(&mut self, number: usize, side: &Bound) -> usize {
        let node = self.draft.nodes[number].clone();
        let part = self.zone(number).meet(&self.zone_of(&[*side]));
        if self.random.one_in(3) {
            let holding = self.holding(node.location, &part);
            let above: Vec<usize> = holding.into_iter().filter(|&old| old > number).collect();
            if !above.is_empty() {
                return self.random.pick(&above);
            }
        }
        let bounds = match self.random.below(3) {
            0 => node.bounds.clone(),
            1 => [&node.bounds[..], &[*side]].concat(),
            _ => spelled(part.bounds()),
        };
        let rows = self.rows_for(&node, &self.zone_of(&bounds));
        let value = self.random.pick(&[0, node.value]);
        self.draft.nodes.push(DraftNode {
            location: node.location,
            bounds,
            value,
            body: DraftBody::Rows(rows),
        });
        self.draft.nodes.len() - 1
    }

    /// The node's rows for a zone inside its own.
    fn rows_for(&mut self, node: &DraftNode, zone: &Zone) -> Vec<Vec<usize>> {
        let model = self.model;
        let delayed = self.zones.delayed(node.location, zone);
        let mut rows = Vec::new();
        let actions = &model.locations[node.location].actions;
        for (at, (row, action)) in node.rows().iter().zip(actions).enumerate() {
            let reach = self.zones.reach(node.location, at, &delayed);
            rows.push(self.row_for(row, action, &reach));
        }
        rows
    }

    /// The row itself, which does for a smaller reach; or blocked if nothing is reached, or with other
    /// nodes that hold what lands.
    fn row_for(&mut self, row: &[usize], action: &Action, reach: &Zone) -> Vec<usize> {
        if self.random.one_in(2) {
            return row.to_vec();
        }
        if reach.is_empty() {
            return Vec::new();
        }
        let mut successors = Vec::new();
        for (edge, &old) in action.edges.iter().zip(row) {
            let landings = self.zones.landings(edge, reach);
            let holding = self.holding(edge.location, &landings.inside);
            successors.push(if holding.is_empty() {
                old
            } else {
                self.random.pick(&holding)
            });
        }
        successors
    }

    /// The nodes of a location whose zone holds this one.
    fn holding(&self, location: usize, zone: &Zone) -> Vec<usize> {
        let holds = |number: &usize| {
            self.draft.nodes[*number].location == location && zone.inside(&self.zone(*number))
        };
        (0..self.draft.nodes.len()).filter(holds).collect()
    }

    fn zone(&self, number: usize) -> Zone {
        self.zone_of(&self.draft.nodes[number].bounds)
    }

    fn zone_of(&self, bounds: &[Bound]) -> Zone {
        Zone::of(self.model.clocks, bounds)
    }
}

/// Where a bound of this clock alone lies, if it is one.
fn constant(bound: &Bound, clock: usize) -> Option<i32> {
    match (bound.i, bound.j) {
        (i, 0) if i == clock => Some(bound.d),
        (0, j) if j == clock => Some(-bound.d),
        _ => None,
    }
}

/// A fault in a cut, or in the nodes of its parts; a table without a cut first gets one. Now and then a
/// fault that does not show.
pub fn spoil_cut(random: &mut Random, model: &Model, draft: &mut Draft) {
    if !draft.nodes.iter().any(DraftNode::is_cut) {
        cut_some(random, model, draft);
    }
    let is_cut = |number: &usize| draft.nodes[*number].is_cut();
    let cuts: Vec<usize> = (0..draft.nodes.len()).filter(is_cut).collect();
    if cuts.is_empty() || random.one_in(20) {
        return cut_a_target(random, model, draft);
    }
    let number = random.pick(&cuts);
    match random.below(4) {
        0 => {
            spoil_numbers(random, model, draft, number);
            if random.one_in(2) {
                sink_values(model, draft);
            }
        }
        1 => spoil_bound(random, model, draft, number),
        2 => spoil_holder(random, draft, number),
        _ => spoil_node(random, draft, number),
    }
}

/// Another node for a part: the node itself, a lower one, one of another location, any, the other
/// part's. Or the two exchanged, or a circle.
fn spoil_numbers(random: &mut Random, model: &Model, draft: &mut Draft, number: usize) {
    let DraftBody::Cut(bound, mut parts) = draft.nodes[number].body else {
        return;
    };
    let side = random.below(2);
    match random.below(9) {
        0 => parts[side] = number,
        1 => parts[side] = random.below(number + 1),
        2 => parts[side] = node_elsewhere(random, model, draft, number),
        3 => parts = [node_elsewhere(random, model, draft, number); 2],
        4 => parts[side] = random.below(draft.nodes.len()),
        5 => parts[side] = parts[1 - side],
        6 => parts.swap(0, 1),
        _ => return close_circle(random, model, draft, number),
    }
    draft.nodes[number].body = DraftBody::Cut(bound, parts);
}

/// A node above this one at another location: a new one that holds all valuations with the value 0, where
/// a location without actions allows it; else any, if there is one.
fn node_elsewhere(random: &mut Random, model: &Model, draft: &mut Draft, number: usize) -> usize {
    let own = draft.nodes[number].location;
    let idle = |location: &usize| {
        let at = &model.locations[*location];
        *location != own && !at.target && at.actions.is_empty()
    };
    let idle: Vec<usize> = (0..model.locations.len()).filter(idle).collect();
    if !idle.is_empty() && draft.nodes.len() < MOST_NODES {
        draft.nodes.push(DraftNode {
            location: random.pick(&idle),
            bounds: Vec::new(),
            value: 0,
            body: DraftBody::Rows(Vec::new()),
        });
        return draft.nodes.len() - 1;
    }
    let elsewhere = |other: &usize| draft.nodes[*other].location != own;
    let others: Vec<usize> = (number..draft.nodes.len()).filter(elsewhere).collect();
    if others.is_empty() {
        return number;
    }
    random.pick(&others)
}

/// Cuts that come back to their beginning, at once or by way of the parts. They bound nothing, so that
/// the values sink.
fn close_circle(random: &mut Random, model: &Model, draft: &mut Draft, number: usize) {
    let DraftBody::Cut(bound, parts) = draft.nodes[number].body else {
        return;
    };
    if random.one_in(2) {
        draft.nodes[number].body = DraftBody::Cut(bound, [number; 2]);
    } else {
        for part in parts {
            draft.nodes[part].body = DraftBody::Cut(bound, [number; 2]);
        }
    }
    sink_values(model, draft);
}

/// The least values that rows and cuts allow, also where a cut bounds nothing.
fn sink_values(model: &Model, draft: &mut Draft) {
    for node in &mut draft.nodes {
        node.value = 0;
    }
    draft.settle_values(model);
}

/// The cut moved by one, strict or not, of another clock.
fn spoil_bound(random: &mut Random, model: &Model, draft: &mut Draft, number: usize) {
    let DraftBody::Cut(bound, _) = &mut draft.nodes[number].body else {
        return;
    };
    match random.below(4) {
        0 => bound.d = (bound.d + 1).min(4095),
        1 => bound.d = (bound.d - 1).max(-4095),
        2 => bound.strict = !bound.strict,
        _ => bound.i = 1 + random.below(model.clocks),
    }
}

/// A part's node with a zone too small by one or in strictness, or with another value.
fn spoil_holder(random: &mut Random, draft: &mut Draft, number: usize) {
    let DraftBody::Cut(_, parts) = draft.nodes[number].body else {
        return;
    };
    let whole = draft.whole;
    let holder = &mut draft.nodes[random.pick(&parts)];
    match random.below(6) {
        0 | 1 => change_bound(random, holder, |bound| bound.d -= 1),
        2 | 3 => change_bound(random, holder, |bound| bound.strict = true),
        4 => holder.value = (holder.value + 1).min(whole),
        _ => holder.value = random.word() % (whole + 1),
    }
}

/// The cut node with a larger zone, with a lower value, by one or down to that of a part, or with the
/// rows of a part in place of the cut.
fn spoil_node(random: &mut Random, draft: &mut Draft, number: usize) {
    let DraftBody::Cut(_, parts) = draft.nodes[number].body else {
        return;
    };
    let part = draft.nodes[random.pick(&parts)].clone();
    let node = &mut draft.nodes[number];
    match random.below(6) {
        0 => change_bound(random, node, |bound| bound.d += 1),
        1 => change_bound(random, node, |bound| bound.strict = false),
        2 => drop_bound(random, node),
        3 => node.value = node.value.saturating_sub(1),
        4 => node.value = part.value,
        _ => node.body = part.body,
    }
}

/// A cut where none may stand.
fn cut_a_target(random: &mut Random, model: &Model, draft: &mut Draft) {
    let at_target = |number: &usize| model.locations[draft.nodes[*number].location].target;
    let targets: Vec<usize> = (0..draft.nodes.len()).filter(at_target).collect();
    if targets.is_empty() {
        return;
    }
    let number = random.pick(&targets);
    let bound = Bound {
        i: 1,
        j: 0,
        d: random.between(0, 3),
        strict: random.one_in(2),
    };
    let last = draft.nodes.len() - 1;
    draft.nodes[number].body = DraftBody::Cut(bound, [last; 2]);
}

#[cfg(test)]
mod tests {
    use super::*;
    use crate::explore::explore;
    use crate::models::{self, Size};
    use crate::reading::{judge, parse_model};

    /// Some hundred models with their explored tables.
    fn explored() -> Vec<(Vec<u32>, Model, Draft)> {
        let mut random = Random::new(8);
        let mut found = Vec::new();
        while found.len() < 400 {
            let size = Size::random(&mut random);
            let words = models::model(&mut random, &size);
            if let Ok(model) = parse_model(&words) {
                let draft = explore(&mut random, &model);
                found.push((words, model, draft));
            }
        }
        found
    }

    /// What good cuts there are in a table.
    fn kinds(model: &Model, draft: &Draft) -> [bool; 7] {
        let cuts = || {
            draft.nodes.iter().filter_map(|node| match node.body {
                DraftBody::Cut(bound, parts) => Some((node, bound, parts)),
                DraftBody::Rows(_) => None,
            })
        };
        let is_cut = |&number: &usize| draft.nodes[number].is_cut();
        let empty = |node: &DraftNode, side: Bound| {
            Zone::of(model.clocks, node.bounds.iter().chain([&side])).is_empty()
        };
        let successors = || draft.nodes.iter().flat_map(DraftNode::rows).flatten();
        [
            is_cut(&draft.start),
            successors().any(is_cut),
            cuts().any(|(_, _, parts)| parts.iter().any(is_cut)),
            cuts().any(|(node, ..)| model.locations[node.location].actions.is_empty()),
            cuts().any(|(node, bound, _)| empty(node, bound)),
            cuts().any(|(node, bound, _)| empty(node, bound.negated())),
            cuts().any(|(_, _, parts)| parts[0] == parts[1]),
        ]
    }

    #[test]
    fn good_cuts_of_every_kind() {
        let mut seen = [0; 7];
        for (_, model, draft) in explored() {
            for (count, found) in seen.iter_mut().zip(kinds(&model, &draft)) {
                *count += usize::from(found);
            }
        }
        assert!(seen.iter().all(|&count| count >= 10), "{seen:?}");
    }

    #[test]
    fn faults_of_every_number() {
        let mut random = Random::new(9);
        let mut refused = std::collections::BTreeMap::new();
        for (words, model, draft) in explored() {
            let mut spoiled = draft;
            spoil_cut(&mut random, &model, &mut spoiled);
            if let Err(refusal) = judge(&words, &spoiled.words()) {
                *refused.entry(refusal.number).or_insert(0) += 1;
            }
        }
        let often = |number| refused.get(&number).is_some_and(|&count| count >= 10);
        assert!([11, 51, 52, 53].into_iter().all(often), "{refused:?}");
    }
}
