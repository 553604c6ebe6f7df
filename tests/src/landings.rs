//! Edges that can land outside the invariant of their location (document 02, card 4), in an explored
//! table: successors that hold all they must and no more, and faults at the card's edge.
//!
//! As in `explore`, the zones are those of the independent reading, and nothing rests on them.

use crate::drafts::{Draft, DraftBody, DraftNode};
use crate::edits::{change_bound, tighten};
use crate::explore::spelled;
use crate::random::Random;
use crate::reading::judging::{Landings, ModelZones};
use crate::reading::{Model, Zone};

const MOST_NODES: usize = 64;

/// An edge of a row with successors that can land outside.
struct Missing {
    node: usize,
    row: usize,
    edge: usize,
    landings: Landings,
    /// Every landing, inside and outside.
    landed: Zone,
}

/// A change at an edge that can land outside, if there is one: of its node's value, of its row, or of
/// its successor. Some leave the table acceptable.
pub fn change_landing(random: &mut Random, model: &Model, draft: &mut Draft) {
    let mut missing = missing(model, draft);
    if missing.is_empty() {
        return tighten(random, model, draft);
    }
    let chosen = missing.swap_remove(random.below(missing.len()));
    match random.below(8) {
        0 => lower_value(draft, chosen.node),
        1 => draft.nodes[chosen.node].value = draft.needed_by_values(model, chosen.node),
        2 => draft.nodes[chosen.node].rows_mut()[chosen.row].clear(),
        3 => {
            let any = random.below(draft.nodes.len());
            draft.nodes[chosen.node].rows_mut()[chosen.row][chosen.edge] = any;
        }
        // A node that holds the landings inside alone, or all landings.
        4 => add_successor(draft, &chosen, &chosen.landings.inside),
        5 => add_successor(draft, &chosen, &chosen.landed),
        // One that just lacks a landing inside, if there is any.
        _ => {
            add_successor(draft, &chosen, &chosen.landings.inside);
            let last = draft.nodes.len() - 1;
            let stricter = random.one_in(2);
            change_bound(random, &mut draft.nodes[last], |bound| match stricter {
                true => bound.strict = true,
                false => bound.d -= 1,
            });
        }
    }
}

fn missing(model: &Model, draft: &Draft) -> Vec<Missing> {
    let zones = ModelZones::of(model);
    let mut missing = Vec::new();
    for (number, node) in draft.nodes.iter().enumerate() {
        let actions = &model.locations[node.location].actions;
        let zone = Zone::of(model.clocks, &node.bounds);
        let delayed = zones.delayed(node.location, &zone);
        for (row, action) in actions.iter().enumerate().take(node.rows().len()) {
            let reach = zones.reach(node.location, row, &delayed);
            let edges = action.edges.iter().take(node.rows()[row].len());
            let found = edges.enumerate().map(|(at, edge)| Missing {
                node: number,
                row,
                edge: at,
                landings: zones.landings(edge, &reach),
                landed: reach.reset(edge.resets),
            });
            missing.extend(found.filter(|edge| edge.landings.can_miss));
        }
    }
    missing
}

fn lower_value(draft: &mut Draft, number: usize) {
    let node = &mut draft.nodes[number];
    node.value = node.value.saturating_sub(1);
}

/// A new successor for the edge: the old one, with this zone. Its rows do as long as it has no states
/// that the old one lacks.
fn add_successor(draft: &mut Draft, at: &Missing, zone: &Zone) {
    if draft.nodes.len() == MOST_NODES {
        return;
    }
    let number = draft.nodes.len();
    let row = &mut draft.nodes[at.node].rows_mut()[at.row];
    let old = std::mem::replace(&mut row[at.edge], number);
    let mut next = draft.nodes[old].clone();
    next.bounds = spelled(zone.bounds());
    if let DraftBody::Cut(_, parts) = &next.body {
        // A cut node has no rows to take over; its first part may have some.
        let part: &DraftNode = &draft.nodes[parts[0]];
        next.body = part.body.clone();
    }
    draft.nodes.push(next);
}

#[cfg(test)]
mod tests {
    use std::collections::BTreeMap;

    use super::*;
    use crate::explore::explore;
    use crate::models::{self, Size};
    use crate::reading::{judge, parse_model};

    /// How often each answer comes for a table with one change; 0 stands for acceptance.
    #[test]
    fn changes_of_every_kind() {
        let mut random = Random::new(10);
        let mut answers = BTreeMap::new();
        for _ in 0..3000 {
            let size = Size {
                walled: true,
                ..Size::for_player(&mut random)
            };
            let words = models::model(&mut random, &size);
            let Ok(model) = parse_model(&words) else {
                continue;
            };
            let mut draft = explore(&mut random, &model);
            if missing(&model, &draft).is_empty() {
                continue;
            }
            change_landing(&mut random, &model, &mut draft);
            let number = judge(&words, &draft.words()).map_or_else(|refusal| refusal.number, |_| 0);
            *answers.entry(number).or_insert(0) += 1;
        }
        let often = |number| answers.get(&number).is_some_and(|&count| count >= 50);
        assert!([0, 16, 17, 18, 19].into_iter().all(often), "{answers:?}");
    }
}
