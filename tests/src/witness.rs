//! Concrete witnesses for refusals 16, 18, 19 (see `sums`), 21 and 53: a valuation, and for the first
//! three a delay, at some scale, found by trying them one after the other (see `points` for how far
//! and at which scales).

use std::ops::RangeInclusive;

use crate::points::{
    after_delay, after_reset, all_hold, holds, lands_inside, largest, largest_of_model,
};
use crate::points::{Grid, Valuation};
use crate::reading::{Action, Bound, Edge, Model, Node, Refusal, Row, Table};

/// What would show that a table is rightly refused.
pub enum Quest<'a> {
    /// From the node's zone the action is allowed, by invariant and guard alone, and lands like this.
    Row {
        node: &'a Node,
        action: &'a Action,
        landing: Landing<'a>,
    },
    /// 53: a valuation of the node's zone, with the cut's bound holding there or not, outside the
    /// zone of the node for that part.
    Part {
        node: &'a Node,
        bound: Bound,
        held: bool,
        zone: &'a [Bound],
    },
    /// 21: a start valuation outside the start node's zone.
    Start { zone: &'a [Bound] },
}

/// Where a choice lands that is a witness.
#[derive(Clone, Copy)]
pub enum Landing<'a> {
    /// 16: anywhere.
    Anywhere,
    /// 18: by this edge in the invariant of its location, and outside this zone, its successor's.
    Lost(&'a Edge, &'a [Bound]),
    /// 19, where it adds V: by this edge outside the invariant of its location.
    Missed(&'a Edge),
}

#[derive(Clone, Copy, Debug)]
pub struct Witness {
    pub scale: i64,
    pub clocks: Valuation,
    /// 0 for a start valuation and for one of a part.
    pub delay: i64,
}

impl Quest<'_> {
    /// Whether it belongs to a blocked row.
    fn blocked(&self) -> bool {
        matches!(
            self,
            Quest::Row {
                landing: Landing::Anywhere,
                ..
            }
        )
    }
}

/// The quest that belongs to a refusal; none for other numbers, or where a refusal names the wrong kind
/// of row, or no part.
pub fn quest_of<'a>(model: &'a Model, table: &'a Table, refusal: &Refusal) -> Option<Quest<'a>> {
    match refusal.number {
        16 | 18 => row_quests(model, table).into_iter().find(|(place, quest)| {
            *place == refusal.place && quest.blocked() == (refusal.number == 16)
        }),
        21 => Some(start_quest(table)),
        53 => part_quests(table)
            .into_iter()
            .find(|(place, _)| *place == refusal.place),
        _ => None,
    }
    .map(|(_, quest)| quest)
}

/// All quests of a table that its refusals 16, 18, 21 and 53 call for; none may succeed if it is
/// accepted.
pub fn all_quests<'a>(model: &'a Model, table: &'a Table) -> Vec<Quest<'a>> {
    let rows = row_quests(model, table);
    rows.into_iter()
        .chain(part_quests(table))
        .chain([start_quest(table)])
        .map(|(_, quest)| quest)
        .collect()
}

/// The start's quest and its place.
fn start_quest(table: &Table) -> (usize, Quest<'_>) {
    (
        table.start.place,
        Quest::Start {
            zone: &table.nodes[table.start.node].bounds,
        },
    )
}

/// One for each B word of a cut, with its place.
fn part_quests(table: &Table) -> Vec<(usize, Quest<'_>)> {
    let of_node = |node| Node::cut(node).map(|cut| (node, cut));
    let cuts = table.nodes.iter().filter_map(of_node);
    let parts = cuts.flat_map(|(node, cut)| {
        let sides = cut.parts.iter().zip([true, false]);
        sides.map(move |(named, held)| {
            let quest = Quest::Part {
                node,
                bound: cut.bound,
                held,
                zone: &table.nodes[named.node].bounds,
            };
            (named.place, quest)
        })
    });
    parts.collect()
}

/// One for each A and B word of a row, with its place.
fn row_quests<'a>(model: &'a Model, table: &'a Table) -> Vec<(usize, Quest<'a>)> {
    let mut quests = Vec::new();
    for node in &table.nodes {
        for (row, action) in node
            .rows()
            .iter()
            .zip(&model.locations[node.location].actions)
        {
            match row {
                Row::Blocked { place } => quests.push((
                    *place,
                    Quest::Row {
                        node,
                        action,
                        landing: Landing::Anywhere,
                    },
                )),
                Row::Successors(successors) => {
                    for (edge, successor) in action.edges.iter().zip(successors) {
                        let zone = &table.nodes[successor.node].bounds[..];
                        let landing = Landing::Lost(edge, zone);
                        quests.push((
                            successor.place,
                            Quest::Row {
                                node,
                                action,
                                landing,
                            },
                        ));
                    }
                }
            }
        }
    }
    quests
}

impl Quest<'_> {
    /// A scale at which a witness is found if there is one at any.
    pub fn enough(&self, model: &Model) -> i64 {
        match self {
            Quest::Row { .. } => model.clocks as i64 + 2,
            Quest::Part { .. } | Quest::Start { .. } => model.clocks as i64 + 1,
        }
    }

    /// How many pairs of valuation and delay there may be to try at a scale.
    pub fn cost(&self, model: &Model, scale: i64) -> u64 {
        let constant = self.largest(model);
        let (bounds, delays) = match self {
            Quest::Row { node, .. } => (state_bounds(model, node), scale * constant + 2),
            Quest::Part { node, .. } => (node.bounds.clone(), 1),
            Quest::Start { .. } => (start_bounds(model), 1),
        };
        let grid = Grid::new(model.clocks, scale, constant);
        grid.size(&bounds).saturating_mul(delays as u64)
    }

    fn largest(&self, model: &Model) -> i64 {
        let own = match self {
            Quest::Row {
                node,
                landing: Landing::Lost(_, zone),
                ..
            } => largest(node.bounds.iter().chain(*zone)),
            Quest::Row { node, .. } => largest(&node.bounds),
            Quest::Part {
                node, bound, zone, ..
            } => largest(node.bounds.iter().chain([bound]).chain(*zone)),
            Quest::Start { zone } => largest(model.start.bounds.iter().chain(*zone)),
        };
        own.max(largest_of_model(model))
    }

    /// Tries all valuations and delays at this scale.
    pub fn search(&self, model: &Model, scale: i64) -> Option<Witness> {
        let constant = self.largest(model);
        let grid = Grid::new(model.clocks, scale, constant);
        let at_rest = |clocks| Witness {
            scale,
            clocks,
            delay: 0,
        };
        match self {
            Quest::Start { zone } => {
                let bounds = start_bounds(model);
                let found = grid.find(&bounds, &mut |clocks| !all_hold(zone, scale, clocks));
                found.map(at_rest)
            }
            Quest::Part {
                node,
                bound,
                held,
                zone,
            } => {
                let found = grid.find(&node.bounds, &mut |clocks| {
                    holds(bound, scale, clocks) == *held && !all_hold(zone, scale, clocks)
                });
                found.map(at_rest)
            }
            Quest::Row {
                node,
                action,
                landing,
            } => search_row(model, &grid, node, action, landing),
        }
    }

    /// Evaluates everything that the witness must meet once more, straight from documents 01 and 02.
    pub fn recheck(&self, model: &Model, witness: &Witness) -> bool {
        let met = |bounds: &[Bound], clocks: &Valuation| met(bounds, witness.scale, clocks);
        let clocks = &witness.clocks;
        match self {
            Quest::Start { zone } => {
                let invariant = &model.locations[model.start.location].invariant;
                met(&model.start.bounds, clocks) && met(invariant, clocks) && !met(zone, clocks)
            }
            Quest::Part {
                node,
                bound,
                held,
                zone,
            } => met(&node.bounds, clocks) && met(&[*bound], clocks) == *held && !met(zone, clocks),
            Quest::Row {
                node,
                action,
                landing,
            } => {
                let invariant = &model.locations[node.location].invariant;
                let later = |delay| after_delay(clocks, model.clocks, delay);
                let invariant_kept = (0..=witness.delay).all(|delay| met(invariant, &later(delay)));
                let landed = |edge: &Edge| after_reset(&later(witness.delay), edge.resets);
                let lands = |edge: &Edge| {
                    let invariant = &model.locations[edge.location].invariant;
                    met(invariant, &landed(edge))
                };
                met(&node.bounds, clocks)
                    && invariant_kept
                    && met(&action.guard, &later(witness.delay))
                    && match landing {
                        Landing::Anywhere => true,
                        Landing::Lost(edge, zone) => lands(edge) && !met(zone, &landed(edge)),
                        Landing::Missed(edge) => !lands(edge),
                    }
            }
        }
    }
}

/// Tries all states of the node's zone in the box, and from each of them all delays.
fn search_row(
    model: &Model,
    grid: &Grid,
    node: &Node,
    action: &Action,
    landing: &Landing,
) -> Option<Witness> {
    let (scale, clocks) = (grid.scale, model.clocks);
    let invariant = &model.locations[node.location].invariant;
    let longest = grid.limit / clocks as i64;
    let good = |after: &Valuation| {
        all_hold(&action.guard, scale, after) && landing.met(model, scale, after)
    };
    let mut delay = None;
    let found = grid.find(&state_bounds(model, node), &mut |state| {
        delay = first_delay(invariant, clocks, scale, state, 0..=longest, good);
        delay.is_some()
    });
    found.zip(delay).map(|(clocks, delay)| Witness {
        scale,
        clocks,
        delay,
    })
}

impl Landing<'_> {
    /// Whether a choice that attains these readings lands so.
    fn met(&self, model: &Model, scale: i64, clocks: &Valuation) -> bool {
        match self {
            Landing::Anywhere => true,
            Landing::Lost(edge, zone) => {
                let landed = after_reset(clocks, edge.resets);
                lands_inside(model, scale, edge, clocks) && !all_hold(zone, scale, &landed)
            }
            Landing::Missed(edge) => !lands_inside(model, scale, edge, clocks),
        }
    }
}

/// Whether all bounds hold: the left clock is below the right one plus k × d, or as high where the
/// bound is not strict.
fn met(bounds: &[Bound], scale: i64, clocks: &Valuation) -> bool {
    bounds.iter().all(|bound| {
        let left = clocks[bound.i];
        let right = clocks[bound.j] + scale * i64::from(bound.d);
        left < right || left == right && !bound.strict
    })
}

/// What holds in a start state.
fn start_bounds(model: &Model) -> Vec<Bound> {
    let invariant = &model.locations[model.start.location].invariant;
    [&model.start.bounds[..], invariant].concat()
}

/// What holds in a state of the node's zone.
fn state_bounds(model: &Model, node: &Node) -> Vec<Bound> {
    [&node.bounds[..], &model.locations[node.location].invariant].concat()
}

/// The first delay that leads to a good valuation; none after the invariant has failed.
fn first_delay(
    invariant: &[Bound],
    count: usize,
    scale: i64,
    clocks: &Valuation,
    delays: RangeInclusive<i64>,
    good: impl Fn(&Valuation) -> bool,
) -> Option<i64> {
    for delay in delays {
        let after = after_delay(clocks, count, delay);
        if !all_hold(invariant, scale, &after) {
            return None;
        }
        if good(&after) {
            return Some(delay);
        }
    }
    None
}
