//! Judging a parsed table against a parsed model.
//!
//! Reads "Moves and schedulers" (which choices are allowed) and "When a table is accepted" of
//! document 01: refusals 15 to 21; what document 02, card 1, asks of a cut: refusals 51 to 53; and
//! card 4, by which an edge that lands outside its location's invariant no longer forbids the
//! choice, but counts as a miss.

use super::model::{Action, Edge, Location, Model};
use super::table::{Body, Cut, Node, NodeRef, Row, Table};
use super::words::Bound;
use super::zones::Zone;
use super::{Certificate, Refusal};

/// The zones of a model, worked out once for all nodes.
pub struct ModelZones {
    /// By location.
    invariants: Vec<Zone>,
    /// By location and action.
    guards: Vec<Vec<Zone>>,
}

/// Where an edge lands, with its masked clocks set to 0: in the invariant of its location, or
/// outside it, which is a miss (card 4).
pub struct Landings {
    /// The landings in the invariant.
    pub inside: Zone,
    /// Whether the edge can land outside: at some scale some landing is not in the invariant. From
    /// an empty reach nothing lands, outside or inside.
    pub can_miss: bool,
}

impl ModelZones {
    pub fn of(model: &Model) -> ModelZones {
        let zone = |bounds: &[Bound]| Zone::of(model.clocks, bounds);
        let guards_at = |location: &Location| {
            let actions = location.actions.iter();
            actions.map(|action| zone(&action.guard)).collect()
        };
        let locations = &model.locations;
        ModelZones {
            invariants: locations.iter().map(|at| zone(&at.invariant)).collect(),
            guards: locations.iter().map(guards_at).collect(),
        }
    }

    /// The valuations that any delay attains from a state in the node's zone. The node's zone need
    /// not lie in the invariant, so that is met first. It is met again after the delay; a zone has
    /// no holes, so what holds at both ends of a delay holds throughout.
    pub fn delayed(&self, location: usize, node_zone: &Zone) -> Zone {
        let invariant = &self.invariants[location];
        node_zone.meet(invariant).delay().meet(invariant)
    }

    /// The reach of a row, before resets, given what delays alone attain from its node. A choice is
    /// allowed by invariant and guard alone (card 4), so where its edges land is not asked.
    pub fn reach(&self, location: usize, action: usize, delayed: &Zone) -> Zone {
        delayed.meet(&self.guards[location][action])
    }

    /// Where an edge lands from its row's reach.
    pub fn landings(&self, edge: &Edge, reach: &Zone) -> Landings {
        let landed = reach.reset(edge.resets);
        let invariant = &self.invariants[edge.location];
        Landings {
            inside: landed.meet(invariant),
            can_miss: !landed.inside(invariant),
        }
    }
}

/// The reach of one row, by node number and row number (which is the action's in its location).
pub fn reach_of_row(model: &Model, table: &Table, node: usize, row: usize) -> Zone {
    let zones = ModelZones::of(model);
    let node = &table.nodes[node];
    let delayed = zones.delayed(node.location, &Zone::of(model.clocks, &node.bounds));
    zones.reach(node.location, row, &delayed)
}

/// Accepts the table or gives its first refusal (15 to 21, 51 to 53).
pub fn judge_table(model: &Model, table: &Table) -> Result<Certificate, Refusal> {
    let node_zone = |node: &Node| Zone::of(model.clocks, &node.bounds);
    let judge = Judge {
        model,
        table,
        zones: ModelZones::of(model),
        node_zones: table.nodes.iter().map(node_zone).collect(),
    };
    for number in 0..table.nodes.len() {
        judge.node(number)?;
    }
    judge.start()?;
    Ok(Certificate {
        b: table.nodes[table.start.node].value,
        whole: table.whole,
        nodes: table.nodes.len(),
    })
}

struct Judge<'a> {
    model: &'a Model,
    table: &'a Table,
    zones: ModelZones,
    /// By node.
    node_zones: Vec<Zone>,
}

impl Judge<'_> {
    /// 15 at a target; elsewhere the rows, or in place of them the cut.
    fn node(&self, number: usize) -> Result<(), Refusal> {
        let (node, zone) = (&self.table.nodes[number], &self.node_zones[number]);
        if self.model.locations[node.location].target {
            return demand(node.value == self.table.whole, 15, node.value_place);
        }
        match &node.body {
            Body::Rows(rows) => self.rows(node, zone, rows),
            Body::Cut(cut) => self.cut(number, cut),
        }
    }

    /// 16 to 19 row by row.
    fn rows(&self, node: &Node, zone: &Zone, rows: &[Row]) -> Result<(), Refusal> {
        let actions = &self.model.locations[node.location].actions;
        let delayed = self.zones.delayed(node.location, zone);
        for (number, (row, action)) in rows.iter().zip(actions).enumerate() {
            let reach = self.zones.reach(node.location, number, &delayed);
            match row {
                Row::Blocked { place } => demand(reach.is_empty(), 16, *place)?,
                Row::Successors(successors) => self.successors(node, action, successors, &reach)?,
            }
        }
        Ok(())
    }

    /// 17 and 18 successor by successor, then 19 for the row. Card 4: the successor's zone must hold
    /// the landings inside the invariant only, and an edge that can land outside adds V to the sum
    /// in place of its successor's value.
    fn successors(
        &self,
        node: &Node,
        action: &Action,
        successors: &[NodeRef],
        reach: &Zone,
    ) -> Result<(), Refusal> {
        let mut sum = 0;
        for (edge, successor) in action.edges.iter().zip(successors) {
            let next = &self.table.nodes[successor.node];
            demand(next.location == edge.location, 17, successor.place)?;
            let landings = self.zones.landings(edge, reach);
            let held = landings.inside.inside(&self.node_zones[successor.node]);
            demand(held, 18, successor.place)?;
            let value = if landings.can_miss {
                self.table.whole
            } else {
                next.value
            };
            sum += u64::from(edge.weight) * u64::from(value);
        }
        let most = u64::from(self.model.denominator) * u64::from(node.value);
        demand(sum <= most, 19, successors[0].place)
    }

    /// Card 1: 51 to 53, part by part. The parts are those of the node's zone as it is written, not
    /// met with the invariant. A number above the node's own keeps cuts from going round: a cut takes
    /// no step.
    fn cut(&self, number: usize, cut: &Cut) -> Result<(), Refusal> {
        let (node, zone) = (&self.table.nodes[number], &self.node_zones[number]);
        let bounds = [cut.bound, cut.bound.negated()];
        for (named, bound) in cut.parts.iter().zip(bounds) {
            let holder = &self.table.nodes[named.node];
            demand(named.node > number, 51, named.place)?;
            let fits = holder.location == node.location && holder.value <= node.value;
            demand(fits, 52, named.place)?;
            let part = zone.meet(&Zone::of(self.model.clocks, &[bound]));
            demand(part.inside(&self.node_zones[named.node]), 53, named.place)?;
        }
        Ok(())
    }

    /// 20 and 21, at the C word.
    fn start(&self) -> Result<(), Refusal> {
        let NodeRef { node, place } = self.table.start;
        let location = self.table.nodes[node].location;
        demand(location == self.model.start.location, 20, place)?;
        let held = self.model.start_zone().inside(&self.node_zones[node]);
        demand(held, 21, place)
    }
}

fn demand(met: bool, number: u32, place: usize) -> Result<(), Refusal> {
    if met {
        Ok(())
    } else {
        Err(Refusal { number, place })
    }
}
