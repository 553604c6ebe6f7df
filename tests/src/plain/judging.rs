//! Judging a table that is read: refusals 15 to 21 and 51 to 53.

use super::model::{Action, Edge, Model};
use super::table::{number_of, Node, Table, BLOCKED, CUT};
use super::zone::Zone;
use super::{demand, Certificate, Refusal};

/// `words` are the table's.
pub fn judge_table(model: &Model, table: &Table, words: &[u32]) -> Result<Certificate, Refusal> {
    let judge = Judge {
        model,
        table,
        words,
    };
    for (number, node) in table.nodes.iter().enumerate() {
        judge.node(number, node)?;
    }
    let start = &table.nodes[table.start];
    let at = table.start_place;
    demand(start.location == model.start.location, 20, at)?;
    let states = &model.start.zone;
    let held = states.inside_after_reset(model.clocks, 0, &start.zone);
    demand(held, 21, at)?;
    Ok(Certificate {
        value: start.value,
        whole: table.whole,
        nodes: table.nodes.len(),
    })
}

struct Judge<'a> {
    model: &'a Model,
    table: &'a Table,
    words: &'a [u32],
}

impl Judge<'_> {
    fn node(&self, number: usize, node: &Node) -> Result<(), Refusal> {
        let location = &self.model.locations[node.location];
        if location.target {
            return demand(node.value == self.table.whole, 15, node.value_place);
        }
        let mut place = node.value_place + 1;
        if self.words[place] >> 28 == CUT {
            return self.cut(number, node, place);
        }
        let waited = self.waited(node, &location.invariant);
        for action in &self.model.actions[location.first..location.end] {
            let mut reach = waited;
            reach.meet(&action.guard);
            reach.tighten(self.model.clocks);
            if self.words[place] >> 28 == BLOCKED {
                demand(reach.is_empty(), 16, place)?;
                place += 1;
            } else {
                self.row(node, action, &reach, place)?;
                place += action.end - action.first;
            }
        }
        Ok(())
    }

    /// A node that is cut, by the word at this place: its parts lie in the two nodes named behind it.
    fn cut(&self, number: usize, node: &Node, place: usize) -> Result<(), Refusal> {
        let mut zone = node.zone;
        zone.tighten(self.model.clocks);
        let parts = zone.parts(self.model.clocks, self.words[place]);
        for (place, part) in (place + 1..).zip(&parts) {
            let next = number_of(self.words[place]);
            demand(next > number, 51, place)?;
            let next = &self.table.nodes[next];
            let alike = next.location == node.location && next.value <= node.value;
            demand(alike, 52, place)?;
            let held = |part: &Zone| part.inside_after_reset(self.model.clocks, 0, &next.zone);
            demand(part.as_ref().is_none_or(held), 53, place)?;
        }
        Ok(())
    }

    /// What waiting attains from the node; an empty zone keeps a diagonal that says so.
    fn waited(&self, node: &Node, invariant: &Zone) -> Zone {
        let mut zone = node.zone;
        zone.meet(invariant);
        zone.tighten(self.model.clocks);
        zone.delay();
        zone.meet(invariant);
        zone
    }

    /// A row with successors, the first of them at this place.
    fn row(&self, node: &Node, action: &Action, reach: &Zone, first: usize) -> Result<(), Refusal> {
        let empty = reach.is_empty();
        let mut sum = 0;
        let edges = &self.model.edges[action.first..action.end];
        for (place, edge) in (first..).zip(edges) {
            let next = &self.table.nodes[number_of(self.words[place])];
            demand(next.location == edge.location(), 17, place)?;
            let (missed, held) = if empty {
                (false, true)
            } else {
                self.landing(edge, reach, &next.zone)
            };
            demand(held, 18, place)?;
            let value = if missed { self.table.whole } else { next.value };
            sum += u64::from(edge.weight()) * u64::from(value);
        }
        let most = u64::from(self.model.denominator) * u64::from(node.value);
        demand(sum <= most, 19, first)
    }

    /// From a reach that is not empty: whether the edge can land outside the invariant of its
    /// location, and whether the next zone holds what lands inside.
    fn landing(&self, edge: &Edge, reach: &Zone, next: &Zone) -> (bool, bool) {
        let (clocks, resets) = (self.model.clocks, edge.resets());
        let to = &self.model.locations[edge.location()];
        let missed = to.bounded && !reach.lands_inside(&to.invariant, resets);
        let all_held = reach.inside_after_reset(clocks, resets, next);
        let held = all_held || missed && reach.part_inside(clocks, resets, &to.invariant, next);
        (missed, held)
    }
}
