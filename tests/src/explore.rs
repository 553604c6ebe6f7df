//! Tables by forward exploration: from the start zone on, what each edge lands on inside the invariant
//! of its location is put into a node, an old one, a new one or one made larger, until all nodes hold
//! what lands in them. Then some nodes are cut.
//!
//! The zones are those of the independent reading. Nothing rests on them being right: what is made
//! here is only an input, and a table that should not be accepted is as good a one.

use crate::cuts::cut_some;
use crate::drafts::{random_whole, Draft, DraftBody, DraftNode};
use crate::models::{zone_bounds, Size};
use crate::random::Random;
use crate::reading::judging::ModelZones;
use crate::reading::{Bound, Model, Zone};

/// A table of at most 64 nodes, which the judge should accept.
pub fn explore(random: &mut Random, model: &Model) -> Draft {
    let mut explorer = Explorer::new(random, model);
    for _ in 0..explorer.random.pick(&[0, 0, 1, 2]) {
        explorer.add_stray();
    }
    let start = explorer.node_for(model.start.location, &model.start_zone());
    while let Some(number) = explorer.open.pop() {
        explorer.expand(number);
    }
    explorer.fill_empty_rows();
    let nodes = explorer.nodes;
    let mut draft = Draft {
        whole: random_whole(random),
        nodes,
        start,
    };
    if random.one_in(4) {
        raise_some_values(random, &mut draft);
    }
    draft.settle_values(model);
    if random.one_in(2) {
        cut_some(random, model, &mut draft);
    }
    draft
}

fn raise_some_values(random: &mut Random, draft: &mut Draft) {
    for node in &mut draft.nodes {
        if random.one_in(3) {
            node.value = random.word() % (draft.whole + 1);
        }
    }
}

struct Explorer<'a> {
    random: &'a mut Random,
    model: &'a Model,
    zones: ModelZones,
    /// Past this many nodes a location that has one gets no further one. Up to 48 with the strays:
    /// with a first node for each of 16 locations no more than 64 come about.
    most: usize,
    nodes: Vec<DraftNode>,
    /// Nodes whose rows are still to be worked out.
    open: Vec<usize>,
    /// How often a node was made larger.
    merges: usize,
}

impl<'a> Explorer<'a> {
    fn new(random: &'a mut Random, model: &'a Model) -> Self {
        let most = random.pick(&[1, 2, 4, 8, 12, 20, 48]);
        let zones = ModelZones::of(model);
        Explorer {
            random,
            model,
            zones,
            most,
            nodes: Vec::new(),
            open: Vec::new(),
            merges: 0,
        }
    }

    /// Works out all rows of a node, with nodes for what lands.
    fn expand(&mut self, number: usize) {
        let location = self.nodes[number].location;
        let at = &self.model.locations[location];
        if at.target {
            return;
        }
        let zone = self.zone(number);
        let delayed = self.zones.delayed(location, &zone);
        let mut rows = Vec::new();
        for (action_number, action) in at.actions.iter().enumerate() {
            let reach = self.zones.reach(location, action_number, &delayed);
            let mut row = Vec::new();
            if !reach.is_empty() {
                for edge in &action.edges {
                    let landings = self.zones.landings(edge, &reach);
                    row.push(self.node_for(edge.location, &landings.inside));
                }
            }
            rows.push(row);
        }
        self.nodes[number].body = DraftBody::Rows(rows);
    }

    fn zone(&self, number: usize) -> Zone {
        Zone::of(self.model.clocks, &self.nodes[number].bounds)
    }

    /// A node of this location whose zone holds what landed; any where nothing did.
    fn node_for(&mut self, location: usize, landed: &Zone) -> usize {
        let here = |number: &usize| self.nodes[*number].location == location;
        let candidates: Vec<usize> = (0..self.nodes.len()).filter(here).collect();
        if landed.is_empty() && !candidates.is_empty() {
            return self.random.pick(&candidates);
        }
        let holding = candidates
            .iter()
            .find(|&&number| landed.inside(&self.zone(number)));
        if let Some(&number) = holding {
            return number;
        }
        if candidates.is_empty() || self.nodes.len() < self.most {
            return self.add(location, landed);
        }
        let number = self.random.pick(&candidates);
        self.enlarge(number, landed);
        number
    }

    fn add(&mut self, location: usize, landed: &Zone) -> usize {
        let mut bounds = spelled(landed.bounds());
        if self.random.one_in(3) {
            loosen_some(self.random, &mut bounds);
        }
        if self.random.one_in(8) && !bounds.is_empty() {
            let again = self.random.pick(&bounds);
            bounds.push(again);
        }
        self.push(location, bounds)
    }

    /// A node that the start need not reach, with any zone: it may lie outside the invariant, wholly
    /// or in part, or be empty.
    fn add_stray(&mut self) {
        let size = Size {
            clocks: self.model.clocks,
            locations: self.model.locations.len(),
            constant: self.random.pick(&[1, 2, 3, 5]),
            denominator: self.model.denominator,
            strict: 3,
            walled: false,
            onward: false,
        };
        let location = self.random.below(size.locations);
        let bounds = zone_bounds(self.random, &size);
        self.push(location, bounds);
    }

    fn push(&mut self, location: usize, bounds: Vec<Bound>) -> usize {
        let number = self.nodes.len();
        self.open.push(number);
        self.nodes.push(DraftNode {
            location,
            bounds,
            value: 0,
            body: DraftBody::Rows(Vec::new()),
        });
        number
    }

    /// The node gets the least zone around its own and what landed. After many such steps only the
    /// bounds that need not give way are kept, and in the end none, so that the growing ends.
    fn enlarge(&mut self, number: usize, landed: &Zone) {
        self.merges += 1;
        let old = spelled(self.zone(number).bounds());
        let new = spelled(landed.bounds());
        self.nodes[number].bounds = match self.merges {
            0..=30 => hull(&old, &new, false),
            31..=90 => hull(&old, &new, true),
            _ => Vec::new(),
        };
        self.open.push(number);
    }

    /// A row whose reach is empty is blocked; now and then it gets successors instead.
    fn fill_empty_rows(&mut self) {
        for number in 0..self.nodes.len() {
            let at = &self.model.locations[self.nodes[number].location];
            for row in 0..self.nodes[number].rows().len() {
                if self.nodes[number].rows()[row].is_empty() && self.random.one_in(5) {
                    let edges = at.actions[row].edges.iter();
                    let found = edges.map(|edge| self.any_node_of(edge.location)).collect();
                    self.nodes[number].rows_mut()[row] = Option::unwrap_or_default(found);
                }
            }
        }
    }

    fn any_node_of(&self, location: usize) -> Option<usize> {
        self.nodes.iter().position(|node| node.location == location)
    }
}

/// Bounds that a word can hold: those with a larger `d` are left out, those with a smaller one are
/// loosened to the smallest.
pub fn spelled(bounds: Vec<Bound>) -> Vec<Bound> {
    let small_enough = bounds.into_iter().filter(|bound| bound.d <= 4095);
    small_enough
        .map(|bound| Bound {
            d: bound.d.max(-4095),
            ..bound
        })
        .collect()
}

/// Drops bounds or lets them give way.
fn loosen_some(random: &mut Random, bounds: &mut Vec<Bound>) {
    bounds.retain(|_| !random.one_in(4));
    for bound in bounds {
        match random.below(6) {
            0 => bound.strict = false,
            1 => bound.d = (bound.d + 1).min(4095),
            _ => {}
        }
    }
}

/// Pairs bounded in both lists, with the looser bound; if `only_kept`, only where that is the old
/// one. Both lists have each pair at most once and are tight.
pub fn hull(old: &[Bound], new: &[Bound], only_kept: bool) -> Vec<Bound> {
    let looseness = |bound: &Bound| 2 * bound.d + i32::from(!bound.strict);
    let mut hull = Vec::new();
    for bound in old {
        let same_pair = |other: &&Bound| (other.i, other.j) == (bound.i, bound.j);
        match new.iter().find(same_pair) {
            Some(other) if looseness(other) <= looseness(bound) => hull.push(*bound),
            Some(other) if !only_kept => hull.push(*other),
            _ => {}
        }
    }
    hull
}

#[cfg(test)]
mod tests {
    use super::*;
    use crate::models::{self, Size};
    use crate::reading::{judge, parse_model};
    use crate::spell;

    #[test]
    fn explored_tables_are_accepted() {
        let mut random = Random::new(7);
        let mut cut = 0;
        for _ in 0..500 {
            let size = Size::random(&mut random);
            let words = models::model(&mut random, &size);
            let Ok(model) = parse_model(&words) else {
                continue;
            };
            let draft = explore(&mut random, &model);
            cut += usize::from(draft.nodes.iter().any(DraftNode::is_cut));
            let table = draft.words();
            let verdict = judge(&words, &table);
            assert!(
                verdict.is_ok(),
                "{verdict:?} {} / {}",
                spell::hex(&words),
                spell::hex(&table)
            );
        }
        assert!(cut > 150, "{cut}");
    }
}
