//! A table before it is spelled out in words, and values that make its sums hold.

use crate::random::Random;
use crate::reading::judging::ModelZones;
use crate::reading::{Action, Bound, Model, Zone};
use crate::spell;

#[derive(Clone, Debug)]
pub struct Draft {
    /// V.
    pub whole: u32,
    pub nodes: Vec<DraftNode>,
    /// The start node.
    pub start: usize,
}

#[derive(Clone, Debug)]
pub struct DraftNode {
    pub location: usize,
    pub bounds: Vec<Bound>,
    pub value: u32,
    pub body: DraftBody,
}

#[derive(Clone, Debug)]
pub enum DraftBody {
    /// One per action: the successors, or none for a blocked row.
    Rows(Vec<Vec<usize>>),
    /// The bound, the node for the part where it holds, the node for the rest.
    Cut(Bound, [usize; 2]),
}

impl DraftNode {
    /// The rows; none if the node is cut.
    pub fn rows(&self) -> &[Vec<usize>] {
        match &self.body {
            DraftBody::Rows(rows) => rows,
            DraftBody::Cut(..) => &[],
        }
    }

    pub fn rows_mut(&mut self) -> &mut [Vec<usize>] {
        match &mut self.body {
            DraftBody::Rows(rows) => rows,
            DraftBody::Cut(..) => &mut [],
        }
    }

    pub fn is_cut(&self) -> bool {
        matches!(self.body, DraftBody::Cut(..))
    }

    /// Every node number in the rows or in the cut.
    pub fn named_mut(&mut self) -> Vec<&mut usize> {
        match &mut self.body {
            DraftBody::Rows(rows) => rows.iter_mut().flatten().collect(),
            DraftBody::Cut(_, parts) => parts.iter_mut().collect(),
        }
    }

    fn body_words(&self) -> Vec<u32> {
        let mut words = Vec::new();
        match &self.body {
            DraftBody::Rows(rows) => {
                for row in rows {
                    if row.is_empty() {
                        words.push(spell::BLOCKED);
                    }
                    words.extend(row.iter().map(|&node| spell::successor(node)));
                }
            }
            DraftBody::Cut(bound, parts) => {
                words.push(spell::cut(bound));
                words.extend(parts.map(spell::successor));
            }
        }
        words
    }
}

impl Draft {
    pub fn words(&self) -> Vec<u32> {
        let mut words = vec![spell::table_head(self.whole)];
        for node in &self.nodes {
            words.push(spell::node(node.location));
            words.extend(spell::bounds(&node.bounds));
            words.push(spell::value(node.value));
            words.extend(node.body_words());
        }
        words.push(spell::start_node(self.start));
        words
    }

    /// Raises the values until every sum holds. Where rounding up creeps for too long, all values
    /// become V, which no sum can pass.
    pub fn settle_values(&mut self, model: &Model) {
        let misses = self.misses(model);
        for _ in 0..200 {
            if !self.raise_once(model, &misses) {
                return;
            }
        }
        for node in &mut self.nodes {
            node.value = self.whole;
        }
    }

    /// One round over all nodes; says whether a value was raised.
    fn raise_once(&mut self, model: &Model, misses: &[Misses]) -> bool {
        let mut raised = false;
        for (number, misses) in misses.iter().enumerate() {
            let needed = self.needed_value(model, number, misses);
            if self.nodes[number].value < needed {
                self.nodes[number].value = needed;
                raised = true;
            }
        }
        raised
    }

    /// The least value that the node's rows or parts allow, given the values of the nodes that they
    /// name.
    fn needed_value(&self, model: &Model, number: usize, misses: &Misses) -> u32 {
        let node = &self.nodes[number];
        let location = &model.locations[node.location];
        if location.target {
            return self.whole;
        }
        match &node.body {
            DraftBody::Rows(rows) => {
                let rows = location.actions.iter().zip(rows).zip(misses);
                rows.map(|((action, row), misses)| self.row_value(model, action, row, misses))
                    .max()
                    .unwrap_or(0)
            }
            DraftBody::Cut(_, [first, rest]) => {
                self.nodes[*first].value.max(self.nodes[*rest].value)
            }
        }
    }

    /// The least value that a node's rows or parts allow if no edge lands outside.
    pub fn needed_by_values(&self, model: &Model, number: usize) -> u32 {
        let actions = &model.locations[self.nodes[number].location].actions;
        let none = actions.iter().map(|action| vec![false; action.edges.len()]);
        self.needed_value(model, number, &none.collect())
    }

    /// The row's sum divided by D, rounded up. An edge that can land outside adds V.
    fn row_value(&self, model: &Model, action: &Action, row: &[usize], misses: &[bool]) -> u32 {
        let mut sum = 0;
        for ((edge, &node), &missed) in action.edges.iter().zip(row).zip(misses) {
            let value = if missed {
                self.whole
            } else {
                self.nodes[node].value
            };
            sum += u64::from(edge.weight) * u64::from(value);
        }
        sum.div_ceil(u64::from(model.denominator)) as u32
    }

    /// Which edges can land outside, by node.
    pub fn misses(&self, model: &Model) -> Vec<Misses> {
        let zones = ModelZones::of(model);
        let of_node = |node: &DraftNode| {
            let zone = Zone::of(model.clocks, &node.bounds);
            let delayed = zones.delayed(node.location, &zone);
            let actions = &model.locations[node.location].actions;
            let of_action = |(number, action): (usize, &Action)| {
                let reach = zones.reach(node.location, number, &delayed);
                let edges = action.edges.iter();
                let can_miss = edges.map(|edge| zones.landings(edge, &reach).can_miss);
                can_miss.collect()
            };
            actions.iter().enumerate().map(of_action).collect()
        };
        self.nodes.iter().map(of_node).collect()
    }
}

/// By action and edge of a node's location: whether the edge can land outside from the node.
pub type Misses = Vec<Vec<bool>>;

/// V: small, round, or as large as its field allows.
pub fn random_whole(random: &mut Random) -> u32 {
    const LARGEST: u32 = (1 << 28) - 1;
    match random.below(8) {
        0 => random.between(1, 4) as u32,
        1 | 2 => random.pick(&[10, 100, 1000, 65_535, 65_536]),
        3 => LARGEST,
        4 => LARGEST - random.below(10) as u32,
        5 => 1 + random.word() % LARGEST,
        _ => random.between(5, 5000) as u32,
    }
}
