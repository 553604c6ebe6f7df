//! Refusal 19 by trying: the sum of a row with V for every edge that is seen to land outside the
//! invariant of its location (document 02, card 4).

use crate::reading::{Action, Edge, Model, Node, Table};
use crate::witness::{Landing, Quest};

/// The sum of a row with successors.
pub struct Sum<'a> {
    model: &'a Model,
    whole: u32,
    node: &'a Node,
    action: &'a Action,
    /// The node that the row names for each edge.
    next: Vec<&'a Node>,
    /// Of the row's first B word.
    pub place: usize,
}

/// The sums of a table, in file order.
pub fn sums<'a>(model: &'a Model, table: &'a Table) -> Vec<Sum<'a>> {
    let mut sums = Vec::new();
    for node in &table.nodes {
        let actions = &model.locations[node.location].actions;
        for (row, action) in node.rows().iter().zip(actions) {
            let successors = row.successors();
            let next = successors.iter().map(|named| &table.nodes[named.node]);
            if let Some(first) = successors.first() {
                sums.push(Sum {
                    model,
                    whole: table.whole,
                    node,
                    action,
                    next: next.collect(),
                    place: first.place,
                });
            }
        }
    }
    sums
}

impl<'a> Sum<'a> {
    /// What would raise the sum, with the number of its edge: a landing outside where the successor's
    /// value is below V.
    pub fn quests(&self) -> Vec<(usize, Quest<'a>)> {
        let below = |(_, (_, next)): &(usize, (&'a Edge, &&Node))| next.value < self.whole;
        let edges = self.action.edges.iter().zip(&self.next).enumerate();
        let quest = |(number, (edge, _)): (usize, (&'a Edge, &&Node))| {
            let quest = Quest::Row {
                node: self.node,
                action: self.action,
                landing: Landing::Missed(edge),
            };
            (number, quest)
        };
        edges.filter(below).map(quest).collect()
    }

    /// Whether the sum is at most D × the node's value, with V for these edges.
    pub fn fits(&self, missed: &[usize]) -> bool {
        let mut sum = 0;
        for (number, (edge, next)) in self.action.edges.iter().zip(&self.next).enumerate() {
            let value = if missed.contains(&number) {
                self.whole
            } else {
                next.value
            };
            sum += u128::from(edge.weight) * u128::from(value);
        }
        sum <= u128::from(self.model.denominator) * u128::from(self.node.value)
    }
}
