//! A table drafted for a model.
//!
//! Reads document 02, card 5: the nodes that exploring forward finds, their values after some rounds,
//! the words that are written, and refusals 58 to 60. Sentences of the card stand in quotes.

use super::judging::ModelZones;
use super::model::{parse_model, Action, Model};
use super::words::Bound;
use super::zones::Zone;
use super::Refusal;
use crate::spell;

/// "V is 1,000,000".
const WHOLE: u32 = 1_000_000;
/// "Rounds above 1,000 count as 1,000."
const MOST_ROUNDS: u64 = 1_000;
/// A 65th node is refused.
const MOST_NODES: usize = 64;
/// The largest constant of a bound, and negated the smallest.
const FARTHEST: i32 = 4_095;

/// "An empty zone is the one word 51000FFF": clock 1 at most -1.
const NEVER: Bound = Bound {
    i: 1,
    j: 0,
    d: -1,
    strict: false,
};

/// Drafts a table into the first of the lent words and answers with its length.
///
/// "Errors: the model's own first", then 58 and 59 while nodes are found; "at the end 60 lent words too
/// few". The lent words are written at one place, when nothing can fail any more: "A failed draft
/// leaves the lent words untouched, and a good one those past its end".
pub fn draft(model: &[u32], rounds: u64, lent: &mut [u32]) -> Result<usize, Refusal> {
    let model = parse_model(model)?;
    let nodes = explore(&model)?;
    let values = values_after(rounds.min(MOST_ROUNDS), &model, &nodes);
    let table = words(&nodes, &values);
    let room = lent.get_mut(..table.len()).ok_or(refusal(60))?;
    room.copy_from_slice(&table);
    Ok(table.len())
}

/// "58 to 60 have place 0."
fn refusal(number: u32) -> Refusal {
    Refusal { number, place: 0 }
}

/// A node that was found, without its value.
struct Node {
    location: usize,
    target: bool,
    /// It lies in the invariant of the location.
    zone: Zone,
    /// One per action of the location. A node of a target has no rows in a table, so it gets none here
    /// and nothing is explored from it.
    rows: Vec<Row>,
}

/// One per edge of the action; none for a row with an A word, since an action has an edge.
type Row = Vec<Successor>;

struct Successor {
    node: usize,
    weight: u32,
    /// Whether the edge can land outside its location's invariant from the row's reach.
    can_miss: bool,
}

/// All nodes, in order of discovery.
///
/// "Explore forward from the start zone (its bounds and the invariant), nodes in order of discovery":
/// the start is node 0, and the nodes are explored in the order of their numbers until none is left.
fn explore(model: &Model) -> Result<Vec<Node>, Refusal> {
    let mut explorer = Explorer {
        model,
        zones: ModelZones::of(model),
        nodes: Vec::new(),
    };
    explorer.node_for(model.start.location, model.start_zone())?;
    let mut number = 0;
    while number < explorer.nodes.len() {
        explorer.nodes[number].rows = explorer.rows(number)?;
        number += 1;
    }
    Ok(explorer.nodes)
}

struct Explorer<'a> {
    model: &'a Model,
    zones: ModelZones,
    nodes: Vec<Node>,
}

impl Explorer<'_> {
    /// The rows of a node: "then by action and edge".
    fn rows(&mut self, number: usize) -> Result<Vec<Row>, Refusal> {
        let Node { location, zone, .. } = self.nodes[number];
        let at = &self.model.locations[location];
        if at.target {
            return Ok(Vec::new());
        }
        let delayed = self.zones.delayed(location, &zone);
        let mut rows = Vec::new();
        for (number, action) in at.actions.iter().enumerate() {
            let reach = self.zones.reach(location, number, &delayed);
            rows.push(self.row(action, &reach)?);
        }
        Ok(rows)
    }

    /// "An empty reach gets an A word; a successor zone is the smallest that holds the reset reach
    /// within the invariant." What of the reset reach is in the invariant is a zone itself, so it is the
    /// smallest. It may be empty, where all land outside: a B word needs a node all the same.
    fn row(&mut self, action: &Action, reach: &Zone) -> Result<Row, Refusal> {
        let mut row = Vec::new();
        if reach.is_empty() {
            return Ok(row);
        }
        for edge in &action.edges {
            let landings = self.zones.landings(edge, reach);
            row.push(Successor {
                node: self.node_for(edge.location, landings.inside)?,
                weight: edge.weight,
                can_miss: landings.can_miss,
            });
        }
        Ok(row)
    }

    /// "A node with the same location and the same valuations is reused." The same at every scale; so
    /// there is at most one empty node of a location.
    fn node_for(&mut self, location: usize, zone: Zone) -> Result<usize, Refusal> {
        let same = |node: &Node| node.location == location && node.zone.same_as(&zone);
        match self.nodes.iter().position(same) {
            Some(number) => Ok(number),
            None => self.new_node(location, zone),
        }
    }

    /// "At each new node 58 a 65th, then 59 a tightened bound beyond 4,095 either way". The start node
    /// and nodes of targets are new nodes like the others. An empty zone has the bound of its one word
    /// only, so it is never 59.
    fn new_node(&mut self, location: usize, zone: Zone) -> Result<usize, Refusal> {
        let number = self.nodes.len();
        if number == MOST_NODES {
            return Err(refusal(58));
        }
        let in_range = |bound: &Bound| (-FARTHEST..=FARTHEST).contains(&bound.d);
        if !bounds(&zone).iter().all(in_range) {
            return Err(refusal(59));
        }
        self.nodes.push(Node {
            location,
            target: self.model.locations[location].target,
            zone,
            rows: Vec::new(),
        });
        Ok(number)
    }
}

/// "A node's bounds are all its finite tightened ones, for i other than j, by i, then j; an empty zone is
/// the one word 51000FFF." All of them: those that hold for any valuation, as clock 0 minus clock j at
/// most 0, are finite too, so i begins at 0 and every clock has a lower bound.
fn bounds(zone: &Zone) -> Vec<Bound> {
    if zone.is_empty() {
        vec![NEVER]
    } else {
        zone.all_bounds()
    }
}

/// "V is 1,000,000 and every value begins there. Each round replaces all non-target values together":
/// what a round works out has the values from before it on its right side throughout.
fn values_after(rounds: u64, model: &Model, nodes: &[Node]) -> Vec<u32> {
    let mut values = vec![WHOLE; nodes.len()];
    for _ in 0..rounds {
        let next = nodes.iter().map(|node| next_value(model, node, &values));
        values = next.collect();
    }
    values
}

/// A non-target value is replaced "by the largest, over rows with successors, of the judge's sum over D,
/// rounded up; without such rows it is 0". A location without actions has no rows at all.
fn next_value(model: &Model, node: &Node, values: &[u32]) -> u32 {
    if node.target {
        return WHOLE;
    }
    let with_successors = node.rows.iter().filter(|row| !row.is_empty());
    let over_d = |row| sum(row, values).div_ceil(u64::from(model.denominator));
    // The weights add to D, so a sum is at most D × V.
    with_successors.map(over_d).max().unwrap_or(0) as u32
}

/// The judge's sum, that of 19: weight × successor value, and by card 4 "an edge that can land outside
/// has V in place of its successor's value".
fn sum(row: &Row, values: &[u32]) -> u64 {
    let mut sum = 0;
    for successor in row {
        let value = match successor.can_miss {
            true => WHOLE,
            false => values[successor.node],
        };
        sum += u64::from(successor.weight) * u64::from(value);
    }
    sum
}

/// The table as document 01 lays it out. The start node is the one found first.
fn words(nodes: &[Node], values: &[u32]) -> Vec<u32> {
    let mut words = vec![spell::table_head(WHOLE)];
    for (node, &value) in nodes.iter().zip(values) {
        words.push(spell::node(node.location));
        words.extend(spell::bounds(&bounds(&node.zone)));
        words.push(spell::value(value));
        words.extend(node.rows.iter().flat_map(row_words));
    }
    words.push(spell::start_node(0));
    words
}

/// One A, or one B per edge.
fn row_words(row: &Row) -> Vec<u32> {
    if row.is_empty() {
        return vec![spell::BLOCKED];
    }
    let successors = row.iter();
    successors
        .map(|successor| spell::successor(successor.node))
        .collect()
}
