//! The table as a tree, and the parser that builds it.
//!
//! Reads "Words" (what may follow what in a table) and the table's syntax in "The four calls and
//! their refusals" of document 01: refusals 11 to 14. Cuts are those of document 02, card 1.

use super::cursor::Cursor;
use super::model::{Action, Location, Model};
use super::words::{self, Bound};
use super::Refusal;

const MAX_NODES: usize = 64;

#[derive(Clone, Debug, PartialEq, Eq)]
pub struct Table {
    /// V: the value of a target node, and the lower part of the certified fraction.
    pub whole: u32,
    pub nodes: Vec<Node>,
    pub start: NodeRef,
}

#[derive(Clone, Debug, PartialEq, Eq)]
pub struct Node {
    pub location: usize,
    pub bounds: Vec<Bound>,
    pub value: u32,
    /// Index of the value word in the table.
    pub value_place: usize,
    pub body: Body,
}

/// What stands behind a node's value.
#[derive(Clone, Debug, PartialEq, Eq)]
pub enum Body {
    /// One per action of the location, in order; none at a target.
    Rows(Vec<Row>),
    /// In place of the rows, at a location that is no target.
    Cut(Cut),
}

/// A node's zone in two parts.
#[derive(Clone, Copy, Debug, PartialEq, Eq)]
pub struct Cut {
    /// An upper bound of one clock.
    pub bound: Bound,
    /// The node for the part where the bound holds, then the one for the rest.
    pub parts: [NodeRef; 2],
}

#[derive(Clone, Debug, PartialEq, Eq)]
pub enum Row {
    /// The index of the A word.
    Blocked { place: usize },
    /// One per edge of the action, in order.
    Successors(Vec<NodeRef>),
}

/// A node number and the index of the B or C word that gives it.
#[derive(Clone, Copy, Debug, PartialEq, Eq)]
pub struct NodeRef {
    pub node: usize,
    pub place: usize,
}

impl Node {
    /// The rows in order; none if the node is cut.
    pub fn rows(&self) -> &[Row] {
        match &self.body {
            Body::Rows(rows) => rows,
            Body::Cut(_) => &[],
        }
    }

    /// The cut, if the node has one.
    pub fn cut(&self) -> Option<&Cut> {
        match &self.body {
            Body::Rows(_) => None,
            Body::Cut(cut) => Some(cut),
        }
    }

    /// What the node's B words name, in file order.
    fn named(&self) -> impl Iterator<Item = &NodeRef> {
        let in_rows = self.rows().iter().flat_map(Row::successors);
        in_rows.chain(self.cut().into_iter().flat_map(|cut| &cut.parts))
    }
}

impl Row {
    /// The successors in order; none if the row is blocked.
    pub fn successors(&self) -> &[NodeRef] {
        match self {
            Row::Blocked { .. } => &[],
            Row::Successors(successors) => successors,
        }
    }
}

/// The table that the words spell for this model, or the first refusal (11 to 14).
pub fn parse_table(model: &Model, words: &[u32]) -> Result<Table, Refusal> {
    let mut cursor = Cursor::over_table(words);
    let (whole, _) = cursor.take(words::TABLE_HEAD, words::table_head)?;
    let mut parser = Parser {
        cursor,
        model,
        whole,
    };
    let mut nodes = Vec::new();
    while nodes.is_empty() || parser.cursor.is_at(words::NODE) {
        nodes.push(parser.node(nodes.len())?);
    }
    let start = parser.node_ref(words::START_NODE)?;
    parser.cursor.end()?;
    let table = Table {
        whole,
        nodes,
        start,
    };
    check_node_numbers(&table)?;
    Ok(table)
}

/// 14, asked of the whole file since a row or a cut may name a node that comes later.
fn check_node_numbers(table: &Table) -> Result<(), Refusal> {
    let in_nodes = table.nodes.iter().flat_map(Node::named);
    let mut named = in_nodes.chain([&table.start]);
    match named.find(|named| named.node >= table.nodes.len()) {
        Some(lost) => Err(Refusal {
            number: 14,
            place: lost.place,
        }),
        None => Ok(()),
    }
}

/// One method per rule, as in the model's parser.
struct Parser<'a> {
    cursor: Cursor<'a>,
    model: &'a Model,
    whole: u32,
}

impl Parser<'_> {
    /// A node word, its bounds, its value and its body.
    fn node(&mut self, number: usize) -> Result<Node, Refusal> {
        let (model, whole) = (self.model, self.whole);
        let read = |word| words::node(word).filter(|&location| location < model.locations.len());
        let (location, place) = self.cursor.take(words::NODE, read)?;
        if number == MAX_NODES {
            return Err(Refusal { number: 13, place });
        }
        let bounds = self
            .cursor
            .take_bounds(|word| words::bound(word, model.clocks))?;
        let read = |word| words::value(word, whole);
        let (value, value_place) = self.cursor.take(words::VALUE, read)?;
        let body = self.body(&model.locations[location])?;
        Ok(Node {
            location,
            bounds,
            value,
            value_place,
            body,
        })
    }

    /// Nothing at a target; elsewhere a cut, or one row per action, none if there are no actions.
    fn body(&mut self, at: &Location) -> Result<Body, Refusal> {
        if at.target {
            return Ok(Body::Rows(Vec::new()));
        }
        if self.cursor.is_at(words::CUT) {
            return Ok(Body::Cut(self.cut()?));
        }
        let rows = at.actions.iter().map(|action| self.row(action));
        Ok(Body::Rows(rows.collect::<Result<_, _>>()?))
    }

    /// One D and two B.
    fn cut(&mut self) -> Result<Cut, Refusal> {
        let clocks = self.model.clocks;
        let (bound, _) = self
            .cursor
            .take(words::CUT, |word| words::cut(word, clocks))?;
        let first = self.node_ref(words::SUCCESSOR)?;
        let second = self.node_ref(words::SUCCESSOR)?;
        Ok(Cut {
            bound,
            parts: [first, second],
        })
    }

    /// One A, or one B per edge.
    fn row(&mut self, action: &Action) -> Result<Row, Refusal> {
        if self.cursor.is_at(words::BLOCKED) {
            let ((), place) = self.cursor.take(words::BLOCKED, words::blocked)?;
            return Ok(Row::Blocked { place });
        }
        let successors = action.edges.iter().map(|_| self.node_ref(words::SUCCESSOR));
        Ok(Row::Successors(successors.collect::<Result<_, _>>()?))
    }

    fn node_ref(&mut self, kind: u32) -> Result<NodeRef, Refusal> {
        let (node, place) = self.cursor.take(kind, words::node_number)?;
        Ok(NodeRef { node, place })
    }
}
