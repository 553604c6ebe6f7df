//! The model as a tree, and the parser that builds it.
//!
//! Reads "Words" (what may follow what in a model) and "Reading a model" in "The four calls and
//! their refusals" of document 01: refusals 1 to 6.

use super::cursor::Cursor;
use super::words::{self, Bound};
use super::zones::Zone;
use super::Refusal;

const MAX_LOCATIONS: usize = 16;
const MAX_ACTIONS: usize = 32;
const MAX_EDGES: usize = 4;

#[derive(Clone, Debug, PartialEq, Eq)]
pub struct Model {
    pub clocks: usize,
    /// D: the weights of every action add to it.
    pub denominator: u32,
    pub locations: Vec<Location>,
    pub start: Start,
}

#[derive(Clone, Debug, PartialEq, Eq)]
pub struct Location {
    pub target: bool,
    pub invariant: Vec<Bound>,
    pub actions: Vec<Action>,
}

#[derive(Clone, Debug, PartialEq, Eq)]
pub struct Action {
    pub guard: Vec<Bound>,
    pub edges: Vec<Edge>,
}

#[derive(Clone, Copy, Debug, PartialEq, Eq)]
pub struct Edge {
    /// Bit `c - 1` is set where clock `c` is reset.
    pub resets: u32,
    pub location: usize,
    pub weight: u32,
    /// Index of the edge's word in the model.
    pub place: usize,
}

#[derive(Clone, Debug, PartialEq, Eq)]
pub struct Start {
    pub location: usize,
    pub bounds: Vec<Bound>,
    /// Index of the start word in the model.
    pub place: usize,
}

impl Model {
    /// All actions, in file order.
    pub fn actions(&self) -> impl Iterator<Item = &Action> {
        self.locations.iter().flat_map(|location| &location.actions)
    }

    /// All edges, in file order.
    pub fn edges(&self) -> impl Iterator<Item = &Edge> {
        self.actions().flat_map(|action| &action.edges)
    }

    /// The valuations that a start state may have: the start bounds and the invariant hold.
    pub fn start_zone(&self) -> Zone {
        let invariant = &self.locations[self.start.location].invariant;
        Zone::of(self.clocks, self.start.bounds.iter().chain(invariant))
    }
}

/// The model that the words spell, or the first refusal (1 to 6).
pub fn parse_model(words: &[u32]) -> Result<Model, Refusal> {
    let mut parser = Parser::after_head(words)?;
    let mut locations = Vec::new();
    while locations.is_empty() || parser.cursor.is_at(words::LOCATION) {
        locations.push(parser.location(locations.len())?);
    }
    let start = parser.start(locations.len())?;
    parser.cursor.end()?;
    let Parser {
        clocks,
        denominator,
        ..
    } = parser;
    let model = Model {
        clocks,
        denominator,
        locations,
        start,
    };
    check_whole(&model)?;
    Ok(model)
}

/// What is asked once the whole file is known to be well formed: 5 and then 6.
fn check_whole(model: &Model) -> Result<(), Refusal> {
    let count = model.locations.len();
    if let Some(edge) = model.edges().find(|edge| edge.location >= count) {
        return Err(Refusal {
            number: 5,
            place: edge.place,
        });
    }
    if model.start_zone().is_empty() {
        return Err(Refusal {
            number: 6,
            place: model.start.place,
        });
    }
    Ok(())
}

/// One method per rule. A rule that ends at a word it has no use for leaves that word to the rule
/// that called it, so a kind that nobody wants is refused where it stands.
struct Parser<'a> {
    cursor: Cursor<'a>,
    clocks: usize,
    denominator: u32,
    /// Actions begun so far, over all locations.
    actions: usize,
    /// Whether the weights of the last action fail to add to D. The fault is that of the word after
    /// its last edge, which may have one with a lower number, so it waits for `settle`.
    weights_off: bool,
}

impl<'a> Parser<'a> {
    fn after_head(words: &'a [u32]) -> Result<Self, Refusal> {
        let mut cursor = Cursor::over_model(words);
        let ((clocks, denominator), _) = cursor.take(words::HEAD, words::head)?;
        Ok(Parser {
            cursor,
            clocks,
            denominator,
            actions: 0,
            weights_off: false,
        })
    }

    /// A location word, its invariant and its actions.
    fn location(&mut self, number: usize) -> Result<Location, Refusal> {
        let (target, place) = self.cursor.take(words::LOCATION, words::location)?;
        if number == MAX_LOCATIONS {
            return Err(Refusal { number: 3, place });
        }
        self.settle(place)?;
        let invariant = self.one_clock_bounds()?;
        let mut actions = Vec::new();
        while self.cursor.is_at(words::ACTION) {
            actions.push(self.action()?);
        }
        Ok(Location {
            target,
            invariant,
            actions,
        })
    }

    /// An action word, its guard and its edges, one or more.
    fn action(&mut self) -> Result<Action, Refusal> {
        let ((), place) = self.cursor.take(words::ACTION, words::action)?;
        if self.actions == MAX_ACTIONS {
            return Err(Refusal { number: 3, place });
        }
        self.settle(place)?;
        self.actions += 1;
        let guard = self.one_clock_bounds()?;
        let mut edges = Vec::with_capacity(MAX_EDGES);
        while edges.is_empty() || self.cursor.is_at(words::EDGE) {
            edges.push(self.edge(edges.len())?);
        }
        let sum: u32 = edges.iter().map(|edge| edge.weight).sum();
        self.weights_off = sum != self.denominator;
        Ok(Action { guard, edges })
    }

    fn edge(&mut self, number: usize) -> Result<Edge, Refusal> {
        let (clocks, denominator) = (self.clocks, self.denominator);
        let read = |word| words::edge(word, clocks, denominator);
        let ((resets, location, weight), place) = self.cursor.take(words::EDGE, read)?;
        if number == MAX_EDGES {
            return Err(Refusal { number: 3, place });
        }
        Ok(Edge {
            resets,
            location,
            weight,
            place,
        })
    }

    /// The start word and its bounds, which may be between two clocks.
    fn start(&mut self, locations: usize) -> Result<Start, Refusal> {
        let read = |word| words::start(word).filter(|&location| location < locations);
        let (location, place) = self.cursor.take(words::START, read)?;
        self.settle(place)?;
        let clocks = self.clocks;
        let bounds = self.cursor.take_bounds(|word| words::bound(word, clocks))?;
        Ok(Start {
            location,
            bounds,
            place,
        })
    }

    fn one_clock_bounds(&mut self) -> Result<Vec<Bound>, Refusal> {
        let clocks = self.clocks;
        self.cursor
            .take_bounds(|word| words::bound(word, clocks).filter(Bound::is_on_one_clock))
    }

    /// Called at a word in which nothing else is wrong: the weights of the action before it, if
    /// there is one, must add to D.
    fn settle(&self, place: usize) -> Result<(), Refusal> {
        if self.weights_off {
            return Err(Refusal { number: 4, place });
        }
        Ok(())
    }
}
