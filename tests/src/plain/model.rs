//! Reading a model: refusals 1 to 6.

use super::few::Few;
use super::zone::Zone;
use super::{demand, Refusal};

const NOTHING: u32 = 0;
const HEAD: u32 = 1;
const LOCATION: u32 = 2;
const ACTION: u32 = 3;
const EDGE: u32 = 4;
const BOUND: u32 = 5;
const START: u32 = 6;

/// By the last word that is no bound: a bit for each other kind that may follow.
const FOLLOWS: [u32; 7] = [
    1 << HEAD,
    1 << LOCATION,
    1 << LOCATION | 1 << ACTION | 1 << START,
    1 << EDGE,
    1 << LOCATION | 1 << ACTION | 1 << EDGE | 1 << START,
    0,
    0,
];

pub struct Model {
    pub clocks: u32,
    /// D.
    pub denominator: u32,
    pub locations: Few<Location, 16>,
    pub actions: Few<Action, 32>,
    pub edges: Few<Edge, 128>,
    pub start: Start,
}

/// The actions of a location, and the edges of an action, are those from `first` up to `end`.
#[derive(Clone, Copy)]
pub struct Location {
    pub target: bool,
    pub invariant: Zone,
    /// Whether the invariant has any bound.
    pub bounded: bool,
    pub first: usize,
    pub end: usize,
}

#[derive(Clone, Copy)]
pub struct Action {
    pub guard: Zone,
    pub first: usize,
    pub end: usize,
}

#[derive(Clone, Copy)]
pub struct Edge {
    word: u32,
    place: usize,
}

pub struct Start {
    pub location: usize,
    place: usize,
    /// The start valuations, tightened.
    pub zone: Zone,
}

impl Edge {
    pub fn resets(&self) -> u32 {
        self.word >> 20 & 15
    }

    pub fn location(&self) -> usize {
        (self.word >> 16 & 15) as usize
    }

    pub fn weight(&self) -> u32 {
        self.word & 0xFFFF
    }
}

impl Model {
    pub fn new() -> Model {
        Model {
            clocks: 0,
            denominator: 0,
            locations: Few::new(),
            actions: Few::new(),
            edges: Few::new(),
            start: Start {
                location: 0,
                place: 0,
                zone: Zone::ALL,
            },
        }
    }

    /// Fills in a new model from its words.
    pub fn read(&mut self, words: &[u32]) -> Result<(), Refusal> {
        let mut opener = NOTHING;
        let mut place = 0;
        while place < words.len() {
            let word = words[place];
            let kind = word >> 28;
            demand(FOLLOWS[opener as usize] >> kind & 1 == 1, 1, place)?;
            demand(self.good_fields(word), 2, place)?;
            demand(self.has_room(kind), 3, place)?;
            let action_ends = opener == EDGE && kind != EDGE;
            demand(!action_ends || self.weights_add_up(), 4, place)?;
            self.add(word, place);
            place = self.take_bounds(kind, words, place + 1)?;
            opener = kind;
        }
        demand(opener == START, 1, words.len())?;
        self.check_whole()
    }

    /// The bounds behind a word of this kind, if it may have some; hands back the place behind them.
    fn take_bounds(&mut self, opener: u32, words: &[u32], place: usize) -> Result<usize, Refusal> {
        let zone = match opener {
            LOCATION => {
                let location = self.locations.newest();
                location.bounded = words.get(place).is_some_and(|next| next >> 28 == BOUND);
                &mut location.invariant
            }
            ACTION => &mut self.actions.newest().guard,
            START => &mut self.start.zone,
            _ => return Ok(place),
        };
        zone.take_bounds(self.clocks, opener != START, words, place, 2)
    }

    fn good_fields(&self, word: u32) -> bool {
        match word >> 28 {
            HEAD => {
                let (edition, clocks) = (word >> 24 & 15, word >> 20 & 15);
                let spare = word & 0x000F_0000;
                edition == 1 && (1..=4).contains(&clocks) && spare == 0 && word & 0xFFFF != 0
            }
            LOCATION => word & 0x0FFF_FFFE == 0,
            ACTION => word & 0x0FFF_FFFF == 0,
            EDGE => {
                let (spare, resets, weight) = (word >> 24 & 15, word >> 20 & 15, word & 0xFFFF);
                let in_range = weight != 0 && weight <= self.denominator;
                spare == 0 && resets >> self.clocks == 0 && in_range
            }
            _ => word & 0x0FFF_FFF0 == 0 && ((word & 15) as usize) < self.locations.len(),
        }
    }

    fn has_room(&self, kind: u32) -> bool {
        match kind {
            LOCATION => !self.locations.is_full(),
            ACTION => !self.actions.is_full(),
            EDGE => self.last_edges().len() < 4,
            _ => true,
        }
    }

    /// The edges of the last action.
    fn last_edges(&self) -> &[Edge] {
        let first = self.actions.last().map_or(0, |action| action.first);
        &self.edges[first..]
    }

    fn weights_add_up(&self) -> bool {
        let weights = self.last_edges().iter().map(Edge::weight);
        weights.sum::<u32>() == self.denominator
    }

    fn add(&mut self, word: u32, place: usize) {
        let (actions, edges) = (self.actions.len(), self.edges.len());
        match word >> 28 {
            HEAD => (self.clocks, self.denominator) = (word >> 20 & 15, word & 0xFFFF),
            LOCATION => self.locations.push(Location {
                target: word & 1 == 1,
                invariant: Zone::ALL,
                bounded: false,
                first: actions,
                end: actions,
            }),
            ACTION => {
                self.locations.newest().end += 1;
                self.actions.push(Action {
                    guard: Zone::ALL,
                    first: edges,
                    end: edges,
                });
            }
            EDGE => {
                self.actions.newest().end += 1;
                self.edges.push(Edge { word, place });
            }
            _ => (self.start.location, self.start.place) = ((word & 15) as usize, place),
        }
    }

    fn check_whole(&mut self) -> Result<(), Refusal> {
        for edge in self.edges.iter() {
            demand(edge.location() < self.locations.len(), 5, edge.place)?;
        }
        let invariant = &self.locations[self.start.location].invariant;
        self.start.zone.meet(invariant);
        self.start.zone.tighten(self.clocks);
        demand(!self.start.zone.is_empty(), 6, self.start.place)
    }
}
