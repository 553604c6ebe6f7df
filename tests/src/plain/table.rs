//! Reading a table against a model: refusals 11 to 14.

use super::few::Few;
use super::model::{Action, Model};
use super::zone::{clocks_of, good_fields, Zone};
use super::{demand, Refusal};

const HEAD: u32 = 7;
const NODE: u32 = 8;
const VALUE: u32 = 9;
pub const BLOCKED: u32 = 10;
const SUCCESSOR: u32 = 11;
const START_NODE: u32 = 12;
pub const CUT: u32 = 13;

pub struct Table {
    /// V.
    pub whole: u32,
    pub nodes: Few<Node, 64>,
    /// The start node, and the place of its word.
    pub start: usize,
    pub start_place: usize,
    /// The highest node number that a successor or the start has.
    highest: usize,
}

#[derive(Clone, Copy)]
pub struct Node {
    pub location: usize,
    pub value: u32,
    /// The rows, or the cut, stand behind this place.
    pub value_place: usize,
    pub zone: Zone,
}

impl Table {
    pub fn new() -> Table {
        Table {
            whole: 0,
            nodes: Few::new(),
            start: 0,
            start_place: 0,
            highest: 0,
        }
    }

    /// Fills in a new table from its words.
    pub fn read(&mut self, model: &Model, words: &[u32]) -> Result<(), Refusal> {
        self.whole = fields(words, 0, HEAD)?;
        demand(self.whole != 0, 12, 0)?;
        let mut place = self.node(model, words, 1)?;
        while !is_at(words, place, START_NODE) {
            place = self.node(model, words, place)?;
        }
        (self.start, self.start_place) = (self.number(words, place, START_NODE)?, place);
        demand(place + 1 == words.len(), 11, place + 1)?;
        match self.highest < self.nodes.len() {
            true => Ok(()),
            false => Err(self.first_missing(words)),
        }
    }

    /// A node with its rows or its cut, from a place on; hands back the place behind it.
    fn node(&mut self, model: &Model, words: &[u32], place: usize) -> Result<usize, Refusal> {
        let location = fields(words, place, NODE)?;
        let number = (location >> 24) as usize;
        let there = location & 0x00FF_FFFF == 0 && number < model.locations.len();
        demand(there, 12, place)?;
        demand(!self.nodes.is_full(), 13, place)?;
        self.nodes.push(Node {
            location: number,
            value: 0,
            value_place: 0,
            zone: Zone::ALL,
        });
        let node = self.nodes.newest();
        let zone = &mut node.zone;
        let place = zone.take_bounds(model.clocks, false, words, place + 1, 12)?;
        (node.value, node.value_place) = (fields(words, place, VALUE)?, place);
        demand(node.value <= self.whole, 12, place)?;
        let location = &model.locations[number];
        let actions = &model.actions[location.first..location.end];
        match location.target {
            true => Ok(place + 1),
            false if is_at(words, place + 1, CUT) => self.cut(model.clocks, words, place + 1),
            false => self.rows(actions, words, place + 1),
        }
    }

    /// A cut bounds one clock from above, and two node numbers stand behind it.
    fn cut(&mut self, clocks: u32, words: &[u32], place: usize) -> Result<usize, Refusal> {
        let [_, j] = clocks_of(words[place]);
        demand(good_fields(words[place], clocks) && j == 0, 12, place)?;
        self.number(words, place + 1, SUCCESSOR)?;
        self.number(words, place + 2, SUCCESSOR)?;
        Ok(place + 3)
    }

    fn rows(
        &mut self,
        actions: &[Action],
        words: &[u32],
        mut place: usize,
    ) -> Result<usize, Refusal> {
        for action in actions {
            if is_at(words, place, BLOCKED) {
                demand(fields(words, place, BLOCKED)? == 0, 12, place)?;
                place += 1;
                continue;
            }
            for _ in action.first..action.end {
                self.number(words, place, SUCCESSOR)?;
                place += 1;
            }
        }
        Ok(place)
    }

    /// The node number of a successor or of the start.
    fn number(&mut self, words: &[u32], place: usize, kind: u32) -> Result<usize, Refusal> {
        let number = fields(words, place, kind)?;
        demand(number < 64, 12, place)?;
        self.highest = self.highest.max(number as usize);
        Ok(number as usize)
    }

    /// 14, at the first word whose node is not there.
    fn first_missing(&self, words: &[u32]) -> Refusal {
        let numbers = [SUCCESSOR, START_NODE];
        let missing =
            |&word: &u32| numbers.contains(&(word >> 28)) && number_of(word) >= self.nodes.len();
        let place = words.iter().position(missing);
        Refusal {
            number: 14,
            place: place.expect("some word has the highest number"),
        }
    }
}

fn is_at(words: &[u32], place: usize, kind: u32) -> bool {
    place < words.len() && words[place] >> 28 == kind
}

/// The bits below the kind, which must be this one.
fn fields(words: &[u32], place: usize, kind: u32) -> Result<u32, Refusal> {
    demand(is_at(words, place, kind), 11, place)?;
    Ok(words[place] & 0x0FFF_FFFF)
}

/// The node number of a good successor.
pub fn number_of(word: u32) -> usize {
    (word & 63) as usize
}
