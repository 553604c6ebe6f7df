//! Drafting a table, document 02, card 5: refusals 58 to 60.

use super::few::Few;
use super::model::{Action, Model};
use super::zone::{Zone, NEVER};
use super::{demand, Refusal};

const WHOLE: u32 = 1_000_000;
const MOST_ROUNDS: u64 = 1_000;

/// Drafts a table into the first of the lent words; hands back how many they are.
pub fn draft(model_words: &[u32], rounds: u64, lent: &mut [u32]) -> Result<usize, Refusal> {
    let mut model = Model::new();
    model.read(model_words)?;
    let mut draft = Draft::new();
    draft.explore(&model)?;
    // No round changes the length.
    let room = lent.get_mut(..draft.length);
    let Some(room) = room else {
        return Err(Refusal {
            number: 60,
            place: 0,
        });
    };
    let values = draft.values(u64::from(model.denominator), rounds.min(MOST_ROUNDS));
    draft.write(model.clocks, &values, room);
    Ok(draft.length)
}

/// What exploring finds, and the words that it comes to.
struct Draft {
    nodes: Few<Node, 64>,
    /// A node has at most the 32 actions of a model, and these at most 4 edges each.
    rows: Few<Row, { 64 * 32 }>,
    successors: Few<Successor, { 64 * 32 * 4 }>,
    length: usize,
}

/// The rows of a node, and the successors of a row, are those from `first` up to `end`.
#[derive(Clone, Copy)]
struct Node {
    location: usize,
    target: bool,
    /// Tightened and in the invariant, or `Zone::EMPTY`.
    zone: Zone,
    first: usize,
    end: usize,
}

/// A blocked row has no successors and adds up to 0, the value of a node without rows.
#[derive(Clone, Copy)]
struct Row {
    /// What the edges that can land outside add to the sum.
    missed: u64,
    first: u16,
    end: u16,
}

#[derive(Clone, Copy)]
struct Successor {
    /// 0 if the edge can land outside: then it adds nothing for the node.
    weight: u16,
    node: u8,
}

impl Draft {
    /// A head and a start node, so far.
    fn new() -> Draft {
        Draft {
            nodes: Few::new(),
            rows: Few::new(),
            successors: Few::new(),
            length: 2,
        }
    }

    fn explore(&mut self, model: &Model) -> Result<(), Refusal> {
        self.node_for(model, model.start.location, &model.start.zone)?;
        let mut number = 0;
        while number < self.nodes.len() {
            self.expand(model, number)?;
            number += 1;
        }
        Ok(())
    }

    /// The number of the node with this zone, which is tightened or `Zone::EMPTY`; a new one if there
    /// is none.
    fn node_for(&mut self, model: &Model, location: usize, zone: &Zone) -> Result<u8, Refusal> {
        let same = |node: &Node| node.location == location && node.zone == *zone;
        if let Some(number) = self.nodes.iter().position(same) {
            return Ok(number as u8);
        }
        demand(!self.nodes.is_full(), 58, 0)?;
        let bounds = match *zone == Zone::EMPTY {
            true => Some(1),
            false => zone.count_bounds(model.clocks),
        };
        let Some(bounds) = bounds else {
            return Err(Refusal {
                number: 59,
                place: 0,
            });
        };
        self.length += 2 + bounds;
        self.nodes.push(Node {
            location,
            target: model.locations[location].target,
            zone: *zone,
            first: 0,
            end: 0,
        });
        Ok(self.nodes.len() as u8 - 1)
    }

    /// Adds the rows of a node.
    fn expand(&mut self, model: &Model, number: usize) -> Result<(), Refusal> {
        let node = self.nodes[number];
        if node.target {
            return Ok(());
        }
        let location = &model.locations[node.location];
        let empty = node.zone == Zone::EMPTY;
        let first = self.rows.len();
        let mut waited = node.zone;
        waited.delay();
        waited.meet(&location.invariant);
        for action in &model.actions[location.first..location.end] {
            let mut reach = waited;
            reach.meet(&action.guard);
            reach.tighten(model.clocks);
            if empty || reach.is_empty() {
                self.add_row(0, self.successors.len());
                self.length += 1;
            } else {
                self.row(model, action, &reach)?;
            }
        }
        let end = self.rows.len();
        let node = &mut self.nodes[number];
        (node.first, node.end) = (first, end);
        Ok(())
    }

    /// A row from a reach that is not empty.
    fn row(&mut self, model: &Model, action: &Action, reach: &Zone) -> Result<(), Refusal> {
        let first = self.successors.len();
        let mut missed_weight = 0;
        for edge in &model.edges[action.first..action.end] {
            let to = &model.locations[edge.location()];
            let missed = to.bounded && !reach.lands_inside(&to.invariant, edge.resets());
            let mut landed = reach.reset(model.clocks, edge.resets());
            let mut weight = edge.weight() as u16;
            if missed {
                landed.meet(&to.invariant);
                landed.tighten(model.clocks);
                if landed.is_empty() {
                    landed = Zone::EMPTY;
                }
                missed_weight += u64::from(weight);
                weight = 0;
            }
            let node = self.node_for(model, edge.location(), &landed)?;
            self.successors.push(Successor { weight, node });
        }
        self.length += self.successors.len() - first;
        self.add_row(missed_weight * u64::from(WHOLE), first);
        Ok(())
    }

    /// A row with the successors from this one on.
    fn add_row(&mut self, missed: u64, first: usize) {
        self.rows.push(Row {
            missed,
            first: first as u16,
            end: self.successors.len() as u16,
        });
    }

    /// The values after so many rounds. A round that changes nothing is the last that could.
    fn values(&self, denominator: u64, rounds: u64) -> [u64; 64] {
        let mut values = [u64::from(WHOLE); 64];
        for _ in 0..rounds {
            let mut next = values;
            for (node, value) in self.nodes.iter().zip(&mut next) {
                if !node.target {
                    *value = self.largest_sum(node, &values).div_ceil(denominator);
                }
            }
            if next == values {
                break;
            }
            values = next;
        }
        values
    }

    fn largest_sum(&self, node: &Node, values: &[u64; 64]) -> u64 {
        let mut largest = 0;
        for row in &self.rows[node.first..node.end] {
            let mut sum = row.missed;
            for successor in self.successors_of(row) {
                sum += u64::from(successor.weight) * values[usize::from(successor.node)];
            }
            largest = sum.max(largest);
        }
        largest
    }

    fn successors_of(&self, row: &Row) -> &[Successor] {
        &self.successors[usize::from(row.first)..usize::from(row.end)]
    }

    /// `room` has the table's length.
    fn write(&self, clocks: u32, values: &[u64; 64], room: &mut [u32]) {
        room[0] = 0x7000_0000 | WHOLE;
        let mut place = 1;
        for (node, &value) in self.nodes.iter().zip(values) {
            room[place] = 0x8000_0000 | (node.location as u32) << 24;
            place += 1;
            if node.zone == Zone::EMPTY {
                room[place] = NEVER;
                place += 1;
            } else {
                place = node.zone.write_bounds(clocks, room, place);
            }
            room[place] = 0x9000_0000 | value as u32;
            place += 1;
            for row in &self.rows[node.first..node.end] {
                place = self.write_row(row, room, place);
            }
        }
        room[place] = 0xC000_0000;
    }

    /// Hands back the place behind the row.
    fn write_row(&self, row: &Row, room: &mut [u32], mut place: usize) -> usize {
        let successors = self.successors_of(row);
        if successors.is_empty() {
            room[place] = 0xA000_0000;
            return place + 1;
        }
        for successor in successors {
            room[place] = 0xB000_0000 | u32::from(successor.node);
            place += 1;
        }
        place
    }
}

#[cfg(test)]
mod tests {
    use std::collections::BTreeMap;

    use super::super::judge;
    use super::draft;
    use crate::models::{self, Size};
    use crate::random::Random;
    use crate::{reading, spell};

    /// Document 01's timeline.
    const M: [u32; 11] = [
        0x1110000A, 0x20000000, 0x51001003, 0x30000000, 0x50100FFE, 0x40010009, 0x40020001,
        0x20000000, 0x20000001, 0x60000000, 0x51001000,
    ];

    /// No kind of a word that is drafted.
    const MARK: u32 = 0xEEEE_EEEE;

    /// No draft has more words: 64 nodes with 20 bounds and 128 successors.
    const ROOM: usize = 2 + 64 * (2 + 20 + 128);

    /// A number, or a refusal's number and place; and the lent words then.
    type Answer = (Result<usize, (u32, usize)>, Vec<u32>);

    fn by_plain(model: &[u32], rounds: u64, room: usize) -> Answer {
        let mut lent = vec![MARK; room];
        let answer = draft(model, rounds, &mut lent);
        (
            answer.map_err(|refusal| (refusal.number, refusal.place)),
            lent,
        )
    }

    fn by_reading(model: &[u32], rounds: u64, room: usize) -> Answer {
        let mut lent = vec![MARK; room];
        let answer = reading::draft(model, rounds, &mut lent);
        (
            answer.map_err(|refusal| (refusal.number, refusal.place)),
            lent,
        )
    }

    /// Both give the same in this room; hands it back.
    fn agreed(model: &[u32], rounds: u64, room: usize) -> Answer {
        let answer = by_plain(model, rounds, room);
        let hex = spell::hex(model);
        assert!(
            answer == by_reading(model, rounds, room),
            "{rounds} rounds, room for {room}: {hex}"
        );
        answer
    }

    #[test]
    fn the_worked_timeline() {
        for (rounds, value) in [
            (0, 1_000_000),
            (1, 1_000_000),
            (2, 100_000),
            (1001, 100_000),
        ] {
            let (answer, lent) = agreed(&M, rounds, 20);
            assert_eq!((answer, lent[4]), (Ok(16), 0x90000000 | value));
            assert!(judge(&M, &lent[..16]).is_ok_and(|judged| judged.value == value));
        }
    }

    /// A room that is too small in some way, exact, or larger.
    fn random_room(random: &mut Random, length: usize) -> usize {
        match random.below(6) {
            0 => 0,
            1 => random.below(length),
            2 => length - 1,
            3 => length,
            4 => length + 1,
            _ => length + random.below(100),
        }
    }

    #[test]
    fn as_the_reading_drafts() {
        let mut random = Random::new(505);
        let mut answers = BTreeMap::new();
        for _ in 0..6_000 {
            let size = Size::random(&mut random);
            let model = models::model(&mut random, &size);
            let mut ask = |rounds, room| {
                let (answer, _) = agreed(&model, rounds, room);
                let number = answer.map_or_else(|(number, _)| number, |_| 0);
                *answers.entry(number).or_insert(0) += 1;
                answer
            };
            let rounds = random.pick(&[0, 1, 2, 3, 4, 7, 30, 999, 1000, 1001, u64::MAX]);
            match ask(rounds, ROOM) {
                Ok(length) => {
                    let rooms = [length - 1, length, random_room(&mut random, length)];
                    for room in rooms {
                        assert_eq!(ask(rounds, room).is_ok(), room >= length);
                    }
                }
                Err(_) => {
                    let room = random.below(40);
                    assert!(ask(rounds, room).is_err());
                }
            }
        }
        let often = [0, 6, 58, 59, 60].map(|number| answers.get(&number).is_some_and(|&n| n > 100));
        assert_eq!(often, [true; 5], "{answers:?}");
    }

    /// Clock `i` minus clock `j` at most `d`.
    fn at_most(i: usize, j: usize, d: i32) -> u32 {
        let strict = false;
        spell::bound(&reading::Bound { i, j, d, strict })
    }

    /// A model whose values still fall after 1,000 rounds.
    #[test]
    fn around_1000_rounds() {
        let again = [spell::edge(1, 0, 65_534), spell::edge(1, 1, 1)];
        let mut model = vec![
            spell::head(1, 65_535),
            spell::location(false),
            spell::ACTION,
        ];
        model.extend(again);
        model.extend([spell::location(false), spell::start(0), at_most(1, 0, 0)]);
        let after = |rounds| agreed(&model, rounds, ROOM).1[4];
        assert!(after(999) > after(1000));
        for rounds in [1001, 1 << 32, u64::MAX] {
            assert_eq!(after(rounds), after(1000));
        }
    }

    /// Start zones with a bound of 4,095 and one just beyond it, either way.
    #[test]
    fn around_4095() {
        let answer = |bounds: [u32; 2]| {
            let mut model = vec![spell::head(2, 1), spell::location(true), spell::start(0)];
            model.extend(bounds);
            agreed(&model, 0, ROOM).0
        };
        for d in 0..=2 {
            let beyond = (d > 0).then_some((59, 0));
            let upper = answer([at_most(1, 0, 4095), at_most(2, 1, d)]);
            assert_eq!(upper.err(), beyond);
            let lower = answer([at_most(0, 1, -4095), at_most(1, 2, -d)]);
            assert_eq!(lower.err(), beyond);
        }
    }

    /// Clock 2 is reset every `step` by each of so many actions, with four edges each, as long as clock 1
    /// reads at most `last` then.
    fn ticking(step: i32, last: i32, actions: usize) -> Vec<u32> {
        let guard = [at_most(0, 2, -step), at_most(1, 0, last)];
        let mut model = vec![
            spell::head(2, 4),
            spell::location(false),
            at_most(2, 0, step),
        ];
        for _ in 0..actions {
            model.push(spell::ACTION);
            model.extend(guard);
            model.extend([spell::edge(0b10, 0, 1); 4]);
        }
        model.extend([spell::start(0), at_most(1, 0, 0), at_most(2, 0, 0)]);
        model
    }

    /// The largest number of actions and edges, at the largest number of nodes; the last node has blocked
    /// rows.
    #[test]
    fn the_most_rows() {
        for rounds in [0, 1, 40, 63, 64, 65, 1000] {
            let (answer, _) = agreed(&ticking(1, 63, 32), rounds, ROOM);
            assert_eq!(answer, Ok(2 + 64 * (2 + 6) + 63 * 128 + 32));
        }
    }

    #[test]
    fn around_the_64th_node() {
        for last in 61..=66 {
            let (answer, _) = agreed(&ticking(1, last, 1), 1000, ROOM);
            let refusal = answer.err().map(|(number, _)| number);
            assert_eq!(refusal, (last > 63).then_some(58));
        }
        for (step, number) in [(64, 58), (65, 58), (66, 59), (4095, 59)] {
            // Without the bound on clock 1.
            let mut free = ticking(step, 4095, 1);
            free.remove(5);
            let (answer, _) = agreed(&free, 0, ROOM);
            assert_eq!(answer, Err((number, 0)));
        }
    }
}
