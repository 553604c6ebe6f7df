//! Histories from a fresh board: lists of submissions with good tables and bad ones.

use super::board::{Board, History, Submission};
use super::fractions::{bad_claim, claim, fraction};
use crate::boundaries::Pair;
use crate::explore::explore;
use crate::garbage::{garbage_model, garbage_table};
use crate::models::{self, Size};
use crate::mutate::mutate;
use crate::plan::small_pairs;
use crate::random::Random;
use crate::reading::{parse_model, Slot};

/// From 20 to 130 submissions: half of the histories are long enough to spend the allowance.
pub fn history(random: &mut Random) -> History {
    let tables = tables(random);
    let habits = Habits::random(random);
    let shortest = random.pick(&[20, 110]);
    let length = random.between(shortest, 130);
    let submissions = (0..length).map(|_| habits.submission(random, &tables));
    History {
        submissions: submissions.collect(),
        start: fresh(random),
    }
}

/// A fresh board; now and then its vacant slots have something in the fields that are not read.
fn fresh(random: &mut Random) -> Board {
    let mut board = Board::fresh();
    if random.one_in(4) {
        board.slots.fill_with(|| vacant(random));
    }
    board
}

/// A vacant slot with anything in its other fields.
pub fn vacant(random: &mut Random) -> Slot {
    let (b, whole) = fraction(random);
    Slot {
        held: false,
        team: random.pick(&[0, 3, 7, 8, u32::MAX]),
        b: random.pick(&[b, 0, u32::MAX]),
        whole: random.pick(&[whole, 0, 1 << 28, u32::MAX]),
    }
}

/// What the teams of one history do.
pub struct Habits {
    /// Teams from 0 up to this many take part. Team 0 has slots 0 and 1, team 1 has 2 and 3, and so on.
    pub teams: usize,
    /// One submission in so many is for any slot in place of one of the team's two.
    pub visits: usize,
    /// One in so many has a team or a slot out of range.
    pub strays: usize,
    /// One in so many has a table drawn for the history in place of one of four words.
    pub drawn: usize,
}

impl Habits {
    fn random(random: &mut Random) -> Habits {
        Habits {
            teams: random.pick(&[1, 2, 5, 8, 8, 8]),
            visits: random.pick(&[2, 8, 40]),
            strays: random.pick(&[10, 40, 200]),
            drawn: random.pick(&[2, 3, 10]),
        }
    }

    pub fn submission(&self, random: &mut Random, tables: &[Pair]) -> Submission {
        let mut team = random.below(self.teams) as u32;
        let mut slot = if random.one_in(self.visits) {
            random.below(16) as u32
        } else {
            2 * team + random.below(2) as u32
        };
        if random.one_in(self.strays) {
            match random.below(5) {
                0 | 1 => team = out_of_range(random, 8),
                2 | 3 => slot = out_of_range(random, 16),
                _ => (team, slot) = (out_of_range(random, 8), out_of_range(random, 16)),
            }
        }
        let (model, table) = self.pair(random, tables);
        Submission::new(team, slot, model, table)
    }

    /// Mostly a good one.
    fn pair(&self, random: &mut Random, tables: &[Pair]) -> Pair {
        if !tables.is_empty() && random.one_in(self.drawn) {
            return tables[random.below(tables.len())].clone();
        }
        let fraction = fraction(random);
        if random.one_in(6) {
            bad_claim(random, fraction)
        } else {
            claim(fraction)
        }
    }
}

/// A number from `end` on; also one whose low bits are in range.
fn out_of_range(random: &mut Random, end: u32) -> u32 {
    random.pick(&[end, end + 1, 1 << 8, 1 << 16 | 1, 1 << 31, u32::MAX])
}

/// Models with explored tables, near ones and faulty ones, and words without a plan.
fn tables(random: &mut Random) -> Vec<Pair> {
    let mut pairs = small_pairs(random);
    let size = Size::random(random);
    let words = models::model(random, &size);
    if let Ok(model) = parse_model(&words) {
        let table = explore(random, &model).words();
        let mut faulty = table.clone();
        mutate(random, &mut faulty);
        let mut model = words.clone();
        mutate(random, &mut model);
        pairs.push((words.clone(), faulty));
        pairs.push((model, table.clone()));
        pairs.push((words, table));
    }
    pairs.push((garbage_model(random), garbage_table(random)));
    pairs
}
