//! What drafts are drawn with: models, rounds, and how many words are lent.

use crate::garbage::garbage_model;
use crate::models::{self, Size};
use crate::mutate::mutate;
use crate::random::Random;
use crate::reading::Bound;
use crate::{spell, worked};

/// The numbers of rounds at which something changes.
pub const ROUNDS: [u64; 8] = [0, 1, 2, 10, 999, 1000, 1001, u64::MAX];

/// Models at the card's limits, and the worked ones.
pub fn directed() -> Vec<Vec<u32>> {
    let mut models: Vec<Vec<u32>> = worked::all().into_iter().map(|case| case.model).collect();
    models.push(slow(65_535));
    for last in 62..=65 {
        models.push(ticking(1, Some(last), 1));
    }
    models.extend([64, 65, 66, 4095].map(|step| ticking(step, None, 1)));
    for d in 4094..=4095 {
        for more in 0..=2 {
            models.push(still([at_most(1, 0, d), at_most(2, 1, more)]));
            models.push(still([at_most(0, 1, -d), at_most(1, 2, -more)]));
            models.push(still([at_most(1, 2, d), at_most(2, 0, more)]));
        }
    }
    models.extend(damaged());
    models.sort();
    models.dedup();
    models
}

/// Models that are refused with 3, 4 and 5.
fn damaged() -> [Vec<u32>; 4] {
    let mut many = vec![spell::head(1, 10)];
    many.extend([spell::location(false); 17]);
    let mut other = worked::MODEL;
    other[5] = spell::edge(0, 1, 8);
    let mut nowhere = worked::MODEL;
    nowhere[6] = spell::edge(0, 3, 1);
    let mut late = worked::MODEL.to_vec();
    late.push(spell::ACTION);
    [many, other.to_vec(), nowhere.to_vec(), late]
}

/// A model, mostly a good one.
pub fn model(random: &mut Random) -> Vec<u32> {
    match random.below(24) {
        0..=2 => any_ticking(random),
        3 | 4 => far(random),
        5 => slow(random.between(2000, 65_535) as u32),
        6 => garbage_model(random),
        7..=10 => {
            let mut words = sized(random);
            mutate(random, &mut words);
            words
        }
        _ => sized(random),
    }
}

/// As models are drawn for judging, but more often walled.
fn sized(random: &mut Random) -> Vec<u32> {
    let mut size = Size::random(random);
    size.walled |= random.one_in(3);
    models::model(random, &size)
}

/// A model that is small enough for the exhaustive player.
pub fn small_model(random: &mut Random) -> Vec<u32> {
    let size = Size::for_player(random);
    models::model(random, &size)
}

/// Some numbers of rounds, the smallest first.
pub fn rounds(random: &mut Random) -> Vec<u64> {
    let count = random.pick(&[1, 2, 2, 3]);
    let mut rounds: Vec<u64> = (0..count).map(|_| any_rounds(random)).collect();
    rounds.sort_unstable();
    rounds
}

fn any_rounds(random: &mut Random) -> u64 {
    match random.below(4) {
        0 => random.below(70) as u64,
        1 => {
            let any = random.draw();
            random.pick(&[3, 30, 300, 1 << 16, 1 << 32, any])
        }
        _ => random.pick(&ROUNDS),
    }
}

/// How many words are lent for a draft of this length: exactly enough, too few, or more.
pub fn lent(random: &mut Random, length: usize) -> [usize; 4] {
    let more = length + random.pick(&[1, 1, 2, 100]);
    let fewer = random.below(length);
    [length, length - 1, 0, random.pick(&[more, fewer])]
}

fn at_most(i: usize, j: usize, d: i32) -> u32 {
    let strict = false;
    spell::bound(&Bound { i, j, d, strict })
}

/// Clock 2 is reset every so many units, and clock 1 runs on, up to this number if there is one. One edge
/// in two leads to this location; location 1 is a target.
fn ticking(step: i32, last: Option<i32>, other: usize) -> Vec<u32> {
    let mut words = vec![
        spell::head(2, 2),
        spell::location(false),
        at_most(2, 0, step),
        spell::ACTION,
        at_most(0, 2, -step),
    ];
    words.extend(last.map(|last| at_most(1, 0, last)));
    words.extend([spell::edge(0b10, 0, 1), spell::edge(0b11, other, 1)]);
    words.extend([spell::location(true), spell::start(0)]);
    words.extend([at_most(1, 0, 0), at_most(2, 0, 0)]);
    words
}

/// About 64 nodes, or fewer up to 4,095 and beyond; sometimes with a way back to the start.
fn any_ticking(random: &mut Random) -> Vec<u32> {
    let any = random.between(1, 200);
    let step = random.pick(&[1, 1, 1, 3, 63, 64, 65, 66, 1000, 2048, 4095, any]);
    let up_to = (step * random.between(61, 66)).min(4095);
    let last = random.pick(&[None, Some(up_to)]);
    let other = random.pick(&[0, 1]);
    let mut words = ticking(step, last, other);
    if random.one_in(3) {
        let end = words.len() - 4;
        words.splice(end..end, [spell::ACTION, spell::edge(0b11, 0, 2)]);
    }
    words
}

/// Two clocks and no action, with these bounds at the start.
fn still(bounds: [u32; 2]) -> Vec<u32> {
    let mut words = vec![spell::head(2, 1), spell::location(false), spell::start(0)];
    words.extend(bounds);
    words
}

/// Values that still fall after 1,000 rounds: all but one of D goes round.
fn slow(denominator: u32) -> Vec<u32> {
    vec![
        spell::head(1, denominator),
        spell::location(false),
        spell::ACTION,
        spell::edge(1, 0, denominator - 1),
        spell::edge(1, 1, 1),
        spell::location(false),
        spell::start(0),
        at_most(1, 0, 0),
    ]
}

/// Two clocks or three, about 4,095 apart from 0 or from one another, at the start or behind an edge.
fn far(random: &mut Random) -> Vec<u32> {
    let clocks = random.pick(&[2, 3]);
    let (first, second) = (1 + random.below(clocks), random.between(-2, 2));
    let next = 1 + first % clocks;
    let near = random.between(4093, 4095);
    let bounds = match random.below(3) {
        0 => [at_most(first, 0, near), at_most(next, first, second)],
        1 => [at_most(0, first, -near), at_most(first, next, second)],
        _ => [at_most(first, next, near), at_most(next, 0, second)],
    };
    let mut words = vec![spell::head(clocks, 1), spell::location(random.one_in(4))];
    if random.one_in(2) {
        words.push(spell::ACTION);
        if random.one_in(2) {
            words.push(at_most(0, next, -near));
        }
        let resets = random.word() & ((1 << clocks) - 1);
        words.push(spell::edge(resets, 1, 1));
    }
    words.extend([spell::location(random.one_in(2)), spell::start(0)]);
    words.extend(bounds);
    words
}
