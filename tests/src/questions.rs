//! Random questions about zones.

use crate::garbage::plausible_word;
use crate::models::diagonal;
use crate::random::Random;
use crate::reading::Bound;
use crate::spell;

/// C and two lists of bound words.
pub struct Question {
    pub clocks: u32,
    pub first: Vec<u32>,
    pub second: Vec<u32>,
}

/// C mostly 1 to 4, constants mostly small; one question in six has a bad number or word.
pub fn question(random: &mut Random) -> Question {
    let clocks = random.pick(&[1, 2, 2, 3, 3, 4]);
    let constant = random.pick(&[1, 1, 2, 3, 5, 40, 4095]);
    let strict = random.pick(&[1, 3, 3, 6]);
    let first = zone(random, clocks, constant, strict);
    let second = if random.one_in(3) {
        near(random, &first)
    } else {
        zone(random, clocks, constant, strict)
    };
    let mut question = Question {
        clocks: clocks as u32,
        first: spell::bounds(&first),
        second: spell::bounds(&second),
    };
    if random.one_in(6) {
        spoil(random, &mut question);
    }
    question
}

/// Up to two bounds per clock, more upper ones than lower ones.
fn zone(random: &mut Random, clocks: usize, constant: i32, strict: usize) -> Vec<Bound> {
    let count = random.below(2 * clocks + 2);
    (0..count)
        .map(|_| any_bound(random, clocks, constant, strict))
        .collect()
}

fn any_bound(random: &mut Random, clocks: usize, constant: i32, strict: usize) -> Bound {
    let clock = 1 + random.below(clocks);
    if clocks > 1 && random.one_in(3) {
        return diagonal(random, clocks, constant, strict);
    }
    let strict = random.one_in(strict);
    match random.below(6) {
        0 | 1 => Bound {
            i: 0,
            j: clock,
            d: random.between(-constant, 0),
            strict,
        },
        2 => Bound {
            i: 0,
            j: clock,
            d: random.between(-constant, constant),
            strict,
        },
        3 => Bound {
            i: clock,
            j: 0,
            d: random.between(-constant, constant),
            strict,
        },
        _ => Bound {
            i: clock,
            j: 0,
            d: random.between(0, constant),
            strict,
        },
    }
}

/// The same zone or almost: a bound moved by one, made strict or not, or dropped.
fn near(random: &mut Random, zone: &[Bound]) -> Vec<Bound> {
    let mut near = zone.to_vec();
    if near.is_empty() {
        return near;
    }
    let at = random.below(near.len());
    match random.below(4) {
        0 => near[at].strict = !near[at].strict,
        1 => near[at].d = (near[at].d + random.pick(&[-1, 1])).clamp(-4095, 4095),
        2 => drop(near.swap_remove(at)),
        _ => {}
    }
    near
}

/// A bad number of clocks, or bad words in one list or both.
fn spoil(random: &mut Random, question: &mut Question) {
    match random.below(4) {
        0 => question.clocks = random.below(7) as u32,
        1 => question.clocks = random.pick(&[0, 5, 16, 257, 1 << 16 | 1, 1 << 31, u32::MAX]),
        2 => spoil_list(random, &mut question.first),
        _ => spoil_list(random, &mut question.second),
    }
    if random.one_in(6) {
        spoil_list(random, &mut question.second);
    }
}

fn spoil_list(random: &mut Random, words: &mut Vec<u32>) {
    if words.is_empty() || random.one_in(3) {
        let place = random.below(words.len() + 1);
        words.insert(place, plausible_word(random));
    } else {
        let place = random.below(words.len());
        words[place] ^= 1 << random.below(32);
    }
}
