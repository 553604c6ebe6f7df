//! Random small models, as words that obey every rule of a model except that a start state may be
//! lacking (refusal 6).

use crate::random::Random;
use crate::reading::{read_model, Bound};
use crate::spell;

/// How large a model is drawn.
#[derive(Clone, Copy)]
pub struct Size {
    pub clocks: usize,
    pub locations: usize,
    /// No bound has a larger `d`, or one below its negation.
    pub constant: i32,
    pub denominator: u32,
    /// One bound in so many is strict.
    pub strict: usize,
    /// Whether more locations have an invariant, targets among them, so that edges often land outside.
    pub walled: bool,
    /// Whether edges lead to later locations only, and mostly several of one action among few, so that
    /// not every run is a miss in the end.
    pub onward: bool,
}

impl Size {
    /// Mostly 1 to 3 clocks, few locations and constants up to 4.
    pub fn random(random: &mut Random) -> Size {
        Size {
            clocks: random.pick(&[1, 1, 1, 2, 2, 2, 2, 3, 3, 4]),
            locations: random.pick(&[1, 2, 3, 3, 4, 4, 5, 6, 9, 16]),
            constant: random.pick(&[1, 2, 2, 3, 3, 4, 4, 6, 25, 4095]),
            denominator: denominator(random),
            strict: random.pick(&[1, 3, 3, 3, 8]),
            walled: random.one_in(4),
            onward: random.one_in(4),
        }
    }

    /// What the exhaustive player can walk through: mostly 1 or 2 clocks, constants up to 3.
    pub fn for_player(random: &mut Random) -> Size {
        let clocks = random.pick(&[1, 1, 1, 1, 2, 2, 2, 2, 2, 2, 2, 3]);
        Size {
            clocks,
            locations: random.pick(&[2, 3, 3, 4, 5]),
            constant: if clocks == 3 {
                1
            } else {
                random.pick(&[1, 2, 2, 3])
            },
            denominator: denominator(random),
            strict: random.pick(&[1, 2, 3, 3]),
            walled: random.one_in(3),
            onward: random.one_in(2),
        }
    }
}

fn denominator(random: &mut Random) -> u32 {
    match random.below(8) {
        0 => 1,
        1 => random.pick(&[65_534, 65_535]),
        2 => random.between(1, 65_535) as u32,
        _ => random.between(2, 20) as u32,
    }
}

/// A model of this size. One without a start state is mostly drawn anew.
pub fn model(random: &mut Random, size: &Size) -> Vec<u32> {
    loop {
        let words = any_model(random, size);
        if read_model(&words).is_ok() || random.one_in(4) {
            return words;
        }
    }
}

fn any_model(random: &mut Random, size: &Size) -> Vec<u32> {
    let mut words = vec![spell::head(size.clocks, size.denominator)];
    let mut actions_left = 32;
    for number in 0..size.locations {
        let target = if number == 0 {
            random.one_in(12)
        } else {
            random.one_in(3)
        };
        words.push(spell::location(target));
        invariant(random, size, target, &mut words);
        let wanted = match size.onward {
            true => random.pick(&[0, 1, 1, 1, 1, 2]),
            false => random.pick(&[0, 1, 1, 1, 2, 2, 3]),
        };
        let wanted = if target && !random.one_in(4) {
            0
        } else {
            wanted
        };
        let first_next = if size.onward { number + 1 } else { 0 };
        if first_next == size.locations {
            continue;
        }
        for _ in 0..wanted.min(actions_left) {
            action(random, size, first_next, &mut words);
            actions_left -= 1;
        }
    }
    let location = if random.one_in(4) {
        random.below(size.locations)
    } else {
        0
    };
    words.push(spell::start(location));
    words.extend(spell::bounds(&zone_bounds(random, size)));
    words
}

/// Often an upper bound, sometimes a lower one; in a walled model mostly both or one of them.
fn invariant(random: &mut Random, size: &Size, target: bool, words: &mut Vec<u32>) {
    if target && !size.walled && !random.one_in(3) {
        return;
    }
    if random.one_in(2) || size.walled && random.one_in(2) {
        words.push(spell::bound(&upper(random, size)));
    }
    if random.one_in(4) || size.walled && random.one_in(4) {
        words.push(spell::bound(&lower(random, size)));
    }
    if random.one_in(12) {
        words.push(spell::bound(&odd(random, size)));
    }
}

/// An action whose edges lead to locations from `first_next` on.
fn action(random: &mut Random, size: &Size, first_next: usize, words: &mut Vec<u32>) {
    words.push(spell::ACTION);
    if size.walled && random.one_in(4) {
        words.extend(spell::bounds(&between_ticks(random, size)));
    } else {
        if random.one_in(2) {
            words.push(spell::bound(&lower(random, size)));
        }
        if random.one_in(3) {
            words.push(spell::bound(&upper(random, size)));
        }
    }
    if random.one_in(20) {
        words.push(spell::bound(&odd(random, size)));
    }
    let edges = match size.onward {
        true => random.pick(&[1, 2, 3, 3, 4, 4]),
        false => random.pick(&[1, 1, 2, 2, 2, 3, 4]),
    };
    for weight in weights(random, size.denominator, edges) {
        let resets = random.word() & random.word() & ((1 << size.clocks) - 1);
        let next = first_next + random.below(size.locations - first_next);
        words.push(spell::edge(resets, next, weight));
    }
}

/// At most `count` weights, each 1 or more, that add to the denominator.
pub fn weights(random: &mut Random, denominator: u32, count: usize) -> Vec<u32> {
    let mut left = denominator;
    let mut weights = Vec::new();
    while weights.len() + 1 < count && left > 1 {
        let weight = random.between(1, left as i32 - 1) as u32;
        weights.push(weight);
        left -= weight;
    }
    weights.push(left);
    weights
}

/// All clocks at 0, or nothing, or some bounds, those between two clocks among them.
pub fn zone_bounds(random: &mut Random, size: &Size) -> Vec<Bound> {
    let zero = |clock| Bound {
        i: clock,
        j: 0,
        d: 0,
        strict: false,
    };
    match random.below(8) {
        0..=2 => (1..=size.clocks).map(zero).collect(),
        3 => Vec::new(),
        _ => {
            let count = random.below(size.clocks + 2);
            (0..count).map(|_| zone_bound(random, size)).collect()
        }
    }
}

fn zone_bound(random: &mut Random, size: &Size) -> Bound {
    match random.below(4) {
        0 => lower(random, size),
        1 if size.clocks > 1 => diagonal(random, size.clocks, size.constant, size.strict),
        _ => upper(random, size),
    }
}

fn upper(random: &mut Random, size: &Size) -> Bound {
    let i = 1 + random.below(size.clocks);
    Bound {
        i,
        j: 0,
        d: random.between(0, size.constant),
        strict: random.one_in(size.strict),
    }
}

fn lower(random: &mut Random, size: &Size) -> Bound {
    let j = 1 + random.below(size.clocks);
    Bound {
        i: 0,
        j,
        d: random.between(-size.constant, 0),
        strict: random.one_in(size.strict),
    }
}

/// A clock from a whole number, or above it, up to the next, and below that: but for the number itself
/// not to be met at scale 1.
fn between_ticks(random: &mut Random, size: &Size) -> [Bound; 2] {
    let from = lower(random, size);
    let before = Bound {
        i: from.j,
        j: 0,
        d: (1 - from.d).min(4095),
        strict: true,
    };
    [from, before]
}

/// Any sign: a clock below a negative number (never) or above one (always) too.
fn odd(random: &mut Random, size: &Size) -> Bound {
    let bound = if random.one_in(2) {
        upper(random, size)
    } else {
        lower(random, size)
    };
    Bound {
        d: random.between(-size.constant, size.constant),
        ..bound
    }
}

/// A bound between two different clocks of 1 to `clocks`, which is 2 or more; strict once in `strict`
/// times.
pub fn diagonal(random: &mut Random, clocks: usize, constant: i32, strict: usize) -> Bound {
    let i = 1 + random.below(clocks);
    let j = 1 + (i + random.below(clocks - 1)) % clocks;
    Bound {
        i,
        j,
        d: random.between(-constant, constant),
        strict: random.one_in(strict),
    }
}

#[cfg(test)]
mod tests {
    use super::*;

    #[test]
    fn only_a_start_may_be_lacking() {
        let mut random = Random::new(5);
        let mut accepted = 0;
        for _ in 0..2000 {
            let size = Size::random(&mut random);
            let words = model(&mut random, &size);
            match read_model(&words) {
                Ok(_) => accepted += 1,
                Err(refusal) => assert_eq!(refusal.number, 6, "{}", spell::hex(&words)),
            }
        }
        assert!(accepted > 1500, "{accepted}");
    }
}
