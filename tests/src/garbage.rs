//! Words without a plan, with a leaning to kinds and fields that make sense.

use crate::models::{diagonal, weights};
use crate::random::Random;
use crate::reading::Bound;
use crate::spell;

/// A word of any kind; mostly with fields in range for a small file.
pub fn plausible_word(random: &mut Random) -> u32 {
    let kind = random.below(16) as u32;
    word_of_kind(random, kind)
}

fn word_of_kind(random: &mut Random, kind: u32) -> u32 {
    if random.one_in(12) {
        return kind << 28 | random.word() >> 4;
    }
    let small = random.below(4);
    match kind {
        0x1 => spell::head(random.pick(&[1, 1, 1, 2, 3, 4, 5]), 1 + small as u32),
        0x2 => spell::location(random.one_in(3)),
        0x4 => spell::edge(
            random.word() & 1,
            random.below(3),
            1 + random.below(4) as u32,
        ),
        0x5 => spell::bound(&small_bound(random)),
        0x6 => spell::start(random.below(2)),
        0x7 => spell::table_head(random.below(12) as u32),
        0x8 => spell::node(random.below(3)),
        0x9 => spell::value(random.below(12) as u32),
        0xB => spell::successor(small),
        0xC => spell::start_node(small),
        0xD => spell::cut(&small_cut(random)),
        _ => kind << 28,
    }
}

/// Mostly an upper bound of one clock.
fn small_cut(random: &mut Random) -> Bound {
    if random.one_in(6) {
        return small_bound(random);
    }
    Bound {
        i: random.pick(&[1, 1, 1, 2]),
        j: 0,
        d: random.between(-1, 4),
        strict: random.one_in(3),
    }
}

/// Over clocks 1 and 2; for one clock too many.
fn small_bound(random: &mut Random) -> Bound {
    if random.one_in(8) {
        return diagonal(random, 2, 3, 3);
    }
    let clock = random.pick(&[1, 1, 1, 2]);
    let strict = random.one_in(3);
    if random.one_in(2) {
        Bound {
            i: clock,
            j: 0,
            d: random.between(-1, 4),
            strict,
        }
    } else {
        Bound {
            i: 0,
            j: clock,
            d: random.between(-4, 1),
            strict,
        }
    }
}

/// Words that mostly follow one another as a model's do.
pub fn garbage_model(random: &mut Random) -> Vec<u32> {
    let denominator = 1 + random.below(4) as u32;
    let mut words = vec![
        spell::head(random.pick(&[1, 1, 2]), denominator),
        spell::location(false),
    ];
    for _ in 0..random.below(12) {
        match random.below(12) {
            0..=2 => words.push(word_of_kind(random, 0x2)),
            3..=5 => {
                words.push(spell::ACTION);
                let parts = weights(random, denominator, 3);
                let edge = |&weight: &u32| spell::edge(0, random.below(3), weight);
                words.extend(parts.iter().map(edge));
            }
            6..=10 => words.push(word_of_kind(random, 0x5)),
            _ => words.push(plausible_word(random)),
        }
    }
    words.push(spell::start(random.below(2)));
    for _ in 0..random.below(3) {
        words.push(word_of_kind(random, 0x5));
    }
    words
}

/// Words that mostly follow one another as a table's do.
pub fn garbage_table(random: &mut Random) -> Vec<u32> {
    let mut words = vec![spell::table_head(10)];
    for _ in 0..1 + random.below(4) {
        words.push(word_of_kind(random, 0x8));
        if random.one_in(2) {
            words.push(word_of_kind(random, 0x5));
        }
        words.push(spell::value(random.pick(&[0, 3, 10, 10, 11])));
        let cut = random.one_in(4);
        if cut {
            words.push(word_of_kind(random, 0xD));
            let parts = random.pick(&[2, 2, 2, 2, 1, 3]);
            words.extend((0..parts).map(|_| word_of_kind(random, 0xB)));
        }
        let rows = if cut { 0 } else { random.below(4) };
        for _ in 0..rows {
            words.push(if random.one_in(3) {
                spell::BLOCKED
            } else {
                word_of_kind(random, 0xB)
            });
        }
        if random.one_in(10) {
            words.push(plausible_word(random));
        }
    }
    words.push(spell::start_node(random.below(2)));
    words
}

/// Any number of words, of any kind or wholly random.
pub fn raw(random: &mut Random) -> Vec<u32> {
    let wild = random.one_in(4);
    let length = random.below(20);
    let word = |_| {
        if wild {
            random.word()
        } else {
            plausible_word(random)
        }
    };
    (0..length).map(word).collect()
}
