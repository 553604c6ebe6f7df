//! Faults in lists of words: single fields moved, words dropped, doubled, swapped, put in or added; the
//! words of a cut, lacking, too many or out of place; and invariants with one more bound.

use crate::garbage::plausible_word;
use crate::random::Random;
use crate::reading::Bound;
use crate::spell;

/// One fault, sometimes two or three.
pub fn mutate(random: &mut Random, words: &mut Vec<u32>) {
    for _ in 0..random.pick(&[1, 1, 1, 1, 2, 3]) {
        match random.below(9) {
            0..=3 => change_a_field(random, words),
            4 => change_a_cut(random, words),
            5 => bound_a_location(random, words),
            _ => change_the_list(random, words),
        }
    }
}

/// A field of a word of a chosen kind; nothing where there is no such word.
fn change_a_field(random: &mut Random, words: &mut [u32]) {
    let step = random.pick(&[1, u32::MAX]);
    let any = random.word();
    match random.below(15) {
        // A bound's d, strictness and clocks.
        0 | 1 => change_kind(random, words, 0x5, |word| {
            with_low(word, 13, word.wrapping_add(step))
        }),
        2 => change_kind(random, words, 0x5, |word| word ^ 1 << 19),
        3 => change_kind(random, words, 0x5, |word| {
            word ^ (any % 8) << (20 + 4 * (any >> 31))
        }),
        // A value.
        4 => change_kind(random, words, 0x9, |word| {
            with_low(word, 28, word.wrapping_add(step))
        }),
        // A successor and the start node.
        5 => change_kind(random, words, 0xB, |word| with_low(word, 6, any)),
        6 => change_kind(random, words, 0xC, |word| with_low(word, 6, any % 8)),
        // V, C, D, target bit, start location.
        7 => change_kind(random, words, 0x7, |word| {
            with_low(word, 28, word.wrapping_add(step))
        }),
        8 => change_kind(random, words, 0x1, |word| word ^ (any % 8) << 20),
        9 => change_kind(random, words, 0x1, |word| {
            with_low(word, 16, word.wrapping_add(step))
        }),
        10 => change_kind(random, words, 0x2, |word| word ^ 1),
        11 => change_kind(random, words, 0x6, |word| with_low(word, 4, any)),
        // A cut's d, strictness, clocks and spare bits; d's field 0.
        12 => change_kind(random, words, 0xD, |word| match any % 3 {
            0 => word ^ 1 << 19,
            _ => with_low(word, 13, word.wrapping_add(step)),
        }),
        13 => change_kind(random, words, 0xD, |word| match any % 4 {
            0 => word ^ (any >> 2 & 7) << 24,
            1 => word ^ (1 + (any >> 2 & 3)) << 20,
            2 => word ^ 1 << (13 + any / 4 % 6),
            _ => with_low(word, 13, 0),
        }),
        // An edge's weight, location or resets.
        _ => change_kind(random, words, 0x4, |word| match any % 3 {
            0 => with_low(word, 16, word.wrapping_add(step)),
            1 => word ^ 1 << (16 + any / 3 % 4),
            _ => word ^ 1 << (20 + any / 3 % 4),
        }),
    }
}

/// The word with its low bits taken from another number.
fn with_low(word: u32, bits: u32, from: u32) -> u32 {
    let mask = (1 << bits) - 1;
    word & !mask | from & mask
}

fn change_kind(random: &mut Random, words: &mut [u32], kind: u32, change: impl Fn(u32) -> u32) {
    let of_kind = |place: &usize| words[*place] >> 28 == kind;
    let places: Vec<usize> = (0..words.len()).filter(of_kind).collect();
    if !places.is_empty() {
        let place = random.pick(&places);
        words[place] = change(words[place]);
    }
}

/// The words of a cut: one dropped, doubled, of another kind, moved, or all of them again; where there
/// is none, one put in.
fn change_a_cut(random: &mut Random, words: &mut Vec<u32>) {
    let is_cut = |place: &usize| words[*place] >> 28 == 0xD;
    let cuts: Vec<usize> = (0..words.len()).filter(is_cut).collect();
    if cuts.is_empty() {
        return put_in_a_cut(random, words);
    }
    let place = random.pick(&cuts);
    let end = (place + 3).min(words.len());
    let one = place + random.below(end - place);
    match random.below(7) {
        0 => drop(words.remove(one)),
        1 => words.insert(one, words[one]),
        2 => words[one] = words[one] & 0x0FFF_FFFF | random.pick(&[0x5, 0xA, 0xB, 0xC, 0xD]) << 28,
        3 => words[place..end].rotate_left(1),
        4 => words.swap(place, place.saturating_sub(1)),
        5 => words.insert(end, spell::successor(random.below(8))),
        _ => {
            let again = words[place..end].to_vec();
            words.splice(end..end, again);
        }
    }
}

/// A cut behind a value, in place of the rows there, before them or behind them. A model has no values.
fn put_in_a_cut(random: &mut Random, words: &mut Vec<u32>) {
    let is_value = |place: &usize| words[*place] >> 28 == 0x9;
    let values: Vec<usize> = (0..words.len()).filter(is_value).collect();
    if values.is_empty() {
        return change_the_list(random, words);
    }
    let begin = random.pick(&values) + 1;
    let in_rows = |word: &&u32| matches!(**word >> 28, 0xA | 0xB);
    let end = begin + words[begin..].iter().take_while(in_rows).count();
    let range = match random.below(4) {
        0 => begin..begin,
        1 => end..end,
        _ => begin..end,
    };
    let bound = Bound {
        i: 1,
        j: 0,
        d: random.between(-1, 4),
        strict: random.one_in(2),
    };
    let cut = [
        spell::cut(&bound),
        spell::successor(random.below(values.len() + 1)),
        spell::successor(random.below(values.len() + 1)),
    ];
    words.splice(range, cut);
}

/// One more bound of an invariant, so that an edge lands outside that did not. A table has no locations.
fn bound_a_location(random: &mut Random, words: &mut Vec<u32>) {
    let is_location = |place: &usize| words[*place] >> 28 == 0x2;
    let locations: Vec<usize> = (0..words.len()).filter(is_location).collect();
    if locations.is_empty() {
        return change_the_list(random, words);
    }
    let (d, strict) = (random.between(0, 3), random.one_in(3));
    let upper = random.one_in(2);
    let (i, j, d) = if upper { (1, 0, d) } else { (0, 1, -d) };
    let bound = spell::bound(&Bound { i, j, d, strict });
    words.insert(random.pick(&locations) + 1, bound);
}

/// A bit flipped, or words dropped, doubled, swapped, replaced, put in, cut off or added.
fn change_the_list(random: &mut Random, words: &mut Vec<u32>) {
    if words.is_empty() {
        words.push(plausible_word(random));
        return;
    }
    let place = random.below(words.len());
    let other = random.below(words.len());
    let next = (place + 1) % words.len();
    match random.below(11) {
        0 | 1 => words[place] ^= 1 << random.below(32),
        2 => words[place] ^= random.word() << 28,
        3 => drop(words.remove(place)),
        4 => words.insert(place, words[place]),
        5 => words.swap(place, other),
        6 => words.swap(place, next),
        7 => words[place] = plausible_word(random),
        8 => words.insert(place, plausible_word(random)),
        9 => words.truncate(place),
        _ => words.push(if random.one_in(2) {
            words[other]
        } else {
            plausible_word(random)
        }),
    }
}
