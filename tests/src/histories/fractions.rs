//! Fractions that a table can give, and tables of four words that give them; fractions that are equal
//! or almost equal come often.

use std::cmp::Ordering;

use crate::boundaries::Pair;
use crate::random::Random;
use crate::spell;

/// The largest V.
pub const LARGEST: u32 = (1 << 28) - 1;

/// b and V.
pub type Fraction = (u32, u32);

/// Often small; often a small one with both numbers multiplied; 0, 1, and the largest V.
pub fn fraction(random: &mut Random) -> Fraction {
    match random.below(8) {
        0 | 1 => small(random),
        2 | 3 => multiplied(random),
        4 => (0, whole(random)),
        5 => {
            let whole = whole(random);
            (whole, whole)
        }
        6 => near_the_largest(random),
        _ => {
            let whole = whole(random);
            (random.word() % (whole + 1), whole)
        }
    }
}

/// V up to 6.
fn small(random: &mut Random) -> Fraction {
    let whole = random.between(1, 6) as u32;
    (random.below(whole as usize + 1) as u32, whole)
}

/// A small one, with another V.
fn multiplied(random: &mut Random) -> Fraction {
    let (b, whole) = small(random);
    let most = LARGEST / whole;
    let times = random.pick(&[2, 3, 10, 65_536, most, most - 1]);
    (b * times, whole * times)
}

/// Neighbours such as (V - 1)/V and (V - 2)/(V - 1) differ by less than floating point can tell.
fn near_the_largest(random: &mut Random) -> Fraction {
    let whole = LARGEST - random.below(4) as u32;
    let b = random.pick(&[whole, whole, whole / 2 + 2, 3]);
    (b - random.below(4) as u32, whole)
}

fn whole(random: &mut Random) -> u32 {
    let bits = random.below(28);
    let any = 1 + (random.word() & ((1 << bits) - 1));
    random.pick(&[LARGEST, LARGEST - 1, any, any])
}

/// A model of one location without actions, and a table whose one node has this value.
pub fn claim((b, whole): Fraction) -> Pair {
    let model = vec![spell::head(1, 1), spell::location(false), spell::start(0)];
    let table = vec![
        spell::table_head(whole),
        spell::node(0),
        spell::value(b),
        spell::start_node(0),
    ];
    (model, table)
}

/// The same with a fault that the judge refuses.
pub fn bad_claim(random: &mut Random, fraction: Fraction) -> Pair {
    let (mut model, mut table) = claim(fraction);
    match random.below(7) {
        0 => model.truncate(random.below(3)),
        1 => model[1] = spell::location(true),
        2 => table.truncate(random.below(4)),
        3 => table[0] = spell::table_head(0),
        4 => table[1] = spell::node(1),
        5 => table[3] = spell::start_node(1),
        _ => table.insert(2, 0x5100_1001), // clock 1 at most 1, but it starts anywhere
    }
    // A target is no fault where the value is V.
    if model[..] == [spell::head(1, 1), spell::location(true), spell::start(0)] {
        table[2] = spell::value(0);
    }
    (model, table)
}

/// Compares two fractions with V not 0: by whole parts, and where those are equal by what is left,
/// turned over. No product is needed, so none can be too large.
pub fn compare((a, b): Fraction, (c, d): Fraction) -> Ordering {
    let whole_parts = (a / b).cmp(&(c / d));
    match (whole_parts, a % b, c % d) {
        (Ordering::Equal, 0, rest) => 0.cmp(&rest),
        (Ordering::Equal, _, 0) => Ordering::Greater,
        // r/b below s/d is d/s below b/r.
        (Ordering::Equal, r, s) => compare((d, s), (b, r)),
        (other, ..) => other,
    }
}

#[cfg(test)]
mod tests {
    use super::*;
    use crate::reading::judge;

    #[test]
    fn every_fraction_is_certified() {
        let mut random = Random::new(6);
        for _ in 0..5000 {
            let (b, whole) = fraction(&mut random);
            let (model, table) = claim((b, whole));
            let certificate = judge(&model, &table).map(|given| (given.b, given.whole));
            assert_eq!(certificate, Ok((b, whole)));
            let (model, table) = bad_claim(&mut random, (b, whole));
            assert!(judge(&model, &table).is_err(), "{}", spell::hex(&table));
        }
    }

    /// Against cross products in 128 bits.
    #[test]
    fn the_comparison_is_exact() {
        let mut random = Random::new(7);
        let mut equal = 0;
        for _ in 0..100_000 {
            let (one, other) = (fraction(&mut random), fraction(&mut random));
            let cross = |by: u32, times: u32| u128::from(by) * u128::from(times);
            let wanted = cross(one.0, other.1).cmp(&cross(other.0, one.1));
            assert_eq!(compare(one, other), wanted, "{one:?} {other:?}");
            equal += usize::from(wanted == Ordering::Equal);
        }
        assert!(equal > 5000, "{equal}");
    }
}
