//! Single words: kinds, fields, ranges and spare bits.
//!
//! Reads the section "Words" of document 01, apart from what may follow what, and the D word of
//! document 02, card 1. Each reading function is given a word whose kind is already known to be right.
//! It hands back the fields, or nothing if one is outside its range or a spare bit is set. What needs
//! the rest of the file (does this location exist, is this weight's sum right) is left to the parsers.

pub const HEAD: u32 = 0x1;
pub const LOCATION: u32 = 0x2;
pub const ACTION: u32 = 0x3;
pub const EDGE: u32 = 0x4;
pub const BOUND: u32 = 0x5;
pub const START: u32 = 0x6;
pub const TABLE_HEAD: u32 = 0x7;
pub const NODE: u32 = 0x8;
pub const VALUE: u32 = 0x9;
pub const BLOCKED: u32 = 0xA;
pub const SUCCESSOR: u32 = 0xB;
pub const START_NODE: u32 = 0xC;
pub const CUT: u32 = 0xD;

pub const MAX_CLOCKS: usize = 4;

/// Clock `i` minus clock `j` is at most `d` time units, or below that if `strict`. Clock 0 reads
/// zero.
#[derive(Clone, Copy, Debug, PartialEq, Eq)]
pub struct Bound {
    pub i: usize,
    pub j: usize,
    pub d: i32,
    pub strict: bool,
}

impl Bound {
    /// True for the bounds that locations and actions may have: exactly one clock is clock 0.
    pub fn is_on_one_clock(&self) -> bool {
        (self.i == 0) != (self.j == 0)
    }

    /// The bound that holds exactly where this one does not: not at most `d` is above `d`, not below
    /// `d` is at least `d`.
    pub fn negated(&self) -> Bound {
        Bound {
            i: self.j,
            j: self.i,
            d: -self.d,
            strict: !self.strict,
        }
    }
}

/// The top four bits.
pub fn kind(word: u32) -> u32 {
    word >> 28
}

/// Bits `high` to `low`, both included.
fn bits(word: u32, high: u32, low: u32) -> u32 {
    (word >> low) & ((1 << (high - low + 1)) - 1)
}

/// Bits `high` to `low` as a number of something: a clock, a location, a node.
fn number(word: u32, high: u32, low: u32) -> usize {
    bits(word, high, low) as usize
}

/// The number of clocks and D.
pub fn head(word: u32) -> Option<(usize, u32)> {
    let edition = bits(word, 27, 24);
    let clocks = number(word, 23, 20);
    let spare = bits(word, 19, 16);
    let denominator = bits(word, 15, 0);
    let good = edition == 1 && (1..=MAX_CLOCKS).contains(&clocks) && spare == 0 && denominator > 0;
    good.then_some((clocks, denominator))
}

/// Whether the location is a target.
pub fn location(word: u32) -> Option<bool> {
    (bits(word, 27, 1) == 0).then_some(bits(word, 0, 0) == 1)
}

pub fn action(word: u32) -> Option<()> {
    (bits(word, 27, 0) == 0).then_some(())
}

/// The reset mask with clock 1 in bit 0, the location and the weight.
pub fn edge(word: u32, clocks: usize, denominator: u32) -> Option<(u32, usize, u32)> {
    let spare = bits(word, 27, 24);
    let resets = bits(word, 23, 20);
    let weight = bits(word, 15, 0);
    let good = spare == 0 && resets >> clocks == 0 && (1..=denominator).contains(&weight);
    good.then_some((resets, number(word, 19, 16), weight))
}

pub fn bound(word: u32, clocks: usize) -> Option<Bound> {
    let i = number(word, 27, 24);
    let j = number(word, 23, 20);
    let spare = bits(word, 18, 13);
    let shifted = bits(word, 12, 0);
    let good = i != j && i <= clocks && j <= clocks && spare == 0 && shifted > 0;
    good.then_some(Bound {
        i,
        j,
        d: shifted as i32 - 4096,
        strict: bits(word, 19, 19) == 1,
    })
}

/// The bound of a cut: the fields of a bound word, j always 0, so that i is 1 to C.
pub fn cut(word: u32, clocks: usize) -> Option<Bound> {
    bound(word, clocks).filter(|bound| bound.j == 0)
}

/// The start's location.
pub fn start(word: u32) -> Option<usize> {
    (bits(word, 27, 4) == 0).then_some(number(word, 3, 0))
}

/// V.
pub fn table_head(word: u32) -> Option<u32> {
    Some(bits(word, 27, 0)).filter(|&whole| whole > 0)
}

/// The node's location.
pub fn node(word: u32) -> Option<usize> {
    (bits(word, 23, 0) == 0).then_some(number(word, 27, 24))
}

pub fn value(word: u32, whole: u32) -> Option<u32> {
    Some(bits(word, 27, 0)).filter(|&value| value <= whole)
}

pub fn blocked(word: u32) -> Option<()> {
    (bits(word, 27, 0) == 0).then_some(())
}

/// The node number of a successor or of the start node.
pub fn node_number(word: u32) -> Option<usize> {
    (bits(word, 27, 6) == 0).then_some(number(word, 5, 0))
}

#[cfg(test)]
mod tests {
    use super::*;

    #[test]
    fn head_fields() {
        assert_eq!(head(0x1110000A), Some((1, 10)));
        assert_eq!(head(0x1140FFFF), Some((4, 65_535)));
        // Edition, no clock, five clocks, spare bit, no denominator.
        for bad in [
            0x1010000A, 0x1210000A, 0x1100000A, 0x1150000A, 0x1111000A, 0x11100000,
        ] {
            assert_eq!(head(bad), None, "{bad:08X}");
        }
    }

    #[test]
    fn bound_fields() {
        let lowest = Bound {
            i: 1,
            j: 0,
            d: -4095,
            strict: false,
        };
        assert_eq!(bound(0x51000001, 1), Some(lowest));
        let highest = Bound {
            i: 0,
            j: 4,
            d: 4095,
            strict: true,
        };
        assert_eq!(bound(0x50481FFF, 4), Some(highest));
        // d + 4,096 is never 0; clocks above C; equal clocks; every spare bit.
        for bad in [0x51000000, 0x52001000, 0x50201000, 0x51101000, 0x50001000] {
            assert_eq!(bound(bad, 1), None, "{bad:08X}");
        }
        for bit in 13..=18 {
            assert_eq!(bound(0x51001000 | 1 << bit, 1), None);
        }
    }

    #[test]
    fn cut_fields() {
        let lowest = Bound {
            i: 4,
            j: 0,
            d: -4095,
            strict: true,
        };
        assert_eq!(cut(0xD4080001, 4), Some(lowest));
        let highest = Bound {
            i: 1,
            j: 0,
            d: 4095,
            strict: false,
        };
        assert_eq!(cut(0xD1001FFF, 1), Some(highest));
        // Clock 0, a clock above C, d + 4,096 = 0, j not 0: with i = 0, with another i, with the same.
        for bad in [
            0xD0001000, 0xD3001000, 0xD1000000, 0xD0101000, 0xD1201000, 0xD2101000, 0xD1101000,
        ] {
            assert_eq!(cut(bad, 2), None, "{bad:08X}");
        }
        for bit in 13..=18 {
            assert_eq!(cut(0xD1001000 | 1 << bit, 2), None);
        }
    }

    #[test]
    fn a_negated_bound() {
        let at_most_3 = bound(0x51001003, 1).unwrap();
        let above_3 = bound(0x50180FFD, 1).unwrap();
        let below_minus_2 = bound(0x51080FFE, 1).unwrap();
        let at_least_minus_2 = bound(0x50101002, 1).unwrap();
        assert_eq!(at_most_3.negated(), above_3);
        assert_eq!(below_minus_2.negated(), at_least_minus_2);
        for bound in [at_most_3, above_3, below_minus_2, at_least_minus_2] {
            assert_eq!(bound.negated().negated(), bound);
        }
    }

    #[test]
    fn edge_fields() {
        assert_eq!(edge(0x401F000A, 1, 10), Some((1, 15, 10)));
        assert_eq!(edge(0x40F00001, 4, 10), Some((15, 0, 1)));
        // A reset of clock 2 where C is 1, weight 0, weight above D, a spare bit.
        for bad in [0x40200001, 0x40000000, 0x4000000B, 0x41000001] {
            assert_eq!(edge(bad, 1, 10), None, "{bad:08X}");
        }
    }

    #[test]
    fn words_with_one_field() {
        assert_eq!(
            (location(0x20000000), location(0x20000001)),
            (Some(false), Some(true))
        );
        assert_eq!((location(0x20000002), action(0x38000000)), (None, None));
        assert_eq!((start(0x6000000F), start(0x60000010)), (Some(15), None));
        assert_eq!((node(0x8F000000), node(0x80000001)), (Some(15), None));
        assert_eq!(
            (table_head(0x7FFFFFFF), table_head(0x70000000)),
            (Some((1 << 28) - 1), None)
        );
        assert_eq!(
            (value(0x90000005, 5), value(0x90000006, 5)),
            (Some(5), None)
        );
        assert_eq!((blocked(0xA0000000), blocked(0xA0000001)), (Some(()), None));
        assert_eq!(
            (node_number(0xC000003F), node_number(0xB0000040)),
            (Some(63), None)
        );
    }
}
