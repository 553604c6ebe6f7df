//! Words from their fields, as the section "Words" of document 01 lays them out, and the D word of
//! document 02, card 1.

use crate::reading::Bound;

pub const ACTION: u32 = 0x3000_0000;
pub const BLOCKED: u32 = 0xA000_0000;

pub fn head(clocks: usize, denominator: u32) -> u32 {
    0x1100_0000 | (clocks as u32) << 20 | denominator
}

pub fn location(target: bool) -> u32 {
    0x2000_0000 | u32::from(target)
}

/// Bit 0 of `resets` is clock 1's.
pub fn edge(resets: u32, location: usize, weight: u32) -> u32 {
    0x4000_0000 | resets << 20 | (location as u32) << 16 | weight
}

pub fn bound(bound: &Bound) -> u32 {
    0x5000_0000 | fields(bound)
}

/// A D word: the fields of a bound.
pub fn cut(bound: &Bound) -> u32 {
    0xD000_0000 | fields(bound)
}

fn fields(bound: &Bound) -> u32 {
    let clocks = (bound.i as u32) << 24 | (bound.j as u32) << 20;
    clocks | u32::from(bound.strict) << 19 | (bound.d + 4096) as u32
}

pub fn bounds(bounds: &[Bound]) -> Vec<u32> {
    bounds.iter().map(bound).collect()
}

pub fn start(location: usize) -> u32 {
    0x6000_0000 | location as u32
}

pub fn table_head(whole: u32) -> u32 {
    0x7000_0000 | whole
}

pub fn node(location: usize) -> u32 {
    0x8000_0000 | (location as u32) << 24
}

pub fn value(value: u32) -> u32 {
    0x9000_0000 | value
}

pub fn successor(node: usize) -> u32 {
    0xB000_0000 | node as u32
}

pub fn start_node(node: usize) -> u32 {
    0xC000_0000 | node as u32
}

/// Words as the program takes them.
pub fn bytes(words: &[u32]) -> Vec<u8> {
    words.iter().flat_map(|word| word.to_be_bytes()).collect()
}

/// Words as document 01 writes them.
pub fn hex(words: &[u32]) -> String {
    let written: Vec<String> = words.iter().map(|word| format!("{word:08X}")).collect();
    written.join(" ")
}

#[cfg(test)]
mod tests {
    use super::*;

    /// The words of document 01's timeline and table.
    #[test]
    fn as_in_the_worked_cases() {
        let at_most_3 = Bound {
            i: 1,
            j: 0,
            d: 3,
            strict: false,
        };
        let above_3 = Bound {
            i: 0,
            j: 1,
            d: -3,
            strict: true,
        };
        assert_eq!(
            (bound(&at_most_3), bound(&above_3)),
            (0x51001003, 0x50180FFD)
        );
        assert_eq!((cut(&at_most_3), cut(&above_3)), (0xD1001003, 0xD0180FFD));
        assert_eq!((head(1, 10), location(true)), (0x1110000A, 0x20000001));
        assert_eq!((edge(0, 1, 9), start(0)), (0x40010009, 0x60000000));
        assert_eq!(
            (table_head(10), node(2), value(10)),
            (0x7000000A, 0x82000000, 0x9000000A)
        );
        assert_eq!((successor(2), start_node(0)), (0xB0000002, 0xC0000000));
        assert_eq!(bytes(&[0x7000000A]), [0x70, 0, 0, 0x0A]);
    }
}
