//! Document 01's worked timeline M and its table T, and changes to word lists.

pub const M: [u32; 11] = [
    0x1110000A, 0x20000000, 0x51001003, 0x30000000, 0x50100FFE, 0x40010009, 0x40020001, 0x20000000,
    0x20000001, 0x60000000, 0x51001000,
];

pub const T: [u32; 11] = [
    0x7000000A, 0x80000000, 0x51001000, 0x90000001, 0xB0000001, 0xB0000002, 0x81000000, 0x90000000,
    0x82000000, 0x9000000A, 0xC0000000,
];

/// The list with one word changed.
pub fn with<const N: usize>(mut words: [u32; N], place: usize, word: u32) -> [u32; N] {
    words[place] = word;
    words
}
