//! Tests of the reading, by subject. `worked` has every case of "Timeline M and table T" of
//! document 01.

mod board;
mod cuts;
mod draft;
mod judging;
mod landings;
mod model;
mod program;
mod table;
mod worked;
mod zones;

use super::{judge, read_model, Certificate, Refusal};

/// Document 01's timeline: wait at most 3, act from 2 on; 9 in 10 to location 1, 1 in 10 to the
/// target, location 2.
const M: [u32; 11] = [
    0x1110000A, 0x20000000, 0x51001003, 0x30000000, 0x50100FFE, 0x40010009, 0x40020001, 0x20000000,
    0x20000001, 0x60000000, 0x51001000,
];

/// Document 01's table for it.
const T: [u32; 11] = [
    0x7000000A, 0x80000000, 0x51001000, 0x90000001, 0xB0000001, 0xB0000002, 0x81000000, 0x90000000,
    0x82000000, 0x9000000A, 0xC0000000,
];

fn refused<T>(number: u32, place: usize) -> Result<T, Refusal> {
    Err(Refusal { number, place })
}

fn accepted(b: u32, whole: u32, nodes: usize) -> Result<Certificate, Refusal> {
    Ok(Certificate { b, whole, nodes })
}

/// The words with `range` of them replaced.
fn splice(words: &[u32], range: std::ops::Range<usize>, by: &[u32]) -> Vec<u32> {
    [&words[..range.start], by, &words[range.end..]].concat()
}

/// The words with one of them replaced.
fn with(words: &[u32], place: usize, word: u32) -> Vec<u32> {
    splice(words, place..place + 1, &[word])
}

/// A bound word: clock `i` minus clock `j` at most `d`.
fn at_most(i: u32, j: u32, d: i32) -> u32 {
    0x50000000 | i << 24 | j << 20 | (d + 4096) as u32
}

/// A bound word: clock `i` minus clock `j` below `d`.
fn below(i: u32, j: u32, d: i32) -> u32 {
    at_most(i, j, d) | 1 << 19
}

/// Small numbers that look random and are the same in every run (xorshift).
struct Dice(u64);

impl Dice {
    fn below(&mut self, limit: u32) -> u32 {
        self.0 ^= self.0 << 13;
        self.0 ^= self.0 >> 7;
        self.0 ^= self.0 << 17;
        (self.0 >> 33) as u32 % limit
    }
}

/// No words, however odd, may make a call panic; what is refused is refused at a word or the end.
#[test]
fn any_words_get_an_answer() {
    let mut dice = Dice(1);
    for _ in 0..200_000 {
        let mut model = M.to_vec();
        let mut table = if dice.below(2) == 0 {
            T.to_vec()
        } else {
            cuts::K.to_vec()
        };
        for _ in 0..=dice.below(3) {
            let words = if dice.below(2) == 0 {
                &mut model
            } else {
                &mut table
            };
            let place = dice.below(words.len() as u32) as usize;
            match dice.below(4) {
                0 => words[place] ^= 1 << dice.below(32),
                1 => words.insert(place, dice.below(16) << 28 | dice.below(1 << 28)),
                2 if words.len() > 1 => drop(words.remove(place)),
                _ => words.insert(place, words[dice.below(words.len() as u32) as usize]),
            }
        }
        let read = read_model(&model);
        match judge(&model, &table) {
            Ok(certificate) => assert!(read.is_ok() && certificate.b <= certificate.whole),
            Err(refusal) if refusal.number <= 6 => {
                assert!(read == Err(refusal) && refusal.place <= model.len());
            }
            Err(refusal) => {
                assert!(read.is_ok() && refusal.place <= table.len());
                assert!((11..=21)
                    .chain(51..=53)
                    .any(|number| number == refusal.number));
            }
        }
    }
}

/// A million words are read in a time that grows with their number only, wherever they stand.
#[test]
fn a_million_words() {
    let many = vec![at_most(1, 0, 3); 1_000_000];
    let model = splice(&splice(&M, 10..10, &many), 3..3, &many);
    let table = splice(&splice(&T, 7..7, &many), 2..2, &many);
    assert_eq!(judge(&model, &table), accepted(1, 10, 3));
    let dense = vec![0x30000000; 1_000_000];
    assert_eq!(read_model(&dense), refused(1, 0));
}
