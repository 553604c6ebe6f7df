//! Bytes for the program's standard input.

use crate::explore::explore;
use crate::garbage::raw;
use crate::models::{self, Size};
use crate::mutate::mutate;
use crate::random::Random;
use crate::reading::parse_model;
use crate::spell;
use crate::worked;

const MOST_BYTES: usize = 65_536;

/// Lengths around every limit, with good words and with none; the model or the table alone.
pub fn directed(random: &mut Random) -> Vec<Vec<u8>> {
    let (model, table) = (worked::MODEL, worked::TABLE);
    let good = spell::bytes(&[&model[..], &table].concat());
    let mut inputs = vec![
        Vec::new(),
        spell::bytes(&model),
        spell::bytes(&table),
        spell::bytes(&[&table[..], &model].concat()),
        spell::bytes(&[&model[..], &table, &table].concat()),
    ];
    for length in 0..=good.len() {
        inputs.push(good[..length].to_vec());
    }
    for length in [
        1, 2, 3, 4, 5, 65_532, 65_535, 65_536, 65_537, 65_538, 65_539, 65_540, 70_001, 131_072,
    ] {
        inputs.push(vec![0; length]);
        inputs.push((0..length).map(|_| random.word() as u8).collect());
    }
    for length in [MOST_BYTES - 4, MOST_BYTES, MOST_BYTES + 4] {
        for extra in [0, 1, 2, 3] {
            let mut bytes = full_size(length);
            bytes.extend(vec![0x51; extra]);
            inputs.push(bytes);
        }
    }
    inputs
}

/// An acceptable pair of exactly this many bytes: bounds come again, half of them in the model and
/// half in the table.
fn full_size(length: usize) -> Vec<u8> {
    let (model, table) = (worked::MODEL, worked::TABLE);
    let more = length / 4 - model.len() - table.len();
    let mut words = model[..3].to_vec();
    words.extend(vec![model[2]; more / 2]);
    words.extend(&model[3..]);
    words.extend(&table[..3]);
    words.extend(vec![table[2]; more - more / 2]);
    words.extend(&table[3..]);
    spell::bytes(&words)
}

/// A model with its explored table, mostly with a fault, now and then at any length in bytes; or
/// garbage.
pub fn random_input(random: &mut Random) -> Vec<u8> {
    if random.one_in(8) {
        return spell::bytes(&[raw(random), raw(random)].concat());
    }
    let size = Size::random(random);
    let mut words = models::model(random, &size);
    let Ok(model) = parse_model(&words) else {
        return spell::bytes(&words);
    };
    words.extend(explore(random, &model).words());
    if !random.one_in(3) {
        mutate(random, &mut words);
    }
    let mut bytes = spell::bytes(&words);
    if random.one_in(10) {
        bytes.truncate(random.below(bytes.len() + 1));
    }
    bytes
}
