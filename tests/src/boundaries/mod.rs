//! Cases at the limits of document 01 and of document 02, cards 1 and 4, which random inputs hit rarely.

mod bounds;
mod cuts;
mod landings;
mod long;
mod models;
mod tables;

pub use long::long_questions;
pub use tables::large_sum;

use crate::random::Random;
use crate::spell;

/// A model and a table.
pub type Pair = (Vec<u32>, Vec<u32>);

/// Every directed case; the random parts differ from round to round.
pub fn pairs(random: &mut Random) -> Vec<Pair> {
    let models = models::all().into_iter().map(|model| (model, Vec::new()));
    let mut pairs: Vec<Pair> = models.collect();
    pairs.extend(tables::node_limits());
    pairs.extend(tables::node_numbers());
    pairs.extend(tables::value_limits());
    pairs.extend((0..200).map(|_| large_sum(random)));
    pairs.extend(bounds::field_limits());
    pairs.extend((0..60).map(|_| bounds::largest_constants(random)));
    pairs.extend((0..100).map(|_| bounds::fractions(random)));
    pairs.extend(cuts::pairs(random));
    pairs.extend(landings::pairs(random));
    pairs.extend(long::pairs());
    pairs
}

/// One location without actions: its nodes have no rows.
fn idle_model() -> Vec<u32> {
    vec![spell::head(1, 1), spell::location(false), spell::start(0)]
}

/// Some order of the clocks 1 to `count`.
fn shuffled_clocks(random: &mut Random, count: usize) -> Vec<usize> {
    let mut order: Vec<usize> = (1..=count).collect();
    for at in 1..count {
        order.swap(at, random.below(at + 1));
    }
    order
}
