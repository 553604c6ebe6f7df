//! Tables with as many nodes as may be, and one more; node numbers and values at their limits.

use super::{idle_model, Pair};
use crate::drafts::{Draft, DraftBody, DraftNode};
use crate::models::weights;
use crate::random::Random;
use crate::spell;

const LARGEST_VALUE: u32 = (1 << 28) - 1;

/// 63 to 66 nodes; the last one good, with a spare bit or a location that is not there; the start
/// node the last or the one after it.
pub fn node_limits() -> Vec<Pair> {
    let mut pairs = Vec::new();
    for count in 63..=66_usize {
        for last in [spell::node(0), spell::node(0) | 1, spell::node(1)] {
            for start in [count - 1, count] {
                let mut table = vec![spell::table_head(9)];
                table.extend([spell::node(0), spell::value(3)].repeat(count - 1));
                table.extend([last, spell::value(9), spell::start_node(start)]);
                pairs.push((idle_model(), table));
            }
        }
    }
    pairs
}

/// A ring of 1, 2, 63 or 64 nodes in which each has the next one as its only successor, with one
/// number changed to one that is there or is not.
pub fn node_numbers() -> Vec<Pair> {
    let head = [spell::head(1, 1), spell::location(false), spell::ACTION];
    let model = [&head[..], &[spell::edge(0, 0, 1), spell::start(0)]].concat();
    let mut pairs = Vec::new();
    for count in [1, 2, 63, 64] {
        let last = count - 1;
        for (changed, number) in [(0, 0), (0, last), (0, count), (last, count), (last, 64)] {
            let ring = (0..count).map(|at| {
                if at == changed {
                    number
                } else {
                    (at + 1) % count
                }
            });
            let nodes = ring.map(|next| bare_node(0, 5, vec![vec![next]])).collect();
            let draft = Draft {
                whole: 5,
                nodes,
                start: last,
            };
            pairs.push((model.clone(), draft.words()));
        }
    }
    pairs
}

/// Values and V at the ends of their ranges.
pub fn value_limits() -> Vec<Pair> {
    let ends = [0, 1, 2, LARGEST_VALUE - 1, LARGEST_VALUE];
    let table = |whole, value| {
        let node = [spell::node(0), spell::value(value)];
        [
            &[spell::table_head(whole)],
            &node[..],
            &[spell::start_node(0)],
        ]
        .concat()
    };
    let pairs = ends
        .into_iter()
        .flat_map(|whole| ends.map(|value| (whole, value)));
    pairs
        .map(|(whole, value)| (idle_model(), table(whole, value)))
        .collect()
}

/// A sum of up to four products near D × the node's value or far from it, with V up to 2^28 - 1. The
/// edges lead to location 1, where nothing goes on, or to the target, location 2.
pub fn large_sum(random: &mut Random) -> Pair {
    let denominator = random.pick(&[65_535, 65_535, 65_534, 40_000, 7]);
    let weights = weights(random, denominator, 4);
    let whole = LARGEST_VALUE - random.pick(&[0, 0, 1, 12_345]);
    let mut next = large_values(random, whole, weights.len());
    for successor in &mut next {
        if random.one_in(2) {
            *successor = (2, whole);
        }
    }
    let start = start_value(random, denominator, whole, weights.iter().zip(&next));
    let mut nodes = vec![bare_node(0, start, vec![(1..=next.len()).collect()])];
    nodes.extend(
        next.iter()
            .map(|&(location, value)| bare_node(location, value, Vec::new())),
    );

    let mut model = vec![
        spell::head(1, denominator),
        spell::location(false),
        spell::ACTION,
    ];
    let edges = weights.iter().zip(&next);
    model.extend(edges.map(|(&weight, &(location, _))| spell::edge(0, location, weight)));
    model.extend([
        spell::location(false),
        spell::location(true),
        spell::start(0),
    ]);
    let start = 0;
    (
        model,
        Draft {
            whole,
            nodes,
            start,
        }
        .words(),
    )
}

/// A value near the least that the sum of weight × value allows, or any.
fn start_value<'a>(
    random: &mut Random,
    denominator: u32,
    whole: u32,
    terms: impl Iterator<Item = (&'a u32, &'a (usize, u32))>,
) -> u32 {
    if random.one_in(3) {
        return random.word() % whole;
    }
    let sum: u64 = terms
        .map(|(&weight, &(_, value))| u64::from(weight) * u64::from(value))
        .sum();
    let least = sum.div_ceil(u64::from(denominator)) as u32;
    (least + 1)
        .saturating_sub(random.below(3) as u32)
        .min(whole)
}

/// Location 1 with values up to V: all equal, all near V, or any.
fn large_values(random: &mut Random, whole: u32, count: usize) -> Vec<(usize, u32)> {
    let values: Vec<u32> = match random.below(3) {
        0 => vec![whole - random.below(3) as u32; count],
        1 => (0..count).map(|_| whole - random.below(4) as u32).collect(),
        _ => (0..count).map(|_| random.word() % whole).collect(),
    };
    values.into_iter().map(|value| (1, value)).collect()
}

fn bare_node(location: usize, value: u32, rows: Vec<Vec<usize>>) -> DraftNode {
    DraftNode {
        location,
        bounds: Vec::new(),
        value,
        body: DraftBody::Rows(rows),
    }
}
