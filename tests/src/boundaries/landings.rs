//! Landings at the limits of document 02, card 4: on the edge of an invariant and just outside it,
//! between two ticks, at clocks that are reset or not, and sums with V at its largest.

use super::{shuffled_clocks, Pair};
use crate::drafts::{Draft, DraftBody, DraftNode};
use crate::models::weights;
use crate::random::Random;
use crate::reading::Bound;
use crate::spell;

const LARGEST_VALUE: u32 = (1 << 28) - 1;

/// Every directed case of landings; the random parts differ from round to round.
pub fn pairs(random: &mut Random) -> Vec<Pair> {
    let mut pairs = [ends(), targets()].concat();
    pairs.extend((0..60).map(|_| fractions(random)));
    pairs.extend((0..60).map(|_| largest_constants(random)));
    pairs.extend((0..100).map(|_| large_sum(random)));
    pairs
}

/// An edge, with a reset or without, from 1 on or above it, up to 2 or below it, into each invariant
/// that ends there. The row is blocked, or its successor has everything, up to 1, or nothing.
fn ends() -> Vec<Pair> {
    let mut pairs = Vec::new();
    for (guard, invariant, resets) in shapes() {
        let model = one_edge(&guard, resets, false, &invariant);
        pairs.push((model.clone(), two_nodes(1, vec![], vec![], 0)));
        for value in [0, 1] {
            for zone in [vec![], vec![upper(1, 1, false)], vec![NEVER]] {
                pairs.push((model.clone(), two_nodes(value, vec![1], zone, 0)));
            }
        }
    }
    pairs
}

/// The same into a target. Its node has V or not, and nothing in its zone: in the first node's sum
/// stands V if there is a landing outside.
fn targets() -> Vec<Pair> {
    let mut pairs = Vec::new();
    for (guard, invariant, resets) in shapes() {
        let model = one_edge(&guard, resets, true, &invariant);
        for (value, next, zone) in [(0, 0, vec![]), (1, 1, vec![NEVER])] {
            pairs.push((model.clone(), two_nodes(value, vec![1], zone, next)));
        }
    }
    pairs
}

/// Guards, invariants and reset masks.
fn shapes() -> Vec<(Vec<Bound>, Vec<Bound>, u32)> {
    let mut invariants = vec![vec![], vec![NEVER]];
    for d in [0, 1, 2] {
        for strict in [false, true] {
            invariants.extend([vec![upper(1, d, strict)], vec![lower(1, d, strict)]]);
        }
    }
    invariants.push(vec![lower(1, 1, false), upper(1, 1, false)]);
    let mut shapes = Vec::new();
    for strict in 0..4 {
        let guard = vec![lower(1, 1, strict & 1 == 1), upper(1, 2, strict & 2 == 2)];
        for invariant in &invariants {
            shapes.extend([0, 1].map(|resets| (guard.clone(), invariant.clone(), resets)));
        }
    }
    shapes
}

/// Clocks with different fractional parts between 0 and 1, in the node's zone and in the guard, which
/// needs a scale of C + 1 at least; one of them lands outside, by a hair or not at all.
fn fractions(random: &mut Random) -> Pair {
    let clocks = 1 + random.below(4);
    let order = shuffled_clocks(random, clocks);
    let mut zone = vec![lower(order[0], 0, true)];
    zone.extend(order.windows(2).map(|pair| Bound {
        i: pair[0],
        j: pair[1],
        d: 0,
        strict: true,
    }));
    let guard: Vec<Bound> = order.iter().map(|&clock| upper(clock, 1, true)).collect();
    zone.extend(&guard);
    let clock = random.pick(&order);
    let landing = random.pick(&[
        upper(clock, 0, false),
        upper(clock, 1, true),
        lower(clock, 0, true),
        lower(clock, 1, false),
    ]);
    let resets = random.word() & random.word() & ((1 << clocks) - 1);
    let (head, edge) = (spell::head(clocks, 1), spell::edge(resets, 1, 1));
    let mut model = vec![head, spell::location(false), spell::ACTION];
    model.extend(spell::bounds(&guard));
    model.extend([edge, spell::location(false), spell::bound(&landing)]);
    model.push(spell::start(0));
    model.extend(spell::bounds(&zone));
    let held = random.pick(&[true, false, false]);
    let successor = if held { vec![] } else { vec![NEVER] };
    let nodes = vec![
        node(0, random.below(2) as u32, zone, vec![vec![1]]),
        node(1, 0, successor, vec![]),
    ];
    (model, table(1, nodes))
}

/// Guards and invariants with the largest constants, over up to four clocks.
fn largest_constants(random: &mut Random) -> Pair {
    let clocks = 1 + random.below(4);
    let resets = random.word() & random.word() & ((1 << clocks) - 1);
    let mut some = |count: usize| -> Vec<Bound> {
        let bound = |_| {
            let (clock, strict) = (1 + random.below(clocks), random.one_in(2));
            let d = random.pick(&[0, 1, 4094, 4095, 4095]);
            match random.one_in(2) {
                true => upper(clock, d, strict),
                false => lower(clock, d, strict),
            }
        };
        (0..count).map(bound).collect()
    };
    let (guard, landing, zone) = (some(2), some(2), some(1));
    let successor = [vec![], landing.clone(), vec![NEVER]];
    let mut model = vec![
        spell::head(clocks, 1),
        spell::location(false),
        spell::ACTION,
    ];
    model.extend(spell::bounds(&guard));
    model.extend([spell::edge(resets, 1, 1), spell::location(false)]);
    model.extend(spell::bounds(&landing));
    model.push(spell::start(0));
    let row = match random.below(4) {
        0 => vec![],
        _ => vec![1],
    };
    let nodes = vec![
        node(0, random.below(2) as u32, zone, vec![row]),
        node(1, 0, successor[random.below(3)].clone(), vec![]),
    ];
    (model, table(1, nodes))
}

/// Up to four edges with V up to 2^28 - 1, some of which land outside, always or now and then; the
/// node's value is near the least that fits, with V for those edges or without.
fn large_sum(random: &mut Random) -> Pair {
    let denominator = random.pick(&[65_535, 65_535, 65_534, 40_000, 7]);
    let weights = weights(random, denominator, 4);
    let whole = LARGEST_VALUE - random.pick(&[0, 0, 1, 12_345]);
    let mut model = vec![
        spell::head(1, denominator),
        spell::location(false),
        spell::bound(&upper(1, 2, false)),
        spell::ACTION,
    ];
    // Location 1 is always inside, location 2 now and then, location 3 never.
    let edges = weights.iter().map(|&weight| (1 + random.below(3), weight));
    let edges: Vec<(usize, u32)> = edges.collect();
    model.extend(edges.iter().map(|&(to, weight)| spell::edge(0, to, weight)));
    model.push(spell::location(false));
    model.extend([spell::location(false), spell::bound(&upper(1, 1, false))]);
    model.extend([spell::location(false), spell::bound(&lower(1, 3, false))]);
    model.push(spell::start(0));
    let values: Vec<u32> = edges.iter().map(|_| random.word() % (whole + 1)).collect();
    let with_v = random.one_in(2);
    let terms = edges.iter().zip(&values).map(|(&(to, weight), &value)| {
        let value = if with_v && to > 1 { whole } else { value };
        u64::from(weight) * u64::from(value)
    });
    let least = terms.sum::<u64>().div_ceil(u64::from(denominator)) as u32;
    let start = (least + 1).saturating_sub(random.below(3) as u32);
    let mut nodes = vec![node(
        0,
        start.min(whole),
        vec![],
        vec![(1..=edges.len()).collect()],
    )];
    let successors = edges.iter().zip(&values);
    nodes.extend(successors.map(|(&(to, _), &value)| node(to, value, vec![], vec![])));
    (model, table(whole, nodes))
}

/// Nowhere.
const NEVER: Bound = upper(1, -1, false);

const fn upper(i: usize, d: i32, strict: bool) -> Bound {
    Bound { i, j: 0, d, strict }
}

const fn lower(j: usize, d: i32, strict: bool) -> Bound {
    Bound {
        i: 0,
        j,
        d: -d,
        strict,
    }
}

/// One clock, and one edge from location 0 to location 1.
fn one_edge(guard: &[Bound], resets: u32, target: bool, invariant: &[Bound]) -> Vec<u32> {
    let mut model = vec![spell::head(1, 1), spell::location(false), spell::ACTION];
    model.extend(spell::bounds(guard));
    model.extend([spell::edge(resets, 1, 1), spell::location(target)]);
    model.extend(spell::bounds(invariant));
    model.push(spell::start(0));
    model
}

/// A table for it with V = 1: node 0 with this value and row, node 1 with this zone and value.
fn two_nodes(value: u32, row: Vec<usize>, zone: Vec<Bound>, next: u32) -> Vec<u32> {
    let nodes = vec![
        node(0, value, vec![], vec![row]),
        node(1, next, zone, vec![]),
    ];
    table(1, nodes)
}

fn node(location: usize, value: u32, bounds: Vec<Bound>, rows: Vec<Vec<usize>>) -> DraftNode {
    DraftNode {
        location,
        bounds,
        value,
        body: DraftBody::Rows(rows),
    }
}

/// The start node is node 0.
fn table(whole: u32, nodes: Vec<DraftNode>) -> Vec<u32> {
    let start = 0;
    let draft = Draft {
        whole,
        nodes,
        start,
    };
    draft.words()
}
