//! Bounds with the largest constants, and zones that only fine scales have valuations in.

use super::{shuffled_clocks, Pair};
use crate::drafts::{Draft, DraftBody, DraftNode};
use crate::random::Random;
use crate::reading::Bound;
use crate::spell;

/// A bound word with the least and the greatest d, with the field 0 and with a spare bit, at each
/// place where a bound may stand.
pub fn field_limits() -> Vec<Pair> {
    let mut pairs = Vec::new();
    for d in [0, 1, 0x1000, 0x1FFF, 0x2000] {
        for clocks in [0x5100_0000, 0x5010_0000, 0x5108_0000, 0x5018_0000] {
            pairs.extend(bound_everywhere(clocks | d));
        }
    }
    pairs
}

/// The bound as invariant, guard and start bound, and in a node.
fn bound_everywhere(bound: u32) -> Vec<Pair> {
    let (head, location) = (spell::head(1, 1), spell::location(false));
    let (edge, start) = (spell::edge(1, 0, 1), spell::start(0));
    let models = [
        [head, location, bound, spell::ACTION, edge, start],
        [head, location, spell::ACTION, bound, edge, start],
        [head, location, spell::ACTION, edge, start, bound],
    ];
    let (head, node, value) = (spell::table_head(1), spell::node(0), spell::value(0));
    let (next, start) = (spell::successor(0), spell::start_node(0));
    let bounded = vec![head, node, bound, value, next, start];
    let blocked = vec![head, node, value, spell::BLOCKED, start];
    let both = |model: [u32; 6]| {
        [
            (model.to_vec(), bounded.clone()),
            (model.to_vec(), blocked.clone()),
        ]
    };
    models.into_iter().flat_map(both).collect()
}

/// Start bounds in a chain of the largest steps, up or down over all four clocks, against a node
/// with a chain that is the same or differs in one place.
pub fn largest_constants(random: &mut Random) -> Pair {
    let order = shuffled_clocks(random, 4);
    let first = chain(random, &order);
    let mut second = if random.one_in(2) {
        first.clone()
    } else {
        chain(random, &order)
    };
    let at = random.below(second.len());
    match random.below(4) {
        0 => second[at].strict = !second[at].strict,
        1 => second[at].d += if second[at].d > 0 { -1 } else { 1 },
        2 => drop(second.remove(at)),
        _ => {}
    }
    let mut model = vec![spell::head(4, 1), spell::location(false), spell::start(0)];
    model.extend(spell::bounds(&first));
    (model, table(vec![node(0, second, Vec::new())]))
}

/// Each clock of the order is at most, or at least, 4,095 above the one before; sometimes both, which
/// leaves one valuation, or none if a bound is strict.
fn chain(random: &mut Random, order: &[usize]) -> Vec<Bound> {
    let (up, down) = random.pick(&[(true, false), (false, true), (true, true), (true, true)]);
    let mut bounds = Vec::new();
    let mut before = 0;
    for &clock in order {
        let strict = random.one_in(10);
        let bound = |i, j, d| Bound { i, j, d, strict };
        if up {
            bounds.push(bound(clock, before, 4095));
        }
        if down {
            bounds.push(bound(before, clock, -4095));
        }
        before = clock;
    }
    bounds
}

/// Clocks with different fractional parts between 0 and 1. That alone needs a scale of C + 1; a delay
/// that brings the largest above 1 and leaves the next one below needs C + 2. The table is wrong at
/// the row or at the start, or right.
pub fn fractions(random: &mut Random) -> Pair {
    let clocks = 1 + random.below(4);
    let order = shuffled_clocks(random, clocks);
    let mut zone = vec![below(0, order[0], 0), below(order[clocks - 1], 0, 1)];
    zone.extend(order.windows(2).map(|pair| below(pair[0], pair[1], 0)));
    if random.one_in(4) {
        zone.swap_remove(random.below(zone.len()));
    }
    let mut guard = vec![below(0, order[clocks - 1], -1)];
    guard.extend(
        order
            .iter()
            .rev()
            .skip(1)
            .take(1)
            .map(|&clock| below(clock, 0, 1)),
    );

    let head = spell::head(clocks, 1);
    let mut model = vec![head, spell::location(false), spell::ACTION];
    model.extend(spell::bounds(&guard));
    let edge = spell::edge(random.word() & 1, 1, 1);
    model.extend([edge, spell::location(false), spell::start(0)]);
    model.extend(spell::bounds(&zone));
    let nothing = vec![below(1, 0, 0)];
    let row = if random.one_in(2) { vec![] } else { vec![1] };
    let start = if random.one_in(3) {
        nothing.clone()
    } else {
        zone
    };
    (
        model,
        table(vec![node(0, start, vec![row]), node(1, nothing, vec![])]),
    )
}

fn below(i: usize, j: usize, d: i32) -> Bound {
    Bound {
        i,
        j,
        d,
        strict: true,
    }
}

fn node(location: usize, bounds: Vec<Bound>, rows: Vec<Vec<usize>>) -> DraftNode {
    DraftNode {
        location,
        bounds,
        value: 0,
        body: DraftBody::Rows(rows),
    }
}

fn table(nodes: Vec<DraftNode>) -> Vec<u32> {
    let draft = Draft {
        whole: 1,
        nodes,
        start: 0,
    };
    draft.words()
}
