//! Cuts at the limits of document 02, card 1: their words, the numbers that they name, the order of
//! the refusals, and parts that are inside by a hair or not at all.

use std::collections::BTreeSet;

use super::{idle_model, shuffled_clocks, Pair};
use crate::drafts::{Draft, DraftBody, DraftNode};
use crate::random::Random;
use crate::reading::Bound;
use crate::spell;
use crate::worked::{CUT_TABLE, MODEL, TABLE};

/// Every directed case of cuts; the random parts differ from round to round.
pub fn pairs(random: &mut Random) -> Vec<Pair> {
    let mut pairs = [fields(), places(), numbers(), orders(), edges()].concat();
    pairs.extend((0..60).map(|_| fractions(random)));
    pairs.extend((0..60).map(|_| largest_constants(random)));
    pairs
}

/// D words with each clock, with d at its limits and with each spare bit, over 1 to 4 clocks. Both
/// parts may be anything.
fn fields() -> Vec<Pair> {
    let mut cuts = Vec::new();
    for i in 0..=5_u32 {
        for j in 0..=5_u32 {
            cuts.push(0xD000_1001 | i << 24 | j << 20);
        }
    }
    for d in [0, 1, 0xFFF, 0x1000, 0x1FFF] {
        cuts.extend([0xD100_0000 | d, 0xD108_0000 | d]);
    }
    cuts.extend((13..=18).map(|bit| 0xD100_1001 | 1 << bit));
    let mut pairs = Vec::new();
    for clocks in 1..=4 {
        let head = spell::head(clocks, 1);
        let model = [head, spell::location(false), spell::start(0)];
        for &cut in &cuts {
            let node = [spell::node(0), spell::value(0)];
            let parts = [cut, spell::successor(1), spell::successor(1)];
            let ends = [&node[..], &[spell::start_node(0)]].concat();
            let table = [&[spell::table_head(1)], &node[..], &parts, &ends].concat();
            pairs.push((model.to_vec(), table));
        }
    }
    pairs
}

/// Document 01's table, and the one with a cut, each with a D word or a whole cut put in at each place,
/// with a D word in place of each word, and with each word dropped or doubled.
fn places() -> Vec<Pair> {
    let cut = &CUT_TABLE[4..7];
    let mut tables = Vec::new();
    for table in [&TABLE[..], &CUT_TABLE] {
        for place in 0..=table.len() {
            let (before, behind) = table.split_at(place);
            tables.push([before, cut, behind].concat());
            tables.push([before, &cut[..1], behind].concat());
            if let [first, rest @ ..] = behind {
                tables.push([before, &cut[..1], rest].concat());
                tables.push([before, rest].concat());
                tables.push([before, &[*first], behind].concat());
            }
        }
    }
    let pair = |table| (MODEL.to_vec(), table);
    tables.into_iter().map(pair).collect()
}

/// A row of cuts in 1, 2, 3, 63 or 64 nodes in which each names the next one twice and the last is
/// whole, with one number changed: to one below, its own, one above or none that is there.
fn numbers() -> Vec<Pair> {
    let mut pairs = Vec::new();
    for count in [1, 2, 3, 63, 64] {
        let last: usize = count - 1;
        for changed in distinct(last, [0, 1, last / 2, last.saturating_sub(1), last]) {
            let (below, above) = (changed.saturating_sub(1), changed + 1);
            for number in distinct(63, [0, below, changed, above, above + 1, last, count]) {
                for side in 0..2 {
                    pairs.push(row_of_cuts(count, changed, side, number));
                }
            }
        }
    }
    pairs
}

/// The numbers, none above `most`, each once.
fn distinct<const N: usize>(most: usize, numbers: [usize; N]) -> BTreeSet<usize> {
    numbers.map(|number| number.min(most)).into()
}

fn row_of_cuts(count: usize, changed: usize, side: usize, number: usize) -> Pair {
    let body = |at: usize| {
        let mut parts = [at + 1; 2];
        if at == changed {
            parts = [parts[0].min(count - 1); 2];
            parts[side] = number;
        } else if at == count - 1 {
            return DraftBody::Rows(Vec::new());
        }
        DraftBody::Cut(at_most(1, at as i32), parts)
    };
    let nodes = (0..count).map(|at| node(0, 3, Vec::new(), body(at)));
    (idle_model(), table(nodes.collect(), changed))
}

/// A cut node with a node below it, and above it one for each location, value and zone that is right or
/// wrong; each two of them for the parts, and a number that is not there.
fn orders() -> Vec<Pair> {
    let locations = [spell::location(false), spell::location(false)];
    let target = spell::location(true);
    let head = [spell::head(1, 1)];
    let model = [&head[..], &locations, &[target, spell::start(0)]].concat();
    let cut_at = 1;
    let rows = || DraftBody::Rows(Vec::new());
    let mut nodes = vec![node(0, 5, Vec::new(), rows()); 2];
    for location in 0..2 {
        for value in [4, 5, 6] {
            for zone in [vec![], vec![at_most(1, 1)], vec![at_least(1, 1)]] {
                nodes.push(node(location, value, zone, rows()));
            }
        }
    }
    nodes.push(node(2, 7, Vec::new(), rows()));
    let mut pairs = Vec::new();
    for first in 0..=nodes.len() {
        for second in 0..=nodes.len() {
            let mut nodes = nodes.clone();
            nodes[cut_at].body = DraftBody::Cut(at_most(1, 1), [first, second]);
            pairs.push((model.clone(), table(nodes, 0)));
        }
    }
    pairs
}

/// Clock 1 at most or below 3, cut at, or below, each whole number from -1 to 4, into nodes up to and
/// from each: all that differ by one or in strictness, at one scale or at all.
fn edges() -> Vec<Pair> {
    let model = [&idle_model()[..], &[spell::bound(&at_most(1, 0))]].concat();
    let mut pairs = Vec::new();
    for cut in ends(&[-1, 0, 1, 2, 3, 4]) {
        for first in ends(&[0, 1, 2, 3]) {
            for rest in ends(&[0, 1, 2, 3]) {
                let strict = first.strict != rest.strict;
                let zone = vec![Bound {
                    strict,
                    ..at_most(1, 3)
                }];
                let table = cut_in_two(zone, cut, vec![first], vec![rest.negated()]);
                pairs.push((model.clone(), table));
            }
        }
    }
    pairs
}

/// Clock 1 at most and below each.
fn ends(constants: &[i32]) -> Vec<Bound> {
    let both = |&d: &i32| {
        [false, true].map(|strict| Bound {
            strict,
            ..at_most(1, d)
        })
    };
    constants.iter().flat_map(both).collect()
}

/// Clocks with different fractional parts between 0 and 1, which needs a scale of C + 1, cut where one
/// part is empty or has all; the nodes hold the zone, or nothing.
fn fractions(random: &mut Random) -> Pair {
    let clocks = 1 + random.below(4);
    let order = shuffled_clocks(random, clocks);
    let below = |i, j, d| Bound {
        i,
        j,
        d,
        strict: true,
    };
    let mut zone = vec![below(0, order[0], 0)];
    zone.extend(order.windows(2).map(|pair| below(pair[0], pair[1], 0)));
    // The last one's would do. With all of them there are few valuations to try.
    zone.extend(order.iter().map(|&clock| below(clock, 0, 1)));
    let cut = Bound {
        strict: random.one_in(2),
        ..at_most(random.pick(&order), random.pick(&[0, 0, 1]))
    };
    let mut holder = || {
        if random.one_in(2) {
            zone.clone()
        } else {
            vec![below(1, 0, 0)]
        }
    };
    let (first, rest) = (holder(), holder());
    let mut model = vec![
        spell::head(clocks, 1),
        spell::location(false),
        spell::start(0),
    ];
    model.extend(spell::bounds(&zone));
    (model, cut_in_two(zone, cut, first, rest))
}

/// Four clocks in a chain of the largest steps, cut at or near the largest constant; each node holds
/// its part and a bound more or less.
fn largest_constants(random: &mut Random) -> Pair {
    let order = shuffled_clocks(random, 4);
    let mut zone = Vec::new();
    let mut before = 0;
    for &clock in &order {
        let step = |i, j, d| Bound {
            i,
            j,
            d,
            strict: false,
        };
        zone.push(step(clock, before, 4095));
        if random.one_in(2) {
            zone.push(step(before, clock, -4095));
        }
        before = clock;
    }
    let cut = Bound {
        strict: random.one_in(2),
        ..at_most(
            random.pick(&order),
            random.pick(&[4095, 4095, 4094, -4095, 0]),
        )
    };
    let mut holder = |side: Bound| {
        let mut bounds = [&zone[..], &[side]].concat();
        let at = random.below(bounds.len());
        match random.below(4) {
            0 => bounds[at].strict = !bounds[at].strict,
            1 => bounds[at].d += if bounds[at].d > 0 { -1 } else { 1 },
            2 => drop(bounds.remove(at)),
            _ => {}
        }
        bounds
    };
    let (first, rest) = (holder(cut), holder(cut.negated()));
    let mut model = vec![spell::head(4, 1), spell::location(false), spell::start(0)];
    model.extend(spell::bounds(&zone));
    (model, cut_in_two(zone, cut, first, rest))
}

/// Node 0 has the zone and the cut, nodes 1 and 2 are for its parts; location 0 has no actions.
fn cut_in_two(zone: Vec<Bound>, cut: Bound, first: Vec<Bound>, rest: Vec<Bound>) -> Vec<u32> {
    let rows = || DraftBody::Rows(Vec::new());
    let nodes = vec![
        node(0, 0, zone, DraftBody::Cut(cut, [1, 2])),
        node(0, 0, first, rows()),
        node(0, 0, rest, rows()),
    ];
    table(nodes, 0)
}

fn at_most(i: usize, d: i32) -> Bound {
    Bound {
        i,
        j: 0,
        d,
        strict: false,
    }
}

fn at_least(j: usize, d: i32) -> Bound {
    Bound {
        i: 0,
        j,
        d: -d,
        strict: false,
    }
}

fn node(location: usize, value: u32, bounds: Vec<Bound>, body: DraftBody) -> DraftNode {
    DraftNode {
        location,
        bounds,
        value,
        body,
    }
}

fn table(nodes: Vec<DraftNode>, start: usize) -> Vec<u32> {
    let draft = Draft {
        whole: 7,
        nodes,
        start,
    };
    draft.words()
}
