//! Document 02, card 5: the words of a draft, its rounds, and refusals 58 to 60.

use std::collections::BTreeMap;

use super::judging::{one_edge, BLOCKED, TO_1};
use super::*;
use crate::models::{self, Size};
use crate::random::Random;
use crate::reading::{draft, parse_model, parse_table, Zone};
use crate::spell;

const V: u32 = 1_000_000;
const HEAD: u32 = 0x700F4240;
const START: u32 = 0xC0000000;
const ACTION: u32 = 0x30000000;
const LOCATION: u32 = 0x20000000;
const TARGET: u32 = 0x20000001;
const START_AT_0: u32 = 0x60000000;
/// A bound that no valuation meets.
const NEVER: u32 = 0x51000FFF;
/// What lent words are before a draft.
const MARK: u32 = 0xEEEEEEEE;
/// More words than any table that is drafted here has.
const ROOM: usize = 10_000;

/// A value word.
fn value(value: u32) -> u32 {
    0x90000000 | value
}

/// A head word.
fn head(clocks: u32, denominator: u32) -> u32 {
    0x11000000 | clocks << 20 | denominator
}

/// An edge word; bit 0 of `resets` is clock 1's.
fn edge(resets: u32, location: u32, weight: u32) -> u32 {
    0x40000000 | resets << 20 | location << 16 | weight
}

/// The table that is drafted in much room. What stands past it must be as it was.
fn drafted(model: &[u32], rounds: u64) -> Result<Vec<u32>, Refusal> {
    let mut lent = vec![MARK; ROOM];
    let answer = draft(model, rounds, &mut lent);
    let end = *answer.as_ref().unwrap_or(&0);
    assert!(lent[end..].iter().all(|&word| word == MARK));
    answer.map(|length| lent[..length].to_vec())
}

/// The value of node 0 of a table that is drafted and that the judge accepts.
fn certified(model: &[u32], rounds: u64) -> u32 {
    let table = drafted(model, rounds).unwrap();
    let certificate = judge(model, &table).unwrap();
    assert_eq!(certificate.whole, V);
    certificate.b
}

/// The words that M's draft has, but for two values.
fn drafted_for_m(first: u32, second: u32) -> Vec<u32> {
    let from_2_to_3 = [at_most(0, 1, -2), at_most(1, 0, 3)];
    [
        &[HEAD, 0x80000000, at_most(0, 1, 0), at_most(1, 0, 0)],
        &[value(first), TO_1, 0xB0000002, 0x81000000],
        &from_2_to_3[..],
        &[value(second), 0x82000000],
        &from_2_to_3[..],
        &[value(V), START],
    ]
    .concat()
}

#[test]
fn the_worked_timeline() {
    for (rounds, first, second) in [
        (0, V, V),
        (1, V, 0),
        (2, 100_000, 0),
        (1000, 100_000, 0),
        (1001, 100_000, 0),
    ] {
        let table = drafted(&M, rounds);
        assert_eq!(table, Ok(drafted_for_m(first, second)), "{rounds} rounds");
        assert_eq!(judge(&M, &table.unwrap()), accepted(first, V, 3));
    }
}

#[test]
fn the_words_of_m_as_they_are() {
    let words = drafted(&M, 2).unwrap();
    let written = "700F4240 80000000 50101000 51001000 900186A0 B0000001 B0000002 81000000 \
                   50100FFE 51001003 90000000 82000000 50100FFE 51001003 900F4240 C0000000";
    assert_eq!(spell::hex(&words), written);
}

#[test]
fn the_models_own_refusal_comes_first() {
    for (model, number, place) in [
        (vec![], 1, 0),
        (with(&M, 0, 0x1210000A), 2, 0),
        (with(&M, 6, 0x40020002), 4, 7),
        (with(&M, 6, 0x40030001), 5, 6),
        (with(&M, 10, NEVER), 6, 9),
    ] {
        for room in [0, 100] {
            let mut lent = vec![MARK; room];
            assert_eq!(draft(&model, 3, &mut lent), refused(number, place));
            assert_eq!(lent, vec![MARK; room]);
        }
    }
}

/// Two clocks; clock 2 is reset every `step`, so that clock 1 reads 0, `step`, 2 × `step` and so on.
fn ticking(step: i32) -> Vec<u32> {
    vec![
        head(2, 1),
        LOCATION,
        at_most(2, 0, step),
        ACTION,
        at_most(0, 2, -step),
        edge(0b10, 0, 1),
        START_AT_0,
        at_most(1, 0, 0),
        at_most(2, 0, 0),
    ]
}

/// The same, as long as clock 1 reads at most `last` then.
fn ticking_up_to(step: i32, last: i32) -> Vec<u32> {
    splice(&ticking(step), 4..4, &[at_most(1, 0, last)])
}

#[test]
fn a_65th_node() {
    assert_eq!(drafted(&ticking(1), 0), refused(58, 0));
    // Nodes for 0 to 63 are as many as there may be; one more tick is one too many.
    let table = drafted(&ticking_up_to(1, 63), 1000).unwrap();
    assert_eq!(judge(&ticking_up_to(1, 63), &table), accepted(0, V, 64));
    assert_eq!(drafted(&ticking_up_to(1, 64), 1000), refused(58, 0));
    // A node that is there already can be found again when 64 are there.
    let full = ticking_up_to(1, 63);
    let back = [ACTION, edge(0b11, 0, 1), ACTION, edge(0b11, 0, 1)];
    let end = full.len() - 3;
    let table = drafted(&splice(&full, end..end, &back), 1).unwrap();
    let judged = judge(&splice(&full, end..end, &back), &table);
    assert_eq!(judged, accepted(V, V, 64));
}

#[test]
fn a_65th_node_before_its_bounds() {
    // The 65th would be at 4096; with a step of 65 the 64th is at 4095, and with 66 it is beyond.
    assert_eq!(drafted(&ticking(64), 0), refused(58, 0));
    assert_eq!(drafted(&ticking(65), 0), refused(58, 0));
    assert_eq!(drafted(&ticking(66), 0), refused(59, 0));
}

#[test]
fn bounds_beyond_4095_at_node_0() {
    let idle = |start: &[u32]| [&[head(2, 1), LOCATION, START_AT_0], start].concat();
    let answer = |start: &[u32]| drafted(&idle(start), 0).map(|table| table.len());
    // Clock 2 is up to 8190, or up to 4095 or 4096.
    let upper = |d| [at_most(1, 0, 4095), at_most(2, 1, d)];
    assert_eq!(answer(&upper(4095)), refused(59, 0));
    assert_eq!(answer(&upper(1)), refused(59, 0));
    assert_eq!(answer(&upper(0)), Ok(10));
    // The same, below 4096, which is written with 4096 as well.
    assert_eq!(
        answer(&[below(1, 0, 4095), at_most(2, 1, 1)]),
        refused(59, 0)
    );
    assert_eq!(answer(&[below(1, 0, 4095), at_most(2, 1, 0)]), Ok(10));
    // Clock 2 from 4095 or 4096 on. Of the difference only one side is there, and no upper bound is.
    let lower = |d| [at_most(0, 1, -4095), at_most(1, 2, d)];
    assert_eq!(answer(&lower(-1)), refused(59, 0));
    assert_eq!(answer(&lower(0)), Ok(7));
    assert_eq!(
        answer(&[below(0, 1, -4095), at_most(1, 2, -1)]),
        refused(59, 0)
    );
    assert_eq!(answer(&[below(0, 1, -4095), at_most(1, 2, 0)]), Ok(7));
    // A target has bounds too.
    let target = with(&idle(&upper(1)), 1, TARGET);
    assert_eq!(drafted(&target, 0), refused(59, 0));
    // A bound between two clocks beyond 4095, of three, where each other bound is in range.
    let three = |d| {
        let between = [at_most(1, 2, 4000), at_most(2, 3, d)];
        [&[head(3, 1), LOCATION, START_AT_0], &between[..]].concat()
    };
    assert!(drafted(&three(95), 0).is_ok());
    assert_eq!(drafted(&three(96), 0), refused(59, 0));
}

#[test]
fn bounds_beyond_4095_at_a_later_node() {
    // At 0 and at 4095, then at 8190.
    assert_eq!(drafted(&ticking(4095), 0), refused(59, 0));
    let table = drafted(&ticking_up_to(4095, 4095), 2).unwrap();
    assert_eq!(judge(&ticking_up_to(4095, 4095), &table), accepted(0, V, 2));
    // It comes before 60, and so does 58.
    assert_eq!(draft(&ticking(4095), 0, &mut []), refused(59, 0));
    assert_eq!(draft(&ticking(1), 0, &mut []), refused(58, 0));
}

/// What is met first counts, by action and by edge: beside 63 nodes a node in range and one beyond.
#[test]
fn the_first_new_node_that_fails() {
    // Clock 1 at 62 × 66 = 4092 is the last of 63 nodes of location 0.
    let tick = [
        ACTION,
        at_most(0, 2, -66),
        at_most(1, 0, 4092),
        edge(0b10, 0, 2),
    ];
    // From there, clock 1 at 63 × 66 = 4158 and clock 2 at 66.
    let last = [ACTION, at_most(0, 2, -66), below(0, 1, -4092)];
    let (near, far) = (|weight| edge(0b01, 1, weight), |weight| edge(0, 1, weight));
    let answer = |actions: &[u32]| {
        let model = [
            &[head(2, 2), LOCATION, at_most(2, 0, 66)],
            &tick[..],
            actions,
            &[LOCATION, START_AT_0, at_most(1, 0, 0), at_most(2, 0, 0)],
        ];
        drafted(&model.concat(), 0).map(|table| locations(&table).len())
    };
    let action = |edges: &[u32]| [&last, edges].concat();
    assert_eq!(answer(&[]), Ok(63));
    assert_eq!(answer(&action(&[near(2)])), Ok(64));
    assert_eq!(answer(&action(&[far(2)])), refused(59, 0));
    // Behind the 64th node the one beyond is the 65th, and before it the 64th.
    let then = |first, second| answer(&[action(&[first]), action(&[second])].concat());
    assert_eq!(then(near(2), far(2)), refused(58, 0));
    assert_eq!(then(far(2), near(2)), refused(59, 0));
    assert_eq!(answer(&action(&[near(1), far(1)])), refused(58, 0));
    assert_eq!(answer(&action(&[far(1), near(1)])), refused(59, 0));
}

#[test]
fn lent_words_too_few_exactly_enough_and_more() {
    let table = drafted_for_m(100_000, 0);
    let lent_after = |room: usize| {
        let mut lent = vec![MARK; room];
        (draft(&M, 2, &mut lent), lent)
    };
    for room in [0, 1, 8, 14, 15] {
        assert_eq!(lent_after(room), (refused(60, 0), vec![MARK; room]));
    }
    assert_eq!(lent_after(16), (Ok(16), table.clone()));
    for more in [1, 5, 70_000] {
        let wanted = [&table[..], &vec![MARK; more]].concat();
        assert_eq!(lent_after(16 + more), (Ok(16), wanted));
    }
}

#[test]
fn where_all_land_outside() {
    // Clock 1 is reset, and must be 1 or more: node 1 has no valuation, and its row is blocked.
    let model = one_edge(&[], &[], 1, &[at_most(0, 1, -1), ACTION, edge(0, 0, 1)]);
    let words = |first, second| {
        vec![
            HEAD,
            0x80000000,
            at_most(0, 1, 0),
            at_most(0, 2, 0),
            value(first),
            TO_1,
            0x81000000,
            NEVER,
            value(second),
            BLOCKED,
            START,
        ]
    };
    assert_eq!(drafted(&model, 0), Ok(words(V, V)));
    // The edge adds V, whatever node 1 is worth.
    for rounds in [1, 2, 1000] {
        assert_eq!(drafted(&model, rounds), Ok(words(V, 0)));
        assert_eq!(certified(&model, rounds), V);
    }
    // A location that nobody can be at, though not by one bound alone: the same word, and never 59.
    let twice = [at_most(0, 1, -4095), at_most(0, 2, -4095), below(2, 0, 1)];
    let table = drafted(&one_edge(&[], &[], 0, &twice), 0).unwrap();
    assert_eq!(table[6..8], [0x81000000, NEVER]);
}

#[test]
fn an_empty_node_of_a_target() {
    let model = with(&one_edge(&[], &[], 1, &[below(0, 1, 0)]), 4, TARGET);
    let table = drafted(&model, 9).unwrap();
    assert_eq!(table[6..], [0x81000000, NEVER, value(V), START]);
    assert_eq!(certified(&model, 9), V);
}

#[test]
fn an_edge_that_can_land_outside_adds_v() {
    // Up to 4 the landings are inside, and node 1 holds those; above they are a miss.
    let open = one_edge(&[], &[], 0, &[at_most(1, 0, 4)]);
    assert_eq!([0, 1, 2].map(|rounds| certified(&open, rounds)), [V; 3]);
    let table = drafted(&open, 2).unwrap();
    let inside = Zone::of(
        2,
        &parse_table(&parse_model(&open).unwrap(), &table)
            .unwrap()
            .nodes[1]
            .bounds,
    );
    let wanted = parse_model(&open).unwrap().locations[1].invariant.clone();
    assert!(inside.same_as(&Zone::of(2, &wanted)));
    // Where the source's invariant ends at 4 as well, none is outside.
    let alike = one_edge(&[at_most(1, 0, 4)], &[], 0, &[at_most(1, 0, 4)]);
    assert_eq!([0, 1, 2].map(|rounds| certified(&alike, rounds)), [V, V, 0]);
    // Half the weight lands outside, half goes to a node that is worth 0 after a round.
    let half = [
        &[head(1, 2), LOCATION, ACTION, edge(0, 1, 1), edge(0, 2, 1)],
        &[LOCATION, LOCATION, at_most(1, 0, 4), START_AT_0][..],
    ]
    .concat();
    assert_eq!(
        [0, 1, 2, 3].map(|rounds| certified(&half, rounds)),
        [V, V, V / 2, V / 2]
    );
}

#[test]
fn an_empty_reach_is_blocked() {
    let shut = with(&M, 4, below(0, 1, -3));
    for (rounds, b) in [(0, V), (1, 0), (2, 0)] {
        let first = [HEAD, 0x80000000, at_most(0, 1, 0), at_most(1, 0, 0)];
        let wanted = [&first[..], &[value(b), BLOCKED, START]].concat();
        assert_eq!(drafted(&shut, rounds), Ok(wanted));
        assert_eq!(certified(&shut, rounds), b);
    }
}

#[test]
fn a_start_at_a_target_is_not_explored() {
    // It has an action and is worth V always; there are no rows.
    let model = [
        head(1, 1),
        TARGET,
        ACTION,
        edge(0, 1, 1),
        LOCATION,
        START_AT_0,
    ];
    for rounds in [0, 1, 1000] {
        let wanted = vec![HEAD, 0x80000000, at_most(0, 1, 0), value(V), START];
        assert_eq!(drafted(&model, rounds), Ok(wanted));
        assert_eq!(certified(&model, rounds), V);
    }
}

/// One clock, reset by every edge of the only action: back to location 0 with this weight of D, and to
/// location 1 with the rest if there is one.
fn again(weight: u32, denominator: u32) -> Vec<u32> {
    let back = edge(1, 0, weight);
    let on = (weight < denominator).then(|| edge(1, 1, denominator - weight));
    let start = [LOCATION, START_AT_0, at_most(1, 0, 0)];
    let action = [head(1, denominator), LOCATION, ACTION, back];
    action.into_iter().chain(on).chain(start).collect()
}

#[test]
fn a_cycle_of_probability_one_keeps_v() {
    for rounds in [0, 1, 2, 999, 1000, u64::MAX] {
        assert_eq!(certified(&again(7, 7), rounds), V);
        let words = drafted(&again(7, 7), rounds).unwrap();
        let node = [0x80000000, at_most(0, 1, 0), at_most(1, 0, 0)];
        let wanted = [&[HEAD][..], &node, &[value(V), 0xB0000000, START]].concat();
        assert_eq!(words, wanted);
    }
    // By way of a second location too.
    let two = [
        &[head(1, 3), LOCATION, ACTION, edge(1, 1, 3)],
        &[LOCATION, ACTION, edge(1, 0, 3), START_AT_0][..],
    ]
    .concat();
    assert_eq!(certified(&two, 1000), V);
}

#[test]
fn rounds_above_1000_count_as_1000() {
    let slow = again(65_534, 65_535);
    let of = |rounds| certified(&slow, rounds);
    assert!(of(998) > of(999) && of(999) > of(1000) && of(1000) > 0);
    for rounds in [1001, 1002, 5000, 1 << 32, 1 << 32 | 1, u64::MAX] {
        assert_eq!(of(rounds), of(1000));
    }
    // By the recurrence itself: the first round has V for location 1 as well.
    let mut value = u64::from(V);
    for rounds in 1..=1000 {
        let rest = if rounds == 1 { u64::from(V) } else { 0 };
        value = (65_534 * value + rest).div_ceil(65_535);
    }
    assert_eq!(u64::from(of(1000)), value);
}

#[test]
fn rounded_up() {
    // A third of V is 333,333 and a third: 2 in 3 go to a place without a miss.
    let third = [
        &[head(1, 3), LOCATION, ACTION, edge(0, 1, 2), edge(0, 2, 1)],
        &[LOCATION, TARGET, START_AT_0][..],
    ]
    .concat();
    assert_eq!(
        [1, 2, 3].map(|rounds| certified(&third, rounds)),
        [V, 333_334, 333_334]
    );
    // Halving and rounding up stays at 1.
    assert_eq!(certified(&again(1, 2), 20), 2);
    assert_eq!(certified(&again(1, 2), 21), 1);
    assert_eq!(certified(&again(1, 2), 1000), 1);
}

/// All values are replaced together: a chain needs a round for each of its nodes.
#[test]
fn together() {
    let chain = [
        &[head(1, 1), LOCATION, ACTION, edge(1, 1, 1)],
        &[LOCATION, ACTION, edge(1, 2, 1)][..],
        &[LOCATION, ACTION, edge(1, 3, 1)],
        &[LOCATION, START_AT_0],
    ]
    .concat();
    let falls = [0, 1, 2, 3, 4, 5].map(|rounds| certified(&chain, rounds));
    assert_eq!(falls, [V, V, V, V, 0, 0]);
    // The other way round too: node 2 leads to node 1, which has fallen in the round before.
    let backward = [
        &[head(1, 2), LOCATION, ACTION, edge(1, 1, 1), edge(1, 2, 1)],
        &[LOCATION, LOCATION, ACTION, edge(1, 1, 2), START_AT_0][..],
    ]
    .concat();
    let falls = [0, 1, 2, 3, 4].map(|rounds| certified(&backward, rounds));
    assert_eq!(falls, [V, V, V / 2, 0, 0]);
}

#[test]
fn the_largest_of_the_rows() {
    // A tenth by the first action, a fifth by the second, nothing by the third, which never can.
    let action = |guard: &[u32], miss: u32| {
        let edges = [edge(0, 1, 10 - miss), edge(0, 2, miss)];
        [&[ACTION], guard, &edges].concat()
    };
    let model = [
        &[head(1, 10), LOCATION][..],
        &action(&[], 1),
        &action(&[], 2),
        &action(&[NEVER], 9),
        &[LOCATION, TARGET, START_AT_0],
    ]
    .concat();
    assert_eq!(certified(&model, 2), V / 5);
    let table = drafted(&model, 2).unwrap();
    let rows = [TO_1, 0xB0000002, TO_1, 0xB0000002, BLOCKED];
    assert_eq!(table[4..9], rows);
}

/// The node numbers of all B words.
fn successors(table: &[u32]) -> Vec<u32> {
    let named = table.iter().filter(|&&word| word >> 28 == 0xB);
    named.map(|word| word & 63).collect()
}

/// The locations of all nodes.
fn locations(table: &[u32]) -> Vec<u32> {
    let nodes = table.iter().filter(|&&word| word >> 28 == 8);
    nodes.map(|word| word >> 24 & 15).collect()
}

#[test]
fn in_order_of_discovery() {
    // From 0 to 2 and 1, then by the second action to 3; from 2 to 4; from 1 to 5. Clocks are reset.
    let to = |location, weight| edge(1, location, weight);
    let model = [
        &[head(1, 2), LOCATION, ACTION, to(2, 1), to(1, 1)][..],
        &[ACTION, to(3, 2)],
        &[LOCATION, ACTION, to(5, 2)],
        &[LOCATION, ACTION, to(4, 1), to(0, 1)],
        &[LOCATION, LOCATION, TARGET, START_AT_0, at_most(1, 0, 0)],
    ]
    .concat();
    let table = drafted(&model, 0).unwrap();
    assert_eq!(locations(&table), [0, 2, 1, 3, 4, 5]);
    assert_eq!(successors(&table), [1, 2, 3, 4, 0, 5]);
}

#[test]
fn the_same_valuations_are_one_node() {
    // Twice by edges of one action, with the reset or, since the guard is clock 1 at most 0, without; then
    // by another action, whose bounds are others and mean the same.
    let model = [
        &[head(1, 2), LOCATION, ACTION, at_most(1, 0, 0)][..],
        &[edge(1, 1, 1), edge(0, 1, 1)],
        &[ACTION, at_most(1, 0, 5), edge(1, 1, 2)],
        &[LOCATION, at_most(1, 0, 7), ACTION, edge(1, 1, 2)],
        &[START_AT_0],
    ]
    .concat();
    let table = drafted(&model, 3).unwrap();
    assert_eq!(locations(&table), [0, 1]);
    assert_eq!(successors(&table), [1, 1, 1, 1]);
    // Strict or not is another zone, and so is one that holds the other.
    let guards = |first, second| {
        let action = |guard| [ACTION, guard, edge(0, 1, 1)];
        let words = [action(first), action(second)].concat();
        let model = [&[head(1, 1), LOCATION], &words[..], &[LOCATION, START_AT_0]].concat();
        locations(&drafted(&model, 1).unwrap()).len()
    };
    assert_eq!(guards(at_most(1, 0, 3), at_most(1, 0, 3)), 2);
    assert_eq!(guards(at_most(1, 0, 3), below(1, 0, 3)), 3);
    assert_eq!(guards(at_most(1, 0, 3), at_most(1, 0, 2)), 3);
    assert_eq!(guards(at_most(0, 1, 0), at_most(0, 1, 4)), 2);
}

#[test]
fn the_same_zone_at_two_locations_is_two_nodes() {
    let model = [
        &[head(1, 3), LOCATION, ACTION, edge(1, 1, 1), edge(1, 2, 1)][..],
        &[edge(1, 0, 1), LOCATION, LOCATION, START_AT_0],
        &[at_most(1, 0, 0)],
    ]
    .concat();
    let table = drafted(&model, 0).unwrap();
    assert_eq!(locations(&table), [0, 1, 2]);
    assert_eq!(successors(&table), [1, 2, 0]);
    // Two that are empty too, and each is found again.
    let late = [at_most(0, 1, -1)];
    let model = [
        &[head(1, 4), LOCATION, ACTION, edge(1, 1, 1), edge(1, 2, 1)][..],
        &[edge(1, 2, 1), edge(1, 1, 1), LOCATION],
        &late,
        &[LOCATION],
        &late,
        &[START_AT_0, at_most(1, 0, 0)],
    ]
    .concat();
    let table = drafted(&model, 0).unwrap();
    assert_eq!(locations(&table), [0, 1, 2]);
    assert_eq!(successors(&table), [1, 2, 2, 1]);
}

/// All finite bounds by i, then j: with three clocks, two of them without an upper bound.
#[test]
fn the_bounds_of_a_node() {
    let start = [at_most(2, 0, 4), below(1, 2, 3), at_most(0, 3, -2)];
    let model = [&[head(3, 1), TARGET, START_AT_0], &start[..]].concat();
    let bounds = [
        at_most(0, 1, 0),
        at_most(0, 2, 0),
        at_most(0, 3, -2),
        below(1, 0, 7),
        below(1, 2, 3),
        below(1, 3, 5),
        at_most(2, 0, 4),
        at_most(2, 1, 4),
        at_most(2, 3, 2),
    ];
    let wanted = [&[HEAD, 0x80000000], &bounds[..], &[value(V), START]].concat();
    assert_eq!(drafted(&model, 0), Ok(wanted));
}

/// The start's own bounds and the invariant, and neither alone.
#[test]
fn the_start_zone() {
    let model = [
        head(1, 1),
        TARGET,
        at_most(1, 0, 5),
        START_AT_0,
        below(0, 1, -2),
    ];
    let table = drafted(&model, 0).unwrap();
    assert_eq!(table[2..4], [below(0, 1, -2), at_most(1, 0, 5)]);
}

/// What must hold of a draft, whatever the model: it is accepted with V, node 0 is the start, nodes are
/// numbered as B words name them first, no two are the same, and their bounds are the zone's.
fn hold_against_the_card(words: &[u32], table: &[u32]) -> u32 {
    let said = || format!("{} / {}", spell::hex(words), spell::hex(table));
    let model = parse_model(words).unwrap();
    let parsed = parse_table(&model, table).unwrap();
    let certificate =
        judge(words, table).unwrap_or_else(|refusal| panic!("{refusal:?} {}", said()));
    assert_eq!((certificate.whole, parsed.start.node), (V, 0), "{}", said());
    let mut found = 1;
    for named in successors(table) {
        assert!(named <= found, "{}", said());
        found = found.max(named + 1);
    }
    assert_eq!(found as usize, parsed.nodes.len(), "{}", said());
    let zone = |bounds: &[_]| Zone::of(model.clocks, bounds);
    for (number, node) in parsed.nodes.iter().enumerate() {
        let here = zone(&node.bounds);
        let earlier = parsed.nodes[..number].iter();
        let mut same = earlier.filter(|other| other.location == node.location);
        assert!(
            !same.any(|other| zone(&other.bounds).same_as(&here)),
            "{}",
            said()
        );
        let all = if here.is_empty() {
            vec![NEVER]
        } else {
            spell::bounds(&here.all_bounds())
        };
        assert_eq!(spell::bounds(&node.bounds), all, "{}", said());
    }
    certificate.b
}

/// Random small models: each draft is accepted, and more rounds never give a larger fraction.
#[test]
fn drafts_of_random_models() {
    let mut random = Random::new(55);
    let mut answers = BTreeMap::new();
    let (mut fell, mut between) = (0, 0);
    for _ in 0..1_500 {
        let size = Size::random(&mut random);
        let words = models::model(&mut random, &size);
        let mut before = V;
        for rounds in [0, 1, 2, 3, 5, 20, 1000, 1001] {
            let drafted = drafted(&words, rounds);
            let number = drafted
                .as_ref()
                .map_or_else(|refusal| refusal.number, |_| 0);
            *answers.entry(number).or_insert(0) += 1;
            let Ok(table) = drafted else {
                assert_eq!(read_model(&words).is_ok(), number > 6);
                continue;
            };
            let b = hold_against_the_card(&words, &table);
            assert!(b <= before, "{} {rounds}", spell::hex(&words));
            assert!(rounds > 0 || b == V);
            fell += usize::from(b < before);
            between += usize::from(0 < b && b < V);
            before = b;
        }
    }
    assert!(
        answers[&0] > 5_000 && answers[&58] > 100 && answers[&59] > 20,
        "{answers:?}"
    );
    assert!(fell > 300 && between > 300, "{fell} {between}");
}
