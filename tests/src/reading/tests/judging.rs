//! Refusals 15 to 21: reach, successors, sums and the start. Where edges land: see `landings`.

use super::*;
use crate::reading::{parse_model, parse_table, reach_of_row, Zone};

/// A model of two clocks with one action: location 0 (`invariant`, `guard`) to location 1
/// (`landing`) by one edge with this reset mask.
pub fn one_edge(invariant: &[u32], guard: &[u32], resets: u32, landing: &[u32]) -> Vec<u32> {
    let head: &[u32] = &[0x11200001, 0x20000000];
    let edge: &[u32] = &[0x40010001 | resets << 20, 0x20000000];
    [
        head,
        invariant,
        &[0x30000000],
        guard,
        edge,
        landing,
        &[0x60000000],
    ]
    .concat()
}

/// A table for it: node 0 (`zone`) with `row`, then node 1 (`successor`). Its row begins at word
/// 3 + the length of `zone`. Rows that pass end in 21 where node 0 lacks some start valuation.
fn two_nodes(zone: &[u32], row: u32, successor: &[u32]) -> Vec<u32> {
    let head: &[u32] = &[0x70000001, 0x80000000];
    let tail: &[u32] = &[0x90000000, 0xC0000000];
    [head, zone, &[0x90000000, row, 0x81000000], successor, tail].concat()
}

pub const TO_1: u32 = 0xB0000001;
pub const BLOCKED: u32 = 0xA0000000;

#[test]
fn the_reach_of_m() {
    let model = parse_model(&M).unwrap();
    let reach = reach_of_row(&model, &parse_table(&model, &T).unwrap(), 0, 0);
    let wanted = Zone::of(1, &model.locations[0].actions[0].guard);
    let wanted = wanted.meet(&Zone::of(1, &model.locations[0].invariant));
    assert!(reach.inside(&wanted) && wanted.inside(&reach) && !reach.is_empty());
}

#[test]
fn a_node_starts_from_its_invariant_only() {
    // The zone allows clock 1 above 3, the invariant does not; the successor holds at most 3.
    let model = one_edge(&[at_most(1, 0, 3)], &[], 0, &[]);
    assert_eq!(
        judge(&model, &two_nodes(&[], TO_1, &[at_most(1, 0, 3)])),
        accepted(0, 1, 2)
    );
    // From clocks 5 and 0 no delay is allowed, so nothing is to be held.
    let outside = [at_most(0, 1, -5)];
    assert_eq!(
        judge(&model, &two_nodes(&outside, BLOCKED, &[])),
        refused(21, 7)
    );
    // A lower bound as an invariant is not met by waiting for it.
    let late = one_edge(&[at_most(0, 1, -2)], &[], 0, &[]);
    let early = [at_most(1, 0, 1)];
    assert_eq!(
        judge(&late, &two_nodes(&early, BLOCKED, &[])),
        refused(21, 7)
    );
    assert_eq!(judge(&late, &two_nodes(&[], BLOCKED, &[])), refused(16, 3));
}

#[test]
fn a_delay_keeps_differences_and_stops_at_the_invariant() {
    let equal = [at_most(1, 2, 0), at_most(2, 1, 0)];
    let model = one_edge(&[at_most(1, 0, 3)], &[], 0, &[]);
    // Both clocks run alike, so clock 2 stops at 3 as well.
    let held = [at_most(2, 0, 3), at_most(1, 2, 0)];
    assert_eq!(
        judge(&model, &two_nodes(&equal, TO_1, &held)),
        refused(21, 10)
    );
    assert_eq!(
        judge(&model, &two_nodes(&equal, TO_1, &[at_most(2, 0, 2)])),
        refused(18, 5)
    );
    assert_eq!(
        judge(&model, &two_nodes(&equal, TO_1, &[below(2, 0, 3)])),
        refused(18, 5)
    );
}

#[test]
fn resets_come_after_the_guard() {
    let model = one_edge(&[], &[at_most(0, 1, -2)], 1, &[]);
    // Clock 1 is 0 after the reset, whatever the guard asked of it before.
    assert_eq!(
        judge(&model, &two_nodes(&[], TO_1, &[at_most(1, 0, 0)])),
        accepted(0, 1, 2)
    );
    assert_eq!(judge(&model, &two_nodes(&[], BLOCKED, &[])), refused(16, 3));
    // Clock 2 keeps what it had: from equal clocks it is at least 2.
    let equal = [at_most(1, 2, 0), at_most(2, 1, 0)];
    let kept = [at_most(0, 2, -2), at_most(1, 0, 0)];
    assert_eq!(
        judge(&model, &two_nodes(&equal, TO_1, &kept)),
        refused(21, 10)
    );
    assert_eq!(
        judge(&model, &two_nodes(&equal, TO_1, &[below(0, 2, -2)])),
        refused(18, 5)
    );
}

#[test]
fn location_then_reach_successor_by_successor() {
    // Node 1 holds at most 2: 18 at the first B comes before 17 at the second.
    let tight = splice(&T, 7..7, &[at_most(1, 0, 2)]);
    assert_eq!(judge(&M, &with(&tight, 5, 0xB0000001)), refused(18, 4));
    // 17 before 18 at one word: node 0 has the wrong location and a zone too small.
    assert_eq!(judge(&M, &with(&T, 4, 0xB0000000)), refused(17, 4));
    assert_eq!(judge(&M, &with(&T, 5, 0xB0000001)), refused(17, 5));
    // 19 comes after every 17 and 18 of its row.
    let cheap = with(&T, 3, 0x90000000);
    assert_eq!(judge(&M, &with(&cheap, 5, 0xB0000001)), refused(17, 5));
    assert_eq!(
        judge(&M, &splice(&cheap, 9..9, &[at_most(1, 0, 2)])),
        refused(18, 5)
    );
}

#[test]
fn an_empty_reach_leaves_17_and_19() {
    let shut = with(&M, 4, below(0, 1, -3));
    assert_eq!(judge(&shut, &T), accepted(1, 10, 3));
    assert_eq!(
        judge(&shut, &splice(&T, 7..7, &[at_most(1, 0, 2)])),
        accepted(1, 10, 3)
    );
    assert_eq!(judge(&shut, &with(&T, 4, 0xB0000002)), refused(17, 4));
    assert_eq!(judge(&shut, &with(&T, 3, 0x90000000)), refused(19, 4));
    // A blocked row has no sum.
    let blocked = splice(&with(&T, 3, 0x90000000), 4..6, &[BLOCKED]);
    assert_eq!(judge(&shut, &blocked), accepted(0, 10, 3));
}

#[test]
fn sums_do_not_wrap() {
    let most = (1 << 28) - 1;
    let model = [
        0x1110FFFF, 0x20000000, 0x30000000, 0x4001FFFE, 0x40010001, 0x20000000, 0x60000000,
    ];
    let table = |value: u32, next: u32| {
        let row: &[u32] = &[
            0xB0000001,
            0xB0000001,
            0x81000000,
            0x90000000 | next,
            0xC0000000,
        ];
        [&[0x70000000 | most, 0x80000000, 0x90000000 | value], row].concat()
    };
    assert_eq!(judge(&model, &table(most, most)), accepted(most, most, 2));
    assert_eq!(judge(&model, &table(most - 1, most)), refused(19, 3));
    assert_eq!(judge(&model, &table(0, 1)), refused(19, 3));
}

#[test]
fn the_sum_may_be_equal_and_both_edges_to_one_node_count() {
    let model = with(&M, 6, 0x40010001);
    let table = |value: u32, next: u32| {
        let table = with(&with(&T, 5, 0xB0000001), 3, 0x90000000 | value);
        with(&table, 7, 0x90000000 | next)
    };
    assert_eq!(judge(&model, &table(4, 4)), accepted(4, 10, 3));
    assert_eq!(judge(&model, &table(4, 5)), refused(19, 4));
}

#[test]
fn all_nodes_are_judged_in_order() {
    // A node that nothing leads to is judged all the same.
    let extra = |value: u32| splice(&T, 10..10, &[0x82000000, 0x90000000 | value]);
    assert_eq!(judge(&M, &extra(10)), accepted(1, 10, 4));
    assert_eq!(judge(&M, &extra(9)), refused(15, 11));
    // Node 0 wholly before node 2.
    let both = with(&with(&T, 3, 0x90000000), 9, 0x90000009);
    assert_eq!(judge(&M, &both), refused(19, 4));
    // Nodes before the start node.
    assert_eq!(
        judge(&M, &with(&with(&T, 9, 0x90000009), 10, 0xC0000001)),
        refused(15, 9)
    );
}

#[test]
fn rows_are_judged_in_order() {
    // Two actions at location 0, each with one edge to location 1; the second from 2 on.
    let model = [
        0x11100001, 0x20000000, 0x30000000, 0x40010001, 0x30000000, 0x50100FFE, 0x40010001,
        0x20000000, 0x60000000, 0x51001000,
    ];
    let table = |first: u32, second: u32| {
        let tail: &[u32] = &[0x81000000, 0x90000000, 0xC0000000];
        [&[0x70000001, 0x80000000, 0x90000000, first, second], tail].concat()
    };
    assert_eq!(judge(&model, &table(TO_1, TO_1)), accepted(0, 1, 2));
    assert_eq!(judge(&model, &table(BLOCKED, BLOCKED)), refused(16, 3));
    assert_eq!(judge(&model, &table(TO_1, BLOCKED)), refused(16, 4));
    assert_eq!(judge(&model, &table(0xB0000000, BLOCKED)), refused(17, 3));
    // Each row has its own action's reach.
    let held = splice(&table(TO_1, TO_1), 6..6, &[at_most(0, 1, -2)]);
    assert_eq!(judge(&model, &held), refused(18, 3));
    let held = splice(
        &table(TO_1, 0xB0000002),
        7..7,
        &[0x81000000, at_most(0, 1, -2), 0x90000000],
    );
    assert_eq!(judge(&model, &held), accepted(0, 1, 3));
}

#[test]
fn the_start_node() {
    assert_eq!(judge(&M, &with(&T, 10, 0xC0000001)), refused(20, 10));
    assert_eq!(judge(&M, &with(&T, 2, at_most(0, 1, -1))), refused(21, 10));
    // The start valuations are those in the invariant as well.
    let anywhere = M[..10].to_vec();
    assert_eq!(
        judge(&anywhere, &with(&T, 2, at_most(1, 0, 3))),
        accepted(1, 10, 3)
    );
    assert_eq!(
        judge(&anywhere, &with(&T, 2, below(1, 0, 3))),
        refused(21, 10)
    );
    // 20 before 21, and the start node need not be node 0.
    assert_eq!(
        judge(
            &anywhere,
            &with(&with(&T, 2, below(1, 0, 3)), 10, 0xC0000001)
        ),
        refused(20, 10)
    );
    let second = splice(
        &T,
        10..11,
        &[0x80000000, 0x90000005, 0xB0000001, 0xB0000002, 0xC0000003],
    );
    assert_eq!(judge(&M, &second), accepted(5, 10, 4));
}

#[test]
fn the_fraction_is_not_reduced() {
    let model = [0x1110000A, 0x20000001, 0x60000000];
    let table = [0x70000006, 0x80000000, 0x90000006, 0xC0000000];
    assert_eq!(judge(&model, &table), accepted(6, 6, 1));
}

#[test]
fn reach_between_whole_numbers() {
    // The guard 2 < x < 3 has no valuation at scale 1, yet the row is not blocked.
    let model = one_edge(&[], &[below(0, 1, -2), below(1, 0, 3)], 0, &[]);
    assert_eq!(judge(&model, &two_nodes(&[], BLOCKED, &[])), refused(16, 3));
    assert_eq!(
        judge(&model, &two_nodes(&[], TO_1, &[at_most(1, 0, 2)])),
        refused(18, 3)
    );
    assert_eq!(
        judge(&model, &two_nodes(&[], TO_1, &[below(1, 0, 3)])),
        accepted(0, 1, 2)
    );
}
