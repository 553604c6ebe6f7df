//! Document 02, card 1: the words of a cut, and refusals 51 to 53.

use super::zones::{holds, points, some_bounds};
use super::*;
use crate::reading::{parse_model, parse_table, Bound, Cut, NodeRef};
use crate::spell;

/// M without its start bound: a start valuation is one up to 3.
const ANYWHERE: &[u32] = M.split_at(10).0;

/// One location of two clocks with no action, which is no target, and a start there.
const BARE: [u32; 3] = [0x11200001, 0x20000000, 0x60000000];

/// A table for it in which node 0 (at most 3) is cut at 1: node 3 has the part up to 1, node 4 what
/// is above.
pub const K: [u32; 22] = [
    0x7000000A, 0x80000000, 0x51001003, 0x90000001, 0xD1001001, 0xB0000003, 0xB0000004, 0x81000000,
    0x90000000, 0x82000000, 0x9000000A, 0x80000000, 0x51001001, 0x90000001, 0xB0000001, 0xB0000002,
    0x80000000, 0x50180FFF, 0x90000001, 0xB0000001, 0xB0000002, 0xC0000000,
];

/// A D word: clock `i` at most `d`.
fn cut_at(i: u32, d: i32) -> u32 {
    at_most(i, 0, d) + (0x8 << 28)
}

/// A D word: clock `i` below `d`.
fn cut_below(i: u32, d: i32) -> u32 {
    cut_at(i, d) | 1 << 19
}

/// A table for `BARE`: node 0 with this zone and cut, node 1 for its first part, node 2 for the rest.
/// The B words stand behind the cut, which stands behind the zone.
fn three_nodes(zone: &[u32], cut: u32, first: &[u32], rest: &[u32]) -> Vec<u32> {
    let (node, value): (&[u32], &[u32]) = (&[0x80000000], &[0x90000000]);
    [
        &[0x70000001],
        node,
        zone,
        value,
        &[cut, 0xB0000001, 0xB0000002],
        node,
        first,
        value,
        node,
        rest,
        value,
        &[0xC0000000],
    ]
    .concat()
}

#[test]
fn a_cut_start_node() {
    assert_eq!(judge(ANYWHERE, &K), accepted(1, 10, 5));
    assert_eq!(judge(&M, &K), accepted(1, 10, 5));
    // Its own value is b, its own zone holds the start valuations.
    assert_eq!(
        judge(ANYWHERE, &with(&K, 3, 0x90000005)),
        accepted(5, 10, 5)
    );
    assert_eq!(
        judge(ANYWHERE, &with(&K, 2, at_most(1, 0, 2))),
        refused(21, 21)
    );
}

#[test]
fn the_tree_of_a_cut() {
    let table = parse_table(&parse_model(ANYWHERE).unwrap(), &K).unwrap();
    let bound = Bound {
        i: 1,
        j: 0,
        d: 1,
        strict: false,
    };
    let parts = [NodeRef { node: 3, place: 5 }, NodeRef { node: 4, place: 6 }];
    assert_eq!(table.nodes[0].cut(), Some(&Cut { bound, parts }));
    assert!(table.nodes[0].rows().is_empty());
    assert!(table.nodes[1..].iter().all(|node| node.cut().is_none()));
}

#[test]
fn every_beginning_of_a_cut_lacks_a_word() {
    for length in 0..K.len() {
        assert_eq!(judge(ANYWHERE, &K[..length]), refused(11, length));
    }
}

#[test]
fn what_may_follow_a_cut() {
    let allowed: [(usize, &[u32]); 4] = [
        (4, &[0xA, 0xB, 0xD]),
        (5, &[0xB]),
        (6, &[0xB]),
        (7, &[8, 0xC]),
    ];
    for (place, allowed) in allowed {
        for kind in 0..16 {
            let words = [&K[..place], &[kind << 28 | 0x0FFFFFFF]].concat();
            let number = if allowed.contains(&kind) { 12 } else { 11 };
            assert_eq!(judge(ANYWHERE, &words), refused(number, place), "{kind:X}");
        }
    }
}

#[test]
fn a_cut_stands_in_place_of_all_rows() {
    let cut = &K[4..7];
    // A third B, a missing B, none; an A in place of a B; a second D.
    assert_eq!(
        judge(ANYWHERE, &splice(&K, 7..7, &[0xB0000004])),
        refused(11, 7)
    );
    assert_eq!(judge(ANYWHERE, &splice(&K, 6..7, &[])), refused(11, 6));
    assert_eq!(judge(ANYWHERE, &splice(&K, 5..7, &[])), refused(11, 5));
    assert_eq!(judge(ANYWHERE, &with(&K, 5, 0xA0000000)), refused(11, 5));
    assert_eq!(judge(ANYWHERE, &splice(&K, 5..5, &K[4..5])), refused(11, 5));
    // Rows behind a cut, a cut behind rows, behind an A, between two B.
    assert_eq!(
        judge(ANYWHERE, &splice(&K, 7..7, &[0xA0000000])),
        refused(11, 7)
    );
    assert_eq!(judge(&M, &splice(&T, 6..6, cut)), refused(11, 6));
    assert_eq!(judge(&M, &splice(&T, 5..5, cut)), refused(11, 5));
    let blocked = splice(&T, 4..6, &[0xA0000000]);
    assert_eq!(judge(&M, &splice(&blocked, 5..5, cut)), refused(11, 5));
    // Before the value, among the bounds, before the first node, behind the last word.
    assert_eq!(judge(ANYWHERE, &splice(&K, 3..3, cut)), refused(11, 3));
    assert_eq!(judge(ANYWHERE, &splice(&K, 2..2, cut)), refused(11, 2));
    assert_eq!(judge(ANYWHERE, &splice(&K, 1..1, cut)), refused(11, 1));
    assert_eq!(judge(ANYWHERE, &splice(&K, 22..22, cut)), refused(11, 22));
    // In a model.
    assert_eq!(judge(&splice(&M, 3..3, &[0xD1001001]), &T), refused(1, 3));
}

#[test]
fn no_cut_at_a_target() {
    // Node 2 of T is at the target; its fields do not matter.
    for cut in [0xD1001001, 0xD0000000] {
        let table = splice(&T, 10..10, &[cut, 0xB0000002, 0xB0000002]);
        assert_eq!(judge(&M, &table), refused(11, 10));
    }
    let model = [0x1110000A, 0x20000001, 0x30000000, 0x4000000A, 0x60000000];
    let table = [0x7000000A, 0x80000000, 0x9000000A, 0xD1001001, 0xB0000001];
    assert_eq!(judge(&model, &table), refused(11, 3));
}

#[test]
fn fields_of_a_cut() {
    // Clock 0, a clock above C, j not 0, d + 4,096 = 0, spare bits.
    for bad in [
        0xD0001001, 0xD2001001, 0xD0101001, 0xD1101001, 0xD1000000, 0xD1003001, 0xD1041001,
    ] {
        assert_eq!(
            judge(ANYWHERE, &with(&K, 4, bad)),
            refused(12, 4),
            "{bad:X}"
        );
    }
    // With two clocks a bound may have both, a cut may not.
    let model = with(ANYWHERE, 0, 0x1120000A);
    assert_eq!(judge(&model, &with(&K, 4, 0xD1201001)), refused(12, 4));
    assert_eq!(judge(&model, &with(&K, 4, 0xD2101001)), refused(12, 4));
    // Of the B words too.
    assert_eq!(judge(ANYWHERE, &with(&K, 5, 0xB0000043)), refused(12, 5));
    assert_eq!(judge(ANYWHERE, &with(&K, 6, 0xB1000004)), refused(12, 6));
}

#[test]
fn numbers_that_are_not_there() {
    let lost = with(&K, 6, 0xB0000005);
    assert_eq!(judge(ANYWHERE, &lost), refused(14, 6));
    assert_eq!(judge(ANYWHERE, &with(&lost, 5, 0xB000003F)), refused(14, 5));
    // The first one in the file, in a cut, a row or the C word.
    assert_eq!(
        judge(ANYWHERE, &with(&lost, 14, 0xB0000005)),
        refused(14, 6)
    );
    assert_eq!(
        judge(ANYWHERE, &with(&lost, 21, 0xC0000005)),
        refused(14, 6)
    );
    assert_eq!(
        judge(ANYWHERE, &with(&with(&K, 14, 0xB0000005), 21, 0xC0000005)),
        refused(14, 14)
    );
    // After 11 and 12 anywhere, before 51 at an earlier word.
    assert_eq!(
        judge(ANYWHERE, &splice(&lost, 22..22, &[0])),
        refused(11, 22)
    );
    assert_eq!(
        judge(ANYWHERE, &with(&lost, 20, 0xB0000040)),
        refused(12, 20)
    );
    assert_eq!(judge(ANYWHERE, &with(&lost, 5, 0xB0000000)), refused(14, 6));
    let later = with(&K, 20, 0xB0000005);
    assert_eq!(
        judge(ANYWHERE, &with(&later, 5, 0xB0000000)),
        refused(14, 20)
    );
}

#[test]
fn numbers_above_the_nodes_own() {
    assert_eq!(judge(ANYWHERE, &with(&K, 5, 0xB0000000)), refused(51, 5));
    assert_eq!(judge(ANYWHERE, &with(&K, 6, 0xB0000000)), refused(51, 6));
    // Node 3 cut: 3 is its own, the lower 0 would hold both parts.
    let cut = |first: u32, second: u32| {
        let words = [cut_at(1, 0), 0xB0000000 | first, 0xB0000000 | second];
        judge(ANYWHERE, &splice(&with(&K, 17, 0x51001003), 14..16, &words))
    };
    assert_eq!(cut(4, 4), accepted(1, 10, 5));
    assert_eq!(cut(3, 4), refused(51, 15));
    assert_eq!(cut(4, 3), refused(51, 16));
    assert_eq!(cut(0, 4), refused(51, 15));
    assert_eq!(cut(4, 0), refused(51, 16));
    // Before 52 and 53: nodes 1 and 2 have another location.
    assert_eq!(cut(1, 4), refused(51, 15));
    assert_eq!(cut(4, 2), refused(51, 16));
}

#[test]
fn location_and_value() {
    // Nodes 1 and 2 are above node 0, but of other locations.
    assert_eq!(judge(ANYWHERE, &with(&K, 5, 0xB0000001)), refused(52, 5));
    assert_eq!(judge(ANYWHERE, &with(&K, 6, 0xB0000001)), refused(52, 6));
    assert_eq!(judge(ANYWHERE, &with(&K, 6, 0xB0000002)), refused(52, 6));
    // A larger value in either part; a smaller one is good.
    assert_eq!(judge(ANYWHERE, &with(&K, 13, 0x90000002)), refused(52, 5));
    assert_eq!(judge(ANYWHERE, &with(&K, 18, 0x90000002)), refused(52, 6));
    let higher = with(&K, 3, 0x90000002);
    assert_eq!(judge(ANYWHERE, &higher), accepted(2, 10, 5));
    assert_eq!(
        judge(ANYWHERE, &with(&higher, 18, 0x90000002)),
        accepted(2, 10, 5)
    );
    // 52 before 53: node 3 holds less than its part, too.
    let both = with(&with(&K, 13, 0x90000002), 12, at_most(1, 0, 0));
    assert_eq!(judge(ANYWHERE, &both), refused(52, 5));
}

#[test]
fn parts_inside_their_nodes() {
    // The first part is up to 1, with 1.
    assert_eq!(
        judge(ANYWHERE, &with(&K, 12, below(1, 0, 1))),
        refused(53, 5)
    );
    assert_eq!(
        judge(ANYWHERE, &with(&K, 12, at_most(1, 0, 0))),
        refused(53, 5)
    );
    assert_eq!(
        judge(ANYWHERE, &with(&K, 12, below(0, 1, 0))),
        refused(53, 5)
    );
    // The rest is above 1 and up to 3; also where it is between whole numbers.
    assert_eq!(
        judge(ANYWHERE, &with(&K, 17, at_most(0, 1, -2))),
        refused(53, 6)
    );
    assert_eq!(
        judge(ANYWHERE, &with(&K, 17, below(1, 0, 3))),
        refused(53, 6)
    );
    assert_eq!(
        judge(ANYWHERE, &with(&K, 17, at_most(1, 0, 3))),
        accepted(1, 10, 5)
    );
    // Cut below 1, the rest has 1.
    let strict = with(&K, 4, cut_below(1, 1));
    assert_eq!(judge(ANYWHERE, &strict), refused(53, 6));
    assert_eq!(
        judge(ANYWHERE, &with(&strict, 17, at_most(0, 1, -1))),
        accepted(1, 10, 5)
    );
    assert_eq!(
        judge(ANYWHERE, &with(&strict, 12, below(1, 0, 1))),
        refused(53, 6)
    );
    // Exchanged: the part up to 1 is not above 1.
    let exchanged = with(&with(&K, 5, 0xB0000004), 6, 0xB0000003);
    assert_eq!(judge(ANYWHERE, &exchanged), refused(53, 5));
}

#[test]
fn the_first_part_wholly_before_the_second() {
    let small = with(&K, 12, at_most(1, 0, 0));
    assert_eq!(
        judge(ANYWHERE, &with(&small, 6, 0xB0000000)),
        refused(53, 5)
    );
    let high = with(&K, 13, 0x90000002);
    assert_eq!(judge(ANYWHERE, &with(&high, 6, 0xB0000000)), refused(52, 5));
    assert_eq!(
        judge(ANYWHERE, &with(&high, 18, 0x90000002)),
        refused(52, 5)
    );
}

#[test]
fn node_by_node_with_cuts() {
    // Node 0's cut before node 2's value, that before node 3's row; the start last.
    let value = with(&K, 10, 0x90000009);
    assert_eq!(
        judge(ANYWHERE, &with(&value, 17, at_most(0, 1, -2))),
        refused(53, 6)
    );
    assert_eq!(
        judge(ANYWHERE, &with(&value, 14, 0xB0000002)),
        refused(15, 10)
    );
    assert_eq!(judge(ANYWHERE, &with(&K, 21, 0xC0000001)), refused(20, 21));
    assert_eq!(
        judge(ANYWHERE, &with(&with(&K, 21, 0xC0000001), 6, 0xB0000000)),
        refused(51, 6)
    );
    // The nodes of the parts are judged as any other.
    assert_eq!(judge(ANYWHERE, &with(&K, 19, 0xB0000002)), refused(17, 19));
    let cheap = with(&with(&K, 13, 0x90000000), 18, 0x90000000);
    assert_eq!(judge(ANYWHERE, &cheap), refused(19, 14));
}

#[test]
fn the_zone_as_it_is_written() {
    // Without its bound node 0 has valuations above the invariant's 3. So has its rest.
    let wide = splice(&K, 2..3, &[]);
    assert_eq!(judge(ANYWHERE, &wide), accepted(1, 10, 5));
    assert_eq!(
        judge(ANYWHERE, &with(&wide, 16, at_most(1, 0, 3))),
        refused(53, 5)
    );
    // A zone wholly outside the invariant is cut all the same.
    let outside = splice(&with(&K, 2, at_most(0, 1, -5)), 17..17, &[at_most(1, 0, 4)]);
    assert_eq!(judge(ANYWHERE, &outside), refused(53, 6));
}

#[test]
fn empty_parts() {
    // Nothing is below 0, whatever clocks are; the first node may then hold anything.
    for cut in [cut_below(1, 0), cut_at(1, -1), cut_at(1, -4095)] {
        let table = with(&splice(&K, 12..13, &[at_most(0, 1, -3)]), 4, cut);
        let all = splice(&table, 17..18, &[]);
        assert_eq!(judge(ANYWHERE, &all), accepted(1, 10, 5));
        assert_eq!(judge(ANYWHERE, &table), refused(53, 6));
        // 51 and 52 are asked all the same.
        assert_eq!(judge(ANYWHERE, &with(&all, 5, 0xB0000000)), refused(51, 5));
        assert_eq!(judge(ANYWHERE, &with(&all, 5, 0xB0000001)), refused(52, 5));
        assert_eq!(judge(ANYWHERE, &with(&all, 13, 0x90000002)), refused(52, 5));
    }
    // The zone ends at 3: so does what is cut off there.
    for cut in [cut_at(1, 3), cut_at(1, 4095)] {
        let table = with(&with(&K, 12, at_most(1, 0, 3)), 4, cut);
        assert_eq!(judge(ANYWHERE, &table), accepted(1, 10, 5));
        assert_eq!(
            judge(ANYWHERE, &with(&table, 17, 0x51000FFF)),
            accepted(1, 10, 5)
        );
        assert_eq!(
            judge(ANYWHERE, &with(&table, 6, 0xB0000000)),
            refused(51, 6)
        );
        assert_eq!(
            judge(ANYWHERE, &with(&table, 6, 0xB0000002)),
            refused(52, 6)
        );
    }
    let below_3 = with(&with(&K, 12, at_most(1, 0, 3)), 4, cut_below(1, 3));
    assert_eq!(
        judge(ANYWHERE, &with(&below_3, 17, 0x51000FFF)),
        refused(53, 6)
    );
    // An empty zone, an empty part of a zone: neither holds anything.
    let empty = three_nodes(&[0x51000FFF], cut_at(1, 1), &[0x51000FFF], &[0x51000FFF]);
    assert_eq!(judge(&BARE, &empty), refused(21, 13));
    let nowhere = three_nodes(&[], cut_at(1, 1), &[0x51000FFF], &[]);
    assert_eq!(judge(&BARE, &nowhere), refused(53, 4));
}

#[test]
fn a_location_without_actions_may_be_cut() {
    let above_1 = below(0, 1, -1);
    let table = three_nodes(&[], cut_at(1, 1), &[at_most(1, 0, 1)], &[above_1]);
    assert_eq!(judge(&BARE, &table), accepted(0, 1, 3));
    assert_eq!(
        judge(&BARE, &splice(&table, 6..6, &[0xB0000001])),
        refused(11, 6)
    );
    assert_eq!(judge(&BARE, &splice(&table, 4..6, &[])), refused(11, 4));
}

#[test]
fn parts_of_two_clocks() {
    // Clock 1 at most 3, clock 2 at most 2 above it: up to 1 in clock 1, clock 2 is at most 3.
    let zone = [at_most(1, 0, 3), at_most(2, 1, 2)];
    let cut = cut_at(1, 1);
    let first = |bound| judge(&BARE, &three_nodes(&zone, cut, &[bound], &[]));
    assert_eq!(first(at_most(2, 0, 3)), refused(21, 13));
    assert_eq!(first(at_most(2, 0, 2)), refused(53, 6));
    // A cut of clock 2 at 3 leaves clock 1 above 1.
    let rest = |bound| judge(&BARE, &three_nodes(&zone, cut_at(2, 3), &[], &[bound]));
    assert_eq!(rest(below(0, 1, -1)), refused(21, 13));
    assert_eq!(rest(at_most(0, 1, -2)), refused(53, 7));
    // Both parts keep the bound between the clocks.
    assert_eq!(first(at_most(2, 1, 2)), refused(21, 13));
    assert_eq!(rest(at_most(2, 1, 2)), refused(21, 13));
    assert_eq!(rest(at_most(2, 1, 1)), refused(53, 7));
}

#[test]
fn a_cut_successor_counts_with_its_own_value() {
    // Node 1 of T cut in two nodes of value 0; the row of node 0 adds 9 times its own.
    let table = |value: u32| {
        let cut: &[u32] = &[0x90000000 | value, cut_at(1, 2), 0xB0000003, 0xB0000004];
        let parts = [0x81000000, 0x90000000].repeat(2);
        splice(&splice(&T, 10..10, &parts), 7..8, cut)
    };
    assert_eq!(judge(&M, &table(0)), accepted(1, 10, 5));
    assert_eq!(judge(&M, &table(1)), refused(19, 4));
    assert_eq!(
        judge(&M, &with(&table(1), 3, 0x90000002)),
        accepted(2, 10, 5)
    );
    // Its own zone is what must hold the reset reach.
    let tight = splice(&table(0), 7..7, &[at_most(1, 0, 2)]);
    assert_eq!(judge(&M, &tight), refused(18, 4));
}

#[test]
fn cuts_of_cuts() {
    // 63 cuts in a row, the last node whole; all have the same zone.
    let cut = |number: usize| {
        let next = 0xB0000000 | (number + 1) as u32;
        [0x80000000, 0x90000000, cut_at(1, number as i32), next, next]
    };
    let chain = |last: usize| {
        let cuts: Vec<u32> = (0..last).flat_map(cut).collect();
        [
            &[0x70000001],
            &cuts[..],
            &[0x80000000, 0x90000000, 0xC0000000],
        ]
        .concat()
    };
    assert_eq!(judge(&BARE, &chain(63)), accepted(0, 1, 64));
    // The 64th node cannot be cut: no number is above its own.
    assert_eq!(judge(&BARE, &chain(64)), refused(12, 319));
    for last in [0xB000003F, 0xB000003E, 0xB0000000] {
        let table = [&chain(64)[..319], &[last, last, 0xC0000000]].concat();
        assert_eq!(judge(&BARE, &table), refused(51, 319));
    }
}

/// 53 against valuations tried one by one: a part is inside a node exactly if no valuation of the
/// zone, with the bound or without it, is outside.
#[test]
fn parts_by_valuations() {
    let mut dice = Dice(5);
    let mut counts = [0; 3];
    for _ in 0..3_000 {
        let zones = [0; 3].map(|_| some_bounds(&mut dice));
        let [zone, first, rest] = zones.each_ref().map(|zone| spell::bounds(zone));
        let (i, d) = (1 + dice.below(2), dice.below(7) as i32 - 3);
        let strict = dice.below(2) == 1;
        let cut = if strict {
            cut_below(i, d)
        } else {
            cut_at(i, d)
        };
        let on_side = |&(x, y): &(i32, i32)| {
            let bound = Bound {
                i: i as usize,
                j: 0,
                d,
                strict,
            };
            holds(&[bound], x, y)
        };
        let (one, other): (Vec<_>, Vec<_>) = points(&zones[0]).into_iter().partition(on_side);
        let inside =
            |part: &[(i32, i32)], zone: &[Bound]| part.iter().all(|&(x, y)| holds(zone, x, y));
        let place = 3 + zone.len() + 1;
        let wanted = match (inside(&one, &zones[1]), inside(&other, &zones[2])) {
            (false, _) => Some(place),
            (true, false) => Some(place + 1),
            (true, true) => None,
        };
        let answer = judge(&BARE, &three_nodes(&zone, cut, &first, &rest));
        match (wanted, answer) {
            (Some(place), answer) => assert_eq!(answer, refused(53, place), "{zones:?}"),
            // Accepted but for the start, which is anywhere.
            (None, Err(refusal)) => assert_eq!(refusal.number, 21, "{zones:?}"),
            (None, Ok(_)) => {}
        }
        counts[wanted.map_or(2, |at| at - place)] += 1;
    }
    assert!(counts.iter().all(|&count| count > 100), "{counts:?}");
}
