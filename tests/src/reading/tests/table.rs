//! Refusals 11 to 14: the table's syntax.

use super::*;
use crate::reading::{parse_model, parse_table, Body, NodeRef, Row};

/// One location with no action, which is no target, and a start there.
const BARE: [u32; 3] = [0x1110000A, 0x20000000, 0x60000000];

#[test]
fn the_model_goes_first() {
    assert_eq!(judge(&with(&M, 10, at_most(1, 0, -1)), &[]), refused(6, 9));
    assert_eq!(judge(&M[..5], &[0xFFFFFFFF]), refused(1, 5));
}

#[test]
fn every_beginning_lacks_a_word() {
    for length in 0..T.len() {
        assert_eq!(judge(&M, &T[..length]), refused(11, length));
    }
}

#[test]
fn what_may_follow_what() {
    // By place in T: the kinds that may stand there.
    let allowed: [&[u32]; 12] = [
        &[7],
        &[8],
        &[5, 9],
        &[5, 9],
        &[0xA, 0xB, 0xD],
        &[0xB],
        &[8, 0xC],
        &[5, 9],
        &[8, 0xC, 0xD],
        &[5, 9],
        &[8, 0xC],
        &[],
    ];
    for (place, allowed) in allowed.into_iter().enumerate() {
        for kind in 0..16 {
            // All other bits set is bad in every kind of a table but 7.
            let words = [&T[..place], &[kind << 28 | 0x0FFFFFFF]].concat();
            let wanted = match (allowed.contains(&kind), kind) {
                (true, 7) => refused(11, 1),
                (true, _) => refused(12, place),
                (false, _) => refused(11, place),
            };
            assert_eq!(judge(&M, &words), wanted, "{words:08X?}");
        }
    }
}

#[test]
fn no_node_and_a_word_after_the_end() {
    assert_eq!(judge(&M, &[0x7000000A, 0xC0000000]), refused(11, 1));
    assert_eq!(
        judge(&M, &splice(&T, 11..11, &[0xC0000000])),
        refused(11, 11)
    );
    assert_eq!(
        judge(&M, &splice(&T, 11..11, &[0x51001000])),
        refused(11, 11)
    );
}

#[test]
fn rows_have_a_or_one_b_per_edge() {
    // A third B, an A after a B, a B after an A, no row, a row at a target.
    assert_eq!(judge(&M, &splice(&T, 6..6, &[0xB0000001])), refused(11, 6));
    assert_eq!(judge(&M, &with(&T, 5, 0xA0000000)), refused(11, 5));
    assert_eq!(judge(&M, &with(&T, 4, 0xA0000000)), refused(11, 5));
    assert_eq!(judge(&M, &splice(&T, 4..6, &[])), refused(11, 4));
    assert_eq!(
        judge(&M, &splice(&T, 10..10, &[0xA0000000])),
        refused(11, 10)
    );
    // A row of a location without actions.
    assert_eq!(judge(&M, &splice(&T, 8..8, &[0xA0000000])), refused(11, 8));
}

#[test]
fn fields() {
    assert_eq!(judge(&M, &with(&T, 0, 0x70000000)), refused(12, 0));
    // A location that does not exist; a spare bit; a value above V.
    assert_eq!(judge(&M, &with(&T, 6, 0x83000000)), refused(12, 6));
    assert_eq!(judge(&M, &with(&T, 6, 0x81000001)), refused(12, 6));
    assert_eq!(judge(&M, &with(&T, 9, 0x9000000B)), refused(12, 9));
    assert_eq!(judge(&M, &with(&T, 4, 0xB0000041)), refused(12, 4));
    assert_eq!(judge(&M, &with(&T, 10, 0xC0000040)), refused(12, 10));
    assert_eq!(judge(&M, &splice(&T, 4..6, &[0xA0000001])), refused(12, 4));
    assert_eq!(judge(&M, &with(&T, 2, at_most(2, 0, 0))), refused(12, 2));
}

#[test]
fn node_bounds_may_be_between_two_clocks() {
    let model = with(&M, 0, 0x1120000A);
    let start = splice(&model, 11..11, &[at_most(2, 1, 0)]);
    assert_eq!(
        judge(&start, &splice(&T, 2..2, &[at_most(2, 1, 0)])),
        accepted(1, 10, 3)
    );
}

#[test]
fn at_most_64_nodes() {
    let nodes = |count: usize| {
        let node = [0x80000000, 0x90000005];
        [vec![0x7000000A], node.repeat(count), vec![0xC0000000]].concat()
    };
    assert_eq!(judge(&BARE, &nodes(64)), accepted(5, 10, 64));
    assert_eq!(judge(&BARE, &nodes(65)), refused(13, 129));
    // 12 before 13 at one word; 13 before whatever comes later.
    assert_eq!(
        judge(&BARE, &with(&nodes(65), 129, 0x81000000)),
        refused(12, 129)
    );
    assert_eq!(judge(&BARE, &nodes(65)[..130]), refused(13, 129));
}

#[test]
fn node_numbers_are_asked_on_the_whole_file() {
    // Forward numbers are fine, as in T; 3 is not there.
    assert_eq!(judge(&M, &with(&T, 5, 0xB0000003)), refused(14, 5));
    assert_eq!(
        judge(&M, &with(&with(&T, 5, 0xB0000003), 4, 0xB000003F)),
        refused(14, 4)
    );
    assert_eq!(judge(&M, &with(&T, 10, 0xC0000003)), refused(14, 10));
    assert_eq!(
        judge(&M, &with(&with(&T, 10, 0xC0000003), 5, 0xB0000003)),
        refused(14, 5)
    );
    // After 11 to 13, before 15 to 21.
    let lost = with(&T, 5, 0xB0000003);
    assert_eq!(judge(&M, &splice(&lost, 11..11, &[0])), refused(11, 11));
    assert_eq!(judge(&M, &with(&lost, 9, 0x9000000B)), refused(12, 9));
    assert_eq!(judge(&M, &with(&lost, 9, 0x90000009)), refused(14, 5));
    assert_eq!(
        judge(&M, &with(&with(&T, 9, 0x90000009), 10, 0xC0000003)),
        refused(14, 10)
    );
}

#[test]
fn a_location_without_actions_has_no_rows_and_any_value() {
    for value in [0, 7, 10] {
        let table = [0x7000000A, 0x80000000, 0x90000000 | value, 0xC0000000];
        assert_eq!(judge(&BARE, &table), accepted(value, 10, 1));
    }
}

#[test]
fn a_target_has_no_rows_even_with_actions() {
    let model = [0x1110000A, 0x20000001, 0x30000000, 0x4000000A, 0x60000000];
    let table = [0x7000000A, 0x80000000, 0x9000000A, 0xC0000000];
    assert_eq!(judge(&model, &table), accepted(10, 10, 1));
    assert_eq!(
        judge(&model, &splice(&table, 3..3, &[0xA0000000])),
        refused(11, 3)
    );
    assert_eq!(judge(&model, &with(&table, 2, 0x90000009)), refused(15, 2));
}

#[test]
fn the_tree() {
    let table = parse_table(&parse_model(&M).unwrap(), &T).unwrap();
    assert_eq!((table.whole, table.nodes.len()), (10, 3));
    assert_eq!(table.start, NodeRef { node: 0, place: 10 });
    let node = &table.nodes[0];
    assert_eq!((node.location, node.bounds.len()), (0, 1));
    assert_eq!((node.value, node.value_place), (1, 3));
    let successors = vec![NodeRef { node: 1, place: 4 }, NodeRef { node: 2, place: 5 }];
    assert_eq!(node.body, Body::Rows(vec![Row::Successors(successors)]));
    let none = Body::Rows(Vec::new());
    assert!(table.nodes[1].body == none && table.nodes[2].body == none);
}
