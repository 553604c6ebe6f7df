//! Refusals 1 to 6 and the counts.

use super::*;
use crate::reading::{parse_model, Counts};

const HEAD: u32 = 0x1110000A;
const LOCATION: u32 = 0x20000000;
const ACTION: u32 = 0x30000000;
/// Weight 10, back to location 0.
const EDGE: u32 = 0x4000000A;
/// Weight 9: the sum is off.
const LIGHT: u32 = 0x40000009;
const START: u32 = 0x60000000;
const BOUND: u32 = 0x51001000;

fn counts(locations: usize, actions: usize, edges: usize) -> Result<Counts, Refusal> {
    Ok(Counts {
        locations,
        actions,
        edges,
    })
}

#[test]
fn every_cut_lacks_a_word() {
    // A model may end after the start word and after any of its bounds, nowhere earlier.
    for length in 0..=9 {
        assert_eq!(read_model(&M[..length]), refused(1, length));
    }
    assert_eq!(read_model(&M[..10]), counts(3, 1, 2));
}

#[test]
fn what_may_follow_what() {
    let prefixes: [(&[u32], &[u32]); 9] = [
        (&[], &[1]),
        (&[HEAD], &[2]),
        (&[HEAD, LOCATION], &[2, 3, 5, 6]),
        (&[HEAD, LOCATION, BOUND], &[2, 3, 5, 6]),
        (&[HEAD, LOCATION, ACTION], &[4, 5]),
        (&[HEAD, LOCATION, ACTION, BOUND], &[4, 5]),
        (&[HEAD, LOCATION, ACTION, EDGE], &[2, 3, 4, 6]),
        (&[HEAD, LOCATION, START], &[5]),
        (&[HEAD, LOCATION, START, BOUND], &[5]),
    ];
    for (prefix, allowed) in prefixes {
        for kind in 0..16 {
            // All other bits set: a kind that may stand here is bad in a field, no other is.
            let words = [prefix, &[kind << 28 | 0x0FFFFFFF]].concat();
            let number = if allowed.contains(&kind) { 2 } else { 1 };
            assert_eq!(
                read_model(&words),
                refused(number, prefix.len()),
                "{words:08X?}"
            );
        }
    }
}

#[test]
fn small_models() {
    assert_eq!(read_model(&[HEAD, LOCATION, START]), counts(1, 0, 0));
    let two_actions = [
        HEAD, LOCATION, ACTION, EDGE, ACTION, BOUND, BOUND, EDGE, LOCATION, START,
    ];
    assert_eq!(read_model(&two_actions), counts(2, 2, 2));
    assert_eq!(
        read_model(&[HEAD, LOCATION, ACTION, EDGE, BOUND, START]),
        refused(1, 4)
    );
}

#[test]
fn fields() {
    // Edition 2 and edition 0.
    assert_eq!(read_model(&with(&M, 0, 0x1210000A)), refused(2, 0));
    assert_eq!(read_model(&with(&M, 0, 0x1010000A)), refused(2, 0));
    // A reset of a clock above C, weight 0, weight above D.
    assert_eq!(read_model(&with(&M, 5, 0x40210009)), refused(2, 5));
    assert_eq!(read_model(&with(&M, 5, 0x40010000)), refused(2, 5));
    assert_eq!(read_model(&with(&M, 5, 0x4001000B)), refused(2, 5));
    // The start's location is judged at its word, before its bounds.
    assert_eq!(read_model(&with(&M, 9, 0x60000003)), refused(2, 9));
    assert_eq!(
        read_model(&with(&with(&M, 9, 0x60000003), 10, 0x51001FFF | 1 << 13)),
        refused(2, 9)
    );
}

#[test]
fn bounds_go_by_their_opener() {
    let two_clocks = with(&M, 0, 0x1120000A);
    let between = at_most(1, 2, 0);
    assert_eq!(read_model(&two_clocks), counts(3, 1, 2));
    assert_eq!(read_model(&with(&two_clocks, 2, between)), refused(2, 2));
    assert_eq!(read_model(&with(&two_clocks, 4, between)), refused(2, 4));
    assert_eq!(read_model(&with(&two_clocks, 10, between)), counts(3, 1, 2));
    // Also after another bound of the same opener.
    assert_eq!(
        read_model(&splice(&two_clocks, 3..3, &[between])),
        refused(2, 3)
    );
    assert_eq!(
        read_model(&splice(&two_clocks, 11..11, &[between])),
        counts(3, 1, 2)
    );
}

#[test]
fn a_pair_may_come_again_and_both_bounds_hold() {
    assert_eq!(
        read_model(&splice(&M, 10..10, &[at_most(0, 1, -1)])),
        refused(6, 9)
    );
    let both = splice(
        &M,
        10..11,
        &[at_most(1, 0, 3), at_most(1, 0, 1), at_most(1, 0, 2)],
    );
    assert_eq!(read_model(&both), counts(3, 1, 2));
    let clash = splice(&both, 13..13, &[at_most(0, 1, -2)]);
    assert_eq!(read_model(&clash), refused(6, 9));
}

#[test]
fn limits() {
    let locations = |count: usize| [vec![HEAD], vec![LOCATION; count], vec![START]].concat();
    assert_eq!(read_model(&locations(16)), counts(16, 0, 0));
    assert_eq!(read_model(&locations(17)), refused(3, 17));
    let actions = |count: usize| {
        // The limit is on the whole model, so they are shared by two locations.
        let half = [LOCATION].into_iter().chain([ACTION, EDGE].repeat(16));
        let rest = [LOCATION]
            .into_iter()
            .chain([ACTION, EDGE].repeat(count - 16));
        [HEAD]
            .into_iter()
            .chain(half)
            .chain(rest)
            .chain([START])
            .collect::<Vec<u32>>()
    };
    assert_eq!(read_model(&actions(32)), counts(2, 32, 32));
    assert_eq!(read_model(&actions(33)), refused(3, 67));
    let edges = |count: usize| {
        let edges = vec![0x40000002; count - 1];
        [vec![HEAD, LOCATION, ACTION, 0x40000004], edges, vec![START]].concat()
    };
    assert_eq!(read_model(&edges(4)), counts(1, 1, 4));
    assert_eq!(read_model(&edges(5)), refused(3, 7));
}

#[test]
fn field_before_limit() {
    let mut words = [vec![HEAD], vec![LOCATION; 16], vec![LOCATION | 2]].concat();
    assert_eq!(read_model(&words), refused(2, 17));
    words[17] = LOCATION;
    assert_eq!(read_model(&words), refused(3, 17));
    let fifth = [
        HEAD, LOCATION, ACTION, LIGHT, LIGHT, LIGHT, LIGHT, 0x40000000,
    ];
    assert_eq!(read_model(&fifth), refused(2, 7));
    assert_eq!(read_model(&with(&fifth, 7, LIGHT)), refused(3, 7));
}

#[test]
fn the_sum_is_the_last_thing_asked_of_the_next_word() {
    let light = |next: &[u32]| [&[HEAD, LOCATION, ACTION, LIGHT], next].concat();
    assert_eq!(read_model(&light(&[])), refused(1, 4));
    assert_eq!(read_model(&light(&[BOUND])), refused(1, 4));
    assert_eq!(read_model(&light(&[0x70000001])), refused(1, 4));
    assert_eq!(read_model(&light(&[LOCATION | 4])), refused(2, 4));
    assert_eq!(read_model(&light(&[ACTION | 4])), refused(2, 4));
    assert_eq!(read_model(&light(&[0x60000001])), refused(2, 4));
    for next in [LOCATION, ACTION, START] {
        assert_eq!(read_model(&light(&[next])), refused(4, 4));
        assert_eq!(read_model(&light(&[next, 0xF0000000])), refused(4, 4));
    }
    // The sum is that of all edges: 9 and 1 make 10.
    assert_eq!(read_model(&light(&[0x40000001, START])), counts(1, 1, 2));
}

#[test]
fn limits_come_before_the_sum() {
    let full = [vec![HEAD], vec![LOCATION; 16], vec![ACTION, LIGHT]].concat();
    assert_eq!(
        read_model(&[&full[..], &[LOCATION]].concat()),
        refused(3, 19)
    );
    assert_eq!(read_model(&[&full[..], &[START]].concat()), refused(4, 19));
    let actions = [
        vec![HEAD, LOCATION],
        [ACTION, EDGE].repeat(31),
        vec![ACTION, LIGHT],
    ]
    .concat();
    assert_eq!(
        read_model(&[&actions[..], &[ACTION]].concat()),
        refused(3, 66)
    );
    assert_eq!(
        read_model(&[&actions[..], &[LOCATION]].concat()),
        refused(4, 66)
    );
}

#[test]
fn the_sum_is_a_whole_number() {
    // 65,535 + 65,535 + 1 would be D, 65,535, if only sixteen bits were kept.
    let sixteen_bits = [
        0x1110FFFF, LOCATION, ACTION, 0x4000FFFF, 0x4000FFFF, 0x40000001, START,
    ];
    assert_eq!(read_model(&sixteen_bits), refused(4, 6));
    let exact = [0x1110FFFF, LOCATION, ACTION, 0x4000FFFE, 0x40000001, START];
    assert_eq!(read_model(&exact), counts(1, 1, 2));
}

#[test]
fn edge_locations_are_asked_on_the_whole_file() {
    let lost = with(&with(&M, 5, 0x40030009), 6, 0x40040001);
    assert_eq!(read_model(&lost), refused(5, 5));
    assert_eq!(read_model(&with(&M, 6, 0x40030001)), refused(5, 6));
    // After 1 to 4, before 6.
    assert_eq!(
        read_model(&splice(&lost, 11..11, &[LOCATION])),
        refused(1, 11)
    );
    assert_eq!(
        read_model(&with(&lost, 10, 0x51001000 | 1 << 13)),
        refused(2, 10)
    );
    assert_eq!(
        read_model(&with(&lost, 10, at_most(1, 0, -1))),
        refused(5, 5)
    );
}

#[test]
fn no_start_state() {
    assert_eq!(read_model(&with(&M, 10, at_most(1, 0, -1))), refused(6, 9));
    // The invariant counts: above 3 is outside "at most 3", 3 is not.
    assert_eq!(read_model(&with(&M, 10, below(0, 1, -3))), refused(6, 9));
    assert_eq!(
        read_model(&with(&M, 10, at_most(0, 1, -3))),
        counts(3, 1, 2)
    );
    // Start states may exist at scale 2 and not at scale 1.
    let between = splice(&M, 10..11, &[below(0, 1, -2), below(1, 0, 3)]);
    assert_eq!(read_model(&between), counts(3, 1, 2));
    // A start at a location other than 0 has that one's invariant.
    assert_eq!(
        read_model(&with(&with(&M, 9, 0x60000001), 10, below(0, 1, -3))),
        counts(3, 1, 2)
    );
}

#[test]
fn the_tree() {
    let model = parse_model(&with(&M, 6, 0x40120001)).unwrap();
    assert_eq!(
        (model.clocks, model.denominator, model.locations.len()),
        (1, 10, 3)
    );
    let targets: Vec<bool> = model
        .locations
        .iter()
        .map(|location| location.target)
        .collect();
    assert_eq!(targets, [false, false, true]);
    let action = &model.locations[0].actions[0];
    let guard = action.guard[0];
    assert_eq!((guard.i, guard.j, guard.d, guard.strict), (0, 1, -2, false));
    let edge = action.edges[1];
    assert_eq!(
        (edge.resets, edge.location, edge.weight, edge.place),
        (1, 2, 1, 6)
    );
    assert_eq!((model.start.location, model.start.place), (0, 9));
}
