//! Document 02, card 4: a landing outside the invariant of the edge's location is a miss.

use super::judging::{one_edge, BLOCKED, TO_1};
use super::zones::some_bounds;
use super::*;
use crate::reading::Bound;
use crate::spell;

/// A bound that no valuation meets.
const NEVER: u32 = 0x51000FFF;

/// A table for a model of `one_edge`: V is 1, node 0 has this zone and value, node 1 that of the
/// successor. The row stands behind the value.
fn table(zone: &[u32], value: u32, row: u32, successor: &[u32], next: u32) -> Vec<u32> {
    [
        &[0x70000001, 0x80000000],
        zone,
        &[0x90000000 | value, row, 0x81000000],
        successor,
        &[0x90000000 | next, 0xC0000000],
    ]
    .concat()
}

/// M with this invariant at location 1 (where the weight is 9) and this one at the target.
fn landing_at(first: &[u32], target: &[u32]) -> Vec<u32> {
    splice(&splice(&M, 9..9, target), 8..8, first)
}

#[test]
fn a_landing_outside_does_not_block() {
    // Every choice lands outside, by a bound that fails for the clock that is reset or not.
    for landing in [at_most(1, 0, -1), below(1, 0, 0), at_most(0, 1, -1)] {
        let model = one_edge(&[], &[], 1, &[landing]);
        assert_eq!(
            judge(&model, &table(&[], 1, BLOCKED, &[], 0)),
            refused(16, 3)
        );
    }
    let model = one_edge(&[at_most(1, 0, 2)], &[], 0, &[at_most(0, 1, -3)]);
    assert_eq!(
        judge(&model, &table(&[], 1, BLOCKED, &[], 0)),
        refused(16, 3)
    );
    // Only the invariant and the guard block.
    let shut = one_edge(&[at_most(1, 0, 2)], &[below(0, 1, -2)], 0, &[NEVER]);
    assert_eq!(
        judge(&shut, &table(&[], 0, BLOCKED, &[], 0)),
        accepted(0, 1, 2)
    );
}

#[test]
fn an_edge_that_can_land_outside_adds_v() {
    // Up to 4 the landings are inside, above they are not.
    let model = one_edge(&[], &[], 0, &[at_most(1, 0, 4)]);
    let judged =
        |value, successor: &[u32], next| judge(&model, &table(&[], value, TO_1, successor, next));
    assert_eq!(judged(0, &[at_most(1, 0, 4)], 0), refused(19, 3));
    assert_eq!(judged(1, &[at_most(1, 0, 4)], 0), accepted(1, 1, 2));
    assert_eq!(judged(1, &[at_most(1, 0, 4)], 1), accepted(1, 1, 2));
    // The landings inside must be held, all of them, and that is asked before the sum.
    assert_eq!(judged(1, &[below(1, 0, 4)], 0), refused(18, 3));
    assert_eq!(judged(0, &[below(1, 0, 4)], 0), refused(18, 3));
    assert_eq!(judged(1, &[below(0, 1, 0)], 0), refused(18, 3));
    // Where the source's invariant ends at 4 as well, none is outside.
    let alike = one_edge(&[at_most(1, 0, 4)], &[], 0, &[at_most(1, 0, 4)]);
    assert_eq!(
        judge(&alike, &table(&[], 0, TO_1, &[], 0)),
        accepted(0, 1, 2)
    );
    assert_eq!(judge(&alike, &table(&[], 0, TO_1, &[], 1)), refused(19, 3));
}

#[test]
fn where_all_land_outside_the_successor_holds_nothing() {
    let model = one_edge(&[], &[], 1, &[at_most(0, 1, -1)]);
    assert_eq!(
        judge(&model, &table(&[], 1, TO_1, &[NEVER], 0)),
        accepted(1, 1, 2)
    );
    assert_eq!(
        judge(&model, &table(&[], 0, TO_1, &[NEVER], 0)),
        refused(19, 3)
    );
    // Its location is asked all the same.
    assert_eq!(
        judge(&model, &table(&[], 1, 0xB0000000, &[NEVER], 0)),
        refused(17, 3)
    );
}

#[test]
fn the_invariant_is_asked_after_the_reset() {
    // Clock 1 is above 2 before the reset and 0 after it.
    let guard = [below(0, 1, -2)];
    let judged = |resets, landing| {
        let model = one_edge(&[], &guard, resets, &[landing]);
        judge(&model, &table(&[], 0, TO_1, &[], 0))
    };
    assert_eq!(judged(1, at_most(1, 0, 0)), accepted(0, 1, 2));
    assert_eq!(judged(1, at_most(0, 1, 0)), accepted(0, 1, 2));
    assert_eq!(judged(1, at_most(0, 1, -1)), refused(19, 3));
    assert_eq!(judged(1, below(1, 0, 0)), refused(19, 3));
    assert_eq!(judged(0, at_most(0, 1, -2)), accepted(0, 1, 2));
    assert_eq!(judged(0, at_most(1, 0, 0)), refused(19, 3));
    // The other clock is not reset, so its reading counts.
    assert_eq!(judged(1, at_most(2, 0, 4)), refused(19, 3));
    assert_eq!(judged(2, at_most(2, 0, 4)), accepted(0, 1, 2));
}

#[test]
fn outside_by_strictness_and_between_whole_numbers() {
    // M acts from 2 to 3: the landings at 3 are inside "at most 3" and outside "below 3".
    assert_eq!(
        judge(&landing_at(&[at_most(1, 0, 3)], &[]), &T),
        accepted(1, 10, 3)
    );
    assert_eq!(
        judge(&landing_at(&[below(1, 0, 3)], &[]), &T),
        refused(19, 4)
    );
    assert_eq!(
        judge(&landing_at(&[at_most(0, 1, -2)], &[]), &T),
        accepted(1, 10, 3)
    );
    assert_eq!(
        judge(&landing_at(&[below(0, 1, -2)], &[]), &T),
        refused(19, 4)
    );
    // From 2 on and below 3, at most 2: at scale 1 only 2 is reached, and is inside.
    let guard = [at_most(0, 1, -2), below(1, 0, 3)];
    let model = one_edge(&[], &guard, 0, &[at_most(1, 0, 2)]);
    assert_eq!(judge(&model, &table(&[], 0, TO_1, &[], 0)), refused(19, 3));
    assert_eq!(
        judge(&model, &table(&[], 1, TO_1, &[at_most(1, 0, 2)], 0)),
        accepted(1, 1, 2)
    );
}

#[test]
fn each_edge_for_itself() {
    // The edge of weight 9 lands outside: 9 × 10 + 1 × 10.
    let first = landing_at(&[at_most(0, 1, -5)], &[]);
    let valued = |value: u32| with(&T, 3, 0x90000000 | value);
    assert_eq!(judge(&first, &valued(9)), refused(19, 4));
    assert_eq!(judge(&first, &valued(10)), accepted(10, 10, 3));
    // The target adds V anyway: 9 × 0 + 1 × 10.
    let second = landing_at(&[], &[at_most(0, 1, -5)]);
    assert_eq!(judge(&second, &valued(0)), refused(19, 4));
    assert_eq!(judge(&second, &valued(1)), accepted(1, 10, 3));
    // Its node need hold nothing.
    let none = splice(&T, 9..9, &[NEVER]);
    assert_eq!(judge(&second, &none), accepted(1, 10, 3));
    assert_eq!(judge(&M, &none), refused(18, 5));
}

#[test]
fn v_where_the_target_node_has_another_value() {
    // In the sum stands V, so that node 0's 19 comes before the 15 of node 2.
    let low = with(&with(&T, 3, 0x90000000), 9, 0x90000000);
    assert_eq!(judge(&M, &low), refused(15, 9));
    let outside = landing_at(&[], &[at_most(0, 1, -5)]);
    assert_eq!(judge(&outside, &low), refused(19, 4));
}

#[test]
fn an_empty_reach_lands_nowhere() {
    // Above 3 the invariant ends, so that no edge can land outside: the sum has the nodes' values.
    let shut = with(&landing_at(&[NEVER], &[NEVER]), 4, below(0, 1, -3));
    assert_eq!(judge(&shut, &T), accepted(1, 10, 3));
    assert_eq!(judge(&shut, &with(&T, 3, 0x90000000)), refused(19, 4));
    let blocked = splice(&with(&T, 3, 0x90000000), 4..6, &[BLOCKED]);
    assert_eq!(judge(&shut, &blocked), accepted(0, 10, 3));
    // The same guard from 3 on: 3 is reached and lands outside.
    let open = with(&shut, 4, at_most(0, 1, -3));
    assert_eq!(judge(&open, &T), refused(19, 4));
    assert_eq!(judge(&open, &blocked), refused(16, 4));
}

#[test]
fn only_what_the_row_reaches() {
    // Landings from 2 on are inside. From a node that begins at 2 there are no others, though the start
    // is elsewhere; from one that begins at 0 there are.
    let from_2 = [at_most(0, 1, -2)];
    let model = one_edge(&[], &[], 0, &from_2);
    let judged = |model: &[u32], zone: &[u32]| judge(model, &table(zone, 0, TO_1, &[], 0));
    assert_eq!(judged(&model, &from_2), refused(21, 7));
    assert_eq!(judged(&model, &[]), refused(19, 3));
    // The guard, or the invariant, lets only those land; the zone as it is written goes further.
    assert_eq!(
        judged(&one_edge(&[], &from_2, 0, &from_2), &[]),
        accepted(0, 1, 2)
    );
    assert_eq!(
        judged(&one_edge(&from_2, &[], 0, &from_2), &[]),
        accepted(0, 1, 2)
    );
}

#[test]
fn a_cut_successor_too() {
    // Node 1 of T, cut; V stands for it, whatever it and its parts are worth.
    let cut: &[u32] = &[0x90000000, 0xD1001002, 0xB0000003, 0xB0000004];
    let parts = [0x81000000, 0x90000000].repeat(2);
    let table = |value: u32| {
        let valued = with(&T, 3, 0x90000000 | value);
        splice(&splice(&valued, 10..10, &parts), 7..8, cut)
    };
    let model = landing_at(&[below(1, 0, 3)], &[]);
    assert_eq!(judge(&M, &table(1)), accepted(1, 10, 5));
    assert_eq!(judge(&model, &table(9)), refused(19, 4));
    assert_eq!(judge(&model, &table(10)), accepted(10, 10, 5));
    // What is cut is the zone as it is written, with valuations outside the invariant as before.
    let tight = splice(&table(10), 16..16, &[below(1, 0, 3)]);
    assert_eq!(judge(&model, &tight), refused(53, 10));
}

/// What valuations and delays tried one by one say of a row.
#[derive(Default)]
struct Tried {
    /// Some allowed choice is there.
    open: bool,
    /// Some landing is outside the invariant.
    missed: bool,
    /// Some landing is inside the invariant and outside the successor's zone.
    lost: bool,
}

/// In sixths: two clocks and a delay have at most three fractional parts. With bounds between -3 and 3
/// clocks up to 38 and delays up to 19 are enough (see `points`).
const SCALE: i32 = 6;

fn holds(bounds: &[Bound], clocks: [i32; 3]) -> bool {
    bounds.iter().all(|bound| {
        let difference = clocks[bound.i] - clocks[bound.j];
        difference + i32::from(bound.strict) <= SCALE * bound.d
    })
}

/// The bounds of a row: of its node's zone, the source's invariant, the guard, the invariant where the
/// edge lands, the successor's zone.
fn tried([zone, invariant, guard, landing, successor]: &[Vec<Bound>; 5], resets: u32) -> Tried {
    let mut tried = Tried::default();
    for x in 0..=38 {
        for y in 0..=38 {
            let state = holds(zone, [0, x, y]) && holds(invariant, [0, x, y]);
            for delay in (0..=19).take_while(|_| state) {
                let after = [0, x + delay, y + delay];
                if !holds(invariant, after) {
                    break;
                }
                if holds(guard, after) {
                    let reset =
                        |clock: usize| after[clock] * i32::from(resets >> (clock - 1) & 1 == 0);
                    let landed = [0, reset(1), reset(2)];
                    let inside = holds(landing, landed);
                    tried.open = true;
                    tried.missed |= !inside;
                    tried.lost |= inside && !holds(successor, landed);
                }
            }
        }
    }
    tried
}

/// Bounds for `tried`. Invariants and guards bound single clocks; fewer bounds leave more to land.
fn some_row(dice: &mut Dice) -> [Vec<Bound>; 5] {
    let mut zones = [0; 5].map(|_| some_bounds(dice));
    for zone in &mut zones[1..4] {
        zone.retain(|bound| bound.i == 0 || bound.j == 0);
        zone.truncate(dice.below(3) as usize);
    }
    zones[4].truncate(dice.below(2) as usize);
    zones
}

/// 16, 18 and 19 of a row with one edge, against what is tried.
#[test]
fn rows_by_valuations() {
    let mut dice = Dice(6);
    let mut counts = std::collections::BTreeMap::new();
    for _ in 0..10_000 {
        let zones = some_row(&mut dice);
        let (resets, value, next) = (dice.below(4), dice.below(2), dice.below(2));
        let row = [BLOCKED, TO_1, TO_1, TO_1][dice.below(4) as usize];
        let found = tried(&zones, resets);
        let [zone, invariant, guard, landing, successor] =
            zones.each_ref().map(|zone| spell::bounds(zone));
        let worth = if found.missed { 1 } else { next };
        let wanted = match row {
            BLOCKED if found.open => Some(16),
            BLOCKED => None,
            _ if found.lost => Some(18),
            _ if worth > value => Some(19),
            _ => None,
        };
        let model = one_edge(&invariant, &guard, resets, &landing);
        if read_model(&model).is_err() {
            continue;
        }
        let answer = judge(&model, &table(&zone, value, row, &successor, next));
        match (wanted, answer) {
            (Some(number), answer) => {
                assert_eq!(
                    answer,
                    refused(number, 3 + zone.len()),
                    "{zones:?} {resets}"
                );
            }
            // Accepted but for the start, which is anywhere in the invariant.
            (None, Err(refusal)) => assert_eq!(refusal.number, 21, "{zones:?}"),
            (None, Ok(_)) => {}
        }
        *counts.entry((wanted, found.missed)).or_insert(0) += 1;
    }
    // Each refusal and none, with landings outside and without.
    let enough = counts.values().filter(|&&count| count > 40).count();
    assert_eq!(enough, 8, "{counts:?}");
}
