//! The two zone questions, and the zone operations against valuations tried one by one.

use super::*;
use crate::reading::{zone_empty, zone_inside, Bound, Zone};

#[test]
fn number_of_clocks_first() {
    for clocks in [0, 5, u32::MAX] {
        assert_eq!(zone_empty(clocks, &[0]), refused(31, 0));
        assert_eq!(zone_inside(clocks, &[0], &[0]), refused(31, 0));
    }
}

#[test]
fn the_first_bad_word_of_each_list() {
    let good = at_most(1, 2, 0);
    // Another kind, equal clocks, a clock above C, d + 4,096 = 0, a spare bit.
    for bad in [
        0x41201000,
        0x51101000,
        0x53001000,
        0x51000000,
        0x51001000 | 1 << 18,
    ] {
        assert_eq!(zone_empty(2, &[good, bad, bad]), refused(32, 1));
        assert_eq!(zone_inside(2, &[good, good, bad], &[bad]), refused(32, 2));
        assert_eq!(zone_inside(2, &[good], &[good, bad]), refused(33, 1));
    }
    assert_eq!(zone_empty(1, &[good]), refused(32, 0));
}

#[test]
fn no_bounds_and_no_negative_clocks() {
    for clocks in 1..=4 {
        assert_eq!(zone_empty(clocks, &[]), Ok(false));
        assert_eq!(zone_inside(clocks, &[], &[]), Ok(true));
        assert_eq!(zone_inside(clocks, &[], &[at_most(0, clocks, 0)]), Ok(true));
        assert_eq!(
            zone_inside(clocks, &[], &[at_most(clocks, 0, 4095)]),
            Ok(false)
        );
    }
    assert_eq!(zone_empty(1, &[below(1, 0, 0)]), Ok(true));
    assert_eq!(zone_empty(1, &[at_most(1, 0, 0)]), Ok(false));
    // Clock 1 at most 3 and clock 2 not below 0: the difference is at most 3.
    assert_eq!(
        zone_inside(2, &[at_most(1, 0, 3)], &[at_most(1, 2, 3)]),
        Ok(true)
    );
}

#[test]
fn strictness_of_sums() {
    // One strict part makes the sum strict.
    let first = [below(1, 0, 3), at_most(2, 1, 2)];
    assert_eq!(zone_inside(2, &first, &[below(2, 0, 5)]), Ok(true));
    let first = [at_most(1, 0, 3), at_most(2, 1, 2)];
    assert_eq!(zone_inside(2, &first, &[below(2, 0, 5)]), Ok(false));
    // A chain back to its beginning with sum 0: fine unless a part is strict.
    let chain = [at_most(1, 2, -1), at_most(2, 3, 3), at_most(3, 1, -2)];
    assert_eq!(zone_empty(3, &chain), Ok(false));
    assert_eq!(zone_empty(3, &with(&chain, 1, below(2, 3, 3))), Ok(true));
}

#[test]
fn inside_and_empty_zones() {
    let empty = [at_most(1, 0, 1), at_most(0, 1, -2)];
    assert_eq!(zone_inside(1, &empty, &[at_most(1, 0, 0)]), Ok(true));
    assert_eq!(zone_inside(1, &empty, &empty), Ok(true));
    assert_eq!(zone_inside(1, &[at_most(1, 0, 0)], &empty), Ok(false));
    assert_eq!(
        zone_inside(1, &[at_most(1, 0, 1), at_most(0, 1, -1)], &empty),
        Ok(false)
    );
    // However the zone came to be empty.
    let contradiction = [Bound {
        i: 1,
        j: 0,
        d: -1,
        strict: false,
    }];
    let nothing = Zone::all(1).meet(&Zone::of(1, &contradiction));
    assert!(!Zone::all(1).inside(&nothing) && nothing.inside(&nothing));
    assert!(nothing.delay().is_empty() && nothing.reset(1).is_empty());
}

#[test]
fn the_widest_bounds() {
    let chain = [
        at_most(1, 0, 4095),
        at_most(2, 1, 4095),
        at_most(3, 2, 4095),
        at_most(4, 3, 4095),
    ];
    assert_eq!(zone_empty(4, &chain), Ok(false));
    let far = |d| {
        [
            at_most(0, 1, -4095),
            at_most(1, 2, -4095),
            at_most(2, 3, -4095),
            at_most(3, 4, d),
        ]
    };
    assert_eq!(zone_inside(4, &chain, &far(-4095)), Ok(false));
    assert_eq!(zone_empty(4, &[chain, far(-4095)].concat()), Ok(false));
    assert_eq!(
        zone_empty(4, &[&chain[..], &far(-4095), &[below(4, 3, 4095)]].concat()),
        Ok(true)
    );
    let every_pair: Vec<u32> = (0..=4)
        .flat_map(|i| {
            (0..=4)
                .filter(move |&j| i != j)
                .map(move |j| at_most(i, j, -4095))
        })
        .collect();
    assert_eq!(zone_empty(4, &every_pair), Ok(true));
}

/// Six is a multiple of 3, and a zone of two clocks that has a valuation at all has one in thirds.
const SCALE: i32 = 6;
/// Bounds in these tests are between -3 and 3, so whatever happens, happens below 7.
const TOP: i32 = 7 * SCALE;

pub fn holds(bounds: &[Bound], x: i32, y: i32) -> bool {
    let clocks = [0, x, y];
    bounds.iter().all(|bound| {
        let difference = clocks[bound.i] - clocks[bound.j];
        let strictness = i32::from(bound.strict);
        difference + strictness <= SCALE * bound.d
    })
}

pub fn points(bounds: &[Bound]) -> Vec<(i32, i32)> {
    let all = (0..=TOP).flat_map(|x| (0..=TOP).map(move |y| (x, y)));
    all.filter(|&(x, y)| holds(bounds, x, y)).collect()
}

pub fn some_bounds(dice: &mut Dice) -> Vec<Bound> {
    let pairs = [(0, 1), (1, 0), (0, 2), (2, 0), (1, 2), (2, 1)];
    let some = 1 + dice.below(5);
    let mut bound = |_| {
        let (i, j) = pairs[dice.below(6) as usize];
        let d = dice.below(7) as i32 - 3;
        Bound {
            i,
            j,
            d,
            strict: dice.below(2) == 0,
        }
    };
    (0..some).map(&mut bound).collect()
}

#[test]
fn empty_inside_and_meet_by_valuations() {
    let mut dice = Dice(2);
    for _ in 0..3_000 {
        let (first, second) = (some_bounds(&mut dice), some_bounds(&mut dice));
        let (zone, other) = (Zone::of(2, &first), Zone::of(2, &second));
        let valuations = points(&first);
        assert_eq!(zone.is_empty(), valuations.is_empty(), "{first:?}");
        let inside = valuations.iter().all(|&(x, y)| holds(&second, x, y));
        assert_eq!(zone.inside(&other), inside, "{first:?} {second:?}");
        let both = points(&[&first[..], &second].concat());
        assert_eq!(
            points(&zone.meet(&other).bounds()),
            both,
            "{first:?} {second:?}"
        );
        assert_eq!(points(&zone.bounds()), valuations, "{first:?}");
    }
}

#[test]
fn delay_and_resets_by_valuations() {
    let mut dice = Dice(3);
    for _ in 0..2_000 {
        let bounds = some_bounds(&mut dice);
        let zone = Zone::of(2, &bounds);
        let delayed = zone.delay().bounds();
        for (x, y) in points(&bounds) {
            let longest = TOP - x.max(y);
            assert!(
                (0..=longest).all(|t| holds(&delayed, x + t, y + t)),
                "{bounds:?}"
            );
        }
        for mask in 0..4 {
            let set = |x: i32, y: i32| (x * i32::from(mask & 1 == 0), y * i32::from(mask & 2 == 0));
            let after = zone.reset(mask).bounds();
            assert!(points(&bounds)
                .iter()
                .map(|&(x, y)| set(x, y))
                .all(|(x, y)| holds(&after, x, y)));
            let before = Zone::all(2).landing_in(&zone, mask).bounds();
            let lands = |&(x, y): &(i32, i32)| {
                let (x, y) = set(x, y);
                holds(&bounds, x, y)
            };
            let wanted: Vec<_> = points(&[]).into_iter().filter(lands).collect();
            assert_eq!(points(&before), wanted, "{bounds:?} {mask}");
        }
    }
}

/// A delayed or reset zone is no wider than it must be: each of its valuations comes from one of
/// the zone, at twice the scale at the latest.
#[test]
fn delay_and_resets_are_no_wider() {
    let mut dice = Dice(4);
    let doubled = |bounds: &[Bound]| -> Vec<Bound> {
        bounds
            .iter()
            .map(|&bound| Bound {
                d: 2 * bound.d,
                ..bound
            })
            .collect()
    };
    for _ in 0..300 {
        let bounds = some_bounds(&mut dice);
        let fine = doubled(&bounds);
        let zone = Zone::of(2, &bounds);
        for (x, y) in points(&zone.delay().bounds()) {
            let (x, y) = (2 * x, 2 * y);
            assert!(
                (0..=x.min(y)).any(|t| holds(&fine, x - t, y - t)),
                "{bounds:?}"
            );
        }
        for (x, y) in points(&zone.reset(1).bounds()) {
            assert!(
                x == 0 && (0..=3 * TOP).any(|x| holds(&fine, x, 2 * y)),
                "{bounds:?}"
            );
        }
        for (x, y) in points(&zone.reset(2).bounds()) {
            assert!(
                y == 0 && (0..=3 * TOP).any(|y| holds(&fine, 2 * x, y)),
                "{bounds:?}"
            );
        }
    }
}
