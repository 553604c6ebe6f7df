//! Document 02, card 3: refusals 54 to 56, what is spent and written, and the rank.

use super::*;
use crate::reading::{rank, submit, Slot};

/// One location without actions: node 0 may claim any fraction.
const IDLE: [u32; 3] = [0x11100001, 0x20000000, 0x60000000];

const FRESH: [Slot; 16] = [Slot::VACANT; 16];
const LARGEST: u32 = 268_435_455;

/// A table for it that certifies b / whole.
fn claim(b: u32, whole: u32) -> [u32; 4] {
    [0x70000000 | whole, 0x80000000, 0x90000000 | b, 0xC0000000]
}

fn held(team: u32, b: u32, whole: u32) -> Slot {
    Slot {
        held: true,
        team,
        b,
        whole,
    }
}

/// A board with one slot replaced.
fn board(number: usize, slot: Slot) -> [Slot; 16] {
    let mut slots = FRESH;
    slots[number] = slot;
    slots
}

/// Submits 1/2 for team 3 and slot 5, to the slots and with this much left: the answer, what is left
/// and whether the slots are as they were.
fn half(slots: &[Slot], left: u32) -> (Result<Certificate, Refusal>, u32, bool) {
    asked(slots, left, 3, 5)
}

fn asked(
    slots: &[Slot],
    mut left: u32,
    team: u32,
    slot: u32,
) -> (Result<Certificate, Refusal>, u32, bool) {
    let mut after = slots.to_vec();
    let answer = submit(&mut after, &mut left, team, slot, &IDLE, &claim(1, 2));
    (answer, left, after == slots)
}

#[test]
fn a_submission_writes_its_slot_and_spends_one() {
    let (mut slots, mut left) = (FRESH, 100);
    let answer = submit(&mut slots, &mut left, 7, 15, &M, &T);
    assert_eq!(answer, accepted(1, 10, 3));
    assert_eq!((slots, left), (board(15, held(7, 1, 10)), 99));
    // Its own slot again, by a larger fraction, and not reduced.
    let answer = submit(&mut slots, &mut left, 7, 15, &IDLE, &claim(5, 10));
    assert_eq!(answer, accepted(5, 10, 1));
    assert_eq!((slots, left), (board(15, held(7, 5, 10)), 98));
    // The last one of the allowance, on the first slot.
    left = 1;
    let answer = submit(&mut slots, &mut left, 0, 0, &IDLE, &claim(LARGEST, LARGEST));
    assert_eq!(answer, accepted(LARGEST, LARGEST, 1));
    assert_eq!((slots[0], left), (held(0, LARGEST, LARGEST), 0));
}

#[test]
fn the_judges_refusal_spends_one_and_writes_nothing() {
    let (mut slots, mut left) = (board(2, held(1, 1, 2)), 100);
    let before = slots;
    let answer = submit(&mut slots, &mut left, 1, 2, &M, &with(&T, 3, 0x90000000));
    assert_eq!((answer, left), (refused(19, 4), 99));
    let answer = submit(&mut slots, &mut left, 1, 2, &[], &T);
    assert_eq!((answer, left), (refused(1, 0), 98));
    let answer = submit(&mut slots, &mut left, 1, 3, &M, &[]);
    assert_eq!((answer, left), (refused(11, 0), 97));
    assert_eq!(slots, before);
}

#[test]
fn a_board_out_of_range() {
    let bad = |slots: &[Slot], left: u32| {
        assert_eq!(half(slots, left), (refused(54, 0), left, true));
    };
    for count in [0, 1, 15, 17, 40] {
        bad(&vec![Slot::VACANT; count], 100);
        assert_eq!(rank(&vec![Slot::VACANT; count]), refused(54, 0));
    }
    for slot in [
        held(8, 1, 2),
        held(u32::MAX, 1, 2),
        held(3, 0, 0),
        held(3, 3, 2),
        held(3, LARGEST, LARGEST + 1),
        held(3, u32::MAX, u32::MAX),
    ] {
        for number in 0..16 {
            bad(&board(number, slot), 100);
            assert_eq!(rank(&board(number, slot)), refused(54, 0));
            // A vacant slot's other fields are not read.
            let vacant = board(
                number,
                Slot {
                    held: false,
                    ..slot
                },
            );
            assert_eq!(half(&vacant, 100).0, accepted(1, 2, 1));
            assert_eq!(rank(&vacant), Ok(vec![]));
        }
    }
    bad(&FRESH, 101);
    bad(&FRESH, u32::MAX);
}

#[test]
fn a_request_out_of_range() {
    let nowhere = (refused(54, 0), 100, true);
    for team in [8, 9, 1 << 16, u32::MAX] {
        assert_eq!(asked(&FRESH, 100, team, 5), nowhere);
    }
    for slot in [16, 17, 1 << 8, 1 << 16, u32::MAX] {
        assert_eq!(asked(&FRESH, 100, 3, slot), nowhere);
    }
    assert_eq!(asked(&FRESH, 100, 7, 15).0, accepted(1, 2, 1));
}

#[test]
fn spent_and_held_by_another() {
    let (other, own) = (board(5, held(2, 0, 1)), board(5, held(3, 0, 1)));
    assert_eq!(half(&FRESH, 0), (refused(55, 0), 0, true));
    assert_eq!(half(&other, 100), (refused(56, 0), 100, true));
    assert_eq!(half(&own, 100), (accepted(1, 2, 1), 99, false));
    // Another slot of another team is no matter, nor is the team of a vacant slot.
    assert_eq!(half(&board(4, held(2, 0, 1)), 100).0, accepted(1, 2, 1));
    let left_behind = Slot {
        held: false,
        ..held(2, 0, 1)
    };
    assert_eq!(half(&board(5, left_behind), 100).0, accepted(1, 2, 1));
}

/// All of 54 before 55, 55 before 56, and all of them before the judge.
#[test]
fn the_order_of_the_refusals() {
    let other = board(5, held(2, 0, 1));
    assert_eq!(half(&other, 0), (refused(55, 0), 0, true));
    assert_eq!(asked(&other, 0, 8, 5), (refused(54, 0), 0, true));
    assert_eq!(asked(&other, 0, 3, 16), (refused(54, 0), 0, true));
    assert_eq!(half(&other[..15], 0), (refused(54, 0), 0, true));
    let mut bad = other;
    bad[15] = held(2, 2, 1);
    assert_eq!(half(&bad, 0), (refused(54, 0), 0, true));
    for (mut left, number) in [(101, 54), (0, 55), (100, 56)] {
        let answer = submit(&mut other.clone(), &mut left, 3, 5, &[], &[]);
        assert_eq!(answer, refused(number, 0));
    }
}

#[test]
fn smaller_fractions_rank_first() {
    let mut slots = FRESH;
    assert_eq!(rank(&slots), Ok(vec![]));
    slots[1] = held(0, 2, 4);
    slots[3] = held(1, LARGEST - 1, LARGEST);
    slots[4] = held(0, LARGEST - 2, LARGEST - 1);
    slots[7] = held(7, 0, LARGEST);
    slots[8] = held(2, 1, 2);
    slots[9] = held(2, 1, 1);
    slots[12] = held(2, 0, 1);
    slots[15] = held(2, 1, 3);
    // 0 twice, 1/3, 1/2 twice, two that differ by less than 1 in 2 to the power 55, and 1.
    assert_eq!(rank(&slots), Ok(vec![7, 12, 15, 1, 8, 4, 3, 9]));
}

/// A full board: every slot has its number in the rank exactly once.
#[test]
fn a_full_board() {
    let mut slots = FRESH;
    let mut left = 100;
    for number in 0..16 {
        let table = claim(15 - number, 15);
        let answer = submit(&mut slots, &mut left, number / 2, number, &IDLE, &table);
        assert_eq!(answer, accepted(15 - number, 15, 1));
    }
    assert_eq!(left, 84);
    assert_eq!(rank(&slots), Ok((0..16).rev().collect()));
    assert_eq!(rank(&[held(1, 3, 7); 16]), Ok((0..16).collect()));
}
