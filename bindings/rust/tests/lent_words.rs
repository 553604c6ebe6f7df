//! Which of the words lent for the answer are written, seen through the library's own calls.

mod common;

use common::{with, M, T};
use miss_chance as _; // links the library

extern "C" {
    fn miss_chance_judge(
        model: *const u32,
        model_words: usize,
        table: *const u32,
        table_words: usize,
        answer: *mut u64,
        answer_words: usize,
    ) -> bool;

    fn miss_chance_draft(
        model: *const u32,
        model_words: usize,
        rounds: u64,
        table: *mut u32,
        table_words: usize,
        answer: *mut u64,
        answer_words: usize,
    ) -> bool;

    fn miss_chance_read_model(
        model: *const u32,
        model_words: usize,
        answer: *mut u64,
        answer_words: usize,
    ) -> bool;

    fn miss_chance_zone_empty(
        clocks: u32,
        zone: *const u32,
        zone_words: usize,
        answer: *mut u64,
        answer_words: usize,
    ) -> bool;

    fn miss_chance_zone_inside(
        clocks: u32,
        first: *const u32,
        first_words: usize,
        second: *const u32,
        second_words: usize,
        answer: *mut u64,
        answer_words: usize,
    ) -> bool;
}

const STALE: u64 = 0xA5A5_A5A5_A5A5_A5A5;
const BOUND: u32 = 0x51001000;

fn judge(model: &[u32], table: &[u32], answer: &mut [u64]) -> bool {
    // SAFETY: each pointer and length is a borrowed slice's.
    unsafe {
        miss_chance_judge(
            model.as_ptr(),
            model.len(),
            table.as_ptr(),
            table.len(),
            answer.as_mut_ptr(),
            answer.len(),
        )
    }
}

fn draft(model: &[u32], table: &mut [u32], answer: &mut [u64]) -> bool {
    // SAFETY: as above.
    unsafe {
        miss_chance_draft(
            model.as_ptr(),
            model.len(),
            2,
            table.as_mut_ptr(),
            table.len(),
            answer.as_mut_ptr(),
            answer.len(),
        )
    }
}

fn read_model(model: &[u32], answer: &mut [u64]) -> bool {
    // SAFETY: as above.
    unsafe {
        miss_chance_read_model(
            model.as_ptr(),
            model.len(),
            answer.as_mut_ptr(),
            answer.len(),
        )
    }
}

fn zone_empty(clocks: u32, zone: &[u32], answer: &mut [u64]) -> bool {
    // SAFETY: as above.
    unsafe {
        miss_chance_zone_empty(
            clocks,
            zone.as_ptr(),
            zone.len(),
            answer.as_mut_ptr(),
            answer.len(),
        )
    }
}

fn zone_inside(clocks: u32, first: &[u32], second: &[u32], answer: &mut [u64]) -> bool {
    // SAFETY: as above.
    unsafe {
        miss_chance_zone_inside(
            clocks,
            first.as_ptr(),
            first.len(),
            second.as_ptr(),
            second.len(),
            answer.as_mut_ptr(),
            answer.len(),
        )
    }
}

/// With fewer than four words lent, nothing is written; with more, the first four alone.
fn check(call: impl Fn(&mut [u64]) -> bool, expected: [u64; 4]) {
    for lent in 0..4 {
        let mut answer = [STALE; 8];
        assert!(!call(&mut answer[..lent]), "{lent} words lent");
        assert_eq!(answer, [STALE; 8], "{lent} words lent");
    }
    for lent in 4..8 {
        let mut answer = [STALE; 8];
        assert!(call(&mut answer[..lent]), "{lent} words lent");
        assert_eq!(answer[..4], expected, "{lent} words lent");
        assert_eq!(answer[4..], [STALE; 4], "{lent} words lent");
    }
}

#[test]
fn acceptances() {
    check(|answer| judge(&M, &T, answer), [0, 1, 10, 3]);
    check(|answer| read_model(&M, answer), [0, 3, 1, 2]);
    check(|answer| zone_empty(1, &[BOUND], answer), [0, 0, 0, 0]);
    check(|answer| zone_empty(1, &[0x51000FFF], answer), [0, 1, 0, 0]);
    check(|answer| zone_inside(1, &[BOUND], &[], answer), [0, 1, 0, 0]);
    check(|answer| zone_inside(1, &[], &[BOUND], answer), [0, 0, 0, 0]);
}

#[test]
fn refusals_with_zeros_behind() {
    check(
        |answer| judge(&with(M, 6, 0x40020002), &T, answer),
        [4, 7, 0, 0],
    );
    check(
        |answer| judge(&M, &with(T, 3, 0x90000000), answer),
        [19, 4, 0, 0],
    );
    check(|answer| read_model(&M[..9], answer), [1, 9, 0, 0]);
    check(|answer| zone_empty(5, &[], answer), [31, 0, 0, 0]);
    check(|answer| zone_empty(1, &[BOUND, 0], answer), [32, 1, 0, 0]);
    check(|answer| zone_inside(0, &[0], &[0], answer), [31, 0, 0, 0]);
    check(|answer| zone_inside(1, &[0], &[0], answer), [32, 0, 0, 0]);
    check(
        |answer| zone_inside(1, &[BOUND], &[BOUND, 0], answer),
        [33, 1, 0, 0],
    );
}

#[test]
fn empty_lists() {
    check(|answer| judge(&[], &[], answer), [1, 0, 0, 0]);
    check(|answer| judge(&[], &T, answer), [1, 0, 0, 0]);
    check(|answer| judge(&M, &[], answer), [11, 0, 0, 0]);
    check(|answer| read_model(&[], answer), [1, 0, 0, 0]);
    check(|answer| zone_empty(1, &[], answer), [0, 0, 0, 0]);
    check(|answer| zone_inside(1, &[], &[], answer), [0, 1, 0, 0]);
}

/// Fewer than four words for the answer leave those for the table alone too.
#[test]
fn drafts() {
    for (model, room, expected) in [
        (&M[..], 16, [0, 16, 0, 0]),
        (&M[..], 15, [60, 0, 0, 0]),
        (&M[..9], 16, [1, 9, 0, 0]),
        (&[], 0, [1, 0, 0, 0]),
    ] {
        check(|answer| draft(model, &mut vec![7; room], answer), expected);
        let mut table = vec![7; room];
        assert!(!draft(model, &mut table, &mut [STALE; 3]));
        assert_eq!(table, vec![7; room]);
    }
}

#[test]
fn an_answer_over_an_earlier_one() {
    let mut answer = [STALE; 4];
    assert!(judge(&M, &T, &mut answer));
    assert_eq!(answer, [0, 1, 10, 3]);
    assert!(judge(&M, &with(T, 3, 0x90000000), &mut answer));
    assert_eq!(answer, [19, 4, 0, 0]);
    assert!(zone_empty(1, &[0x51000FFF], &mut answer));
    assert_eq!(answer, [0, 1, 0, 0]);
}
