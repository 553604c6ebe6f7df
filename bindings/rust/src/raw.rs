//! The library's calls: five write their answer to four words, the two of a board return theirs as
//! a struct. All `unsafe` code is here.

use crate::words::Words;
use crate::{Ledger, Slot, SLOTS};

/// Who submits, and for which slot.
#[repr(C)]
struct Request {
    team: u32,
    slot: u32,
}

/// An answer as [`judge`] gives it, in fields.
#[repr(C)]
struct Reply {
    number: u32,
    place: usize,
    b: u32,
    whole: u32,
    nodes: usize,
}

#[repr(C)]
struct Submitted {
    answer: Reply,
    ledger: Ledger,
}

/// The answer of [`rank`], not yet looked at.
#[derive(Debug)]
#[repr(C)]
pub(crate) struct Ranked {
    pub number: u32,
    pub place: usize,
    pub count: usize,
    pub order: [usize; SLOTS],
}

extern "C" {
    fn miss_chance_judge(
        model: *const u32,
        model_words: usize,
        table: *const u32,
        table_words: usize,
        answer: *mut u64,
        answer_words: usize,
    ) -> bool;

    fn miss_chance_draft(
        model: *const u32,
        model_words: usize,
        rounds: u64,
        table: *mut u32,
        table_words: usize,
        answer: *mut u64,
        answer_words: usize,
    ) -> bool;

    fn miss_chance_read_model(
        model: *const u32,
        model_words: usize,
        answer: *mut u64,
        answer_words: usize,
    ) -> bool;

    fn miss_chance_zone_empty(
        clocks: u32,
        zone: *const u32,
        zone_words: usize,
        answer: *mut u64,
        answer_words: usize,
    ) -> bool;

    fn miss_chance_zone_inside(
        clocks: u32,
        first: *const u32,
        first_words: usize,
        second: *const u32,
        second_words: usize,
        answer: *mut u64,
        answer_words: usize,
    ) -> bool;

    fn miss_chance_submit(
        slots: *mut Slot,
        slot_count: usize,
        ledger: Ledger,
        request: Request,
        model: *const u32,
        model_words: usize,
        table: *const u32,
        table_words: usize,
    ) -> Submitted;

    fn miss_chance_rank(slots: *const Slot, slot_count: usize) -> Ranked;
}

pub(crate) fn judge(model: &[u32], table: &[u32]) -> Words {
    let mut answer = [0; 4];
    // SAFETY: each pointer and length is a borrowed slice's, so non-null, aligned and valid until
    // the call returns; `answer` is borrowed by nobody else, and the library keeps no pointer.
    let written = unsafe {
        miss_chance_judge(
            model.as_ptr(),
            model.len(),
            table.as_ptr(),
            table.len(),
            answer.as_mut_ptr(),
            answer.len(),
        )
    };
    checked(written, answer)
}

pub(crate) fn draft(model: &[u32], rounds: u64, table: &mut [u32]) -> Words {
    let mut answer = [0; 4];
    // SAFETY: as in `judge`; `table` too is borrowed by nobody else, and `rounds` may be any number.
    let written = unsafe {
        miss_chance_draft(
            model.as_ptr(),
            model.len(),
            rounds,
            table.as_mut_ptr(),
            table.len(),
            answer.as_mut_ptr(),
            answer.len(),
        )
    };
    checked(written, answer)
}

pub(crate) fn read_model(model: &[u32]) -> Words {
    let mut answer = [0; 4];
    // SAFETY: as in `judge`.
    let written = unsafe {
        miss_chance_read_model(
            model.as_ptr(),
            model.len(),
            answer.as_mut_ptr(),
            answer.len(),
        )
    };
    checked(written, answer)
}

pub(crate) fn zone_empty(clocks: u32, zone: &[u32]) -> Words {
    let mut answer = [0; 4];
    // SAFETY: as in `judge`; `clocks` may be any number.
    let written = unsafe {
        miss_chance_zone_empty(
            clocks,
            zone.as_ptr(),
            zone.len(),
            answer.as_mut_ptr(),
            answer.len(),
        )
    };
    checked(written, answer)
}

pub(crate) fn zone_inside(clocks: u32, first: &[u32], second: &[u32]) -> Words {
    let mut answer = [0; 4];
    // SAFETY: as in `judge`; `clocks` may be any number.
    let written = unsafe {
        miss_chance_zone_inside(
            clocks,
            first.as_ptr(),
            first.len(),
            second.as_ptr(),
            second.len(),
            answer.as_mut_ptr(),
            answer.len(),
        )
    };
    checked(written, answer)
}

/// The answer in the four words that `judge` would write, and the ledger as it is then.
pub(crate) fn submit(
    slots: &mut [Slot],
    ledger: Ledger,
    team: u32,
    slot: u32,
    model: &[u32],
    table: &[u32],
) -> (Words, Ledger) {
    // SAFETY: each pointer and length is a borrowed slice's, so non-null, aligned and valid until
    // the call returns; `slots` is borrowed by nobody else, the library writes whole slots to it,
    // each `held` 0 or 1, and keeps no pointer. The structs are `repr(C)` and as in the header.
    let Submitted { answer, ledger } = unsafe {
        miss_chance_submit(
            slots.as_mut_ptr(),
            slots.len(),
            ledger,
            Request { team, slot },
            model.as_ptr(),
            model.len(),
            table.as_ptr(),
            table.len(),
        )
    };
    let words = match answer.number {
        0 => [0, answer.b.into(), answer.whole.into(), answer.nodes as u64],
        number => [number.into(), answer.place as u64, 0, 0],
    };
    (words, ledger)
}

pub(crate) fn rank(slots: &[Slot]) -> Ranked {
    // SAFETY: as in `submit`; the slots are only read.
    unsafe { miss_chance_rank(slots.as_ptr(), slots.len()) }
}

fn checked(written: bool, answer: Words) -> Words {
    assert!(
        written,
        "broken link: libmiss_chance.a wrote no answer to four words"
    );
    answer
}
