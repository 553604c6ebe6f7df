//! The whole structs that the library's two board calls return, as a caller in C sees them: zeros
//! where there is nothing to say.

mod common;

use common::{with, M, T};
use miss_chance::{Ledger, Slot, SLOTS};

#[repr(C)]
struct Request {
    team: u32,
    slot: u32,
}

#[derive(Debug, PartialEq)]
#[repr(C)]
struct Reply {
    number: u32,
    place: usize,
    b: u32,
    whole: u32,
    nodes: usize,
}

#[derive(Debug, PartialEq)]
#[repr(C)]
struct Submitted {
    answer: Reply,
    ledger: Ledger,
}

#[derive(Debug, PartialEq)]
#[repr(C)]
struct Ranking {
    number: u32,
    place: usize,
    count: usize,
    order: [usize; SLOTS],
}

extern "C" {
    fn miss_chance_submit(
        slots: *mut Slot,
        slot_count: usize,
        ledger: Ledger,
        request: Request,
        model: *const u32,
        model_words: usize,
        table: *const u32,
        table_words: usize,
    ) -> Submitted;

    fn miss_chance_rank(slots: *const Slot, slot_count: usize) -> Ranking;
}

/// Slot 4 with 2 in 10, and slot 9 with 1 in 10, both team 5's; the others vacant.
fn two_held() -> [Slot; SLOTS] {
    let mut slots = [Slot::VACANT; SLOTS];
    for (slot, b) in [(4, 2), (9, 1)] {
        slots[slot] = Slot {
            held: true,
            team: 5,
            b,
            whole: 10,
        };
    }
    slots
}

/// A submission for slot 9 of the board above, with 100 left.
fn submit(team: u32, table: &[u32]) -> Submitted {
    let mut slots = two_held();
    // SAFETY: each pointer and length is an array's or a borrowed slice's.
    unsafe {
        miss_chance_submit(
            slots.as_mut_ptr(),
            slots.len(),
            Ledger::FRESH,
            Request { team, slot: 9 },
            M.as_ptr(),
            M.len(),
            table.as_ptr(),
            table.len(),
        )
    }
}

fn rank(slots: &[Slot]) -> Ranking {
    // SAFETY: as above.
    unsafe { miss_chance_rank(slots.as_ptr(), slots.len()) }
}

fn submitted(answer: Reply, allowance: u32) -> Submitted {
    Submitted {
        answer,
        ledger: Ledger { allowance },
    }
}

fn refusal(number: u32, place: usize) -> Reply {
    Reply {
        number,
        place,
        b: 0,
        whole: 0,
        nodes: 0,
    }
}

#[test]
fn submissions() {
    let accepted = Reply {
        number: 0,
        place: 0,
        b: 1,
        whole: 10,
        nodes: 3,
    };
    assert_eq!(submit(5, &T), submitted(accepted, 99));
    let claims_0 = with(T, 3, 0x90000000);
    assert_eq!(submit(5, &claims_0), submitted(refusal(19, 4), 99));
    assert_eq!(submit(5, &[]), submitted(refusal(11, 0), 99));
    assert_eq!(submit(6, &T), submitted(refusal(56, 0), 100));
    assert_eq!(submit(8, &T), submitted(refusal(54, 0), 100));
}

#[test]
fn rankings() {
    let mut ranking = Ranking {
        number: 0,
        place: 0,
        count: 2,
        order: [0; SLOTS],
    };
    ranking.order[..2].copy_from_slice(&[9, 4]);
    assert_eq!(rank(&two_held()), ranking);

    let refused = Ranking {
        number: 54,
        place: 0,
        count: 0,
        order: [0; SLOTS],
    };
    assert_eq!(rank(&two_held()[..15]), refused);
    let mut slots = two_held();
    slots[15] = Slot {
        team: 8,
        ..slots[9]
    };
    assert_eq!(rank(&slots), refused);
}
