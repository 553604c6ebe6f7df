//! The board of document 02, card 3: what a submission spends and writes, its refusals 54 to 56 in
//! their order, and the slots in rank.

mod common;

use std::mem::{offset_of, size_of};
use std::thread;

use common::{with, M, T};
use miss_chance::{
    judge, rank, submit, Board, Certificate, Ledger, RankAnswer, Reason, Refusal, Slot, Verdict,
    SLOTS,
};

const FRESH: [Slot; SLOTS] = [Slot::VACANT; SLOTS];
const MAX_WHOLE: u32 = 0x0FFF_FFFF; // the largest V that a table's head can have

fn held(team: u32, b: u32, whole: u32) -> Slot {
    Slot {
        held: true,
        team,
        b,
        whole,
    }
}

/// T claiming `value` in 10.
fn claiming(value: u32) -> [u32; 11] {
    with(T, 3, 0x90000000 + value)
}

fn refused(reason: Reason, place: usize) -> Verdict {
    Verdict::Refused(Refusal { reason, place })
}

const OUT_OF_RANGE: Refusal = Refusal {
    reason: Reason::BoardOutOfRange,
    place: 0,
};

/// A submission that must be refused before the judge: nothing is spent and nothing written.
fn before_the_judge(slots: &[Slot], allowance: u32, team: u32, slot: u32, reason: Reason) {
    let mut lent = slots.to_vec();
    let mut ledger = Ledger { allowance };
    let verdict = submit(&mut lent, &mut ledger, team, slot, &M, &T);
    assert_eq!(verdict, refused(reason, 0));
    assert_eq!(
        verdict.to_string(),
        format!("REFUSED {} 0", reason.number())
    );
    assert_eq!((&lent[..], ledger.allowance), (slots, allowance));
    // so too where the judge would refuse
    assert_eq!(
        submit(&mut lent, &mut ledger, team, slot, &[], &[]),
        verdict
    );
    assert_eq!((&lent[..], ledger.allowance), (slots, allowance));
}

#[test]
fn an_acceptance_writes_and_spends() {
    let (mut slots, mut ledger) = (FRESH, Ledger::FRESH);
    let verdict = submit(&mut slots, &mut ledger, 7, 15, &M, &T);
    let certificate = Certificate {
        b: 1,
        whole: 10,
        nodes: 3,
    };
    assert_eq!(verdict, Verdict::Accepted(certificate));
    let mut expected = FRESH;
    expected[15] = held(7, 1, 10);
    assert_eq!((slots, ledger.allowance), (expected, 99));
}

#[test]
fn a_refusal_of_the_judge_spends_alone() {
    let mut board = Board::new();
    let _ = board.submit(2, 3, &M, &T);
    let slots = *board.slots();
    let faults: [(&[u32], &[u32]); 4] = [
        (&M, &claiming(0)),
        (&M, &[]),
        (&with(M, 6, 0x40020002), &T),
        (&[], &[]),
    ];
    for (spent, (model, table)) in (2..).zip(faults) {
        let verdict = board.submit(2, 3, model, table);
        assert_eq!(verdict, judge(model, table));
        assert!(verdict.refusal().is_some());
        assert_eq!(*board.slots(), slots);
        assert_eq!(board.ledger().allowance, 100 - spent);
    }
}

#[test]
fn other_lengths_than_16() {
    for count in [0, 1, 15, 17, 32] {
        let slots = vec![Slot::VACANT; count];
        before_the_judge(&slots, 100, 0, 0, Reason::BoardOutOfRange);
        before_the_judge(&slots, 0, 0, 0, Reason::BoardOutOfRange);
        assert_eq!(rank(&slots), RankAnswer::Refused(OUT_OF_RANGE));
        assert_eq!(rank(&slots).to_string(), "REFUSED 54 0");
        assert_eq!(rank(&slots).result(), Err(OUT_OF_RANGE));
        assert_eq!(rank(&slots).refusal(), Some(OUT_OF_RANGE));
    }
}

/// Slots that no submission gives; each is 54 wherever it stands, for all three that read slots.
#[test]
fn held_slots_out_of_range() {
    let bad = [
        held(8, 1, 10),
        held(u32::MAX, 1, 10),
        held(0, 0, 0),
        held(0, 0, MAX_WHOLE + 1),
        held(0, 0, u32::MAX),
        held(0, 11, 10),
        held(0, u32::MAX, MAX_WHOLE),
    ];
    for slot in bad {
        for place in [0, 9, 15] {
            let mut slots = FRESH;
            slots[place] = slot;
            before_the_judge(&slots, 100, 0, 4, Reason::BoardOutOfRange);
            before_the_judge(&slots, 0, 0, place as u32, Reason::BoardOutOfRange);
            assert_eq!(rank(&slots).result(), Err(OUT_OF_RANGE));
            assert_eq!(Board::restore(slots, Ledger::FRESH), Err(OUT_OF_RANGE));

            slots[place].held = false; // vacant: what else is in it is not read
            assert!(rank(&slots).result().expect("ranked").is_empty());
            let mut board = Board::restore(slots, Ledger::FRESH).expect("in range");
            assert_eq!(board.submit(1, place as u32, &M, &T), judge(&M, &T));
            assert_eq!(board.slots()[place], held(1, 1, 10));
        }
    }
}

#[test]
fn the_ends_of_the_ranges() {
    let mut slots = FRESH;
    slots[0] = held(7, MAX_WHOLE, MAX_WHOLE);
    slots[15] = held(0, 0, 1);
    assert_eq!(rank(&slots).result().expect("ranked")[..], [15, 0]);
    for allowance in [0, 1, 100] {
        let ledger = Ledger { allowance };
        let board = Board::restore(slots, ledger).expect("in range");
        assert_eq!((board.slots(), board.ledger()), (&slots, ledger));
    }
    let (mut lent, mut ledger) = (slots, Ledger { allowance: 1 });
    let verdict = submit(&mut lent, &mut ledger, 7, 0, &M, &T);
    assert_eq!((verdict, ledger.allowance), (judge(&M, &T), 0));
}

#[test]
fn allowance_team_and_slot_out_of_range() {
    for allowance in [101, u32::MAX] {
        before_the_judge(&FRESH, allowance, 0, 0, Reason::BoardOutOfRange);
        let ledger = Ledger { allowance };
        assert_eq!(Board::restore(FRESH, ledger), Err(OUT_OF_RANGE));
    }
    for beyond in [8, u32::MAX] {
        before_the_judge(&FRESH, 100, beyond, 0, Reason::BoardOutOfRange);
        before_the_judge(&FRESH, 0, beyond, 0, Reason::BoardOutOfRange);
    }
    for beyond in [16, u32::MAX] {
        before_the_judge(&FRESH, 100, 0, beyond, Reason::BoardOutOfRange);
        before_the_judge(&FRESH, 0, 0, beyond, Reason::BoardOutOfRange);
    }
}

/// 100 submissions get to the judge, whoever makes them and whatever it says; the 101st does not.
#[test]
fn the_allowance_is_spent() {
    let mut board = Board::new();
    for round in 0..100 {
        assert_eq!(board.ledger().allowance, 100 - round);
        let (team, value) = (round % 8, round % 3);
        let verdict = board.submit(team, team, &M, &claiming(value));
        assert_eq!(verdict.refusal().is_some(), value == 0);
    }
    let full = board.clone();
    assert_eq!(
        board.submit(0, 0, &M, &T),
        refused(Reason::AllowanceSpent, 0)
    );
    assert_eq!(
        board.submit(0, 8, &[], &[]),
        refused(Reason::AllowanceSpent, 0)
    );
    assert_eq!(board, full);
    assert_eq!(board.rank().len(), 8); // ranking spends nothing
    before_the_judge(board.slots(), 0, 0, 1, Reason::AllowanceSpent); // 55 before 56
}

#[test]
fn a_slot_held_by_another_team() {
    let mut board = Board::new();
    let _ = board.submit(5, 9, &M, &T);
    for team in [0, 4, 6, 7] {
        before_the_judge(board.slots(), 99, team, 9, Reason::SlotHeldByOther);
        assert_eq!(
            board.submit(team, 9, &M, &T),
            refused(Reason::SlotHeldByOther, 0)
        );
        assert_eq!(board.ledger().allowance, 99);
    }
}

/// The holder may write over its slot, also with a larger fraction; the last acceptance is shown.
#[test]
fn an_own_slot_written_over() {
    let mut board = Board::new();
    for value in [3, 1, 10] {
        assert!(board.submit(5, 9, &M, &claiming(value)).refusal().is_none());
        assert_eq!(board.slots()[9], held(5, value, 10));
    }
    assert_eq!(
        board.submit(5, 9, &M, &claiming(0)),
        judge(&M, &claiming(0))
    );
    assert_eq!(board.slots()[9], held(5, 10, 10));
    assert_eq!(board.ledger().allowance, 96);
}

#[test]
fn ranks_and_ties() {
    assert_eq!(rank(&FRESH).to_string(), "RANKED");
    let mut slots = FRESH;
    slots[2] = held(0, 2, 4); // as much as 1/2, which comes behind it by its number
    slots[3] = held(0, 1 << 27, MAX_WHOLE); // products in 32 bits would put it before the next
    slots[4] = held(0, 1 << 26, MAX_WHOLE);
    slots[5] = held(1, 1, 2);
    slots[7] = held(7, 0, 3);
    slots[8] = held(2, 1, 3);
    slots[11] = held(3, MAX_WHOLE - 1, MAX_WHOLE); // by one below 1
    slots[12] = held(3, MAX_WHOLE - 2, MAX_WHOLE - 1);
    slots[14] = held(4, 5, 5);
    slots[15] = held(4, 0, MAX_WHOLE);
    let ranking = rank(&slots).result().expect("ranked");
    assert_eq!(ranking[..], [7, 15, 4, 8, 2, 5, 3, 12, 11, 14]);
    assert_eq!(
        format!("{ranking:?}"),
        "Ranking([7, 15, 4, 8, 2, 5, 3, 12, 11, 14])"
    );
    assert_eq!(rank(&slots).to_string(), "RANKED 7 15 4 8 2 5 3 12 11 14");
    assert_eq!(rank(&slots).refusal(), None);

    let same = [held(6, 1, 10); SLOTS];
    let in_order: Vec<usize> = (0..SLOTS).collect();
    assert_eq!(rank(&same).result().expect("ranked")[..], in_order);
}

#[test]
fn a_board_restored_goes_on() {
    let mut board = Board::new();
    assert_eq!(board, Board::default());
    assert_eq!((board.slots(), board.ledger()), (&FRESH, Ledger::FRESH));
    let _ = board.submit(1, 6, &M, &claiming(2));
    let mut again = Board::restore(*board.slots(), board.ledger()).expect("in range");
    assert_eq!(again, board);
    assert_eq!(again.submit(1, 2, &M, &T), board.submit(1, 2, &M, &T));
    assert_eq!(again.rank()[..], [2, 6]);
    assert_eq!(again, board);
}

/// As C has them, in the header.
#[test]
fn layout() {
    assert_eq!((size_of::<Slot>(), size_of::<Ledger>()), (16, 4));
    assert_eq!(offset_of!(Slot, held), 0);
    assert_eq!(offset_of!(Slot, team), 4);
    assert_eq!(offset_of!(Slot, b), 8);
    assert_eq!(offset_of!(Slot, whole), 12);
}

/// A board goes to a thread with the 256 KiB of stack that the documentation calls enough.
#[test]
fn in_a_thread_with_a_small_stack() {
    let mut board = Board::new();
    let submitting = move || {
        let verdict = board.submit(0, 0, &M, &T);
        (verdict, board.rank(), board)
    };
    let small = thread::Builder::new().stack_size(256 * 1024);
    let (verdict, ranking, board) = small.spawn(submitting).expect("a thread").join().unwrap();
    assert_eq!((verdict, &ranking[..]), (judge(&M, &T), &[0][..]));
    assert_eq!(board.slots()[0], held(0, 1, 10));
}
