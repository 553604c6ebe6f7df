//! Drafts, document 02, card 5: the worked timeline, rounds, the longest draft, each refusal, the words
//! that are lent, and a small stack.

mod common;

use std::thread;

use common::{with, M, T};
use miss_chance::{
    draft, draft_into, judge, read_model, DraftAnswer, DraftLength, Reason, Refusal, DRAFT_WORDS,
};

/// M's draft after two rounds.
const DRAFT: [u32; 16] = [
    0x700F4240, 0x80000000, 0x50101000, 0x51001000, 0x900186A0, 0xB0000001, 0xB0000002, 0x81000000,
    0x50100FFE, 0x51001003, 0x90000000, 0x82000000, 0x50100FFE, 0x51001003, 0x900F4240, 0xC0000000,
];

/// Each time clock 1 reaches d it is set to 0, and clock 2 goes on: a node for every d of it.
fn ticking(d: u32) -> [u32; 9] {
    [
        0x11200001,
        0x20000000,
        0x51001000 + d,
        0x30000000,
        0x50101000 - d,
        0x40100001,
        0x60000000,
        0x51001000,
        0x52001000,
    ]
}

/// All but one of 65,535 goes round: the value falls by 15 in every round after the first.
const SLOW: [u32; 8] = [
    0x1110FFFF, 0x20000000, 0x30000000, 0x4010FFFE, 0x40110001, 0x20000000, 0x60000000, 0x51001000,
];

/// 64 nodes, each with all 20 bounds and with four successors for each of 32 actions: whenever the
/// other clocks are set to 0, clock 1 has had up to one unit more, but at most 63.
fn wide() -> Vec<u32> {
    let mut model = vec![0x11400004, 0x20000000, 0x5100103F, 0x52001001];
    for _ in 0..32 {
        model.push(0x30000000);
        model.extend([0x40E00001; 4]);
    }
    model.extend([0x60000000, 0x51001000, 0x52001000, 0x53001000, 0x54001000]);
    model
}

const TOO_MANY: Refusal = Refusal {
    reason: Reason::TooManyNodes,
    place: 0,
};

const TOO_FAR: Refusal = Refusal {
    reason: Reason::BoundTooFar,
    place: 0,
};

const TOO_FEW: Refusal = Refusal {
    reason: Reason::TooFewWords,
    place: 0,
};

/// The refusal of a model's draft, both ways to ask for it.
fn refused(model: &[u32], refusal: Refusal) {
    let answer = draft(model, 2);
    let line = format!("REFUSED {} {}", refusal.reason.number(), refusal.place);
    assert_eq!(answer, DraftAnswer::Refused(refusal));
    assert_eq!(answer.to_string(), line);
    assert_eq!(answer.refusal(), Some(refusal));
    assert_eq!(answer.result(), Err(refusal));
    for lent in [DRAFT_WORDS, 0] {
        let mut table = vec![7; lent];
        let answer = draft_into(model, 2, &mut table);
        assert_eq!(answer, DraftLength::Refused(refusal));
        assert_eq!(answer.to_string(), line);
        assert_eq!(answer.result(), Err(refusal));
        assert_eq!(answer.refusal(), Some(refusal));
        assert_eq!(table, vec![7; lent]);
    }
}

#[test]
fn the_worked_timeline() {
    let answer = draft(&M, 2);
    assert_eq!(answer, DraftAnswer::Drafted(DRAFT.to_vec()));
    assert_eq!(answer.to_string(), "DRAFTED 16");
    assert_eq!(answer.refusal(), None);
    let table = answer.result().expect("drafted");
    assert_eq!(judge(&M, &table).to_string(), "ACCEPTED 100000 1000000 3");
    assert_eq!(judge(&M, &T).to_string(), "ACCEPTED 1 10 3"); // the same fraction
}

#[test]
fn round_by_round() {
    for (rounds, first) in [
        (0, 1_000_000),
        (1, 1_000_000), // its successors still had V
        (2, 100_000),
        (3, 100_000),
        (1_000, 100_000),
        (1_001, 100_000),
        (u64::MAX, 100_000),
    ] {
        let table = draft(&M, rounds).result().expect("drafted");
        let certificate = judge(&M, &table).result().expect("accepted");
        let given = (certificate.b, certificate.whole, certificate.nodes);
        assert_eq!(given, (first, 1_000_000, 3), "{rounds} rounds");
    }
}

#[test]
fn the_last_rounds_that_count() {
    for (rounds, first) in [(999, 985_030), (1_000, 985_015), (1_001, 985_015)] {
        let table = draft(&SLOW, rounds).result().expect("drafted");
        let certificate = judge(&SLOW, &table).result().expect("accepted");
        assert_eq!(certificate.b, first, "{rounds} rounds");
    }
}

#[test]
fn the_longest_draft() {
    let model = wide();
    let table = draft(&model, 1).result().expect("drafted");
    assert_eq!(table.len(), 9_602);
    let line = "ACCEPTED 1000000 1000000 64";
    assert_eq!(judge(&model, &table).to_string(), line);
    let mut lent = [7; 9_602];
    let answer = draft_into(&model, 1, &mut lent[..9_601]);
    assert_eq!(answer, DraftLength::Refused(TOO_FEW));
    assert_eq!(lent, [7; 9_602]);
    let answer = draft_into(&model, 1, &mut lent);
    assert_eq!(answer, DraftLength::Drafted(9_602));
    assert_eq!(lent[..], table);
}

#[test]
fn a_refused_model() {
    let mut locations = vec![0x1110000A];
    locations.resize(18, 0x20000000);
    for model in [
        &M[..9],
        &with(M, 0, 0x1010000A),
        &locations,
        &with(M, 5, 0x40010008),
        &with(M, 6, 0x40030001),
        &with(M, 10, 0x51000FFF),
        &[],
    ] {
        let refusal = read_model(model).refusal().expect("a refusal");
        refused(model, refusal);
    }
}

#[test]
fn too_many_nodes_and_bounds_too_far() {
    refused(&ticking(1), TOO_MANY);
    refused(&ticking(64), TOO_MANY); // the 65th would be the first beyond 4,095: 58 comes first
    refused(&ticking(65), TOO_MANY); // the 64th has 4,095
    refused(&ticking(66), TOO_FAR); // the 64th would have 4,158
    refused(&ticking(4_095), TOO_FAR);
}

#[test]
fn lent_words() {
    for lent in 0..16 {
        let mut table = [7; 16];
        let answer = draft_into(&M, 2, &mut table[..lent]);
        assert_eq!(answer, DraftLength::Refused(TOO_FEW), "{lent} words lent");
        assert_eq!(table, [7; 16], "{lent} words lent");
    }
    for lent in 16..20 {
        let mut table = [7; 20];
        let answer = draft_into(&M, 2, &mut table[..lent]);
        assert_eq!(answer, DraftLength::Drafted(16), "{lent} words lent");
        assert_eq!(answer.to_string(), "DRAFTED 16");
        assert_eq!(answer.result(), Ok(16));
        assert_eq!(answer.refusal(), None);
        assert_eq!(table[..16], DRAFT, "{lent} words lent");
        assert_eq!(table[16..], [7; 4], "{lent} words lent");
    }
    let short = draft_into(&M, 2, &mut []);
    assert_eq!(short.to_string(), "REFUSED 60 0");
}

/// With the 256 KiB of stack that the documentation calls enough.
#[test]
fn in_a_thread_with_a_small_stack() {
    let small = thread::Builder::new().stack_size(256 * 1024);
    let drafted = |model: &[u32]| draft(model, 1_000).to_string();
    let drafting = move || [drafted(&M), drafted(&ticking(1)), drafted(&wide())];
    let lines = small.spawn(drafting).expect("a thread").join();
    let due = ["DRAFTED 16", "REFUSED 58 0", "DRAFTED 9602"];
    assert_eq!(lines.expect("it ends"), due);
}
