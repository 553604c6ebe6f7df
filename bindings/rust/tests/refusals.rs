//! Each refusal of documents 01 and 02 at least once, with its case, number and place; and threads.

mod common;

use std::error::Error;
use std::thread;

use common::{with, M, T};
use miss_chance::{
    judge, read_model, zone_empty, zone_inside, Emptiness, Inclusion, ModelAnswer, Reason, Refusal,
    Verdict,
};

/// A model that is refused, by both calls that read it.
fn model_case(model: &[u32], number: u32, place: usize, reason: Reason) {
    let refusal = Refusal { reason, place };
    let line = format!("REFUSED {number} {place}");
    assert_eq!(judge(model, &T), Verdict::Refused(refusal));
    assert_eq!(judge(model, &T).to_string(), line);
    assert_eq!(read_model(model), ModelAnswer::Refused(refusal));
    assert_eq!(read_model(model).to_string(), line);
    assert_eq!(read_model(model).result(), Err(refusal));
    assert_eq!(read_model(model).refusal(), Some(refusal));
}

fn table_case(table: &[u32], number: u32, place: usize, reason: Reason) {
    let refusal = Refusal { reason, place };
    let verdict = judge(&M, table);
    assert_eq!(verdict, Verdict::Refused(refusal));
    assert_eq!(verdict.to_string(), format!("REFUSED {number} {place}"));
    assert_eq!(verdict.result(), Err(refusal));
    assert_eq!(verdict.refusal(), Some(refusal));
}

#[test]
fn of_a_model() {
    let mut locations = vec![0x1110000A];
    locations.resize(18, 0x20000000);
    model_case(&M[..9], 1, 9, Reason::BadModelKind);
    model_case(&with(M, 0, 0x1010000A), 2, 0, Reason::BadModelField);
    model_case(&locations, 3, 17, Reason::OverModelLimit);
    model_case(&with(M, 5, 0x40010008), 4, 7, Reason::BadWeights);
    model_case(&with(M, 6, 0x40030001), 5, 6, Reason::NoLocation);
    model_case(&with(M, 10, 0x51000FFF), 6, 9, Reason::NoStart);
}

#[test]
fn of_a_table() {
    let mut nodes = vec![0x7000000A];
    for _ in 0..65 {
        nodes.extend([0x81000000, 0x90000000]);
    }
    let mut blocked = T.to_vec();
    blocked.splice(4..6, [0xA0000000]);
    let mut bounded = T.to_vec();
    bounded.insert(9, 0x51001001);

    table_case(&T[..10], 11, 10, Reason::BadTableKind);
    table_case(&with(T, 6, 0x83000000), 12, 6, Reason::BadTableField);
    table_case(&nodes, 13, 129, Reason::OverTableLimit);
    table_case(&with(T, 5, 0xB0000003), 14, 5, Reason::NoNode);
    table_case(&with(T, 9, 0x90000000), 15, 9, Reason::BadTargetValue);
    table_case(&blocked, 16, 4, Reason::NotBlocked);
    table_case(&with(T, 5, 0xB0000001), 17, 5, Reason::WrongLocation);
    table_case(&bounded, 18, 5, Reason::NotInside);
    table_case(&with(T, 7, 0x90000001), 19, 4, Reason::SumTooLarge);
    table_case(&with(T, 10, 0xC0000001), 20, 10, Reason::WrongStart);
    table_case(&with(T, 2, 0x51000FFF), 21, 10, Reason::StartNotInside);
}

/// A table for M whose start node, any reading of the clock, is cut: at most 1 is node 1, above 1
/// node 2.
const CUT: [u32; 21] = [
    0x7000000A, 0x80000000, 0x90000001, 0xD1001001, 0xB0000001, 0xB0000002, 0x80000000, 0x51001001,
    0x90000001, 0xB0000003, 0xB0000004, 0x80000000, 0x50180FFF, 0x90000001, 0xB0000003, 0xB0000004,
    0x81000000, 0x90000000, 0x82000000, 0x9000000A, 0xC0000000,
];

#[test]
fn of_a_cut() {
    let mut at_target = T.to_vec();
    at_target.splice(10..10, [0xD1001001, 0xB0000001, 0xB0000001]);
    let mut third = CUT.to_vec();
    third.insert(6, 0xB0000002);

    assert_eq!(judge(&M, &CUT).to_string(), "ACCEPTED 1 10 5");
    table_case(&at_target, 11, 10, Reason::BadTableKind);
    table_case(&third, 11, 6, Reason::BadTableKind);
    table_case(&CUT[..5], 11, 5, Reason::BadTableKind);
    table_case(&with(CUT, 3, 0xD0100FFF), 12, 3, Reason::BadTableField);
    table_case(&with(CUT, 5, 0xB0000005), 14, 5, Reason::NoNode);
    table_case(&with(CUT, 4, 0xB0000000), 51, 4, Reason::PartNotAbove);
    table_case(&with(CUT, 5, 0xB0000000), 51, 5, Reason::PartNotAbove);
    table_case(&with(CUT, 2, 0x90000000), 52, 4, Reason::PartMismatch);
    table_case(&with(CUT, 5, 0xB0000003), 52, 5, Reason::PartMismatch);
    table_case(&with(CUT, 7, 0x51001000), 53, 4, Reason::PartNotInside);
    table_case(&with(CUT, 3, 0xD1081001), 53, 5, Reason::PartNotInside);
}

const GOOD: u32 = 0x51001000;
const BAD: u32 = 0x52001000; // names clock 2 where C is 1

#[test]
fn of_emptiness() {
    let case = |answer: Emptiness, reason, place, line: &str| {
        let refusal = Refusal { reason, place };
        assert_eq!(answer, Emptiness::Refused(refusal));
        assert_eq!(answer.to_string(), line);
        assert_eq!(answer.result(), Err(refusal));
        assert_eq!(answer.refusal(), Some(refusal));
    };
    for clocks in [0, 5, u32::MAX] {
        let answer = zone_empty(clocks, &[BAD]);
        case(answer, Reason::BadClocks, 0, "REFUSED 31 0");
    }
    let answer = zone_empty(1, &[GOOD, BAD]);
    case(answer, Reason::BadBound, 1, "REFUSED 32 1");

    assert_eq!(Emptiness::Empty.to_string(), "EMPTY");
    assert_eq!(Emptiness::Empty.result(), Ok(true));
    assert_eq!(Emptiness::Empty.refusal(), None);
    assert_eq!(Emptiness::NotEmpty.to_string(), "NOT EMPTY");
    assert_eq!(Emptiness::NotEmpty.result(), Ok(false));
    assert_eq!(Emptiness::NotEmpty.refusal(), None);
}

#[test]
fn of_inclusion() {
    let case = |answer: Inclusion, reason, place, line: &str| {
        let refusal = Refusal { reason, place };
        assert_eq!(answer, Inclusion::Refused(refusal));
        assert_eq!(answer.to_string(), line);
        assert_eq!(answer.result(), Err(refusal));
        assert_eq!(answer.refusal(), Some(refusal));
    };
    for clocks in [0, 5, u32::MAX] {
        let answer = zone_inside(clocks, &[BAD], &[BAD]);
        case(answer, Reason::BadClocks, 0, "REFUSED 31 0");
    }
    let answer = zone_inside(1, &[GOOD, BAD], &[BAD]);
    case(answer, Reason::BadBound, 1, "REFUSED 32 1");
    let answer = zone_inside(1, &[GOOD], &[GOOD, GOOD, BAD]);
    case(answer, Reason::BadSecondBound, 2, "REFUSED 33 2");

    assert_eq!(Inclusion::Inside.to_string(), "INSIDE");
    assert_eq!(Inclusion::Inside.result(), Ok(true));
    assert_eq!(Inclusion::Inside.refusal(), None);
    assert_eq!(Inclusion::NotInside.to_string(), "NOT INSIDE");
    assert_eq!(Inclusion::NotInside.result(), Ok(false));
    assert_eq!(Inclusion::NotInside.refusal(), None);
}

#[test]
fn as_an_error() {
    fn fraction(table: &[u32]) -> Result<(u32, u32), Box<dyn Error + Send + Sync>> {
        let certificate = judge(&M, table).result()?;
        Ok((certificate.b, certificate.whole))
    }
    assert_eq!(fraction(&T).expect("accepted"), (1, 10));
    let error = fraction(&with(T, 3, 0x90000000)).expect_err("refused");
    assert_eq!(
        error.to_string(),
        "refused with 19 at place 4: the weighted sum is too large for the node's value"
    );
}

/// Four threads at once, each with the 256 KiB of stack that the documentation calls enough.
#[test]
fn in_threads_with_a_small_stack() {
    let judges: Vec<_> = (0..4)
        .map(|own| {
            let table = with(T, 3, 0x90000000 + own);
            let judging = move || (0..200).map(|_| judge(&M, &table).to_string()).collect();
            let small = thread::Builder::new().stack_size(256 * 1024);
            small.spawn(judging).expect("a thread")
        })
        .collect();
    for (own, judge) in judges.into_iter().enumerate() {
        let lines: Vec<String> = judge.join().expect("a thread that ends");
        let expected = match own {
            0 => "REFUSED 19 4".to_string(),
            _ => format!("ACCEPTED {own} 10 3"),
        };
        assert!(lines.iter().all(|line| *line == expected), "{lines:?}");
    }
}
