//! The cases that document 01 lists under "Timeline M and table T".

mod common;

use common::{with, M, T};
use miss_chance::{
    judge, read_model, zone_empty, zone_inside, Certificate, Counts, Emptiness, Inclusion,
    ModelAnswer, Reason, Refusal, Verdict,
};

const CERTIFIED: Verdict = Verdict::Accepted(Certificate {
    b: 1,
    whole: 10,
    nodes: 3,
});

fn refused(reason: Reason, place: usize) -> Verdict {
    Verdict::Refused(Refusal { reason, place })
}

/// T with its two B words replaced by one A word.
fn blocked() -> Vec<u32> {
    let mut table = T.to_vec();
    table.splice(4..6, [0xA0000000]);
    table
}

/// T with a bound put after word 6.
fn bounded(bound: u32) -> Vec<u32> {
    let mut table = T.to_vec();
    table.insert(7, bound);
    table
}

#[test]
fn the_timeline_and_its_table() {
    assert_eq!(judge(&M, &T), CERTIFIED);
    assert_eq!(judge(&M, &T).to_string(), "ACCEPTED 1 10 3");
    assert_eq!(judge(&M, &T).refusal(), None);
    assert_eq!(judge(&M, &T).result().map(|given| given.nodes), Ok(3));
    let counts = Counts {
        locations: 3,
        actions: 1,
        edges: 2,
    };
    assert_eq!(read_model(&M), ModelAnswer::Accepted(counts));
    assert_eq!(read_model(&M).to_string(), "ACCEPTED 3 1 2");
    assert_eq!(read_model(&M).refusal(), None);
    assert_eq!(read_model(&M).result(), Ok(counts));
}

#[test]
fn a_value_too_small() {
    let verdict = judge(&M, &with(T, 3, 0x90000000));
    assert_eq!(verdict, refused(Reason::SumTooLarge, 4));
    assert_eq!(verdict.to_string(), "REFUSED 19 4");
}

#[test]
fn a_target_below_the_whole() {
    let verdict = judge(&M, &with(T, 9, 0x90000009));
    assert_eq!(verdict, refused(Reason::BadTargetValue, 9));
    assert_eq!(verdict.to_string(), "REFUSED 15 9");
}

#[test]
fn a_blocked_row() {
    let verdict = judge(&M, &blocked());
    assert_eq!(verdict, refused(Reason::NotBlocked, 4));
    assert_eq!(verdict.to_string(), "REFUSED 16 4");
    assert_eq!(judge(&with(M, 4, 0x50180FFD), &blocked()), CERTIFIED);
}

#[test]
fn weights_that_do_not_add_up() {
    let model = with(M, 6, 0x40020002);
    let verdict = judge(&model, &T);
    assert_eq!(verdict, refused(Reason::BadWeights, 7));
    assert_eq!(verdict.to_string(), "REFUSED 4 7");
    assert_eq!(read_model(&model).refusal(), verdict.refusal());
}

#[test]
fn a_successor_with_a_bound() {
    let verdict = judge(&M, &bounded(0x51001002));
    assert_eq!(verdict, refused(Reason::NotInside, 4));
    assert_eq!(verdict.to_string(), "REFUSED 18 4");
    assert_eq!(judge(&M, &bounded(0x51001003)), CERTIFIED);
}

#[test]
fn one_zone_inside_another() {
    let first = [0x51001003, 0x52101002];
    assert_eq!(zone_inside(2, &first, &[0x52001005]), Inclusion::Inside);
    assert_eq!(zone_inside(2, &first, &[0x52001004]), Inclusion::NotInside);
}

#[test]
fn empty_zones() {
    assert_eq!(
        zone_empty(1, &[0x50180FFE, 0x51081003]),
        Emptiness::NotEmpty
    );
    assert_eq!(zone_empty(1, &[0x51000FFF]), Emptiness::Empty);
}

#[test]
fn no_words() {
    let verdict = judge(&[], &[]);
    assert_eq!(verdict, refused(Reason::BadModelKind, 0));
    assert_eq!(verdict.to_string(), "REFUSED 1 0");
    assert_eq!(judge(&[], &T), verdict);
    assert_eq!(read_model(&[]).refusal(), verdict.refusal());
    assert_eq!(judge(&M, &[]), refused(Reason::BadTableKind, 0));
    assert_eq!(zone_empty(1, &[]), Emptiness::NotEmpty);
    assert_eq!(zone_inside(1, &[], &[]), Inclusion::Inside);
    assert_eq!(zone_inside(1, &[], &[0x51001000]), Inclusion::NotInside);
    assert_eq!(zone_inside(1, &[0x51001000], &[]), Inclusion::Inside);
}
