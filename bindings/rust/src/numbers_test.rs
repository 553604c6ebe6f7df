//! Which numbers each answer takes, that others panic, and that a number has one name everywhere.

use std::fmt::Debug;
use std::fs::read_to_string;
use std::panic::catch_unwind;

use crate::raw::Ranked;
use crate::words::Words;
use crate::{
    DraftLength, Emptiness, Inclusion, ModelAnswer, RankAnswer, Reason, Refusal, Verdict,
    DRAFT_WORDS, SLOTS,
};

/// Of the numbers 1 to 99 those listed give a refusal with the same number, the others panic.
fn check<A: Debug>(read: fn(Words) -> A, refusal: fn(A) -> Option<Refusal>, listed: &[u32]) {
    for number in 1..100 {
        match catch_unwind(|| read([number.into(), 7, 0, 0])) {
            Ok(answer) => {
                assert!(listed.contains(&number), "{answer:?}");
                let refusal = refusal(answer).expect("a refusal");
                assert_eq!((refusal.reason.number(), refusal.place), (number, 7));
            }
            Err(message) => {
                assert!(!listed.contains(&number), "{number}");
                let message = message.downcast::<String>().expect("a message");
                assert!(message.starts_with("broken link: "), "{message}");
            }
        }
    }
}

#[test]
fn numbers_of_each_answer() {
    let verdicts: Vec<u32> = (1..=6).chain(11..=21).chain(51..=53).collect();
    let submissions: Vec<u32> = verdicts.iter().copied().chain(54..=56).collect();
    check(Verdict::of_judge, Verdict::refusal, &verdicts);
    check(Verdict::of_submission, Verdict::refusal, &submissions);
    check(rank_refused, RankAnswer::refusal, &[54]);
    let drafts: Vec<u32> = (1..=6).chain(58..=60).collect();
    check(
        |words| DraftLength::from_words(words, 0),
        DraftLength::refusal,
        &drafts,
    );
    check(
        ModelAnswer::from_words,
        ModelAnswer::refusal,
        &verdicts[..6],
    );
    check(Emptiness::from_words, Emptiness::refusal, &[31, 32]);
    check(Inclusion::from_words, Inclusion::refusal, &[31, 32, 33]);
}

#[test]
#[should_panic(expected = "broken link: libmiss_chance.a answered zone_empty with [0, 2, 0, 0]")]
fn neither_yes_nor_no() {
    let _ = Emptiness::from_words([0, 2, 0, 0]);
}

#[test]
#[should_panic(expected = "libmiss_chance.a answered judge with [0, 4294967296, 10, 3]")]
fn a_value_over_32_bits() {
    let _ = Verdict::of_judge([0, 1 << 32, 10, 3]);
}

#[test]
#[should_panic(expected = "libmiss_chance.a answered judge with [4294967297, 0, 0, 0]")]
fn a_number_over_32_bits() {
    let _ = Verdict::of_judge([(1 << 32) + 1, 0, 0, 0]);
}

#[test]
fn a_draft_that_fills_what_is_lent() {
    let answer = DraftLength::from_words([0, 16, 0, 0], 16);
    assert_eq!(answer, DraftLength::Drafted(16));
}

#[test]
#[should_panic(expected = "libmiss_chance.a answered draft with [0, 17, 0, 0]")]
fn a_draft_longer_than_what_is_lent() {
    let _ = DraftLength::from_words([0, 17, 0, 0], 16);
}

/// A ranking that is refused with these words.
fn rank_refused(words: Words) -> RankAnswer {
    RankAnswer::from_ranked(&Ranked {
        number: words[0] as u32,
        place: words[1] as usize,
        count: 0,
        order: [0; SLOTS],
    })
}

/// A ranking that begins with a slot.
fn ranked(count: usize, first: usize) -> RankAnswer {
    let mut order = [0; SLOTS];
    order[0] = first;
    RankAnswer::from_ranked(&Ranked {
        number: 0,
        place: 0,
        count,
        order,
    })
}

#[test]
fn as_many_as_there_are_slots() {
    let full = ranked(16, 15).result().expect("ranked");
    assert_eq!((full.len(), full[0]), (16, 15));
}

#[test]
#[should_panic(expected = "broken link: libmiss_chance.a answered rank with Ranked { number: 0")]
fn more_than_there_are_slots() {
    let _ = ranked(17, 15);
}

#[test]
#[should_panic(expected = "broken link: libmiss_chance.a answered rank with Ranked { number: 0")]
fn a_slot_that_is_not_there() {
    let _ = ranked(1, 16);
}

/// Numbers behind the count are no part of it.
#[test]
fn behind_the_count() {
    assert_eq!(ranked(0, 16), ranked(0, 0));
    assert_eq!(ranked(0, 16).to_string(), "RANKED");
}

/// A file of the repository around this package.
fn text_of(file: &str) -> String {
    let path = format!("{}/../../{file}", env!("CARGO_MANIFEST_DIR"));
    read_to_string(&path).unwrap_or_else(|error| panic!("{path}: {error}"))
}

/// This package's numbers with their names, in order.
fn names() -> Vec<(u32, String)> {
    let own = |reason: &Reason| (reason.number(), format!("{reason:?}"));
    Reason::ALL.iter().map(own).collect()
}

/// `BAD_MODEL_KIND` as `BadModelKind`.
fn camel(name: &str) -> String {
    let word = |word: &str| word[..1].to_string() + &word[1..].to_lowercase();
    name.split('_').map(word).collect()
}

#[test]
fn the_header_has_the_same_names() {
    let header = text_of("bindings/c/miss_chance.h");
    let numbered = |line: &str| {
        let (name, rest) = line
            .trim()
            .strip_prefix("MISS_CHANCE_")?
            .split_once(" = ")?;
        let digits = rest.split([',', ' ']).next()?;
        Some((digits.parse().expect("a number"), camel(name)))
    };
    let mut expected = vec![(0, "Accepted".to_string())];
    expected.extend(names());
    let found: Vec<(u32, String)> = header.lines().filter_map(numbered).collect();
    assert_eq!(found, expected);
}

#[test]
fn the_header_has_the_same_longest_draft() {
    let header = text_of("bindings/c/miss_chance.h");
    let defined = format!("#define MISS_CHANCE_DRAFT_WORDS {DRAFT_WORDS}");
    assert!(header.lines().any(|line| line == defined), "{defined}");
}

#[test]
fn the_list_of_refusals_has_the_same_names() {
    let list = text_of("docs/REFUSALS.md");
    let named = |line: &str| {
        let mut cells = line.split('|').map(str::trim).skip(1);
        let number = cells.next()?.parse().ok()?;
        let name = cells.next()?.strip_prefix('`')?.strip_suffix('`')?;
        Some((number, name.to_string()))
    };
    let found: Vec<(u32, String)> = list.lines().filter_map(named).collect();
    assert_eq!(found, names());
}
