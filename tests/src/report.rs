//! What a run prints, and what it must not lack.

use std::collections::BTreeMap;
use std::fmt::{Display, Write};

use crate::comparer::{Answer, Tally, PLAIN, UNDER_TEST};
use crate::drafting::DraftTally;
use crate::evidence::Evidence;
use crate::histories::BoardTally;

const CALLS: [&str; 8] = [
    "judge",
    "read_model",
    "zone_empty",
    "zone_inside",
    "program",
    "submit",
    "rank",
    "draft",
];

/// All refusals of document 01, and those of document 02, cards 1, 3 and 5.
const REFUSALS: [u32; 31] = [
    1, 2, 3, 4, 5, 6, 11, 12, 13, 14, 15, 16, 17, 18, 19, 20, 21, 31, 32, 33, 41, 42, 51, 52, 53,
    54, 55, 56, 58, 59, 60,
];

/// All answers that are no refusals, and refusals that several calls give.
const ANSWERS: [(&str, Answer); 18] = [
    ("judge", Answer::Accepted),
    ("read_model", Answer::Accepted),
    ("zone_empty", Answer::Yes),
    ("zone_empty", Answer::No),
    ("zone_inside", Answer::Yes),
    ("zone_inside", Answer::No),
    ("program", Answer::Accepted),
    ("submit", Answer::Accepted),
    ("submit", Answer::Refused(54)),
    ("rank", Answer::Accepted),
    ("rank", Answer::Refused(54)),
    ("draft", Answer::Accepted),
    ("draft", Answer::Refused(1)),
    ("draft", Answer::Refused(2)),
    ("draft", Answer::Refused(3)),
    ("draft", Answer::Refused(4)),
    ("draft", Answer::Refused(5)),
    ("draft", Answer::Refused(6)),
];

/// Answers that card 4 must have changed, and how often at least. None is changed to an acceptance: the
/// comparison fails if one is.
const CHANGES: [(Answer, Answer, usize); 5] = [
    (Answer::Accepted, Answer::Refused(16), 500),
    (Answer::Accepted, Answer::Refused(18), 500),
    (Answer::Accepted, Answer::Refused(19), 500),
    (Answer::Refused(15), Answer::Refused(19), 50),
    (Answer::Refused(19), Answer::Refused(18), 20),
];

/// Comparisons by call and answer.
pub fn comparisons(tally: &Tally) -> String {
    let mut text = String::new();
    for call in CALLS {
        let of_call = tally.answers.iter().filter(|((name, _), _)| *name == call);
        let answers = of_call.map(|((_, answer), count)| match answer {
            Answer::Refused(number) => format!("{number}: {count}"),
            _ => format!("{} {count}", named(answer)),
        });
        let answers: Vec<String> = answers.collect();
        let _ = writeln!(
            text,
            "{call:<12}{:>8}  {}",
            tally.of_call(call),
            answers.join(", ")
        );
    }
    let _ = writeln!(
        text,
        "{:<12}{:>8}  {}",
        "changed",
        tally.changed.values().sum::<usize>(),
        changes(tally)
    );
    let _ = writeln!(
        text,
        "{:<12}{:>8}  no difference from the reading: {}",
        "together",
        tally.total(),
        listed(&tally.agreed)
    );
    text
}

/// The answers that card 4 changed: before, now, how often.
fn changes(tally: &Tally) -> String {
    let changes = tally.changed.iter().map(|((before, now), count)| {
        let (before, now) = (named(before), named(now));
        format!("once {before}, now {now}: {count}")
    });
    changes.collect::<Vec<_>>().join(", ")
}

fn named(answer: &Answer) -> String {
    match answer {
        Answer::Refused(number) => number.to_string(),
        _ => format!("{answer:?}").to_lowercase(),
    }
}

/// What was tried valuation by valuation.
pub fn evidence(evidence: &Evidence, tally: &Tally) -> String {
    let searched = [
        format!(
            "their rows, parts and starts searched for a witness in vain: {}, left out as too large: {}",
            evidence.fruitless, evidence.fruitless_left_out
        ),
        format!(
            "refusals with a witness found: {}; left out as too large: {}; by first scale: {}; refusals 19 by the values alone: {}",
            listed(&evidence.witnesses),
            listed(&evidence.witnesses_left_out),
            listed(&evidence.first_scales),
            evidence.too_large_by_values
        ),
        format!(
            "zone questions answered by trying valuations: {}, left out as too large: {}",
            evidence.zones, evidence.zones_left_out
        ),
    ];
    [&played(evidence, tally)[..], &searched]
        .concat()
        .join("\n")
        + "\n"
}

/// What the player came to.
fn played(evidence: &Evidence, tally: &Tally) -> [String; 4] {
    let accepted = tally.answers.get(&("judge", Answer::Accepted));
    let offered = evidence.played + evidence.played_in_part;
    [
        format!(
            "accepted tables played at scales 1 to 6: {}, too large at some of them: {}, not offered: {}; plays {}, claims of nodes upheld {}",
            evidence.played,
            evidence.played_in_part,
            accepted.copied().unwrap_or(0).saturating_sub(offered),
            evidence.plays,
            evidence.claims
        ),
        format!(
            "accepted tables with a cut: {}, of these played at scales 1 to 6: {}; claims of cut nodes upheld {}",
            tally.accepted_with_cut, evidence.played_with_cut, evidence.claims_of_cut
        ),
        format!(
            "played tables with a landing outside: {}, of these with none at scale 1: {}, with a fraction below 1: {}; rows accepted with V for an edge that lands outside: {}",
            evidence.played_with_miss,
            evidence.missed_between_ticks,
            evidence.missed_below_1,
            evidence.sums_with_miss
        ),
        format!(
            "played tables refuted when the start's value is lowered by one: {}, of these with a landing outside and a fraction below 1: {}",
            evidence.tight, evidence.tight_with_miss
        ),
    ]
}

/// What the boards came to.
pub fn boards(tally: &BoardTally) -> String {
    let lines = [
        format!(
            "boards: histories {}, of these with the allowance spent {}, with all slots held {}; handed in {}",
            tally.histories, tally.spent, tally.filled, tally.handed_in
        ),
        format!(
            "own slots written over: {}, of these by a larger fraction {}; own slots kept by the judge's refusal: {}; submissions with several refusals due: {}",
            tally.written_over, tally.by_a_larger, tally.kept, tally.several_due
        ),
        format!(
            "ranks of full boards: {}; ranks with equal fractions: {}, with different ones that are equal in floating point: {}",
            tally.full, tally.ties, tally.close
        ),
    ];
    lines.join("\n") + "\n"
}

/// What the drafts came to.
pub fn drafts(tally: &DraftTally) -> String {
    let with = &tally.with;
    let lines = [
        format!(
            "models with a draft: {}, small ones besides {}; with an empty node {}, a node found again {}, a way back {}, an edge that can land outside {}, a cycle that keeps V {}, 64 nodes {}, a fraction between 0 and 1 {}",
            tally.models, tally.small, with.empty, with.reused, with.back, with.outside, with.kept, with.full, with.between
        ),
        format!(
            "models without one: by 58 {}, with 59 due at the same node {}; by 59 at node 0 {}, later {}; by the model's own refusal {}",
            tally.too_many, tally.both_due, tally.far_at_once, tally.far_later, tally.handed_on
        ),
        format!(
            "words lent: exactly enough {}, one too few {}, none {}; more rounds with a smaller fraction: {}; drafts played at scales 1 to 6: {}",
            tally.exact, tally.one_too_few, tally.none_lent, tally.fell, tally.played
        ),
    ];
    lines.join("\n") + "\n"
}

fn listed<K: Display>(counts: &BTreeMap<K, usize>) -> String {
    let entries: Vec<String> = counts
        .iter()
        .map(|(key, count)| format!("{key}: {count}"))
        .collect();
    entries.join(", ")
}

/// How many answers of a side were the reading's.
fn agreed(tally: &Tally, side: &str) -> usize {
    tally.agreed.get(side).copied().unwrap_or(0)
}

/// What a run that found no fault lacks nevertheless; empty if nothing.
pub fn lacks(tally: &Tally, evidence: &Evidence) -> Vec<String> {
    let refused =
        REFUSALS.map(|number| (tally.of_refusal(number), 1, format!("refusals {number}")));
    let answered = ANSWERS.map(|(call, answer)| {
        let count = tally.answers.get(&(call, answer)).copied().unwrap_or(0);
        (count, 1, format!("answers of {call} {answer:?}"))
    });
    let witnessed = [16, 18, 19, 21, 53].map(|number| {
        let count = evidence.witnesses.get(&number).copied().unwrap_or(0);
        (count, 1, format!("witnesses for {number}"))
    });
    let others = due_of_all(tally).map(|(count, least, what)| (count, least, what.to_string()));
    let tried =
        due_of_evidence(evidence).map(|(count, least, what)| (count, least, what.to_string()));
    let changed = CHANGES.map(|(before, now, least)| {
        let count = tally.changed.get(&(before, now)).copied().unwrap_or(0);
        let what = format!("answers once {}, now {}", named(&before), named(&now));
        (count, least, what)
    });
    let boards = due_of_boards(tally).map(|(count, least, what)| (count, least, what.to_string()));
    let drafts =
        due_of_drafts(&tally.drafts).map(|(count, least, what)| (count, least, what.to_string()));
    let all = refused
        .into_iter()
        .chain(answered)
        .chain(witnessed)
        .chain(others)
        .chain(tried)
        .chain(changed)
        .chain(boards)
        .chain(drafts);
    let short = all.filter(|(count, least, _)| count < least);
    short
        .map(|(count, least, what)| format!("{what}: {count} where {least} are due"))
        .collect()
}

/// What the comparisons must have met, and how often at least.
fn due_of_all(tally: &Tally) -> [(usize, usize, &'static str); 4] {
    [
        (agreed(tally, UNDER_TEST), 100_000, "comparisons"),
        (
            agreed(tally, PLAIN),
            tally.total().max(1),
            "comparisons of the plain judge",
        ),
        (tally.of_call("program"), 5000, "program runs"),
        (tally.accepted_with_cut, 1000, "accepted tables with a cut"),
    ]
}

/// What must have been tried out, and how often at least.
fn due_of_evidence(evidence: &Evidence) -> [(usize, usize, &'static str); 10] {
    [
        (evidence.played, 1000, "tables played"),
        (evidence.played_with_cut, 1000, "tables with a cut played"),
        (
            evidence.played_with_miss,
            1000,
            "tables with a landing outside played",
        ),
        (
            evidence.missed_between_ticks,
            50,
            "tables with landings outside at scales above 1 only",
        ),
        (
            evidence.missed_below_1,
            200,
            "tables with landings outside and a fraction below 1",
        ),
        (
            evidence.sums_with_miss,
            1000,
            "rows with an edge that lands outside",
        ),
        (evidence.tight, 100, "bounds found to be tight"),
        (
            evidence.tight_with_miss,
            100,
            "bounds with a landing outside found to be tight",
        ),
        (evidence.fruitless, 1000, "accepted rows searched"),
        (evidence.zones, 1000, "zone questions tried out"),
    ]
}

/// What the boards must have met, and how often at least.
fn due_of_boards(tally: &Tally) -> [(usize, usize, &'static str); 13] {
    let boards = &tally.boards;
    let submitted = |answer| tally.answers.get(&("submit", answer)).copied().unwrap_or(0);
    let refused = |number| submitted(Answer::Refused(number));
    let accepted = submitted(Answer::Accepted);
    [
        (accepted, 100_000, "accepted submissions"),
        (refused(54), 10_000, "submissions refused by 54"),
        (refused(55), 10_000, "submissions refused by 55"),
        (refused(56), 10_000, "submissions refused by 56"),
        (boards.handed_in, 10_000, "boards handed in"),
        (boards.spent, 500, "histories with the allowance spent"),
        (boards.filled, 500, "histories with all slots held"),
        (
            boards.by_a_larger,
            10_000,
            "own slots with a larger fraction",
        ),
        (boards.kept, 10_000, "own slots kept on refusal"),
        (
            boards.several_due,
            5000,
            "submissions with several refusals due",
        ),
        (boards.full, 10_000, "ranks of full boards"),
        (boards.ties, 10_000, "ranks with equal fractions"),
        (boards.close, 1000, "ranks closer than floating point"),
    ]
}

/// What the drafts must have met, and how often at least.
fn due_of_drafts(tally: &DraftTally) -> [(usize, usize, &'static str); 17] {
    let with = &tally.with;
    [
        (tally.models, 2000, "models with a draft"),
        (with.empty, 500, "drafts with an empty node"),
        (with.reused, 500, "drafts with a node found again"),
        (with.back, 500, "drafts with a way back"),
        (with.outside, 500, "drafts with a landing outside"),
        (with.kept, 100, "drafts with a cycle that keeps V"),
        (with.full, 20, "drafts of 64 nodes"),
        (with.between, 100, "drafts between 0 and 1"),
        (tally.too_many, 200, "models refused with 58"),
        (tally.both_due, 10, "65th nodes beyond 4,095"),
        (tally.far_at_once, 50, "models refused with 59 at node 0"),
        (tally.far_later, 50, "models refused with 59 later"),
        (tally.handed_on, 500, "models refused by themselves"),
        (tally.one_too_few, 2000, "drafts with one word too few"),
        (tally.none_lent, 2000, "drafts without lent words"),
        (tally.fell, 100, "smaller fractions by more rounds"),
        (tally.played, 500, "drafts played"),
    ]
}

#[cfg(test)]
mod tests {
    use super::*;

    #[test]
    fn an_idle_run_lacks_everything() {
        let lacks = lacks(&Tally::default(), &Evidence::default());
        let lists = REFUSALS.len() + ANSWERS.len() + CHANGES.len();
        assert_eq!(lacks.len(), lists + 5 + 4 + 10 + 13 + 17);
    }
}
