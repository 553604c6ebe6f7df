//! Shows that the tests can fail: wrong judges are caught, false bounds and refusals are objected to.

use crate::boundaries::large_sum;
use crate::comparer::{Fault, PLAIN, UNDER_TEST};
use crate::drafting;
use crate::evidence::Evidence;
use crate::flawed::{flawed_judge, Flaw};
use crate::flawed_board::BoardFlaw;
use crate::flawed_draft::DraftFlaw;
use crate::histories;
use crate::plan::{small_pairs, Run, Work};
use crate::player::Miss;
use crate::random::Random;
use crate::reading::{Certificate, Refusal};
use crate::worked::{cases, cuts, landing_model, landings, CUT_TABLE, MODEL, TABLE};
use crate::wrong::{self, Wrong};

/// What of a run is to catch a wrong side.
type Part = fn(&mut Run) -> Result<(), Fault>;

/// Runs every wrong judge until a difference is found: its name and the comparisons before that.
pub fn wrong_judges() -> Result<Vec<(String, usize)>, Fault> {
    let caught = |wrong: &Wrong| caught(wrong, |run| run.drawn(&Work::SHORT));
    wrong::all().iter().map(caught).collect()
}

/// The same with every wrong judge in the place of the plain judge, beside a right one.
pub fn wrong_plain_judges() -> Result<Vec<(String, usize)>, Fault> {
    let caught = |wrong: &Wrong| caught_as_plain(wrong, |run| run.drawn(&Work::SHORT));
    wrong::all().iter().map(caught).collect()
}

/// The same with every wrong board, and with boards alone.
pub fn wrong_boards() -> Result<Vec<(String, usize)>, Fault> {
    let caught = |wrong: &Wrong| caught(wrong, |run| run.boards(&Work::SHORT));
    wrong::boards().iter().map(caught).collect()
}

/// And with every wrong board in the place of the plain judge's.
pub fn wrong_plain_boards() -> Result<Vec<(String, usize)>, Fault> {
    let caught = |wrong: &Wrong| caught_as_plain(wrong, |run| run.boards(&Work::SHORT));
    wrong::boards().iter().map(caught).collect()
}

/// The same with every wrong draft, and with drafts alone.
pub fn wrong_drafts() -> Result<Vec<(String, usize)>, Fault> {
    let caught = |wrong: &Wrong| caught(wrong, |run| run.drafts(&Work::SHORT));
    wrong::drafts().iter().map(caught).collect()
}

/// And with every wrong draft in the place of the plain judge's.
pub fn wrong_plain_drafts() -> Result<Vec<(String, usize)>, Fault> {
    let caught = |wrong: &Wrong| caught_as_plain(wrong, |run| run.drafts(&Work::SHORT));
    wrong::drafts().iter().map(caught).collect()
}

fn caught(wrong: &Wrong, part: Part) -> Result<(String, usize), Fault> {
    let run = Run::new(wrong, 3);
    caught_at(UNDER_TEST, run, wrong, part)
}

fn caught_as_plain(wrong: &Wrong, part: Part) -> Result<(String, usize), Fault> {
    let right = wrong::right("right");
    let mut run = Run::new(&right, 3);
    run.comparer.plain = wrong;
    caught_at(PLAIN, run, wrong, part)
}

/// The fault must name the side that is wrong.
fn caught_at(
    side: &str,
    mut run: Run,
    wrong: &Wrong,
    part: Part,
) -> Result<(String, usize), Fault> {
    match part(&mut run) {
        Err(fault) if fault.0.contains(&format!("\n{side}:")) => {
            Ok((wrong.name.clone(), run.comparer.tally.total()))
        }
        Err(fault) => Err(Fault(format!("{}: not as {side}: {fault}", wrong.name))),
        Ok(()) => Err(Fault(format!("not caught: {} as {side}", wrong.name))),
    }
}

/// Holds each flawed board against the law of card 3, without any comparison: its name and the boards
/// and histories before one was objected to.
pub fn flaws_against_law() -> Result<Vec<(String, usize)>, Fault> {
    let objected = |flaw| {
        let wrong = wrong::flawed_board(flaw);
        let before = histories::objected(&wrong, &mut Random::new(5), 200);
        let before = before.ok_or(Fault(format!("the law does not object to {flaw:?}")))?;
        Ok((wrong.name, before))
    };
    BoardFlaw::ALL.into_iter().map(objected).collect()
}

/// Holds each flawed draft against what card 5 says of every draft, without any comparison: its name and
/// the models before one was objected to.
pub fn draft_flaws_against_law() -> Result<Vec<(String, usize)>, Fault> {
    let objected = |flaw| {
        let wrong = wrong::flawed_draft(flaw);
        let before = drafting::objected(&wrong, &mut Random::new(5), 1000);
        let before = before.ok_or(Fault(format!("the card does not object to {flaw:?}")))?;
        Ok((wrong.name, before))
    };
    let seen = |flaw: &DraftFlaw| !NOT_BY_THE_CARD_ALONE.contains(flaw);
    DraftFlaw::ALL
        .into_iter()
        .filter(seen)
        .map(objected)
        .collect()
}

/// These lead to another table that would do, or to another refusal: only the comparison tells.
const NOT_BY_THE_CARD_ALONE: [DraftFlaw; 18] = [
    DraftFlaw::ForgetsTheGuard,
    DraftFlaw::DelaysSuccessors,
    DraftFlaw::DraftsRowsOfAnEmptyReach,
    DraftFlaw::ReusesLargerZones,
    DraftFlaw::Refuses64Nodes,
    DraftFlaw::Asks58BeforeReuse,
    DraftFlaw::Asks59Before58,
    DraftFlaw::Refuses4095,
    DraftFlaw::Asks59AtTheEnd,
    DraftFlaw::RoundsInPlace,
    DraftFlaw::RoundsUpEachEdge,
    DraftFlaw::RoundsUpWholeNumbersToo,
    DraftFlaw::CountsRoundsUpTo999,
    DraftFlaw::DoesOneRoundLess,
    DraftFlaw::StopsOnceTheStartStays,
    DraftFlaw::KeepsVWithoutRows,
    DraftFlaw::KeepsVAtEmptyNodes,
    DraftFlaw::TakesVForTheWholeRow,
];

/// Something false that was told, and what came of it.
type Told = (&'static str, Result<(), Fault>);

/// Tells the player and the search for witnesses things that are false of the worked cases; hands back
/// how many.
pub fn false_claims() -> Result<usize, Fault> {
    let told = told(Miss::Full)?;
    match believed(&told).first() {
        Some(what) => Err(Fault(format!("no objection to {what}"))),
        None => Ok(told.len()),
    }
}

/// What only a player refutes who counts a landing outside in full.
const TOO_LOW: &str = "b = 9 with a landing outside";

/// Tells them to players that count a landing outside for too little: they believe that one.
pub fn flawed_players() -> Result<usize, Fault> {
    let players = [Miss::OnePowerShort, Miss::Nothing];
    for miss in players {
        if !believed(&told(miss)?).contains(&TOO_LOW) {
            return Err(Fault(format!("{miss:?} for a landing outside passes")));
        }
    }
    Ok(players.len())
}

/// What no objection was made to.
fn believed(told: &[Told]) -> Vec<&'static str> {
    let believed = told.iter().filter(|(_, outcome)| outcome.is_ok());
    believed.map(|(what, _)| *what).collect()
}

/// Everything false, and what came of it with a player that counts landings outside so.
fn told(miss: Miss) -> Result<Vec<Told>, Fault> {
    let mut evidence = Evidence {
        miss,
        ..Evidence::default()
    };
    let told = [
        of_table(&mut evidence)?,
        of_cuts(&mut evidence)?,
        of_landings(&mut evidence)?,
        of_zones(&mut evidence),
    ];
    Ok(told.into_iter().flatten().collect())
}

/// What the worked table certifies.
const RIGHT: Certificate = Certificate {
    b: 1,
    whole: 10,
    nodes: 3,
};

/// That what is refused is accepted, that the fraction is lower, that what is accepted is refused.
fn of_table(evidence: &mut Evidence) -> Result<Vec<Told>, Fault> {
    evidence.of_acceptance(&MODEL, &TABLE, &RIGHT)?;
    let lower = Certificate { b: 0, ..RIGHT };
    let mut told = vec![("b = 0", evidence.of_acceptance(&MODEL, &TABLE, &lower))];
    for case in cases() {
        if ["15", "16", "18", "19"]
            .iter()
            .any(|number| case.line.contains(number))
        {
            let accepted = evidence.of_acceptance(&case.model, &case.table, &RIGHT);
            told.push((case.line, accepted));
        }
    }
    for (number, place) in [(18, 4), (18, 5), (19, 4), (21, 10), (16, 4)] {
        let refused = evidence.of_refusal(&MODEL, &TABLE, &Refusal { number, place });
        told.push(("a refusal of M and T", refused));
    }
    Ok(told)
}

/// The same of tables with a cut.
fn of_cuts(evidence: &mut Evidence) -> Result<Vec<Told>, Fault> {
    let cut = Certificate { nodes: 5, ..RIGHT };
    evidence.of_acceptance(&MODEL, &CUT_TABLE, &cut)?;
    let lower = Certificate { b: 0, ..cut };
    let accepted = evidence.of_acceptance(&MODEL, &CUT_TABLE, &lower);
    let mut told = vec![("b = 0 with a cut", accepted)];
    for case in cuts() {
        if case.line.starts_with("REFUSED 53 ") {
            let accepted = evidence.of_acceptance(&case.model, &case.table, &cut);
            told.push((case.line, accepted));
        }
    }
    for place in [4, 5, 6, 14] {
        let refusal = Refusal { number: 53, place };
        let refused = evidence.of_refusal(&MODEL, &CUT_TABLE, &refusal);
        told.push(("a refusal of M and the table with a cut", refused));
    }
    let claimless = [&CUT_TABLE[..3], &[0x90000000], &CUT_TABLE[4..]].concat();
    let accepted = evidence.of_acceptance(&MODEL, &claimless, &cut);
    told.push(("0 for a cut node", accepted));
    Ok(told)
}

/// The same of landings outside. That the fraction is 9 of 10 where every landing at 3 is a miss, only
/// the player can refute.
fn of_landings(evidence: &mut Evidence) -> Result<Vec<Told>, Fault> {
    let mut told = Vec::new();
    for case in landings() {
        if case.line.starts_with("REFUSED") {
            let accepted = evidence.of_acceptance(&case.model, &case.table, &RIGHT);
            told.push((case.line, accepted));
        } else {
            for number in [16, 18, 19] {
                let refusal = Refusal { number, place: 4 };
                let refused = evidence.of_refusal(&case.model, &case.table, &refusal);
                told.push(("a refusal of an accepted landing", refused));
            }
        }
    }
    let model = landing_model(&[0x51081003], &[]);
    let table = [&TABLE[..3], &[0x9000000A], &TABLE[4..]].concat();
    let right = Certificate { b: 10, ..RIGHT };
    evidence.of_acceptance(&model, &table, &right)?;
    let lower = Certificate { b: 9, ..RIGHT };
    let accepted = evidence.of_acceptance(&model, &table, &lower);
    told.push((TOO_LOW, accepted));
    Ok(told)
}

/// Of the two questions.
fn of_zones(evidence: &mut Evidence) -> Vec<Told> {
    let (above_2, at_most_3, below_3) = (0x50180FFE, 0x51001003, 0x51081003);
    let mut question = |first: &[u32], second: Option<&[u32]>, answer| {
        evidence.of_question(1, first, second, answer)
    };
    vec![
        ("empty", question(&[above_2, below_3], None, true)),
        ("inside", question(&[at_most_3], Some(&[below_3]), true)),
        (
            "not inside",
            question(&[below_3], Some(&[at_most_3]), false),
        ),
    ]
}

/// Gives the player and the search for witnesses the answers of each flawed judge, without any
/// comparison: its name and the answers before one was objected to.
pub fn flaws_against_player() -> Result<Vec<(String, usize)>, Fault> {
    // These lead to no false bound and no false refusal of a row, part or start: only to another
    // refusal, or to an acceptance that happens to be sound.
    let harmless = [
        Flaw::AsksTheSumFirst,
        Flaw::ForgivesRowsWithEmptyReach,
        Flaw::AsksTheValueBeforeTheNumber,
        Flaw::AsksAllNumbersOfACutFirst,
        Flaw::ForgivesEmptyParts,
        Flaw::AddsWhatAPartIsWorth,
        // V bounds whatever comes behind an edge that can land outside, and a target is worth V anyway.
        Flaw::ForgivesTheLocationWhereAllLandOutside,
        Flaw::NoMissAtATarget,
    ];
    let flaws = Flaw::ALL
        .into_iter()
        .filter(|flaw| !harmless.contains(flaw));
    flaws.map(objected).collect()
}

fn objected(flaw: Flaw) -> Result<(String, usize), Fault> {
    let mut random = Random::new(4);
    let mut evidence = Evidence::default();
    let mut answers = 0;
    for _ in 0..2000 {
        let mut pairs = small_pairs(&mut random);
        pairs.push(large_sum(&mut random));
        for (model, table) in pairs {
            let outcome = match flawed_judge(flaw, &model, &table) {
                Ok(certificate) => evidence.of_acceptance(&model, &table, &certificate),
                Err(refusal) => evidence.of_refusal(&model, &table, &refusal),
            };
            if outcome.is_err() {
                return Ok((format!("{flaw:?}"), answers));
            }
            answers += 1;
        }
    }
    Err(Fault(format!("the player does not object to {flaw:?}")))
}

#[cfg(test)]
mod tests {
    use super::*;
    use crate::worked;

    #[test]
    fn every_wrong_judge_is_caught() {
        let caught = wrong_judges();
        assert!(caught.is_ok(), "{caught:?}");
    }

    /// The worked cases of card 4 alone, whose answers were written by hand, tell every error that the
    /// card invites.
    #[test]
    fn worked_cases_catch_flaws_of_landings() {
        let passes = |flaw: &&Flaw| {
            landings().into_iter().all(|case| {
                let answer = flawed_judge(**flaw, &case.model, &case.table);
                worked::line(answer) == case.line
            })
        };
        let passed: Vec<&Flaw> = Flaw::of_landings().iter().filter(passes).collect();
        assert_eq!(passed, [&Flaw::ForbidsLandingsOutside; 0]);
        assert_eq!(Flaw::of_landings().len(), 20);
    }

    #[test]
    fn so_is_every_wrong_plain_judge() {
        let caught = wrong_plain_judges();
        assert!(caught.is_ok(), "{caught:?}");
    }

    #[test]
    fn every_wrong_board_is_caught() {
        let caught = wrong_boards();
        assert!(caught.is_ok(), "{caught:?}");
    }

    #[test]
    fn so_is_every_wrong_board_of_the_plain_judge() {
        let caught = wrong_plain_boards();
        assert!(caught.is_ok(), "{caught:?}");
    }

    #[test]
    fn the_law_objects_to_flawed_boards() {
        let objected = flaws_against_law();
        assert!(objected.is_ok(), "{objected:?}");
        let right = wrong::right("right");
        let none = histories::objected(&right, &mut Random::new(5), 20);
        assert_eq!(none, None);
    }

    #[test]
    fn every_wrong_draft_is_caught() {
        let caught = wrong_drafts();
        assert!(caught.is_ok(), "{caught:?}");
    }

    #[test]
    fn so_is_every_wrong_draft_of_the_plain_judge() {
        let caught = wrong_plain_drafts();
        assert!(caught.is_ok(), "{caught:?}");
    }

    /// Otherwise flaws would be caught for what they share.
    #[test]
    fn a_flawed_draft_without_its_flaw_is_right() {
        let side = wrong::flawed_draft(DraftFlaw::None);
        let found = Run::new(&side, 3).drafts(&Work::SHORT);
        assert!(found.is_ok(), "{found:?}");
        let none = drafting::objected(&side, &mut Random::new(5), 1000);
        assert_eq!(none, None);
    }

    #[test]
    fn the_card_objects_to_flawed_drafts() {
        let objected = draft_flaws_against_law();
        assert!(objected.is_ok(), "{objected:?}");
        let right = wrong::right("right");
        let none = drafting::objected(&right, &mut Random::new(5), 100);
        assert_eq!(none, None);
    }

    #[test]
    fn the_right_one_passes() {
        let side = wrong::right("right");
        let found = Run::new(&side, 3).all(&Work::SHORT);
        assert!(found.is_ok(), "{found:?}");
    }

    #[test]
    fn the_player_objects_to_flawed_judges() {
        let objected = flaws_against_player();
        assert!(objected.is_ok(), "{objected:?}");
    }

    #[test]
    fn false_claims_are_objected_to() {
        assert_eq!(false_claims().ok(), Some(68));
    }

    #[test]
    fn so_are_players_that_count_a_miss_for_too_little() {
        let caught = flawed_players();
        assert_eq!(caught.ok(), Some(2));
    }
}
