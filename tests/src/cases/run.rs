//! Asks the judge under test, the independent reading and the plain judge every case, and its programs
//! where the case is a whole file or a draft that they take.

use std::collections::BTreeMap;
use std::fmt::Write;

use super::answers::Answer;
use super::calls::Call;
use super::drafts::Draft;
use super::histories::{Difference, History};
use super::{Case, Question};
use crate::sides::{Plain, Reading, Side};
use crate::spell;

/// How many cases there are at least, how many of them are whole files, and how many drafts the program
/// is asked. A number below means that one got lost.
const LEAST: [(&str, &[&str], usize); 7] = [
    ("zone cases", &["zone_empty", "zone_inside"], 519),
    ("model cases", &["read_model"], 1627),
    ("judge cases", &["judge"], 3489),
    ("histories of a board", &["board"], 364),
    ("drafts", &["draft"], 251),
    ("whole files", &["program"], 5155),
    ("drafts by the program", &["drafter"], 237),
];

/// What a run came to.
#[derive(Default)]
pub struct Outcome {
    /// Cases by call; `program` counts those that the program was asked too, `drafter` those that the one
    /// that drafts was.
    pub counts: BTreeMap<&'static str, usize>,
    /// Each with file, line and name of its case.
    pub differences: Vec<String>,
}

/// Those that are asked every case.
fn sides(under_test: &dyn Side) -> [(&'static str, &dyn Side); 3] {
    [
        ("library", under_test),
        ("reading", &Reading),
        ("plain judge", &Plain),
    ]
}

/// Where a case stands, and its name.
fn place(case: &Case) -> String {
    format!("{}:{}: {}", case.file, case.line, case.name)
}

impl Outcome {
    /// Asks all cases; differences are collected.
    pub fn of(cases: &[Case], under_test: &dyn Side) -> Outcome {
        let mut outcome = Outcome::default();
        for case in cases {
            outcome.ask(case, under_test);
        }
        outcome
    }

    fn ask(&mut self, case: &Case, under_test: &dyn Side) {
        match &case.question {
            Question::Call(call, answer) => self.call(case, call, *answer, under_test),
            Question::History(history) => self.history(case, history, under_test),
            Question::Draft(draft) => self.draft(case, draft, under_test),
        }
    }

    fn call(&mut self, case: &Case, call: &Call, answer: Answer, under_test: &dyn Side) {
        *self.counts.entry(call.name()).or_default() += 1;
        let expected = answer.to_string();
        for (who, side) in sides(under_test) {
            self.hold(&place(case), who, &expected, &call.asked(side).to_string());
        }
        if let Some(file) = call.whole_file() {
            self.file(case, &file, call.of_whole_file(answer), under_test);
        }
    }

    /// A whole file and what the program answers to it.
    fn file(&mut self, case: &Case, file: &[u32], answer: Answer, under_test: &dyn Side) {
        *self.counts.entry("program").or_default() += 1;
        let expected = format!("{answer}\n");
        let bytes = spell::bytes(file);
        for (who, side) in [
            ("program", under_test),
            ("reading of the file", &Reading),
            ("plain judge of the file", &Plain),
        ] {
            self.hold(&place(case), who, &expected, &side.program(&bytes));
        }
    }

    fn history(&mut self, case: &Case, history: &History, under_test: &dyn Side) {
        *self.counts.entry("board").or_default() += 1;
        for (who, side) in sides(under_test) {
            if let Err(Difference { of, expected, got }) = history.played(side) {
                let asked = format!("{}: {of}", place(case));
                self.hold(&asked, who, &expected, &got);
            }
        }
    }

    /// A draft, also by the program that drafts, and the table judged, also as a whole file.
    fn draft(&mut self, case: &Case, draft: &Draft, under_test: &dyn Side) {
        *self.counts.entry("draft").or_default() += 1;
        for (who, side) in sides(under_test) {
            for (asked, expected, got) in draft.held(side) {
                let asked = format!("{}: {asked}", place(case));
                self.hold(&asked, who, &expected, &got);
            }
        }
        if let Some((rounds, expected)) = draft.of_drafter() {
            *self.counts.entry("drafter").or_default() += 1;
            let got = under_test.drafter(rounds, &draft.model);
            self.hold(&place(case), "program that drafts", &expected, &got);
        }
        if let Some((file, answer)) = draft.whole_file() {
            self.file(case, &file, answer, under_test);
        }
    }

    fn hold(&mut self, asked: &str, who: &str, expected: &str, got: &str) {
        if expected != got {
            let told = format!("{asked}\n    expected {expected:?}, the {who} says {got:?}");
            self.differences.push(told);
        }
    }

    /// Counts by call.
    pub fn counted(&self) -> String {
        let mut text = String::new();
        for (call, count) in &self.counts {
            let _ = writeln!(text, "{call:<12}{count:>6}");
        }
        text
    }

    /// Which numbers are too small; empty if none.
    pub fn lacks(&self) -> Vec<String> {
        let count = |call: &&str| self.counts.get(call).copied().unwrap_or(0);
        let counted = LEAST.map(|(what, calls, least)| {
            let sum: usize = calls.iter().map(count).sum();
            (what, sum, least)
        });
        let short = counted.iter().filter(|(_, sum, least)| sum < least);
        short
            .map(|(what, sum, least)| format!("{what}: {sum} where {least} are due"))
            .collect()
    }
}

#[cfg(test)]
mod tests {
    use std::fs;
    use std::path::{Path, PathBuf};

    use super::super::boards::Board;
    use super::super::files;
    use super::super::histories::Step;
    use super::super::words::Named;
    use super::*;
    use crate::drafting::LONGEST;
    use crate::reading::{Certificate, Refusal};
    use crate::wrong::{self, right};

    fn root() -> PathBuf {
        Path::new(env!("CARGO_MANIFEST_DIR")).join("cases")
    }

    fn stored() -> Vec<Case> {
        files::all(&root()).unwrap_or_else(|mistake| panic!("{mistake}"))
    }

    /// Without the longest draft, which takes as long as all others together: for many sides. Its refusal by 60 stays.
    fn shorter() -> Vec<Case> {
        let mut cases = stored();
        cases.retain(|case| match &case.question {
            Question::Draft(draft) => draft.answer.as_ref().map_or(0, Vec::len) < LONGEST,
            _ => true,
        });
        cases
    }

    /// What a run over a text finds, with the reading in the place of the judge under test.
    fn differences(file: &str, text: &str, named: &mut Named) -> Vec<String> {
        let cases = files::parse(file, text, named).unwrap_or_else(|mistake| panic!("{mistake}"));
        Outcome::of(&cases, &right("right")).differences
    }

    #[test]
    fn the_right_side_passes() {
        let outcome = Outcome::of(&stored(), &right("right"));
        assert_eq!(outcome.differences, [""; 0]);
        assert_eq!(outcome.lacks(), [""; 0]);
    }

    #[test]
    fn a_wrong_answer_is_reported() {
        let text = "a | zone_empty(1, 51000FFF) | EMPTY\nb | zone_empty(1, none) | EMPTY\n";
        let found = differences("a.txt", text, &mut Named::new());
        assert_eq!(found.len(), 3, "{found:?}"); // the library's answer, the reading's, the plain judge's
        assert!(found.iter().all(|one| one.starts_with("a.txt:2: b\n")));
        assert!(found[0].contains("expected \"EMPTY\", the library says \"NOT EMPTY\""));
    }

    /// A stored file with 20 where one answer is 21.
    #[test]
    fn an_answer_that_is_changed_is_reported() {
        let read = |file: &str| fs::read_to_string(root().join(file)).expect("a case file");
        let mut named = Named::new();
        assert!(files::parse("bases", &read("judge/bases.txt"), &mut named).is_ok());
        let text = read("judge/starts.txt");
        assert_eq!(differences("a", &text, &mut named.clone()), [""; 0]);
        let changed = text.replacen("REFUSED 21 ", "REFUSED 20 ", 1);
        let found = differences("a", &changed, &mut named);
        let line = changed
            .lines()
            .position(|line| line.contains("REFUSED 20 "));
        let place = format!("a:{}: ", line.map_or(0, |line| line + 1));
        assert_eq!(found.len(), 6, "{found:?}"); // by the calls and by the file, of each side
        assert!(found.iter().all(|one| one.starts_with(&place)), "{found:?}");
        assert!(found[0].contains("REFUSED 20") && found[0].contains("REFUSED 21"));
    }

    /// A board's file with another answer, another rank and another board at the end.
    #[test]
    fn a_history_that_is_changed_is_reported() {
        let text = "a board | fresh\n    \
            | submit(team 1, slot 3, none, none) -> REFUSED 1 0\n    | rank() -> none\n    | 99 left\n";
        assert_eq!(differences("a", text, &mut Named::new()), [""; 0]);
        for (part, changed, asked) in [
            (
                "REFUSED 1 0",
                "REFUSED 11 0",
                "submit(team 1, slot 3, none, none)",
            ),
            ("rank() -> none", "rank() -> 3", "rank()"),
            ("99 left", "100 left", "the board"),
        ] {
            let found = differences("a", &text.replacen(part, changed, 1), &mut Named::new());
            assert_eq!(found.len(), 3, "{found:?}"); // of each side
            let place = format!("a:1: a board: {asked}\n");
            assert!(found.iter().all(|one| one.starts_with(&place)), "{found:?}");
        }
    }

    /// Every step of the stored histories, each changed by itself.
    #[test]
    fn every_step_of_a_history_counts() {
        for case in stored() {
            let Question::History(history) = case.question else {
                continue;
            };
            for (at, step) in history.steps.iter().enumerate() {
                let mut changed = history.clone();
                changed.steps[at] = otherwise(step.clone());
                let caught = changed.played(&Reading).is_err();
                assert!(caught, "{}: step {at}", case.name);
            }
        }
    }

    fn otherwise(step: Step) -> Step {
        let place = |refusal: Refusal| Refusal {
            place: refusal.place + 1,
            ..refusal
        };
        match step {
            Step::Submit(times, submission, Ok(accepted)) => {
                let b = accepted.b ^ 1;
                Step::Submit(times, submission, Ok(Certificate { b, ..accepted }))
            }
            Step::Submit(times, submission, Err(refusal)) => {
                Step::Submit(times, submission, Err(place(refusal)))
            }
            Step::Rank(Ok(slots)) => Step::Rank(Ok([&slots[..], &[0]].concat())),
            Step::Rank(Err(refusal)) => Step::Rank(Err(place(refusal))),
            Step::Board(board) => Step::Board(Board {
                left: board.left ^ 1,
                ..board
            }),
        }
    }

    #[test]
    fn an_idle_run_lacks_everything() {
        assert_eq!(Outcome::of(&[], &right("right")).lacks().len(), LEAST.len());
    }

    /// All judges that are wrong on purpose, but for those whose flaw lies in bytes that are no words.
    #[test]
    fn wrong_judges_are_caught() {
        let cases = shorter();
        let passes = |side: &wrong::Wrong| Outcome::of(&cases, side).differences.is_empty();
        let passed: Vec<String> = wrong::all()
            .into_iter()
            .filter(passes)
            .map(|side| side.name)
            .collect();
        let of_bytes = [
            "asks 41 before 42",
            "takes 65,536 bytes for too many",
            "leaves the odd bytes",
        ];
        assert_eq!(passed, of_bytes);
    }

    /// All drafts that are wrong on purpose.
    #[test]
    fn wrong_drafts_are_caught() {
        let mut cases = shorter();
        cases.retain(|case| matches!(case.question, Question::Draft(_)));
        for side in wrong::drafts() {
            let outcome = Outcome::of(&cases, &side);
            assert!(!outcome.differences.is_empty(), "{}", side.name);
            let told = |one: &String| {
                one.contains("the library says") || one.contains("the program that drafts says")
            };
            assert!(outcome.differences.iter().all(told), "{}", side.name);
        }
    }

    /// Every stored draft with one word changed, of the longest every 997th, and every refusal of one.
    #[test]
    fn every_word_of_a_draft_counts() {
        for case in stored() {
            let Question::Draft(draft) = case.question else {
                continue;
            };
            let words = draft.answer.as_ref().map_or(1, Vec::len);
            for at in (0..words).step_by(if words < LONGEST { 1 } else { 997 }) {
                let mut changed = draft.clone();
                match &mut changed.answer {
                    Ok(table) => table[at] ^= 1,
                    Err(refusal) => refusal.place += 1,
                }
                let held = changed.held(&Reading);
                let caught = held.iter().any(|(_, due, got)| due != got);
                assert!(caught, "{}: word {at}", case.name);
            }
        }
    }

    /// All boards that are wrong on purpose.
    #[test]
    fn wrong_boards_are_caught() {
        let mut cases = stored();
        cases.retain(|case| matches!(case.question, Question::History(_)));
        for side in wrong::boards() {
            let outcome = Outcome::of(&cases, &side);
            assert!(!outcome.differences.is_empty(), "{}", side.name);
            let told = |one: &String| one.contains("the library says");
            assert!(outcome.differences.iter().all(told), "{}", side.name);
        }
    }
}
