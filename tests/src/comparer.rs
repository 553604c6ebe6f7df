//! Asks all sides the same and counts the answers; the first difference is a fault.

use std::collections::BTreeMap;
use std::fmt::{self, Debug};

use crate::drafting::{self, DraftTally};
use crate::flawed::{flawed_judge, Flaw};
use crate::histories::{self, Asks, Board, BoardTally, Submission};
use crate::reading::{words, Certificate, Counts, Refusal, Slot};
use crate::sides::{Plain, Reading, Side};
use crate::spell;

/// What makes a run fail, with the input written out.
#[derive(Debug)]
pub struct Fault(pub String);

impl fmt::Display for Fault {
    fn fmt(&self, out: &mut fmt::Formatter<'_>) -> fmt::Result {
        out.write_str(&self.0)
    }
}

/// What all sides said, without its values and places.
#[derive(Clone, Copy, Debug, PartialEq, Eq, PartialOrd, Ord)]
pub enum Answer {
    Accepted,
    /// To a question about zones.
    Yes,
    No,
    Refused(u32),
}

impl Answer {
    fn of<T>(answer: &Result<T, Refusal>, accepted: impl Fn(&T) -> Answer) -> Answer {
        let refused = |refusal: &Refusal| Answer::Refused(refusal.number);
        answer.as_ref().map_or_else(refused, accepted)
    }

    fn to_question(yes: &bool) -> Answer {
        if *yes {
            Answer::Yes
        } else {
            Answer::No
        }
    }
}

/// How often each call was compared.
#[derive(Default)]
pub struct Tally {
    /// By call and answer.
    pub answers: BTreeMap<(&'static str, Answer), usize>,
    /// Judged tables that were accepted and have a cut.
    pub accepted_with_cut: usize,
    /// Judged tables whose answer card 4 changed, by the answer before it and the answer now.
    pub changed: BTreeMap<(Answer, Answer), usize>,
    pub boards: BoardTally,
    pub drafts: DraftTally,
    /// By side: answers that were the reading's.
    pub agreed: BTreeMap<&'static str, usize>,
}

/// The names of the two sides that are compared with the reading.
pub const UNDER_TEST: &str = "under test";
pub const PLAIN: &str = "plain judge";

impl Tally {
    fn count(&mut self, call: &'static str, answer: Answer) {
        *self.answers.entry((call, answer)).or_default() += 1;
    }

    /// How many comparisons meet a test.
    fn sum(&self, test: impl Fn(&str, Answer) -> bool) -> usize {
        let counts = self.answers.iter();
        let counts = counts.filter(|(&(call, answer), _)| test(call, answer));
        counts.map(|(_, count)| count).sum()
    }

    pub fn of_call(&self, call: &str) -> usize {
        self.sum(|other, _| other == call)
    }

    pub fn of_refusal(&self, number: u32) -> usize {
        self.sum(|_, answer| answer == Answer::Refused(number))
    }

    pub fn total(&self) -> usize {
        self.sum(|_, _| true)
    }
}

/// The answer that all sides gave, or a difference.
pub type Same<T> = Result<Result<T, Refusal>, Fault>;

/// Compares the side under test, and the plain judge, with the independent reading.
pub struct Comparer<'a> {
    pub under_test: &'a dyn Side,
    pub plain: &'a dyn Side,
    pub tally: Tally,
}

impl<'a> Comparer<'a> {
    pub fn new(under_test: &'a dyn Side) -> Comparer<'a> {
        Comparer {
            under_test,
            plain: &Plain,
            tally: Tally::default(),
        }
    }

    /// Judging, with the answer that all gave.
    pub fn judge(&mut self, model: &[u32], table: &[u32]) -> Same<Certificate> {
        let ask = |side: &dyn Side| side.judge(model, table);
        let input = [("model", model), ("table", table)];
        let judged = self.call("judge", ask, &input, |_| Answer::Accepted)?;
        // In a table that is accepted, only a cut has a word of this kind.
        let has_cut = table.iter().any(|&word| words::kind(word) == words::CUT);
        self.tally.accepted_with_cut += usize::from(judged.is_ok() && has_cut);
        self.count_change(model, table, &judged)?;
        Ok(judged)
    }

    /// Counts answers that card 4 changed. It forbids no choice, so that no reach is smaller, and lowers no
    /// sum: what is accepted now was accepted before.
    fn count_change(
        &mut self,
        model: &[u32],
        table: &[u32],
        now: &Result<Certificate, Refusal>,
    ) -> Result<(), Fault> {
        if now.is_err_and(|refusal| refusal.number < 15) {
            return Ok(());
        }
        let before = flawed_judge(Flaw::ForbidsLandingsOutside, model, table);
        if before == *now {
            return Ok(());
        }
        if now.is_ok() {
            let input = written(&[("model", model), ("table", table)]);
            return Err(Fault(format!(
                "accepted with card 4 and not before it\n{input}"
            )));
        }
        let answers = [before, *now].map(|answer| Answer::of(&answer, |_| Answer::Accepted));
        let [before, now] = answers;
        *self.tally.changed.entry((before, now)).or_default() += 1;
        Ok(())
    }

    pub fn read_model(&mut self, model: &[u32]) -> Same<Counts> {
        let ask = |side: &dyn Side| side.read_model(model);
        let input = [("model", model)];
        self.call("read_model", ask, &input, |_| Answer::Accepted)
    }

    pub fn zone_empty(&mut self, clocks: u32, zone: &[u32]) -> Same<bool> {
        let ask = |side: &dyn Side| side.zone_empty(clocks, zone);
        let input = [("clocks", &[clocks][..]), ("zone", zone)];
        self.call("zone_empty", ask, &input, Answer::to_question)
    }

    pub fn zone_inside(&mut self, clocks: u32, first: &[u32], second: &[u32]) -> Same<bool> {
        let ask = |side: &dyn Side| side.zone_inside(clocks, first, second);
        let input = [
            ("clocks", &[clocks][..]),
            ("first", first),
            ("second", second),
        ];
        self.call("zone_inside", ask, &input, Answer::to_question)
    }

    /// The program's line, compared byte for byte.
    pub fn program(&mut self, bytes: &[u8]) -> Result<(), Fault> {
        let input = || {
            let hex: String = bytes.iter().map(|byte| format!("{byte:02X}")).collect();
            format!("{} bytes: {hex}", bytes.len())
        };
        let line = self.same("program", |side| side.program(bytes), input)?;
        let number = line
            .strip_prefix("REFUSED ")
            .and_then(|rest| rest.split(' ').next());
        let number = number.and_then(|digits| digits.parse().ok());
        self.tally
            .count("program", number.map_or(Answer::Accepted, Answer::Refused));
        Ok(())
    }

    fn call<T: Debug + PartialEq>(
        &mut self,
        call: &'static str,
        ask: impl Fn(&dyn Side) -> Result<T, Refusal>,
        input: &[(&str, &[u32])],
        accepted: impl Fn(&T) -> Answer,
    ) -> Same<T> {
        let same = self.same(call, ask, || written(input))?;
        self.count(call, &same, accepted);
        Ok(same)
    }

    fn count<T>(
        &mut self,
        call: &'static str,
        same: &Result<T, Refusal>,
        accepted: impl Fn(&T) -> Answer,
    ) {
        self.tally.count(call, Answer::of(same, accepted));
    }

    /// The reading's answer, if the others give the same.
    fn same<A: Debug + PartialEq>(
        &mut self,
        call: &str,
        ask: impl Fn(&dyn Side) -> A,
        input: impl Fn() -> String,
    ) -> Result<A, Fault> {
        let ours = ask(&Reading);
        for (name, side) in [(UNDER_TEST, self.under_test), (PLAIN, self.plain)] {
            let theirs = ask(side);
            if ours != theirs {
                let input = input();
                return Err(Fault(format!(
                    "{call} differs\n{input}\n{:<13}{ours:?}\n{:<13}{theirs:?}",
                    "reading:",
                    format!("{name}:")
                )));
            }
            *self.tally.agreed.entry(name).or_default() += 1;
        }
        Ok(ours)
    }
}

/// Boards are compared with all their fields: answer and board must be the same.
impl Asks for Comparer<'_> {
    fn submit(
        &mut self,
        board: &Board,
        submission: &Submission,
    ) -> Result<(histories::Answer, Board), Fault> {
        let ask = |side: &dyn Side| submission.ask(side, board);
        let same = self.same("submit", ask, || format!("{board:?}\n{submission}"))?;
        self.count("submit", &same.0, |_| Answer::Accepted);
        self.tally.boards.submission(board, submission, &same.0);
        Ok(same)
    }

    fn rank(&mut self, slots: &[Slot]) -> Same<Vec<usize>> {
        let ask = |side: &dyn Side| side.rank(slots);
        let same = self.same("rank", ask, || histories::written(slots))?;
        self.count("rank", &same, |_| Answer::Accepted);
        if let Ok(order) = &same {
            self.tally.boards.rank(slots, order);
        }
        Ok(same)
    }
}

/// Drafts are compared word for word, with all the words that were lent.
impl drafting::Asks for Comparer<'_> {
    fn draft(&mut self, model: &[u32], rounds: u64, words: usize) -> Same<Vec<u32>> {
        let ask = |side: &dyn Side| drafting::drafted(side, model, rounds, words);
        let input = || {
            let model = written(&[("model", model)]);
            format!("{rounds} rounds, {words} words lent\n{model}")
        };
        let same = self.same("draft", ask, input)?;
        self.count("draft", &same.answer, |_| Answer::Accepted);
        let told = |what| Fault(format!("{what}\n{}", input()));
        same.table().map_err(told)
    }

    fn judge(&mut self, model: &[u32], table: &[u32]) -> Same<Certificate> {
        Comparer::judge(self, model, table)
    }

    fn read_model(&mut self, model: &[u32]) -> Same<Counts> {
        Comparer::read_model(self, model)
    }
}

/// Named lists of words, one per line.
pub fn written(input: &[(&str, &[u32])]) -> String {
    let line = |(name, words): &(&str, &[u32])| format!("{name}: {}", spell::hex(words));
    input.iter().map(line).collect::<Vec<_>>().join("\n")
}
