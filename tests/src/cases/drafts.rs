//! Drafts as the case files write them: a model, rounds, sometimes how many words are lent, and the words
//! that are written or the refusal.

use std::fmt;

use super::answers::{answer, Answer};
use super::words::{number, words, Named};
use crate::drafting::{certificate, drafted, Drafted, LONGEST};
use crate::reading::Refusal;
use crate::sides::{drafter_lines, Side};
use crate::spell;

#[derive(Clone, Debug, PartialEq)]
pub struct Draft {
    pub model: Vec<u32>,
    pub rounds: u64,
    /// How many words are lent, where the case says it.
    pub lent: Option<usize>,
    pub answer: Result<Vec<u32>, Refusal>,
}

/// How a case of a draft begins.
pub const CALL: &str = "draft(";

/// How many words of a model the program that drafts takes.
const MOST_WORDS: usize = 16_384;

/// The refusal of lent words that are too few.
const TOO_FEW: Refusal = Refusal {
    number: 60,
    place: 0,
};

/// Reads what stands behind the name of a line `name | draft(model, 2 rounds, 20 words) | answer`.
pub fn draft(columns: &[&str], named: &Named) -> Result<Draft, String> {
    let [called, answered] = columns else {
        let bars = columns.len();
        return Err(format!("name | draft | answer has two bars, here {bars}"));
    };
    let parts = called.strip_prefix(CALL);
    let parts = parts.and_then(|parts| parts.strip_suffix(')'));
    let parts = parts.ok_or_else(|| format!("'{called}' is no call"))?;
    let parts: Vec<&str> = parts.split(',').map(str::trim).collect();
    let (model, rounds, lent) = match parts[..] {
        [model, rounds] => (model, rounds, None),
        [model, rounds, lent] => (model, rounds, Some(counted(lent, "word")?)),
        _ => return Err(format!("{} parts are wrong for draft", parts.len())),
    };
    let draft = Draft {
        model: words(model, named)?,
        rounds: counted(rounds, "round")?,
        lent,
        answer: written(answered, named)?,
    };
    match draft.may_be() {
        true => Ok(draft),
        false => Err(format!("'{called}' never answers so")),
    }
}

/// Reads `2 rounds`, or `1 round`.
fn counted<N: std::str::FromStr>(text: &str, what: &str) -> Result<N, String> {
    let told = || format!("'{text}' where {what}s are due");
    let (count, unit) = text.split_once(' ').ok_or_else(told)?;
    let plural = if count == "1" { "" } else { "s" };
    match unit == format!("{what}{plural}") {
        true => number(count),
        false => Err(told()),
    }
}

/// Reads `DRAFTED 16: words`, or a refusal.
fn written(text: &str, named: &Named) -> Result<Result<Vec<u32>, Refusal>, String> {
    let Some(drafted) = text.strip_prefix("DRAFTED ") else {
        return match answer(text)? {
            Answer::Refused(refusal) => Ok(Err(refusal)),
            _ => Err(format!("draft never answers {text}")),
        };
    };
    let (length, list) = drafted.split_once(':').ok_or("DRAFTED without a :")?;
    let (length, list): (usize, Vec<u32>) = (number(length.trim())?, words(list, named)?);
    match length == list.len() {
        true => Ok(Ok(list)),
        false => Err(format!("DRAFTED {length}, but {} words", list.len())),
    }
}

impl Draft {
    /// Whether document 02 has such an answer: a draft takes no more words than were lent, and 60 is about
    /// lent words that the case names.
    fn may_be(&self) -> bool {
        match (&self.answer, self.lent) {
            (Ok(table), lent) => lent.is_none_or(|lent| lent >= table.len()),
            (Err(refusal), lent) => match refusal.number {
                1..=6 => true,
                58 | 59 => refusal.place == 0,
                60 => refusal.place == 0 && lent.is_some(),
                _ => false,
            },
        }
    }

    /// How many words are lent, and what is due then. Where the case does not say how many: exactly enough,
    /// one more and many more, and one too few and none; of a refusal none and many.
    fn asked(&self) -> Vec<(usize, Result<Vec<u32>, Refusal>)> {
        let due = |lent| (lent, self.answer.clone());
        match (&self.answer, self.lent) {
            (_, Some(lent)) => vec![due(lent)],
            (Ok(table), None) => {
                let length = table.len();
                let mut asked = vec![(0, Err(TOO_FEW)), (length - 1, Err(TOO_FEW))];
                asked.extend([length, length + 1, LONGEST + 1].map(due));
                asked
            }
            (Err(_), None) => vec![due(0), due(LONGEST)],
        }
    }

    /// What a side is asked, what is due and what it says: the drafts, and what it makes of the table.
    pub fn held(&self, side: &dyn Side) -> Vec<(String, String, String)> {
        let mut held = Vec::new();
        for (lent, due) in self.asked() {
            let got = drafted(side, &self.model, self.rounds, lent);
            held.push((format!("{lent} words lent"), said(&due), told(&got)));
        }
        if let Ok(table) = &self.answer {
            let due = Answer::from(certificate(table));
            let judged = side.judge(&self.model, table);
            let judged = judged.map_or_else(Answer::Refused, Answer::from);
            held.push(("judged".to_string(), due.to_string(), judged.to_string()));
        }
        held
    }

    /// The rounds as a word, and what the program that drafts prints for them and the model, where the case
    /// is one that it can be asked: it takes so many rounds and bytes, and lends words enough.
    pub fn of_drafter(&self) -> Option<(u32, String)> {
        let rounds = u32::try_from(self.rounds).ok()?;
        let asked = self.model.len() <= MOST_WORDS && self.answer != Err(TOO_FEW);
        asked.then(|| (rounds, drafter_lines(&self.answer)))
    }

    /// Model and table as one file, and what the program answers to it.
    pub fn whole_file(&self) -> Option<(Vec<u32>, Answer)> {
        let table = self.answer.as_ref().ok()?;
        let file = [&self.model[..], table].concat();
        Some((file, Answer::from(certificate(table))))
    }
}

/// An answer as it is written.
fn said(answer: &Result<Vec<u32>, Refusal>) -> String {
    match answer {
        Ok(table) => format!("DRAFTED {}: {}", table.len(), spell::hex(table)),
        Err(refusal) => Answer::Refused(*refusal).to_string(),
    }
}

/// What a side says, and what it did to words that should have stayed.
fn told(got: &Drafted) -> String {
    match got.table() {
        Ok(answer) => said(&answer),
        Err(what) => format!("{got:?}: {what}"),
    }
}

impl fmt::Display for Draft {
    /// The columns, with every word written out.
    fn fmt(&self, out: &mut fmt::Formatter<'_>) -> fmt::Result {
        let many = |count: u64, what: &str| match count {
            1 => format!("1 {what}"),
            _ => format!("{count} {what}s"),
        };
        let model = match self.model.is_empty() {
            true => "none".to_string(),
            false => spell::hex(&self.model),
        };
        write!(out, "{CALL}{model}, {}", many(self.rounds, "round"))?;
        if let Some(lent) = self.lent {
            write!(out, ", {}", many(lent as u64, "word"))?;
        }
        write!(out, ") | {}", said(&self.answer))
    }
}

#[cfg(test)]
mod tests {
    use super::*;
    use crate::sides::Reading;

    /// A location without actions, and its draft.
    const E: &str = "11100001 20000000 60000000";
    const DRAFT: &str = "700F4240 80000000 50101000 900F4240 C0000000";

    fn read(text: &str) -> Result<Draft, String> {
        let text = text.replace("DRAFT", DRAFT).replace("ED:", "DRAFTED");
        let text = text.replace("E,", &format!("{E},"));
        let columns: Vec<&str> = text.split('|').map(str::trim).collect();
        draft(&columns, &Named::new())
    }

    #[test]
    fn drafts_are_written_as_they_are_read() {
        for text in [
            "draft(E, 0 rounds) | ED: 5: DRAFT",
            "draft(E, 0 rounds, 20 words) | ED: 5: DRAFT",
            "draft(E, 1 round, 1 word) | REFUSED 60 0",
            "draft(none, 18446744073709551615 rounds) | REFUSED 1 0",
            "draft(none, 2 rounds) | REFUSED 58 0",
        ] {
            let wanted = text.replace("DRAFT", DRAFT).replace("ED:", "DRAFTED");
            let wanted = wanted.replace("E,", &format!("{E},"));
            assert_eq!(read(text).map(|draft| draft.to_string()), Ok(wanted));
        }
    }

    #[test]
    fn what_is_no_draft_is_told() {
        for (text, told) in [
            ("draft(E, 0 rounds)", "has two bars, here 1"),
            ("draft(E, 0 rounds | REFUSED 60 0", "is no call"),
            ("draft(none) | REFUSED 1 0", "1 parts are wrong for draft"),
            ("draft(none, 2) | REFUSED 1 0", "'2' where rounds are due"),
            (
                "draft(none, 1 rounds) | REFUSED 1 0",
                "where rounds are due",
            ),
            ("draft(none, 2 words) | REFUSED 1 0", "where rounds are due"),
            ("draft(none, -1 rounds) | REFUSED 1 0", "'-1' is no number"),
            (
                "draft(none, 2 rounds, 3) | REFUSED 1 0",
                "'3' where words are due",
            ),
            ("draft(E, 2 rounds) | REFUSED 60 0", "never answers so"),
            (
                "draft(E, 2 rounds, 3 words) | REFUSED 60 1",
                "never answers so",
            ),
            ("draft(E, 2 rounds) | REFUSED 59 1", "never answers so"),
            ("draft(E, 2 rounds) | REFUSED 19 0", "never answers so"),
            (
                "draft(E, 2 rounds, 4 words) | ED: 5: DRAFT",
                "never answers so",
            ),
            (
                "draft(E, 2 rounds) | ACCEPTED 1 0 0",
                "never answers ACCEPTED",
            ),
            (
                "draft(E, 2 rounds) | ED: 4: DRAFT",
                "DRAFTED 4, but 5 words",
            ),
            ("draft(E, 2 rounds) | ED: 5 DRAFT", "DRAFTED without a :"),
        ] {
            let wrong = read(text).expect_err(text);
            assert!(wrong.contains(told), "{text}: {wrong}");
        }
    }

    /// Where the reading differs.
    fn differs(text: &str) -> Vec<String> {
        let draft = read(text).unwrap_or_else(|wrong| panic!("{text}: {wrong}"));
        let held = draft.held(&Reading).into_iter();
        let differs = held.filter(|(_, due, got)| due != got);
        differs.map(|(asked, _, _)| asked).collect()
    }

    #[test]
    fn answers_that_are_changed_are_told() {
        assert_eq!(differs("draft(E, 0 rounds) | ED: 5: DRAFT"), [""; 0]);
        assert_eq!(
            differs("draft(E, 0 rounds, 4 words) | REFUSED 60 0"),
            [""; 0]
        );
        let lent = ["5 words lent", "6 words lent", "9603 words lent"];
        assert_eq!(differs("draft(E, 1 round) | ED: 5: DRAFT"), lent);
        assert_eq!(
            differs("draft(E, 0 rounds, 5 words) | REFUSED 60 0"),
            lent[..1]
        );
        let longer = "draft(E, 0 rounds) | ED: 6: DRAFT C0000000";
        let lent = [
            "5 words lent",
            "6 words lent",
            "7 words lent",
            "9603 words lent",
            "judged",
        ];
        assert_eq!(differs(longer), lent);
        assert_eq!(differs("draft(E, 0 rounds) | REFUSED 58 0").len(), 2);
    }
}
