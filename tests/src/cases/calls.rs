//! The four calls with their words, as the case files write them, and what a side answers to them.

use std::fmt;

use super::answers::Answer;
use super::words::{number, words, Named};
use crate::reading::Refusal;
use crate::sides::Side;
use crate::spell;

#[derive(Clone, Debug, PartialEq, Eq)]
pub enum Call {
    ZoneEmpty(u32, Vec<u32>),
    ZoneInside(u32, Vec<u32>, Vec<u32>),
    ReadModel(Vec<u32>),
    Judge(Vec<u32>, Vec<u32>),
}

/// The longest file that the program takes.
const MOST_BYTES: usize = 65_536;

/// Reads a call: its name, and in brackets C and lists of words with commas between them.
pub fn call(text: &str, named: &Named) -> Result<Call, String> {
    let inner = text.trim().strip_suffix(')');
    let parts = inner.and_then(|inner| inner.split_once('('));
    let (name, parts) = parts.ok_or_else(|| format!("'{text}' is no call"))?;
    let parts: Vec<&str> = parts.split(',').map(str::trim).collect();
    let list = |text: &str| words(text, named);
    match (name.trim(), &parts[..]) {
        ("zone_empty", [c, zone]) => Ok(Call::ZoneEmpty(number(c)?, list(zone)?)),
        ("zone_inside", [c, first, second]) => {
            Ok(Call::ZoneInside(number(c)?, list(first)?, list(second)?))
        }
        ("read_model", [model]) => Ok(Call::ReadModel(list(model)?)),
        ("judge", [model, table]) => Ok(Call::Judge(list(model)?, list(table)?)),
        ("zone_empty" | "zone_inside" | "read_model" | "judge", parts) => {
            Err(format!("{} parts are wrong for {name}", parts.len()))
        }
        _ => Err(format!("unknown call '{name}'")),
    }
}

impl Call {
    pub fn name(&self) -> &'static str {
        match self {
            Call::ZoneEmpty(..) => "zone_empty",
            Call::ZoneInside(..) => "zone_inside",
            Call::ReadModel(_) => "read_model",
            Call::Judge(..) => "judge",
        }
    }

    /// What a side answers.
    pub fn asked(&self, side: &dyn Side) -> Answer {
        let answer = match self {
            Call::ZoneEmpty(c, zone) => side.zone_empty(*c, zone).map(Answer::Empty),
            Call::ZoneInside(c, first, second) => {
                side.zone_inside(*c, first, second).map(Answer::Inside)
            }
            Call::ReadModel(model) => side.read_model(model).map(Answer::from),
            Call::Judge(model, table) => side.judge(model, table).map(Answer::from),
        };
        answer.unwrap_or_else(Answer::Refused)
    }

    /// Whether an answer is one that documents 01 and 02 have for this call.
    pub fn may_answer(&self, answer: &Answer) -> bool {
        let refusal = |number| match self {
            Call::ZoneEmpty(..) => (31..=32).contains(number),
            Call::ZoneInside(..) => (31..=33).contains(number),
            Call::ReadModel(_) => (1..=6).contains(number),
            Call::Judge(..) => matches!(number, 1..=6 | 11..=21 | 51..=53),
        };
        match answer {
            Answer::Empty(_) => matches!(self, Call::ZoneEmpty(..)),
            Answer::Inside(_) => matches!(self, Call::ZoneInside(..)),
            Answer::Accepted(_) => matches!(self, Call::ReadModel(_) | Call::Judge(..)),
            Answer::Refused(Refusal { number, .. }) => refusal(number),
        }
    }

    /// The words as one file for the program, where it finds the same model and table in it: the table
    /// begins with the file's first word of kind 7.
    pub fn whole_file(&self) -> Option<Vec<u32>> {
        let (model, table): (&[u32], &[u32]) = match self {
            Call::Judge(model, table) => (model, table),
            Call::ReadModel(model) => (model, &[]),
            Call::ZoneEmpty(..) | Call::ZoneInside(..) => return None,
        };
        let heads_table = |word: &u32| word >> 28 == 7;
        let apart = !model.iter().any(heads_table) && table.first().is_none_or(heads_table);
        let file = [model, table].concat();
        (apart && 4 * file.len() <= MOST_BYTES).then_some(file)
    }

    /// What the program answers to that file, given the call's answer: a good model alone lacks a
    /// table.
    pub fn of_whole_file(&self, answer: Answer) -> Answer {
        match (self, answer) {
            (Call::ReadModel(_), Answer::Accepted(_)) => Answer::Refused(Refusal {
                number: 11,
                place: 0,
            }),
            _ => answer,
        }
    }
}

impl fmt::Display for Call {
    /// With every word written out.
    fn fmt(&self, out: &mut fmt::Formatter<'_>) -> fmt::Result {
        let list = |words: &Vec<u32>| match words.is_empty() {
            true => "none".to_string(),
            false => spell::hex(words),
        };
        let parts = match self {
            Call::ZoneEmpty(c, zone) => vec![c.to_string(), list(zone)],
            Call::ZoneInside(c, first, second) => vec![c.to_string(), list(first), list(second)],
            Call::ReadModel(model) => vec![list(model)],
            Call::Judge(model, table) => vec![list(model), list(table)],
        };
        write!(out, "{}({})", self.name(), parts.join(", "))
    }
}

#[cfg(test)]
mod tests {
    use super::super::answers::answer;
    use super::*;

    #[test]
    fn each_call() {
        let read = |text| call(text, &Named::new());
        let (a, b) = (0x51001003, 0x51001004);
        let zone = Call::ZoneEmpty(1, vec![a, b]);
        assert_eq!(read("zone_empty(1, 51001003 51001004)"), Ok(zone));
        let inside = Call::ZoneInside(2, vec![], vec![a]);
        assert_eq!(read("zone_inside(2, none, 51001003)"), Ok(inside));
        assert_eq!(read("read_model(51001003)"), Ok(Call::ReadModel(vec![a])));
        let judge = Call::Judge(vec![a, a], vec![]);
        assert_eq!(read("judge((51001003)*2, none)"), Ok(judge));
    }

    #[test]
    fn what_is_no_call_is_told() {
        for (text, told) in [
            ("", "is no call"),
            ("judge", "is no call"),
            ("judge(none, none", "is no call"),
            ("guess(none)", "unknown call 'guess'"),
            ("judge(none)", "1 parts are wrong for judge"),
            ("zone_empty(none)", "1 parts are wrong for zone_empty"),
            ("read_model(none, none)", "2 parts are wrong for read_model"),
            ("zone_empty(x, none)", "'x' is no number"),
            ("zone_empty(4294967296, none)", "is no number"),
            (
                "zone_empty(0001, none)",
                "'0001' is no number: it has a leading zero",
            ),
            ("judge(none, )", "words are lacking"),
        ] {
            let wrong = call(text, &Named::new()).expect_err(text);
            assert!(wrong.contains(told), "{text}: {wrong}");
        }
    }

    #[test]
    fn answers_of_other_calls_are_none_of_its_own() {
        let model = Call::ReadModel(vec![]);
        let may = |text| answer(text).is_ok_and(|answer| model.may_answer(&answer));
        assert!(may("ACCEPTED 1 0 0") && may("REFUSED 6 0"));
        assert!(!may("EMPTY") && !may("NOT INSIDE") && !may("REFUSED 11 0"));
    }

    #[test]
    fn only_what_the_program_takes_apart_alike_is_a_file() {
        let file =
            |model: &[u32], table: &[u32]| Call::Judge(model.to_vec(), table.to_vec()).whole_file();
        let (head, other) = (0x70000001, 0x20000000);
        assert_eq!(file(&[other], &[head]), Some(vec![other, head]));
        assert_eq!(file(&[other], &[]), Some(vec![other]));
        assert_eq!(file(&[other], &[other]), None);
        assert_eq!(file(&[head], &[head]), None);
        assert_eq!(
            file(&[other; 16_384], &[]).map(|file| file.len()),
            Some(16_384)
        );
        assert_eq!(file(&[other; 16_384], &[head]), None);
    }
}
