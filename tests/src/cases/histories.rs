//! Histories of a board as the case files write them, and how one is played: a board that is handed
//! in, submissions and questions for the rank with their answers, and what the board has become.

use std::fmt;

use super::answers::{answer, Answer};
use super::boards::{become_of, handed_in, Board};
use super::words::{number, words, Named};
use crate::reading::{Certificate, Refusal, Slot};
use crate::sides::Side;
use crate::spell;

#[derive(Clone, Debug, PartialEq)]
pub struct History {
    pub before: Board,
    pub steps: Vec<Step>,
}

#[derive(Clone, Debug, PartialEq)]
pub enum Step {
    /// A submission, so many times, and what is answered each time.
    Submit(usize, Submission, Result<Certificate, Refusal>),
    Rank(Result<Vec<usize>, Refusal>),
    /// What the board must be by now.
    Board(Board),
}

#[derive(Clone, Debug, PartialEq)]
pub struct Submission {
    pub team: u32,
    pub slot: u32,
    pub model: Vec<u32>,
    pub table: Vec<u32>,
}

/// Where a side differs first.
pub struct Difference {
    /// What it was asked, or that it is about the board.
    pub of: String,
    pub expected: String,
    pub got: String,
}

/// What stands between a call and its answer.
pub const ARROW: &str = "->";

/// Refusals before the judge, which spend nothing.
const OF_THE_BOARD: std::ops::RangeInclusive<u32> = 54..=56;

/// Reads the columns behind a case's name: the board, steps, and last what it has become. A column with
/// an arrow is a call with its answer, another says what the board has become by then.
pub fn history(columns: &[&str], named: &Named) -> Result<History, String> {
    let [before, steps @ ..] = columns else {
        return Err("a history without a board".to_string());
    };
    let before = handed_in(before)?;
    let read = |column: &&str| match column.split_once(ARROW) {
        Some((call, answer)) => step(call.trim(), answer.trim(), named),
        None => become_of(&before, column).map(Step::Board),
    };
    let steps: Vec<Step> = steps.iter().map(read).collect::<Result<_, String>>()?;
    match steps.last() {
        Some(Step::Board(_)) => Ok(History { before, steps }),
        _ => Err("a history ends with what the board has become".to_string()),
    }
}

/// Reads a call with its answer.
fn step(call: &str, answered: &str, named: &Named) -> Result<Step, String> {
    if call == "rank()" {
        return Ok(Step::Rank(order(answered)?));
    }
    let (times, call) = match call.split_once(" times ") {
        Some((times, call)) => (number(times)?, call.trim()),
        None => (1, call),
    };
    if !(1..=1_000).contains(&times) {
        return Err(format!("{times} times"));
    }
    let submission = submission(call, named)?;
    let answer = judged(answered)?;
    Ok(Step::Submit(times, submission, answer))
}

/// Reads `submit(team 1, slot 3, words, words)`, the model before the table.
fn submission(call: &str, named: &Named) -> Result<Submission, String> {
    let parts = call.strip_prefix("submit(");
    let parts = parts.and_then(|parts| parts.strip_suffix(')'));
    let parts = parts.ok_or_else(|| format!("'{call}' is no step"))?;
    let parts: Vec<&str> = parts.split(',').map(str::trim).collect();
    let [team, slot, model, table] = parts[..] else {
        return Err(format!("{} parts are wrong for submit", parts.len()));
    };
    let named_number = |text: &str, what: &str| match text.strip_prefix(what) {
        Some(text) => number(text.trim_start()),
        None => Err(format!("'{text}' where a {what}is due")),
    };
    Ok(Submission {
        team: named_number(team, "team ")?,
        slot: named_number(slot, "slot ")?,
        model: words(model, named)?,
        table: words(table, named)?,
    })
}

/// Reads what a submission is answered.
fn judged(text: &str) -> Result<Result<Certificate, Refusal>, String> {
    let never = || format!("submit never answers {text}");
    match answer(text)? {
        Answer::Accepted([b, whole, nodes]) => Ok(Ok(Certificate {
            b: u32::try_from(b).map_err(|_| never())?,
            whole: u32::try_from(whole).map_err(|_| never())?,
            nodes,
        })),
        Answer::Refused(refusal) if may_refuse(&refusal) => Ok(Err(refusal)),
        _ => Err(never()),
    }
}

fn may_refuse(Refusal { number, place }: &Refusal) -> bool {
    let of_the_judge = matches!(number, 1..=6 | 11..=21 | 51..=53);
    of_the_judge || OF_THE_BOARD.contains(number) && *place == 0
}

/// Reads what ranking answers: slot numbers, `none`, or the one refusal.
fn order(text: &str) -> Result<Result<Vec<usize>, Refusal>, String> {
    let refusal = Refusal {
        number: 54,
        place: 0,
    };
    match text {
        "none" => Ok(Ok(Vec::new())),
        "" => Err("slots are lacking; no slot is written none".to_string()),
        _ if answer(text) == Ok(Answer::Refused(refusal)) => Ok(Err(refusal)),
        _ => {
            let slots = text.split_whitespace().map(number);
            Ok(Ok(slots.collect::<Result<_, String>>()?))
        }
    }
}

impl History {
    /// Plays it on one side, up to the first difference. After each call the board must be as it was,
    /// but for what the stored answer brings with it.
    pub fn played(&self, side: &dyn Side) -> Result<(), Difference> {
        let mut board = self.before.clone();
        let mut due = self.before.clone();
        for step in &self.steps {
            match step {
                Step::Submit(times, submission, answer) => {
                    for _ in 0..*times {
                        let got = submission.made(&mut board, side);
                        hold(step.called(), said(answer), said(&got))?;
                        submission.follows(&mut due, answer);
                        self.hold_board(step, &due, &board)?;
                    }
                }
                Step::Rank(answer) => {
                    let got = side.rank(&board.slots);
                    hold(step.called(), ranked(answer), ranked(&got))?;
                }
                Step::Board(stated) => self.hold_board(step, stated, &board)?,
            }
        }
        Ok(())
    }

    fn hold_board(&self, step: &Step, due: &Board, got: &Board) -> Result<(), Difference> {
        let written = |board: &Board| board.written_after(&self.before);
        let of = match step {
            Step::Board(_) => step.called(),
            _ => format!("the board after {}", step.called()),
        };
        hold(of, written(due), written(got))
    }
}

fn hold(of: String, expected: String, got: String) -> Result<(), Difference> {
    match expected == got {
        true => Ok(()),
        false => Err(Difference { of, expected, got }),
    }
}

impl Submission {
    /// Makes it on a side's board.
    fn made(&self, board: &mut Board, side: &dyn Side) -> Result<Certificate, Refusal> {
        let Board { slots, left } = board;
        side.submit(slots, left, self.team, self.slot, &self.model, &self.table)
    }

    /// Changes the board as the answer tells: an acceptance writes the slot, and what comes from the
    /// judge spends one.
    fn follows(&self, board: &mut Board, answer: &Result<Certificate, Refusal>) {
        if matches!(answer, Err(refusal) if OF_THE_BOARD.contains(&refusal.number)) {
            return;
        }
        board.left = board.left.saturating_sub(1);
        let slot = board.slots.get_mut(self.slot as usize);
        if let (Some(slot), Ok(accepted)) = (slot, answer) {
            *slot = Slot {
                held: true,
                team: self.team,
                b: accepted.b,
                whole: accepted.whole,
            };
        }
    }
}

impl Step {
    /// What is asked, with every word written out.
    fn called(&self) -> String {
        let list = |words: &[u32]| match words.is_empty() {
            true => "none".to_string(),
            false => spell::hex(words),
        };
        let Step::Submit(times, submission, _) = self else {
            let of_board = matches!(self, Step::Board(_));
            return if of_board { "the board" } else { "rank()" }.to_string();
        };
        let times = match times {
            1 => String::new(),
            _ => format!("{times} times "),
        };
        let Submission {
            team,
            slot,
            model,
            table,
        } = submission;
        let (model, table) = (list(model), list(table));
        format!("{times}submit(team {team}, slot {slot}, {model}, {table})")
    }
}

fn said(answer: &Result<Certificate, Refusal>) -> String {
    let answer = answer.map_or_else(Answer::Refused, Answer::from);
    answer.to_string()
}

fn ranked(answer: &Result<Vec<usize>, Refusal>) -> String {
    match answer {
        Ok(slots) if slots.is_empty() => "none".to_string(),
        Ok(slots) => slots
            .iter()
            .map(usize::to_string)
            .collect::<Vec<_>>()
            .join(" "),
        Err(refusal) => Answer::Refused(*refusal).to_string(),
    }
}

impl fmt::Display for History {
    /// The columns, with every word written out.
    fn fmt(&self, out: &mut fmt::Formatter<'_>) -> fmt::Result {
        write!(out, "{}", self.before.written())?;
        for step in &self.steps {
            match step {
                Step::Submit(_, _, answer) => {
                    write!(out, " | {} {ARROW} {}", step.called(), said(answer))?;
                }
                Step::Rank(answer) => {
                    write!(out, " | {} {ARROW} {}", step.called(), ranked(answer))?;
                }
                Step::Board(board) => write!(out, " | {}", board.written_after(&self.before))?,
            }
        }
        Ok(())
    }
}

#[cfg(test)]
mod tests {
    use super::*;
    use crate::sides::Reading;

    /// Of a model with one location and no action, and a table that gives 1/2.
    const HALF: &str = "11100001 20000000 60000000, 70000002 80000000 90000001 C0000000";

    fn read(text: &str) -> Result<History, String> {
        let text = text.replace("HALF", HALF);
        let columns: Vec<&str> = text.split('|').map(str::trim).collect();
        history(&columns, &Named::new())
    }

    #[test]
    fn histories_are_written_as_they_are_read() {
        for text in [
            "fresh | submit(team 1, slot 3, HALF) -> ACCEPTED 1 2 1 | 3 = team 1 1/2, 99 left",
            "17 slots | submit(team 8, slot 16, none, none) -> REFUSED 54 0 | the same",
            "0 left | 3 times submit(team 1, slot 3, HALF) -> REFUSED 55 0 | the same",
            "fresh | the same | submit(team 1, slot 3, none, 7000000A) -> REFUSED 1 0 | 99 left",
            "3 = team 1 1/2 | rank() -> 3 | the same | rank() -> 3 | the same",
            "fresh | rank() -> none | the same",
            "3 = team 8 1/2 | rank() -> REFUSED 54 0 | the same",
        ] {
            let written = read(text).map(|history| history.to_string());
            let wanted = text.replace("HALF", HALF);
            assert_eq!(written, Ok(wanted));
        }
    }

    /// The parts of each line of a text that stand between `=>`.
    fn rows<const N: usize>(text: &str) -> Vec<[&str; N]> {
        let mut rows = Vec::new();
        for line in text.lines() {
            let parts: Vec<&str> = line.split("=>").map(str::trim).collect();
            rows.push(parts.try_into().expect("a row"));
        }
        rows
    }

    #[test]
    fn what_is_no_history_is_told() {
        let wrong = "fresh => ends with what the board has become
            fresh | rank() -> none => ends with what the board has become
            new | rank() -> none | the same => 'new' says nothing of a board
            fresh | rank() -> none | same => 'same' says nothing of a board
            fresh | rank(3) -> none | the same => 'rank(3)' is no step
            fresh | rank() -> | the same => slots are lacking
            fresh | rank() -> 3, 5 | the same => '3,' is no number
            fresh | rank() -> REFUSED 55 0 | the same => 'REFUSED' is no number
            fresh | submit(1, 3, HALF) -> REFUSED 55 0 | the same => '1' where a team is due
            fresh | submit(team 1, 3, HALF) -> REFUSED 55 0 | the same => '3' where a slot is due
            fresh | submit(team 1, slot 3, none) -> REFUSED 1 0 | 99 left => 3 parts are wrong
            fresh | submit(team 1, slot 3, M, none) -> REFUSED 1 0 | 99 left => no list is called M
            fresh | submit(team 1, slot 3, HALF) -> REFUSED 54 1 | the same => never answers REFUSED 54 1
            fresh | submit(team 1, slot 3, HALF) -> REFUSED 31 0 | the same => never answers REFUSED 31 0
            fresh | submit(team 1, slot 3, HALF) -> EMPTY | the same => never answers EMPTY
            fresh | submit(team 1, slot 3, HALF) -> 1 2 1 | the same => '1 2 1' is no answer
            fresh | submit(team 1, slot 3, HALF) -> ACCEPTED 4294967296 2 1 | 99 left => never answers
            0 left | 0 times submit(team 1, slot 3, HALF) -> REFUSED 55 0 | the same => 0 times
            0 left | 1001 times submit(team 1, slot 3, HALF) -> REFUSED 55 0 | the same => 1001 times
            0 left | x times submit(team 1, slot 3, HALF) -> REFUSED 55 0 | the same => 'x' is no number";
        for [text, told] in rows(wrong) {
            let wrong = read(text).expect_err(text);
            assert!(wrong.contains(told), "{text}: {wrong}");
        }
    }

    /// Where the reading differs from a history first: what it was asked, what is due, what it says.
    fn first_difference(text: &str) -> Option<String> {
        let history = read(text).unwrap_or_else(|wrong| panic!("{text}: {wrong}"));
        let Difference { of, expected, got } = history.played(&Reading).err()?;
        let of = of.replace(HALF, "HALF");
        Some(format!("{of}: {expected}, not {got}"))
    }

    #[test]
    fn answers_and_boards_that_are_changed_are_told() {
        let right = "3 = team 1 1/3, 3 left \
            | 2 times submit(team 1, slot 3, HALF) -> ACCEPTED 1 2 1 | 3 = team 1 1/2, 1 left \
            | submit(team 2, slot 3, HALF) -> REFUSED 56 0 \
            | submit(team 2, slot 5, none, none) -> REFUSED 1 0 | rank() -> 3 \
            | submit(team 2, slot 3, HALF) -> REFUSED 55 0 | 3 = team 1 1/2, 0 left";
        assert_eq!(first_difference(right), None);
        let changes = "\
            1 2 1 => 1 2 2 => 2 times submit(team 1, slot 3, HALF): ACCEPTED 1 2 2, not ACCEPTED 1 2 1
            REFUSED 56 => REFUSED 55 => submit(team 2, slot 3, HALF): REFUSED 55 0, not REFUSED 56 0
            REFUSED 1 0 => REFUSED 1 1 => submit(team 2, slot 5, none, none): REFUSED 1 1, not REFUSED 1 0
            rank() -> 3 => rank() -> none => rank(): none, not 3
            REFUSED 55 => REFUSED 54 => submit(team 2, slot 3, HALF): REFUSED 54 0, not REFUSED 55 0
            1 left => 2 left => the board: 3 = team 1 1/2, 2 left, not 3 = team 1 1/2, 1 left
            0 left => 1 left => the board: 3 = team 1 1/2, 1 left, not 3 = team 1 1/2, 0 left
            1/2, 0 => 2/4, 0 => the board: 3 = team 1 2/4, 0 left, not 3 = team 1 1/2, 0 left
            1 1/2, 0 => 0 1/2, 0 => the board: 3 = team 0 1/2, 0 left, not 3 = team 1 1/2, 0 left
            3 = team 1 1/2, 0 => 0 => the board: 0 left, not 3 = team 1 1/2, 0 left";
        for [part, changed, told] in rows(changes) {
            let text = right.replacen(part, changed, 1);
            assert_eq!(first_difference(&text).as_deref(), Some(told));
        }
    }
}
