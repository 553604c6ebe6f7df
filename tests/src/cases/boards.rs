//! Boards as the case files write them: how many slots there are, what stands in each, and how much
//! of the allowance is left. What is not said is as on another board, such as a fresh one.

use super::words::number;
use crate::reading::Slot;

/// A board that is lent, or what it has become.
#[derive(Clone, Debug, PartialEq)]
pub struct Board {
    pub slots: Vec<Slot>,
    /// What is left of the allowance.
    pub left: u32,
}

/// More slots than any case has a use for.
const MOST: usize = 1_000;

/// What a board that is as the other one is called.
const FRESH: &str = "fresh";
const SAME: &str = "the same";

/// Reads the board that a case begins with: `fresh`, or what is other than on a fresh one.
pub fn handed_in(text: &str) -> Result<Board, String> {
    let mut board = Board::fresh();
    if text.trim() != FRESH {
        board.change(text)?;
    }
    Ok(board)
}

/// Reads what a board has become: `the same`, or what is other than on the one that was handed in.
pub fn become_of(before: &Board, text: &str) -> Result<Board, String> {
    let mut board = before.clone();
    if text.trim() != SAME {
        board.change(text)?;
    }
    match board.slots.len() == before.slots.len() {
        true => Ok(board),
        false => Err("the number of slots does not change".to_string()),
    }
}

impl Board {
    pub fn fresh() -> Board {
        Board {
            slots: vec![Slot::VACANT; 16],
            left: 100,
        }
    }

    /// Takes items in, with commas between them; the last one for a slot counts.
    fn change(&mut self, items: &str) -> Result<(), String> {
        for item in items.split(',').map(str::trim) {
            self.item(item)?;
        }
        Ok(())
    }

    /// Takes in `17 slots`, `98 left` or `3 = team 1 1/2`; `0-15` means the slots from 0 to 15.
    fn item(&mut self, item: &str) -> Result<(), String> {
        if let Some((which, stands)) = item.split_once('=') {
            let stands = slot(stands)?;
            self.named(which.trim())?.fill(stands);
            return Ok(());
        }
        let parts: Vec<&str> = item.split_whitespace().collect();
        match parts[..] {
            [left, "left"] => self.left = number(left)?,
            [count, "slots"] => {
                let count = number(count).ok().filter(|count| *count <= MOST);
                let count = count.ok_or_else(|| format!("'{item}': 0 to {MOST} will do"))?;
                self.slots.resize(count, Slot::VACANT);
            }
            _ => return Err(format!("'{item}' says nothing of a board")),
        }
        Ok(())
    }

    /// The slots that an item is about.
    fn named(&mut self, which: &str) -> Result<&mut [Slot], String> {
        let (first, last) = which.split_once('-').unwrap_or((which, which));
        let (first, last): (usize, usize) = (number(first)?, number(last)?);
        let there = first <= last && last < self.slots.len();
        match there {
            true => Ok(&mut self.slots[first..=last]),
            false => Err(format!("there are no slots {which}")),
        }
    }

    /// Writes the board, by what is other than on the one before.
    fn than(&self, before: &Board) -> String {
        let mut items: Vec<String> = Vec::new();
        if self.slots.len() != before.slots.len() {
            items.push(format!("{} slots", self.slots.len()));
        }
        for (number, now) in self.slots.iter().enumerate() {
            if *now != before.slots.get(number).copied().unwrap_or(Slot::VACANT) {
                items.push(format!("{number} = {}", said(now)));
            }
        }
        if self.left != before.left {
            items.push(format!("{} left", self.left));
        }
        items.join(", ")
    }

    /// Writes the board that a case begins with.
    pub fn written(&self) -> String {
        or(self.than(&Board::fresh()), FRESH)
    }

    /// Writes what the board before has become.
    pub fn written_after(&self, before: &Board) -> String {
        or(self.than(before), SAME)
    }
}

fn or(items: String, none: &str) -> String {
    match items.is_empty() {
        true => none.to_string(),
        false => items,
    }
}

/// Reads what stands in a slot: `team 1 1/2`, `vacant`, or `vacant team 9 5/0`, whose fields are not
/// to be read.
fn slot(text: &str) -> Result<Slot, String> {
    let parts: Vec<&str> = text.split_whitespace().collect();
    let (held, fields) = match parts[..] {
        ["vacant"] => return Ok(Slot::VACANT),
        ["vacant", ref fields @ ..] => (false, fields),
        ref fields => (true, fields),
    };
    let ["team", team, fraction] = fields else {
        return Err(format!("'{}' is in no slot", text.trim()));
    };
    let parts = fraction.split_once('/');
    let (b, whole) = parts.ok_or_else(|| format!("'{fraction}' is no fraction"))?;
    Ok(Slot {
        held,
        team: number(team)?,
        b: number(b)?,
        whole: number(whole)?,
    })
}

fn said(slot: &Slot) -> String {
    let Slot {
        held,
        team,
        b,
        whole,
    } = slot;
    match (*slot == Slot::VACANT, held) {
        (true, _) => "vacant".to_string(),
        (_, true) => format!("team {team} {b}/{whole}"),
        (_, false) => format!("vacant team {team} {b}/{whole}"),
    }
}

#[cfg(test)]
mod tests {
    use super::*;

    fn held(team: u32, b: u32, whole: u32) -> Slot {
        Slot {
            held: true,
            team,
            b,
            whole,
        }
    }

    #[test]
    fn boards_by_what_is_other_than_on_a_fresh_one() {
        assert_eq!(handed_in("fresh"), Ok(Board::fresh()));
        let few = handed_in("2 slots, 0 left").expect("a board");
        assert_eq!((few.slots, few.left), (vec![Slot::VACANT; 2], 0));
        let text =
            "17 slots, 0-15 = team 1 1/2, 3 = team 8 5/0, 4-5 = vacant, 5 = vacant team 9 1/1";
        let board = handed_in(text).expect("a board");
        assert_eq!((board.slots.len(), board.left), (17, 100));
        assert_eq!(board.slots[2..4], [held(1, 1, 2), held(8, 5, 0)]);
        let garbage = Slot {
            held: false,
            ..held(9, 1, 1)
        };
        assert_eq!(board.slots[4..6], [Slot::VACANT, garbage]);
        assert_eq!(board.slots[15..], [held(1, 1, 2), Slot::VACANT]);
    }

    #[test]
    fn what_a_board_has_become() {
        let before = handed_in("3 = team 1 1/2, 7 left").expect("a board");
        assert_eq!(become_of(&before, "the same"), Ok(before.clone()));
        let after = become_of(&before, "4 = team 2 1/3, 6 left").expect("a board");
        assert_eq!(after.slots[3..5], [held(1, 1, 2), held(2, 1, 3)]);
        assert_eq!(after.left, 6);
        assert_eq!(before.written_after(&before), "the same");
        assert_eq!(after.written_after(&before), "4 = team 2 1/3, 6 left");
    }

    #[test]
    fn boards_are_written_as_they_are_read() {
        for text in [
            "fresh",
            "0 slots",
            "15 slots, 0 left",
            "3 = team 8 5/0, 4 = vacant team 9 1/1, 4294967295 left",
        ] {
            let read = handed_in(text).map(|board| board.written());
            assert_eq!(read.as_deref(), Ok(text));
        }
    }

    #[test]
    fn what_is_no_board_is_told() {
        for (text, told) in [
            ("", "'' says nothing of a board"),
            ("the same", "'the same' says nothing of a board"),
            ("fresh, 1 left", "'fresh' says nothing of a board"),
            ("left 98", "'left 98' says nothing of a board"),
            ("1001 slots", "0 to 1000 will do"),
            ("-1 left", "'-1' is no number"),
            ("4294967296 left", "'4294967296' is no number"),
            ("16 = vacant", "there are no slots 16"),
            ("3-16 = vacant", "there are no slots 3-16"),
            ("3-2 = vacant", "there are no slots 3-2"),
            ("x = vacant", "'x' is no number"),
            ("3 = free", "'free' is in no slot"),
            ("3 = team 1", "'team 1' is in no slot"),
            ("3 = team 1 2", "'2' is no fraction"),
            (
                "3 = team 1 1/02",
                "'02' is no number: it has a leading zero",
            ),
        ] {
            let wrong = handed_in(text).expect_err(text);
            assert!(wrong.contains(told), "{text}: {wrong}");
        }
        let wrong = become_of(&Board::fresh(), "17 slots").expect_err("more slots");
        assert!(wrong.contains("does not change"), "{wrong}");
    }
}
