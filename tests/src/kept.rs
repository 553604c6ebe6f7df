//! Boards for the figures. Each side keeps one in its own slots, prepared once, as an engine does, so
//! that no slot is converted at each call; answers are converted as in `sides`.

use std::hint::black_box;

use crate::plain;
use crate::reading::{self, Certificate, Refusal, Slot};
use crate::sides::{judged, lent_slot, plain_slot, plainly_judged, plainly_refused, refused};

/// A submission, and what is left of the allowance before it.
pub struct Submission {
    pub left: u32,
    pub team: u32,
    pub slot: u32,
    pub model: Vec<u32>,
    pub table: Vec<u32>,
}

/// A board that a side keeps.
pub trait Kept {
    /// One submission. Before it, its slot is set back to what was prepared, so that every call finds
    /// the same board: on a fresh board the slot is vacant again. This costs each side one copy of a
    /// slot. The allowance is handed in anew.
    fn submit(&mut self, submission: &Submission) -> Result<Certificate, Refusal>;
    /// One rank, in the form that the side has for it.
    fn rank(&self);
    /// The same rank, in one form for all sides, to compare it.
    fn ranking(&self) -> Result<Vec<usize>, Refusal>;
}

/// The board of a side by its name.
pub fn board(side: &str, slots: &[Slot]) -> Option<Box<dyn Kept>> {
    match side {
        "judge" => Some(Box::new(Board::of(slots, lent_slot))),
        "reading" => Some(Box::new(Board::of(slots, Slot::clone))),
        "plain" => Some(Box::new(Board::of(slots, plain_slot))),
        _ => None,
    }
}

/// The slots as a side has them, now and as they were prepared.
struct Board<S> {
    slots: Vec<S>,
    prepared: Vec<S>,
}

impl<S: Copy> Board<S> {
    fn of(slots: &[Slot], own: fn(&Slot) -> S) -> Board<S> {
        let prepared: Vec<S> = slots.iter().map(own).collect();
        Board {
            slots: prepared.clone(),
            prepared,
        }
    }

    fn set_back(&mut self, slot: u32) {
        self.slots[slot as usize] = self.prepared[slot as usize];
    }
}

impl Kept for Board<miss_chance::Slot> {
    fn submit(&mut self, submission: &Submission) -> Result<Certificate, Refusal> {
        let &Submission {
            left, team, slot, ..
        } = submission;
        let (model, table) = (&submission.model, &submission.table);
        let mut ledger = miss_chance::Ledger { allowance: left };
        self.set_back(slot);
        judged(miss_chance::submit(
            &mut self.slots,
            &mut ledger,
            team,
            slot,
            model,
            table,
        ))
    }

    fn rank(&self) {
        black_box(&miss_chance::rank(&self.slots));
    }

    fn ranking(&self) -> Result<Vec<usize>, Refusal> {
        let answer = miss_chance::rank(&self.slots);
        let ranking = answer.result().map_err(refused)?;
        Ok(ranking.to_vec())
    }
}

impl Kept for Board<Slot> {
    fn submit(&mut self, submission: &Submission) -> Result<Certificate, Refusal> {
        let &Submission {
            mut left,
            team,
            slot,
            ..
        } = submission;
        let (model, table) = (&submission.model, &submission.table);
        self.set_back(slot);
        reading::submit(&mut self.slots, &mut left, team, slot, model, table)
    }

    fn rank(&self) {
        black_box(&reading::rank(&self.slots));
    }

    fn ranking(&self) -> Result<Vec<usize>, Refusal> {
        reading::rank(&self.slots)
    }
}

impl Kept for Board<plain::Slot> {
    fn submit(&mut self, submission: &Submission) -> Result<Certificate, Refusal> {
        let &Submission {
            left, team, slot, ..
        } = submission;
        let (model, table) = (&submission.model, &submission.table);
        self.set_back(slot);
        let (answer, _) = plain::submit(&mut self.slots, left, (team, slot), model, table);
        plainly_judged(answer)
    }

    fn rank(&self) {
        black_box(&plain::rank(&self.slots));
    }

    fn ranking(&self) -> Result<Vec<usize>, Refusal> {
        let order = plain::rank(&self.slots).map_err(plainly_refused)?;
        Ok(order.to_vec())
    }
}
