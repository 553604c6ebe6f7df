//! How often a comparison of boards met what it should meet.

use std::cmp::Ordering;

use super::board::{Answer, Board, Submission};
use super::fractions::compare;
use crate::reading::Slot;

/// Counted while the boards are compared.
#[derive(Default)]
pub struct BoardTally {
    /// From fresh boards; of these, how many spent the whole allowance and how many held all 16 slots.
    pub histories: usize,
    pub spent: usize,
    pub filled: usize,
    /// Boards that were handed in as they are.
    pub handed_in: usize,
    /// Accepted submissions for a slot of the same team; of these, how many by a larger fraction.
    pub written_over: usize,
    pub by_a_larger: usize,
    /// Refusals of the judge for a slot that the team holds, which stays.
    pub kept: usize,
    /// Submissions for which more than one of 54, 55 and 56 was due.
    pub several_due: usize,
    /// Ranks of 16 slots.
    pub full: usize,
    /// Ranks with two equal fractions, and with two different ones that are equal in 64 bits of
    /// floating point.
    pub ties: usize,
    pub close: usize,
}

impl BoardTally {
    pub fn submission(&mut self, before: &Board, submission: &Submission, answer: &Answer) {
        let holder = before.holder(submission.slot);
        let own = holder.filter(|slot| slot.team == submission.team);
        let number = answer.as_ref().err().map(|refusal| refusal.number);
        let held_by_other = holder.is_some() && own.is_none();
        self.several_due += usize::from(match number {
            Some(54) => held_by_other || before.allowance == 0,
            Some(55) => held_by_other,
            _ => false,
        });
        match (own, answer) {
            (Some(old), Ok(new)) => {
                let larger = compare((new.b, new.whole), (old.b, old.whole)).is_gt();
                self.written_over += 1;
                self.by_a_larger += usize::from(larger);
            }
            (Some(_), Err(refusal)) if !(54..=56).contains(&refusal.number) => self.kept += 1,
            _ => {}
        }
    }

    pub fn rank(&mut self, slots: &[Slot], order: &[usize]) {
        let fraction = |number: usize| (slots[number].b, slots[number].whole);
        let float = |number: usize| f64::from(slots[number].b) / f64::from(slots[number].whole);
        let pairs = || order.windows(2).map(|pair| (pair[0], pair[1]));
        let equal = |&(one, other): &(usize, usize)| {
            compare(fraction(one), fraction(other)) == Ordering::Equal
        };
        let close = |pair: &(usize, usize)| float(pair.0) == float(pair.1) && !equal(pair);
        self.full += usize::from(order.len() == 16);
        self.ties += usize::from(pairs().any(|pair| equal(&pair)));
        self.close += usize::from(pairs().any(|pair| close(&pair)));
    }
}
