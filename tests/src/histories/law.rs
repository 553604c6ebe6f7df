//! What document 02, card 3, says of boards.
//!
//! `Law` is about a whole history and goes by the list of submissions and answers alone: what a slot
//! shows is looked up among the accepted ones, and what is left is counted from the answers. `step` says
//! what one submission changes, `rank` in which order the held slots are.

use super::board::{written, Answer, Board, Submission};
use super::fractions::compare;
use crate::comparer::Fault;
use crate::reading::{Refusal, Slot};

/// The submissions so far, with their answers.
pub struct Law<'a> {
    start: &'a Board,
    past: Vec<(&'a Submission, Answer)>,
}

impl<'a> Law<'a> {
    pub fn new(start: &'a Board) -> Law<'a> {
        Law {
            start,
            past: Vec::new(),
        }
    }

    /// The answer to the next submission, where the start is a fresh board.
    fn expected(&self, next: &Submission) -> Answer {
        let refused = |number| Err(Refusal { number, place: 0 });
        if next.team > 7 || next.slot > 15 {
            return refused(54);
        }
        if self.judged() == 100 {
            return refused(55);
        }
        match self.last_accepted(next.slot) {
            Some(shown) if shown.team != next.team => refused(56),
            _ => next.judged,
        }
    }

    /// Takes the next submission and its answer, which must be the expected one where the start is a
    /// fresh board.
    pub fn add(&mut self, next: &'a Submission, answer: Answer) -> Result<(), Fault> {
        if self.start.is_fresh() {
            let due = self.expected(next);
            demand(answer == due, || {
                format!("by the answers so far {due:?} is due, not {answer:?}")
            })?;
        }
        self.past.push((next, answer));
        Ok(())
    }

    /// From a fresh board the rank is never refused.
    pub fn ranks(&self, answer: &Result<Vec<usize>, Refusal>) -> Result<(), Fault> {
        demand(answer.is_ok() || !self.start.is_fresh(), || {
            format!("from a fresh board a rank is due, not {answer:?}")
        })
    }

    /// How many submissions got as far as the judge.
    fn judged(&self) -> usize {
        let judged = |(_, answer): &&(_, Answer)| from_judge(answer);
        self.past.iter().filter(judged).count()
    }

    /// The slot as its last accepted submission leaves it.
    fn last_accepted(&self, number: u32) -> Option<Slot> {
        let mut latest_first = self.past.iter().rev();
        latest_first.find_map(|(submission, answer)| match answer {
            Ok(given) if submission.slot == number => Some(Slot {
                held: true,
                team: submission.team,
                b: given.b,
                whole: given.whole,
            }),
            _ => None,
        })
    }

    /// After all submissions each slot shows its last accepted one, and without one it is as it was;
    /// each answer of the judge has spent one.
    pub fn shown(&self, end: &Board) -> Result<(), Fault> {
        let shown = |number| self.last_accepted(number as u32);
        let slots = self.start.slots.iter().enumerate();
        let slots = slots.map(|(number, first)| shown(number).unwrap_or(*first));
        let due = Board {
            slots: slots.collect(),
            allowance: self.start.allowance.wrapping_sub(self.judged() as u32),
        };
        demand(*end == due, || {
            format!("by the accepted submissions the board is\n{due:?}, not\n{end:?}")
        })
    }
}

/// Whether the judge gave it: 54 to 56 are the board's own.
fn from_judge(answer: &Answer) -> bool {
    match answer {
        Ok(_) => true,
        Err(refusal) => !(54..=56).contains(&refusal.number),
    }
}

/// What one submission changes, whatever board was handed in: an answer of the judge spends one, an
/// acceptance writes the named slot, and there is nothing else.
pub fn step(
    before: &Board,
    submission: &Submission,
    answer: &Answer,
    after: &Board,
) -> Result<(), Fault> {
    let mut due = before.clone();
    if from_judge(answer) {
        demand(*answer == submission.judged && due.allowance > 0, || {
            format!("{answer:?} is not the judge's answer, or nothing was left")
        })?;
        due.allowance -= 1;
    }
    if let (Ok(given), Some(slot)) = (answer, due.slots.get_mut(submission.slot as usize)) {
        *slot = Slot {
            held: true,
            team: submission.team,
            b: given.b,
            whole: given.whole,
        };
    }
    demand(*after == due, || {
        format!("after {answer:?} the board is due as\n{due:?}, not\n{after:?}")
    })
}

/// The held slots by an exact comparison without products; where the slots are refused, by 54 alone.
pub fn rank(slots: &[Slot], answer: &Result<Vec<usize>, Refusal>) -> Result<(), Fault> {
    let fraction = |number: &usize| (slots[*number].b, slots[*number].whole);
    let due = match answer {
        Ok(_) => {
            let no_fraction = slots.iter().any(|slot| slot.held && slot.whole == 0);
            demand(!no_fraction, || {
                format!("ranked with a V of 0: {}", written(slots))
            })?;
            let mut order: Vec<usize> = (0..slots.len()).filter(|&at| slots[at].held).collect();
            order.sort_by(|one, other| {
                compare(fraction(one), fraction(other)).then_with(|| one.cmp(other))
            });
            Ok(order)
        }
        Err(_) => Err(Refusal {
            number: 54,
            place: 0,
        }),
    };
    demand(*answer == due, || {
        let slots = written(slots);
        format!("the rank is due as {due:?}, not {answer:?}\n{slots}")
    })
}

/// A fault, if this is not met.
pub fn demand(met: bool, fault: impl Fn() -> String) -> Result<(), Fault> {
    if met {
        Ok(())
    } else {
        Err(Fault(fault()))
    }
}
