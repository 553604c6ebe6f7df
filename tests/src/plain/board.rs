//! The board of document 02, card 3: refusals 54 to 56, and the held slots in rank.

use super::few::Few;
use super::{demand, judge, Certificate, Refusal};

const SLOTS: usize = 16;
const MOST_LEFT: u32 = 100;

#[derive(Clone, Copy)]
pub struct Slot {
    pub held: bool,
    pub team: u32,
    /// Of `whole`.
    pub value: u32,
    pub whole: u32,
}

impl Slot {
    /// V from 1 to 28 ones: less 1 it is below 28 ones, and 0 less 1 is not.
    fn is_good(&self) -> bool {
        let good =
            self.team < 8 && self.value <= self.whole && self.whole.wrapping_sub(1) < 0x0FFF_FFFF;
        good || !self.held
    }

    fn is_below(&self, other: &Slot) -> bool {
        u64::from(self.value) * u64::from(other.whole)
            < u64::from(other.value) * u64::from(self.whole)
    }
}

/// A submission, with what is left of the allowance before it; hands back what is left then.
pub fn submit(
    slots: &mut [Slot],
    left: u32,
    (team, number): (u32, u32),
    model: &[u32],
    table: &[u32],
) -> (Result<Certificate, Refusal>, u32) {
    if let Err(refusal) = may_ask(slots, left, team, number) {
        return (Err(refusal), left);
    }
    let judged = judge(model, table);
    if let Ok(accepted) = &judged {
        slots[number as usize] = Slot {
            held: true,
            team,
            value: accepted.value,
            whole: accepted.whole,
        };
    }
    (judged, left - 1)
}

/// Whether the judge may be asked: the board and the request have good numbers, something is left,
/// and no other team is there.
fn may_ask(slots: &[Slot], left: u32, team: u32, number: u32) -> Result<(), Refusal> {
    let good = left <= MOST_LEFT && team < 8 && (number as usize) < SLOTS;
    demand(good && are_good(slots), 54, 0)?;
    demand(left != 0, 55, 0)?;
    let there = &slots[number as usize];
    demand(there.team == team || !there.held, 56, 0)
}

fn are_good(slots: &[Slot]) -> bool {
    slots.len() == SLOTS && slots.iter().all(Slot::is_good)
}

/// By insertion. Slots come by number, and one goes ahead of those that it is below, so equal ones
/// stay by number.
pub fn rank(slots: &[Slot]) -> Result<Few<usize, SLOTS>, Refusal> {
    demand(are_good(slots), 54, 0)?;
    let mut order = Few::new();
    for (number, slot) in slots.iter().enumerate() {
        if !slot.held {
            continue;
        }
        order.push(number);
        let mut at = order.len() - 1;
        while at > 0 && slot.is_below(&slots[order[at - 1]]) {
            order.swap(at, at - 1);
            at -= 1;
        }
    }
    Ok(order)
}
