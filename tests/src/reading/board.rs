//! A board of slots.
//!
//! Reads document 02, card 3: refusals 54 to 56, what a submission spends and writes, and the rank.

use std::cmp::Ordering;

use super::{judge, Certificate, Refusal};

const SLOTS: usize = 16;
const TEAMS: u32 = 8;
/// What is left on a fresh board, so the most that can be left.
const ALLOWANCE: u32 = 100;
/// The largest V that the head of a table has room for.
const MAX_WHOLE: u32 = (1 << 28) - 1;

/// A slot as the caller lends it. Where it is vacant, its other fields mean nothing.
#[derive(Clone, Copy, Debug, PartialEq, Eq)]
pub struct Slot {
    pub held: bool,
    pub team: u32,
    /// With `whole` the certified fraction, as the judge gave it: 2/4 stays 2/4.
    pub b: u32,
    /// V.
    pub whole: u32,
}

impl Slot {
    pub const VACANT: Slot = Slot {
        held: false,
        team: 0,
        b: 0,
        whole: 0,
    };

    /// A table has some V from 1 on, and a value of its start node from 0 to V.
    fn has_fraction_of_a_table(&self) -> bool {
        (1..=MAX_WHOLE).contains(&self.whole) && self.b <= self.whole
    }

    fn in_range(&self) -> bool {
        !self.held || (self.team < TEAMS && self.has_fraction_of_a_table())
    }

    /// By the fractions' values: with both sides multiplied by both V, 1/2 and 2/4 are equal.
    fn compare(&self, other: &Slot) -> Ordering {
        let ours = u64::from(self.b) * u64::from(other.whole);
        let theirs = u64::from(other.b) * u64::from(self.whole);
        ours.cmp(&theirs)
    }
}

/// Submits a table of a team for a slot. `allowance` is what is left of it, for everybody.
///
/// Whatever the judge says, asking it spends one. What is refused before that spends nothing, and
/// only an accepted table is written.
pub fn submit(
    slots: &mut [Slot],
    allowance: &mut u32,
    team: u32,
    slot: u32,
    model: &[u32],
    table: &[u32],
) -> Result<Certificate, Refusal> {
    demand(all_in_range(slots), 54)?;
    demand(*allowance <= ALLOWANCE && team < TEAMS, 54)?;
    let named = slots.get_mut(slot as usize).ok_or(refusal(54))?;
    demand(*allowance > 0, 55)?;
    demand(!named.held || named.team == team, 56)?;
    *allowance -= 1;
    let certificate = judge(model, table)?;
    *named = Slot {
        held: true,
        team,
        b: certificate.b,
        whole: certificate.whole,
    };
    Ok(certificate)
}

/// The numbers of the held slots, smaller fraction first, the lower number first where fractions are
/// equal.
pub fn rank(slots: &[Slot]) -> Result<Vec<usize>, Refusal> {
    demand(all_in_range(slots), 54)?;
    let mut numbers: Vec<usize> = (0..SLOTS).filter(|&number| slots[number].held).collect();
    numbers.sort_by(|&one, &other| slots[one].compare(&slots[other]).then(one.cmp(&other)));
    Ok(numbers)
}

/// What 54 says of the slots: there are 16, and each held one has a team and a fraction in range.
fn all_in_range(slots: &[Slot]) -> bool {
    slots.len() == SLOTS && slots.iter().all(Slot::in_range)
}

/// The board's own refusals are about no word.
fn refusal(number: u32) -> Refusal {
    Refusal { number, place: 0 }
}

fn demand(met: bool, number: u32) -> Result<(), Refusal> {
    if met {
        Ok(())
    } else {
        Err(refusal(number))
    }
}
