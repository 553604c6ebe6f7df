//! A board in its caller's hands, and a submission to it.

use std::fmt;

use crate::reading::{judge, Certificate, Refusal, Slot};
use crate::sides::Side;
use crate::spell;

/// What a submission is answered with.
pub type Answer = Result<Certificate, Refusal>;

/// Slots, as many as are lent, and what is left of the allowance.
#[derive(Clone, PartialEq, Eq)]
pub struct Board {
    pub slots: Vec<Slot>,
    pub allowance: u32,
}

impl Board {
    /// 16 vacant slots and an allowance of 100.
    pub fn fresh() -> Board {
        Board {
            slots: vec![Slot::VACANT; 16],
            allowance: 100,
        }
    }

    /// As on a fresh board, whatever the vacant slots hold besides.
    pub fn is_fresh(&self) -> bool {
        self.slots.len() == 16 && self.held() == 0 && self.allowance == 100
    }

    /// How many slots are held.
    pub fn held(&self) -> usize {
        self.slots.iter().filter(|slot| slot.held).count()
    }

    /// The slot of this number, if a team holds it.
    pub fn holder(&self, number: u32) -> Option<&Slot> {
        let slot = self.slots.get(number as usize);
        slot.filter(|slot| slot.held)
    }
}

/// What is left, and the slots.
impl fmt::Debug for Board {
    fn fmt(&self, out: &mut fmt::Formatter<'_>) -> fmt::Result {
        write!(out, "{} left, {}", self.allowance, written(&self.slots))
    }
}

/// Team, b and V of each slot, those of vacant ones in brackets.
pub fn written(slots: &[Slot]) -> String {
    let one = |slot: &Slot| match *slot {
        Slot::VACANT => "[]".to_string(),
        Slot { team, b, whole, .. } if slot.held => format!("{team} {b}/{whole}"),
        Slot { team, b, whole, .. } => format!("[{team} {b}/{whole}]"),
    };
    let slots: Vec<String> = slots.iter().map(one).collect();
    format!("{} slots: {}", slots.len(), slots.join(", "))
}

/// Team, slot, model and table.
#[derive(Clone)]
pub struct Submission {
    pub team: u32,
    pub slot: u32,
    pub model: Vec<u32>,
    pub table: Vec<u32>,
    /// What the reading's judge says of the two.
    pub judged: Answer,
}

impl Submission {
    pub fn new(team: u32, slot: u32, model: Vec<u32>, table: Vec<u32>) -> Submission {
        let judged = judge(&model, &table);
        Submission {
            team,
            slot,
            model,
            table,
            judged,
        }
    }

    /// Asks one side: its answer, and the board as that side leaves it.
    pub fn ask(&self, side: &dyn Side, board: &Board) -> (Answer, Board) {
        let Board {
            mut slots,
            mut allowance,
        } = board.clone();
        let answer = side.submit(
            &mut slots,
            &mut allowance,
            self.team,
            self.slot,
            &self.model,
            &self.table,
        );
        (answer, Board { slots, allowance })
    }
}

impl fmt::Display for Submission {
    fn fmt(&self, out: &mut fmt::Formatter<'_>) -> fmt::Result {
        let (model, table) = (spell::hex(&self.model), spell::hex(&self.table));
        writeln!(out, "team {}, slot {}", self.team, self.slot)?;
        write!(out, "model: {model}\ntable: {table}")
    }
}

/// A board to begin with, and the submissions in their order.
pub struct History {
    pub start: Board,
    pub submissions: Vec<Submission>,
}
