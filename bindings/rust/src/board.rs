//! A board that a priority engine keeps: only submissions change it.

use crate::{rank, submit, Ledger, Ranking, Reason, Refusal, Slot, Verdict, SLOTS};

/// The 16 slots and the ledger of a priority engine, so that its fractions come from the judge
/// alone: the only way to change a board is [`submit`](Board::submit). A slot shows the last
/// accepted submission for it, or is vacant without one.
///
/// It is plain data and may go from thread to thread. There is no `Copy`: two boards made of one
/// would each spend the whole allowance, and so a copy has to be asked for, by `clone`.
///
/// ```
/// use miss_chance::{Board, Reason};
///
/// let model = [
///     0x1110000A, 0x20000000, 0x51001003, 0x30000000, 0x50100FFE, 0x40010009, 0x40020001,
///     0x20000000, 0x20000001, 0x60000000, 0x51001000,
/// ];
/// let table = [
///     0x7000000A, 0x80000000, 0x51001000, 0x90000001, 0xB0000001, 0xB0000002, 0x81000000,
///     0x90000000, 0x82000000, 0x9000000A, 0xC0000000,
/// ];
/// let mut looser = table;
/// looser[3] = 0x90000002; // claims 2 in 10, where 1 in 10 would do
///
/// let mut board = Board::new();
/// board.submit(3, 4, &model, &looser).result()?; // team 3, slot 4
/// board.submit(5, 9, &model, &table).result()?; // team 5, slot 9
/// assert_eq!(board.rank()[..], [9, 4]); // 1/10 comes before 2/10
///
/// let front = board.slots()[board.rank()[0]];
/// assert_eq!((front.team, front.b, front.whole), (5, 1, 10));
///
/// let refusal = board.submit(3, 9, &model, &table).refusal();
/// assert_eq!(refusal.map(|refusal| refusal.reason), Some(Reason::SlotHeldByOther));
/// assert_eq!(board.ledger().allowance, 98); // 56 comes before the judge and spends nothing
/// # Ok::<(), miss_chance::Refusal>(())
/// ```
#[derive(Clone, Debug, PartialEq, Eq)]
pub struct Board {
    slots: [Slot; SLOTS],
    ledger: Ledger,
}

impl Board {
    /// A fresh board: every slot vacant, and all of the allowance left.
    #[must_use]
    pub fn new() -> Board {
        Board {
            slots: [Slot::VACANT; SLOTS],
            ledger: Ledger::FRESH,
        }
    }

    /// A board as it was, from what [`slots`](Board::slots) and [`ledger`](Board::ledger) gave
    /// then. Ranges are all that can be seen in them: that the judge certified the fractions, and
    /// that no more is left than was, rests on where they were kept.
    ///
    /// # Errors
    ///
    /// 54 where a held slot has a team above 7 or a fraction that no table could give, or the
    /// allowance is above a fresh board's.
    pub fn restore(slots: [Slot; SLOTS], ledger: Ledger) -> Result<Board, Refusal> {
        let board = Board { slots, ledger };
        // The ranges stand in the library and are not said again here. It is asked by a submission
        // without words, on a copy: 54 comes first of all, so any other refusal means that the
        // board is in range.
        match board.clone().submit(0, 0, &[], &[]) {
            Verdict::Refused(refusal) if refusal.reason == Reason::BoardOutOfRange => Err(refusal),
            _ => Ok(board),
        }
    }

    /// Submits a team's table for a slot. An acceptance is written to the slot and is the team's
    /// from then on; the team may write over it, also with a larger fraction.
    ///
    /// # Errors
    ///
    /// Before the judge, with nothing spent or written: 54 where the team is above 7 or the slot
    /// above 15, then 55 where the allowance is spent, then 56 where another team holds the slot.
    /// Then those of [`judge`](crate::judge), the model's included: one submission of the allowance
    /// is spent, as for an acceptance, and no slot is written.
    pub fn submit(&mut self, team: u32, slot: u32, model: &[u32], table: &[u32]) -> Verdict {
        submit(&mut self.slots, &mut self.ledger, team, slot, model, table)
    }

    /// The numbers of the held slots in rank: the smaller fraction first, of equal ones the lower
    /// slot number. It has no errors, since a board's slots are in range.
    #[must_use]
    pub fn rank(&self) -> Ranking {
        match rank(&self.slots).result() {
            Ok(ranking) => ranking,
            Err(refusal) => {
                panic!("broken link: libmiss_chance.a says of its own board: {refusal}")
            }
        }
    }

    /// The slots as they are.
    #[must_use]
    pub fn slots(&self) -> &[Slot; SLOTS] {
        &self.slots
    }

    /// The ledger as it is.
    #[must_use]
    pub fn ledger(&self) -> Ledger {
        self.ledger
    }
}

impl Default for Board {
    /// A fresh board.
    fn default() -> Board {
        Board::new()
    }
}
