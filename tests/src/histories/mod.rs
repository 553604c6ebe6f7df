//! Boards of slots (document 02, card 3): histories of submissions from a fresh board, and boards that
//! are handed in as they are. All sides are compared after every submission, and what they agree on is
//! held against the card's law.

mod board;
mod draw;
mod fractions;
mod handed;
mod law;
mod tally;

pub use board::{written, Answer, Board, History, Submission};
pub use tally::BoardTally;

use crate::comparer::{Comparer, Fault, Same};
use crate::random::Random;
use crate::reading::{Refusal, Slot};
use crate::sides::Side;
use handed::Directed;
use law::{demand, Law};

/// Who is asked: all sides, which must agree, or one alone.
pub trait Asks {
    /// The answer, and the board as it is then.
    fn submit(&mut self, board: &Board, submission: &Submission) -> Result<(Answer, Board), Fault>;
    fn rank(&mut self, slots: &[Slot]) -> Same<Vec<usize>>;
}

/// One side, without any comparison.
struct Alone<'a>(&'a dyn Side);

impl Asks for Alone<'_> {
    fn submit(&mut self, board: &Board, submission: &Submission) -> Result<(Answer, Board), Fault> {
        Ok(submission.ask(self.0, board))
    }

    fn rank(&mut self, slots: &[Slot]) -> Same<Vec<usize>> {
        Ok(self.0.rank(slots))
    }
}

/// How many of each are drawn.
#[derive(Clone, Copy)]
pub struct Counts {
    pub histories: usize,
    pub handed_in: usize,
}

/// Compares the directed boards and what is drawn.
pub fn compare(comparer: &mut Comparer, random: &mut Random, counts: Counts) -> Result<(), Fault> {
    for case in handed::directed() {
        hold_directed(comparer, &case)?;
        comparer.tally.boards.handed_in += 1;
    }
    for _ in 0..counts.histories {
        let end = run(comparer, &draw::history(random))?;
        let boards = &mut comparer.tally.boards;
        boards.histories += 1;
        boards.spent += usize::from(end.allowance == 0);
        boards.filled += usize::from(end.held() == 16);
    }
    for _ in 0..counts.handed_in {
        run(comparer, &handed::drawn(random))?;
        comparer.tally.boards.handed_in += 1;
    }
    Ok(())
}

/// Holds one side against the law, without any comparison: the directed boards, then at most so many
/// histories. How many of them passed before one was objected to, if one was.
pub fn objected(side: &dyn Side, random: &mut Random, most: usize) -> Option<usize> {
    let directed = handed::directed();
    let refuted = |case: &Directed| hold_directed(&mut Alone(side), case).is_err();
    if let Some(before) = directed.iter().position(refuted) {
        return Some(before);
    }
    let refuted = |_: &usize| run(&mut Alone(side), &draw::history(random)).is_err();
    let before = (0..most).find(refuted)?;
    Some(directed.len() + before)
}

/// Submits a history, one submission after the other, with the rank after each; hands back the board at
/// the end.
fn run(asks: &mut dyn Asks, history: &History) -> Result<Board, Fault> {
    let mut board = history.start.clone();
    let mut law = Law::new(&history.start);
    for submission in &history.submissions {
        let (answer, after) = asks.submit(&board, submission)?;
        let lawful = law::step(&board, submission, &answer, &after);
        let lawful = lawful.and_then(|()| law.add(submission, answer));
        lawful.map_err(|fault| Fault(format!("{fault}\n{board:?}\n{submission}")))?;
        let order = asks.rank(&after.slots)?;
        law::rank(&after.slots, &order)?;
        law.ranks(&order)?;
        board = after;
    }
    law.shown(&board)?;
    Ok(board)
}

/// The answer must be the one that is known.
fn hold_directed(asks: &mut dyn Asks, case: &Directed) -> Result<(), Fault> {
    let Directed {
        board, submission, ..
    } = case;
    let (answer, after) = asks.submit(board, submission)?;
    let refused = |number| Err(Refusal { number, place: 0 });
    let due = case.refusal.map_or(submission.judged, refused);
    demand(answer == due, || {
        format!("{due:?} is due, not {answer:?}\n{board:?}\n{submission}")
    })?;
    law::step(board, submission, &answer, &after)?;
    let order = asks.rank(&board.slots)?;
    demand(order.is_err() == case.slots_refused, || {
        format!("{order:?} for {board:?}")
    })?;
    law::rank(&board.slots, &order)
}
