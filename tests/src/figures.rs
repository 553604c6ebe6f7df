//! The judge beside its two baselines, the reading and the plain judge, on the same inputs: how long a
//! call takes.

use std::hint::black_box;
use std::time::{Duration, Instant};

use crate::kept::{self, Kept};
use crate::shapes::{Answer, Input, Shape};
use crate::sides::{Plain, Reading, Side, UnderTest};

/// The sides, in the order of the columns.
pub const SIDES: [&str; 3] = ["judge", "reading", "plain"];

/// A side that is measured, the board that it keeps and the words that it lends.
pub struct Measured {
    side: Box<dyn Side>,
    board: Box<dyn Kept>,
    lent: Vec<u32>,
}

impl Measured {
    /// One call. Inlined, since what stands around a call is counted with it.
    #[inline]
    fn ask(&mut self, input: &Input) -> Answer {
        input.ask(&*self.side, &mut *self.board, &mut self.lent)
    }
}

/// A side by its name, its board with the slots of this input.
pub fn side(name: &str, input: &Input) -> Option<Measured> {
    let side: Box<dyn Side> = match name {
        "judge" => Box::new(UnderTest::built()),
        "reading" => Box::new(Reading),
        "plain" => Box::new(Plain),
        _ => return None,
    };
    let board = kept::board(name, &input.slots())?;
    let lent = input.lent();
    Some(Measured { side, board, lent })
}

/// All sides, in the order of `SIDES`.
fn sides(input: &Input) -> Vec<Measured> {
    let named = |name: &&str| side(name, input);
    SIDES.iter().filter_map(named).collect()
}

/// Nanoseconds for one call: the least and the middle of some rounds.
pub struct Time {
    pub least: f64,
    pub middle: f64,
}

/// How long a line takes on each side.
pub fn times(shape: &Shape, rounds: usize) -> Vec<Time> {
    let input = shape.input();
    let mut sides = sides(&input);
    agree(shape, &input, &mut sides);
    let repeats: Vec<u32> = sides.iter_mut().map(|side| repeats(&input, side)).collect();
    let mut times = vec![Vec::new(); sides.len()];
    // The sides take turns, so that what else the machine does falls on all.
    for _ in 0..rounds {
        for (number, side) in sides.iter_mut().enumerate() {
            let time = time(&input, side, repeats[number]);
            times[number].push(time.as_nanos() as f64 / f64::from(repeats[number]));
        }
    }
    times.into_iter().map(Time::of).collect()
}

impl Time {
    fn of(mut rounds: Vec<f64>) -> Time {
        rounds.sort_by(f64::total_cmp);
        Time {
            least: rounds[0],
            middle: rounds[rounds.len() / 2],
        }
    }
}

/// All sides must accept, with the same answer, the same rank of their boards after it and the same lent
/// words.
fn agree(shape: &Shape, input: &Input, sides: &mut [Measured]) {
    let answers: Vec<_> = sides
        .iter_mut()
        .map(|side| (side.ask(input), side.board.ranking(), &side.lent))
        .collect();
    let same = answers.iter().all(|answer| *answer == answers[0]);
    let (answer, ranking, _) = &answers[0];
    assert!(
        same && !answer.is_refusal() && ranking.is_ok(),
        "{}: {answers:?}",
        shape.name()
    );
}

/// How often a call runs in about 20 milliseconds.
fn repeats(input: &Input, side: &mut Measured) -> u32 {
    let mut repeats = 1;
    while time(input, side, repeats) < Duration::from_millis(20) {
        repeats *= 2;
    }
    repeats
}

/// How long so many calls take.
fn time(input: &Input, side: &mut Measured, calls: u32) -> Duration {
    let begun = Instant::now();
    repeat(input, side, calls);
    begun.elapsed()
}

/// So many calls.
pub fn repeat(input: &Input, measured: &mut Measured, calls: u32) {
    for _ in 0..calls {
        black_box(measured.ask(input));
    }
}

/// The processor's name as the system tells it.
pub fn processor() -> String {
    let told = std::fs::read_to_string("/proc/cpuinfo").unwrap_or_default();
    let named = told.lines().find(|line| line.starts_with("model name"));
    let name = named.and_then(|line| line.split_once(": "));
    name.map_or("an unnamed processor", |(_, name)| name)
        .to_string()
}

#[cfg(test)]
mod tests {
    use super::*;
    use crate::shapes;

    #[test]
    fn all_sides_accept_every_line_alike() {
        for shape in shapes::all() {
            let input = shape.input();
            agree(&shape, &input, &mut sides(&input));
        }
    }

    #[test]
    fn a_full_board_ranks_as_worked_out_by_hand() {
        let order = vec![7, 13, 14, 3, 9, 0, 6, 10, 1, 5, 12, 15, 4, 8, 2, 11];
        for measured in sides(&Shape::Rank { held: true }.input()) {
            assert_eq!(measured.board.ranking(), Ok(order.clone()));
        }
    }

    #[test]
    fn the_allowance_does_not_run_out() {
        for held in [false, true] {
            let input = Shape::Submit { held }.input();
            for mut measured in sides(&input) {
                repeat(&input, &mut measured, 101);
                let answer = measured.ask(&input);
                assert!(!answer.is_refusal(), "{answer:?}");
            }
        }
    }
}
