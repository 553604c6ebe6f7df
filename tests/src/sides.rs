//! The sides that are compared: the judge under test, the independent reading and the plain judge.

use std::io::{ErrorKind, Write};
use std::path::{Path, PathBuf};
use std::process::{ChildStdin, Command, Stdio};
use std::thread::sleep;
use std::time::Duration;

use crate::drafting::LONGEST;
use crate::plain;
use crate::reading::{self, Certificate, Counts, Refusal, Slot};
use crate::spell;

/// The four calls and the program, with the answers of document 01, the two calls of document 02,
/// card 3, and the one of its card 5 with the program around it.
pub trait Side {
    fn judge(&self, model: &[u32], table: &[u32]) -> Result<Certificate, Refusal>;
    fn read_model(&self, words: &[u32]) -> Result<Counts, Refusal>;
    fn zone_empty(&self, clocks: u32, words: &[u32]) -> Result<bool, Refusal>;
    fn zone_inside(&self, clocks: u32, first: &[u32], second: &[u32]) -> Result<bool, Refusal>;
    /// What is printed for these bytes on standard input.
    fn program(&self, bytes: &[u8]) -> String;
    /// Submits a table for a slot of the board (document 02, card 3).
    fn submit(
        &self,
        slots: &mut [Slot],
        allowance: &mut u32,
        team: u32,
        slot: u32,
        model: &[u32],
        table: &[u32],
    ) -> Result<Certificate, Refusal>;
    /// The held slots in rank.
    fn rank(&self, slots: &[Slot]) -> Result<Vec<usize>, Refusal>;
    /// Drafts a table into the first of the lent words (document 02, card 5); hands back how many
    /// they are.
    fn draft(&self, model: &[u32], rounds: u64, lent: &mut [u32]) -> Result<usize, Refusal>;
    /// What the program that drafts prints for the rounds as a word and a model behind it. A side that has
    /// no such program prints its own draft.
    fn drafter(&self, rounds: u32, model: &[u32]) -> String {
        let mut lent = vec![0; LONGEST];
        let length = self.draft(model, rounds.into(), &mut lent);
        drafter_lines(&length.map(|length| lent[..length].to_vec()))
    }
}

/// The lines of the program that drafts: the words of the table, one to a line, or a refusal.
pub fn drafter_lines(answer: &Result<Vec<u32>, Refusal>) -> String {
    match answer {
        Ok(table) => table.iter().map(|word| format!("{word:08X}\n")).collect(),
        Err(Refusal { number, place }) => format!("REFUSED {number} {place}\n"),
    }
}

/// The independent reading.
pub struct Reading;

impl Side for Reading {
    fn judge(&self, model: &[u32], table: &[u32]) -> Result<Certificate, Refusal> {
        reading::judge(model, table)
    }

    fn read_model(&self, words: &[u32]) -> Result<Counts, Refusal> {
        reading::read_model(words)
    }

    fn zone_empty(&self, clocks: u32, words: &[u32]) -> Result<bool, Refusal> {
        reading::zone_empty(clocks, words)
    }

    fn zone_inside(&self, clocks: u32, first: &[u32], second: &[u32]) -> Result<bool, Refusal> {
        reading::zone_inside(clocks, first, second)
    }

    fn program(&self, bytes: &[u8]) -> String {
        reading::program(bytes)
    }

    fn submit(
        &self,
        slots: &mut [Slot],
        allowance: &mut u32,
        team: u32,
        slot: u32,
        model: &[u32],
        table: &[u32],
    ) -> Result<Certificate, Refusal> {
        reading::submit(slots, allowance, team, slot, model, table)
    }

    fn rank(&self, slots: &[Slot]) -> Result<Vec<usize>, Refusal> {
        reading::rank(slots)
    }

    fn draft(&self, model: &[u32], rounds: u64, lent: &mut [u32]) -> Result<usize, Refusal> {
        reading::draft(model, rounds, lent)
    }
}

/// The plain judge.
pub struct Plain;

impl Side for Plain {
    fn judge(&self, model: &[u32], table: &[u32]) -> Result<Certificate, Refusal> {
        plainly_judged(plain::judge(model, table))
    }

    fn read_model(&self, words: &[u32]) -> Result<Counts, Refusal> {
        let accepted = plain::read_model(words).map_err(plainly_refused)?;
        Ok(Counts {
            locations: accepted.locations,
            actions: accepted.actions,
            edges: accepted.edges,
        })
    }

    fn zone_empty(&self, clocks: u32, words: &[u32]) -> Result<bool, Refusal> {
        plain::zone_empty(clocks, words).map_err(plainly_refused)
    }

    fn zone_inside(&self, clocks: u32, first: &[u32], second: &[u32]) -> Result<bool, Refusal> {
        plain::zone_inside(clocks, first, second).map_err(plainly_refused)
    }

    fn program(&self, bytes: &[u8]) -> String {
        plain::program(bytes)
    }

    fn submit(
        &self,
        slots: &mut [Slot],
        allowance: &mut u32,
        team: u32,
        slot: u32,
        model: &[u32],
        table: &[u32],
    ) -> Result<Certificate, Refusal> {
        let mut board: Vec<plain::Slot> = slots.iter().map(plain_slot).collect();
        let (answer, left) = plain::submit(&mut board, *allowance, (team, slot), model, table);
        *allowance = left;
        for (slot, plain) in slots.iter_mut().zip(&board) {
            *slot = Slot {
                held: plain.held,
                team: plain.team,
                b: plain.value,
                whole: plain.whole,
            };
        }
        plainly_judged(answer)
    }

    fn rank(&self, slots: &[Slot]) -> Result<Vec<usize>, Refusal> {
        let board: Vec<plain::Slot> = slots.iter().map(plain_slot).collect();
        let order = plain::rank(&board).map_err(plainly_refused)?;
        Ok(order.to_vec())
    }

    fn draft(&self, model: &[u32], rounds: u64, lent: &mut [u32]) -> Result<usize, Refusal> {
        plain::draft(model, rounds, lent).map_err(plainly_refused)
    }
}

/// A slot as the plain judge has it.
pub fn plain_slot(slot: &Slot) -> plain::Slot {
    plain::Slot {
        held: slot.held,
        team: slot.team,
        value: slot.b,
        whole: slot.whole,
    }
}

pub fn plainly_judged(
    answer: Result<plain::Certificate, plain::Refusal>,
) -> Result<Certificate, Refusal> {
    let accepted = answer.map_err(plainly_refused)?;
    Ok(Certificate {
        b: accepted.value,
        whole: accepted.whole,
        nodes: accepted.nodes,
    })
}

pub fn plainly_refused(plain::Refusal { number, place }: plain::Refusal) -> Refusal {
    Refusal { number, place }
}

/// The verified judge: its calls from the crate `miss_chance`, its programs from files.
pub struct UnderTest {
    pub program: PathBuf,
    /// The program that drafts.
    pub drafter: PathBuf,
}

impl UnderTest {
    /// With the programs that are built.
    pub fn built() -> UnderTest {
        let programs = Path::new(env!("CARGO_MANIFEST_DIR")).join("../target/bin");
        UnderTest {
            program: programs.join("judge_cli"),
            drafter: programs.join("draft_cli"),
        }
    }
}

/// What a program prints for these bytes on standard input.
fn printed(program: &Path, bytes: &[u8]) -> String {
    let run = || -> std::io::Result<String> {
        let mut command = Command::new(program);
        let mut child = command
            .stdin(Stdio::piped())
            .stdout(Stdio::piped())
            .spawn()?;
        let input = child.stdin.take();
        let written = input.map_or(Ok(()), |input| write_in_parts(input, bytes));
        let output = child.wait_with_output()?;
        written?;
        match output.status.success() {
            true => Ok(String::from_utf8_lossy(&output.stdout).into_owned()),
            false => Ok(format!("(failed: {})", output.status)),
        }
    };
    run().unwrap_or_else(|error| format!("(not run: {error})"))
}

impl Side for UnderTest {
    fn judge(&self, model: &[u32], table: &[u32]) -> Result<Certificate, Refusal> {
        judged(miss_chance::judge(model, table))
    }

    fn read_model(&self, words: &[u32]) -> Result<Counts, Refusal> {
        let accepted = miss_chance::read_model(words).result().map_err(refused)?;
        Ok(Counts {
            locations: accepted.locations,
            actions: accepted.actions,
            edges: accepted.edges,
        })
    }

    fn zone_empty(&self, clocks: u32, words: &[u32]) -> Result<bool, Refusal> {
        let answer = miss_chance::zone_empty(clocks, words);
        answer.result().map_err(refused)
    }

    fn zone_inside(&self, clocks: u32, first: &[u32], second: &[u32]) -> Result<bool, Refusal> {
        let answer = miss_chance::zone_inside(clocks, first, second);
        answer.result().map_err(refused)
    }

    fn program(&self, bytes: &[u8]) -> String {
        printed(&self.program, bytes)
    }

    fn submit(
        &self,
        slots: &mut [Slot],
        allowance: &mut u32,
        team: u32,
        slot: u32,
        model: &[u32],
        table: &[u32],
    ) -> Result<Certificate, Refusal> {
        let mut room = between_neighbours(slots);
        let lent = 1..room.len() - 1;
        let mut ledger = miss_chance::Ledger {
            allowance: *allowance,
        };
        let board = &mut room[lent.clone()];
        let answer = miss_chance::submit(board, &mut ledger, team, slot, model, table);
        *allowance = ledger.allowance;
        for (slot, lent) in slots.iter_mut().zip(&room[lent]) {
            *slot = Slot {
                held: lent.held,
                team: lent.team,
                b: lent.b,
                whole: lent.whole,
            };
        }
        let neighbours = [room[0], room[room.len() - 1]];
        assert_eq!(neighbours, [NEIGHBOUR; 2], "a slot that was not lent");
        judged(answer)
    }

    fn rank(&self, slots: &[Slot]) -> Result<Vec<usize>, Refusal> {
        let room = between_neighbours(slots);
        let answer = miss_chance::rank(&room[1..room.len() - 1]);
        let ranking = answer.result().map_err(refused)?;
        Ok(ranking.to_vec())
    }

    fn draft(&self, model: &[u32], rounds: u64, lent: &mut [u32]) -> Result<usize, Refusal> {
        let answer = miss_chance::draft_into(model, rounds, lent);
        answer.result().map_err(refused)
    }

    fn drafter(&self, rounds: u32, model: &[u32]) -> String {
        let input = spell::bytes(&[&[rounds], model].concat());
        printed(&self.drafter, &input)
    }
}

/// A slot before the lent ones and one behind them, which no call may write.
const NEIGHBOUR: miss_chance::Slot = miss_chance::Slot {
    held: true,
    team: u32::MAX,
    b: u32::MAX,
    whole: u32::MAX,
};

/// The slots as the package has them, between two neighbours.
fn between_neighbours(slots: &[Slot]) -> Vec<miss_chance::Slot> {
    let mut room = vec![NEIGHBOUR];
    room.extend(slots.iter().map(lent_slot));
    room.push(NEIGHBOUR);
    room
}

/// A slot as the package has it.
pub fn lent_slot(slot: &Slot) -> miss_chance::Slot {
    miss_chance::Slot {
        held: slot.held,
        team: slot.team,
        b: slot.b,
        whole: slot.whole,
    }
}

pub fn judged(verdict: miss_chance::Verdict) -> Result<Certificate, Refusal> {
    let accepted = verdict.result().map_err(refused)?;
    Ok(Certificate {
        b: accepted.b,
        whole: accepted.whole,
        nodes: accepted.nodes,
    })
}

/// Writes long inputs in two parts, as a slow pipe would bring them. The program need not read what
/// is over its limit.
fn write_in_parts(mut input: ChildStdin, bytes: &[u8]) -> std::io::Result<()> {
    let (first, rest) = bytes.split_at(bytes.len() / 2);
    let mut write = || {
        input.write_all(first)?;
        if bytes.len() > 1000 {
            sleep(Duration::from_millis(1));
        }
        input.write_all(rest)
    };
    match write() {
        Err(error) if error.kind() == ErrorKind::BrokenPipe => Ok(()),
        other => other,
    }
}

/// A refusal in the documents' numbers.
pub fn refused(refusal: miss_chance::Refusal) -> Refusal {
    Refusal {
        number: refusal.reason.number(),
        place: refusal.place,
    }
}
