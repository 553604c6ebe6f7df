//! How many instructions a call needs and how many conditional branches it meets, counted by valgrind's callgrind: unlike
//! times, counts repeat.

use std::process::{Command, Stdio};

use crate::comparer::Fault;
use crate::shapes::{Input, SLOTS};

pub fn has_valgrind() -> bool {
    let version = Command::new("valgrind")
        .arg("--version")
        .stdout(Stdio::null())
        .stderr(Stdio::null())
        .status();
    version.is_ok_and(|status| status.success())
}

/// Has the C library copy by vectors. For long copies it would take one instruction that repeats itself,
/// which callgrind counts once for every byte.
const BY_VECTORS: &str =
    "glibc.cpu.x86_rep_movsb_threshold=0x7fffffff:glibc.cpu.x86_rep_stosb_threshold=0x7fffffff";

/// What callgrind counts: instructions, and conditional branches among them.
pub struct Counts {
    pub instructions: u64,
    pub branches: u64,
}

/// The counts for one call of a side on the line of this number. What a run of the program needs
/// besides, and what first calls need, is in the run with fewer calls as well, and falls out. A rank
/// has no words, and as many calls as if it had one for each slot.
pub fn per_call(line: usize, side: &str, input: &Input) -> Result<Counts, Fault> {
    let calls = 1 + 20_000 / input.work().max(SLOTS as u64);
    let fewer = of_run(line, side, calls)?;
    let more = of_run(line, side, 2 * calls)?;
    Ok(Counts {
        instructions: (more.instructions - fewer.instructions) / calls,
        branches: (more.branches - fewer.branches) / calls,
    })
}

/// The counts of a whole run of this program with so many calls.
fn of_run(line: usize, side: &str, calls: u64) -> Result<Counts, Fault> {
    let fault = |what: &str| Fault(format!("callgrind, line {line}, {side}: {what}"));
    let program = std::env::current_exe().map_err(|error| fault(&error.to_string()))?;
    let output = Command::new("valgrind")
        .args(["--tool=callgrind", "--callgrind-out-file=/dev/null"])
        .arg("--branch-sim=yes")
        .arg(program)
        .args(["--once", &line.to_string(), side, &calls.to_string()])
        .env("GLIBC_TUNABLES", BY_VECTORS)
        .output();
    let output = output.map_err(|error| fault(&error.to_string()))?;
    let said = String::from_utf8_lossy(&output.stderr);
    match output.status.success() {
        true => collected(&said).ok_or_else(|| fault(&said)),
        false => Err(fault(&said)),
    }
}

/// The first two numbers of callgrind's line `Collected : Ir Bc Bcm Bi Bim`.
fn collected(said: &str) -> Option<Counts> {
    let (_, numbers) = said
        .lines()
        .find_map(|line| line.split_once("Collected : "))?;
    let mut numbers = numbers.split_whitespace().map(str::parse);
    Some(Counts {
        instructions: numbers.next()?.ok()?,
        branches: numbers.next()?.ok()?,
    })
}
