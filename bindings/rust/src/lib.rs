//! The miss-chance judge: seven calls, as document 01 ("The miss-chance judge: timelines, tables and
//! the bound they certify") and document 02, the change requests to it, define them. Five are over
//! lists of 32-bit words, of which docs/FORMAT.md of the repository says what they are: [`judge`],
//! [`draft`], [`read_model`], [`zone_empty`] and [`zone_inside`]. Two are over a board of slots that
//! takes its fractions from the judge alone: [`submit`] and [`rank`], which [`Board`] puts together.
//! The work is done by a verified library; this crate lends it slices and turns its answers into
//! enums.
//!
//! Document 01's worked timeline and its table:
//!
//! ```
//! use std::error::Error;
//! use miss_chance::{judge, Reason, Refusal, Verdict};
//!
//! fn main() -> Result<(), Box<dyn Error>> {
//!     let model = [
//!         0x1110000A, 0x20000000, 0x51001003, 0x30000000, 0x50100FFE, 0x40010009, 0x40020001,
//!         0x20000000, 0x20000001, 0x60000000, 0x51001000,
//!     ];
//!     let mut table = [
//!         0x7000000A, 0x80000000, 0x51001000, 0x90000001, 0xB0000001, 0xB0000002, 0x81000000,
//!         0x90000000, 0x82000000, 0x9000000A, 0xC0000000,
//!     ];
//!     let certificate = judge(&model, &table).result()?; // a refusal is an error
//!     assert_eq!((certificate.b, certificate.whole), (1, 10));
//!
//!     table[3] = 0x90000000; // node 0 now claims 0
//!     let verdict = judge(&model, &table);
//!     assert_eq!(verdict.to_string(), "REFUSED 19 4"); // as the program prints it
//!     match verdict {
//!         Verdict::Accepted(_) => unreachable!(),
//!         Verdict::Refused(Refusal { reason, place }) => {
//!             assert_eq!((reason, place), (Reason::SumTooLarge, 4));
//!             assert_eq!(reason.number(), 19);
//!         }
//!     }
//!     Ok(())
//! }
//! ```
//!
//! Every input has an answer. A word is a number, so words from a file, highest byte first, are put
//! together first (`u32::from_be_bytes`). The calls keep no state but what the caller lends, and
//! may run in several threads at once; only [`draft`] allocates, for the table that it gives, and
//! [`draft_into`] does without. A thread with 256 KiB of stack is enough for each: [`judge`] takes
//! about 16 KiB, [`draft`] 32 KiB, [`submit`] 17 KiB, [`read_model`] 7 KiB, [`rank`] and the two
//! questions 1 KiB, whatever the input.
//!
//! # The library
//!
//! `tools/build.sh miss_chance`, at the root of the judge's repository, proves it and writes
//! `target/staticlib/libmiss_chance.a`, where this package looks for it. If it stands elsewhere,
//! set `MISS_CHANCE_LIB_DIR` to its folder, as an absolute path.
//!
//! # Panics
//!
//! A call panics only if the library linked is not the one that this crate was written for: it then
//! gave an answer that documents 01 and 02 do not have.

#![deny(missing_docs)]
#![deny(unsafe_code)]

mod board;
mod draft;
mod model;
#[cfg(test)]
mod numbers_test;
mod ranking;
#[allow(unsafe_code)]
mod raw;
mod reason;
mod refusal;
mod slots;
mod verdict;
mod words;
mod zone;

pub use board::Board;
pub use draft::{DraftAnswer, DraftLength, DRAFT_WORDS};
pub use model::{Counts, ModelAnswer};
pub use ranking::{RankAnswer, Ranking};
pub use reason::Reason;
pub use refusal::Refusal;
pub use slots::{Ledger, Slot, SLOTS};
pub use verdict::{Certificate, Verdict};
pub use zone::{Emptiness, Inclusion};

/// Judges a table against a model. The model's refusal, if any, comes first.
pub fn judge(model: &[u32], table: &[u32]) -> Verdict {
    Verdict::of_judge(raw::judge(model, table))
}

/// Drafts a table for a model: symbolic states explored forward from the start, with values out of
/// V = 1,000,000 after so many rounds. [`judge`] accepts every draft, after 0 rounds too, when every
/// value is V; more rounds never give a larger fraction, and those above 1,000 count as 1,000.
///
/// ```
/// use miss_chance::{draft, judge};
///
/// let model = [
///     0x1110000A, 0x20000000, 0x51001003, 0x30000000, 0x50100FFE, 0x40010009, 0x40020001,
///     0x20000000, 0x20000001, 0x60000000, 0x51001000,
/// ];
/// let table = draft(&model, 2).result()?;
/// assert_eq!(table.len(), 16);
/// let certificate = judge(&model, &table).result()?;
/// assert_eq!((certificate.b, certificate.whole), (100_000, 1_000_000)); // 1 in 10
/// # Ok::<(), miss_chance::Refusal>(())
/// ```
///
/// # Errors
///
/// Those of [`read_model`] with their place in the model; then, place 0, as soon as a node is found
/// that is not there yet, 58 where it is a 65th and 59 where it would have a bound beyond 4,095
/// either way.
pub fn draft(model: &[u32], rounds: u64) -> DraftAnswer {
    let mut table = vec![0; DRAFT_WORDS];
    match draft_into(model, rounds, &mut table) {
        DraftLength::Drafted(length) => {
            table.truncate(length);
            table.shrink_to_fit();
            DraftAnswer::Drafted(table)
        }
        DraftLength::Refused(refusal) => DraftAnswer::Refused(refusal),
    }
}

/// The same into words that the caller lends; [`DRAFT_WORDS`] are enough for every draft. Those past
/// the end of the draft stay as they are, and where it is refused all of them.
///
/// # Errors
///
/// Those of [`draft`], and behind them 60 where the words are too few.
pub fn draft_into(model: &[u32], rounds: u64, table: &mut [u32]) -> DraftLength {
    DraftLength::from_words(raw::draft(model, rounds, table), table.len())
}

/// Reads a model.
pub fn read_model(model: &[u32]) -> ModelAnswer {
    ModelAnswer::from_words(raw::read_model(model))
}

/// Asks whether a zone, a list of bound words over `clocks` clocks (document 01's C), is empty at
/// every scale.
pub fn zone_empty(clocks: u32, zone: &[u32]) -> Emptiness {
    Emptiness::from_words(raw::zone_empty(clocks, zone))
}

/// Asks whether the first zone lies inside the second at every scale.
pub fn zone_inside(clocks: u32, first: &[u32], second: &[u32]) -> Inclusion {
    Inclusion::from_words(raw::zone_inside(clocks, first, second))
}

/// Submits a team's table for a slot of a board whose slots and ledger the caller keeps; a
/// [`Board`] keeps them by itself. One allowance serves all teams, and each submission that gets to
/// the judge spends one of it. An acceptance is written to the slot, which is the team's from then
/// on; a team may write over its own slot, also with a larger fraction.
///
/// # Errors
///
/// Before the judge, with nothing spent or written, in this order: 54 where `slots` are not 16
/// ([`SLOTS`]), a held one has a team above 7 or a fraction that no table could give (V of 0 or
/// above 268,435,455, b above V), or the allowance is above a fresh ledger's, the team above 7 or
/// the slot above 15; 55 where the allowance is spent; 56 where another team holds the slot. Then
/// those of [`judge`], the model's included: one is spent, as for an acceptance, and no slot is
/// written.
pub fn submit(
    slots: &mut [Slot],
    ledger: &mut Ledger,
    team: u32,
    slot: u32,
    model: &[u32],
    table: &[u32],
) -> Verdict {
    let (words, left) = raw::submit(slots, *ledger, team, slot, model, table);
    *ledger = left;
    Verdict::of_submission(words)
}

/// Gives the numbers of the held slots in rank: the smaller fraction first, of equal ones, 1/2 and
/// 2/4 as well, the lower slot number.
///
/// # Errors
///
/// 54 where `slots` are not 16 ([`SLOTS`]), or a held one has a team above 7 or a fraction that no
/// table could give.
pub fn rank(slots: &[Slot]) -> RankAnswer {
    RankAnswer::from_ranked(&raw::rank(slots))
}
