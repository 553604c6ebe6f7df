//! The two questions about clock zones.
//!
//! Reads "Asking whether a zone is empty" and "Asking whether one zone lies inside another" in "The
//! four calls and their refusals" of document 01: refusals 31 to 33.

use super::words::{self, Bound, BOUND, MAX_CLOCKS};
use super::zones::Zone;
use super::Refusal;

/// Whether no valuation at any scale meets the bounds.
pub fn zone_empty(clocks: u32, words: &[u32]) -> Result<bool, Refusal> {
    let clocks = good_clocks(clocks)?;
    let bounds = good_bounds(clocks, words, 32)?;
    Ok(Zone::of(clocks, &bounds).is_empty())
}

/// Whether, at every scale, each valuation of the first zone is in the second.
pub fn zone_inside(clocks: u32, first: &[u32], second: &[u32]) -> Result<bool, Refusal> {
    let clocks = good_clocks(clocks)?;
    let first = good_bounds(clocks, first, 32)?;
    let second = good_bounds(clocks, second, 33)?;
    Ok(Zone::of(clocks, &first).inside(&Zone::of(clocks, &second)))
}

fn good_clocks(clocks: u32) -> Result<usize, Refusal> {
    let good = usize::try_from(clocks)
        .ok()
        .filter(|clocks| (1..=MAX_CLOCKS).contains(clocks));
    good.ok_or(Refusal {
        number: 31,
        place: 0,
    })
}

/// The bounds of a list, or a refusal of this number at the first word that is no good bound.
fn good_bounds(clocks: usize, words: &[u32], number: u32) -> Result<Vec<Bound>, Refusal> {
    let read = |(place, &word)| {
        let bound = if words::kind(word) == BOUND {
            words::bound(word, clocks)
        } else {
            None
        };
        bound.ok_or(Refusal { number, place })
    };
    words.iter().enumerate().map(read).collect()
}
