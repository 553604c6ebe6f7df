//! Which words a flawed draft writes, and where.

use super::exploring::{Node, Row};
use super::{refusal, DraftFlaw};
use crate::reading::{Bound, Refusal, Zone};
use crate::spell;

/// The word of V.
pub const HEAD: u32 = 0x700F_4240;

/// The bounds of a node as they should be.
pub fn bounds(zone: &Zone) -> Vec<Bound> {
    match zone.is_empty() {
        true => vec![bound(1, 0, -1)],
        false => zone.all_bounds(),
    }
}

fn bound(i: usize, j: usize, d: i32) -> Bound {
    let strict = false;
    Bound { i, j, d, strict }
}

/// The bounds of a node as they are written.
fn flawed_bounds(flaw: DraftFlaw, clocks: usize, zone: &Zone) -> Vec<Bound> {
    let mut bounds = bounds(zone);
    if zone.is_empty() {
        if flaw == DraftFlaw::WritesAnEmptyZoneAsBelow0 {
            (bounds[0].d, bounds[0].strict) = (0, true);
        }
        return bounds;
    }
    let single = |bound: &Bound| bound.i == 0 || bound.j == 0;
    match flaw {
        DraftFlaw::WritesBoundsByTheSecondClock => bounds.sort_by_key(|bound| (bound.j, bound.i)),
        DraftFlaw::LeavesOutLowerBoundsOf0 => bounds.retain(|bound| bound.i > 0 || bound.d < 0),
        DraftFlaw::LeavesOutDiagonals => bounds.retain(single),
        DraftFlaw::WritesBoundsOfAClockWithItself => {
            bounds.extend((1..=clocks).map(|clock| bound(clock, clock, 0)));
            bounds.sort_by_key(|bound| (bound.i, bound.j));
        }
        DraftFlaw::ForgetsTheStrictness => {
            bounds.iter_mut().for_each(|bound| bound.strict = false);
        }
        _ => {}
    }
    bounds
}

/// The table.
pub fn words(flaw: DraftFlaw, clocks: usize, nodes: &[Node], values: &[u32]) -> Vec<u32> {
    let mut words = vec![HEAD];
    for (node, &value) in nodes.iter().zip(values) {
        words.push(spell::node(node.location));
        words.extend(spell::bounds(&flawed_bounds(flaw, clocks, &node.zone)));
        words.push(spell::value(value));
        words.extend(node.rows.iter().flat_map(row_words));
    }
    words.push(spell::start_node(0));
    words
}

fn row_words(row: &Row) -> Vec<u32> {
    match row.is_empty() {
        true => vec![spell::BLOCKED],
        false => row
            .iter()
            .map(|successor| spell::successor(successor.node))
            .collect(),
    }
}

/// Writes the table to the lent words and answers.
pub fn put(
    flaw: DraftFlaw,
    nodes: &[Node],
    table: &[u32],
    lent: &mut [u32],
) -> Result<usize, Refusal> {
    let length = table.len();
    let fits = length.min(lent.len());
    let needed = length + usize::from(flaw == DraftFlaw::NeedsAWordMore);
    if lent.len() < needed {
        let writes = matches!(
            flaw,
            DraftFlaw::WritesWhatFits | DraftFlaw::WritesWhatFitsBefore60
        );
        if writes {
            lent[..fits].copy_from_slice(&table[..fits]);
        }
        return match flaw {
            DraftFlaw::WritesWhatFits => Ok(fits),
            _ => Err(refusal(60)),
        };
    }
    lent[..length].copy_from_slice(table);
    match flaw {
        DraftFlaw::WritesAWordPastTheEnd => lent[length..].iter_mut().take(1).for_each(clear),
        DraftFlaw::ClearsTheWordsPastTheEnd => lent[length..].iter_mut().for_each(clear),
        _ => {}
    }
    match flaw {
        DraftFlaw::AnswersTheLengthWithoutTheStart => Ok(length - 1),
        DraftFlaw::AnswersHowManyNodes => Ok(nodes.len()),
        _ => Ok(length),
    }
}

fn clear(word: &mut u32) {
    *word = 0;
}
