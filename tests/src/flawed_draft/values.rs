//! Which values a flawed draft comes to.

use super::exploring::{Node, Row, Successor};
use super::DraftFlaw;
use crate::reading::Model;

const WHOLE: u32 = 1_000_000;

/// The values after so many rounds.
pub fn after(flaw: DraftFlaw, rounds: u64, model: &Model, nodes: &[Node]) -> Vec<u32> {
    let begun = match flaw {
        DraftFlaw::BeginsAt0 => |node: &Node| if node.target { WHOLE } else { 0 },
        _ => |_: &Node| WHOLE,
    };
    let denominator = u64::from(model.denominator);
    let values = Values { flaw, denominator };
    let mut now: Vec<u32> = nodes.iter().map(begun).collect();
    for _ in 0..counted(flaw, rounds) {
        let next = values.next(nodes, &now);
        // Once nothing changes, nothing will; this spares the flaw without an end most rounds.
        if next == now || flaw == DraftFlaw::StopsOnceTheStartStays && next[0] == now[0] {
            break;
        }
        now = next;
    }
    now
}

fn counted(flaw: DraftFlaw, rounds: u64) -> u64 {
    match flaw {
        DraftFlaw::CountsRoundsAbove1000 => rounds,
        DraftFlaw::CountsRoundsUpTo999 => rounds.min(999),
        DraftFlaw::CountsRoundsIn32Bits => u64::from(rounds as u32).min(1000),
        DraftFlaw::CountsRoundsIn16Bits => u64::from(rounds as u16).min(1000),
        DraftFlaw::DoesOneRoundMore => rounds.min(1000) + 1,
        DraftFlaw::DoesOneRoundLess => rounds.min(1000).saturating_sub(1),
        _ => rounds.min(1000),
    }
}

struct Values {
    flaw: DraftFlaw,
    denominator: u64,
}

impl Values {
    /// A round.
    fn next(&self, nodes: &[Node], now: &[u32]) -> Vec<u32> {
        let mut next = now.to_vec();
        for (number, node) in nodes.iter().enumerate() {
            let before: &[u32] = match self.flaw {
                DraftFlaw::RoundsInPlace => &next,
                _ => now,
            };
            next[number] = self.value(node, before);
        }
        next
    }

    fn value(&self, node: &Node, before: &[u32]) -> u32 {
        if node.target && self.flaw != DraftFlaw::ReplacesTargetsToo {
            return WHOLE;
        }
        let kept = match self.flaw {
            DraftFlaw::KeepsVWithoutRows => true,
            DraftFlaw::KeepsVAtEmptyNodes => node.zone.is_empty(),
            _ => false,
        };
        let filled = node.rows.iter().filter(|row| !row.is_empty());
        let mut sums = filled.map(|row| self.rounded(row, before));
        let chosen = match self.flaw {
            DraftFlaw::TakesTheSmallestRow => sums.min(),
            DraftFlaw::TakesTheFirstRow => sums.next(),
            DraftFlaw::TakesTheLastRow => sums.next_back(),
            _ => sums.max(),
        };
        chosen.unwrap_or(if kept { WHOLE } else { 0 })
    }

    /// A row's sum over D.
    fn rounded(&self, row: &Row, before: &[u32]) -> u32 {
        let denominator = self.denominator;
        let part = |successor: &Successor| {
            u64::from(successor.weight) * u64::from(self.worth(row, successor, before))
        };
        let sum: u64 = row.iter().map(part).sum();
        let rounded = match self.flaw {
            DraftFlaw::RoundsDown => sum / denominator,
            DraftFlaw::RoundsToTheNearest => (2 * sum + denominator) / (2 * denominator),
            DraftFlaw::RoundsUpWholeNumbersToo => (sum / denominator + 1).min(WHOLE.into()),
            DraftFlaw::RoundsUpEachEdge => {
                let parts = row.iter().map(part);
                let parts = parts.map(|part| part.div_ceil(denominator));
                parts.sum::<u64>().min(WHOLE.into())
            }
            DraftFlaw::AddsIn32Bits => (sum & 0xFFFF_FFFF).div_ceil(denominator),
            _ => sum.div_ceil(denominator),
        };
        rounded as u32
    }

    fn worth(&self, row: &Row, successor: &Successor, before: &[u32]) -> u32 {
        let missed = match self.flaw {
            DraftFlaw::ForgetsVForALandingOutside => false,
            DraftFlaw::TakesVForTheWholeRow => row.iter().any(|other| other.can_miss),
            DraftFlaw::MissesOnlyWhereAllLandOutside => successor.all_miss,
            _ => successor.can_miss,
        };
        match missed {
            true => WHOLE,
            false => before[successor.node],
        }
    }
}
