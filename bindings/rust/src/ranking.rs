//! The answer of ranking.

use std::fmt;
use std::ops::Deref;

use crate::raw::Ranked;
use crate::words::broken;
use crate::{Refusal, SLOTS};

/// The numbers of the held slots in rank: the smaller fraction first, of equal ones the lower slot
/// number. It is a slice, and so `ranking[0]`, `ranking.first()` and `ranking.iter()` work.
#[derive(Clone, Copy, PartialEq, Eq)]
pub struct Ranking {
    order: [usize; SLOTS], // zeros behind the first `count`, so that `==` compares no others
    count: usize,
}

impl Deref for Ranking {
    type Target = [usize];

    fn deref(&self) -> &[usize] {
        &self.order[..self.count]
    }
}

impl fmt::Debug for Ranking {
    fn fmt(&self, out: &mut fmt::Formatter<'_>) -> fmt::Result {
        out.debug_tuple("Ranking").field(&&**self).finish()
    }
}

/// The answer of [`rank`](crate::rank). It prints as `RANKED` with the slot numbers behind it, such
/// as `RANKED 9 4`, or as `REFUSED 54 0`.
#[derive(Clone, Copy, Debug, PartialEq, Eq)]
#[must_use = "the slots may be refused"]
pub enum RankAnswer {
    /// The held slots in rank; none if all are vacant.
    Ranked(Ranking),
    /// The slots are refused, with 54.
    Refused(Refusal),
}

impl RankAnswer {
    /// The same as a `Result`.
    pub fn result(self) -> Result<Ranking, Refusal> {
        match self {
            RankAnswer::Ranked(ranking) => Ok(ranking),
            RankAnswer::Refused(refusal) => Err(refusal),
        }
    }

    /// The refusal, if this is one.
    #[must_use]
    pub fn refusal(self) -> Option<Refusal> {
        self.result().err()
    }

    pub(crate) fn from_ranked(ranked: &Ranked) -> RankAnswer {
        const CALL: &str = "rank";
        if ranked.number != 0 {
            let words = [ranked.number.into(), ranked.place as u64, 0, 0];
            return RankAnswer::Refused(Refusal::from_words(CALL, 54..=54, words));
        }
        match ranked.order.get(..ranked.count) {
            Some(slots) if slots.iter().all(|&slot| slot < SLOTS) => {
                let mut order = [0; SLOTS];
                order[..ranked.count].copy_from_slice(slots);
                let count = ranked.count;
                RankAnswer::Ranked(Ranking { order, count })
            }
            _ => broken(CALL, ranked),
        }
    }
}

impl fmt::Display for RankAnswer {
    fn fmt(&self, out: &mut fmt::Formatter<'_>) -> fmt::Result {
        match self {
            RankAnswer::Ranked(ranking) => {
                out.write_str("RANKED")?;
                ranking.iter().try_for_each(|slot| write!(out, " {slot}"))
            }
            RankAnswer::Refused(refusal) => refusal.write_line(out),
        }
    }
}
