//! Valuations one by one. At scale k each clock counts whole k-ths of a time unit. No zone is worked
//! out here: bounds are evaluated, nothing else.
//!
//! How far to look. Let L be the largest size of a `d` in all bounds in play: of the zones, the
//! guards, and the invariants of all locations, those that edges land in among them. Put 0, the clocks
//! and, if there is a delay t, minus t as points on a line: every bound, before the delay or after it,
//! with clocks reset or not, is one on the difference of two of these points, or of a point and
//! itself, since after the delay a clock's point is read from minus t, and a reset clock reads 0.
//! Where two neighbours are more than kL + 1 apart, move what lies beyond the gap until they are
//! exactly that: each difference across the gap stays beyond kL, so every bound holds or fails as
//! before. Between 0 and the largest clock there are at most C gaps, between minus t and 0 one. So if
//! anything is found at this scale, it is found with clocks up to C(kL + 1) and a delay up to kL + 1.
//! Since bounds fail as before, too, this goes for what must be outside a zone or, with card 4 of
//! document 02, outside an invariant: some bound of it fails.
//!
//! Which scale is enough. C clocks and minus t have at most C + 1 different fractional parts other
//! than 0. Spread these in their order over the (C + 2)-ths: each difference keeps its whole part and
//! stays whole or not whole, so every bound holds or fails as before. So what is found at any scale
//! is found at scale C + 2 with a delay, and at scale C + 1 without. A landing adds no point, so that
//! it needs no larger scale, inside or outside.

use crate::reading::{Bound, Edge, Model};

/// The readings of clock 0, which is 0, and of clocks 1 to 4.
pub type Valuation = [i64; 5];

pub fn holds(bound: &Bound, scale: i64, clocks: &Valuation) -> bool {
    let difference = clocks[bound.i] - clocks[bound.j];
    let limit = scale * i64::from(bound.d);
    if bound.strict {
        difference < limit
    } else {
        difference <= limit
    }
}

pub fn all_hold(bounds: &[Bound], scale: i64, clocks: &Valuation) -> bool {
    bounds.iter().all(|bound| holds(bound, scale, clocks))
}

pub fn after_delay(clocks: &Valuation, count: usize, delay: i64) -> Valuation {
    let mut after = *clocks;
    for reading in &mut after[1..=count] {
        *reading += delay;
    }
    after
}

/// Bit 0 of the mask is clock 1's.
pub fn after_reset(clocks: &Valuation, mask: u32) -> Valuation {
    let mut after = *clocks;
    for (clock, reading) in after.iter_mut().enumerate().skip(1) {
        if mask >> (clock - 1) & 1 == 1 {
            *reading = 0;
        }
    }
    after
}

/// Whether an edge that is taken at these readings lands in the invariant of its location.
pub fn lands_inside(model: &Model, scale: i64, edge: &Edge, clocks: &Valuation) -> bool {
    let invariant = &model.locations[edge.location].invariant;
    all_hold(invariant, scale, &after_reset(clocks, edge.resets))
}

/// The largest size of a `d` among these bounds.
pub fn largest<'b>(bounds: impl IntoIterator<Item = &'b Bound>) -> i64 {
    let sizes = bounds.into_iter().map(|bound| i64::from(bound.d.abs()));
    sizes.max().unwrap_or(0)
}

/// The largest size of a `d` among the invariants and guards.
pub fn largest_of_model(model: &Model) -> i64 {
    let invariants = model
        .locations
        .iter()
        .flat_map(|location| &location.invariant);
    let guards = model.actions().flat_map(|action| &action.guard);
    largest(invariants.chain(guards))
}

/// A box of valuations: at this scale, `count` clocks from 0 to `limit`.
#[derive(Clone, Copy)]
pub struct Grid {
    pub count: usize,
    pub scale: i64,
    pub limit: i64,
}

impl Grid {
    /// The box that is large enough for constants up to `largest`.
    pub fn new(count: usize, scale: i64, largest: i64) -> Grid {
        Grid {
            count,
            scale,
            limit: count as i64 * (scale * largest + 1),
        }
    }

    /// How many valuations `find` may have to look at.
    pub fn size(&self, bounds: &[Bound]) -> u64 {
        let readings = |clock| (self.most(clock, bounds) + 1).max(1) as u64;
        (1..=self.count).map(readings).fold(1, u64::saturating_mul)
    }

    /// The largest reading of a clock that its upper bounds allow.
    fn most(&self, clock: usize, bounds: &[Bound]) -> i64 {
        let upper = bounds
            .iter()
            .filter(|bound| (bound.i, bound.j) == (clock, 0));
        let limits = upper.map(|bound| self.scale * i64::from(bound.d));
        limits.fold(self.limit, i64::min)
    }

    /// The first valuation of the box in which the bounds hold and the test succeeds.
    pub fn find(
        &self,
        bounds: &[Bound],
        test: &mut dyn FnMut(&Valuation) -> bool,
    ) -> Option<Valuation> {
        let mut clocks = [0; 5];
        // Bounds on clock 0 alone do not exist: the first clock is asked first.
        self.find_from(1, &mut clocks, bounds, test)
            .then_some(clocks)
    }

    /// Tries all readings of the clocks from this one on. A bound is asked as soon as its clocks are
    /// set.
    fn find_from(
        &self,
        clock: usize,
        clocks: &mut Valuation,
        bounds: &[Bound],
        test: &mut dyn FnMut(&Valuation) -> bool,
    ) -> bool {
        if clock > self.count {
            return test(clocks);
        }
        for reading in 0..=self.most(clock, bounds) {
            clocks[clock] = reading;
            let set = bounds.iter().filter(|bound| bound.i.max(bound.j) == clock);
            let good = set
                .into_iter()
                .all(|bound| holds(bound, self.scale, clocks));
            if good && self.find_from(clock + 1, clocks, bounds, test) {
                return true;
            }
        }
        false
    }
}
