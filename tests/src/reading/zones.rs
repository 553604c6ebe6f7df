//! Zones as square matrices of limits, always tightened.
//!
//! Reads "Scale, valuation, zone" of document 01. "Empty" and "inside" mean at every scale, and the
//! valuations of all scales together are those with rational clocks. So the known facts about
//! difference bounds over dense time apply: when every limit is the least that the others allow,
//! a zone is empty only if some clock would be below itself, and comparing limits pair by pair
//! compares the zones.

use super::words::{Bound, MAX_CLOCKS};

/// An upper limit of a difference in one integer: twice `d`, plus one if `d` itself is allowed.
/// A lower number is a tighter limit.
#[derive(Clone, Copy, Debug, PartialEq, Eq, PartialOrd, Ord)]
struct Limit(i32);

impl Limit {
    const NONE: Limit = Limit(i32::MAX);
    /// At most 0.
    const ZERO: Limit = Limit(1);

    fn of(bound: &Bound) -> Limit {
        Limit(2 * bound.d + i32::from(!bound.strict))
    }

    /// The limit of a sum of two differences. Its last bit is set only if both have it set, for the
    /// sum is attained only where both parts are.
    fn plus(self, other: Limit) -> Limit {
        if self == Limit::NONE || other == Limit::NONE {
            return Limit::NONE;
        }
        Limit(self.0 + other.0 - ((self.0 | other.0) & 1))
    }
}

const SIZE: usize = MAX_CLOCKS + 1;

/// A set of valuations of clocks 1 to `clocks`, none below 0. Unless the zone is empty, each limit
/// is the tightest.
#[derive(Clone, Copy, Debug)]
pub struct Zone {
    clocks: usize,
    /// `limits[i][j]` is that of clock `i` minus clock `j`. Rows and columns above `clocks` are not
    /// used.
    limits: [[Limit; SIZE]; SIZE],
    empty: bool,
}

impl Zone {
    /// Every valuation.
    pub fn all(clocks: usize) -> Zone {
        let mut limits = [[Limit::NONE; SIZE]; SIZE];
        limits[0] = [Limit::ZERO; SIZE];
        for (clock, row) in limits.iter_mut().enumerate() {
            row[clock] = Limit::ZERO;
        }
        Zone {
            clocks,
            limits,
            empty: false,
        }
    }

    /// The valuations in which all these bounds hold.
    pub fn of<'b>(clocks: usize, bounds: impl IntoIterator<Item = &'b Bound>) -> Zone {
        let mut zone = Zone::all(clocks);
        let mut changed = false;
        for bound in bounds {
            changed |= zone.lower(bound.i, bound.j, Limit::of(bound));
        }
        zone.tightened_if(changed)
    }

    pub fn is_empty(&self) -> bool {
        self.empty
    }

    /// Whether every valuation of this zone is in the other.
    pub fn inside(&self, other: &Zone) -> bool {
        let within = |(i, j): (usize, usize)| self.limits[i][j] <= other.limits[i][j];
        self.empty || (!other.empty && self.pairs().all(within))
    }

    /// Whether both zones have the same valuations, at every scale.
    pub fn same_as(&self, other: &Zone) -> bool {
        self.inside(other) && other.inside(self)
    }

    /// The valuations in both zones.
    pub fn meet(&self, other: &Zone) -> Zone {
        self.landing_in(other, 0)
    }

    /// The valuations of this zone that are in the other once the masked clocks are set to 0 (bit 0
    /// for clock 1). Each limit of the other is one on what its clocks then read, so a masked clock
    /// stands as clock 0; between two that read 0 it is a constant test. Until card 4 of document 02
    /// an allowed choice had to land so; judges that are wrong on purpose still ask it.
    pub fn landing_in(&self, other: &Zone, mask: u32) -> Zone {
        let mut both = *self;
        if self.empty || other.empty {
            both.empty = true;
            return both;
        }
        let mut changed = false;
        for (i, j) in other.pairs() {
            changed |= both.lower(unmasked(i, mask), unmasked(j, mask), other.limits[i][j]);
        }
        both.tightened_if(changed)
    }

    /// The valuations after any delay from one in this zone. Clocks run alike, so only the limits
    /// above single clocks go, and the rest stays tight.
    pub fn delay(&self) -> Zone {
        let mut after = *self;
        for clock in 1..=self.clocks {
            after.limits[clock][0] = Limit::NONE;
        }
        after
    }

    /// The valuations of this zone with the masked clocks set to 0. A masked clock takes the limits
    /// of clock 0, which are tight already.
    pub fn reset(&self, mask: u32) -> Zone {
        let mut after = *self;
        for (i, j) in self.pairs() {
            after.limits[i][j] = self.limits[unmasked(i, mask)][unmasked(j, mask)];
        }
        after
    }

    /// The tightened zone as a list of bounds, without those that hold in every zone.
    pub fn bounds(&self) -> Vec<Bound> {
        if self.empty {
            return vec![Bound {
                i: 1,
                j: 0,
                d: 0,
                strict: true,
            }];
        }
        let every = Zone::all(self.clocks);
        let telling = |&(i, j): &(usize, usize)| self.limits[i][j] < every.limits[i][j];
        let pairs = self.pairs().filter(telling);
        pairs.map(|(i, j)| self.bound(i, j)).collect()
    }

    /// Every limit that the tightened zone has between two different clocks, by the first, then by the
    /// second; those that hold in every zone, such as no clock being below 0, are among them. Asked
    /// only of a zone that is not empty.
    pub fn all_bounds(&self) -> Vec<Bound> {
        let limited = |&(i, j): &(usize, usize)| i != j && self.limits[i][j] != Limit::NONE;
        let pairs = self.pairs().filter(limited);
        pairs.map(|(i, j)| self.bound(i, j)).collect()
    }

    /// The limit of clock `i` minus clock `j`, which there is, as a bound.
    fn bound(&self, i: usize, j: usize) -> Bound {
        let Limit(limit) = self.limits[i][j];
        Bound {
            i,
            j,
            d: limit >> 1,
            strict: limit & 1 == 0,
        }
    }

    /// All pairs of clocks, clock 0 among them.
    fn pairs(&self) -> impl Iterator<Item = (usize, usize)> {
        let clocks = self.clocks;
        (0..=clocks).flat_map(move |i| (0..=clocks).map(move |j| (i, j)))
    }

    /// Adds a limit; says whether it told anything new.
    fn lower(&mut self, i: usize, j: usize, limit: Limit) -> bool {
        let lower = limit < self.limits[i][j];
        if lower {
            self.limits[i][j] = limit;
        }
        lower
    }

    fn tightened_if(self, changed: bool) -> Zone {
        if changed {
            self.tightened()
        } else {
            self
        }
    }

    /// Floyd and Warshall's closure: every limit becomes the least sum over a chain of clocks. Once
    /// a clock would be below itself the zone is empty, and going on would only let sums grow.
    fn tightened(mut self) -> Zone {
        for via in 0..=self.clocks {
            for i in 0..=self.clocks {
                for j in 0..=self.clocks {
                    let detour = self.limits[i][via].plus(self.limits[via][j]);
                    self.lower(i, j, detour);
                }
            }
            if (0..=self.clocks).any(|clock| self.limits[clock][clock] < Limit::ZERO) {
                self.empty = true;
                break;
            }
        }
        self
    }
}

/// The clock whose reading a clock has once the mask is reset.
fn unmasked(clock: usize, mask: u32) -> usize {
    if clock > 0 && mask >> (clock - 1) & 1 == 1 {
        0
    } else {
        clock
    }
}
