//! Clock zones: a square table of bounds, five clocks by five, changed in place.

use super::Refusal;

/// Twice the constant, and one more unless the bound is strict: the lower number is the tighter
/// bound.
type Bound = i32;

const NONE: Bound = i32::MAX;
const AT_MOST_0: Bound = 1;
const SIZE: usize = 5;
const KIND: u32 = 5;
/// The largest constant that a bound's word has room for, and negated the smallest.
const FARTHEST: i32 = 4_095;

/// The word of a bound that nothing meets: clock 1 at most -1.
pub const NEVER: u32 = 0x5100_0FFF;

#[derive(Clone, Copy, PartialEq, Eq)]
pub struct Zone([[Bound; SIZE]; SIZE]);

impl Zone {
    /// Every valuation: no clock is below 0, and no other bound is there.
    pub const ALL: Zone = Zone::all();

    /// No valuation, as the bound of `NEVER` says it. No zone that is tightened and not empty is equal
    /// to it.
    pub const EMPTY: Zone = Zone::empty();

    const fn all() -> Zone {
        let mut bounds = [[NONE; SIZE]; SIZE];
        let mut clock = 0;
        while clock < SIZE {
            bounds[0][clock] = AT_MOST_0;
            bounds[clock][clock] = AT_MOST_0;
            clock += 1;
        }
        Zone(bounds)
    }

    const fn empty() -> Zone {
        let mut zone = Zone::all();
        zone.0[1][0] = -1;
        zone
    }

    /// Adds the bounds that stand from a place on and hands back the place behind them. One that is
    /// no good bound is refused with this number; where `single`, one of its clocks must be clock 0.
    pub fn take_bounds(
        &mut self,
        clocks: u32,
        single: bool,
        words: &[u32],
        mut place: usize,
        number: u32,
    ) -> Result<usize, Refusal> {
        while place < words.len() && words[place] >> 28 == KIND {
            let word = words[place];
            let one_clock = !single || clocks_of(word).contains(&0);
            if !good_fields(word, clocks) || !one_clock {
                return Err(Refusal { number, place });
            }
            let [i, j] = clocks_of(word);
            self.lower(i, j, bound_of(word));
            place += 1;
        }
        Ok(place)
    }

    fn lower(&mut self, i: usize, j: usize, bound: Bound) {
        if bound < self.0[i][j] {
            self.0[i][j] = bound;
        }
    }

    pub fn meet(&mut self, other: &Zone) {
        let bounds = self.0.as_flattened_mut().iter_mut();
        for (bound, &other) in bounds.zip(other.0.as_flattened()) {
            *bound = other.min(*bound);
        }
    }

    /// Makes every bound the least sum over a chain of clocks.
    pub fn tighten(&mut self, clocks: u32) {
        let size = clocks as usize + 1;
        for via in 0..size {
            let second = self.0[via];
            for (i, row) in self.0.iter_mut().enumerate().take(size) {
                let first = row[via];
                if first == NONE || i == via {
                    continue;
                }
                for (bound, &second) in row.iter_mut().zip(&second).take(size) {
                    *bound = sum(first, second).min(*bound);
                }
            }
        }
    }

    /// Of a tightened zone.
    pub fn is_empty(&self) -> bool {
        (0..SIZE).any(|clock| self.0[clock][clock] < AT_MOST_0)
    }

    /// Of a tightened zone: the part of it where the bound of a good cut holds, and the rest, each
    /// tightened, or none where it is empty.
    pub fn parts(&self, clocks: u32, cut: u32) -> [Option<Zone>; 2] {
        let ([i, j], bound) = (clocks_of(cut), bound_of(cut));
        [
            self.part(clocks, i, j, bound),
            self.part(clocks, j, i, opposite(bound)),
        ]
    }

    /// Of a tightened zone: the part of it where one more bound holds. A chain of clocks that has
    /// become shorter goes by way of that bound.
    fn part(&self, clocks: u32, i: usize, j: usize, bound: Bound) -> Option<Zone> {
        if self.is_empty() || sum(bound, self.0[j][i]) < AT_MOST_0 {
            return None;
        }
        let size = clocks as usize + 1;
        let mut part = *self;
        for row in part.0.iter_mut().take(size) {
            if row[i] == NONE {
                continue;
            }
            let first = sum(row[i], bound);
            for (bound, &second) in row.iter_mut().zip(&self.0[j]).take(size) {
                *bound = sum(first, second).min(*bound);
            }
        }
        Some(part)
    }

    /// Of a tightened zone: the bounds above single clocks go.
    pub fn delay(&mut self) {
        for row in &mut self.0[1..] {
            row[0] = NONE;
        }
    }

    /// Of a tightened zone: with the masked clocks set to 0, tightened.
    pub fn reset(&self, clocks: u32, mask: u32) -> Zone {
        let size = clocks as usize + 1;
        let sources = sources(mask);
        let mut after = Zone::ALL;
        for (row, &i) in after.0.iter_mut().zip(&sources).take(size) {
            for (bound, &j) in row.iter_mut().zip(&sources).take(size) {
                *bound = self.0[i][j];
            }
        }
        after
    }

    /// How many bounds there are between two different clocks; none if a word has no room for one.
    pub fn count_bounds(&self, clocks: u32) -> Option<usize> {
        let size = clocks as usize + 1;
        let mut count = 0;
        for (i, row) in self.0.iter().enumerate().take(size) {
            for (j, &bound) in row.iter().enumerate().take(size) {
                if i == j || bound == NONE {
                    continue;
                }
                if !(-FARTHEST..=FARTHEST).contains(&(bound >> 1)) {
                    return None;
                }
                count += 1;
            }
        }
        Some(count)
    }

    /// Writes the words of these bounds from a place on; hands back the place behind them.
    pub fn write_bounds(&self, clocks: u32, words: &mut [u32], mut place: usize) -> usize {
        let size = clocks as usize + 1;
        for (i, row) in self.0.iter().enumerate().take(size) {
            for (j, &bound) in row.iter().enumerate().take(size) {
                if i != j && bound != NONE {
                    words[place] = word_of(i, j, bound);
                    place += 1;
                }
            }
        }
        place
    }

    /// Whether a zone that is tightened and not empty lies in an invariant, which bounds single clocks
    /// only, once the masked clocks are set to 0.
    pub fn lands_inside(&self, invariant: &Zone, mask: u32) -> bool {
        let mut sources = sources(mask).into_iter().enumerate().skip(1);
        sources.all(|(clock, source)| {
            self.0[source][0] <= invariant.0[clock][0] && self.0[0][source] <= invariant.0[0][clock]
        })
    }

    /// Of a zone that is tightened and not empty, with the masked clocks set to 0: whether the part of
    /// it in an invariant lies inside another zone, as nothing does. A chain of clocks that has become
    /// shorter goes by way of clock 0, since an invariant bounds single clocks only.
    pub fn part_inside(&self, clocks: u32, mask: u32, invariant: &Zone, other: &Zone) -> bool {
        let size = clocks as usize + 1;
        let sources = sources(mask);
        let landed = |i: usize, j: usize| self.0[sources[i]][sources[j]];
        let mut to_0 = [NONE; SIZE];
        let mut from_0 = [NONE; SIZE];
        for i in 0..size {
            for j in 0..size {
                to_0[i] = to_0[i].min(chain(landed(i, j), invariant.0[j][0]));
                from_0[i] = from_0[i].min(chain(invariant.0[0][j], landed(j, i)));
            }
        }
        if (0..size).any(|clock| chain(to_0[clock], from_0[clock]) < AT_MOST_0) {
            return true;
        }
        let bound = |i: usize, j: usize| landed(i, j).min(chain(to_0[i], from_0[j]));
        (0..size).all(|i| (0..size).all(|j| bound(i, j) <= other.0[i][j]))
    }

    /// Whether a zone that is tightened and not empty lies inside another once the masked clocks
    /// are set to 0: a masked clock then has the bounds of clock 0.
    pub fn inside_after_reset(&self, clocks: u32, mask: u32, other: &Zone) -> bool {
        let size = clocks as usize + 1;
        let sources = sources(mask);
        for (&i, others) in sources.iter().zip(&other.0).take(size) {
            let row = &self.0[i];
            for (&j, &other) in sources.iter().zip(others).take(size) {
                if row[j] > other {
                    return false;
                }
            }
        }
        true
    }
}

/// Whether the fields of a bound are in their ranges, diagonals allowed, whatever the word's kind.
pub fn good_fields(word: u32, clocks: u32) -> bool {
    let (i, j, shifted) = (word >> 24 & 15, word >> 20 & 15, word & 0x1FFF);
    let spare = word & 0x0007_E000;
    i != j && i <= clocks && j <= clocks && shifted != 0 && spare == 0
}

/// i and j of a bound.
pub fn clocks_of(word: u32) -> [usize; 2] {
    [(word >> 24 & 15) as usize, (word >> 20 & 15) as usize]
}

fn bound_of(word: u32) -> Bound {
    2 * ((word & 0x1FFF) as i32 - 4096) + (1 - (word >> 19 & 1) as i32)
}

/// The word of a bound that it has room for.
fn word_of(i: usize, j: usize, bound: Bound) -> u32 {
    let strict = (!bound & 1) as u32;
    let shifted = ((bound >> 1) + 4096) as u32;
    KIND << 28 | (i as u32) << 24 | (j as u32) << 20 | strict << 19 | shifted
}

/// What holds, of the two clocks in the other order, where a bound does not.
fn opposite(bound: Bound) -> Bound {
    1 - bound
}

/// For each clock, the one whose reading it has once the masked clocks are set to 0 (bit 0 for
/// clock 1).
fn sources(mask: u32) -> [usize; SIZE] {
    std::array::from_fn(|clock| {
        let masked = mask << 1 >> clock & 1 == 1;
        if masked {
            0
        } else {
            clock
        }
    })
}

/// The sum of two bounds, each of which may be lacking.
fn chain(first: Bound, second: Bound) -> Bound {
    if first == NONE {
        return NONE;
    }
    sum(first, second)
}

/// The sum of two bounds, the first of which is there; strict if one of them is.
fn sum(first: Bound, second: Bound) -> Bound {
    if second == NONE {
        return NONE;
    }
    first + second - ((first | second) & 1)
}
