//! An exhaustive player: the largest weighted count over all schedulers, by trying every allowed
//! choice of delay and action, as in "Moves and schedulers" of document 01 with card 4 of document 02:
//! a choice is allowed by invariant and guard alone, and a run that lands outside the invariant of the
//! edge's location has reached the target.
//!
//! A clock that has passed every constant K of the invariants and guards is kept at kK + 1. That
//! loses nothing: models have no bounds between two clocks, and beyond kK every bound of one clock
//! holds or fails for good; delays and resets treat all readings beyond kK alike.
//!
//! A scheduler may choose by the whole list of states, but what can follow depends on the last one
//! alone, so the largest count for n steps is a function of n and the present state.

use crate::points::{after_delay, after_reset, all_hold, lands_inside, largest, largest_of_model};
use crate::points::{Grid, Valuation};
use crate::reading::{Action, Bound, Certificate, Model, Node, Table};

/// What a landing outside counts for, with so many steps left.
#[derive(Clone, Copy, Debug, Default, PartialEq, Eq)]
pub enum Miss {
    /// D to the power of the steps left, as card 4 has it.
    #[default]
    Full,
    /// Wrong on purpose: one power short.
    OnePowerShort,
    /// Wrong on purpose: 0.
    Nothing,
}

pub struct Player<'a> {
    model: &'a Model,
    scale: i64,
    miss: Miss,
    /// How many landings outside were met.
    pub misses: usize,
    /// Where clocks are kept.
    cap: i64,
    /// By steps, location and clocks: what was worked out before.
    known: Vec<Option<u128>>,
}

impl<'a> Player<'a> {
    /// A player for up to `steps` steps.
    pub fn new(model: &'a Model, scale: i64, steps: usize, miss: Miss) -> Player<'a> {
        let cap = scale * largest_of_model(model) + 1;
        let states = (cap as usize + 1).pow(model.clocks as u32) * model.locations.len();
        Player {
            model,
            scale,
            miss,
            misses: 0,
            cap,
            known: vec![None; states * (steps + 1)],
        }
    }

    /// The largest weighted count for the list that holds this state alone.
    pub fn largest_count(&mut self, steps: usize, location: usize, clocks: &Valuation) -> u128 {
        if self.model.locations[location].target {
            return self.power(steps);
        }
        if steps == 0 {
            return 0;
        }
        let clocks = self.capped(clocks);
        let index = self.index(steps, location, &clocks);
        if let Some(count) = self.known[index] {
            return count;
        }
        let count = self.best_choice(steps, location, clocks);
        self.known[index] = Some(count);
        count
    }

    /// Stopping gives 0. Delays are tried one by one until the invariant fails or no clock moves any
    /// more.
    fn best_choice(&mut self, steps: usize, location: usize, mut clocks: Valuation) -> u128 {
        let model = self.model;
        let at = &model.locations[location];
        let mut best = 0;
        while all_hold(&at.invariant, self.scale, &clocks) {
            for action in &at.actions {
                if all_hold(&action.guard, self.scale, &clocks) {
                    best = best.max(self.count_of_action(steps, action, &clocks));
                }
            }
            let later = self.capped(&after_delay(&clocks, model.clocks, 1));
            if later == clocks {
                break;
            }
            clocks = later;
        }
        best
    }

    fn count_of_action(&mut self, steps: usize, action: &Action, clocks: &Valuation) -> u128 {
        let mut sum = 0;
        for edge in &action.edges {
            let count = if lands_inside(self.model, self.scale, edge, clocks) {
                let landed = after_reset(clocks, edge.resets);
                self.largest_count(steps - 1, edge.location, &landed)
            } else {
                self.misses += 1;
                self.count_of_miss(steps - 1)
            };
            sum += u128::from(edge.weight) * count;
        }
        sum
    }

    fn count_of_miss(&self, left: usize) -> u128 {
        match self.miss {
            Miss::Full => self.power(left),
            Miss::OnePowerShort => self.power(left) / u128::from(self.model.denominator),
            Miss::Nothing => 0,
        }
    }

    /// D to the power of so many steps.
    fn power(&self, steps: usize) -> u128 {
        u128::from(self.model.denominator).pow(steps as u32)
    }

    fn capped(&self, clocks: &Valuation) -> Valuation {
        clocks.map(|reading| reading.min(self.cap))
    }

    fn index(&self, steps: usize, location: usize, clocks: &Valuation) -> usize {
        let first = steps * self.model.locations.len() + location;
        let clocks = &clocks[1..=self.model.clocks];
        clocks.iter().fold(first, |index, &reading| {
            index * (self.cap as usize + 1) + reading as usize
        })
    }
}

/// What a table says of a set of states: no scheduler's fraction is above `value` / V.
pub struct Claim {
    pub location: usize,
    /// The states are those in which all these hold.
    pub bounds: Vec<Bound>,
    pub value: u32,
}

/// A state and a number of steps at which a claim fails.
#[derive(Debug)]
pub struct Objection {
    pub scale: i64,
    pub steps: usize,
    pub location: usize,
    pub clocks: Valuation,
    pub count: u128,
}

/// The claim of the certificate, on the start states.
pub fn start_claim(model: &Model, certificate: &Certificate) -> Claim {
    let location = model.start.location;
    let bounds = [
        &model.start.bounds[..],
        &model.locations[location].invariant,
    ]
    .concat();
    Claim {
        location,
        bounds,
        value: certificate.b,
    }
}

/// What an accepted table claims of each node: its value, for the states in its zone. A cut takes no
/// step, so a cut node claims what any other does.
pub fn node_claims(model: &Model, table: &Table) -> Vec<Claim> {
    let claim = |node: &Node| Claim {
        location: node.location,
        bounds: [&node.bounds[..], &model.locations[node.location].invariant].concat(),
        value: node.value,
    };
    table.nodes.iter().map(claim).collect()
}

/// The box in which all states of a claim are found, up to what the player can tell apart.
pub fn grid_of(model: &Model, claim: &Claim, scale: i64) -> Grid {
    let constant = largest(&claim.bounds).max(largest_of_model(model));
    Grid::new(model.clocks, scale, constant)
}

/// Checks count × V <= value × D^n for every state of the claim and n from 0 to `steps`.
pub fn object(player: &mut Player, claim: &Claim, whole: u32, steps: usize) -> Option<Objection> {
    let (model, scale, location) = (player.model, player.scale, claim.location);
    let mut objection = None;
    let grid = grid_of(model, claim, scale);
    grid.find(&claim.bounds, &mut |clocks| {
        for steps in 0..=steps {
            let count = player.largest_count(steps, location, clocks);
            let all = u128::from(model.denominator).pow(steps as u32);
            if count * u128::from(whole) > u128::from(claim.value) * all {
                objection = Some(Objection {
                    scale,
                    steps,
                    location,
                    clocks: *clocks,
                    count,
                });
                return true;
            }
        }
        false
    });
    objection
}

#[cfg(test)]
mod tests {
    use super::*;
    use crate::reading::parse_model;
    use crate::worked::MODEL;

    /// The largest counts for 0 to 3 steps from the start of the worked model, with this invariant of
    /// its location 1, where the weight is 9 of 10, and this one of its target.
    fn counts(scale: i64, first: &[u32], target: &[u32], miss: Miss) -> [u128; 4] {
        let words = [&MODEL[..8], first, &MODEL[8..9], target, &MODEL[9..]].concat();
        let model = parse_model(&words).expect("a model");
        let mut player = Player::new(&model, scale, 3, miss);
        [0, 1, 2, 3].map(|steps| player.largest_count(steps, 0, &[0; 5]))
    }

    const AT_MOST_2: u32 = 0x51001002;
    const BELOW_3: u32 = 0x51081003;
    const AT_MOST_3: u32 = 0x51001003;
    const FROM_5: u32 = 0x50100FFB;

    #[test]
    fn a_landing_outside_counts_as_the_target_does() {
        // From 2 to 3, 1 in 10 to the target.
        assert_eq!(counts(1, &[], &[], Miss::Full), [0, 1, 10, 100]);
        assert_eq!(counts(1, &[AT_MOST_3], &[], Miss::Full), [0, 1, 10, 100]);
        // At 3 the 9 in 10 are missed as well.
        assert_eq!(counts(1, &[AT_MOST_2], &[], Miss::Full), [0, 10, 100, 1000]);
        assert_eq!(counts(2, &[BELOW_3], &[], Miss::Full), [0, 10, 100, 1000]);
        // Outside the target's invariant it is the target all the same.
        assert_eq!(counts(1, &[], &[FROM_5], Miss::Full), [0, 1, 10, 100]);
        assert_eq!(
            counts(1, &[FROM_5], &[FROM_5], Miss::Full),
            [0, 10, 100, 1000]
        );
    }

    #[test]
    fn outside_between_two_ticks() {
        // Below 3 the guard ends too: at scale 1 only 2 is left, which is inside.
        let words = [
            &MODEL[..5],
            &[BELOW_3],
            &MODEL[5..8],
            &[AT_MOST_2],
            &MODEL[8..],
        ];
        let model = parse_model(&words.concat()).expect("a model");
        let count = |scale| Player::new(&model, scale, 1, Miss::Full).largest_count(1, 0, &[0; 5]);
        assert_eq!((count(1), count(2)), (1, 10));
    }

    #[test]
    fn the_flawed_players_count_less() {
        let short = counts(1, &[FROM_5], &[], Miss::OnePowerShort);
        assert_eq!(short, [0, 1, 19, 190]);
        let nothing = counts(1, &[FROM_5], &[], Miss::Nothing);
        assert_eq!(nothing, [0, 1, 10, 100]);
    }
}
