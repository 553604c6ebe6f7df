//! Where edges land, with the errors that document 02, card 4, invites.

use super::{Flaw, Judge};
use crate::reading::{Action, Bound, Edge, Node, Row, Zone};

impl Judge<'_> {
    /// Whether a choice of this row that lands outside is still taken as forbidden.
    pub fn forbids_landings_outside(&self, row: &Row) -> bool {
        let blocked = matches!(row, Row::Blocked { .. });
        match self.flaw {
            Flaw::ForbidsLandingsOutside => true,
            Flaw::ForbidsLandingsOutsideInBlockedRows => blocked,
            _ => false,
        }
    }

    /// The part of a reach from which every edge lands in the invariant of its location: the reach
    /// before card 4.
    pub fn landing_inside(&self, action: &Action, reach: &Zone) -> Zone {
        action.edges.iter().fold(*reach, |part, edge| {
            part.landing_in(&self.invariant(edge.location), edge.resets)
        })
    }

    /// The reach after the edge's reset.
    fn landed(&self, edge: &Edge, reach: &Zone) -> Zone {
        match self.flaw {
            Flaw::ForgetsTheReset => *reach,
            _ => reach.reset(edge.resets),
        }
    }

    /// The landings inside.
    pub fn landings(&self, node: &Node, edge: &Edge, reach: &Zone) -> Zone {
        match self.flaw {
            Flaw::AsksTheLandingBeforeTheReset => {
                let part = reach.meet(&self.invariant(edge.location));
                self.landed(edge, &part)
            }
            Flaw::AsksTheSourcesInvariant => {
                let invariant = self.invariant(node.location);
                self.landed(edge, reach).meet(&invariant)
            }
            _ => {
                let invariant = self.invariant(edge.location);
                self.landed(edge, reach).meet(&invariant)
            }
        }
    }

    /// What the successor's zone must hold.
    pub fn to_be_held(&self, node: &Node, action: &Action, edge: &Edge, reach: &Zone) -> Zone {
        let landings = self.landings(node, edge, reach);
        match self.flaw {
            Flaw::HoldsLandingsOutsideToo => self.landed(edge, reach),
            Flaw::HoldsOnlyWhereAllEdgesLandInside => {
                let part = self.landing_inside(action, reach);
                self.landed(edge, &part)
            }
            Flaw::HoldsNothingWhereItCanMiss if self.lands_outside(node, edge, reach) => {
                landings.meet(&Zone::of(self.model.clocks, &[NEVER]))
            }
            Flaw::ResetsBeforeTheGuard => {
                landings.meet(&Zone::of(self.model.clocks, &action.guard))
            }
            _ => landings,
        }
    }

    /// Whether the edge with this number is taken to land outside now and then.
    pub fn can_miss(&self, node: &Node, action: &Action, number: usize, reach: &Zone) -> bool {
        let edge = &action.edges[number];
        let at_target = self.model.locations[edge.location].target;
        match self.flaw {
            Flaw::AddsTheSuccessorsValueForAMiss => false,
            Flaw::MissesByTheFirstEdgeOnly if number > 0 => false,
            Flaw::NoMissAtATarget if at_target => false,
            Flaw::MissesFromAnEmptyReach if reach.is_empty() => true,
            Flaw::AddsVForTheWholeRow => {
                let mut edges = action.edges.iter();
                edges.any(|edge| self.lands_outside(node, edge, reach))
            }
            Flaw::MissesFromAnywhere => {
                let guard = Zone::of(self.model.clocks, &action.guard);
                let anywhere = guard.meet(&self.invariant(node.location));
                self.lands_outside(node, edge, &anywhere)
            }
            _ => self.lands_outside(node, edge, reach),
        }
    }

    /// Whether the edge lands outside the invariant of its location from somewhere in the reach.
    fn lands_outside(&self, node: &Node, edge: &Edge, reach: &Zone) -> bool {
        let landed = self.landed(edge, reach);
        let bounds = &self.model.locations[edge.location].invariant;
        let zone = |bounds: &[Bound]| Zone::of(self.model.clocks, bounds);
        let invariant = zone(bounds);
        match self.flaw {
            Flaw::MissesOnlyWhereAllLandOutside => {
                !landed.is_empty() && landed.meet(&invariant).is_empty()
            }
            Flaw::MissesAtScaleOneOnly => {
                let ticks = zone(&at_scale_one(&reach.bounds())).reset(edge.resets);
                !ticks.inside(&zone(&at_scale_one(bounds)))
            }
            Flaw::AsksTheSourcesInvariant => !landed.inside(&self.invariant(node.location)),
            Flaw::AsksTheLandingBeforeTheReset => !reach.inside(&invariant),
            Flaw::ForgetsTheStrictnessOfTheInvariant => !landed.inside(&zone(&not_strict(bounds))),
            Flaw::ForgetsTheLowerBoundsOfTheInvariant => !landed.inside(&zone(&only_upper(bounds))),
            _ => !landed.inside(&invariant),
        }
    }

    /// What an edge adds to the sum, times its weight: its successor's own value, or V for a miss.
    pub fn added(&self, edge: &Edge, own: u32, missed: bool) -> u64 {
        let (own, whole) = (u64::from(own), u64::from(self.table.whole));
        if !missed {
            return own;
        }
        let at_target = self.model.locations[edge.location].target;
        match self.flaw {
            Flaw::AddsVAndTheSuccessorsValue => whole + own,
            Flaw::AddsNothingOutsideATarget if at_target => 0,
            _ => whole,
        }
    }
}

/// A bound that holds nowhere.
const NEVER: Bound = Bound {
    i: 1,
    j: 0,
    d: 0,
    strict: true,
};

/// What strict bounds come to at scale 1.
fn at_scale_one(bounds: &[Bound]) -> Vec<Bound> {
    let lower = |bound: &Bound| Bound {
        d: bound.d - i32::from(bound.strict),
        strict: false,
        ..*bound
    };
    bounds.iter().map(lower).collect()
}

fn not_strict(bounds: &[Bound]) -> Vec<Bound> {
    let loose = |bound: &Bound| Bound {
        strict: false,
        ..*bound
    };
    bounds.iter().map(loose).collect()
}

fn only_upper(bounds: &[Bound]) -> Vec<Bound> {
    let upper = bounds.iter().filter(|bound| bound.j == 0);
    upper.copied().collect()
}
