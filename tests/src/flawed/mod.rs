//! A judge with one flaw to choose, among them the errors that document 01 says would pass a casual
//! look, and errors that cards 1 and 4 of document 02 invite. It is put together from the reading's
//! parsers and zones.

mod landings;

use crate::reading::{
    parse_model, parse_table, Action, Body, Bound, Certificate, Cut, Model, Node,
};
use crate::reading::{NodeRef, Refusal, Row, Table, Zone};

#[derive(Clone, Copy, Debug, PartialEq, Eq)]
pub enum Flaw {
    TrustsANodesZoneToLieInItsInvariant,
    DelaysPastTheInvariant,
    ForgetsTheDelay,
    ForgetsTheGuard,
    ResetsBeforeTheGuard,
    ForgetsTheReset,
    BelievesBlockedRows,
    ForgivesRowsWithEmptyReach,
    AddsIn32Bits,
    AsksTheSumFirst,
    ChecksOnlyNode0,
    ForgetsTheStartNode,
    ForgetsTheStartInvariant,
    ForgetsTargetValues,
    BelievesCuts,
    TakesItsOwnNumberForAPart,
    TakesLowerNumbersForParts,
    ForgetsTheNegationOfTheRest,
    ForgetsTheStrictnessOfTheRest,
    ExchangesTheParts,
    AsksTheValueOfTheFirstPartOnly,
    ForgetsTheLocationOfParts,
    AsksTheValueBeforeTheNumber,
    AsksAllNumbersOfACutFirst,
    ForgivesEmptyParts,
    MeetsPartsWithTheInvariant,
    AddsWhatAPartIsWorth,
    ForbidsLandingsOutside,
    ForbidsLandingsOutsideInBlockedRows,
    HoldsOnlyWhereAllEdgesLandInside,
    HoldsLandingsOutsideToo,
    HoldsNothingWhereItCanMiss,
    ForgivesTheLocationWhereAllLandOutside,
    AddsTheSuccessorsValueForAMiss,
    AddsVAndTheSuccessorsValue,
    AddsVForTheWholeRow,
    MissesOnlyWhereAllLandOutside,
    MissesFromAnEmptyReach,
    MissesAtScaleOneOnly,
    MissesByTheFirstEdgeOnly,
    MissesFromAnywhere,
    NoMissAtATarget,
    AddsNothingOutsideATarget,
    AsksTheSourcesInvariant,
    AsksTheLandingBeforeTheReset,
    ForgetsTheStrictnessOfTheInvariant,
    ForgetsTheLowerBoundsOfTheInvariant,
}

impl Flaw {
    pub const ALL: [Flaw; 47] = [
        Flaw::TrustsANodesZoneToLieInItsInvariant,
        Flaw::DelaysPastTheInvariant,
        Flaw::ForgetsTheDelay,
        Flaw::ForgetsTheGuard,
        Flaw::ResetsBeforeTheGuard,
        Flaw::ForgetsTheReset,
        Flaw::BelievesBlockedRows,
        Flaw::ForgivesRowsWithEmptyReach,
        Flaw::AddsIn32Bits,
        Flaw::AsksTheSumFirst,
        Flaw::ChecksOnlyNode0,
        Flaw::ForgetsTheStartNode,
        Flaw::ForgetsTheStartInvariant,
        Flaw::ForgetsTargetValues,
        Flaw::BelievesCuts,
        Flaw::TakesItsOwnNumberForAPart,
        Flaw::TakesLowerNumbersForParts,
        Flaw::ForgetsTheNegationOfTheRest,
        Flaw::ForgetsTheStrictnessOfTheRest,
        Flaw::ExchangesTheParts,
        Flaw::AsksTheValueOfTheFirstPartOnly,
        Flaw::ForgetsTheLocationOfParts,
        Flaw::AsksTheValueBeforeTheNumber,
        Flaw::AsksAllNumbersOfACutFirst,
        Flaw::ForgivesEmptyParts,
        Flaw::MeetsPartsWithTheInvariant,
        Flaw::AddsWhatAPartIsWorth,
        Flaw::ForbidsLandingsOutside,
        Flaw::ForbidsLandingsOutsideInBlockedRows,
        Flaw::HoldsOnlyWhereAllEdgesLandInside,
        Flaw::HoldsLandingsOutsideToo,
        Flaw::HoldsNothingWhereItCanMiss,
        Flaw::ForgivesTheLocationWhereAllLandOutside,
        Flaw::AddsTheSuccessorsValueForAMiss,
        Flaw::AddsVAndTheSuccessorsValue,
        Flaw::AddsVForTheWholeRow,
        Flaw::MissesOnlyWhereAllLandOutside,
        Flaw::MissesFromAnEmptyReach,
        Flaw::MissesAtScaleOneOnly,
        Flaw::MissesByTheFirstEdgeOnly,
        Flaw::MissesFromAnywhere,
        Flaw::NoMissAtATarget,
        Flaw::AddsNothingOutsideATarget,
        Flaw::AsksTheSourcesInvariant,
        Flaw::AsksTheLandingBeforeTheReset,
        Flaw::ForgetsTheStrictnessOfTheInvariant,
        Flaw::ForgetsTheLowerBoundsOfTheInvariant,
    ];

    /// Those that card 4 invites; they stand last.
    pub fn of_landings() -> &'static [Flaw] {
        let first = Flaw::ForbidsLandingsOutside as usize;
        &Flaw::ALL[first..]
    }
}

pub fn flawed_judge(flaw: Flaw, model: &[u32], table: &[u32]) -> Result<Certificate, Refusal> {
    let model = &parse_model(model)?;
    let table = &parse_table(model, table)?;
    let judge = Judge { flaw, model, table };
    let judged = if flaw == Flaw::ChecksOnlyNode0 {
        1
    } else {
        table.nodes.len()
    };
    for number in 0..judged {
        judge.node(number)?;
    }
    judge.start()?;
    let b = table.nodes[table.start.node].value;
    Ok(Certificate {
        b,
        whole: table.whole,
        nodes: table.nodes.len(),
    })
}

struct Judge<'a> {
    flaw: Flaw,
    model: &'a Model,
    table: &'a Table,
}

impl Judge<'_> {
    fn invariant(&self, location: usize) -> Zone {
        Zone::of(self.model.clocks, &self.model.locations[location].invariant)
    }

    fn zone(&self, node: &Node) -> Zone {
        Zone::of(self.model.clocks, &node.bounds)
    }

    fn node(&self, number: usize) -> Result<(), Refusal> {
        let node = &self.table.nodes[number];
        if self.model.locations[node.location].target {
            let good = node.value == self.table.whole || self.flaw == Flaw::ForgetsTargetValues;
            return demand(good, 15, node.value_place);
        }
        match &node.body {
            Body::Rows(rows) => self.rows(node, rows),
            Body::Cut(cut) => self.cut(number, cut),
        }
    }

    fn rows(&self, node: &Node, rows: &[Row]) -> Result<(), Refusal> {
        let actions = &self.model.locations[node.location].actions;
        for (row, action) in rows.iter().zip(actions) {
            let mut reach = self.reach(node, action);
            if self.forbids_landings_outside(row) {
                reach = self.landing_inside(action, &reach);
            }
            match row {
                Row::Blocked { place } => {
                    let believed = self.flaw == Flaw::BelievesBlockedRows;
                    demand(believed || reach.is_empty(), 16, *place)?;
                }
                Row::Successors(successors) => self.row(node, action, successors, &reach)?,
            }
        }
        Ok(())
    }

    fn reach(&self, node: &Node, action: &Action) -> Zone {
        let invariant = self.invariant(node.location);
        let mut reach = self.zone(node);
        if self.flaw != Flaw::TrustsANodesZoneToLieInItsInvariant {
            reach = reach.meet(&invariant);
        }
        if self.flaw != Flaw::ForgetsTheDelay {
            reach = reach.delay();
        }
        if self.flaw != Flaw::DelaysPastTheInvariant {
            reach = reach.meet(&invariant);
        }
        if !matches!(
            self.flaw,
            Flaw::ForgetsTheGuard | Flaw::ResetsBeforeTheGuard
        ) {
            reach = reach.meet(&Zone::of(self.model.clocks, &action.guard));
        }
        reach
    }

    fn row(
        &self,
        node: &Node,
        action: &Action,
        successors: &[NodeRef],
        reach: &Zone,
    ) -> Result<(), Refusal> {
        if self.flaw == Flaw::ForgivesRowsWithEmptyReach && reach.is_empty() {
            return Ok(());
        }
        if self.flaw == Flaw::AsksTheSumFirst {
            self.sum(node, action, successors, reach)?;
        }
        for (edge, successor) in action.edges.iter().zip(successors) {
            let next = &self.table.nodes[successor.node];
            let located = next.location == edge.location
                || self.flaw == Flaw::ForgivesTheLocationWhereAllLandOutside
                    && !reach.is_empty()
                    && self.landings(node, edge, reach).is_empty();
            demand(located, 17, successor.place)?;
            let held = self.to_be_held(node, action, edge, reach);
            demand(held.inside(&self.zone(next)), 18, successor.place)?;
        }
        self.sum(node, action, successors, reach)
    }

    fn sum(
        &self,
        node: &Node,
        action: &Action,
        successors: &[NodeRef],
        reach: &Zone,
    ) -> Result<(), Refusal> {
        let mut sum = 0;
        for (number, (edge, successor)) in action.edges.iter().zip(successors).enumerate() {
            let own = self.worth(&self.table.nodes[successor.node]);
            let missed = self.can_miss(node, action, number, reach);
            sum += u64::from(edge.weight) * self.added(edge, own, missed);
        }
        let mut most = u64::from(self.model.denominator) * u64::from(node.value);
        if self.flaw == Flaw::AddsIn32Bits {
            (sum, most) = (sum & 0xFFFF_FFFF, most & 0xFFFF_FFFF);
        }
        demand(sum <= most, 19, successors[0].place)
    }

    /// What a successor adds to a sum by its own value.
    fn worth(&self, node: &Node) -> u32 {
        match node.cut() {
            Some(cut) if self.flaw == Flaw::AddsWhatAPartIsWorth => {
                let values = cut.parts.map(|part| self.table.nodes[part.node].value);
                values[0].max(values[1])
            }
            _ => node.value,
        }
    }

    fn cut(&self, number: usize, cut: &Cut) -> Result<(), Refusal> {
        let sides = self.sides(cut);
        if self.flaw == Flaw::AsksAllNumbersOfACutFirst {
            for named in &cut.parts {
                self.number(number, named)?;
            }
        }
        for (named, side) in cut.parts.iter().zip(sides) {
            let part = self.part(&self.table.nodes[number], side);
            if self.flaw == Flaw::ForgivesEmptyParts && part.is_empty() {
                continue;
            }
            if self.flaw == Flaw::AsksTheValueBeforeTheNumber {
                self.location_and_value(number, cut, named)?;
            }
            self.number(number, named)?;
            self.location_and_value(number, cut, named)?;
            let believed = self.flaw == Flaw::BelievesCuts;
            let inside = part.inside(&self.zone(&self.table.nodes[named.node]));
            demand(believed || inside, 53, named.place)?;
        }
        Ok(())
    }

    /// The bounds of the two parts.
    fn sides(&self, cut: &Cut) -> [Bound; 2] {
        let (bound, rest) = (cut.bound, cut.bound.negated());
        match self.flaw {
            Flaw::ForgetsTheNegationOfTheRest => [bound, bound],
            Flaw::ForgetsTheStrictnessOfTheRest => {
                let strict = bound.strict;
                [bound, Bound { strict, ..rest }]
            }
            Flaw::ExchangesTheParts => [rest, bound],
            _ => [bound, rest],
        }
    }

    fn part(&self, node: &Node, side: Bound) -> Zone {
        let part = self.zone(node).meet(&Zone::of(self.model.clocks, &[side]));
        if self.flaw == Flaw::MeetsPartsWithTheInvariant {
            return part.meet(&self.invariant(node.location));
        }
        part
    }

    /// 51.
    fn number(&self, number: usize, named: &NodeRef) -> Result<(), Refusal> {
        let above = match self.flaw {
            Flaw::TakesItsOwnNumberForAPart => named.node >= number,
            Flaw::TakesLowerNumbersForParts => named.node != number,
            _ => named.node > number,
        };
        demand(above, 51, named.place)
    }

    /// 52.
    fn location_and_value(&self, number: usize, cut: &Cut, named: &NodeRef) -> Result<(), Refusal> {
        let (node, holder) = (&self.table.nodes[number], &self.table.nodes[named.node]);
        let forgotten = self.flaw == Flaw::ForgetsTheLocationOfParts;
        let left_out =
            self.flaw == Flaw::AsksTheValueOfTheFirstPartOnly && named.place != cut.parts[0].place;
        let located = forgotten || holder.location == node.location;
        let valued = left_out || holder.value <= node.value;
        demand(located && valued, 52, named.place)
    }

    fn start(&self) -> Result<(), Refusal> {
        let NodeRef { node, place } = self.table.start;
        let node = &self.table.nodes[node];
        if self.flaw == Flaw::ForgetsTheStartNode {
            return Ok(());
        }
        demand(node.location == self.model.start.location, 20, place)?;
        let states = if self.flaw == Flaw::ForgetsTheStartInvariant {
            Zone::of(self.model.clocks, &self.model.start.bounds)
        } else {
            self.model.start_zone()
        };
        demand(states.inside(&self.zone(node)), 21, place)
    }
}

fn demand(met: bool, number: u32, place: usize) -> Result<(), Refusal> {
    if met {
        Ok(())
    } else {
        Err(Refusal { number, place })
    }
}
