//! Which nodes a flawed draft finds.

use std::collections::VecDeque;

use super::written::{bounds, HEAD};
use super::{refusal, DraftFlaw};
use crate::reading::judging::ModelZones;
use crate::reading::{Action, Bound, Edge, Model, Refusal, Zone};

pub struct Node {
    pub location: usize,
    pub target: bool,
    pub zone: Zone,
    pub rows: Vec<Row>,
}

/// None for a row with an A word.
pub type Row = Vec<Successor>;

#[derive(Clone, Copy)]
pub struct Successor {
    pub node: usize,
    pub weight: u32,
    pub can_miss: bool,
    /// Whether it lands outside always.
    pub all_miss: bool,
}

/// All nodes, with the head written to the lent words at once where that is the flaw.
pub fn nodes(flaw: DraftFlaw, model: &Model, lent: &mut [u32]) -> Result<Vec<Node>, Refusal> {
    if let (DraftFlaw::WritesTheHeadAtOnce, Some(first)) = (flaw, lent.first_mut()) {
        *first = HEAD;
    }
    let mut explorer = Explorer {
        flaw,
        model,
        zones: ModelZones::of(model),
        lent: lent.len(),
        nodes: Vec::new(),
        open: VecDeque::new(),
        far: false,
    };
    explorer.explore()?;
    match flaw == DraftFlaw::Asks59AtTheEnd && explorer.far {
        true => Err(refusal(59)),
        false => Ok(explorer.nodes),
    }
}

struct Explorer<'a> {
    flaw: DraftFlaw,
    model: &'a Model,
    zones: ModelZones,
    /// How many words are lent.
    lent: usize,
    nodes: Vec<Node>,
    /// Nodes that are still to be explored.
    open: VecDeque<usize>,
    /// Whether some node has a bound beyond 4,095.
    far: bool,
}

impl Explorer<'_> {
    fn explore(&mut self) -> Result<(), Refusal> {
        let start = &self.model.start;
        let zone = match self.flaw {
            DraftFlaw::StartsWithoutTheInvariant => Zone::of(self.model.clocks, &start.bounds),
            _ => self.model.start_zone(),
        };
        self.node_for(start.location, zone)?;
        while let Some(number) = self.next() {
            self.nodes[number].rows = self.rows(number)?;
        }
        Ok(())
    }

    fn next(&mut self) -> Option<usize> {
        match self.flaw {
            DraftFlaw::ExploresTheNewestNodeFirst => self.open.pop_back(),
            _ => self.open.pop_front(),
        }
    }

    fn rows(&mut self, number: usize) -> Result<Vec<Row>, Refusal> {
        let Node {
            location,
            target,
            zone,
            ..
        } = self.nodes[number];
        let spared = target && self.flaw != DraftFlaw::ExploresTargets
            || zone.is_empty() && self.flaw == DraftFlaw::LeavesEmptyNodesUnexplored;
        if spared {
            return Ok(Vec::new());
        }
        let actions = &self.model.locations[location].actions;
        let mut rows = vec![Row::new(); actions.len()];
        let backward = self.flaw == DraftFlaw::TakesActionsFromTheLast;
        for number in in_turn(actions.len(), backward) {
            let reach = self.reach(location, number, &zone);
            rows[number] = self.row(&actions[number], &reach)?;
        }
        Ok(rows)
    }

    fn reach(&self, location: usize, action: usize, zone: &Zone) -> Zone {
        let delayed = match self.flaw {
            DraftFlaw::ForgetsTheDelay => *zone,
            _ => self.zones.delayed(location, zone),
        };
        let reach = match self.flaw {
            DraftFlaw::ForgetsTheGuard => delayed,
            _ => self.zones.reach(location, action, &delayed),
        };
        if self.flaw != DraftFlaw::ForbidsLandingsOutside {
            return reach;
        }
        let edges = &self.model.locations[location].actions[action].edges;
        edges.iter().fold(reach, |part, edge| {
            part.landing_in(&self.invariant(edge), edge.resets)
        })
    }

    fn invariant(&self, edge: &Edge) -> Zone {
        let invariant = &self.model.locations[edge.location].invariant;
        Zone::of(self.model.clocks, invariant)
    }

    fn row(&mut self, action: &Action, reach: &Zone) -> Result<Row, Refusal> {
        if reach.is_empty() && self.flaw != DraftFlaw::DraftsRowsOfAnEmptyReach {
            return Ok(Row::new());
        }
        let backward = self.flaw == DraftFlaw::TakesEdgesFromTheLast;
        let mut row = Row::new();
        for number in in_turn(action.edges.len(), backward) {
            row.push(self.successor(&action.edges[number], reach)?);
        }
        if backward {
            row.reverse();
        }
        Ok(row)
    }

    fn successor(&mut self, edge: &Edge, reach: &Zone) -> Result<Successor, Refusal> {
        let landings = self.zones.landings(edge, reach);
        let zone = match self.flaw {
            DraftFlaw::ForgetsTheReset => reach.meet(&self.invariant(edge)),
            DraftFlaw::KeepsLandingsOutside => reach.reset(edge.resets),
            DraftFlaw::DelaysSuccessors => self.zones.delayed(edge.location, &landings.inside),
            _ => landings.inside,
        };
        Ok(Successor {
            node: self.node_for(edge.location, zone)?,
            weight: edge.weight,
            can_miss: landings.can_miss,
            all_miss: landings.inside.is_empty(),
        })
    }

    fn node_for(&mut self, location: usize, zone: Zone) -> Result<usize, Refusal> {
        if self.flaw == DraftFlaw::Asks58BeforeReuse && self.nodes.len() == 64 {
            return Err(refusal(58));
        }
        let same = |node: &Node| self.same(node, location, &zone);
        match self.nodes.iter().position(same) {
            Some(number) => Ok(number),
            None => self.new_node(location, zone),
        }
    }

    fn same(&self, node: &Node, location: usize, zone: &Zone) -> bool {
        let located = node.location == location;
        let valued = node.zone.same_as(zone);
        match self.flaw {
            DraftFlaw::ReusesWithoutTheLocation => valued,
            DraftFlaw::ReusesNoEmptyZones => located && valued && !zone.is_empty(),
            DraftFlaw::ReusesNothing => false,
            DraftFlaw::ReusesLargerZones => located && zone.inside(&node.zone),
            DraftFlaw::ReusesWithoutStrictness => {
                let loose = |zone: &Zone| bounds(zone).into_iter().map(not_strict);
                located && loose(&node.zone).eq(loose(zone))
            }
            _ => located && valued,
        }
    }

    fn new_node(&mut self, location: usize, zone: Zone) -> Result<usize, Refusal> {
        let number = self.nodes.len();
        let target = self.model.locations[location].target;
        let most = match self.flaw {
            DraftFlaw::Takes65Nodes => 65,
            DraftFlaw::Refuses64Nodes => 63,
            _ => 64,
        };
        let far = self.is_far(number, target, &zone);
        self.far |= far;
        let asked = self.flaw != DraftFlaw::Asks59AtTheEnd;
        let mut demands = [(58, number < most), (59, !far || !asked)];
        if self.flaw == DraftFlaw::Asks59Before58 {
            demands.swap(0, 1);
        }
        if self.flaw == DraftFlaw::Asks60Before58 && self.words() > self.lent {
            return Err(refusal(60));
        }
        if let Some((unmet, _)) = demands.iter().find(|(_, met)| !met) {
            return Err(refusal(*unmet));
        }
        self.open.push_back(number);
        self.nodes.push(Node {
            location,
            target,
            zone,
            rows: Vec::new(),
        });
        Ok(number)
    }

    /// Whether the node is refused with 59.
    fn is_far(&self, number: usize, target: bool, zone: &Zone) -> bool {
        let asked = match self.flaw {
            DraftFlaw::Asks59NotAtNode0 => number > 0,
            DraftFlaw::Asks59AtNode0Only => number == 0,
            DraftFlaw::Asks59NotAtTargets => !target,
            _ => true,
        };
        let farthest = match self.flaw {
            DraftFlaw::Takes4096 => 4096,
            DraftFlaw::Refuses4095 => 4094,
            _ => 4095,
        };
        let beyond = |bound: &Bound| match self.flaw {
            DraftFlaw::Asks59OfUpperBoundsOnly => bound.d > farthest,
            DraftFlaw::Asks59OfLowerBoundsOnly => bound.d < -farthest,
            _ => bound.d.abs() > farthest,
        };
        asked && bounds(zone).iter().any(beyond)
    }

    /// How many words the nodes have so far, with head and start.
    fn words(&self) -> usize {
        let of_node = |node: &Node| 2 + bounds(&node.zone).len();
        2 + self.nodes.iter().map(of_node).sum::<usize>()
    }
}

fn not_strict(bound: Bound) -> Bound {
    let strict = false;
    Bound { strict, ..bound }
}

/// The numbers below this one, the last first if it goes backward.
fn in_turn(count: usize, backward: bool) -> Vec<usize> {
    let mut numbers: Vec<usize> = (0..count).collect();
    if backward {
        numbers.reverse();
    }
    numbers
}
