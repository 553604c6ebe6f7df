//! A board with one flaw to choose: errors that card 3 of document 02 invites. Its judge is the
//! reading's, and right.

use std::cmp::Ordering;

use crate::reading::{judge, Certificate, Refusal, Slot};

/// The largest V.
const LARGEST: u32 = (1 << 28) - 1;

#[derive(Clone, Copy, Debug, PartialEq, Eq)]
pub enum BoardFlaw {
    SpendsOn54,
    SpendsOn55,
    SpendsOn56,
    SpendsNothingOnTheJudgesRefusal,
    SpendsNothingOnAcceptance,
    KeepsOneSubmissionBack,
    VacatesTheSlotOnRefusal,
    HoldsTheSlotOnRefusal,
    KeepsTheFirstFraction,
    KeepsTheSmallerFraction,
    WritesTheFractionReduced,
    WritesTheNextSlotToo,
    WritesTeam0,
    InventsTheNodeCount,
    TakesTeam8,
    TakesSlot16AsSlot0,
    TakesAnAllowanceOf101,
    Takes15Slots,
    Takes17Slots,
    TakesTeam8InASlot,
    TakesAFractionAbove1,
    TakesAWholeOf0,
    TakesAWholeOf29Bits,
    RefusesAFractionOf1,
    RefusesTheLargestWhole,
    ReadsVacantSlots,
    AsksTheNamedSlotOnly,
    TakesSlotsOfOthers,
    ReadsTheTeamOfAVacantSlot,
    Asks55Before54,
    Asks56Before54,
    Asks56Before55,
    AsksTheJudgeFirst,
    RanksLargerFractionsFirst,
    RanksHigherNumbersFirst,
    RanksByBAlone,
    RanksByFloatingPoint,
    RanksByWholeQuotients,
    RanksByProductsOf32Bits,
    RanksVacantSlots,
    RanksWithoutAsking,
}

impl BoardFlaw {
    pub const ALL: [BoardFlaw; 41] = [
        BoardFlaw::SpendsOn54,
        BoardFlaw::SpendsOn55,
        BoardFlaw::SpendsOn56,
        BoardFlaw::SpendsNothingOnTheJudgesRefusal,
        BoardFlaw::SpendsNothingOnAcceptance,
        BoardFlaw::KeepsOneSubmissionBack,
        BoardFlaw::VacatesTheSlotOnRefusal,
        BoardFlaw::HoldsTheSlotOnRefusal,
        BoardFlaw::KeepsTheFirstFraction,
        BoardFlaw::KeepsTheSmallerFraction,
        BoardFlaw::WritesTheFractionReduced,
        BoardFlaw::WritesTheNextSlotToo,
        BoardFlaw::WritesTeam0,
        BoardFlaw::InventsTheNodeCount,
        BoardFlaw::TakesTeam8,
        BoardFlaw::TakesSlot16AsSlot0,
        BoardFlaw::TakesAnAllowanceOf101,
        BoardFlaw::Takes15Slots,
        BoardFlaw::Takes17Slots,
        BoardFlaw::TakesTeam8InASlot,
        BoardFlaw::TakesAFractionAbove1,
        BoardFlaw::TakesAWholeOf0,
        BoardFlaw::TakesAWholeOf29Bits,
        BoardFlaw::RefusesAFractionOf1,
        BoardFlaw::RefusesTheLargestWhole,
        BoardFlaw::ReadsVacantSlots,
        BoardFlaw::AsksTheNamedSlotOnly,
        BoardFlaw::TakesSlotsOfOthers,
        BoardFlaw::ReadsTheTeamOfAVacantSlot,
        BoardFlaw::Asks55Before54,
        BoardFlaw::Asks56Before54,
        BoardFlaw::Asks56Before55,
        BoardFlaw::AsksTheJudgeFirst,
        BoardFlaw::RanksLargerFractionsFirst,
        BoardFlaw::RanksHigherNumbersFirst,
        BoardFlaw::RanksByBAlone,
        BoardFlaw::RanksByFloatingPoint,
        BoardFlaw::RanksByWholeQuotients,
        BoardFlaw::RanksByProductsOf32Bits,
        BoardFlaw::RanksVacantSlots,
        BoardFlaw::RanksWithoutAsking,
    ];
}

/// A submission's team and slot.
#[derive(Clone, Copy)]
pub struct Request {
    pub team: u32,
    pub slot: u32,
}

impl BoardFlaw {
    pub fn submit(
        self,
        slots: &mut [Slot],
        allowance: &mut u32,
        request: Request,
        model: &[u32],
        table: &[u32],
    ) -> Result<Certificate, Refusal> {
        if self == BoardFlaw::AsksTheJudgeFirst {
            judge(model, table)?;
        }
        if let Err(refusal) = self.before_the_judge(slots, *allowance, request) {
            let spent = match refusal.number {
                54 => self == BoardFlaw::SpendsOn54,
                55 => self == BoardFlaw::SpendsOn55,
                _ => self == BoardFlaw::SpendsOn56,
            };
            *allowance = allowance.wrapping_sub(u32::from(spent));
            return Err(refusal);
        }
        let judged = judge(model, table);
        let spent = match judged {
            Ok(_) => self != BoardFlaw::SpendsNothingOnAcceptance,
            Err(_) => self != BoardFlaw::SpendsNothingOnTheJudgesRefusal,
        };
        *allowance -= u32::from(spent);
        self.write(slots, request, &judged);
        let invented = self == BoardFlaw::InventsTheNodeCount;
        judged.map(|right| Certificate {
            nodes: if invented { 1 } else { right.nodes },
            ..right
        })
    }

    fn before_the_judge(
        self,
        slots: &[Slot],
        allowance: u32,
        request: Request,
    ) -> Result<(), Refusal> {
        let least = u32::from(self == BoardFlaw::KeepsOneSubmissionBack);
        let mut demands = [
            (54, self.in_range(slots, allowance, request)),
            (55, allowance > least),
            (56, self.may_write(slots, request)),
        ];
        match self {
            BoardFlaw::Asks55Before54 => demands.swap(0, 1),
            BoardFlaw::Asks56Before54 => demands.rotate_right(1),
            BoardFlaw::Asks56Before55 => demands.swap(1, 2),
            _ => {}
        }
        let unmet = demands.iter().find(|(_, met)| !met);
        unmet.map_or(Ok(()), |&(number, _)| Err(Refusal { number, place: 0 }))
    }

    fn in_range(self, slots: &[Slot], allowance: u32, request: Request) -> bool {
        let slots_in_range = match slots.get(request.slot as usize) {
            Some(named) if self == BoardFlaw::AsksTheNamedSlotOnly => {
                slots.len() == 16 && self.slot_in_range(named)
            }
            _ => self.slots_in_range(slots),
        };
        let most = 100 + u32::from(self == BoardFlaw::TakesAnAllowanceOf101);
        let teams = 8 + u32::from(self == BoardFlaw::TakesTeam8);
        let numbers = 16 + u32::from(self == BoardFlaw::TakesSlot16AsSlot0);
        slots_in_range && allowance <= most && request.team < teams && request.slot < numbers
    }

    fn slots_in_range(self, slots: &[Slot]) -> bool {
        let counted = match slots.len() {
            15 => self == BoardFlaw::Takes15Slots,
            17 => self == BoardFlaw::Takes17Slots,
            count => count == 16,
        };
        counted && slots.iter().all(|slot| self.slot_in_range(slot))
    }

    fn slot_in_range(self, slot: &Slot) -> bool {
        if !slot.held && self != BoardFlaw::ReadsVacantSlots {
            return true;
        }
        let teams = 8 + u32::from(self == BoardFlaw::TakesTeam8InASlot);
        let largest = match self {
            BoardFlaw::TakesAWholeOf29Bits => LARGEST + 1,
            BoardFlaw::RefusesTheLargestWhole => LARGEST - 1,
            _ => LARGEST,
        };
        let fraction = match self {
            BoardFlaw::TakesAFractionAbove1 => true,
            BoardFlaw::RefusesAFractionOf1 => slot.b < slot.whole,
            _ => slot.b <= slot.whole,
        };
        let nonzero = slot.whole > 0 || self == BoardFlaw::TakesAWholeOf0;
        slot.team < teams && slot.whole <= largest && fraction && nonzero
    }

    fn may_write(self, slots: &[Slot], request: Request) -> bool {
        let Some(named) = slots.get(request.slot as usize) else {
            return true;
        };
        let vacant = !named.held && self != BoardFlaw::ReadsTheTeamOfAVacantSlot;
        vacant || named.team == request.team || self == BoardFlaw::TakesSlotsOfOthers
    }

    fn write(self, slots: &mut [Slot], request: Request, judged: &Result<Certificate, Refusal>) {
        let number = request.slot as usize % 16;
        let Some(named) = slots.get_mut(number) else {
            return;
        };
        match judged {
            Ok(certificate) => {
                let new = self.written(request.team, certificate);
                let kept = match self {
                    BoardFlaw::KeepsTheFirstFraction => named.held,
                    BoardFlaw::KeepsTheSmallerFraction => named.held && cross(&new, named).is_gt(),
                    _ => false,
                };
                if !kept {
                    *named = new;
                }
                let too_far = self == BoardFlaw::WritesTheNextSlotToo;
                if let Some(next) = slots.get_mut(number + 1).filter(|_| too_far) {
                    *next = new;
                }
            }
            Err(_) if self == BoardFlaw::VacatesTheSlotOnRefusal => named.held = false,
            Err(_) if self == BoardFlaw::HoldsTheSlotOnRefusal => {
                (named.held, named.team) = (true, request.team);
            }
            Err(_) => {}
        }
    }

    fn written(self, team: u32, certificate: &Certificate) -> Slot {
        let (b, whole) = (certificate.b, certificate.whole);
        let divisor = match self {
            BoardFlaw::WritesTheFractionReduced => common_divisor(b, whole),
            _ => 1,
        };
        Slot {
            held: true,
            team: match self {
                BoardFlaw::WritesTeam0 => 0,
                _ => team,
            },
            b: b / divisor,
            whole: whole / divisor,
        }
    }

    pub fn rank(self, slots: &[Slot]) -> Result<Vec<usize>, Refusal> {
        if !self.slots_in_range(slots) && self != BoardFlaw::RanksWithoutAsking {
            let (number, place) = (54, 0);
            return Err(Refusal { number, place });
        }
        let held = |at: &usize| slots[*at].held || self == BoardFlaw::RanksVacantSlots;
        let mut order: Vec<usize> = (0..slots.len()).filter(held).collect();
        order.sort_by(|&one, &other| {
            let by_number = match self {
                BoardFlaw::RanksHigherNumbersFirst => other.cmp(&one),
                _ => one.cmp(&other),
            };
            self.compare(&slots[one], &slots[other]).then(by_number)
        });
        Ok(order)
    }

    fn compare(self, one: &Slot, other: &Slot) -> Ordering {
        let float = |slot: &Slot| f64::from(slot.b) / f64::from(slot.whole);
        let quotient = |slot: &Slot| slot.b.checked_div(slot.whole);
        match self {
            BoardFlaw::RanksLargerFractionsFirst => cross(other, one),
            BoardFlaw::RanksByBAlone => one.b.cmp(&other.b),
            BoardFlaw::RanksByFloatingPoint => float(one).total_cmp(&float(other)),
            BoardFlaw::RanksByWholeQuotients => quotient(one).cmp(&quotient(other)),
            BoardFlaw::RanksByProductsOf32Bits => {
                let product = other.b.wrapping_mul(one.whole);
                one.b.wrapping_mul(other.whole).cmp(&product)
            }
            _ => cross(one, other),
        }
    }
}

fn cross(one: &Slot, other: &Slot) -> Ordering {
    let product = u64::from(other.b) * u64::from(one.whole);
    (u64::from(one.b) * u64::from(other.whole)).cmp(&product)
}

fn common_divisor(one: u32, other: u32) -> u32 {
    if other == 0 {
        one
    } else {
        common_divisor(other, one % other)
    }
}
