//! Boards as a caller may hand them in: of any length, with any numbers in their fields.

use super::board::{Board, History, Submission};
use super::draw::{vacant, Habits};
use super::fractions::{claim, fraction, LARGEST};
use crate::random::Random;
use crate::reading::Slot;

/// A board and a request with a known answer.
pub struct Directed {
    pub board: Board,
    pub submission: Submission,
    /// 54, 55 or 56; where it is none, the judge answers.
    pub refusal: Option<u32>,
    /// Whether ranking gives 54 for these slots.
    pub slots_refused: bool,
}

/// The slot that the directed submissions name, for this team.
const NAMED: usize = 5;
const TEAM: u32 = 3;

fn held(team: u32, b: u32, whole: u32) -> Slot {
    Slot {
        held: true,
        team,
        b,
        whole,
    }
}

/// Boards in range and out of range, with something left or nothing, the named slot vacant, the
/// team's own or another's, and a table that the judge accepts or refuses: so 54, 55, 56 and the
/// judge's refusal are due alone and together.
pub fn directed() -> Vec<Directed> {
    let mut cases = Vec::new();
    for named in [Slot::VACANT, held(TEAM, 1, 2), held(TEAM + 1, 1, 2)] {
        for others in [Slot::VACANT, held(7, LARGEST, LARGEST), held(0, 0, 1)] {
            for allowance in [0, 1, 100] {
                for b in [1, 3] {
                    let mut slots = vec![others; 16];
                    slots[NAMED] = named;
                    let (model, table) = claim((b, 2)); // 3/2 is refused
                    let case = Directed {
                        refusal: in_range_refusal(allowance, &named),
                        board: Board { slots, allowance },
                        submission: Submission::new(TEAM, NAMED as u32, model, table),
                        slots_refused: false,
                    };
                    cases.extend(changed(&case));
                    cases.push(case);
                }
            }
        }
    }
    cases
}

/// 55 before 56.
fn in_range_refusal(allowance: u32, named: &Slot) -> Option<u32> {
    if allowance == 0 {
        Some(55)
    } else if named.held && named.team != TEAM {
        Some(56)
    } else {
        None
    }
}

/// The same with one thing out of range, and with things in vacant slots that are not read.
fn changed(case: &Directed) -> Vec<Directed> {
    let mut cases = Vec::new();
    for count in [0, 1, 15, 17, 40] {
        let mut board = case.board.clone();
        board.slots.resize(count, Slot::VACANT);
        cases.push(case.with_slots(board, Some(54)));
    }
    for number in [0, NAMED, 15] {
        for slot in slots_out_of_range() {
            let mut board = case.board.clone();
            board.slots[number] = slot;
            cases.push(case.with_slots(board, Some(54)));
            if !case.board.slots[number].held {
                let mut board = case.board.clone();
                board.slots[number] = Slot {
                    held: false,
                    ..slot
                };
                cases.push(case.with_slots(board, case.refusal));
            }
        }
    }
    for allowance in [101, 1 << 8, 1 << 16, u32::MAX] {
        let mut board = case.board.clone();
        board.allowance = allowance;
        cases.push(case.asked(board, TEAM, NAMED as u32));
    }
    for team in [8, 9, 1 << 8 | TEAM, 1 << 16 | TEAM, u32::MAX] {
        cases.push(case.asked(case.board.clone(), team, NAMED as u32));
    }
    for slot in [16, 17, 1 << 8, 1 << 16, 1 << 31, u32::MAX] {
        cases.push(case.asked(case.board.clone(), TEAM, slot));
        cases.push(case.asked(case.board.clone(), 8, slot));
    }
    cases
}

impl Directed {
    fn with_slots(&self, board: Board, refusal: Option<u32>) -> Directed {
        Directed {
            board,
            submission: self.submission.clone(),
            refusal,
            slots_refused: refusal == Some(54),
        }
    }

    /// 54, but not for the slots.
    fn asked(&self, board: Board, team: u32, slot: u32) -> Directed {
        Directed {
            board,
            submission: Submission {
                team,
                slot,
                ..self.submission.clone()
            },
            refusal: Some(54),
            slots_refused: false,
        }
    }
}

/// Held slots that no table and no team can have made, each field by itself.
fn slots_out_of_range() -> Vec<Slot> {
    vec![
        held(8, 1, 2),
        held(1 << 8 | TEAM, 1, 2),
        held(u32::MAX, 1, 2),
        held(TEAM, 0, 0),
        held(TEAM, 1, 0),
        held(TEAM, 0, LARGEST + 1),
        held(TEAM, LARGEST, LARGEST + 1),
        held(TEAM, 1, u32::MAX),
        held(TEAM, 2, 1),
        held(TEAM, LARGEST + 1, LARGEST),
        held(TEAM, u32::MAX, LARGEST),
    ]
}

/// Any board, often full or almost, and a few submissions.
pub fn drawn(random: &mut Random) -> History {
    let count = random.pick(&[16, 16, 16, 16, 16, 16, 16, 0, 1, 15, 17, 40]);
    let vacancies = random.pick(&[2, 16, usize::MAX]);
    let slots = (0..count).map(|_| {
        if random.one_in(vacancies) {
            vacant(random)
        } else {
            let (b, whole) = fraction(random);
            held(random.below(8) as u32, b, whole)
        }
    });
    let mut slots: Vec<Slot> = slots.collect();
    if count > 0 && random.one_in(4) {
        let number = random.below(count);
        slots[number] = random.pick(&slots_out_of_range());
    }
    let left = [0, 1, 2, 50, 99, 100, 100, 100, 101, u32::MAX];
    let allowance = random.pick(&left);
    let habits = Habits {
        teams: 8,
        visits: 2,
        strays: 20,
        drawn: 1,
    };
    let length = random.between(1, 4);
    let submissions = (0..length).map(|_| habits.submission(random, &[]));
    History {
        submissions: submissions.collect(),
        start: Board { slots, allowance },
    }
}
