//! What a board is made of: its slots and its ledger, as the library takes them.

/// How many slots a board has.
pub const SLOTS: usize = 16;

/// A slot of a board: vacant, or held by a team with the fraction that the judge certified for it.
///
/// What a vacant one has in its other fields changes no answer and stays as it is, but `==`
/// compares it all the same.
#[derive(Clone, Copy, Debug, PartialEq, Eq)]
#[repr(C)]
pub struct Slot {
    /// Whether a team holds it.
    pub held: bool,
    /// The team, 0 to 7.
    pub team: u32,
    /// The numerator of the certified fraction b / V, which is kept as certified, not reduced.
    pub b: u32,
    /// V, its denominator.
    pub whole: u32,
}

impl Slot {
    /// A slot that nobody holds, as on a fresh board.
    pub const VACANT: Slot = Slot {
        held: false,
        team: 0,
        b: 0,
        whole: 0,
    };
}

/// What a board's submissions spend.
#[derive(Clone, Copy, Debug, PartialEq, Eq)]
#[repr(C)]
pub struct Ledger {
    /// How many submissions may still go to the judge, over all teams together.
    pub allowance: u32,
}

impl Ledger {
    /// The ledger of a fresh board: all 100 submissions are left.
    pub const FRESH: Ledger = Ledger { allowance: 100 };
}
