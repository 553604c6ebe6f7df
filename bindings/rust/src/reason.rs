//! Why something is refused. Each number stands once, with its name and what it means.

macro_rules! reasons {
    ($($name:ident = $number:literal: $meaning:literal $(, $place:literal)?;)*) => {
        /// Why something is refused: the numbers of documents 01 and 02. docs/REFUSALS.md of the
        /// repository says what a planner does about each. The C header has the same names.
        #[derive(Clone, Copy, Debug, PartialEq, Eq)]
        #[non_exhaustive]
        pub enum Reason {
            $(
                #[doc = concat!(stringify!($number), ": ", $meaning, ".")]
                $(#[doc = concat!(" The place is ", $place, ".")])?
                $name = $number,
            )*
        }

        impl Reason {
            pub(crate) const ALL: &'static [Reason] = &[$(Reason::$name),*];

            /// What it means, in a few words.
            #[must_use]
            pub fn meaning(self) -> &'static str {
                match self {
                    $(Reason::$name => $meaning,)*
                }
            }
        }
    };
}

// name = number: what it means, and what the place is where that is not plain.
reasons! {
    BadModelKind = 1: "missing word in the model, or kind not allowed here";
    BadModelField = 2: "field of the model outside its range, spare bit set, or no such start location";
    OverModelLimit = 3: "location, action or edge over its limit";
    BadWeights = 4: "the weights of an action do not add to D", "the word after its last edge";
    NoLocation = 5: "an edge's location does not exist", "the first such edge";
    NoStart = 6: "no start state at any scale", "the start word";

    BadTableKind = 11: "missing word in the table or wrong kind, rows, cuts and end included";
    BadTableField = 12: "field of the table outside its range, spare bit set, or no such node location";
    OverTableLimit = 13: "a 65th node";
    NoNode = 14: "a node number is not there", "the first such B or C word";

    BadTargetValue = 15: "a target's value is not V", "its 9 word";
    NotBlocked = 16: "a row said to be blocked is not", "its A word";
    WrongLocation = 17: "a successor has another location than the edge", "its B word";
    NotInside = 18: "a landing inside its location's invariant is not inside the successor's zone", "its B word";
    SumTooLarge = 19: "the weighted sum is too large for the node's value", "the row's first B word";
    WrongStart = 20: "the start node has another location than the start", "the C word";
    StartNotInside = 21: "the start valuations are not inside the start node's zone", "the C word";

    BadClocks = 31: "C outside 1 to 4", "0";
    BadBound = 32: "a word of the zone, of the first one where there are two, is no good bound";
    BadSecondBound = 33: "a word of the second zone is no good bound";

    PartNotAbove = 51: "a part's node has a number not above the cut node's", "its B word";
    PartMismatch = 52: "a part's node has another location or a larger value than the cut node", "its B word";
    PartNotInside = 53: "a part of the cut node's zone is not inside its node's zone", "its B word";

    BoardOutOfRange = 54: "not 16 slots, a held slot out of range, or allowance, team or slot number out of range", "0";
    AllowanceSpent = 55: "the allowance is spent", "0";
    SlotHeldByOther = 56: "another team holds the slot", "0";

    TooManyNodes = 58: "the draft would have a 65th node", "0";
    BoundTooFar = 59: "a node of the draft would have a bound beyond 4,095 either way", "0";
    TooFewWords = 60: "the words lent for the draft are too few", "0";
}

impl Reason {
    /// The documents' number.
    #[must_use]
    pub fn number(self) -> u32 {
        self as u32
    }
}
