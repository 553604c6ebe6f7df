//! The inputs of the figures: by name, with their words and slots, and asked of any side.

use std::hint::black_box;

use crate::kept::{Kept, Submission};
use crate::random::Random;
use crate::reading::{Bound, Certificate, Counts, Refusal, Slot};
use crate::sides::Side;
use crate::{spell, worked};

/// How many words the program takes at most.
pub const LONGEST: usize = 16_384;

/// How many nodes a table has at most.
const MOST_NODES: usize = 64;

/// How many slots a board has.
pub const SLOTS: usize = 16;

/// A line of the figures. The number of those that are long is how many words the table, the model,
/// the zone or both zones together have. A board has all slots held or none.
#[derive(Clone, Copy)]
pub enum Shape {
    Worked,
    Full { clocks: usize, nodes: usize },
    Cuts { clocks: usize },
    Outside { clocks: usize },
    LongestFile,
    LongTable(usize),
    LongModel(usize),
    LongZone(usize),
    LongZones(usize),
    Submit { held: bool },
    Rank { held: bool },
    WorkedDraft,
    FullDraft { rounds: u64 },
}

/// The lines, in the order in which they are printed.
pub fn all() -> Vec<Shape> {
    let mut shapes = vec![Shape::Worked];
    for clocks in 1..=4 {
        shapes.extend([1, 8, 64].map(|nodes| Shape::Full { clocks, nodes }));
    }
    shapes.extend([1, 4].map(|clocks| Shape::Cuts { clocks }));
    shapes.extend([1, 4].map(|clocks| Shape::Outside { clocks }));
    shapes.push(Shape::LongestFile);
    for words in [10_000, 100_000, 1_000_000] {
        shapes.extend([
            Shape::LongTable(words),
            Shape::LongModel(words),
            Shape::LongZone(words),
            Shape::LongZones(words),
        ]);
    }
    shapes.extend([false, true].map(|held| Shape::Submit { held }));
    shapes.extend([false, true].map(|held| Shape::Rank { held }));
    shapes.push(Shape::WorkedDraft);
    shapes.extend([0, 10, 1000].map(|rounds| Shape::FullDraft { rounds }));
    shapes
}

impl Shape {
    pub fn name(&self) -> String {
        let name = match self {
            Shape::Worked => "judge, worked case",
            Shape::Full { clocks, nodes } => {
                return format!(
                    "judge, full: {}, {}",
                    many(*clocks, "clock"),
                    many(*nodes, "node")
                );
            }
            Shape::Cuts { clocks } => {
                return format!(
                    "judge, cuts: {}, {MOST_NODES} nodes",
                    many(*clocks, "clock")
                );
            }
            Shape::Outside { clocks } => {
                return format!(
                    "judge, landings outside: {}, {MOST_NODES} nodes",
                    many(*clocks, "clock")
                );
            }
            Shape::LongestFile => "judge, longest file",
            Shape::LongTable(_) => "judge, long run of bounds",
            Shape::LongModel(_) => "read a model",
            Shape::LongZone(_) => "is a zone empty",
            Shape::LongZones(_) => "one zone inside another",
            Shape::Submit { held: false } => "submit, worked case, fresh board",
            Shape::Submit { held: true } => "submit, worked case, full board",
            Shape::Rank { held: false } => "rank, no slot held",
            Shape::Rank { held: true } => return format!("rank, {SLOTS} slots held"),
            Shape::WorkedDraft => "draft, worked case, 2 rounds",
            Shape::FullDraft { rounds } => {
                return format!("draft, full: 4 clocks, {MOST_NODES} nodes, {rounds} rounds");
            }
        };
        name.to_string()
    }

    pub fn input(&self) -> Input {
        match *self {
            Shape::Worked => Input::Judging(worked::MODEL.to_vec(), worked::TABLE.to_vec()),
            Shape::Full { clocks, nodes } => {
                Input::Judging(full_model(clocks), full_table(clocks, nodes))
            }
            Shape::Cuts { clocks } => Input::Judging(still_model(clocks), cut_table(clocks)),
            Shape::Outside { clocks } => Input::Judging(walled_model(clocks), walled_table(clocks)),
            Shape::LongestFile => Shape::LongTable(LONGEST - worked::MODEL.len()).input(),
            Shape::LongTable(words) => Input::Judging(worked::MODEL.to_vec(), long_table(words)),
            Shape::LongModel(words) => Input::Model(long_model(words)),
            Shape::LongZone(words) => Input::Zone(bounds(1, words)),
            Shape::LongZones(words) => Input::Zones(bounds(1, words / 2), bounds(2, words / 2)),
            Shape::Submit { held } => Input::Submission(board(held), worked_submission()),
            Shape::Rank { held } => Input::Rank(board(held)),
            Shape::WorkedDraft => Input::draft(worked::MODEL.to_vec(), 2, worked::DRAFT.len()),
            Shape::FullDraft { rounds } => Input::draft(drafted_model(), rounds, FULL_DRAFT),
        }
    }
}

fn many(count: usize, name: &str) -> String {
    let plural = if count == 1 { "" } else { "s" };
    format!("{count} {name}{plural}")
}

/// What a call is given; the zones are over four clocks.
pub enum Input {
    Judging(Vec<u32>, Vec<u32>),
    Model(Vec<u32>),
    Zone(Vec<u32>),
    Zones(Vec<u32>, Vec<u32>),
    Submission([Slot; SLOTS], Submission),
    Rank([Slot; SLOTS]),
    /// With exactly as many lent words as the draft has.
    Draft {
        model: Vec<u32>,
        rounds: u64,
        lent: usize,
    },
}

/// What a call answers; the list of a rank is not in it, since each side has its own form for it, nor are
/// the words of a draft, which are those that were lent.
#[derive(Debug, PartialEq)]
pub enum Answer {
    Judged(Result<Certificate, Refusal>),
    Read(Result<Counts, Refusal>),
    Asked(Result<bool, Refusal>),
    Ranked,
    Drafted(Result<usize, Refusal>),
}

impl Answer {
    pub fn is_refusal(&self) -> bool {
        match self {
            Answer::Judged(answer) => answer.is_err(),
            Answer::Read(answer) => answer.is_err(),
            Answer::Asked(answer) => answer.is_err(),
            Answer::Ranked => false,
            Answer::Drafted(answer) => answer.is_err(),
        }
    }
}

impl Input {
    fn draft(model: Vec<u32>, rounds: u64, lent: usize) -> Input {
        Input::Draft {
            model,
            rounds,
            lent,
        }
    }

    /// How many words are read, or written to what is lent.
    pub fn words(&self) -> usize {
        match self {
            Input::Judging(first, second) | Input::Zones(first, second) => {
                first.len() + second.len()
            }
            Input::Model(words) | Input::Zone(words) => words.len(),
            Input::Submission(_, submission) => submission.model.len() + submission.table.len(),
            Input::Rank(_) => 0,
            Input::Draft { model, lent, .. } => model.len() + lent,
        }
    }

    /// About how much there is to do: the words, once more for every round.
    pub fn work(&self) -> u64 {
        let rounds = match self {
            Input::Draft { rounds, .. } => *rounds,
            _ => 0,
        };
        self.words() as u64 * (1 + rounds)
    }

    /// The words that a side lends to its calls.
    pub fn lent(&self) -> Vec<u32> {
        match self {
            Input::Draft { lent, .. } => vec![0; *lent],
            _ => Vec::new(),
        }
    }

    /// The slots that a side prepares before its calls.
    pub fn slots(&self) -> [Slot; SLOTS] {
        match self {
            Input::Submission(slots, _) | Input::Rank(slots) => *slots,
            _ => board(false),
        }
    }

    /// One call, of which the compiler knows nothing beforehand. The board is this side's, with the
    /// slots of this input, and so are the lent words. Inlined, since what stands around a call is
    /// counted with it.
    #[inline]
    pub fn ask(&self, side: &dyn Side, board: &mut dyn Kept, lent: &mut [u32]) -> Answer {
        match black_box(self) {
            Input::Judging(model, table) => Answer::Judged(side.judge(model, table)),
            Input::Model(words) => Answer::Read(side.read_model(words)),
            Input::Zone(words) => Answer::Asked(side.zone_empty(4, words)),
            Input::Zones(first, second) => Answer::Asked(side.zone_inside(4, first, second)),
            Input::Submission(_, submission) => Answer::Judged(board.submit(submission)),
            Input::Rank(_) => {
                board.rank();
                Answer::Ranked
            }
            Input::Draft { model, rounds, .. } => Answer::Drafted(side.draft(model, *rounds, lent)),
        }
    }
}

/// The fractions of a full board: not in order, some of them equal, large and small denominators.
const FRACTIONS: [(u32, u32); SLOTS] = [
    (3, 10),
    (2, 4),
    (1, 1),
    (1, 10),
    (7, 9),
    (1, 2),
    (333_333, 1_000_000),
    (0, 7),
    (999_999, 1_000_000),
    (2, 20),
    (1, 3),
    (0x0FFF_FFFF, 0x0FFF_FFFF),
    (3, 6),
    (0, 1),
    (1, 0x0FFF_FFFF),
    (5, 8),
];

/// A full board, on which each team holds two slots, or a fresh one.
fn board(held: bool) -> [Slot; SLOTS] {
    let slot = |number: usize| Slot {
        held: true,
        team: 7 - number as u32 % 8,
        b: FRACTIONS[number].0,
        whole: FRACTIONS[number].1,
    };
    match held {
        true => std::array::from_fn(slot),
        false => [Slot::VACANT; SLOTS],
    }
}

/// The worked case, by the team that has slot 4 of a full board.
fn worked_submission() -> Submission {
    Submission {
        left: 50,
        team: 3,
        slot: 4,
        model: worked::MODEL.to_vec(),
        table: worked::TABLE.to_vec(),
    }
}

/// Bounds over four clocks that the valuation 0 meets, so that the zone is not empty.
fn bounds(seed: u64, count: usize) -> Vec<u32> {
    let mut random = Random::new(seed);
    (0..count).map(|_| bound_over(&mut random, 4)).collect()
}

/// A bound that the valuation 0 meets, over clocks 1 to `clocks` and clock 0.
fn bound_over(random: &mut Random, clocks: usize) -> u32 {
    let i = random.below(clocks + 1);
    let j = (i + 1 + random.below(clocks)) % (clocks + 1);
    let d = 1 + random.below(4095) as i32;
    spell::bound(&Bound {
        i,
        j,
        d,
        strict: random.below(2) == 1,
    })
}

/// The worked model, with further start bounds up to that many words.
fn long_model(words: usize) -> Vec<u32> {
    let mut model = worked::MODEL.to_vec();
    let mut random = Random::new(3);
    model.resize_with(words, || bound_over(&mut random, 1));
    model
}

/// The worked table, with further bounds at the node of the second location up to that many words.
/// They are loose, so that the zone still holds what the row attains.
fn long_table(words: usize) -> Vec<u32> {
    let mut random = Random::new(4);
    let loose = (worked::TABLE.len()..words).map(|_| {
        spell::bound(&Bound {
            i: 1,
            j: 0,
            d: 4 + random.below(4000) as i32,
            strict: random.below(2) == 1,
        })
    });
    let mut table = worked::TABLE[..7].to_vec();
    table.extend(loose);
    table.extend(&worked::TABLE[7..]);
    table
}

fn at_most(i: usize, j: usize, d: i32) -> u32 {
    spell::bound(&Bound {
        i,
        j,
        d,
        strict: false,
    })
}

fn each_at_most(clocks: usize, d: i32) -> impl Iterator<Item = u32> {
    (1..=clocks).map(move |clock| at_most(clock, 0, d))
}

/// One location with as many actions and edges as a model can have. The edges reset clocks in
/// turn.
fn full_model(clocks: usize) -> Vec<u32> {
    let mut model = busy_location(clocks, 0);
    model.push(spell::start(0));
    model.extend(each_at_most(clocks, 0));
    model
}

/// The same with all edges to a second location, in which clocks may be at most half as high: unless
/// it resets every clock, an edge can land outside.
fn walled_model(clocks: usize) -> Vec<u32> {
    let mut model = busy_location(clocks, 1);
    model.push(spell::location(false));
    model.extend(each_at_most(clocks, 10));
    model.push(spell::start(0));
    model.extend(each_at_most(clocks, 0));
    model
}

/// The head of a model and a location with all its actions and edges; where the edges lead is given.
fn busy_location(clocks: usize, to: usize) -> Vec<u32> {
    let mut model = vec![spell::head(clocks, 4), spell::location(false)];
    model.extend(each_at_most(clocks, 20));
    for action in 0..32 {
        let guard = at_most(0, 1 + action % clocks, -(action as i32 % 5));
        model.extend([spell::ACTION, guard]);
        let resets = |edge| (action as u32 + edge) & ((1 << clocks) - 1);
        model.extend((0..4).map(|edge| spell::edge(resets(edge), to, 1)));
    }
    model
}

/// So many nodes, each with 32 rows of 4 successors, the most that a node can have. All have the same
/// zone, with an upper bound for every clock and every pair of clocks.
fn full_table(clocks: usize, nodes: usize) -> Vec<u32> {
    let mut table = vec![spell::table_head(1)];
    for node in 0..nodes {
        table.extend(full_node(clocks));
        table.extend((0..32 * 4).map(|edge| spell::successor((node + edge) % nodes)));
    }
    table.push(spell::start_node(0));
    table
}

/// As many nodes as a table can have. The last one is the successor in every row of the others, and
/// holds no landing outside.
fn walled_table(clocks: usize) -> Vec<u32> {
    let mut table = vec![spell::table_head(1)];
    let last = MOST_NODES - 1;
    for _ in 0..last {
        table.extend(full_node(clocks));
        table.extend(vec![spell::successor(last); 32 * 4]);
    }
    table.push(spell::node(1));
    table.extend(each_at_most(clocks, 10));
    table.extend([spell::value(1), spell::start_node(0)]);
    table
}

/// A node up to its value, with an upper bound for every clock and every pair of clocks.
fn full_node(clocks: usize) -> Vec<u32> {
    let mut node = vec![spell::node(0)];
    node.extend(each_at_most(clocks, 20));
    let apart = |i| {
        let others = (1..=clocks).filter(move |j| *j != i);
        others.map(move |j| at_most(i, j, 20))
    };
    node.extend((1..=clocks).flat_map(apart));
    node.push(spell::value(1));
    node
}

/// One location without actions.
fn still_model(clocks: usize) -> Vec<u32> {
    let mut model = vec![spell::head(clocks, 1), spell::location(false)];
    model.push(spell::start(0));
    model.extend(each_at_most(clocks, 0));
    model
}

/// As many nodes as a table can have, each but the last cut in two, its parts in the next two nodes.
/// All have the same zone, and the clocks are cut in turn.
fn cut_table(clocks: usize) -> Vec<u32> {
    let mut table = vec![spell::table_head(1)];
    let last = MOST_NODES - 1;
    for node in 0..last {
        table.extend(full_node(clocks));
        table.push(spell::cut(&Bound {
            i: 1 + node % clocks,
            j: 0,
            d: 10,
            strict: false,
        }));
        table.extend([node + 1, node + 2].map(|part| spell::successor(part.min(last))));
    }
    table.extend(full_node(clocks));
    table.push(spell::start_node(0));
    table
}

/// How long the full draft is: a head, 63 nodes with 20 bounds and 128 successors, one without actions, and
/// the start.
const FULL_DRAFT: usize = 2 + 63 * (2 + 20 + 32 * 4) + 2 + 20;

/// Which clocks the edges reset, in turn: 63 zones are found at the location.
const RESETS: [u32; 9] = [1, 2, 3, 4, 5, 7, 8, 9, 10];

/// A model for as large a draft as there can be whose values change in every round. The first location has
/// as many actions and edges as a model can have, and all of them are allowed from every node. Of each
/// action one edge leads on to a location without actions, by all clocks reset, so that this has one node.
fn drafted_model() -> Vec<u32> {
    let mut model = vec![spell::head(4, 65_535), spell::location(false)];
    model.extend(each_at_most(4, 20));
    for action in 0..32 {
        model.extend([spell::ACTION, at_most(1 + action % 4, 0, 20)]);
        let resets = |edge| RESETS[(3 * action + edge) % RESETS.len()];
        model.extend((0..3).map(|edge| spell::edge(resets(edge), 0, 21_845 - edge as u32 / 2)));
        model.push(spell::edge(0b1111, 1, 1));
    }
    model.extend([spell::location(false), spell::start(0)]);
    model.extend(each_at_most(4, 0));
    model
}

#[cfg(test)]
mod tests {
    use super::*;
    use crate::plain;
    use crate::reading::{draft, judge};

    /// The words of the full draft after so many rounds.
    fn full_draft(rounds: u64) -> Vec<u32> {
        let mut lent = vec![0; FULL_DRAFT];
        let length = draft(&drafted_model(), rounds, &mut lent);
        assert_eq!(length, Ok(FULL_DRAFT));
        lent
    }

    /// The lines on drafts are about 64 nodes, no row of which is blocked, and about values that fall up to
    /// the last round.
    #[test]
    fn a_full_draft_is_full_and_changes() {
        let of_kind = |words: &[u32], kind| words.iter().filter(|word| *word >> 28 == kind).count();
        let table = full_draft(0);
        let counts = [8, 0xA, 0xB].map(|kind| of_kind(&table, kind));
        assert_eq!(counts, [MOST_NODES, 0, 63 * 128]);
        for rounds in [1, 2, 10, 999, 1000] {
            assert_ne!(full_draft(rounds - 1), full_draft(rounds));
        }
        assert!(judge(&drafted_model(), &full_draft(1000)).is_ok());
    }

    /// The lines on landings outside are about edges that land there: what their successor is worth does
    /// not matter, and a node that is worth less than V is refused.
    #[test]
    fn edges_land_outside() {
        for clocks in [1, 4] {
            let (model, mut table) = (walled_model(clocks), walled_table(clocks));
            assert!(judge(&model, &table).is_ok());
            let last = table.len() - 2;
            table[last] = spell::value(0);
            assert!(judge(&model, &table).is_ok());
            let at_first = table.iter().position(|word| word >> 28 == 9);
            table[at_first.expect("a value")] = spell::value(0);
            let refused = judge(&model, &table).expect_err("a sum that is too large");
            let plainly = plain::judge(&model, &table).err();
            assert_eq!(refused.number, 19);
            assert_eq!(plainly.map(|plain| plain.place), Some(refused.place));
        }
    }
}
