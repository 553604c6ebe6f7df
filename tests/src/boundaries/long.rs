//! Lists of more words than 16 bits can count, good or with a fault in the last place.

use super::{idle_model, Pair};
use crate::questions::Question;
use crate::spell;

/// Clock 1 at most 3.
const BOUND: u32 = 0x5100_1003;
const SPARE_BIT: u32 = 1 << 13;

fn many() -> Vec<u32> {
    vec![BOUND; 70_000]
}

pub fn pairs() -> Vec<Pair> {
    let model = |last: &[u32]| {
        let head = [spell::head(1, 1), spell::location(false)];
        [&head[..], &many(), last, &[spell::start(0)]].concat()
    };
    let table = |last: &[u32]| {
        let head = [spell::table_head(1), spell::node(0)];
        [
            &head[..],
            &many(),
            last,
            &[spell::value(0), spell::start_node(0)],
        ]
        .concat()
    };
    let cut = |second: usize, zone: &[u32]| {
        let words = [0xD100_1001, spell::successor(1), spell::successor(second)];
        let whole = table(&[]);
        let (nodes, start) = whole.split_at(whole.len() - 1);
        [
            nodes,
            &words,
            &[spell::node(0)],
            zone,
            &[spell::value(0)],
            start,
        ]
        .concat()
    };
    let no_start = [&idle_model()[..], &many(), &[0x5100_0FFF]].concat();
    vec![
        (model(&[]), table(&[])),
        (model(&[BOUND | SPARE_BIT]), table(&[])),
        (model(&[]), table(&[BOUND | SPARE_BIT])),
        (model(&[]), table(&[0xD000_0000])),
        (model(&[]), table(&[BOUND - 1])),
        (model(&[]), cut(0, &[])),
        (model(&[]), cut(2, &[])),
        (model(&[]), cut(1, &[0x5100_1001])),
        (model(&[]), many()),
        (many(), table(&[])),
        (no_start, table(&[])),
    ]
}

/// The same for the questions about zones.
pub fn long_questions() -> Vec<Question> {
    let bad = [&many()[..], &[BOUND | SPARE_BIT]].concat();
    let empty = [&many()[..], &[0x5010_0FFC]].concat();
    let question = |first: &[u32], second: &[u32]| Question {
        clocks: 1,
        first: first.to_vec(),
        second: second.to_vec(),
    };
    vec![
        question(&many(), &many()),
        question(&many(), &[BOUND - 1]),
        question(&bad, &many()),
        question(&many(), &bad),
        question(&empty, &bad),
        question(&empty, &[]),
    ]
}
