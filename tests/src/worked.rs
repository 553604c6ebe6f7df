//! The cases of "Timeline M and table T" of document 01, with the answers written there; and cases of
//! document 02, cards 1, 4 and 5, for the same timeline, with the answers worked out from the cards by
//! hand.

use crate::comparer::Fault;
use crate::drafting::drafted;
use crate::reading::{Certificate, Refusal};
use crate::sides::Side;
use crate::spell;

pub const MODEL: [u32; 11] = [
    0x1110000A, 0x20000000, 0x51001003, 0x30000000, 0x50100FFE, 0x40010009, 0x40020001, 0x20000000,
    0x20000001, 0x60000000, 0x51001000,
];

pub const TABLE: [u32; 11] = [
    0x7000000A, 0x80000000, 0x51001000, 0x90000001, 0xB0000001, 0xB0000002, 0x81000000, 0x90000000,
    0x82000000, 0x9000000A, 0xC0000000,
];

/// A table for the same model in which node 0 (at most 3) is cut at 1: node 3 has the part up to 1,
/// node 4 what is above.
pub const CUT_TABLE: [u32; 22] = [
    0x7000000A, 0x80000000, 0x51001003, 0x90000001, 0xD1001001, 0xB0000003, 0xB0000004, 0x81000000,
    0x90000000, 0x82000000, 0x9000000A, 0x80000000, 0x51001001, 0x90000001, 0xB0000001, 0xB0000002,
    0x80000000, 0x50180FFF, 0x90000001, 0xB0000001, 0xB0000002, 0xC0000000,
];

/// The table drafted for the model after two rounds (card 5).
pub const DRAFT: [u32; 16] = [
    0x700F4240, 0x80000000, 0x50101000, 0x51001000, 0x900186A0, 0xB0000001, 0xB0000002, 0x81000000,
    0x50100FFE, 0x51001003, 0x90000000, 0x82000000, 0x50100FFE, 0x51001003, 0x900F4240, 0xC0000000,
];

/// A case of judging.
pub struct Case {
    pub model: Vec<u32>,
    pub table: Vec<u32>,
    /// What the program prints, without the line feed.
    pub line: &'static str,
}

/// A model or table with one word put in place of another.
fn with(words: &[u32], place: usize, word: u32) -> Vec<u32> {
    let mut changed = words.to_vec();
    changed[place] = word;
    changed
}

pub fn cases() -> Vec<Case> {
    let blocked = [&TABLE[..4], &[0xA0000000], &TABLE[6..]].concat();
    let bounded = |word| [&TABLE[..7], &[word], &TABLE[7..]].concat();
    let case = |model: &[u32], table: &[u32], line| Case {
        model: model.to_vec(),
        table: table.to_vec(),
        line,
    };
    vec![
        case(&MODEL, &TABLE, "ACCEPTED 1 10 3"),
        case(&MODEL, &with(&TABLE, 3, 0x90000000), "REFUSED 19 4"),
        case(&MODEL, &with(&TABLE, 9, 0x90000009), "REFUSED 15 9"),
        case(&MODEL, &blocked, "REFUSED 16 4"),
        case(&with(&MODEL, 4, 0x50180FFD), &blocked, "ACCEPTED 1 10 3"),
        case(&with(&MODEL, 6, 0x40020002), &TABLE, "REFUSED 4 7"),
        case(&MODEL, &bounded(0x51001002), "REFUSED 18 4"),
        case(&MODEL, &bounded(0x51001003), "ACCEPTED 1 10 3"),
        case(&[], &[], "REFUSED 1 0"),
    ]
}

/// Cases of card 1, each one word or a few away from the table with a cut.
pub fn cuts() -> Vec<Case> {
    let cut = |table: &[u32], line| Case {
        model: MODEL.to_vec(),
        table: table.to_vec(),
        line,
    };
    let with = |place, word| with(&CUT_TABLE, place, word);
    let twice = |place, word| [&CUT_TABLE[..place], &[word], &CUT_TABLE[place..]].concat();
    vec![
        cut(&CUT_TABLE, "ACCEPTED 1 10 5"),
        // The fraction is the cut node's own.
        cut(&with(3, 0x90000004), "ACCEPTED 4 10 5"),
        // Clock 0, clock 2 of 1, a second clock.
        cut(&with(4, 0xD0001001), "REFUSED 12 4"),
        cut(&with(4, 0xD2001001), "REFUSED 12 4"),
        cut(&with(4, 0xD1101001), "REFUSED 12 4"),
        // A third B, a cut at the target.
        cut(&twice(7, 0xB0000004), "REFUSED 11 7"),
        cut(&twice(11, 0xD1001001), "REFUSED 11 11"),
        // Not there, its own number, another location, a larger value.
        cut(&with(6, 0xB0000005), "REFUSED 14 6"),
        cut(&with(5, 0xB0000000), "REFUSED 51 5"),
        cut(&with(6, 0xB0000001), "REFUSED 52 6"),
        cut(&with(18, 0x90000002), "REFUSED 52 6"),
        // Below 1 is not all up to 1, from 2 on is not all above 1, nor does above 1 hold 1.
        cut(&with(12, 0x51081001), "REFUSED 53 5"),
        cut(&with(17, 0x50100FFE), "REFUSED 53 6"),
        cut(&with(4, 0xD1081001), "REFUSED 53 6"),
        // Nothing is below 0, all is at most 4.
        cut(&with(4, 0xD1081000), "REFUSED 53 6"),
        cut(&with(4, 0xD1001004), "REFUSED 53 5"),
    ]
}

/// The worked model with these bounds as the invariant of location 1, where the weight is 9 of 10, and
/// of the target.
pub fn landing_model(first: &[u32], target: &[u32]) -> Vec<u32> {
    [&MODEL[..8], first, &MODEL[8..9], target, &MODEL[9..]].concat()
}

/// Cases of card 4. The row reaches 2 to 3, so that "at most 3" holds for every landing, "below 3" for
/// all but one, and "from 5 on" for none.
pub fn landings() -> Vec<Case> {
    [landings_in_sums(), landings_held(), landings_by_choice()]
        .into_iter()
        .flatten()
        .collect()
}

const AT_MOST_2: u32 = 0x51001002;
const AT_MOST_3: u32 = 0x51001003;
const BELOW_3: u32 = 0x51081003;
const FROM_1: u32 = 0x50100FFF;
const FROM_3: u32 = 0x50100FFD;
const FROM_5: u32 = 0x50100FFB;
const NEVER: u32 = 0x51000FFF;

fn case(model: Vec<u32>, table: &[u32], line: &'static str) -> Case {
    let table = table.to_vec();
    Case { model, table, line }
}

/// The worked table with this value at node 0.
fn valued(value: u32) -> Vec<u32> {
    with(&TABLE, 3, 0x90000000 | value)
}

/// What an edge adds: 9 × 0 + 1 × 10, or 9 × 10 + 1 × 10.
fn landings_in_sums() -> Vec<Case> {
    let first = |bound| landing_model(&[bound], &[]);
    let at_target = landing_model(&[], &[FROM_5]);
    // Location 2 is no target.
    let second = with(&at_target, 8, 0x20000000);
    let worthless = |value| with(&valued(value), 9, 0x90000000);
    vec![
        case(first(AT_MOST_3), &TABLE, "ACCEPTED 1 10 3"),
        case(first(BELOW_3), &valued(9), "REFUSED 19 4"),
        case(first(BELOW_3), &valued(10), "ACCEPTED 10 10 3"),
        case(first(FROM_5), &valued(9), "REFUSED 19 4"),
        case(second.clone(), &worthless(0), "REFUSED 19 4"),
        case(second, &worthless(1), "ACCEPTED 1 10 3"),
        // V, whatever the target's node has, which comes later.
        case(at_target.clone(), &worthless(0), "REFUSED 19 4"),
        case(at_target, &TABLE, "ACCEPTED 1 10 3"),
        case(MODEL.to_vec(), &worthless(0), "REFUSED 15 9"),
    ]
}

/// A successor has the edge's location and holds the landings inside, and no others.
fn landings_held() -> Vec<Case> {
    let first = |bound| landing_model(&[bound], &[]);
    let at_target = landing_model(&[], &[FROM_5]);
    let bounded = |value, bound| {
        let table = valued(value);
        [&table[..7], &[bound], &table[7..]].concat()
    };
    let empty_target = [&TABLE[..9], &[NEVER], &TABLE[9..]].concat();
    let elsewhere = with(&valued(10), 4, 0xB0000002);
    vec![
        case(first(BELOW_3), &bounded(10, BELOW_3), "ACCEPTED 10 10 3"),
        case(first(BELOW_3), &bounded(10, AT_MOST_2), "REFUSED 18 4"),
        case(at_target.clone(), &empty_target, "ACCEPTED 1 10 3"),
        case(MODEL.to_vec(), &empty_target, "REFUSED 18 5"),
        case(first(FROM_5), &elsewhere, "REFUSED 17 4"),
        // The first edge lands inside, though the second does not.
        case(at_target, &bounded(1, NEVER), "REFUSED 18 4"),
    ]
}

/// Which choices are allowed, and where they land.
fn landings_by_choice() -> Vec<Case> {
    let first = |bound| landing_model(&[bound], &[]);
    let blocked = [&TABLE[..4], &[0xA0000000], &TABLE[6..]].concat();
    let above_3 = 0x50180FFD;
    let shut = with(&landing_model(&[NEVER], &[NEVER]), 4, above_3);
    // From 2 on and below 3: at scale 1 only 2.
    let narrow = landing_model(&[AT_MOST_2], &[]);
    let narrow = [&narrow[..5], &[BELOW_3], &narrow[5..]].concat();
    let reset = |bound| with(&first(bound), 5, 0x40110009);
    // A fourth node, from which nothing is below 3.
    let late = [0x80000000, FROM_3, 0x90000001, 0xB0000001, 0xB0000002];
    let late = [&valued(10)[..10], &late, &TABLE[10..]].concat();
    vec![
        case(first(FROM_5), &blocked, "REFUSED 16 4"),
        case(landing_model(&[], &[FROM_5]), &blocked, "REFUSED 16 4"),
        case(narrow.clone(), &valued(9), "REFUSED 19 4"),
        case(narrow, &valued(10), "ACCEPTED 10 10 3"),
        case(reset(AT_MOST_2), &TABLE, "ACCEPTED 1 10 3"),
        case(reset(FROM_1), &valued(9), "REFUSED 19 4"),
        case(first(FROM_3), &late, "ACCEPTED 10 10 4"),
        // What is never chosen lands nowhere.
        case(shut, &TABLE, "ACCEPTED 1 10 3"),
    ]
}

/// All worked cases of judging.
pub fn all() -> Vec<Case> {
    let drafted = case(MODEL.to_vec(), &DRAFT, "ACCEPTED 100000 1000000 3");
    [cases(), cuts(), landings(), vec![drafted]]
        .into_iter()
        .flatten()
        .collect()
}

/// The draft of the model, by rounds: two values differ. Node 1 has no action and is worth 0 after a round,
/// node 0 then 1 in 10 after the next.
fn drafts() -> Vec<(u64, Vec<u32>)> {
    let valued = |first: u32, second: u32| {
        let words = with(&DRAFT, 4, 0x90000000 | first);
        with(&words, 10, 0x90000000 | second)
    };
    let settled = |rounds| (rounds, DRAFT.to_vec());
    let mut drafts = vec![(0, valued(1_000_000, 1_000_000)), (1, valued(1_000_000, 0))];
    drafts.extend([2, 3, 1000, 1001, u64::MAX].map(settled));
    drafts
}

fn check_drafts(side: &dyn Side) -> Result<(), Fault> {
    for (rounds, words) in drafts() {
        let named = |lent: usize| format!("the draft after {rounds} rounds, {lent} words lent");
        for (lent, due) in [
            (16, Ok(words.clone())),
            (20, Ok(words.clone())),
            (15, Err(60)),
        ] {
            let drafted = drafted(side, &MODEL, rounds, lent).table();
            let drafted = drafted.map(|answer| answer.map_err(|refusal| refusal.number));
            expect(
                &named(lent),
                &format!("{:?}", Ok::<_, ()>(due)),
                &format!("{drafted:?}"),
            )?;
        }
    }
    Ok(())
}

/// Asks one side for the answers that document 01 writes down, and for those of cards 1, 4 and 5.
pub fn check(side: &dyn Side) -> Result<(), Fault> {
    check_drafts(side)?;
    for case in all() {
        let words = [&case.model[..], &case.table].concat();
        let judged = line(side.judge(&case.model, &case.table));
        expect(&spell::hex(&words), case.line, &judged)?;
        let printed = side.program(&spell::bytes(&words));
        expect(&spell::hex(&words), &format!("{}\n", case.line), &printed)?;
    }
    let two_clocks = [0x51001003, 0x52101002];
    let inside = |most| side.zone_inside(2, &two_clocks, &[most]).ok();
    expect(
        "inside at most 5",
        "Some(true)",
        &format!("{:?}", inside(0x52001005)),
    )?;
    expect(
        "inside at most 4",
        "Some(false)",
        &format!("{:?}", inside(0x52001004)),
    )?;
    let empty = |words: &[u32]| format!("{:?}", side.zone_empty(1, words).ok());
    expect(
        "above 2 and below 3",
        "Some(false)",
        &empty(&[0x50180FFE, 0x51081003]),
    )?;
    expect("at most -1", "Some(true)", &empty(&[0x51000FFF]))
}

/// An answer as the program writes it, without the line feed.
pub fn line(answer: Result<Certificate, Refusal>) -> String {
    match answer {
        Ok(Certificate { b, whole, nodes }) => format!("ACCEPTED {b} {whole} {nodes}"),
        Err(Refusal { number, place }) => format!("REFUSED {number} {place}"),
    }
}

fn expect(input: &str, wanted: &str, answered: &str) -> Result<(), Fault> {
    if wanted == answered {
        return Ok(());
    }
    Err(Fault(format!(
        "worked case {input}\ndue:      {wanted:?}\nanswered: {answered:?}"
    )))
}
