//! Outside evidence for the miss-chance judge: code that shares nothing with the proved crates.
//!
//! `reading` is an independent reading of document 01 and of document 02, cards 1 and 3 to 5, `plain` a
//! plain judge written for speed. `plan` draws inputs (`models`, `explore`, `cuts`, `landings`, `edits`,
//! `mutate`, `garbage`, `boundaries`, `questions`, `program_inputs`) and has the judge under test, the
//! reading and the plain judge answer them (`comparer`). `histories` does the same with boards of
//! slots, after every submission of a history, and holds the boards against the law of card 3;
//! `drafting` with drafts of tables, word for word, and holds them against card 5. `cases` holds all of
//! them against the stored answers under `tests/cases`. `evidence` holds answers against valuations
//! that are tried one by one (`points`, `player`, `witness`, `sums`). `self_check` shows that the tests
//! can fail, with judges, boards, drafts and players that are wrong on purpose (`wrong`, `flawed`,
//! `flawed_board`, `flawed_draft`, `player`). `figures` says how long a call takes on each side,
//! `instructions` how many instructions it needs, on the inputs of `shapes` and the boards of `kept`.

pub mod boundaries;
pub mod cases;
pub mod comparer;
pub mod cuts;
pub mod drafting;
pub mod drafts;
pub mod edits;
pub mod evidence;
pub mod explore;
pub mod figures;
pub mod flawed;
pub mod flawed_board;
pub mod flawed_draft;
pub mod garbage;
pub mod histories;
pub mod instructions;
pub mod kept;
pub mod landings;
pub mod models;
pub mod mutate;
pub mod plain;
pub mod plan;
pub mod player;
pub mod points;
pub mod program_inputs;
pub mod questions;
pub mod random;
pub mod reading;
pub mod report;
pub mod self_check;
pub mod shapes;
pub mod sides;
pub mod spell;
pub mod sums;
pub mod witness;
pub mod worked;
pub mod wrong;
