//! Drafts a table for document 01's worked timeline M, with no round and then with two, and has the
//! judge say what each certifies; then with too few words lent. In this folder, once
//! `tools/build.sh miss_chance` has written the library:
//!
//!     cargo run --example draft
//!
//! It prints `DRAFTED 16`, `ACCEPTED 1000000 1000000 3`, `DRAFTED 16`, `ACCEPTED 100000 1000000 3`
//! and `REFUSED 60 0`.

use miss_chance::{draft, draft_into, judge, Refusal};

/// As in worked.rs: it misses 1 time in 10.
const MODEL: [u32; 11] = [
    0x1110000A, 0x20000000, 0x51001003, 0x30000000, 0x50100FFE, 0x40010009, 0x40020001, 0x20000000,
    0x20000001, 0x60000000, 0x51001000,
];

fn main() -> Result<(), Refusal> {
    for rounds in [0, 2] {
        let drafted = draft(&MODEL, rounds); // after no round every value is V
        println!("{drafted}");
        println!("{}", judge(&MODEL, &drafted.result()?));
    }
    println!("{}", draft_into(&MODEL, 2, &mut [0; 15]));
    Ok(())
}
