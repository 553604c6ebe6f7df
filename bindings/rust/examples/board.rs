//! A priority engine's board: two teams submit tables for document 01's worked timeline M, then one
//! of them for the other's slot, and the held slots are ranked. In this folder, once
//! `tools/build.sh miss_chance` has written the library:
//!
//!     cargo run --example board
//!
//! It prints `ACCEPTED 2 10 3`, `ACCEPTED 1 10 3`, `REFUSED 56 0` and `RANKED 9 4`.

use miss_chance::{rank, Board};

/// As in worked.rs: it misses 1 time in 10.
const MODEL: [u32; 11] = [
    0x1110000A, 0x20000000, 0x51001003, 0x30000000, 0x50100FFE, 0x40010009, 0x40020001, 0x20000000,
    0x20000001, 0x60000000, 0x51001000,
];

/// As in worked.rs, but word 3 claims 2 in 10, where 1 in 10 would do.
const LOOSER: [u32; 11] = [
    0x7000000A, 0x80000000, 0x51001000, 0x90000002, 0xB0000001, 0xB0000002, 0x81000000, 0x90000000,
    0x82000000, 0x9000000A, 0xC0000000,
];

fn main() {
    let mut table = LOOSER;
    table[3] = 0x90000001; // node 0 now claims 1 in 10
    let mut board = Board::new();
    println!("{}", board.submit(3, 4, &MODEL, &LOOSER));
    println!("{}", board.submit(5, 9, &MODEL, &table));
    println!("{}", board.submit(3, 9, &MODEL, &table)); // team 5 holds slot 9
    println!("{}", rank(board.slots()));
}
