//! Judges document 01's worked timeline M with its table T, then with T's word 3 made too small. In
//! this folder, once `tools/build.sh miss_chance` has written the library:
//!
//!     cargo run --example worked
//!
//! It prints `misses at most 1 in 10` and `refused with 19 at place 4: ..`.

const MODEL: [u32; 11] = [
    0x1110000A, // one clock, weights add to 10
    0x20000000, 0x51001003, // location 0, clock at most 3
    0x30000000, 0x50100FFE, // its action, from clock 2 on
    0x40010009, 0x40020001, // 9 in 10 to location 1, 1 in 10 to location 2
    0x20000000, 0x20000001, // location 1; location 2, a target
    0x60000000, 0x51001000, // start in location 0 with the clock at 0
];

const TABLE: [u32; 11] = [
    0x7000000A, // values count tenths
    0x80000000, 0x51001000, 0x90000001, // node 0: location 0, clock at 0, value 1
    0xB0000001, 0xB0000002, // its row: to node 1 and node 2
    0x81000000, 0x90000000, // node 1: location 1, value 0
    0x82000000, 0x9000000A, // node 2: location 2, value 10
    0xC0000000, // start at node 0
];

fn main() {
    let mut too_small = TABLE;
    too_small[3] = 0x90000000; // node 0 now claims 0
    for table in [TABLE, too_small] {
        match miss_chance::judge(&MODEL, &table).result() {
            Ok(certificate) => {
                println!("misses at most {} in {}", certificate.b, certificate.whole)
            }
            Err(refusal) => println!("{refusal}"),
        }
    }
}
