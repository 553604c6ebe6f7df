//! From bytes to the line that is printed.
//!
//! Reads the program's paragraph in "The four calls and their refusals" of document 01: refusals 41
//! and 42, and where the table begins.

use super::words::{self, TABLE_HEAD};
use super::{judge, Certificate, Refusal};

const MAX_BYTES: usize = 65_536;

/// What the program prints for these bytes on its standard input, line feed included.
pub fn program(bytes: &[u8]) -> String {
    match judge_bytes(bytes) {
        Ok(Certificate { b, whole, nodes }) => format!("ACCEPTED {b} {whole} {nodes}\n"),
        Err(Refusal { number, place }) => format!("REFUSED {number} {place}\n"),
    }
}

fn judge_bytes(bytes: &[u8]) -> Result<Certificate, Refusal> {
    if bytes.len() > MAX_BYTES {
        return Err(Refusal {
            number: 42,
            place: 0,
        });
    }
    if bytes.len() % 4 != 0 {
        return Err(Refusal {
            number: 41,
            place: 0,
        });
    }
    let words: Vec<u32> = bytes
        .chunks_exact(4)
        .map(|four| u32::from_be_bytes([four[0], four[1], four[2], four[3]]))
        .collect();
    let is_table_head = |&word: &u32| words::kind(word) == TABLE_HEAD;
    let table_begins = words.iter().position(is_table_head).unwrap_or(words.len());
    let (model, table) = words.split_at(table_begins);
    judge(model, table)
}
