//! From bytes to the line that is printed: refusals 42 and 41.

use super::{demand, judge, Certificate, Refusal};

const MOST_BYTES: usize = 65_536;

/// The line alone is allocated.
pub fn program(bytes: &[u8]) -> String {
    match judge_bytes(bytes) {
        Ok(Certificate {
            value,
            whole,
            nodes,
        }) => format!("ACCEPTED {value} {whole} {nodes}\n"),
        Err(Refusal { number, place }) => format!("REFUSED {number} {place}\n"),
    }
}

fn judge_bytes(bytes: &[u8]) -> Result<Certificate, Refusal> {
    demand(bytes.len() <= MOST_BYTES, 42, 0)?;
    let fours = bytes.chunks_exact(4);
    demand(fours.remainder().is_empty(), 41, 0)?;
    let mut room = [0; MOST_BYTES / 4];
    let words = &mut room[..fours.len()];
    for (word, four) in words.iter_mut().zip(fours) {
        *word = u32::from_be_bytes([four[0], four[1], four[2], four[3]]);
    }
    let table = words.iter().position(|word| word >> 28 == 7);
    let (model, table) = words.split_at(table.unwrap_or(words.len()));
    judge(model, table)
}
