//! Bytes in, one line out.

use super::*;
use crate::reading::program;

fn bytes(words: &[u32]) -> Vec<u8> {
    words.iter().flat_map(|word| word.to_be_bytes()).collect()
}

#[test]
fn length_comes_first() {
    assert_eq!(program(&vec![0; 65_537]), "REFUSED 42 0\n");
    assert_eq!(program(&vec![0; 65_540]), "REFUSED 42 0\n");
    assert_eq!(program(&vec![0; 65_536]), "REFUSED 1 0\n");
    assert_eq!(program(&vec![0; 65_535]), "REFUSED 41 0\n");
    for length in 1..4 {
        assert_eq!(program(&bytes(&M)[..length]), "REFUSED 41 0\n");
    }
}

#[test]
fn as_many_bytes_as_may_be() {
    // Start bounds fill the model up to 65,536 bytes.
    let filled = vec![0x51001000; 16_384 - T.len() - M.len()];
    let words = [&M[..], &filled, &T].concat();
    assert_eq!(program(&bytes(&words)), "ACCEPTED 1 10 3\n");
}

#[test]
fn the_table_begins_with_the_first_kind_7() {
    assert_eq!(program(&bytes(&M)), "REFUSED 11 0\n");
    assert_eq!(program(&bytes(&T)), "REFUSED 1 0\n");
    // The model ends where the table begins, and the table's places count from there.
    assert_eq!(program(&bytes(&[&M[..5], &T].concat())), "REFUSED 1 5\n");
    assert_eq!(
        program(&bytes(&[&M[..], &with(&T, 9, 0x90000009)].concat())),
        "REFUSED 15 9\n"
    );
    // A second kind 7 is a word of the table.
    assert_eq!(
        program(&bytes(&[&M[..], &T, &T].concat())),
        "REFUSED 11 11\n"
    );
    // Words after the model that are no table belong to the model.
    assert_eq!(
        program(&bytes(&[&M[..], &T[1..]].concat())),
        "REFUSED 1 11\n"
    );
}

#[test]
fn highest_byte_first() {
    let swapped: Vec<u8> = M
        .iter()
        .chain(&T)
        .flat_map(|word| word.to_le_bytes())
        .collect();
    assert_eq!(program(&swapped), "REFUSED 1 0\n");
}
