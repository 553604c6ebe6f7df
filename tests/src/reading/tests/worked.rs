//! The cases of "Timeline M and table T" of document 01, in its order.

use super::*;
use crate::reading::{program, zone_empty, zone_inside, Counts};

#[test]
fn m_and_t() {
    assert_eq!(judge(&M, &T), accepted(1, 10, 3));
    let bytes: Vec<u8> = M
        .iter()
        .chain(&T)
        .flat_map(|word| word.to_be_bytes())
        .collect();
    assert_eq!(program(&bytes), "ACCEPTED 1 10 3\n");
    assert_eq!(
        read_model(&M),
        Ok(Counts {
            locations: 3,
            actions: 1,
            edges: 2
        })
    );
}

#[test]
fn start_value_0() {
    assert_eq!(judge(&M, &with(&T, 3, 0x90000000)), refused(19, 4));
}

#[test]
fn target_value_9() {
    assert_eq!(judge(&M, &with(&T, 9, 0x90000009)), refused(15, 9));
}

#[test]
fn blocked_row() {
    let blocked = splice(&T, 4..6, &[0xA0000000]);
    assert_eq!(judge(&M, &blocked), refused(16, 4));
    // With the guard "clock above 3" nothing is left of the invariant "at most 3".
    assert_eq!(
        judge(&with(&M, 4, 0x50180FFD), &blocked),
        accepted(1, 10, 3)
    );
}

#[test]
fn weights_add_to_11() {
    assert_eq!(judge(&with(&M, 6, 0x40020002), &T), refused(4, 7));
    assert_eq!(read_model(&with(&M, 6, 0x40020002)), refused(4, 7));
}

#[test]
fn bound_on_the_successor() {
    assert_eq!(judge(&M, &splice(&T, 7..7, &[0x51001002])), refused(18, 4));
    assert_eq!(
        judge(&M, &splice(&T, 7..7, &[0x51001003])),
        accepted(1, 10, 3)
    );
}

#[test]
fn inside_after_tightening() {
    let first = [at_most(1, 0, 3), at_most(2, 1, 2)];
    assert_eq!(zone_inside(2, &first, &[at_most(2, 0, 5)]), Ok(true));
    assert_eq!(zone_inside(2, &first, &[at_most(2, 0, 4)]), Ok(false));
}

#[test]
fn between_2_and_3() {
    assert_eq!(zone_empty(1, &[below(0, 1, -2), below(1, 0, 3)]), Ok(false));
}

#[test]
fn at_most_minus_1() {
    assert_eq!(zone_empty(1, &[at_most(1, 0, -1)]), Ok(true));
}

#[test]
fn no_words() {
    assert_eq!(read_model(&[]), refused(1, 0));
    assert_eq!(judge(&[], &T), refused(1, 0));
    assert_eq!(program(&[]), "REFUSED 1 0\n");
}
