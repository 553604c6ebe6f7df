//! Words that are lent for a draft, and what a side leaves in them.

use std::fmt;

use crate::reading::Refusal;
use crate::sides::Side;
use crate::spell;

/// What stands in lent words beforehand: of no kind that a draft has.
pub const MARK: u32 = 0xEEEE_EEEE;

/// No draft has more words: 64 nodes, each with 20 bounds and 32 rows of 4 successors.
pub const LONGEST: usize = 2 + 64 * (2 + 20 + 32 * 4);

/// What a side answers, and the lent words then.
#[derive(PartialEq)]
pub struct Drafted {
    pub answer: Result<usize, Refusal>,
    /// With a neighbour on either side that was not lent.
    room: Vec<u32>,
}

/// Has a side draft into so many words.
pub fn drafted(side: &dyn Side, model: &[u32], rounds: u64, words: usize) -> Drafted {
    let mut room = vec![MARK; words + 2];
    let answer = side.draft(model, rounds, &mut room[1..=words]);
    Drafted { answer, room }
}

impl Drafted {
    /// The table or the refusal. What must be as it was, is: the words past the table, all where there is
    /// none, and the neighbours.
    pub fn table(&self) -> Result<Result<Vec<u32>, Refusal>, String> {
        let length = *self.answer.as_ref().unwrap_or(&0);
        let table = self.room.get(1..=length);
        let table = table.ok_or_else(|| format!("{length} words, more than were lent"))?;
        let past = self.room[1 + length..]
            .iter()
            .position(|&word| word != MARK);
        match past {
            _ if self.room[0] != MARK => {
                Err("the word before the lent ones is written".to_string())
            }
            Some(past) => Err(format!("word {} is written, past the end", length + past)),
            None => Ok(self.answer.map(|_| table.to_vec())),
        }
    }
}

impl fmt::Debug for Drafted {
    /// The lent words up to the last that was written.
    fn fmt(&self, out: &mut fmt::Formatter<'_>) -> fmt::Result {
        let last = self.room.iter().rposition(|&word| word != MARK);
        let written = last.map_or(&[][..], |last| &self.room[1..=last.max(1)]);
        write!(
            out,
            "{:?}, lent words: {}",
            self.answer,
            spell::hex(written)
        )
    }
}

#[cfg(test)]
mod tests {
    use super::*;

    fn told(answer: Result<usize, u32>, room: &[u32]) -> Result<Result<Vec<u32>, Refusal>, String> {
        let answer = answer.map_err(|number| Refusal { number, place: 0 });
        let room = room.to_vec();
        Drafted { answer, room }.table()
    }

    #[test]
    fn the_package_has_the_same_longest_draft() {
        assert_eq!(LONGEST, miss_chance::DRAFT_WORDS);
    }

    #[test]
    fn what_must_be_as_it_was() {
        assert_eq!(told(Ok(2), &[MARK, 1, 2, MARK]), Ok(Ok(vec![1, 2])));
        assert_eq!(told(Ok(2), &[MARK, 1, 2, MARK, MARK]), Ok(Ok(vec![1, 2])));
        let refused = Err(Refusal {
            number: 60,
            place: 0,
        });
        assert_eq!(told(Err(60), &[MARK; 4]), Ok(refused));
        for (answer, room) in [
            (Ok(2), [MARK, 1, 2, 3]),
            (Ok(1), [MARK, 1, 2, MARK]),
            (Ok(4), [MARK, 1, 2, MARK]),
            (Ok(2), [0, 1, 2, MARK]),
            (Err(60), [MARK, 1, MARK, MARK]),
        ] {
            assert!(told(answer, &room).is_err(), "{answer:?}, {room:?}");
        }
    }
}
