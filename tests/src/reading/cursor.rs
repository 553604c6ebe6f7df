//! A place in a file of words, and the refusals that every word can meet there.
//!
//! Reads "Syntax is judged word by word; at one word the lowest number wins" in "The four calls and
//! their refusals" of document 01: a word is first lacking or of a wrong kind, then bad in a field.
//! Limits and sums, whose numbers are higher, are asked by the parsers after `take`.

use super::words::{self, Bound};
use super::Refusal;

pub struct Cursor<'a> {
    words: &'a [u32],
    place: usize,
    /// The number for a missing word or a kind not allowed here.
    wrong_kind: u32,
    /// The number for a field outside its range or a spare bit.
    wrong_field: u32,
}

impl<'a> Cursor<'a> {
    pub fn over_model(words: &'a [u32]) -> Self {
        Cursor {
            words,
            place: 0,
            wrong_kind: 1,
            wrong_field: 2,
        }
    }

    pub fn over_table(words: &'a [u32]) -> Self {
        Cursor {
            words,
            place: 0,
            wrong_kind: 11,
            wrong_field: 12,
        }
    }

    /// Whether the present word has this kind; never so at the end.
    pub fn is_at(&self, kind: u32) -> bool {
        self.words
            .get(self.place)
            .is_some_and(|&word| words::kind(word) == kind)
    }

    /// Moves past the present word, which must have this kind and read well. Hands back its fields
    /// and its place.
    pub fn take<T>(
        &mut self,
        kind: u32,
        read: impl FnOnce(u32) -> Option<T>,
    ) -> Result<(T, usize), Refusal> {
        let place = self.place;
        if !self.is_at(kind) {
            return Err(Refusal {
                number: self.wrong_kind,
                place,
            });
        }
        let Some(fields) = read(self.words[place]) else {
            return Err(Refusal {
                number: self.wrong_field,
                place,
            });
        };
        self.place += 1;
        Ok((fields, place))
    }

    /// Moves past the bounds that stand here, none or more.
    pub fn take_bounds(
        &mut self,
        read: impl Fn(u32) -> Option<Bound>,
    ) -> Result<Vec<Bound>, Refusal> {
        let mut bounds = Vec::new();
        while self.is_at(words::BOUND) {
            bounds.push(self.take(words::BOUND, &read)?.0);
        }
        Ok(bounds)
    }

    /// The file must end here.
    pub fn end(&self) -> Result<(), Refusal> {
        if self.place == self.words.len() {
            Ok(())
        } else {
            Err(Refusal {
                number: self.wrong_kind,
                place: self.place,
            })
        }
    }
}
