//! Changes in a list of words, as they stand between square brackets. All places are those of the list
//! before the changes.

use super::words::{number, word};

/// A word of the list: what is put in before it, and itself unless it is taken out.
#[derive(Clone, Default)]
struct Slot {
    before: Vec<u32>,
    word: Option<u32>,
    changed: bool,
}

/// The list as it is changed.
struct Changed {
    /// One for each word, and one for what is put in behind the last.
    slots: Vec<Slot>,
    /// How many words a cut leaves, if there is one.
    left: Option<usize>,
    /// How far the changes reach.
    reached: usize,
}

/// A list with its changes: `3=W` exchanges word 3, `3+W` puts W in before it, `3^W` flips the bits of
/// W in it, `-3` takes it out, `..3` leaves words 0 to 2. A list is cut once, and a word exchanged,
/// flipped or taken out once.
pub fn changed(words: &[u32], changes: &str) -> Result<Vec<u32>, String> {
    let slot = |&word: &u32| Slot {
        word: Some(word),
        ..Slot::default()
    };
    let mut slots: Vec<Slot> = words.iter().map(slot).collect();
    slots.push(Slot::default());
    let mut list = Changed {
        slots,
        left: None,
        reached: 0,
    };
    if changes.trim().is_empty() {
        return Err("no change between [ and ]".to_string());
    }
    for change in changes.split_whitespace() {
        let done = list.change(change);
        done.map_err(|wrong| format!("change {change}: {wrong}"))?;
    }
    list.words()
}

impl Changed {
    fn change(&mut self, change: &str) -> Result<(), String> {
        if let Some(left) = change.strip_prefix("..") {
            return self.cut(number(left)?);
        }
        if let Some(place) = change.strip_prefix('-') {
            return self.exchange(number(place)?, |_| None);
        }
        let sign = change
            .find(['=', '+', '^'])
            .ok_or("no change is written so")?;
        let (place, new) = (number(&change[..sign])?, word(&change[sign + 1..])?);
        match &change[sign..=sign] {
            "=" => self.exchange(place, |_| Some(new)),
            "^" => self.exchange(place, |old| Some(old ^ new)),
            _ => self.put_in(place, new),
        }
    }

    fn cut(&mut self, left: usize) -> Result<(), String> {
        if left >= self.slots.len() {
            return Err("the list is shorter".to_string());
        }
        match self.left.replace(left) {
            Some(_) => Err("the list is cut twice".to_string()),
            None => Ok(()),
        }
    }

    fn put_in(&mut self, place: usize, new: u32) -> Result<(), String> {
        let slot = self.slots.get_mut(place).ok_or("the list is shorter")?;
        slot.before.push(new);
        self.reached = self.reached.max(place);
        Ok(())
    }

    fn exchange(&mut self, place: usize, new: impl Fn(u32) -> Option<u32>) -> Result<(), String> {
        let slot = self.slots.get_mut(place);
        let slot = slot.filter(|slot| slot.changed || slot.word.is_some());
        let slot = slot.ok_or("the list is shorter")?;
        if slot.changed {
            return Err(format!("word {place} is changed twice"));
        }
        slot.changed = true;
        slot.word = slot.word.and_then(new);
        self.reached = self.reached.max(place + 1);
        Ok(())
    }

    fn words(mut self) -> Result<Vec<u32>, String> {
        let left = self.left.unwrap_or(self.slots.len() - 1);
        if self.reached > left {
            return Err("a word that is cut off is changed".to_string());
        }
        self.slots.truncate(left + 1);
        if let Some(last) = self.slots.last_mut() {
            last.word = None;
        }
        let words = self.slots.into_iter();
        Ok(words
            .flat_map(|slot| slot.before.into_iter().chain(slot.word))
            .collect())
    }
}

#[cfg(test)]
mod tests {
    use super::*;

    fn of_three(changes: &str) -> Result<Vec<u32>, String> {
        changed(&[10, 11, 12], changes)
    }

    #[test]
    fn each_change() {
        assert_eq!(of_three("1=00000007"), Ok(vec![10, 7, 12]));
        assert_eq!(of_three("1+00000007"), Ok(vec![10, 7, 11, 12]));
        assert_eq!(of_three("3+00000007"), Ok(vec![10, 11, 12, 7]));
        assert_eq!(of_three("1^00000003"), Ok(vec![10, 8, 12]));
        assert_eq!(of_three("-1"), Ok(vec![10, 12]));
        assert_eq!(of_three("..2"), Ok(vec![10, 11]));
        assert_eq!(of_three("..0"), Ok(vec![]));
        assert_eq!(of_three("..3"), Ok(vec![10, 11, 12]));
    }

    #[test]
    fn places_are_those_before_the_changes() {
        let several = "0+00000001 0+00000002 0=00000003 -1 2+00000004";
        assert_eq!(of_three(several), Ok(vec![1, 2, 3, 4, 12]));
        assert_eq!(of_three("..1 0=00000007 1+00000008"), Ok(vec![7, 8]));
    }

    #[test]
    fn what_is_no_change_is_told() {
        for (changes, told) in [
            ("", "no change between"),
            ("3=00000007", "the list is shorter"),
            ("-3", "the list is shorter"),
            ("4+00000007", "the list is shorter"),
            ("..4", "the list is shorter"),
            ("1=7", "'7' is no word"),
            ("x=00000007", "'x' is no number"),
            ("1:00000007", "no change is written so"),
            ("-1 1=00000007", "word 1 is changed twice"),
            ("..1 2=00000007", "a word that is cut off"),
            ("..3 ..0", "change ..0: the list is cut twice"),
            ("..2 ..2", "the list is cut twice"),
            ("01=00000007", "'01' is no number: it has a leading zero"),
            ("..00", "'00' is no number: it has a leading zero"),
        ] {
            let wrong = of_three(changes).expect_err(changes);
            assert!(wrong.contains(told), "{changes}: {wrong}");
        }
    }
}
