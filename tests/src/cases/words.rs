//! Lists of words as the case files write them: words in hex, names, groups, repeats and changes.

use std::collections::BTreeMap;

use super::changes::changed;

/// The lists that have a name.
pub type Named = BTreeMap<String, Vec<u32>>;

/// More than the program takes as one file.
const MOST: usize = 20_000;

/// Reads a list; `none` is the empty one.
pub fn words(text: &str, named: &Named) -> Result<Vec<u32>, String> {
    if text.trim() == "none" {
        return Ok(Vec::new());
    }
    let mut rest = Rest { text, named };
    let words = rest.list()?;
    match rest.text {
        "" => Ok(words),
        _ => Err("a ) without its (".to_string()),
    }
}

/// Reads a word: eight hex digits in upper case.
pub fn word(text: &str) -> Result<u32, String> {
    let hex = |digit: char| matches!(digit, '0'..='9' | 'A'..='F');
    if text.len() != 8 || !text.chars().all(hex) {
        return Err(format!("'{text}' is no word: eight digits, 0-9 and A-F"));
    }
    u32::from_str_radix(text, 16).map_err(|error| format!("'{text}': {error}"))
}

/// Reads a number in base ten, without leading zeros.
pub fn number<N: std::str::FromStr>(text: &str) -> Result<N, String> {
    if text.len() > 1 && text.starts_with('0') {
        return Err(format!("'{text}' is no number: it has a leading zero"));
    }
    let digits = text.chars().all(|digit| digit.is_ascii_digit());
    let number = if digits { text.parse().ok() } else { None };
    number.ok_or_else(|| format!("'{text}' is no number"))
}

/// Whether lists may be called so: in capitals, and not to be taken for a word.
pub fn good_name(text: &str) -> bool {
    let letters = |letter: char| matches!(letter, 'A'..='Z' | '0'..='9' | '_');
    text.starts_with(|first: char| first.is_ascii_uppercase())
        && text.chars().all(letters)
        && word(text).is_err()
}

/// What is still to be read.
struct Rest<'a> {
    text: &'a str,
    named: &'a Named,
}

impl<'a> Rest<'a> {
    /// Items up to the end or to a closing bracket.
    fn list(&mut self) -> Result<Vec<u32>, String> {
        let mut words = Vec::new();
        let mut lacking = true;
        loop {
            self.text = self.text.trim_start();
            if self.text.is_empty() || self.text.starts_with(')') {
                break;
            }
            words.extend(self.item()?);
            lacking = false;
            if words.len() > MOST {
                return Err(format!("more than {MOST} words"));
            }
        }
        match lacking {
            true => Err("words are lacking; the empty list is written none".to_string()),
            false => Ok(words),
        }
    }

    /// A word, a name or a group, with what is done to it.
    fn item(&mut self) -> Result<Vec<u32>, String> {
        let mut words = self.plain()?;
        loop {
            if let Some(after) = self.text.strip_prefix('[') {
                let (changes, after) = after.split_once(']').ok_or("a [ without its ]")?;
                self.text = after;
                words = changed(&words, changes)?;
            } else if let Some(after) = self.text.strip_prefix('*') {
                self.text = after;
                let times: usize = number(self.token())?;
                if times == 0 || words.len().saturating_mul(times) > MOST {
                    return Err(format!("{times} times {} words", words.len()));
                }
                words = words.repeat(times);
            } else {
                return Ok(words);
            }
        }
    }

    fn plain(&mut self) -> Result<Vec<u32>, String> {
        if let Some(after) = self.text.strip_prefix('(') {
            self.text = after;
            let words = self.list()?;
            let after = self.text.strip_prefix(')').ok_or("a ( without its )")?;
            self.text = after;
            return Ok(words);
        }
        let token = self.token();
        if let Some(words) = self.named.get(token) {
            return Ok(words.clone());
        }
        match good_name(token) && !token.chars().all(|digit| digit.is_ascii_hexdigit()) {
            true => Err(format!("no list is called {token}")),
            false => word(token).map(|word| vec![word]),
        }
    }

    /// Letters and digits, or else the one character that does not belong here.
    fn token(&mut self) -> &'a str {
        let part = |letter: char| letter.is_ascii_alphanumeric() || letter == '_';
        let end = self.text.find(|letter| !part(letter));
        let first = self.text.chars().next().map_or(0, char::len_utf8);
        let (token, after) = self.text.split_at(match end {
            Some(0) => first,
            Some(end) => end,
            None => self.text.len(),
        });
        self.text = after;
        token
    }
}

#[cfg(test)]
mod tests {
    use super::*;

    fn read(text: &str) -> Result<Vec<u32>, String> {
        let named = [("M".to_string(), vec![1, 2, 3])];
        words(text, &Named::from(named))
    }

    #[test]
    fn words_names_groups_and_repeats() {
        assert_eq!(read("none"), Ok(vec![]));
        assert_eq!(read("M[..0]"), Ok(vec![]));
        assert_eq!(read("5100100A M"), Ok(vec![0x5100100A, 1, 2, 3]));
        assert_eq!(read("00000007*3"), Ok(vec![7, 7, 7]));
        assert_eq!(read("(00000007 M[..1]*2)*2"), Ok(vec![7, 1, 1, 7, 1, 1]));
        assert_eq!(read("M[..2][..1]"), Ok(vec![1]));
    }

    #[test]
    fn what_is_no_list_is_told() {
        for (text, told) in [
            ("5100100", "'5100100' is no word"),
            ("5100100AB", "'5100100AB' is no word"),
            ("5100100a", "'5100100a' is no word"),
            ("0x100000", "'0x100000' is no word"),
            ("M; M", "';' is no word"),
            ("none M", "'none' is no word"),
            ("FADE", "'FADE' is no word"),
            ("T", "no list is called T"),
            ("", "words are lacking"),
            ("()", "words are lacking"),
            ("(M", "a ( without its )"),
            ("M)", "a ) without its ("),
            ("M[..1", "a [ without its ]"),
            ("M*", "'' is no number"),
            ("M*x", "'x' is no number"),
            ("M*0", "0 times 3 words"),
            ("M*02", "'02' is no number: it has a leading zero"),
            ("M*99999999", "99999999 times"),
            ("M*6000 M*6000", "more than 20000 words"),
        ] {
            let wrong = read(text).expect_err(text);
            assert!(wrong.contains(told), "{text}: {wrong}");
        }
    }

    #[test]
    fn names_are_not_words() {
        assert!(good_name("M") && good_name("EDGES_10") && good_name("FADE"));
        assert!(!good_name("m") && !good_name("") && !good_name("1M") && !good_name("M-N"));
        assert!(!good_name("FADEFADE"));
    }
}
