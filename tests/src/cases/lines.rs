//! Takes a case file apart into lines: comments go, and an indented line continues the one before.

/// What stands on a line, and its number from 1.
#[derive(Debug, PartialEq, Eq)]
pub struct Line {
    pub number: usize,
    pub text: String,
}

/// All lines that say something; else the number of a line and what is wrong with it.
pub fn lines(text: &str) -> Result<Vec<Line>, (usize, String)> {
    let mut lines: Vec<Line> = Vec::new();
    let mut open = false; // whether the last line may go on
    for (at, written) in text.lines().enumerate() {
        let number = at + 1;
        let said = written.split('#').next().unwrap_or("").trim();
        if !written.starts_with([' ', '\t']) {
            open = !said.is_empty();
            if open {
                let text = said.to_string();
                lines.push(Line { number, text });
            }
        } else if !said.is_empty() {
            let last = lines.last_mut().filter(|_| open);
            let none = (
                number,
                "indented, but there is no line to continue".to_string(),
            );
            let last = last.ok_or(none)?;
            last.text = format!("{} {said}", last.text);
        }
    }
    Ok(lines)
}

#[cfg(test)]
mod tests {
    use super::*;

    #[test]
    fn comments_go_and_indented_lines_continue() {
        let text = "# about\n\nlet A =\n    1 # one\n    # more\n    2\na | b | c # why\n";
        let line = |number, text: &str| Line {
            number,
            text: text.to_string(),
        };
        let wanted = vec![line(3, "let A = 1 2"), line(7, "a | b | c")];
        assert_eq!(lines(text), Ok(wanted));
    }

    #[test]
    fn nothing_to_continue() {
        for text in [" a", "a | b | c\n\n d", "a | b | c\n# about\n d"] {
            let number = text.lines().count();
            assert_eq!(lines(text).map_err(|wrong| wrong.0), Err(number), "{text}");
        }
    }
}
