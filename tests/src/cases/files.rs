//! Puts the cases of the files together.

use std::collections::BTreeMap;
use std::fs;
use std::path::{Path, PathBuf};

use super::answers::answer;
use super::calls::call;
use super::drafts::{draft, CALL};
use super::histories::{history, ARROW};
use super::lines::{lines, Line};
use super::words::{good_name, words, Named};
use super::{Case, Mistake, Question};

/// A file of this name has definitions alone, for all files of its folder.
const BASES: &str = "bases.txt";

/// All cases of the folders in a folder.
pub fn all(root: &Path) -> Result<Vec<Case>, Mistake> {
    let mut cases = Vec::new();
    for folder in entries(root)? {
        if folder.is_dir() {
            cases.extend(of_folder(root, &folder)?);
        } else if folder.extension().is_none_or(|end| end != "md") {
            return Err(mistake(root, &folder, "no folder of cases"));
        }
    }
    Ok(cases)
}

fn of_folder(root: &Path, folder: &Path) -> Result<Vec<Case>, Mistake> {
    let files = entries(folder)?;
    let mut named = Named::new();
    let mut cases = Vec::new();
    let is_bases = |file: &&PathBuf| file.ends_with(BASES);
    let (bases, others): (Vec<&PathBuf>, Vec<&PathBuf>) = files.iter().partition(is_bases);
    for file in bases {
        let (name, text) = read(root, file)?;
        if !parse(&name, &text, &mut named)?.is_empty() {
            return Err(mistake(root, file, "a case among the definitions"));
        }
    }
    for file in others {
        if file.extension().is_none_or(|end| end != "txt") {
            return Err(mistake(root, file, "cases stand in files .txt"));
        }
        let (name, text) = read(root, file)?;
        let of_file = parse(&name, &text, &mut named.clone())?;
        if of_file.is_empty() {
            return Err(mistake(root, file, "no case"));
        }
        cases.extend(of_file);
    }
    Ok(cases)
}

/// What stands in a folder, by name.
fn entries(folder: &Path) -> Result<Vec<PathBuf>, Mistake> {
    let listed = fs::read_dir(folder).and_then(|entries| {
        let paths = entries.map(|entry| entry.map(|entry| entry.path()));
        paths.collect::<Result<Vec<PathBuf>, _>>()
    });
    let mut paths = listed.map_err(|error| mistake(folder, folder, &error.to_string()))?;
    paths.sort();
    Ok(paths)
}

/// A file's name in messages, and its text.
fn read(root: &Path, file: &Path) -> Result<(String, String), Mistake> {
    let text = fs::read_to_string(file);
    let text = text.map_err(|error| mistake(root, file, &error.to_string()))?;
    Ok((shown(root, file), text))
}

fn shown(root: &Path, file: &Path) -> String {
    let inner = file.strip_prefix(root).unwrap_or(file);
    Path::new("tests/cases").join(inner).display().to_string()
}

fn mistake(root: &Path, file: &Path, what: &str) -> Mistake {
    Mistake {
        file: shown(root, file),
        line: 0,
        what: what.to_string(),
    }
}

/// The cases of one text. Its definitions are added to those that are there.
pub fn parse(file: &str, text: &str, named: &mut Named) -> Result<Vec<Case>, Mistake> {
    let at = |line, what| Mistake {
        file: file.to_string(),
        line,
        what,
    };
    let mut cases: Vec<Case> = Vec::new();
    let mut seen: BTreeMap<String, usize> = BTreeMap::new();
    for line in lines(text).map_err(|(line, what)| at(line, what))? {
        if let Some(definition) = line.text.strip_prefix("let ") {
            define(definition, named).map_err(|what| at(line.number, what))?;
            continue;
        }
        let case = case(file, &line, named).map_err(|what| at(line.number, what))?;
        if let Some(first) = seen.insert(case.name.clone(), line.number) {
            let what = format!("line {first} has this name already");
            return Err(at(line.number, what));
        }
        cases.push(case);
    }
    Ok(cases)
}

/// Takes `NAME = words` in.
fn define(text: &str, named: &mut Named) -> Result<(), String> {
    let (name, list) = text.split_once('=').ok_or("a definition without =")?;
    let name = name.trim();
    if !good_name(name) {
        return Err(format!("'{name}' is no name for a list"));
    }
    let list = words(list, named)?;
    match named.insert(name.to_string(), list) {
        Some(_) => Err(format!("{name} is defined already")),
        None => Ok(()),
    }
}

/// Reads a case: its name, and what is asked.
fn case(file: &str, line: &Line, named: &Named) -> Result<Case, String> {
    let parts: Vec<&str> = line.text.split('|').map(str::trim).collect();
    let (name, columns) = parts.split_first().unwrap_or((&"", &[]));
    if name.is_empty() {
        return Err("a case without a name".to_string());
    }
    let drafts = columns.first().is_some_and(|call| call.starts_with(CALL));
    let question = match line.text.contains(ARROW) {
        true => Question::History(history(columns, named)?),
        false if drafts => Question::Draft(draft(columns, named)?),
        false => asked(columns, named)?,
    };
    Ok(Case {
        file: file.to_string(),
        line: line.number,
        name: name.to_string(),
        question,
    })
}

/// Reads what stands behind the name of a line `name | call | answer`.
fn asked(columns: &[&str], named: &Named) -> Result<Question, String> {
    let [called, answered] = columns else {
        let bars = columns.len();
        return Err(format!("name | call | answer has two bars, here {bars}"));
    };
    let (call, answer) = (call(called, named)?, answer(answered)?);
    match call.may_answer(&answer) {
        true => Ok(Question::Call(call, answer)),
        false => Err(format!("{} never answers {answer}", call.name())),
    }
}

#[cfg(test)]
mod tests {
    use super::*;

    fn parsed(text: &str) -> Result<Vec<Case>, Mistake> {
        parse("a.txt", text, &mut Named::new())
    }

    #[test]
    fn definitions_and_cases() {
        let text = "# about\nlet A = 51001003\nlet B =\n  A # twice\n  A\n\none | read_model(B) | REFUSED 1 0\n";
        let cases = parsed(text).expect("a good text");
        assert_eq!(cases.len(), 1);
        assert_eq!((cases[0].line, cases[0].name.as_str()), (7, "one"));
        let shown = cases[0].question.to_string();
        assert_eq!(shown, "read_model(51001003 51001003) | REFUSED 1 0");
    }

    #[test]
    fn mistakes_name_file_and_line() {
        for (line, told) in [
            ("a read_model(none) | REFUSED 1 0", "has two bars, here 1"),
            (
                "a | b | read_model(none) | REFUSED 1 0",
                "has two bars, here 3",
            ),
            (" | read_model(none) | REFUSED 1 0", "indented"),
            ("| read_model(none) | REFUSED 1 0", "without a name"),
            (
                "a | read_model(5100100G) | REFUSED 1 0",
                "'5100100G' is no word",
            ),
            ("a | guess(none) | REFUSED 1 0", "unknown call 'guess'"),
            (
                "a | read_model(none) | REFUSED 1",
                "'REFUSED 1' is no answer",
            ),
            (
                "a | read_model(none) | EMPTY",
                "read_model never answers EMPTY",
            ),
            (
                "first | read_model(none) | REFUSED 1 0",
                "line 1 has this name",
            ),
            ("let B 51001003", "a definition without ="),
            ("let b = 51001003", "'b' is no name"),
            ("let A = 51001003", "A is defined already"),
            ("let B = C", "'C' is no word"),
        ] {
            let text =
                format!("first | read_model(none) | REFUSED 1 0\nlet A = 51001003\n\n{line}");
            let wrong = parsed(&text).expect_err(line).to_string();
            assert!(
                wrong.starts_with("a.txt:4: ") && wrong.contains(told),
                "{wrong}"
            );
        }
    }
}
