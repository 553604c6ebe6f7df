//! Asks the judge under test, the independent reading and the plain judge the cases of `tests/cases`.
//!
//! `cases [--program PATH] [--drafter PATH]`: exit code 0 if every answer is the stored one and no case is lacking.
//! `cases --words`: prints every case with all its words, and asks nothing.

use std::path::{Path, PathBuf};
use std::process::ExitCode;
use std::time::Instant;

use outside::cases::run::Outcome;
use outside::cases::{files, Case};
use outside::sides::UnderTest;

fn main() -> ExitCode {
    let tests = Path::new(env!("CARGO_MANIFEST_DIR"));
    let cases = match files::all(&tests.join("cases")) {
        Ok(cases) => cases,
        Err(mistake) => return failed(&mistake.to_string()),
    };
    let mut under_test = UnderTest::built();
    let arguments: Vec<String> = std::env::args().skip(1).collect();
    let arguments: Vec<&str> = arguments.iter().map(String::as_str).collect();
    if arguments == ["--words"] {
        for case in &cases {
            println!("{} | {}", case.name, case.question);
        }
        return ExitCode::SUCCESS;
    }
    for setting in arguments.chunks(2) {
        match *setting {
            ["--program", program] => under_test.program = PathBuf::from(program),
            ["--drafter", program] => under_test.drafter = PathBuf::from(program),
            _ => return failed("usage: cases [--program PATH] [--drafter PATH], or cases --words"),
        }
    }
    asked(&cases, &under_test)
}

fn asked(cases: &[Case], under_test: &UnderTest) -> ExitCode {
    let started = Instant::now();
    let outcome = Outcome::of(cases, under_test);
    print!("{}", outcome.counted());
    for difference in &outcome.differences {
        println!("{difference}");
    }
    println!("{:.1} s", started.elapsed().as_secs_f64());
    let mut faults = outcome.lacks();
    if !outcome.differences.is_empty() {
        faults.push(format!("{} differences", outcome.differences.len()));
    }
    match faults.is_empty() {
        true => ExitCode::SUCCESS,
        false => failed(&faults.join("; ")),
    }
}

fn failed(why: &str) -> ExitCode {
    println!("FAILED: {why}");
    ExitCode::FAILURE
}
