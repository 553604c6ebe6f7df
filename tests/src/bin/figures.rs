//! Prints the figures of docs/FIGURES.md, as Markdown. Meant for a release build.
//!
//! `figures`: how long a call takes with the judge, the reading and the plain judge.
//! `figures --instructions`: how many instructions it needs, and how many conditional branches are among them, where valgrind
//! is there. The document's table of branches is made of the last cell.
//! `figures --once LINE SIDE N`: runs the call of one line N times and prints nothing; for valgrind.

use std::process::ExitCode;

use outside::comparer::Fault;
use outside::figures::{self, Time, SIDES};
use outside::instructions::{self, Counts};
use outside::shapes::{self, Shape, LONGEST};

const ROUNDS: usize = 25;

fn main() -> ExitCode {
    let arguments: Vec<String> = std::env::args().skip(1).collect();
    let arguments: Vec<&str> = arguments.iter().map(String::as_str).collect();
    let outcome = match arguments[..] {
        [] => {
            print_times();
            Ok(())
        }
        ["--instructions"] => print_instructions(),
        ["--once", line, side, calls] => once(line, side, calls),
        _ => Err(Fault(format!("unknown settings {arguments:?}"))),
    };
    match outcome {
        Ok(()) => ExitCode::SUCCESS,
        Err(fault) => {
            eprintln!("FAILED: {fault}");
            ExitCode::FAILURE
        }
    }
}

fn print_times() {
    print_head("");
    for shape in shapes::all() {
        let times = figures::times(&shape, ROUNDS);
        let cells: Vec<String> = times.iter().map(spelled).collect();
        let least: Vec<f64> = times.iter().map(|time| time.least).collect();
        println!("{}", row(&shape, &cells, &least));
    }
    println!(
        "\nTime of one call: the least of {ROUNDS} rounds and, in brackets, the middle one; the ratios are those of the least. {}.",
        figures::processor()
    );
}

/// Longer inputs than the program takes are left out: what they add is the same for each word.
fn print_instructions() -> Result<(), Fault> {
    if !instructions::has_valgrind() {
        println!("valgrind is not there: no instructions are counted.");
        return Ok(());
    }
    print_head(" branches of the three |");
    for (number, shape) in shapes::all().iter().enumerate() {
        let input = shape.input();
        if input.words() > LONGEST {
            continue;
        }
        let count = |side| instructions::per_call(number, side, &input);
        let counts = SIDES
            .map(count)
            .into_iter()
            .collect::<Result<Vec<Counts>, Fault>>()?;
        let all = |count: fn(&Counts) -> u64| counts.iter().map(count).collect::<Vec<u64>>();
        let instructions = all(|counts| counts.instructions);
        let branches = all(|counts| counts.branches);
        let numbers: Vec<f64> = instructions.iter().map(|&count| count as f64).collect();
        println!(
            "{} {} |",
            row(shape, &spelled_out(&instructions), &numbers),
            spelled_out(&branches).join(", "),
        );
    }
    println!(
        "\nInstructions of one call, and conditional branches among them, by valgrind's callgrind. {}.",
        figures::processor()
    );
    Ok(())
}

fn once(line: &str, side: &str, calls: &str) -> Result<(), Fault> {
    let unknown = || {
        Fault(format!(
            "--once {line} {side} {calls}: no such line, side or number"
        ))
    };
    let shapes = shapes::all();
    let number: usize = line.parse().map_err(|_| unknown())?;
    let shape = shapes.get(number).ok_or_else(unknown)?;
    let input = shape.input();
    let mut side = figures::side(side, &input).ok_or_else(unknown)?;
    let calls = calls.parse().map_err(|_| unknown())?;
    figures::repeat(&input, &mut side, calls);
    Ok(())
}

/// The head of a table, and the head of the cell behind its ratios, if there is one.
fn print_head(last: &str) {
    let [judge, reading, plain] = SIDES;
    println!("| call | words | {judge} | {reading} | {plain} | {judge} / {reading} | {judge} / {plain} |{last}");
    println!("|---|{}", "---:|".repeat(6 + last.matches('|').count()));
}

/// A line with a cell and a number for each side, the judge first; the numbers make the ratios.
fn row(shape: &Shape, cells: &[String], numbers: &[f64]) -> String {
    let ratio = |other: usize| format!("{:.2}", numbers[0] / numbers[other]);
    format!(
        "| {} | {} | {} | {} | {} |",
        shape.name(),
        shape.input().words(),
        cells.join(" | "),
        ratio(1),
        ratio(2),
    )
}

fn spelled_out(numbers: &[u64]) -> Vec<String> {
    numbers.iter().map(|&number| grouped(number)).collect()
}

/// Least and middle, in the unit that suits them.
fn spelled(time: &Time) -> String {
    let (unit, digits, name) = match time.least {
        least if least < 1e2 => (1.0, 1, "ns"),
        least if least < 1e5 => (1e3, 2, "µs"),
        _ => (1e6, 3, "ms"),
    };
    let (least, middle) = (time.least / unit, time.middle / unit);
    format!("{least:.digits$} ({middle:.digits$}) {name}")
}

/// A number with a comma before every three digits.
fn grouped(number: u64) -> String {
    let digits = number.to_string();
    let mut text = String::new();
    for (place, digit) in digits.chars().enumerate() {
        if place > 0 && (digits.len() - place) % 3 == 0 {
            text.push(',');
        }
        text.push(digit);
    }
    text
}
