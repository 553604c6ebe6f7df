//! Compares the judge under test and the plain judge with the independent reading, answers with the
//! exhaustive player, boards with the law of document 02, card 3, and drafts with what its card 5 says
//! of every draft.
//!
//! `compare [--program PATH] [--long N]`: exit code 0 if all answers agree and nothing is lacking.
//! `--long N` does the work N times, each time with other seeds.
//! `compare --wrong`: exit code 0 if all judges, boards and drafts that are wrong on purpose are caught.

use std::path::PathBuf;
use std::process::ExitCode;
use std::time::Instant;

use outside::comparer::Fault;
use outside::plan::{Run, Work};
use outside::sides::UnderTest;
use outside::{report, self_check};

const SEED: u64 = 20_240_601;

struct Settings {
    under_test: UnderTest,
    /// How often the work is done.
    times: usize,
    wrong: bool,
}

fn main() -> ExitCode {
    let started = Instant::now();
    let outcome = settings().and_then(|settings| {
        if settings.wrong {
            catch_wrong_judges()
        } else {
            compare(&settings)
        }
    });
    println!("{:.1} s", started.elapsed().as_secs_f64());
    match outcome {
        Ok(()) => ExitCode::SUCCESS,
        Err(fault) => {
            println!("FAILED: {fault}");
            ExitCode::FAILURE
        }
    }
}

fn settings() -> Result<Settings, Fault> {
    let mut settings = Settings {
        under_test: UnderTest::built(),
        times: 1,
        wrong: false,
    };
    let mut arguments = std::env::args().skip(1);
    while let Some(argument) = arguments.next() {
        let mut value = || {
            let lacking = Fault(format!("{argument} needs a value"));
            arguments.next().ok_or(lacking)
        };
        match argument.as_str() {
            "--program" => settings.under_test.program = PathBuf::from(value()?),
            "--long" => {
                let times = value()?;
                let not_a_number = |_| Fault(format!("--long {times}: not a number"));
                settings.times = times.parse().map_err(not_a_number)?;
            }
            "--wrong" => settings.wrong = true,
            _ => return Err(Fault(format!("unknown setting {argument}"))),
        }
    }
    Ok(settings)
}

fn compare(settings: &Settings) -> Result<(), Fault> {
    let mut run = Run::new(&settings.under_test, SEED);
    for _ in 0..settings.times {
        run.all(&Work::USUAL)?;
    }
    print!("{}", report::comparisons(&run.comparer.tally));
    print!("{}", report::evidence(&run.evidence, &run.comparer.tally));
    print!("{}", report::boards(&run.comparer.tally.boards));
    print!("{}", report::drafts(&run.comparer.tally.drafts));
    let lacks = report::lacks(&run.comparer.tally, &run.evidence);
    if lacks.is_empty() {
        return Ok(());
    }
    Err(Fault(lacks.join("; ")))
}

fn catch_wrong_judges() -> Result<(), Fault> {
    for (name, before) in self_check::wrong_judges()? {
        println!("caught after {before:>5} equal answers: {name}");
    }
    let as_plain = self_check::wrong_plain_judges()?.len();
    println!("caught in the place of the plain judge, too: {as_plain}");
    for (name, before) in self_check::wrong_boards()? {
        println!("board caught after {before:>5} equal answers: {name}");
    }
    let as_plain = self_check::wrong_plain_boards()?.len();
    println!("boards caught in the place of the plain judge's, too: {as_plain}");
    for (name, before) in self_check::flaws_against_law()? {
        println!("the law objects after {before:>5} boards and histories: {name}");
    }
    for (name, before) in self_check::wrong_drafts()? {
        println!("draft caught after {before:>5} equal answers: {name}");
    }
    let as_plain = self_check::wrong_plain_drafts()?.len();
    println!("drafts caught in the place of the plain judge's, too: {as_plain}");
    for (name, before) in self_check::draft_flaws_against_law()? {
        println!("card 5 objects to a draft after {before:>5} models: {name}");
    }
    for (name, before) in self_check::flaws_against_player()? {
        println!("the player objects after {before:>5} answers: {name}");
    }
    let told = self_check::false_claims()?;
    println!("false claims objected to: {told}");
    let players = self_check::flawed_players()?;
    println!("players that count a landing outside for too little, caught by them: {players}");
    Ok(())
}
