//! What the programs make of their standard input: whole inputs, slow ones, and ones that cannot be
//! read to their end, which get a message and no line.

use outside::spell::bytes;
use outside::worked;
use std::fs::{self, File, OpenOptions};
use std::io::{ErrorKind, Write};
use std::os::fd::OwnedFd;
use std::os::unix::fs::OpenOptionsExt;
use std::os::unix::net::UnixStream;
use std::path::{Path, PathBuf};
use std::process::{Child, Command, Output, Stdio};
use std::thread::sleep;
use std::time::Duration;

/// A program, with an input that it accepts.
struct Program {
    name: &'static str,
    /// What it takes; its `READ_BYTES` is one more.
    most_bytes: usize,
    words: Vec<u32>,
    /// Where the input has a bound that may come again.
    bound: usize,
    /// What it prints for these words, and with a word more behind them.
    accepted: &'static str,
    one_more: &'static str,
}

/// The draft of document 01's timeline after two rounds.
const DRAFT: &str =
    "700F4240\n80000000\n50101000\n51001000\n900186A0\nB0000001\nB0000002\n81000000\n\
    50100FFE\n51001003\n90000000\n82000000\n50100FFE\n51001003\n900F4240\nC0000000";

/// The judge with document 01's timeline and table, and the program that drafts with two rounds and the
/// timeline.
fn programs() -> [Program; 2] {
    let judge = Program {
        name: "judge_cli",
        most_bytes: 65_536,
        words: [&worked::MODEL[..], &worked::TABLE[..]].concat(),
        bound: worked::MODEL.len() + 2,
        accepted: "ACCEPTED 1 10 3",
        one_more: "REFUSED 11 11",
    };
    let drafter = Program {
        name: "draft_cli",
        most_bytes: 4 + 65_536,
        words: [&[2], &worked::MODEL[..]].concat(),
        bound: 3,
        accepted: DRAFT,
        one_more: "REFUSED 1 11",
    };
    [judge, drafter]
}

impl Program {
    fn path(&self) -> PathBuf {
        let programs = Path::new(env!("CARGO_MANIFEST_DIR")).join("../target/bin");
        programs.join(self.name)
    }

    fn start(&self, input: impl Into<Stdio>) -> Child {
        let mut command = Command::new(self.path());
        command
            .stdin(input)
            .stdout(Stdio::piped())
            .stderr(Stdio::piped());
        command.spawn().expect("a program of target/bin runs")
    }

    fn output(&self, input: impl Into<Stdio>) -> Output {
        self.start(input).wait_with_output().expect("it ends")
    }

    /// Writes to its standard input in parts, with a pause before each but the first.
    fn slowly(&self, parts: &[&[u8]]) -> Output {
        let mut child = self.start(Stdio::piped());
        let mut pipe = child.stdin.take().expect("a pipe");
        for (i, part) in parts.iter().enumerate() {
            sleep(Duration::from_millis(if i > 0 { 20 } else { 0 }));
            match pipe.write_all(part) {
                Err(error) if error.kind() == ErrorKind::BrokenPipe => break, // over its limit it reads no more
                other => other.expect("a part is written"),
            }
        }
        drop(pipe);
        child.wait_with_output().expect("it ends")
    }

    /// The input was read to its end: these lines, and no message.
    fn says(&self, output: Output, lines: &str, about: &str) {
        let name = self.name;
        assert_eq!(
            String::from_utf8_lossy(&output.stderr),
            "",
            "{name}: {about}"
        );
        assert_eq!(
            String::from_utf8_lossy(&output.stdout),
            format!("{lines}\n"),
            "{name}: {about}"
        );
    }

    /// The input could not be read to its end: a message, and no line.
    fn says_nothing(&self, output: Output) {
        assert_eq!(String::from_utf8_lossy(&output.stdout), "");
        assert_eq!(
            String::from_utf8_lossy(&output.stderr),
            format!(
                "{}: standard input could not be read to its end\n",
                self.name
            )
        );
    }

    /// Its words with one bound so often that they are as many bytes as it takes.
    fn longest(&self) -> Vec<u8> {
        let mut words = self.words.clone();
        let more = self.most_bytes / 4 - words.len();
        let again = std::iter::repeat_n(words[self.bound], more);
        words.splice(self.bound..self.bound, again);
        bytes(&words)
    }
}

/// A folder of a test's own.
fn folder(name: &str) -> PathBuf {
    let folder = std::env::temp_dir().join(format!("outside.{}.{name}", std::process::id()));
    fs::create_dir_all(&folder).expect("a temporary folder");
    folder
}

#[test]
fn a_slow_pipe_is_read_to_its_end() {
    for program in programs() {
        let words = bytes(&program.words);
        let parts: Vec<&[u8]> = words.chunks(7).collect();
        program.says(program.slowly(&parts), program.accepted, "document 01's");
        program.says(
            program.slowly(&[&words, &[0; 4]]),
            program.one_more,
            "a word behind the end",
        );
        program.says(program.slowly(&[]), "REFUSED 1 0", "no bytes");
    }
}

#[test]
fn the_last_bytes_that_a_program_takes() {
    for program in programs() {
        let words = program.longest();
        assert_eq!(words.len(), program.most_bytes);
        program.says(program.slowly(&[&words]), program.accepted, "most bytes");
        let (first, rest) = words.split_at(30_001);
        program.says(
            program.slowly(&[first, rest]),
            program.accepted,
            "most bytes, in two parts",
        );
    }
}

/// With a smaller `READ_BYTES` the byte over the limit would not be seen, and the rest accepted.
#[test]
fn read_bytes_is_one_more_than_a_program_takes() {
    for program in programs() {
        let mut words = program.longest();
        words.push(0);
        let about = "a byte too many: READ_BYTES must be one more than the program takes, so that it is read";
        program.says(program.slowly(&[&words]), "REFUSED 42 0", about);
        let (most, over) = words.split_at(program.most_bytes);
        program.says(program.slowly(&[most, over]), "REFUSED 42 0", about);
        words.extend([0; 100_000]);
        program.says(program.slowly(&[&words]), "REFUSED 42 0", "many more");
    }
}

#[test]
fn a_closed_input_gets_no_line() {
    for program in programs() {
        let mut command = Command::new("sh");
        command.args(["-c", "exec \"$0\" <&-"]).arg(program.path());
        program.says_nothing(command.output().expect("sh runs"));
    }
}

#[test]
fn an_input_that_can_only_be_written_gets_no_line() {
    for program in programs() {
        let folder = folder(&format!("{}.written", program.name));
        let file = File::create(folder.join("file")).expect("a file");
        program.says_nothing(program.output(file));
        fs::remove_dir_all(folder).expect("removed");
    }
}

#[test]
fn a_folder_gets_no_line() {
    for program in programs() {
        let folder = File::open(env!("CARGO_MANIFEST_DIR")).expect("a folder");
        program.says_nothing(program.output(folder));
    }
}

/// The pipe has all the words, but no end: the next read says that there is nothing yet.
#[test]
fn a_pipe_that_does_not_block_gets_no_line() {
    const O_NONBLOCK: i32 = 0o4000;
    for program in programs() {
        let folder = folder(&format!("{}.pipe", program.name));
        let name = folder.join("pipe");
        let made = Command::new("mkfifo").arg(&name).status();
        assert!(made.expect("mkfifo runs").success());
        let mut options = OpenOptions::new();
        let mut pipe = options
            .read(true)
            .write(true)
            .custom_flags(O_NONBLOCK)
            .open(&name)
            .expect("opened");
        pipe.write_all(&bytes(&program.words)).expect("written");
        program.says_nothing(program.output(pipe));
        fs::remove_dir_all(folder).expect("removed");
    }
}

/// The first read brings all the words that are accepted, and the second one fails. One more would find
/// an end, as behind a connection that broke; what was read is not the input all the same.
#[test]
fn an_input_whose_second_read_fails_gets_no_line() {
    for program in programs() {
        let (mut sender, mut input) = UnixStream::pair().expect("two sockets");
        input.write_all(&[0]).expect("written");
        sender.write_all(&bytes(&program.words)).expect("written");
        drop(sender); // with a byte that it has not read: the connection is reset
        program.says_nothing(program.output(OwnedFd::from(input)));
    }
}
