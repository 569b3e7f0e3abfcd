//! Another program: where it is, how it is run, and what is said where its output
//! is not the one that is due.

use std::io::{ErrorKind, Result, Write};
use std::path::{Path, PathBuf};
use std::process::{exit, Child, Command, Stdio};
use std::time::Duration;

pub fn fail(message: &str) -> ! {
    eprintln!("{message}");
    exit(1)
}

pub fn or_fail<T>(result: Result<T>, doing: &str) -> T {
    result.unwrap_or_else(|error| fail(&format!("{doing}: {error}")))
}

/// The program at this path; without one, the built program of this name.
pub fn program_at(path: Option<String>, name: &str) -> PathBuf {
    let built = || Path::new(env!("CARGO_MANIFEST_DIR")).join("../target/bin").join(name);
    let program = path.map_or_else(built, PathBuf::from);
    if !program.is_file() {
        fail(&format!("no program at {}", program.display()));
    }
    program
}

pub fn piped(program: &Path) -> Child {
    let mut command = Command::new(program);
    let command = command.stdin(Stdio::piped()).stdout(Stdio::piped()).stderr(Stdio::piped());
    or_fail(command.spawn(), "starting the program")
}

/// What a program writes where its input comes through a pipe in pieces of this
/// length, with a pause after each. It may end without having read all of them,
/// and has to end well, with nothing on standard error.
pub fn through_pipe(program: &Path, input: &[u8], length: usize, pause: Duration) -> Vec<u8> {
    let mut child = piped(program);
    let mut to = child.stdin.take().expect("a pipe");
    let send = move || {
        input.chunks(length).try_for_each(|piece| {
            to.write_all(piece)?;
            std::thread::sleep(pause);
            Ok(())
        })
    };
    let (sent, output) = std::thread::scope(|scope| {
        let sender = scope.spawn(send);
        let output = or_fail(child.wait_with_output(), "running the program");
        (sender.join().unwrap_or(Ok(())), output)
    });
    or_fail(sent.or_else(none_reads), "writing to a pipe");
    if !output.status.success() || !output.stderr.is_empty() {
        let said = output.stderr.escape_ascii();
        fail(&format!("the program ended with {} and said \"{said}\"", output.status));
    }
    output.stdout
}

fn none_reads(error: std::io::Error) -> Result<()> {
    match error.kind() {
        ErrorKind::BrokenPipe => Ok(()),
        _ => Err(error),
    }
}

/// The first line at which two outputs differ, counted from 0.
pub fn first_difference(wanted: &[u8], got: &[u8]) -> Option<usize> {
    let same = wanted.iter().zip(got).take_while(|(a, b)| a == b).count();
    let differ = same < wanted.len() || same < got.len();
    differ.then(|| wanted[..same].iter().filter(|byte| **byte == b'\n').count())
}

/// A line as it is shown, counted from 0.
pub fn line(bytes: &[u8], number: usize) -> String {
    let shown = bytes.split_inclusive(|byte| *byte == b'\n').nth(number);
    shown.map_or("(none)".into(), |shown| {
        let cut = &shown[..shown.len().min(400)];
        format!("\"{}\"", cut.escape_ascii())
    })
}
