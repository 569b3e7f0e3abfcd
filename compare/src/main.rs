//! Compares the replay program with the plain ledger, and the fleet program with
//! the plain rule for made-up fleets, byte by byte.
//!
//!     cargo run --release --offline -p compare -- [--more] [REPLAY]
//!     cargo run --release --offline -p compare -- --mutants
//!     cargo run --release --offline -p compare -- --write FOLDER
//!     cargo run --release --offline -p compare -- --ledger <CALLS
//!     cargo run --release --offline -p compare -- --chart
//!     cargo run --release --offline -p compare -- --fleets [FLEET]
//!     cargo run --release --offline -p compare -- --fleet <ORDER
//!
//! REPLAY is the program to compare; without it, `target/bin/replay` in the
//! folder above this package. Every generated list goes through the program
//! from file to file, some of them through a pipe in small pieces too. At the
//! first difference the line, its call and both answers are printed and the
//! exit is 1. `--more` takes ten times the seeds. At the end it prints the
//! times of the program and of the ledger on three long files.
//!
//! `--mutants` needs no program: it shows that the lists tell the ledger from
//! one with a wrong rule, for each of those in `Wrong`, and that the inputs of
//! `--fleets` tell the rule for fleets from each in `WrongFleet`. `--write`
//! writes the lists and the long files into a folder, to look at or to run by
//! hand. `--ledger` answers call lines from standard input, as the ledger does.
//! `--chart` prints the curve table by the quadrant rule, as the chart room
//! wants it: 32 lines of 32 numbers in 5 columns each, row 0 first.
//!
//! `--fleets` runs the program FLEET, without it `target/bin/fleet`, on orders
//! for fleets, good and bad; each line that it writes must be read back as its
//! call, and the ledger must accept it. `--fleet` writes what is due for standard
//! input.

mod fleet_runs;
mod programs;

use fleet_runs::{compare_fleets, fleet_mutants};
use plain_ledger::fleets::{written, ORDER};
use plain_ledger::generate::{lists, many_asks, many_reports, List, Retired, STEPS};
use plain_ledger::grid::curve_number;
use plain_ledger::limits::SIDE;
use plain_ledger::lines::{COLUMNS, LONGEST};
use plain_ledger::methods::Wrong;
use plain_ledger::stream::{answers, serve};
use programs::{fail, first_difference, line, or_fail, piped, program_at, through_pipe};
use std::collections::BTreeMap;
use std::fs::{self, File};
use std::io::{Read, Write};
use std::path::{Path, PathBuf};
use std::process::{exit, Command};
use std::sync::mpsc;
use std::time::{Duration, Instant};

/// Seeds of a run, and of one with `--more`.
const SEEDS: u64 = 7;
const MORE_SEEDS: u64 = 70;
/// Lengths of the pieces in which lists go through a pipe.
const PIECES: [usize; 5] = [1, 10, LONGEST, LONGEST + 1, 5_000];
/// Numbers that an answer line may have: 0 accepted, 9 no call, else refused.
const NUMBERS: usize = 11;

fn main() {
    let mut more = false;
    let mut program = None;
    let mut arguments = std::env::args().skip(1);
    while let Some(argument) = arguments.next() {
        match argument.as_str() {
            "--more" => more = true,
            "--mutants" => return mutants(),
            "--write" => return write_lists(&arguments.next().unwrap_or_else(|| usage())),
            "--ledger" => return serve_ledger(),
            "--chart" => return print_chart(),
            "--fleets" => return compare_fleets(&program_at(arguments.next(), "fleet")),
            "--fleet" => return write_fleet(),
            name if !name.starts_with('-') && program.is_none() => program = Some(argument),
            _ => usage(),
        }
    }
    let program = program_at(program, "replay");
    let folder = std::env::temp_dir().join(format!("compare-{}", std::process::id()));
    or_fail(fs::create_dir_all(&folder), "making a folder for the lists");
    let run = Run { program, folder };
    run.compare_lists(if more { MORE_SEEDS } else { SEEDS });
    run.compare_pieces();
    run.look_at_typing();
    run.compare_times("200,000 reports", &many_reports());
    run.compare_times("20,000 optimal asks", &many_asks(b'Q'));
    run.compare_times("20,000 optimal window asks", &many_asks(b'W'));
    or_fail(fs::remove_dir_all(&run.folder), "removing the lists");
}

fn usage() -> ! {
    fail(
        "usage: compare [--more] [REPLAY] | --mutants | --write FOLDER | --ledger | --chart | \
         --fleets [FLEET] | --fleet",
    )
}

/// The ledger as a process, for the times.
fn serve_ledger() {
    let served = serve(&mut std::io::stdin().lock(), &mut std::io::stdout().lock());
    or_fail(served, "serving");
}

fn print_chart() {
    for row in 0..SIDE {
        let line: String =
            (0..SIDE).map(|column| format!("{:5}", curve_number(row * SIDE + column))).collect();
        println!("{line}");
    }
}

/// Writes what is due for standard input. Two bytes past an order it is none,
/// whatever follows.
fn write_fleet() {
    let mut input = Vec::new();
    let most = ORDER as u64 + 2;
    or_fail(std::io::stdin().take(most).read_to_end(&mut input), "reading");
    or_fail(std::io::stdout().write_all(&written(&input, None)), "writing");
}

fn write_lists(folder: &str) {
    let write = |name: String, input: &[u8]| {
        or_fail(fs::write(Path::new(folder).join(name), input), "writing");
    };
    or_fail(fs::create_dir_all(folder), "making the folder");
    for (index, list) in lists(SEEDS).enumerate() {
        write(format!("list-{index}"), &list.input);
    }
    write("reports".into(), &many_reports());
    write("asks".into(), &many_asks(b'Q'));
    write("windows".into(), &many_asks(b'W'));
}

fn print_retired(retired: &Retired) {
    let calls = STEPS.iter().zip(retired.calls);
    let calls: Vec<String> = calls.map(|(letter, n)| format!("{} {n}", *letter as char)).collect();
    let (floats, all) = (retired.floats, retired.calls.iter().sum::<usize>());
    println!("floats retired {floats}, in {all} calls: {}", calls.join(", "));
}

/// Counts the answers by their number.
fn count_numbers(answers: &[u8], counts: &mut [usize; NUMBERS]) {
    for answer in answers.split_inclusive(|byte| *byte == b'\n') {
        let number = std::str::from_utf8(&answer[1..1 + COLUMNS]).ok();
        let number = number.and_then(|text| text.trim_start().parse::<usize>().ok());
        counts[number.expect("an answer line has a number")] += 1;
    }
}

struct Run {
    program: PathBuf,
    folder: PathBuf,
}

impl Run {
    /// Runs a program from file to file.
    fn process(&self, command: &mut Command, input: &str, output: &str) -> Duration {
        let input = or_fail(File::open(self.folder.join(input)), "opening a list");
        let output = or_fail(File::create(self.folder.join(output)), "opening answers");
        let start = Instant::now();
        let status = or_fail(command.stdin(input).stdout(output).status(), "running the program");
        let time = start.elapsed();
        if !status.success() {
            fail(&format!("the program ended with {status}"));
        }
        time
    }

    fn check(&self, name: &str, input: &[u8], wanted: &[u8], got: &[u8]) {
        let Some(number) = first_difference(wanted, got) else {
            return;
        };
        println!("difference in {name}, line {}", number + 1);
        println!("  call   {}", line(input, number));
        println!("  ledger {}", line(wanted, number));
        println!("  replay {}", line(got, number));
        let kept = self.folder.join("input");
        or_fail(fs::write(&kept, input), "keeping the list");
        println!("  the list is kept as {}", kept.display());
        exit(1)
    }

    fn compare_lists(&self, seeds: u64) {
        let start = Instant::now();
        let mut styles: BTreeMap<&str, (usize, usize)> = BTreeMap::new();
        let mut numbers = [0; NUMBERS];
        let mut windows = 0;
        let mut retired = Retired::default();
        for (index, list) in lists(seeds).enumerate() {
            let style = list.style;
            or_fail(fs::write(self.folder.join("input"), &list.input), "writing");
            self.process(&mut Command::new(&self.program), "input", "output");
            let got = or_fail(fs::read(self.folder.join("output")), "reading");
            let name = format!("list {index} ({style})");
            self.check(&name, &list.input, &list.answers, &got);
            let entry = styles.entry(style).or_default();
            let count = |wanted| list.answers.iter().filter(|byte| **byte == wanted).count();
            entry.0 += 1;
            entry.1 += count(b'\n');
            windows += count(b'W');
            retired += list.retired;
            count_numbers(&list.answers, &mut numbers);
        }
        for (style, (lists, lines)) in &styles {
            println!("{style:>22}: {lists:>4} lists {lines:>8} lines");
        }
        let lines: usize = styles.values().map(|(_, lines)| lines).sum();
        let accepted = numbers[0];
        let (refused, bad_windows) = (&numbers[3..8], numbers[10]);
        print!("accepted {accepted}, refused 3 to 7 {refused:?}, 10 {bad_windows}");
        println!(", no call {}; window asks {windows}", numbers[9]);
        print_retired(&retired);
        println!("{lines} lines the same in {:.1} s", start.elapsed().as_secs_f64());
    }

    /// Lists in pieces through a pipe.
    fn compare_pieces(&self) {
        for (length, list) in PIECES.into_iter().cycle().zip(lists(1)) {
            let got = through_pipe(&self.program, &list.input, length, Duration::ZERO);
            let name = format!("a list ({}) in pieces of {length}", list.style);
            self.check(&name, &list.input, &list.answers, &got);
        }
        println!("the same through a pipe in pieces of {PIECES:?} bytes");
    }

    /// Whether each line is answered before the next one comes.
    fn look_at_typing(&self) {
        let (calls, wanted) = plain_ledger::LISTING;
        let mut child = piped(&self.program);
        let mut to = child.stdin.take().expect("a pipe");
        let mut from = child.stdout.take().expect("a pipe");
        let (sender, answered) = mpsc::channel();
        let reader = std::thread::spawn(move || {
            let mut byte = [0];
            while matches!(from.read(&mut byte), Ok(1)) && sender.send(byte[0]).is_ok() {}
        });
        for (call, answer) in calls.split_inclusive('\n').zip(wanted.split_inclusive('\n')) {
            or_fail(to.write_all(call.as_bytes()), "typing");
            let limit = Duration::from_secs(10);
            if !answer.bytes().all(|byte| answered.recv_timeout(limit) == Ok(byte)) {
                fail(&format!("{call:?} is not answered before the next line is typed"));
            }
        }
        drop((to, answered));
        or_fail(child.wait().map(drop), "waiting for the program");
        drop(reader.join());
        println!("each line answered before the next is typed");
    }

    /// The least of five times each, on the same file, in turn; and the
    /// processor's time over all five, which other work disturbs less.
    fn compare_times(&self, name: &str, input: &[u8]) {
        let itself = or_fail(std::env::current_exe(), "finding the ledger");
        or_fail(fs::write(self.folder.join("input"), input), "writing");
        let mut times = [f64::MAX; 2];
        let mut busy = [0; 2];
        for turn in 0..10 {
            let mut command = Command::new([&self.program, &itself][turn % 2]);
            if turn % 2 == 1 {
                command.arg("--ledger");
            }
            let before = children_ticks();
            let time = self.process(&mut command, "input", ["output", "wanted"][turn % 2]);
            times[turn % 2] = time.as_secs_f64().min(times[turn % 2]);
            busy[turn % 2] += children_ticks() - before;
        }
        let [wanted, got] = ["wanted", "output"]
            .map(|file| or_fail(fs::read(self.folder.join(file)), "reading answers"));
        self.check(name, input, &wanted, &got);
        let [replay, ledger] = times;
        let ratio = replay / ledger;
        print!("{name}: replay {replay:.3} s, ledger {ledger:.3} s, ratio {ratio:.2}");
        if busy[1] > 0 {
            let ratio = busy[0] as f64 / busy[1] as f64;
            print!("; processor time, ratio {ratio:.2}");
        }
        println!();
    }
}

/// The processor's time of all ended children, where the system tells it.
fn children_ticks() -> u64 {
    let text = fs::read_to_string("/proc/self/stat").unwrap_or_default();
    let after_name = text.rsplit(')').next().unwrap_or_default();
    let fields = after_name.split_whitespace().skip(13).take(2);
    fields.filter_map(|field| field.parse::<u64>().ok()).sum()
}

/// The first list and line that tell the ledger from one with this wrong rule.
fn first_found(wrong: Wrong) -> Option<(List, usize)> {
    lists(SEEDS).find_map(|list| {
        let number = first_difference(&list.answers, &answers(&list.input, Some(wrong)))?;
        Some((list, number))
    })
}

fn mutants() {
    for &wrong in Wrong::ALL {
        let Some((list, number)) = first_found(wrong) else {
            fail(&format!("{wrong:?} is not found"));
        };
        println!("{wrong:?} is found in {}, line {}", list.style, number + 1);
        println!("  call  {}", line(&list.input, number));
        println!("  right {}", line(&list.answers, number));
        println!("  wrong {}", line(&answers(&list.input, Some(wrong)), number));
    }
    fleet_mutants();
}

#[cfg(test)]
mod tests {
    use super::*;

    #[test]
    fn each_wrong_rule_is_found() {
        for &wrong in Wrong::ALL {
            assert!(first_found(wrong).is_some(), "{wrong:?}");
        }
    }

    #[test]
    fn the_lists_are_long_and_hold_every_answer() {
        let mut numbers = [0; NUMBERS];
        let mut retired = Retired::default();
        for list in lists(SEEDS) {
            count_numbers(&list.answers, &mut numbers);
            retired += list.retired;
        }
        assert!(numbers.iter().sum::<usize>() >= 200_000);
        for (number, count) in numbers.into_iter().enumerate() {
            assert_eq!(count > 100, ![1, 2, 8].contains(&number), "{number}");
        }
        assert!(retired.calls.iter().all(|calls| *calls > 100), "{:?}", retired.calls);
    }

    #[test]
    fn differences() {
        assert_eq!(first_difference(b"a\nb\n", b"a\nb\n"), None);
        assert_eq!(first_difference(b"a\nb\n", b"a\nc\n"), Some(1));
        assert_eq!(first_difference(b"a\nb\n", b"a\n"), Some(1));
        assert_eq!(first_difference(b"a\nb\n", b"a\nb"), Some(1));
        assert_eq!(first_difference(b"a\n", b"a\nb\n"), Some(1));
    }
}
