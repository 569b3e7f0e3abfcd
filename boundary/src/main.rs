//! Tests over the boundary: many random and damaged buffers lent to the proved
//! library, and every reply and every buffer afterwards compared with an
//! independent soundness test and ledger. Then the same with a wrong rule each
//! time, which the buffers must show.
//!
//!     cargo run --release --offline -p boundary

mod calls;
mod drafts;
mod ledgers;
mod parts;
mod sound;
mod trial;

use parts::{Part, Run, LISTS, PARTS, RETIREMENTS};
use plain_ledger::methods::Wrong;
use sound::{Clause, Sound};
use std::process::ExitCode;
use std::sync::atomic::{AtomicUsize, Ordering};
use std::sync::Mutex;
use std::time::Instant;
use trial::{Difference, Given, Rules, Silent, NO_CALL};

/// The least number of buffers that a whole run tries.
const LEAST: usize = 100_000;

const RIGHT: Rules = Rules { sound: Sound { without: None, refuses_silence: false }, wrong: None };

fn main() -> ExitCode {
    let start = Instant::now();
    let right = try_all();
    println!("{:.1} s", start.elapsed().as_secs_f64());
    let stack = try_stack();
    let found = try_wrong_rules();
    println!("{:.1} s in all", start.elapsed().as_secs_f64());
    match right && stack && found {
        true => ExitCode::SUCCESS,
        false => ExitCode::FAILURE,
    }
}

/// Does each piece of work, on two threads.
fn share<T: Sync, R: Send>(work: &[T], act: impl Fn(&T) -> R + Sync) -> Vec<R> {
    let next = AtomicUsize::new(0);
    let done = Mutex::new(Vec::new());
    std::thread::scope(|scope| {
        for _ in 0..2 {
            scope.spawn(|| loop {
                let number = next.fetch_add(1, Ordering::Relaxed);
                let Some(piece) = work.get(number) else {
                    return;
                };
                let result = act(piece);
                done.lock().expect("no thread panics").push((number, result));
            });
        }
    });
    let mut done = done.into_inner().expect("no thread panics");
    done.sort_by_key(|(number, _)| *number);
    done.into_iter().map(|(_, result)| result).collect()
}

/// Whether nothing differed in a run, how many buffers it tried, by the number that
/// the call on them gave, and how often silent floats came up.
fn try_run(part: &Part, seed: u64) -> (bool, Given, Silent) {
    let (trial, tried) = Run::go(part, seed, RIGHT);
    if let Err(Difference(what)) = &tried {
        let (name, buffer) = (part.name, trial.tried());
        println!("DIFFERS: {name}, seed {seed}, buffer {buffer}: {what}");
    }
    (tried.is_ok(), trial.given, trial.silent)
}

/// Every run of every part by the right rules. Every number that a call can give
/// must come up, and silent floats in every way.
fn try_all() -> bool {
    let runs = PARTS.iter().flat_map(|part| (0..part.runs).map(move |seed| (part, seed)));
    let work: Vec<_> = runs.collect();
    let mut outcomes = share(&work, |(part, seed)| try_run(part, *seed)).into_iter();
    let (mut same, mut given, mut silent) = (true, Given::default(), Silent::default());
    for part in &PARTS {
        let mut of_part = 0;
        for (run_same, run_given, run_silent) in outcomes.by_ref().take(part.runs as usize) {
            same &= run_same;
            silent += run_silent;
            given.iter_mut().zip(run_given).for_each(|(all, of_run)| *all += of_run);
            of_part += run_given.iter().sum::<usize>();
        }
        println!("{of_part:7} {}", part.name);
    }
    let tried: usize = given.iter().sum();
    println!("{tried:7} buffers tried; calls by number, from 0 on: {given:?}");
    let Silent { floats, steps, asks, refused } = silent;
    print!("{floats:7} floats retired, in {steps} calls; ");
    println!("{asks} asks listed silent floats, {refused} refused changes left them");
    let missing = (0..given.len()).filter(|number| given[*number] == 0);
    tried >= LEAST && missing.eq([NO_CALL]) && !silent.all().contains(&0) && same
}

/// Whether every call fits in the stack that the header names.
fn try_stack() -> bool {
    let small = std::thread::Builder::new().stack_size(float_index::STACK_BYTES);
    let all = |part: &Part| (0..4).all(|seed| Run::go(part, seed, RIGHT).1.is_ok());
    let lists = || [&LISTS, &RETIREMENTS].into_iter().all(all);
    let done = std::thread::scope(|scope| {
        let thread = small.spawn_scoped(scope, lists);
        thread.is_ok_and(|thread| thread.join().is_ok_and(|same| same))
    });
    println!("lists of calls on a stack of {} bytes: {done}", float_index::STACK_BYTES);
    done
}

/// Rules with one thing wrong. The limits of speeds have no place here: that
/// clause follows from the limits of rows and from speeds in their rows.
fn wrong_rules() -> Vec<Rules> {
    let clauses = Clause::ALL.iter().filter(|clause| **clause != Clause::Speeds);
    let without = |clause: &Clause| Sound { without: Some(*clause), ..RIGHT.sound };
    let more = Sound { refuses_silence: true, ..RIGHT.sound };
    let sounds = clauses.map(without).chain([more]);
    let ledgers = Wrong::ALL.iter().map(|wrong| Rules { wrong: Some(*wrong), ..RIGHT });
    sounds.map(|sound| Rules { sound, ..RIGHT }).chain(ledgers).collect()
}

/// Whether each wrong rule is found by some buffer.
fn try_wrong_rules() -> bool {
    let rules = wrong_rules();
    let found = share(&rules, |rules| is_found(*rules));
    for (rules, found) in rules.iter().zip(&found) {
        if !found {
            println!("NOT FOUND: {:?}, {:?}", rules.sound, rules.wrong);
        }
    }
    let count = found.iter().filter(|found| **found).count();
    println!("{count} of {} wrong rules found", rules.len());
    found.iter().all(|found| *found)
}

fn is_found(rules: Rules) -> bool {
    let finds = |part: &Part, seed| seed < part.runs && Run::go(part, seed, rules).1.is_err();
    (0..8).any(|seed| PARTS.iter().any(|part| finds(part, seed)))
}
