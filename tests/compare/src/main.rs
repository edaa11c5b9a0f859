//! The speed of the proved engine's archive beside that of plain Rust: the same mix of exchanges through each.
//!
//!     compare [--bars] [EXCHANGES [ROUNDS]]   every reply compared, then times and instructions; with --bars a missed bar of
//!                                             instructions is a failure
//!     compare --check [EXCHANGES]             every reply compared and nothing else
//!     compare --instructions [EXCHANGES]      instructions alone, within their bars
//!     compare --differential [CALLS]          plain Rust over lent bytes against the archive in the run of tests/differential
//!     compare --play ENGINE EXCHANGES SEED    the mix once on one engine, for callgrind
mod check;
mod count;
mod kind;
#[allow(dead_code)]
#[path = "../../differential/src/linked.rs"]
mod linked;
mod mix;
mod players;
mod report;
mod time;

use linked::Archive;
use mix::Mix;
use players::{Kept, Lent, Plain};
use report::{Counted, Measured, NAMES};
use std::process::ExitCode;

const SEED: u64 = 1;
const EXCHANGES: usize = 1_000_000;
/// Of the mix's first ones the instructions are counted.
const COUNTED: usize = 100_000;
/// Many: of 15 the ratio over the mix came out on either side of its bar, from run to run.
const ROUNDS: usize = 101;
/// From this many calls on the differential run must have reached everything.
const ENOUGH: u64 = 100_000;

impl Default for Archive {
    fn default() -> Archive {
        Archive::new()
    }
}

/// The engines, in the order of their names.
type One = Lent<Archive>;
type Two = Lent<Plain>;
type Three = Kept;

/// The mix, the same on all engines.
fn checked(exchanges: usize) -> Result<Mix, String> {
    let mix = Mix::new(exchanges, SEED);
    check::check::<One, Two, Three>(&mix, NAMES)?;
    println!("compare: {exchanges} exchanges and {} board calls on three engines: the same words, replies and states", mix.board_calls());
    Ok(mix)
}

/// Instructions of the first exchanges; `None` where no valgrind runs.
fn counted(exchanges: usize) -> Result<Option<Counted>, String> {
    let first = Mix::new(exchanges, SEED);
    let (number, seed) = (exchanges.to_string(), SEED.to_string());
    let count = |engine| count::count(&first, ["--play", engine, &number, &seed]);
    let counts = match [count(NAMES[0])?, count(NAMES[1])?, count(NAMES[2])?] {
        [Some(archive), Some(a), Some(b)] => [archive, a, b],
        _ => return Ok(None),
    };
    Ok(Some(Counted { counts, exchanges }))
}

/// The bars of instructions, which every machine of a kind finds alike.
fn held(counted: Option<&Counted>) -> Result<(), String> {
    let over = counted.ok_or("no valgrind counts instructions")?.over();
    if over.is_empty() {
        Ok(())
    } else {
        Err(format!("instructions over their bars: {}", over.join("; ")))
    }
}

fn compare(exchanges: usize, rounds: usize, bars: bool) -> Result<(), String> {
    let mix = checked(exchanges)?;
    let counted = counted(COUNTED.min(exchanges))?;
    let over_mix = time::over_mix::<One, Two, Three>(&mix, rounds)?;
    let by_kind = time::by_kind::<One, Two, Three>(&mix, rounds);
    let measured = Measured { mix: &mix, counted, over_mix, by_kind, rounds };
    println!("\n{}\n{}\n{}", measured.tables(), measured.notes(SEED), measured.bars());
    if bars {
        held(measured.counted.as_ref())?;
    }
    Ok(())
}

fn instructions(exchanges: usize) -> Result<(), String> {
    let counted = counted(exchanges)?;
    held(counted.as_ref())?;
    if let Some(counted) = counted {
        println!("compare: {}; within the bars", counted.told());
    }
    Ok(())
}

fn differential(calls: u64) -> Result<(), String> {
    match differential::run::run(&mut Archive::new(), &mut Plain, calls, SEED) {
        Ok(coverage) => {
            let (_, missing) = coverage.report();
            if calls >= ENOUGH && !missing.is_empty() {
                return Err(format!("never reached: {}", missing.join("; ")));
            }
            println!("compare: {calls} calls of any bytes and lengths with seed {SEED}: plain Rust over lent bytes is as the archive");
            Ok(())
        }
        Err(difference) => Err(format!("plain Rust over lent bytes (engine) and the archive differ\n{}", difference.text)),
    }
}

fn play(engine: &str, exchanges: usize, seed: u64) -> Result<(), String> {
    let mix = Mix::new(exchanges, seed);
    match NAMES.iter().position(|&name| name == engine) {
        Some(0) => count::play::<One>(&mix),
        Some(1) => count::play::<Two>(&mix),
        Some(_) => count::play::<Three>(&mix),
        None => return Err(format!("no engine {engine}")),
    }
    Ok(())
}

const USAGE: &str =
    "usage: compare [--bars] [EXCHANGES [ROUNDS]] | --check [EXCHANGES] | --instructions [EXCHANGES] | --differential [CALLS]";

fn run(words: &[&str]) -> Result<(), String> {
    let number = |word: Option<&&str>, or: usize| word.map_or(Ok(or), |word| word.parse::<usize>().map_err(|_| USAGE.to_string()));
    match words {
        ["--check", rest @ ..] => checked(number(rest.first(), EXCHANGES)?).map(|_| ()),
        ["--instructions", rest @ ..] => instructions(number(rest.first(), COUNTED)?.max(1)),
        ["--differential", rest @ ..] => differential(number(rest.first(), 2_000_000)? as u64),
        ["--play", engine, exchanges, seed] => play(engine, number(Some(exchanges), 0)?, number(Some(seed), 0)? as u64),
        words => {
            let bars = words.first() == Some(&"--bars");
            let rest = &words[usize::from(bars)..];
            let (exchanges, rounds) = (number(rest.first(), EXCHANGES)?, number(rest.get(1), ROUNDS)?);
            compare(exchanges.max(1), rounds.max(9), bars)
        }
    }
}

fn main() -> ExitCode {
    let words: Vec<String> = std::env::args().skip(1).collect();
    let words: Vec<&str> = words.iter().map(String::as_str).collect();
    match run(&words) {
        Ok(()) => ExitCode::SUCCESS,
        Err(text) => {
            println!("compare: {text}");
            ExitCode::FAILURE
        }
    }
}
