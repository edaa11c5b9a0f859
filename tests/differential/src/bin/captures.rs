//! Captures (02, Q-2) played by a program and by the engine of this crate.
//!
//!     captures [N [SEED]] -- PROGRAM..   N captures made of traffic: the program prints what this engine gives, byte for byte
//!     captures --faults [N [SEED]]       every deliberate fault of this engine's player is found by those captures
//!     captures --play                    plays standard input as the program does
use differential::capture::{Player, MOST};
use differential::captures::{faults, Maker, Reached};
use std::fs::File;
use std::io::{Error, Read, Write};
use std::os::fd::AsFd;
use std::path::PathBuf;
use std::process::{Child, Command, ExitCode, Stdio};
use std::time::Instant;

/// From this many captures on a run must have reached everything.
const ENOUGH: u64 = 1_000;
/// Programs that run at a time.
const AT_A_TIME: u64 = 2;

/// A file of this process that is removed at the end.
struct Temporary(PathBuf);

impl Temporary {
    fn new(number: u64) -> Temporary {
        Temporary(std::env::temp_dir().join(format!("captures-{}-{number}.cap", std::process::id())))
    }
}

impl Drop for Temporary {
    fn drop(&mut self) {
        let _ = std::fs::remove_file(&self.0);
    }
}

/// The program, begun with the file as its standard input.
fn begin(program: &[String], file: &[u8], place: &Temporary) -> Result<Child, Error> {
    std::fs::write(&place.0, file)?;
    Command::new(&program[0]).args(&program[1..]).stdin(File::open(&place.0)?).stdout(Stdio::piped()).spawn()
}

/// Where two outputs first differ, in lines.
fn difference(expected: &str, printed: &[u8]) -> String {
    let printed = String::from_utf8_lossy(printed);
    let (mut ours, mut theirs) = (expected.split_inclusive('\n'), printed.split_inclusive('\n'));
    loop {
        match (ours.next(), theirs.next()) {
            (None, None) => return "no line differs".to_string(),
            (one, other) if one == other => {}
            (one, other) => return format!("expected {one:?}\nprinted  {other:?}"),
        }
    }
}

/// Plays the captures from `first` on, as many as run at a time; the first that differs is an error.
fn pass(maker: &mut Maker, reached: &mut Reached, program: &[String], places: &[Temporary], first: u64) -> Result<(), String> {
    let mut begun = Vec::new();
    for place in places {
        let file = maker.file();
        let child = begin(program, &file, place).map_err(|error| format!("{}: {error}", program.join(" ")))?;
        begun.push((reached.record(&file), file, child));
    }
    for (number, (expected, file, child)) in (first..).zip(begun) {
        let output = child.wait_with_output().map_err(|error| error.to_string())?;
        if !output.status.success() {
            return Err(format!("capture {number}: the program ends with {}\n{}", output.status, kept(&file)));
        }
        if output.stdout != expected.as_bytes() {
            return Err(format!("capture {number}: {}\n{}", difference(&expected, &output.stdout), kept(&file)));
        }
    }
    Ok(())
}

/// Keeps a file that made a difference.
fn kept(file: &[u8]) -> String {
    let place = std::env::temp_dir().join("captures-differs.cap");
    match std::fs::write(&place, file) {
        Ok(()) => format!("it stands in {}", place.display()),
        Err(error) => format!("it could not be kept: {error}"),
    }
}

/// The run: no difference, and everything reached.
fn compare(captures: u64, seed: u64, program: &[String]) -> bool {
    let begun = Instant::now();
    let places: Vec<Temporary> = (0..AT_A_TIME).map(Temporary::new).collect();
    let (mut maker, mut reached) = (Maker::new(seed), Reached::default());
    let mut first = 0;
    while first < captures {
        let count = AT_A_TIME.min(captures - first);
        if let Err(text) = pass(&mut maker, &mut reached, program, &places[..count as usize], first) {
            println!("captures: {text}\nagain: captures {} {seed} -- {}", first + count, program.join(" "));
            return false;
        }
        first += count;
    }
    let (text, missing) = reached.report();
    print!("{text}");
    println!("captures: {captures} with seed {seed} in {:.1} s: no difference", begun.elapsed().as_secs_f64());
    if captures >= ENOUGH && !missing.is_empty() {
        println!("captures: never reached: {}", missing.join("; "));
        return false;
    }
    true
}

/// The faults: each is found.
fn find_faults(captures: u64, seed: u64) -> bool {
    let found = faults(captures, seed);
    for (says, at) in &found {
        match at {
            Some(at) => println!("  fault found by capture {at:>4}: {says}"),
            None => println!("  fault NOT FOUND: {says}"),
        }
    }
    let count = found.iter().filter(|(_, at)| at.is_some()).count();
    println!("captures: {count} of {} deliberate faults found by {captures} captures with seed {seed}", found.len());
    count == found.len()
}

/// Plays standard input. One byte past the greatest length tells a file that is too long.
fn play() -> Result<(), Error> {
    let mut file = Vec::new();
    let input = File::from(std::io::stdin().as_fd().try_clone_to_owned()?);
    input.take(MOST as u64 + 1).read_to_end(&mut file)?;
    std::io::stdout().write_all(Player::default().output(&file).as_bytes())
}

/// Runs what the arguments ask for; `None` if they ask for nothing that there is.
fn run(arguments: &[String]) -> Option<bool> {
    let at = arguments.iter().position(|argument| argument == "--").unwrap_or(arguments.len());
    let (own, program) = (&arguments[..at], arguments.get(at + 1..).unwrap_or_default());
    if own == ["--play"] {
        return Some(play().is_ok());
    }
    let with_faults = own.first().is_some_and(|argument| argument == "--faults");
    let numbers: Vec<u64> = own[usize::from(with_faults)..].iter().map(|argument| argument.parse()).collect::<Result<_, _>>().ok()?;
    let (captures, seed) = (numbers.first().copied().unwrap_or(ENOUGH), numbers.get(1).copied().unwrap_or(1));
    match (with_faults, program.is_empty()) {
        (true, true) => Some(find_faults(captures, seed)),
        (false, false) => Some(compare(captures, seed, program)),
        _ => None,
    }
}

fn main() -> ExitCode {
    let arguments: Vec<String> = std::env::args().skip(1).collect();
    match run(&arguments) {
        Some(true) => ExitCode::SUCCESS,
        Some(false) => ExitCode::FAILURE,
        None => {
            println!("usage: captures [N [SEED]] -- PROGRAM.. | captures --faults [N [SEED]] | captures --play");
            ExitCode::FAILURE
        }
    }
}
