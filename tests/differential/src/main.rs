//! The differential run against the proved engine's archive.
//!
//!     differential [CALLS [SEED]]            every call on both engines, without a difference
//!     differential --faults [CALLS [SEED]]   every deliberate fault of this engine is found within so many calls
#[cfg_attr(not(feature = "bridged"), path = "linked.rs")]
#[cfg_attr(feature = "bridged", path = "bridged.rs")]
mod archive;

use archive::Archive;
use differential::engine::Engine;
use differential::fault;
use differential::run::run;
use std::process::ExitCode;
use std::time::Instant;

/// From this many calls on a run must have reached everything.
const ENOUGH: u64 = 100_000;

/// The run: no difference, and everything reached.
fn compare(calls: u64, seed: u64) -> bool {
    let begin = Instant::now();
    match run(&mut Archive::new(), &mut Engine { fault: fault::NONE }, calls, seed) {
        Ok(coverage) => {
            let (text, missing) = coverage.report();
            print!("{text}");
            let rate = calls as f64 / begin.elapsed().as_secs_f64();
            println!("differential: {calls} calls with seed {seed}, {rate:.0} a second: no difference");
            if calls >= ENOUGH && !missing.is_empty() {
                println!("differential: never reached: {}", missing.join("; "));
                return false;
            }
            true
        }
        Err(difference) => {
            println!("differential: the engines differ\n{}", difference.text);
            println!("again: differential {} {seed}", difference.at + 1);
            false
        }
    }
}

/// The faults: each is found within so many calls.
fn faults(calls: u64, seed: u64) -> bool {
    let mut archive = Archive::new();
    let mut missed = 0;
    for &(fault, says) in fault::ALL {
        let found = run(&mut archive, &mut Engine { fault }, calls, seed);
        if archive.gone() {
            println!("differential: the archive ended within a call");
            return false;
        }
        match found {
            Err(difference) => println!("  fault {fault:>3} found at call {:>6} ({}): {says}", difference.at, difference.call),
            Ok(_) => {
                missed += 1;
                println!("  fault {fault:>3} NOT FOUND: {says}");
            }
        }
    }
    println!("differential: {} of {} deliberate faults found, each within {calls} calls", fault::ALL.len() - missed, fault::ALL.len());
    missed == 0
}

fn main() -> ExitCode {
    let mut arguments: Vec<String> = std::env::args().skip(1).collect();
    let with_faults = arguments.first().is_some_and(|argument| argument == "--faults");
    if with_faults {
        arguments.remove(0);
    }
    let numbers: Result<Vec<u64>, _> = arguments.iter().map(|argument| argument.parse()).collect();
    let Ok(numbers) = numbers else {
        println!("usage: differential [--faults] [CALLS [SEED]]");
        return ExitCode::FAILURE;
    };
    let seed = numbers.get(1).copied().unwrap_or(1);
    let well = match numbers.first() {
        Some(&calls) if with_faults => faults(calls, seed),
        None if with_faults => faults(200_000, seed),
        first => compare(first.copied().unwrap_or(2_000_000), seed),
    };
    if well {
        ExitCode::SUCCESS
    } else {
        ExitCode::FAILURE
    }
}
