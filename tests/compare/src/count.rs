//! Instructions, as callgrind counts them: a run of this program plays the mix once on one engine, each event from a caller that is its
//! kind's own, and what the callers call is the engine.
use crate::kind::{ByKind, Kind, KINDS};
use crate::mix::{Event, Mix};
use crate::players::{make, Player};
use std::fs;
use std::hint::black_box;
use std::io::ErrorKind;
use std::process::{Command, Stdio};

type Caller<P> = fn(&mut P, &Mix, &Event) -> u32;

/// A function for each kind. They differ in nothing but the kind that they name, so that no two of them are made one.
macro_rules! callers {
    ($($kind:ident $name:ident)*) => {
        $(#[inline(never)]
        fn $name<P: Player>(player: &mut P, mix: &Mix, event: &Event) -> u32 {
            black_box(Kind::$kind);
            let word = make(player, mix, event);
            black_box(word)
        })*

        fn caller<P: Player>(kind: Kind) -> Caller<P> {
            match kind {
                $(Kind::$kind => $name::<P>,)*
            }
        }

        fn caller_name(kind: Kind) -> &'static str {
            match kind {
                $(Kind::$kind => stringify!($name),)*
            }
        }
    };
}

callers! {
    GetStatus calls_get_status
    GetConfiguration calls_get_configuration
    SetConfiguration calls_set_configuration
    ShortRead calls_short_read
    IoWrite calls_io_write
    LongRead calls_long_read
    Piece16 calls_piece_16
    Piece64 calls_piece_64
    Piece256 calls_piece_256
    Write64 calls_write_64
    Write256 calls_write_256
    PutVwire3 calls_put_vwire_3
    PutVwire64 calls_put_vwire_64
    GetVwire3 calls_get_vwire_3
    GetVwire64 calls_get_vwire_64
    Reset calls_reset
    Refused calls_refused
    NoReply calls_no_reply
    Look calls_look
    Answer64 calls_answer_64
    Answer4096 calls_answer_4096
    Take calls_take
    SetWire calls_set_wire
    ReadWire calls_read_wire
    SetLine calls_set_line
    PulseLine calls_pulse_line
}

/// Plays the mix once.
pub fn play<P: Player>(mix: &Mix) {
    let mut player = Box::new(P::new());
    let callers: ByKind<Caller<P>> = KINDS.map(|(kind, _)| caller::<P>(kind));
    for event in &mix.events {
        callers[event.kind.row()](&mut *player, mix, event);
    }
}

/// The calls of a kind and the instructions of all of them.
#[derive(Clone, Copy, Debug, Default, PartialEq, Eq)]
pub struct Count {
    pub calls: u64,
    pub instructions: u64,
}

impl Count {
    pub fn of_one(&self) -> f64 {
        self.instructions as f64 / self.calls as f64
    }
}

impl std::iter::Sum for Count {
    fn sum<I: Iterator<Item = Count>>(counts: I) -> Count {
        counts.fold(Count::default(), |sum, count| Count {
            calls: sum.calls + count.calls,
            instructions: sum.instructions + count.instructions,
        })
    }
}

/// The row of a caller's symbol, in which its name stands behind its length.
fn row_of(symbol: &str) -> Option<usize> {
    KINDS.iter().position(|&(kind, _)| {
        let name = caller_name(kind);
        symbol.contains(&format!("{}{name}", name.len()))
    })
}

/// Whether a symbol is a function of an engine: of the archive, of plain Rust or a board's call of the struct.
fn is_engine(symbol: &str) -> bool {
    symbol.starts_with("espi_") || symbol.contains("5plain") || symbol.contains("5board")
}

/// Reads what callgrind has written: of each caller the calls that it makes, with what is called within them. After a line
/// `calls=N ..` stands a line whose last number is their cost.
fn read(text: &str) -> Result<ByKind<Count>, String> {
    let mut counts = [Count::default(); KINDS.len()];
    let (mut caller, mut called, mut calls) = (None, "", None);
    for line in text.lines() {
        if let Some(symbol) = line.strip_prefix("fn=") {
            caller = row_of(symbol);
        } else if let Some(symbol) = line.strip_prefix("cfn=") {
            called = symbol;
        } else if let Some(numbers) = line.strip_prefix("calls=") {
            calls = numbers.split(' ').next().and_then(|number| number.parse::<u64>().ok());
        } else if let Some(calls) = calls.take() {
            let Some(row) = caller else { continue };
            if !is_engine(called) {
                return Err(format!("{} calls {called}, which is no engine", caller_name(KINDS[row].0)));
            }
            counts[row].calls += calls;
            counts[row].instructions += line.split(' ').next_back().and_then(|cost| cost.parse::<u64>().ok()).unwrap_or(0);
        }
    }
    Ok(counts)
}

/// Counts a run of this program: `--play ENGINE EXCHANGES SEED`, which plays this mix. `None`: no valgrind runs it.
pub fn count(mix: &Mix, words: [&str; 4]) -> Result<Option<ByKind<Count>>, String> {
    let out = std::env::temp_dir().join(format!("compare-{}.callgrind", std::process::id()));
    let program = std::env::current_exe().map_err(|error| error.to_string())?;
    let run = Command::new("valgrind")
        .args(["--tool=callgrind", "--quiet", "--demangle=no", "--compress-strings=no", "--compress-pos=no"])
        .arg(format!("--callgrind-out-file={}", out.display()))
        .arg(program)
        .args(words)
        .stdout(Stdio::null())
        .status();
    let text = fs::read_to_string(&out);
    let _ = fs::remove_file(&out);
    match run {
        Err(error) if error.kind() == ErrorKind::NotFound => return Ok(None),
        Err(error) => return Err(format!("valgrind: {error}")),
        Ok(status) if !status.success() => {
            println!("compare: valgrind does not run this program: {status}");
            return Ok(None);
        }
        Ok(_) => {}
    }
    let counts = read(&text.map_err(|error| format!("{}: {error}", out.display()))?)?;
    let made = mix.counts();
    match (0..KINDS.len()).find(|&row| counts[row].calls != made[row] as u64) {
        Some(row) => Err(format!("{}: {} calls were made, {} counted", KINDS[row].1, made[row], counts[row].calls)),
        None => Ok(Some(counts)),
    }
}
