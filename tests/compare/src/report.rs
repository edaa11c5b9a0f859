//! The tables, and what is over the bars.
use crate::count::Count;
use crate::kind::{ByKind, Kind, KINDS};
use crate::mix::Mix;
use crate::time::{OverMix, Time};
use std::process::Command;

/// The engines by their names in the tables.
pub const NAMES: [&str; 3] = ["archive", "(a)", "(b)"];

/// At most so much of (a) over the mix, in instructions and in time; and of any kind, in either. A packet of many entries has a bar of its own: (a) finds the
/// next line in a word at once, the archive asks line by line (docs/DECISIONS.md, 70).
const INSTRUCTIONS_BAR: f64 = 1.0;
const TIME_BAR: f64 = 1.1;
const KIND_BAR: f64 = 1.25;
const PACKET_BAR: f64 = 2.5;

/// Instructions by engine, of the first exchanges of a mix.
pub struct Counted {
    pub counts: [ByKind<Count>; 3],
    pub exchanges: usize,
}

pub struct Measured<'a> {
    pub mix: &'a Mix,
    /// `None` where no valgrind runs.
    pub counted: Option<Counted>,
    pub over_mix: OverMix,
    pub by_kind: ByKind<[Time; 3]>,
    pub rounds: usize,
}

/// The archive's share of (a) and of (b).
fn ratios(numbers: [f64; 3]) -> [f64; 2] {
    [numbers[0] / numbers[1], numbers[0] / numbers[2]]
}

/// Numbers of one width; what was not measured is no number.
fn cells(numbers: &[f64], width: usize, places: usize) -> String {
    let cell = |&number: &f64| if number.is_nan() { format!(" {:>width$}", "-") } else { format!(" {number:>width$.places$}") };
    numbers.iter().map(cell).collect()
}

fn heads(names: &[&str], width: usize) -> String {
    names.iter().map(|name| format!(" {name:>width$}")).collect()
}

impl Counted {
    /// Of a call of a kind, by engine.
    fn of_kind(&self, row: usize) -> [f64; 3] {
        [0, 1, 2].map(|engine| self.counts[engine][row].of_one())
    }

    /// For an exchange of the mix: those of the exchanges alone, or with those of the board's calls.
    fn of_exchange(&self, with_board: bool) -> [f64; 3] {
        [0, 1, 2].map(|engine| {
            let sum = |with_board: bool| -> Count {
                let of_kind = |&(kind, _): &(Kind, &str)| self.counts[engine][kind.row()];
                KINDS.iter().filter(|(kind, _)| with_board || kind.is_exchange()).map(of_kind).sum()
            };
            sum(with_board).instructions as f64 / sum(false).calls as f64
        })
    }

    /// What is over the bars.
    pub fn over(&self) -> Vec<String> {
        let mix = [("the mix, exchanges alone", self.of_exchange(false)), ("the mix, board calls with them", self.of_exchange(true))];
        let over_mix = mix.into_iter().filter_map(|(name, numbers)| over(name, numbers, INSTRUCTIONS_BAR));
        over_mix.chain(kinds_over(|row| self.of_kind(row))).collect()
    }

    /// The mix in a line.
    pub fn told(&self) -> String {
        let [archive, a, b] = self.of_exchange(false);
        let [of_a, of_b] = ratios([archive, a, b]);
        format!(
            "{archive:.1} instructions an exchange, {a:.1} in (a) and {b:.1} in (b), of {} exchanges: {of_a:.3} and {of_b:.3}",
            self.exchanges
        )
    }
}

impl Measured<'_> {
    /// Instructions by what is asked, or none.
    fn instructions(&self, asked: impl Fn(&Counted) -> [f64; 3]) -> [f64; 3] {
        self.counted.as_ref().map_or([f64::NAN; 3], asked)
    }

    pub fn tables(&self) -> String {
        let line = |name: &str, numbers: [f64; 3]| format!("{name:38}{}{}\n", cells(&numbers, 9, 1), cells(&ratios(numbers), 12, 3));
        let mut text = format!("{:38}{}{}\n", "for an exchange of the mix", heads(&NAMES, 9), heads(&["archive/(a)", "archive/(b)"], 12));
        text += &line("nanoseconds, the median", self.over_mix.times.map(|time| time.median));
        text += &line("nanoseconds, the least", self.over_mix.times.map(|time| time.least));
        let by_round = self.over_mix.by_round;
        let half = by_round.map(|shares| format!(" {:>12}", format!("{:.2}..{:.2}", shares.half[0], shares.half[1]))).concat();
        text += &format!("{:68}{}\n", "  round by round: the median", cells(&by_round.map(|shares| shares.median), 12, 3));
        text += &format!("{:68}{half}\n", "  half of the rounds within");
        text += &line("instructions, exchanges alone", self.instructions(|counted| counted.of_exchange(false)));
        text += &line("instructions, board calls with them", self.instructions(|counted| counted.of_exchange(true)));

        let of = ["/(a)", "/(b)"];
        text += &format!("\n{:32} {:>6} |{:<38} |{:<41} | the least\n", "", "share", " instructions", " nanoseconds, the median");
        text += &format!("{:32} {:>6} |{}{}", "a call of the kind", "%", heads(&NAMES, 7), heads(&of, 6));
        text += &format!(" |{}{} |{}\n", heads(&NAMES, 8), heads(&of, 6), heads(&of, 6));
        let made = self.mix.counts();
        for (row, &(kind, name)) in KINDS.iter().enumerate() {
            if kind == Kind::Look {
                text += "board calls; the share is of the exchanges, too\n";
            }
            let share = 100.0 * made[row] as f64 / self.mix.exchanges as f64;
            let instructions = self.instructions(|counted| counted.of_kind(row));
            let times = self.by_kind[row].map(|time| time.median);
            let least = self.by_kind[row].map(|time| time.least);
            text += &format!("{name:32} {share:>6.2} |{}{}", cells(&instructions, 7, 0), cells(&ratios(instructions), 6, 2));
            text += &format!(" |{}{} |{}\n", cells(&times, 8, 1), cells(&ratios(times), 6, 2), cells(&ratios(least), 6, 2));
        }
        text
    }

    /// What is over the bars in time, by the medians.
    fn over_in_time(&self) -> Vec<String> {
        let mix = over("the mix", self.over_mix.times.map(|time| time.median), TIME_BAR);
        mix.into_iter().chain(kinds_over(|row| self.by_kind[row].map(|time| time.median))).collect()
    }

    pub fn bars(&self) -> String {
        let mut text = format!(
            "Bars, of (a): over the mix {INSTRUCTIONS_BAR} in instructions and {TIME_BAR} in time, {KIND_BAR} for any kind in either, a packet of many entries {PACKET_BAR}.\n"
        );
        let instructions = self.counted.as_ref().map(Counted::over);
        for (what, over) in [("instructions", instructions), ("time", Some(self.over_in_time()))] {
            text += &match over.as_deref() {
                None => format!("  {what}: not counted, no valgrind runs\n"),
                Some([]) => format!("  {what}: nothing is over them\n"),
                Some(over) => format!("  {what}, over them: {}\n", over.join("; ")),
            };
        }
        let [from, to] = self.over_mix.by_round[0].half;
        if (from..=to).contains(&TIME_BAR) {
            text += &format!(
                "  time over the mix: {TIME_BAR} lies where half of the rounds do, {from:.2} to {to:.2}, so this run does not decide it\n"
            );
        }
        text
    }

    /// What was measured, and how.
    pub fn notes(&self, seed: u64) -> String {
        let lines = [
            "(a): plain Rust over lent bytes, which it tests as the archive does. (b): plain Rust as a struct that nobody tests."
                .to_string(),
            format!("The mix: {} exchanges and {} board calls, made of seed {seed} first.", self.mix.exchanges, self.mix.board_calls()),
            format!("Time over the mix: {} rounds, the engines in turn in one process, one round before them not counted.", self.rounds),
            "  A round is the whole mix from a fresh state on, board calls and the loop over all calls in it, divided by the exchanges."
                .to_string(),
            "Buffers: the stores are zeroed before each round, and nothing is cleared between exchanges, for all engines alike."
                .to_string(),
            format!("Time by kind: {} rounds of calls of one kind, each on the state that it had in the mix; to put that", self.rounds),
            "  in place is timed by itself and subtracted.".to_string(),
            format!(
                "Instructions: of the first {} exchanges, by callgrind, from the call of an engine's function to its end.",
                self.counted.as_ref().map_or(0, |counted| counted.exchanges)
            ),
            format!("Machine: {}, {}.", machine(), std::env::consts::ARCH),
            format!("Plain Rust: {}, {}. Archive, as it is: {}.", env!("COMPARE_RUSTC"), env!("COMPARE_FLAGS"), env!("COMPARE_ARCHIVE")),
        ];
        lines.join("\n") + "\n"
    }
}

/// The kinds that are over their bars, by the numbers of their rows.
fn kinds_over<'a>(numbers: impl Fn(usize) -> [f64; 3] + 'a) -> impl Iterator<Item = String> + 'a {
    KINDS.iter().enumerate().filter_map(move |(row, &(kind, name))| {
        let bar = if kind == Kind::GetVwire64 { PACKET_BAR } else { KIND_BAR };
        over(name, numbers(row), bar)
    })
}

fn over(name: &str, numbers: [f64; 3], bar: f64) -> Option<String> {
    let of_a = ratios(numbers)[0];
    (of_a > bar).then(|| format!("{name} {of_a:.3}"))
}

/// The processor's name.
fn machine() -> String {
    let listed = Command::new("lscpu").output().map(|output| String::from_utf8_lossy(&output.stdout).into_owned()).unwrap_or_default();
    let name = listed.lines().find_map(|line| line.strip_prefix("Model name:"));
    name.map_or("a processor without a name".to_string(), |name| name.trim().to_string())
}
