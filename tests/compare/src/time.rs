//! Nanoseconds: rounds over the whole mix, then over a sample of each kind. In every round the engines take turns, a different one first.
use crate::kind::{ByKind, KINDS};
use crate::mix::{Event, Mix};
use crate::players::{make, Player};
use plain::STATE_LEN;
use std::hint::black_box;
use std::time::Instant;

/// So many events of a kind are timed by themselves, at most.
const SAMPLE: usize = 2_000;
/// So many calls of a kind are one round of it.
const CALLS: usize = 20_000;

/// The median and the least of the rounds, in nanoseconds.
#[derive(Clone, Copy, Default)]
pub struct Time {
    pub median: f64,
    pub least: f64,
}

impl Time {
    fn of(mut rounds: Vec<f64>) -> Time {
        rounds.sort_by(f64::total_cmp);
        let half = rounds.len() / 2;
        let median = if rounds.len() % 2 == 1 { rounds[half] } else { (rounds[half - 1] + rounds[half]) / 2.0 };
        Time { median, least: rounds[0] }
    }
}

/// The archive's share of another engine's time, each round by itself: the median, and between which half of the rounds lie. What
/// disturbs the machine for longer than a round is in both.
#[derive(Clone, Copy)]
pub struct ByRound {
    pub median: f64,
    pub half: [f64; 2],
}

impl ByRound {
    fn of(archive: &[f64], other: &[f64]) -> ByRound {
        let mut shares: Vec<f64> = archive.iter().zip(other).map(|(archive, other)| archive / other).collect();
        shares.sort_by(f64::total_cmp);
        let quarter = shares.len() / 4;
        let half = [shares[quarter], shares[shares.len() - 1 - quarter]];
        ByRound { median: Time::of(shares).median, half }
    }
}

/// What was timed over the mix, for an exchange: by engine, and the archive beside (a) and (b) by round.
pub struct OverMix {
    pub times: [Time; 3],
    pub by_round: [ByRound; 2],
}

/// The events of one kind, and the state before each.
struct Sample {
    events: Vec<Event>,
    states: Vec<[u8; STATE_LEN]>,
}

/// What one engine is timed by, apart from its type.
trait Timed {
    /// The whole mix from the fresh state on, and zeroes in the stores; the sum of all words.
    fn play(&mut self, mix: &Mix) -> u64;
    fn stage(&mut self, sample: &Sample);
    /// Each event of the sample from the state before it on.
    fn calls(&mut self, mix: &Mix, sample: &Sample);
    /// The states of the sample put in place, and nothing called.
    fn states(&mut self);
}

struct Engine<P: Player> {
    player: Box<P>,
    staged: Vec<P::State>,
}

impl<P: Player> Engine<P> {
    fn new() -> Engine<P> {
        Engine { player: Box::new(P::new()), staged: Vec::new() }
    }
}

impl<P: Player> Timed for Engine<P> {
    fn play(&mut self, mix: &Mix) -> u64 {
        *self.player = P::new();
        let player = black_box(&mut *self.player);
        mix.events.iter().map(|event| u64::from(make(player, mix, event))).sum()
    }

    fn stage(&mut self, sample: &Sample) {
        self.staged = sample.states.iter().map(P::state_of).collect();
    }

    fn calls(&mut self, mix: &Mix, sample: &Sample) {
        let player = black_box(&mut *self.player);
        for (state, event) in self.staged.iter().zip(&sample.events) {
            player.put(state);
            black_box(make(player, mix, event));
        }
    }

    fn states(&mut self) {
        for state in &self.staged {
            self.player.put(state);
            black_box(&mut *self.player);
        }
    }
}

fn engines<A: Player + 'static, B: Player + 'static, C: Player + 'static>() -> [Box<dyn Timed>; 3] {
    [Box::new(Engine::<A>::new()), Box::new(Engine::<B>::new()), Box::new(Engine::<C>::new())]
}

fn nanoseconds(work: impl FnOnce()) -> f64 {
    let begin = Instant::now();
    work();
    begin.elapsed().as_secs_f64() * 1e9
}

/// Nanoseconds an exchange over the mix, the board's calls within, by engine. A round before the first is not counted.
pub fn over_mix<A: Player + 'static, B: Player + 'static, C: Player + 'static>(mix: &Mix, rounds: usize) -> Result<OverMix, String> {
    let mut engines = engines::<A, B, C>();
    let mut times: [Vec<f64>; 3] = Default::default();
    let sum = engines[0].play(mix);
    for round in 0..=rounds {
        for turn in 0..3 {
            let engine = (round + turn) % 3;
            let mut found = 0;
            let time = nanoseconds(|| found = engines[engine].play(mix));
            if found != sum {
                return Err(format!("engine {engine} has other words in round {round}"));
            }
            if round > 0 {
                times[engine].push(time / mix.exchanges as f64);
            }
        }
    }
    let by_round = [1, 2].map(|other| ByRound::of(&times[0], &times[other]));
    Ok(OverMix { times: times.map(Time::of), by_round })
}

/// Events of each kind from all over the mix, with the states before them, which are one engine's over bytes.
fn samples<P: Player>(mix: &Mix) -> Vec<Sample> {
    let steps = mix.counts().map(|count| count.div_ceil(SAMPLE).max(1));
    let mut samples: Vec<Sample> = KINDS.iter().map(|_| Sample { events: Vec::new(), states: Vec::new() }).collect();
    let mut found = [0; KINDS.len()];
    let mut player = Box::new(P::new());
    for event in &mix.events {
        let row = event.kind.row();
        if found[row] % steps[row] == 0 {
            samples[row].states.push(player.seen().state);
            samples[row].events.push(*event);
        }
        found[row] += 1;
        make(&mut *player, mix, event);
    }
    samples
}

/// Nanoseconds of a call by kind and engine. The state is put in place before each call, and what that takes alone is subtracted.
pub fn by_kind<A: Player + 'static, B: Player + 'static, C: Player + 'static>(mix: &Mix, rounds: usize) -> ByKind<[Time; 3]> {
    let mut engines = engines::<A, B, C>();
    let mut times = [[Time::default(); 3]; KINDS.len()];
    for (row, sample) in samples::<A>(mix).iter().enumerate().filter(|(_, sample)| !sample.events.is_empty()) {
        engines.iter_mut().for_each(|engine| engine.stage(sample));
        let again = CALLS.div_ceil(sample.events.len());
        let calls = (again * sample.events.len()) as f64;
        let (mut with, mut without): ([Vec<f64>; 3], [Vec<f64>; 3]) = Default::default();
        for round in 0..=rounds {
            for turn in 0..3 {
                let at = (round + turn) % 3;
                let engine = &mut engines[at];
                let calls_time = nanoseconds(|| (0..again).for_each(|_| engine.calls(mix, sample)));
                let states_time = nanoseconds(|| (0..again).for_each(|_| engine.states()));
                if round > 0 {
                    with[at].push(calls_time / calls);
                    without[at].push(states_time / calls);
                }
            }
        }
        let (with, without) = (with.map(Time::of), without.map(Time::of));
        times[row] = [0, 1, 2].map(|at| Time { median: with[at].median - without[at].median, least: with[at].least - without[at].least });
    }
    times
}
