//! The run that is not timed: every event on every engine, and every byte compared that a call may have changed.
use crate::kind::{size, ByKind, Kind, KINDS};
use crate::mix::{Call, Event, Mix};
use crate::players::{make, Player, Seen};

fn hex(bytes: &[u8]) -> String {
    bytes.iter().map(|byte| format!("{byte:02X}")).collect::<Vec<_>>().join(" ")
}

/// The first place in which two engines differ after a call. A report and the read store are compared where the call writes them.
fn difference(event: &Event, one: (u32, &Seen), other: (u32, &Seen)) -> Option<&'static str> {
    let ((word, seen), (other_word, other)) = (one, other);
    let done = word & 0xFF == 0;
    let differs = [
        ("the word", word != other_word),
        ("the reply store", seen.reply != other.reply),
        ("the state", seen.state != other.state),
        ("the write store", seen.write_store != other.write_store),
        ("the report of a look", done && matches!(event.call, Call::Look) && seen.looked != other.looked),
        ("the report of a take", done && matches!(event.call, Call::Take) && seen.taken != other.taken),
        ("the read store", matches!(event.call, Call::Answer { .. }) && seen.read_store != other.read_store),
    ];
    differs.into_iter().find(|differs| differs.1).map(|differs| differs.0)
}

fn told(name: &str, word: u32, seen: &Seen) -> String {
    let length = (word >> 8) as usize;
    format!("  {name}: word {word:X}\n    state {}\n    reply {}\n", hex(&seen.state), hex(&seen.reply[..length.min(seen.reply.len())]))
}

/// From so many exchanges on a mix must have every kind and every number, and from so many every size.
const ENOUGH: usize = 100_000;
const ENOUGH_FOR_SIZES: usize = 1_000_000;

/// What a mix has reached.
struct Reached {
    kinds: ByKind<bool>,
    numbers: [bool; 17],
    pieces: [bool; 257],
    writes: [bool; 257],
    packets: [bool; 65],
    sent: [bool; 65],
}

impl Reached {
    fn new() -> Reached {
        let (kinds, numbers) = ([false; KINDS.len()], [false; 17]);
        Reached { kinds, numbers, pieces: [false; 257], writes: [false; 257], packets: [false; 65], sent: [false; 65] }
    }

    fn exchange(&mut self, kind: Kind, command: &[u8], word: u32) {
        self.numbers[(word & 0xFF) as usize] = true;
        match kind {
            Kind::Piece16 | Kind::Piece64 | Kind::Piece256 => self.pieces[size(command, word)] = true,
            Kind::Write64 | Kind::Write256 => self.writes[size(command, word)] = true,
            Kind::PutVwire3 | Kind::PutVwire64 => self.packets[size(command, word)] = true,
            Kind::GetVwire3 | Kind::GetVwire64 => self.sent[size(command, word)] = true,
            _ => {}
        }
    }

    /// What a mix of so many exchanges should have, and has not.
    fn missing(&self, exchanges: usize) -> Option<String> {
        if let Some((_, name)) = KINDS.iter().find(|(kind, _)| exchanges >= ENOUGH && !self.kinds[kind.row()]) {
            return Some(format!("the mix has no {name}"));
        }
        let wanted: [(usize, &str, &[bool], Vec<usize>); 5] = [
            (ENOUGH, "exchange with number", &self.numbers, vec![0, 1, 2, 12, 13, 14, 15, 16]),
            (ENOUGH_FOR_SIZES, "piece of bytes", &self.pieces, (0..=256).collect()),
            (ENOUGH_FOR_SIZES, "posted write of bytes", &self.writes, (1..=256).collect()),
            (ENOUGH_FOR_SIZES, "packet of pairs", &self.packets, (1..=64).collect()),
            (ENOUGH_FOR_SIZES, "packet sent of entries", &self.sent, (1..=64).collect()),
        ];
        wanted.iter().filter(|row| exchanges >= row.0).find_map(|(_, what, reached, numbers)| {
            let missing = numbers.iter().find(|&&number| !reached[number])?;
            Some(format!("the mix has no {what}: {missing}"))
        })
    }
}

/// Plays the mix on three engines; or the first difference.
pub fn check<A: Player, B: Player, C: Player>(mix: &Mix, names: [&str; 3]) -> Result<(), String> {
    let (mut first, mut second, mut third) = (Box::new(A::new()), Box::new(B::new()), Box::new(C::new()));
    let mut reached = Reached::new();
    for (at, event) in mix.events.iter().enumerate() {
        let words = [make(&mut *first, mix, event), make(&mut *second, mix, event), make(&mut *third, mix, event)];
        let seen = [first.seen(), second.seen(), third.seen()];
        let mut wrong = (1..3).find_map(|other| difference(event, (words[0], &seen[0]), (words[other], &seen[other])));
        let bytes = match event.call {
            Call::Exchange { command } => mix.bytes(command),
            _ => &[],
        };
        if wrong.is_none() && event.kind.is_exchange() {
            if Kind::of_exchange(bytes, words[0]) != event.kind {
                wrong = Some("the kind that the engine of tests/differential gave it");
            }
            reached.exchange(event.kind, bytes, words[0]);
        }
        reached.kinds[event.kind.row()] = true;
        if let Some(what) = wrong {
            let engines: String = (0..3).map(|engine| told(names[engine], words[engine], &seen[engine])).collect();
            return Err(format!("event {at}, {} {}: {what} differs\n{engines}", KINDS[event.kind.row()].1, hex(bytes)));
        }
    }
    reached.missing(mix.exchanges).map_or(Ok(()), Err)
}
