//! Captures made of the traffic of the differential run, good ones and damaged ones; what a run of them has reached; and each
//! deliberate fault of the player found by them.
use crate::capture::{lay, raw, Board, Outcome, Player, Raw, BADS, COUNT, KINDS, MOST, ROW};
use crate::capture_fault as fault;
use crate::engine::{READ_STORE_LEN, REPLY_LEN};
use crate::state::State;
use crate::traffic::{Call, Traffic};

/// Makes captures from a seed, one after the other.
pub struct Maker {
    traffic: Traffic,
}

impl Maker {
    pub fn new(seed: u64) -> Maker {
        Maker { traffic: Traffic::new(seed) }
    }

    fn below(&mut self, n: usize) -> usize {
        self.traffic.random.below(n)
    }

    fn once_in(&mut self, n: usize) -> bool {
        self.traffic.random.once_in(n)
    }

    /// The next file. Two of five are damaged, which not always makes them bad.
    pub fn file(&mut self) -> Vec<u8> {
        let entries = match self.below(64) {
            0 => vec![],
            1 => {
                let count = self.below(2);
                return self.traffic.random.bytes(count);
            }
            2..=4 => self.filled(MOST),
            5 => self.filled(MOST + 1),
            6 | 7 => return self.longer(),
            8 => self.crowd(),
            9..=20 => self.some(4),
            21..=45 => self.some(60),
            _ => self.some(300),
        };
        if self.below(5) < 2 {
            self.damaged(entries)
        } else {
            lay(&entries)
        }
    }

    /// At most so many entries that a board and its host might make, in a file of at most so many bytes. They are played as they
    /// are made.
    fn entries(&mut self, count: usize, bytes: usize) -> Vec<Raw> {
        let mut board = Board::fresh();
        let mut entries = Vec::new();
        let mut taken = COUNT;
        while entries.len() < count {
            self.traffic.change_times();
            let (call, entry) = self.entry(&board.now());
            taken += ROW + entry.1.len();
            if taken > bytes {
                break;
            }
            board.call(&call);
            entries.push(entry);
        }
        entries
    }

    /// A call for this state that a capture can hold. A success answer now and then has more bytes than any request, and
    /// resets and takes come more often than in a run.
    fn entry(&mut self, now: &State) -> (Call, Raw) {
        loop {
            let call = match self.below(600) {
                0 => Call::PlatformReset,
                1 => Call::Reset,
                2 => Call::TakeWrite,
                3 => {
                    let count = 4090 + self.below(20);
                    Call::Answer { serial: now.serial, success: 1, data: self.traffic.random.bytes(count) }
                }
                _ => self.traffic.call(now),
            };
            if let Some(entry) = raw(&call) {
                return (call, entry);
            }
        }
    }

    fn some(&mut self, most: usize) -> Vec<Raw> {
        let count = 1 + self.below(most);
        self.entries(count, MOST)
    }

    /// A file of exactly so many bytes. The last entry fills it: a RESET, or bytes that are no command.
    fn filled(&mut self, bytes: usize) -> Vec<Raw> {
        let mut entries = self.entries(usize::MAX, bytes - ROW);
        let taken = lay(&entries).len();
        let byte = if self.once_in(2) { 0xFF } else { 0x25 };
        entries.push((0, vec![byte; bytes - taken - ROW]));
        entries
    }

    /// As many short entries as a file holds, so that entry numbers reach five digits.
    fn crowd(&mut self) -> Vec<Raw> {
        let mut entries = Vec::new();
        let mut taken = COUNT;
        loop {
            let entry = match self.below(8) {
                0 => (0, vec![0x25, 0xFB]),
                1 => (3, vec![4 + self.below(3) as u8, self.below(4) as u8, self.below(2) as u8]),
                kind => (4 + (kind % 3) as u8, vec![]),
            };
            taken += ROW + entry.1.len();
            if taken > MOST {
                return entries;
            }
            entries.push(entry);
        }
    }

    /// A file that is only too long, or that begins with a good one of 65,536 bytes.
    fn longer(&mut self) -> Vec<u8> {
        let more = 1 + self.below(6000);
        if self.once_in(2) {
            return lay(&self.filled(MOST + more));
        }
        let mut file = lay(&self.filled(MOST));
        file.extend(self.traffic.random.bytes(more));
        file
    }

    // ---- damage

    fn damaged(&mut self, mut entries: Vec<Raw>) -> Vec<u8> {
        let roll = self.below(16);
        if roll == 0 {
            return self.wrapped(entries);
        }
        if roll < 11 {
            self.bend_entries(&mut entries);
            return lay(&entries);
        }
        let mut file = lay(&entries);
        self.bend_file(&mut file, entries.len());
        file
    }

    /// A place among the entries, often at the end: what comes before a bad entry must not be played.
    fn place(&mut self, count: usize) -> usize {
        match self.below(3) {
            0 => count.saturating_sub(1),
            _ => self.below(count.max(1)),
        }
    }

    /// An entry with another kind or length, or one more that is odd; the contents still add up to the file.
    fn bend_entries(&mut self, entries: &mut Vec<Raw>) {
        const ODD: [(u8, usize); 17] = [
            (1, 3),
            (1, 0),
            (1, 4),
            (2, 3),
            (2, 0),
            (2, 5),
            (2, 9),
            (3, 2),
            (3, 0),
            (3, 4),
            (4, 1),
            (5, 1),
            (6, 1),
            (7, 0),
            (8, 2),
            (14, 0),
            (255, 0),
        ];
        let at = self.place(entries.len());
        let roll = self.below(8);
        match entries.get_mut(at) {
            Some(entry) if roll == 0 => entry.0 = self.traffic.random.pick(&[0, 1, 2, 3, 4, 5, 6, 7, 8, 255]),
            Some(entry) if roll == 1 => entry.1.push(0),
            Some(entry) if roll == 2 => drop(entry.1.pop()),
            _ => {
                let (kind, count) = self.traffic.random.pick(&ODD);
                let body = self.traffic.random.bytes(count);
                let at = if self.once_in(2) { entries.len() } else { at };
                entries.insert(at, (kind, body));
            }
        }
    }

    /// Two more commands of a byte each, whose lengths are 65,536 too much together.
    fn wrapped(&mut self, mut entries: Vec<Raw>) -> Vec<u8> {
        let at = COUNT + ROW * entries.len();
        entries.extend([(0, vec![0x25]), (0, vec![0xFB])]);
        let mut file = lay(&entries);
        let first = 3 + self.below(65_533);
        file[at + 1..at + ROW].copy_from_slice(&(first as u16).to_le_bytes());
        file[at + ROW + 1..at + 2 * ROW].copy_from_slice(&((65_538 - first) as u16).to_le_bytes());
        file
    }

    /// Bytes of the count or of the contents changed, the file cut or lengthened.
    fn bend_file(&mut self, file: &mut Vec<u8>, count: usize) {
        let (roll, end) = (self.below(10), file.len());
        let (one, other) = (COUNT + ROW * self.place(count), COUNT + ROW * self.place(count));
        match roll {
            0 => file.truncate(self.below(6)),
            1 => file.truncate(end - 1),
            2 => file.truncate(self.below(end)),
            3 => file.push(0),
            4 => {
                let more = 1 + self.below(8);
                file.extend(self.traffic.random.bytes(more));
            }
            5 => file[0] = file[0].wrapping_add(self.traffic.random.pick(&[1, 255])),
            6 => file[1] ^= 1 << self.below(8),
            // The rest asks for an entry in the contents.
            _ if count == 0 => file.truncate(1),
            7 => file[one + self.below(ROW)] ^= 1 << self.below(8),
            8 => (1..ROW).for_each(|byte| file.swap(one + byte, other + byte)),
            _ => file.swap(one + 1, one + 2),
        }
    }
}

/// The numbers that each kind can give in a capture, in the order of `KINDS`: the stores are long enough and the state is sound,
/// and a failure answer has no data.
const NUMBERS: [&[u32]; 7] = [&[0, 1, 2, 12, 13, 14, 15, 16], &[0, 20, 21], &[0, 20], &[0, 22], &[0], &[0], &[0, 23]];

/// What a run must meet besides.
const CASES: [&str; 7] = [
    "no entries",
    "good file of 65,536 bytes",
    "file of 65,537 bytes",
    "entry with a number of five digits",
    "reply of 263 bytes",
    "RESET",
    "success answer over 4,096 bytes of data",
];

/// What the captures of a run have reached.
#[derive(Default)]
pub struct Reached {
    good: u64,
    entries: u64,
    numbers: [[u64; 24]; KINDS.len()],
    bads: [u64; BADS.len()],
    cases: [u64; CASES.len()],
}

impl Reached {
    fn case(&mut self, name: &str, met: bool) {
        let at = CASES.iter().position(|&case| case == name).expect("a case of the list");
        self.cases[at] += u64::from(met);
    }

    /// What must be printed for a file.
    pub fn record(&mut self, file: &[u8]) -> String {
        let player = Player::default();
        self.case("file of 65,537 bytes", file.len() == MOST + 1);
        match player.read(file) {
            Ok(calls) => {
                let outcomes = player.play(&calls);
                self.record_play(file, &calls, &outcomes);
                player.lines(&outcomes)
            }
            Err(bad) => {
                self.bads[bad as usize] += 1;
                player.output(file)
            }
        }
    }

    fn record_play(&mut self, file: &[u8], calls: &[Call], outcomes: &[Outcome]) {
        self.good += 1;
        self.entries += calls.len() as u64;
        self.case("no entries", calls.is_empty());
        self.case("good file of 65,536 bytes", file.len() == MOST);
        self.case("entry with a number of five digits", calls.len() >= 10_000);
        for (call, outcome) in calls.iter().zip(outcomes) {
            let (kind, body) = raw(call).expect("a call of a capture");
            self.numbers[usize::from(kind)][outcome.number as usize] += 1;
            self.case("reply of 263 bytes", outcome.reply.len() == REPLY_LEN);
            self.case("RESET", kind == 0 && outcome.number == 0 && outcome.reply.is_empty());
            self.case("success answer over 4,096 bytes of data", kind == 1 && body.len() > 4 + READ_STORE_LEN);
        }
    }

    /// The report, and the names of everything that the run should have reached and did not.
    pub fn report(&self) -> (String, Vec<String>) {
        let mut missing = Vec::new();
        let mut need = |count: u64, name: String| {
            if count == 0 {
                missing.push(name);
            }
        };
        let bad: u64 = self.bads.iter().sum();
        let mut text = format!("captures: {} good with {} entries, {bad} bad\nnumbers of each kind:\n", self.good, self.entries);
        for (kind, name) in KINDS.iter().enumerate() {
            text += &format!("  {kind} {name:<16}");
            for &number in NUMBERS[kind] {
                let count = self.numbers[kind][number as usize];
                text += &format!(" {number}: {count}");
                need(count, format!("{name} with number {number}"));
            }
            text += "\n";
        }
        for (title, names, counts) in [("bad by", &BADS[..], &self.bads[..]), ("cases", &CASES[..], &self.cases[..])] {
            text += &format!("{title}:\n");
            for (name, &count) in names.iter().zip(counts) {
                text += &format!("  {name}: {count}\n");
                need(count, name.to_string());
            }
        }
        (text, missing)
    }
}

/// The first capture of these, from 0, for which a faulty player prints something else; `None` for a fault that is not found.
pub fn finds(files: &[(Vec<u8>, String)], fault: u32) -> Option<usize> {
    files.iter().position(|(file, expected)| Player { fault }.output(file) != *expected)
}

/// The deliberate faults with the capture that finds each, among the first of a seed. They are held against the player without
/// a fault, not against the program: that is quick, and it is as good where a run with the same number and seed has found the
/// program to agree with that player.
pub fn faults(captures: u64, seed: u64) -> Vec<(&'static str, Option<usize>)> {
    let mut maker = Maker::new(seed);
    let with_output = |file: Vec<u8>| {
        let output = Player::default().output(&file);
        (file, output)
    };
    let files: Vec<(Vec<u8>, String)> = (0..captures).map(|_| with_output(maker.file())).collect();
    fault::ALL.iter().map(|&(fault, says)| (says, finds(&files, fault))).collect()
}

#[cfg(test)]
mod tests {
    use super::*;
    use crate::capture::write;

    /// The captures reach all that they should, and reading each good one and writing it back gives its bytes.
    #[test]
    fn reaches_everything() {
        let (mut maker, mut reached) = (Maker::new(3), Reached::default());
        for _ in 0..1_000 {
            let file = maker.file();
            reached.record(&file);
            if let Ok(calls) = Player::default().read(&file) {
                assert_eq!(write(&calls), Some(file));
            }
        }
        let (_, missing) = reached.report();
        assert!(missing.is_empty(), "not reached: {missing:?}");
    }

    /// Every fault is found.
    #[test]
    fn faults_are_found() {
        let missed: Vec<&str> = faults(1_000, 11).into_iter().filter(|(_, at)| at.is_none()).map(|(says, _)| says).collect();
        assert!(missed.is_empty(), "not found: {missed:#?}");
    }
}
