//! A capture (02, Q-2): the house file read and written back, its entries played from start on the engine of this crate, and the
//! lines that a play prints.
use crate::capture_fault as fault;
use crate::engine::{Engine, NOT_SOUND, OK, READ_STORE_LEN, REPLY_LEN, TAKE_REPORT_LEN, WRITE_STORE_LEN};
use crate::fault::NONE;
use crate::run::{make, Lent};
use crate::state::{unpack, State, STATE_LEN};
use crate::traffic::Call;

/// A file is at most 64 KiB.
pub const MOST: usize = 65_536;
/// The bytes of the entry count, and those of an entry's row in the contents: its kind and its length.
pub const COUNT: usize = 2;
pub const ROW: usize = 3;
/// The bytes of an answer's serial.
const SERIAL: usize = 4;

/// The kinds of entries in the order of their numbers.
pub const KINDS: [&str; 7] = ["command", "success answer", "failure answer", "set wire", "platform reset", "eSPI reset", "take write"];

/// Why a file is no capture.
#[derive(Clone, Copy, Debug, PartialEq, Eq)]
pub enum Bad {
    TooLong,
    NoCount,
    TableCut,
    BodiesCut,
    LeftOver,
    Kind,
    SuccessShort,
    FailureShort,
    FailureLong,
    WireShort,
    WireLong,
    PlatformResetBody,
    ResetBody,
    TakeBody,
}

/// The reasons in words, in the order of `Bad`.
pub const BADS: [&str; 14] = [
    "file over 65,536 bytes",
    "no count",
    "contents past the file's end",
    "bodies past the file's end",
    "bytes behind the last body",
    "unknown kind",
    "success answer under 4 bytes",
    "failure answer under 4 bytes",
    "failure answer over 4 bytes",
    "set wire under 3 bytes",
    "set wire over 3 bytes",
    "platform reset with a body",
    "eSPI reset with a body",
    "take write with a body",
];

/// An entry as it stands in the file: its kind and its body.
pub type Raw = (u8, Vec<u8>);

/// The kind and body of a call; `None` for one that a capture cannot hold.
pub fn raw(call: &Call) -> Option<Raw> {
    let byte = |number: u32| u8::try_from(number).ok();
    Some(match call {
        Call::Exchange { command } => (0, command.clone()),
        Call::Answer { serial, success: 0, data } if data.is_empty() => (2, serial.to_le_bytes().to_vec()),
        Call::Answer { success: 0, .. } => return None,
        Call::Answer { serial, data, .. } => (1, [&serial.to_le_bytes()[..], data].concat()),
        Call::SetWire { index, bit, value } => (3, vec![byte(*index)?, byte(*bit)?, byte(*value)?]),
        Call::PlatformReset => (4, vec![]),
        Call::Reset => (5, vec![]),
        Call::TakeWrite => (6, vec![]),
        // Lines have no kind in a capture (docs/CAPTURE.md).
        Call::Start | Call::Look | Call::ReadWire { .. } | Call::SetLine { .. } | Call::PulseLine { .. } => return None,
    })
}

/// The file of these entries, whatever they are: the count, the contents, the bodies.
pub fn lay(entries: &[Raw]) -> Vec<u8> {
    let mut file = (entries.len() as u16).to_le_bytes().to_vec();
    for (kind, body) in entries {
        let [low, high] = (body.len() as u16).to_le_bytes();
        file.extend([*kind, low, high]);
    }
    for (_, body) in entries {
        file.extend(body);
    }
    file
}

/// The capture of these calls; `None` if it cannot hold one of them, or all.
pub fn write(calls: &[Call]) -> Option<Vec<u8>> {
    let entries = calls.iter().map(raw).collect::<Option<Vec<Raw>>>()?;
    let length = COUNT + entries.iter().map(|(_, body)| ROW + body.len()).sum::<usize>();
    (length <= MOST).then(|| lay(&entries))
}

/// A board that plays: the state and the stores that are handed on from entry to entry.
pub struct Board {
    state: [u8; STATE_LEN],
    reply: [u8; REPLY_LEN],
    write_store: [u8; WRITE_STORE_LEN],
    read_store: [u8; READ_STORE_LEN],
    report: [u8; TAKE_REPORT_LEN],
}

/// What a call gives: its number, and the reply's bytes.
pub struct Outcome {
    pub number: u32,
    pub reply: Vec<u8>,
}

impl Board {
    /// A board after start, its stores zeros.
    pub fn fresh() -> Board {
        let mut board = Board {
            state: [0; STATE_LEN],
            reply: [0; REPLY_LEN],
            write_store: [0; WRITE_STORE_LEN],
            read_store: [0; READ_STORE_LEN],
            report: [0; TAKE_REPORT_LEN],
        };
        board.call(&Call::Start);
        board
    }

    pub fn now(&self) -> State {
        unpack(&self.state, NONE).expect("every call keeps a sound state")
    }

    pub fn call(&mut self, call: &Call) -> Outcome {
        let lent = Lent {
            state: &mut self.state,
            reply: &mut self.reply,
            write_store: &mut self.write_store,
            read_store: &mut self.read_store,
            report: &mut self.report,
        };
        let word = make(&mut Engine { fault: NONE }, lent, call);
        assert_ne!(word & 0xFF, NOT_SOUND, "every call keeps a sound state");
        Outcome { number: word & 0xFF, reply: self.reply[..(word >> 8) as usize].to_vec() }
    }
}

/// What reads a capture, plays it and prints the lines, with the knob for a deliberate fault (0: none).
#[derive(Clone, Copy, Default)]
pub struct Player {
    pub fault: u32,
}

impl Player {
    fn wrong(&self, fault: u32) -> bool {
        self.fault == fault
    }

    // ---- the file

    /// The calls of a capture.
    pub fn read(&self, file: &[u8]) -> Result<Vec<Call>, Bad> {
        self.entries(file)?.into_iter().collect()
    }

    /// The entries of a file whose contents add up to it, each a call or bad.
    fn entries(&self, file: &[u8]) -> Result<Vec<Result<Call, Bad>>, Bad> {
        let most = match self.fault {
            fault::LIMIT_65535 => MOST - 1,
            fault::LIMIT_65537 => MOST + 1,
            _ => MOST,
        };
        if file.len() > most && !self.wrong(fault::LIMIT_CUTS) {
            return Err(Bad::TooLong);
        }
        let file = &file[..file.len().min(most)];
        let too_good = match file.len() {
            0 => self.wrong(fault::EMPTY_GOOD),
            1 => self.wrong(fault::ONE_BYTE_GOOD),
            _ => false,
        };
        if too_good {
            return Ok(vec![]);
        }
        let (table, bodies) = self.contents(file)?;
        let mut entries = self.cut(table, bodies)?;
        if self.wrong(fault::REVERSED) {
            entries.reverse();
        }
        Ok(entries.into_iter().map(|(kind, body)| self.entry(kind, body)).collect())
    }

    /// The contents and what stands behind them.
    fn contents<'a>(&self, file: &'a [u8]) -> Result<(&'a [u8], &'a [u8]), Bad> {
        let (count, rest) = file.split_at_checked(COUNT).ok_or(Bad::NoCount)?;
        let count = match self.fault {
            fault::COUNT_HIGH_FIRST => u16::from_be_bytes([count[0], count[1]]),
            fault::COUNT_8_BITS => u16::from(count[0]),
            fault::NO_ENTRIES_BAD if file == [0, 0] => return Err(Bad::NoCount),
            _ => u16::from_le_bytes([count[0], count[1]]),
        };
        rest.split_at_checked(ROW * usize::from(count)).ok_or(Bad::TableCut)
    }

    /// The kind and body of each entry; the bodies fill the rest of the file exactly.
    fn cut<'a>(&self, table: &[u8], bodies: &'a [u8]) -> Result<Vec<(u8, &'a [u8])>, Bad> {
        let sum: usize = table.chunks_exact(ROW).map(|row| self.length(row)).sum();
        let wraps = self.wrong(fault::SUM_16_BITS) && sum as u16 == bodies.len() as u16;
        let mut rest = bodies;
        let mut entries = Vec::new();
        for row in table.chunks_exact(ROW) {
            let length = self.length(row);
            let length = if self.wrong(fault::CUT_READ) || wraps { length.min(rest.len()) } else { length };
            let (body, after) = rest.split_at_checked(length).ok_or(Bad::BodiesCut)?;
            entries.push((row[0], body));
            rest = after;
        }
        if !rest.is_empty() && !self.wrong(fault::LEFT_OVER_READ) {
            return Err(Bad::LeftOver);
        }
        Ok(entries)
    }

    /// The length in a row of the contents.
    fn length(&self, row: &[u8]) -> usize {
        usize::from(match self.fault {
            fault::LENGTH_HIGH_FIRST => u16::from_be_bytes([row[1], row[2]]),
            fault::LENGTH_8_BITS => u16::from(row[1]),
            _ => u16::from_le_bytes([row[1], row[2]]),
        })
    }

    /// The call of an entry, if its kind is known and its body has a length for it.
    fn entry(&self, kind: u8, body: &[u8]) -> Result<Call, Bad> {
        let kind = match (self.fault, kind) {
            (fault::KIND_7, 7) => 6,
            (fault::KIND_3_BITS, _) => kind & 7,
            (fault::KINDS_0_1, 0 | 1) | (fault::KINDS_4_5, 4 | 5) => kind ^ 1,
            (fault::KINDS_1_2, 1 | 2) | (fault::KINDS_5_6, 5 | 6) => kind ^ 3,
            _ => kind,
        };
        let without_body = |call: Call, bad: Bad, fault: u32| if body.is_empty() || self.wrong(fault) { Ok(call) } else { Err(bad) };
        match kind {
            0 if self.wrong(fault::COMMAND_EMPTY) && body.is_empty() => Err(Bad::Kind),
            0 if self.wrong(fault::COMMAND_4109) && body.len() > 4109 => Err(Bad::Kind),
            0 => Ok(Call::Exchange { command: body.to_vec() }),
            1 => self.success(body),
            2 => self.failure(body),
            3 => self.set_wire(body),
            4 => without_body(Call::PlatformReset, Bad::PlatformResetBody, fault::BODY_4),
            5 => without_body(Call::Reset, Bad::ResetBody, fault::BODY_5),
            6 => without_body(Call::TakeWrite, Bad::TakeBody, fault::BODY_6),
            _ => Err(Bad::Kind),
        }
    }

    /// A success answer: its serial, then its data.
    fn success(&self, body: &[u8]) -> Result<Call, Bad> {
        let serial = self.serial(body, fault::SUCCESS_3).ok_or(Bad::SuccessShort)?;
        let least = if self.wrong(fault::SUCCESS_NO_DATA) { SERIAL + 1 } else { 0 };
        let most = if self.wrong(fault::SUCCESS_4100) { SERIAL + READ_STORE_LEN } else { MOST };
        if body.len() < least || body.len() > most {
            return Err(Bad::SuccessShort);
        }
        let from = if self.wrong(fault::DATA_FROM_0) { 0 } else { body.len().min(SERIAL) };
        let success = u32::from(body.len() > SERIAL || !self.wrong(fault::NO_DATA_FAILS));
        Ok(Call::Answer { serial, success, data: body[from..].to_vec() })
    }

    /// A failure answer: its serial and nothing else.
    fn failure(&self, body: &[u8]) -> Result<Call, Bad> {
        let serial = self.serial(body, fault::FAILURE_3).ok_or(Bad::FailureShort)?;
        let most = if self.wrong(fault::FAILURE_5) { SERIAL + 1 } else { SERIAL };
        if body.len() > most {
            return Err(Bad::FailureLong);
        }
        Ok(Call::Answer { serial, success: 0, data: vec![] })
    }

    /// The serial at an answer's beginning; under the fault three bytes may do.
    fn serial(&self, body: &[u8], fault: u32) -> Option<u32> {
        let mut padded = body.to_vec();
        if self.wrong(fault) && body.len() + 1 == SERIAL {
            padded.push(0);
        }
        let bytes = padded.first_chunk::<SERIAL>()?;
        Some(match self.fault {
            fault::SERIAL_HIGH_FIRST => u32::from_be_bytes(*bytes),
            fault::SERIAL_16_BITS => u32::from_le_bytes(*bytes) & 0xFFFF,
            _ => u32::from_le_bytes(*bytes),
        })
    }

    /// A set wire: index, bit, value.
    fn set_wire(&self, body: &[u8]) -> Result<Call, Bad> {
        let (index, bit, value) = match *body {
            [index, bit, value] => (index, bit, value),
            [index, bit] if self.wrong(fault::WIRE_2) => (index, bit, 0),
            [index, bit, value, _] if self.wrong(fault::WIRE_4) => (index, bit, value),
            _ if body.len() < 3 => return Err(Bad::WireShort),
            _ => return Err(Bad::WireLong),
        };
        let (index, bit, value) = match self.fault {
            fault::INDEX_AND_BIT => (bit, index, value),
            fault::BIT_AND_VALUE => (index, value, bit),
            fault::VALUE_BIT_0 => (index, bit, value & 1),
            _ => (index, bit, value),
        };
        Ok(Call::SetWire { index: u32::from(index), bit: u32::from(bit), value: u32::from(value) })
    }

    // ---- the play

    /// Plays the calls from start.
    pub fn play(&self, calls: &[Call]) -> Vec<Outcome> {
        let mut board = Board::fresh();
        let mut outcomes = Vec::new();
        for call in calls {
            let outcome = self.play_call(&mut board, call);
            let silent = matches!(call, Call::Exchange { .. }) && outcome.reply.is_empty();
            let stops = self.wrong(fault::STOPS_AT_REFUSAL) && outcome.number != OK || self.wrong(fault::STOPS_AT_SILENCE) && silent;
            outcomes.push(outcome);
            if stops {
                break;
            }
        }
        outcomes
    }

    fn play_call(&self, board: &mut Board, call: &Call) -> Outcome {
        match self.fault {
            fault::AFRESH => *board = Board::fresh(),
            fault::READ_STORE_AFRESH => board.read_store = [0; READ_STORE_LEN],
            _ => {}
        }
        let before = board.state;
        let starts = self.wrong(fault::RESET_STARTS) && matches!(call, Call::Reset);
        let outcome = board.call(if starts { &Call::Start } else { call });
        if self.wrong(fault::TAKE_KEEPS) && matches!(call, Call::TakeWrite) {
            board.state = before;
        }
        outcome
    }

    // ---- the lines

    /// What is printed for a file: a line for each entry, or the one line of a bad capture.
    pub fn output(&self, file: &[u8]) -> String {
        match self.read(file) {
            Ok(calls) => self.lines(&self.play(&calls)),
            Err(_) if self.wrong(fault::BAD_SILENT) => String::new(),
            Err(_) if self.wrong(fault::BAD_AT_ITS_ENTRY) => self.before_bad(file) + BAD_LINE,
            Err(_) => BAD_LINE.to_string(),
        }
    }

    /// The lines of the entries before the first bad one.
    fn before_bad(&self, file: &[u8]) -> String {
        let entries = self.entries(file).unwrap_or_default();
        let calls: Vec<Call> = entries.into_iter().map_while(Result::ok).collect();
        self.lines(&self.play(&calls))
    }

    pub fn lines(&self, outcomes: &[Outcome]) -> String {
        let mut text: String = (1..).zip(outcomes).map(|(entry, outcome)| self.line(entry, outcome)).collect();
        if self.wrong(fault::LAST_FEED) {
            text.pop();
        }
        text
    }

    /// The entry's number from 1, its refusal number, its reply.
    fn line(&self, entry: usize, outcome: &Outcome) -> String {
        let entry = match self.fault {
            fault::FROM_0 => entry - 1,
            fault::NUMBERS_8_BITS => entry % 256,
            fault::NUMBERS_4_DIGITS => entry % 10_000,
            _ => entry,
        };
        let (number, reply) = (outcome.number, self.reply(outcome));
        match self.fault {
            fault::ORDER => format!("{number} {entry} {reply}\n"),
            fault::NUMBER_HEX => format!("{entry} {number:X} {reply}\n"),
            fault::RETURNS => format!("{entry} {number} {reply}\r\n"),
            _ => format!("{entry} {number} {reply}\n"),
        }
    }

    /// The reply in upper-case hex without spaces, or "-" if there is none.
    fn reply(&self, outcome: &Outcome) -> String {
        let shown = match self.fault {
            fault::REPLY_255 => &outcome.reply[..outcome.reply.len().min(255)],
            fault::REFUSAL_DASH if outcome.number != OK => &[],
            _ => &outcome.reply[..],
        };
        if shown.is_empty() {
            return if self.wrong(fault::DASH_LEFT_OUT) { String::new() } else { "-".to_string() };
        }
        let byte = |&byte: &u8| match self.fault {
            fault::LOWER_CASE => format!("{byte:02x}"),
            fault::HIGH_0_LEFT_OUT => format!("{byte:X}"),
            fault::DIGITS_EXCHANGED => format!("{:02X}", byte.rotate_left(4)),
            _ => format!("{byte:02X}"),
        };
        shown.iter().map(byte).collect::<Vec<String>>().join(if self.wrong(fault::SPACES) { " " } else { "" })
    }
}

/// The only line of a bad capture.
const BAD_LINE: &str = "bad capture\n";

#[cfg(test)]
mod tests {
    use super::*;

    fn bytes(text: &str) -> Vec<u8> {
        text.split_whitespace().map(|byte| u8::from_str_radix(byte, 16).expect("a byte in hex")).collect()
    }

    fn reads(file: &str) -> Result<Vec<Call>, Bad> {
        Player::default().read(&bytes(file))
    }

    fn prints(file: &[u8]) -> String {
        Player::default().output(file)
    }

    fn command(text: &str) -> Call {
        Call::Exchange { command: bytes(text) }
    }

    /// The file of document 02, both ways.
    #[test]
    fn document_02() {
        let file = bytes("01 00 00 02 00 25 FB");
        assert_eq!(prints(&file), "1 0 0807003A\n");
        assert_eq!(write(&[command("25 FB")]), Some(file));
    }

    /// A call of every kind written and read back: the bytes, and the calls as they are printed for a person.
    #[test]
    fn round_trip() {
        let calls = [
            command("40 00 64 BD"),
            Call::Answer { serial: 0x0102_0304, success: 1, data: vec![0x1D] },
            Call::Answer { serial: u32::MAX, success: 0, data: vec![] },
            Call::SetWire { index: 6, bit: 0, value: 1 },
            Call::PlatformReset,
            Call::Reset,
            Call::TakeWrite,
            command(""),
        ];
        let contents = "08 00 00 04 00 01 05 00 02 04 00 03 03 00 04 00 00 05 00 00 06 00 00 00 00 00";
        let file = bytes(&format!("{contents} 40 00 64 BD 04 03 02 01 1D FF FF FF FF 06 00 01"));
        assert_eq!(write(&calls).as_ref(), Some(&file));
        assert_eq!(format!("{:?}", Player::default().read(&file)), format!("{:?}", Ok::<_, Bad>(calls.to_vec())));
        assert_eq!(prints(&file), "1 0 0105002A\n2 20 -\n3 20 -\n4 0 -\n5 0 -\n6 0 -\n7 23 -\n8 12 -\n");
    }

    /// What a capture cannot hold is not written.
    #[test]
    fn not_written() {
        assert_eq!(write(&[Call::Look]), None);
        assert_eq!(write(&[Call::Answer { serial: 1, success: 0, data: vec![0] }]), None);
        assert_eq!(write(&[Call::SetWire { index: 0x104, bit: 0, value: 1 }]), None);
        let of = |length: usize| write(&[Call::Exchange { command: vec![0xFF; length] }]);
        assert_eq!(of(MOST - COUNT - ROW).map(|file| prints(&file)), Some("1 0 -\n".to_string()));
        assert_eq!(of(MOST - COUNT - ROW + 1), None);
    }

    /// Every way to be bad, also behind an entry that is good; then only one line is printed.
    #[test]
    fn bad() {
        for (file, reason) in [
            ("", Bad::NoCount),
            ("00", Bad::NoCount),
            ("01 00", Bad::TableCut),
            ("02 00 05 00 00 05 00", Bad::TableCut),
            ("01 00 00 02 00 25", Bad::BodiesCut),
            ("02 00 00 FF FF 00 03 00 25 FB", Bad::BodiesCut),
            ("01 00 00 02 00 25 FB 00", Bad::LeftOver),
            ("00 00 00", Bad::LeftOver),
            ("01 00 07 00 00", Bad::Kind),
            ("01 00 FF 00 00", Bad::Kind),
            ("01 00 01 03 00 01 00 00", Bad::SuccessShort),
            ("01 00 02 03 00 01 00 00", Bad::FailureShort),
            ("01 00 02 05 00 01 00 00 00 00", Bad::FailureLong),
            ("01 00 03 02 00 04 00", Bad::WireShort),
            ("01 00 03 04 00 04 00 01 00", Bad::WireLong),
            ("01 00 04 01 00 00", Bad::PlatformResetBody),
            ("01 00 05 01 00 00", Bad::ResetBody),
            ("01 00 06 01 00 00", Bad::TakeBody),
            ("02 00 00 02 00 07 00 00 25 FB", Bad::Kind),
        ] {
            assert_eq!(reads(file).err(), Some(reason), "{file}");
            assert_eq!(prints(&bytes(file)), "bad capture\n", "{file}");
        }
        assert!(reads("00 00").is_ok_and(|calls| calls.is_empty()));
        assert_eq!(prints(&[0, 0]), "");
    }

    /// A file of 65,536 bytes is played, one of 65,537 is not.
    #[test]
    fn limit() {
        let full = |length: usize| lay(&[(0, vec![0xFF; length - COUNT - ROW])]);
        assert_eq!(prints(&full(MOST)), "1 0 -\n");
        assert_eq!(Player::default().read(&full(MOST + 1)).err(), Some(Bad::TooLong));
    }
}
