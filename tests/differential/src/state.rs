//! The engine's state, its 174 bytes (STATE.md), and which bytes pack a sound state (01, "Sound state").
use crate::fault;

pub const STATE_LEN: usize = 174;

/// A register: its value at reset and the bits that a command can write (01, Registers and status).
pub struct Register {
    pub reset: u32,
    pub writable: u32,
}

pub const IDENTIFICATION: u32 = 0x0000_0001;
pub const GENERAL: Register = Register { reset: 0x030C_0003, writable: 0xDCF0_F000 };
pub const CHANNEL_0: Register = Register { reset: 0x0000_1133, writable: 0x0000_7705 };
/// Its bits 13:8 advertise packets of 64 groups (02, Q-5).
pub const CHANNEL_1: Register = Register { reset: 0x0000_3F00, writable: 0x003F_0001 };
pub const ENABLE: u32 = 1;
pub const READY: u32 = 2;

/// A row of the wire table (01, Wires); groups 2 and 3 have the reset values of source 004, tables 9 and 10.
pub struct Group {
    pub up: bool,
    pub defined: u8,
    pub reset: u8,
}

/// The groups with the indexes 2 to 7.
pub const GROUPS: [Group; 6] = [
    Group { up: false, defined: 0x7, reset: 0x0 },
    Group { up: false, defined: 0x7, reset: 0x0 },
    Group { up: true, defined: 0xD, reset: 0xC },
    Group { up: true, defined: 0xF, reset: 0x0 },
    Group { up: true, defined: 0xF, reset: 0x7 },
    Group { up: false, defined: 0x7, reset: 0x6 },
];
pub const FIRST_GROUP: usize = 2;

/// Interrupt lines (02, Q-4), and where their bits stand (STATE.md): line n in byte n / 8, bit n mod 8.
pub const LINES: usize = 256;
pub const LINE_LEVELS: usize = 78;
pub const LINE_WAITS: usize = 110;
pub const LINE_EDGES: usize = 142;

/// What of a line the host has still to fetch.
#[derive(Clone, Copy, Debug, PartialEq, Eq)]
pub enum Waits {
    Not,
    Level,
    Edge,
}

#[derive(Clone, Copy, Debug, PartialEq, Eq)]
pub struct Line {
    pub high: bool,
    pub waits: Waits,
}

impl Line {
    pub const LOW: Line = Line { high: false, waits: Waits::Not };
}

/// Who takes part in the going round: the lines, then groups 4 to 6 (02, Q-4).
#[derive(Clone, Copy, Debug, PartialEq, Eq)]
pub enum Sender {
    Line(usize),
    Group(u8),
}

impl Sender {
    /// Where it begins.
    pub const FIRST: Sender = Sender::Group(4);

    pub fn next(self) -> Sender {
        match self {
            Sender::Line(255) => Sender::Group(4),
            Sender::Line(line) => Sender::Line(line + 1),
            Sender::Group(6) => Sender::Line(0),
            Sender::Group(index) => Sender::Group(index + 1),
        }
    }

    pub fn number(self) -> u16 {
        match self {
            Sender::Line(line) => line as u16,
            Sender::Group(index) => 252 + u16::from(index),
        }
    }

    pub fn of(number: u16) -> Option<Sender> {
        match number {
            0..=255 => Some(Sender::Line(usize::from(number))),
            256..=258 => Some(Sender::Group((number - 252) as u8)),
            _ => None,
        }
    }
}

#[derive(Clone, Copy, Debug, PartialEq, Eq)]
pub struct Write {
    pub address: u64,
    pub length: u32,
    pub payload: u32,
}

#[derive(Clone, Copy, Debug, PartialEq, Eq)]
pub enum Kind {
    MemoryRead,
    IoRead,
    IoWrite,
}

#[derive(Clone, Copy, Debug, PartialEq, Eq)]
pub enum Phase {
    Open,
    Success,
    Failure,
}

#[derive(Clone, Copy, Debug, PartialEq, Eq)]
pub struct Request {
    pub phase: Phase,
    pub kind: Kind,
    pub tag: u8,
    pub address: u64,
    pub length: u32,
    pub payload: u32,
    pub read_size: u32,
    /// An I/O write's bytes, the first one lowest.
    pub bytes: u32,
    /// Bytes of the answer already sent.
    pub sent: u32,
}

#[derive(Clone, Debug, PartialEq, Eq)]
pub struct State {
    pub general: u32,
    pub channel0: u32,
    pub channel1: u32,
    pub write: Option<Write>,
    pub request: Option<Request>,
    pub serial: u32,
    pub levels: [u8; 6],
    pub pending: [bool; 6],
    /// The sender that the next GET_VWIRE asks first.
    pub place: Sender,
    pub lines: [Line; LINES],
}

impl State {
    pub fn fresh() -> State {
        State {
            general: GENERAL.reset,
            channel0: CHANNEL_0.reset,
            channel1: CHANNEL_1.reset,
            write: None,
            request: None,
            serial: 0,
            levels: GROUPS.map(|group| group.reset),
            pending: [false; 6],
            place: Sender::FIRST,
            lines: [Line::LOW; LINES],
        }
    }

    pub fn on0(&self) -> bool {
        self.channel0 & ENABLE != 0
    }

    pub fn on1(&self) -> bool {
        self.channel1 & ENABLE != 0
    }

    pub fn crc_checked(&self) -> bool {
        self.general >> 31 == 1
    }

    /// A size code n means 64 times 2^(n-1) bytes.
    pub fn payload(&self) -> u32 {
        32 << (self.channel0 >> 8 & 7)
    }

    pub fn read_size(&self) -> u32 {
        32 << (self.channel0 >> 12 & 7)
    }

    pub fn operating_count(&self) -> usize {
        (self.channel1 >> 16 & 0x3F) as usize + 1
    }

    // Both are asked with every call: all lines are looked at, which the compiler makes quicker than an end at the first.
    pub fn edge_waits(&self) -> bool {
        self.lines.iter().fold(false, |any, line| any | (line.waits == Waits::Edge))
    }

    pub fn line_waits(&self) -> bool {
        self.lines.iter().fold(false, |any, line| any | (line.waits != Waits::Not))
    }

    /// Whether a sender has something to send.
    pub fn waits(&self, sender: Sender) -> bool {
        match sender {
            Sender::Line(line) => self.lines[line].waits != Waits::Not,
            Sender::Group(index) => self.pending[usize::from(index) - FIRST_GROUP],
        }
    }

    /// Whether a GET_VWIRE has something to send.
    pub fn something_waits(&self) -> bool {
        self.pending.contains(&true) || self.line_waits()
    }
}

/// The bits high to low of a word.
fn field(word: u32, high: u32, low: u32) -> u32 {
    word >> low & ((1 << (high - low + 1)) - 1)
}

/// A forbidden value of the register at an address (01, Registers and status; 02, Q-5: none of 020h).
pub fn forbidden(address: u16, data: u32, fault: u32) -> bool {
    match address {
        0x004 => fault == fault::FORBIDDEN_004,
        0x008 => {
            let frequencies = if fault == fault::FREQUENCY_5 { 5 } else { 4 };
            (field(data, 27, 26) == 3 && fault != fault::IO_MODE_3) || field(data, 22, 20) > frequencies
        }
        0x010 => {
            let payloads = if fault == fault::PAYLOAD_CODE_4 { 4 } else { 3 };
            (field(data, 14, 12) == 0 && fault != fault::READ_CODE_0)
                || (field(data, 10, 8) == 0 && fault != fault::PAYLOAD_CODE_0)
                || field(data, 10, 8) > payloads
        }
        0x020 => fault == fault::COUNT_ABOVE_8 && field(data, 21, 16) > 7,
        _ => false,
    }
}

/// Whether length bytes at address stay within one block (01, Size rules). It cannot overflow.
pub fn within(address: u64, length: u32, block: u32) -> bool {
    address % u64::from(block) + u64::from(length) <= u64::from(block)
}

fn number(bytes: &[u8], at: usize, count: usize) -> u64 {
    bytes[at..at + count].iter().rev().fold(0, |sum, &byte| sum << 8 | u64::from(byte))
}

fn word(bytes: &[u8], at: usize) -> u32 {
    number(bytes, at, 4) as u32
}

/// A clause of soundness: the fault that forgets it (NONE: no fault does), and whether it holds.
type Clause = (u32, bool);

fn all(clauses: &[Clause], fault: u32) -> bool {
    clauses.iter().all(|&(forgotten, holds)| holds || (forgotten == fault && fault != fault::NONE))
}

/// The state that the first 174 bytes pack, if they are the canonical form of a sound state.
pub fn unpack(bytes: &[u8], fault: u32) -> Option<State> {
    let general = word(bytes, 0);
    let channel0 = word(bytes, 4);
    let channel1 = word(bytes, 8);
    let (on0, on1) = (channel0 & ENABLE != 0, channel1 & ENABLE != 0);

    // Registers hold reachable values: read-only bits as at reset, ready equal to enable, no forbidden field.
    let kept = |value: u32, register: &Register, ready: u32| (value ^ register.reset) & !register.writable & !ready == 0;
    let ready_is_enable = |value: u32| (value & READY != 0) == (value & ENABLE != 0);
    let code_0 = if fault == fault::SOUND_010_FORBIDDEN { fault::READ_CODE_0 } else { fault::NONE };
    let registers = [
        (fault::SOUND_008_READ_ONLY, kept(general, &GENERAL, 0)),
        (fault::SOUND_008_FORBIDDEN, !forbidden(0x008, general, fault::NONE)),
        (fault::SOUND_010_READ_ONLY, kept(channel0, &CHANNEL_0, READY)),
        (fault::SOUND_010_READY, ready_is_enable(channel0)),
        (fault::NONE, !forbidden(0x010, channel0, code_0)),
        (fault::SOUND_020_READ_ONLY, kept(channel1, &CHANNEL_1, READY)),
        (fault::SOUND_020_READY, ready_is_enable(channel1)),
    ];
    if !all(&registers, fault) {
        return None;
    }

    let write = unpack_write(bytes, on0, fault)?;
    let request = unpack_request(bytes, on0, fault)?;
    let serial = word(bytes, 60);

    // Undefined wire bits are 0; up groups alone are pending, and none while channel 1 is off; the place is one of the senders.
    let mut levels = [0; 6];
    let mut pending = [false; 6];
    for (at, group) in GROUPS.iter().enumerate() {
        let (level, mark) = (bytes[64 + at], bytes[70 + at]);
        let wires = [
            (fault::SOUND_LEVELS, level & !group.defined == 0),
            (fault::SOUND_MARK_VALUE, mark <= 1),
            (fault::SOUND_MARK_DOWN, mark == 0 || group.up),
            (fault::SOUND_MARK_OFF, mark == 0 || on1),
        ];
        if !all(&wires, fault) {
            return None;
        }
        levels[at] = level;
        pending[at] = mark != 0;
    }
    let place = Sender::of(number(bytes, 76, 2) as u16);
    let place = place.or((fault == fault::SOUND_PLACE && bytes[76..78] == [3, 1]).then_some(Sender::Group(4)))?;
    let lines = unpack_lines(bytes, on1, field(channel1, 21, 16) > 0, fault)?;

    let state = State { general, channel0, channel1, write, request, serial, levels, pending, place, lines };
    let too_strict = match fault {
        fault::STRICT_COUNT => field(channel1, 21, 16) > 7,
        fault::STRICT_PLACE => !on1 && place != Sender::FIRST,
        fault::STRICT_LINES_OFF => !on1 && lines.iter().any(|line| line.high),
        fault::STRICT_EDGE_LOW => lines.iter().any(|line| line.high && line.waits == Waits::Edge),
        fault::STRICT_SERIAL => request.is_some() && serial == 0,
        fault::STRICT_ADDRESS => request.is_some_and(|held| held.address.checked_add(u64::from(held.length)).is_none()),
        fault::STRICT_TODAY => request.is_some_and(|held| (held.payload, held.read_size) != (state.payload(), state.read_size())),
        fault::STRICT_IO_PIECES => request.is_some_and(|held| held.kind == Kind::IoRead && held.sent > 0),
        fault::STRICT_PAST => bytes.get(STATE_LEN) == Some(&0xFF),
        _ => false,
    };
    (!too_strict).then_some(state)
}

/// The lines: an edge is one that waits, none waits while channel 1 is off, and no edge while the operating count is 1 (02, Q-4).
fn unpack_lines(bytes: &[u8], on1: bool, two_fit: bool, fault: u32) -> Option<[Line; LINES]> {
    let mut lines = [Line::LOW; LINES];
    for (at, eight) in lines.chunks_exact_mut(8).enumerate() {
        let (high, waits, edges) = (bytes[LINE_LEVELS + at], bytes[LINE_WAITS + at], bytes[LINE_EDGES + at]);
        if high | waits | edges == 0 {
            continue;
        }
        let clauses = [
            (fault::SOUND_EDGE_ALONE, edges & !waits == 0),
            (fault::SOUND_LINE_OFF, on1 || waits == 0),
            (fault::SOUND_EDGE_COUNT, two_fit || edges == 0),
        ];
        if !all(&clauses, fault) {
            return None;
        }
        for (bit, line) in eight.iter_mut().enumerate() {
            let has = |map: u8| map >> bit & 1 == 1;
            let waits = match (has(waits), has(edges)) {
                (_, true) => Waits::Edge,
                (true, false) => Waits::Level,
                (false, false) => Waits::Not,
            };
            *line = Line { high: has(high), waits };
        }
    }
    Some(lines)
}

const PAYLOAD_SIZES: [u32; 3] = [64, 128, 256];
const READ_SIZES: [u32; 7] = [64, 128, 256, 512, 1024, 2048, 4096];

/// The held write: one that a command makes under the payload size recorded with it. `None`: these bytes pack none.
fn unpack_write(bytes: &[u8], on0: bool, fault: u32) -> Option<Option<Write>> {
    let flag = bytes[12];
    let write = Write { address: number(bytes, 13, 8), length: word(bytes, 21), payload: word(bytes, 25) };
    if flag == 0 {
        let unused = bytes[13..29].iter().all(|&byte| byte == 0);
        return all(&[(fault::SOUND_WRITE_UNUSED, unused)], fault).then_some(None);
    }
    if !(PAYLOAD_SIZES.contains(&write.payload) || (fault == fault::SOUND_WRITE_SIZE && write.payload == 32)) {
        return None;
    }
    let clauses = [
        (fault::SOUND_WRITE_FLAG, flag == 1),
        (fault::SOUND_WRITE_EMPTY, write.length >= 1),
        (fault::NONE, write.length <= write.payload),
        (fault::SOUND_WRITE_FITS, within(write.address, write.length, write.payload)),
        (fault::SOUND_WRITE_OFF, on0),
    ];
    all(&clauses, fault).then_some(Some(write))
}

/// The held request: one that a command makes under the sizes recorded with it, its bytes sent 0 or at a piece's edge.
fn unpack_request(bytes: &[u8], on0: bool, fault: u32) -> Option<Option<Request>> {
    let phase = match bytes[29] {
        0 => {
            let unused = bytes[30..60].iter().all(|&byte| byte == 0);
            return all(&[(fault::SOUND_REQUEST_UNUSED, unused)], fault).then_some(None);
        }
        1 => Phase::Open,
        2 => Phase::Success,
        3 => Phase::Failure,
        _ if fault == fault::SOUND_PHASE => Phase::Failure,
        _ => return None,
    };
    let kind = match bytes[30] {
        0 => Kind::MemoryRead,
        1 => Kind::IoRead,
        2 => Kind::IoWrite,
        _ if fault == fault::SOUND_KIND => Kind::IoWrite,
        _ => return None,
    };
    let request = Request {
        phase,
        kind,
        tag: bytes[31],
        address: number(bytes, 32, 8),
        length: word(bytes, 40),
        payload: word(bytes, 44),
        read_size: word(bytes, 48),
        bytes: word(bytes, 52),
        sent: word(bytes, 56),
    };
    let Request { tag, address, length, payload, read_size, sent, .. } = request;
    if !(PAYLOAD_SIZES.contains(&payload) || (fault == fault::SOUND_REQUEST_PAYLOAD && payload == 32))
        || !(READ_SIZES.contains(&read_size) || (fault == fault::SOUND_REQUEST_READ_SIZE && read_size == 32))
    {
        return None;
    }
    let block = if kind == Kind::IoWrite { payload } else { read_size };
    let io = kind != Kind::MemoryRead;
    let io_length = matches!(length, 1 | 2 | 4) || (fault == fault::SOUND_IO_LENGTH && length == 3);
    let bytes_past = if length >= 4 { 0 } else { request.bytes >> (8 * length) };
    let at_edge = (address.wrapping_add(u64::from(sent))) % u64::from(payload) == 0;
    let clauses = [
        (fault::SOUND_TAG, io || tag <= 15),
        (fault::SOUND_IO_TAG, !io || tag == 0),
        (fault::SOUND_IO_ADDRESS, !io || address <= 0xFFFF),
        (fault::NONE, !io || io_length),
        (fault::SOUND_REQUEST_EMPTY, length >= 1),
        (fault::NONE, length <= block),
        (fault::SOUND_REQUEST_FITS, within(address, length, block)),
        (fault::SOUND_READ_BYTES, kind == Kind::IoWrite || request.bytes == 0),
        (fault::SOUND_IO_BYTES, kind != Kind::IoWrite || bytes_past == 0),
        (fault::SOUND_SENT_PHASE, sent == 0 || phase == Phase::Success),
        (fault::NONE, sent == 0 || kind != Kind::IoWrite),
        (fault::NONE, sent <= length),
        (fault::SOUND_SENT_WHOLE, sent == 0 || sent < length),
        (fault::SOUND_SENT_EDGE, sent == 0 || at_edge),
        (fault::SOUND_REQUEST_OFF, on0),
    ];
    all(&clauses, fault).then_some(Some(request))
}

/// Packs a state into the first 174 bytes, in the one canonical form.
pub fn pack(state: &State, bytes: &mut [u8]) {
    let bytes = &mut bytes[..STATE_LEN];
    bytes.fill(0);
    bytes[0..4].copy_from_slice(&state.general.to_le_bytes());
    bytes[4..8].copy_from_slice(&state.channel0.to_le_bytes());
    bytes[8..12].copy_from_slice(&state.channel1.to_le_bytes());
    if let Some(write) = &state.write {
        bytes[12] = 1;
        bytes[13..21].copy_from_slice(&write.address.to_le_bytes());
        bytes[21..25].copy_from_slice(&write.length.to_le_bytes());
        bytes[25..29].copy_from_slice(&write.payload.to_le_bytes());
    }
    if let Some(request) = &state.request {
        bytes[29] = match request.phase {
            Phase::Open => 1,
            Phase::Success => 2,
            Phase::Failure => 3,
        };
        bytes[30] = request.kind as u8;
        bytes[31] = request.tag;
        bytes[32..40].copy_from_slice(&request.address.to_le_bytes());
        bytes[40..44].copy_from_slice(&request.length.to_le_bytes());
        bytes[44..48].copy_from_slice(&request.payload.to_le_bytes());
        bytes[48..52].copy_from_slice(&request.read_size.to_le_bytes());
        bytes[52..56].copy_from_slice(&request.bytes.to_le_bytes());
        bytes[56..60].copy_from_slice(&request.sent.to_le_bytes());
    }
    bytes[60..64].copy_from_slice(&state.serial.to_le_bytes());
    bytes[64..70].copy_from_slice(&state.levels);
    for (at, &mark) in state.pending.iter().enumerate() {
        bytes[70 + at] = u8::from(mark);
    }
    bytes[76..78].copy_from_slice(&state.place.number().to_le_bytes());
    for (at, eight) in state.lines.chunks_exact(8).enumerate().filter(|(_, eight)| *eight != [Line::LOW; 8]) {
        for (bit, line) in eight.iter().enumerate() {
            bytes[LINE_LEVELS + at] |= u8::from(line.high) << bit;
            bytes[LINE_WAITS + at] |= u8::from(line.waits != Waits::Not) << bit;
            bytes[LINE_EDGES + at] |= u8::from(line.waits == Waits::Edge) << bit;
        }
    }
}
