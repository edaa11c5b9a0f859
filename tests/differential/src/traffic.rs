//! Seeded traffic: calls, lengths of lent slices, sound states and damaged ones. Mostly meaningful for the state it is
//! shown, and bent at the edges of every rule.
use crate::engine::{crc, LOOK_REPORT_LEN, READ_STORE_LEN, REPLY_LEN, TAKE_REPORT_LEN, WRITE_STORE_LEN};
use crate::state::{
    forbidden, pack, within, Kind, Line, Phase, Request, Sender, State, Waits, Write, CHANNEL_0, CHANNEL_1, ENABLE, FIRST_GROUP, GENERAL,
    GROUPS, LINES, LINE_EDGES, LINE_LEVELS, LINE_WAITS, READY, STATE_LEN,
};

/// Random numbers by xorshift with a multiplication at the end.
pub struct Random(u64);

impl Random {
    pub fn new(seed: u64) -> Random {
        let mut random = Random((seed ^ 0x6A09_E667_F3BC_C908).wrapping_mul(0x9E37_79B9_7F4A_7C15) | 1);
        random.double();
        random
    }

    pub fn double(&mut self) -> u64 {
        self.0 ^= self.0 >> 12;
        self.0 ^= self.0 << 25;
        self.0 ^= self.0 >> 27;
        self.0.wrapping_mul(0x2545_F491_4F6C_DD1D)
    }

    pub fn word(&mut self) -> u32 {
        (self.double() >> 32) as u32
    }

    pub fn byte(&mut self) -> u8 {
        (self.double() >> 56) as u8
    }

    /// A number below `n`, which is above 0.
    pub fn below(&mut self, n: usize) -> usize {
        ((u128::from(self.double()) * n as u128) >> 64) as usize
    }

    /// True once in `n` times.
    pub fn once_in(&mut self, n: usize) -> bool {
        self.below(n) == 0
    }

    pub fn pick<T: Copy>(&mut self, from: &[T]) -> T {
        from[self.below(from.len())]
    }

    pub fn fill(&mut self, bytes: &mut [u8]) {
        for part in bytes.chunks_mut(8) {
            let random = self.double().to_le_bytes();
            part.copy_from_slice(&random[..part.len()]);
        }
    }

    pub fn bytes(&mut self, count: usize) -> Vec<u8> {
        let mut bytes = vec![0; count];
        self.fill(&mut bytes);
        bytes
    }
}

/// A call with its numbers and the bytes that it reads only.
#[derive(Clone, Debug)]
pub enum Call {
    Start,
    Reset,
    PlatformReset,
    Exchange { command: Vec<u8> },
    Look,
    Answer { serial: u32, success: u32, data: Vec<u8> },
    TakeWrite,
    SetWire { index: u32, bit: u32, value: u32 },
    ReadWire { index: u32, bit: u32 },
    SetLine { line: u32, level: u32 },
    PulseLine { line: u32 },
}

/// The names of the calls, in the order of `Call::row`.
pub const CALLS: [&str; 11] =
    ["start", "reset", "platform_reset", "exchange", "look", "answer", "take_write", "set_wire", "read_wire", "set_line", "pulse_line"];

impl Call {
    pub fn row(&self) -> usize {
        match self {
            Call::Start => 0,
            Call::Reset => 1,
            Call::PlatformReset => 2,
            Call::Exchange { .. } => 3,
            Call::Look => 4,
            Call::Answer { .. } => 5,
            Call::TakeWrite => 6,
            Call::SetWire { .. } => 7,
            Call::ReadWire { .. } => 8,
            Call::SetLine { .. } => 9,
            Call::PulseLine { .. } => 10,
        }
    }
}

/// How many bytes of each slice are lent.
#[derive(Clone, Copy, Debug)]
pub struct Lengths {
    pub state: usize,
    pub reply: usize,
    pub write_store: usize,
    pub read_store: usize,
    pub report: usize,
}

/// The room that each slice may take.
pub const ROOM: Lengths = Lengths {
    state: STATE_LEN + 60,
    reply: REPLY_LEN + 140,
    write_store: WRITE_STORE_LEN + 140,
    read_store: READ_STORE_LEN + 200,
    report: 60,
};

/// A wire packet that is being made: the value of each wire so far, and how often it has changed.
struct Packet {
    levels: [u8; 6],
    changes: [[usize; 4]; 6],
}

impl Packet {
    /// A data byte that changes no wire of the host's more than `most` times, nor one whose change is held back; the bits that
    /// do not count stay as they are.
    fn calmed(&mut self, row: usize, mut data: u8, most: usize, mut held_back: impl FnMut() -> bool) -> u8 {
        let counted = if GROUPS[row].up { 0 } else { GROUPS[row].defined };
        for bit in 0..4 {
            let differs = (data ^ self.levels[row]) >> bit & 1 == 1;
            if !differs || data >> (4 + bit) & 1 == 0 {
                continue;
            }
            if counted >> bit & 1 == 1 && (self.changes[row][bit] == most || held_back()) {
                data ^= 1 << bit;
            } else {
                self.levels[row] ^= 1 << bit;
                self.changes[row][bit] += 1;
            }
        }
        data
    }
}

pub struct Traffic {
    pub random: Random,
    /// In calm times nothing is reset, disabled or put in place of the state, so that long reads are finished.
    calm: bool,
}

impl Traffic {
    pub fn new(seed: u64) -> Traffic {
        Traffic { random: Random::new(seed), calm: false }
    }

    fn once_in(&mut self, n: usize) -> bool {
        self.random.once_in(n)
    }

    fn below(&mut self, n: usize) -> usize {
        self.random.below(n)
    }

    fn pick<T: Copy>(&mut self, from: &[T]) -> T {
        self.random.pick(from)
    }

    /// Now and then the times change.
    pub fn change_times(&mut self) {
        if self.once_in(600) {
            self.calm = !self.calm;
        }
    }

    /// Whether another sound state is put in place of this one.
    pub fn replaces_state(&mut self) -> bool {
        !self.calm && self.once_in(120)
    }

    // ---- lengths

    fn lent(&mut self, needed: usize, room: usize) -> usize {
        match self.below(150) {
            0 => needed - 1,
            1 => self.below(needed),
            2 => room,
            3..=20 => needed,
            _ => needed + self.below(25),
        }
    }

    pub fn lengths(&mut self, call: &Call) -> Lengths {
        let report = if matches!(call, Call::TakeWrite) { TAKE_REPORT_LEN } else { LOOK_REPORT_LEN };
        let rare = matches!(call, Call::Start | Call::Reset | Call::PlatformReset);
        let state = if rare && self.once_in(8) { self.pick(&[0, STATE_LEN - 1]) } else { self.lent(STATE_LEN, ROOM.state) };
        Lengths {
            state,
            reply: self.lent(REPLY_LEN, ROOM.reply),
            write_store: self.lent(WRITE_STORE_LEN, ROOM.write_store),
            read_store: self.lent(READ_STORE_LEN, ROOM.read_store),
            report: self.lent(report, ROOM.report),
        }
    }

    // ---- calls

    /// One of the three calls that begin anew.
    fn begin(&mut self) -> Call {
        match self.below(5) {
            0 => Call::Start,
            1 | 2 => Call::Reset,
            _ => Call::PlatformReset,
        }
    }

    /// A call on damaged bytes, which are put right after it.
    pub fn call_on_damaged(&mut self, now: &State) -> Call {
        if self.once_in(8) {
            self.begin()
        } else {
            self.call(now)
        }
    }

    pub fn call(&mut self, now: &State) -> Call {
        if !self.calm && self.once_in(250) {
            return self.begin();
        }
        let open = now.request.as_ref().is_some_and(|request| request.phase == Phase::Open);
        match self.below(100) {
            0..=4 => Call::Look,
            5..=8 => self.answer(now),
            9..=24 if open => self.answer(now),
            9..=11 => Call::TakeWrite,
            12..=24 if now.write.is_some() => Call::TakeWrite,
            25..=30 => self.set_wire(),
            31..=33 => self.read_wire(),
            34..=38 => self.set_line(now),
            39..=41 => Call::PulseLine { line: self.line(now) },
            _ => Call::Exchange { command: self.command(now) },
        }
    }

    fn set_wire(&mut self) -> Call {
        let index = match self.below(12) {
            0 => self.below(10) as u32,
            1 => self.pick(&[0x104, 0x8000_0005, u32::MAX, 4 + 64, 7, 2]),
            _ => 4 + self.below(3) as u32,
        };
        let value = match self.below(20) {
            0 => self.pick(&[2, 3, 0x100, 0x101, 0x8000_0001, u32::MAX]),
            _ => self.below(2) as u32,
        };
        Call::SetWire { index, bit: self.wire_bit(), value }
    }

    fn read_wire(&mut self) -> Call {
        let index = match self.below(12) {
            0 => self.below(10) as u32,
            1 => self.pick(&[0x104, 0x102, 0x8000_0005, u32::MAX, 2 + 64]),
            _ => 2 + self.below(6) as u32,
        };
        Call::ReadWire { index, bit: self.wire_bit() }
    }

    /// A line's number: a few lines at the edges come again and again, and those that wait; one in twelve is none.
    fn line(&mut self, now: &State) -> u32 {
        let waiting: Vec<usize> = (0..LINES).filter(|&line| now.lines[line].waits != Waits::Not).collect();
        match self.below(12) {
            0 => self.pick(&[256, 257, 511, 0x101, 0x8000_0001, u32::MAX]),
            1..=3 if !waiting.is_empty() => self.pick(&waiting) as u32,
            4..=8 => self.pick(&[0, 1, 7, 8, 127, 128, 130, 254, 255, 255]),
            _ => self.below(LINES) as u32,
        }
    }

    /// Mostly the other level.
    fn set_line(&mut self, now: &State) -> Call {
        let line = self.line(now);
        let high = now.lines.get(line as usize).is_some_and(|line| line.high);
        let level = match self.below(16) {
            0 => self.pick(&[2, 3, 0x100, 0x101, 0x8000_0001, u32::MAX]),
            1..=3 => u32::from(high),
            _ => u32::from(!high),
        };
        Call::SetLine { line, level }
    }

    fn wire_bit(&mut self) -> u32 {
        match self.below(16) {
            0 => self.pick(&[4, 5, 7, 8, 31, 32, 33, 0x100, 0x8000_0000, u32::MAX]),
            _ => self.below(4) as u32,
        }
    }

    /// Mostly the right serial and count, else a late or wrong serial, a wrong count, a failure with data.
    fn answer(&mut self, now: &State) -> Call {
        let serial = match self.below(10) {
            0 => now.serial.wrapping_sub(1 + self.below(3) as u32),
            1 => self.pick(&[0, 1, now.serial ^ 0x100, now.serial ^ 0x8000_0000, now.serial.wrapping_add(1)]),
            _ => now.serial,
        };
        let success = match self.below(8) {
            0 | 1 => 0,
            2 => self.pick(&[2, 0x100, 0x8000_0000, u32::MAX, 0x0001_0000]),
            _ => 1,
        };
        let length = match &now.request {
            Some(request) => request.length as usize,
            None => self.below(5),
        };
        let wanted = match &now.request {
            Some(request) if request.kind == Kind::IoWrite => 0,
            _ if success == 0 => 0,
            _ => length,
        };
        let count = match self.below(24) {
            0 => self.below(8),
            1 => wanted + 1,
            2 => wanted.saturating_sub(1),
            3 => length,
            4 if self.once_in(8) => self.below(4300),
            _ => wanted,
        };
        Call::Answer { serial, success, data: self.random.bytes(count) }
    }

    // ---- commands

    /// A command with its CRC byte, mostly well formed.
    fn command(&mut self, now: &State) -> Vec<u8> {
        let ready = now.request.as_ref().is_some_and(|request| request.phase != Phase::Open);
        let pending = now.something_waits();
        let likely = match self.below(10) {
            0..=4 if ready => Some(0x01),
            4 if now.edge_waits() => Some(0x22),
            5 | 9 if pending => Some(0x05),
            6 if !now.on0() => Some(0x22),
            7 if !now.on0() && now.on1() => Some(0x04),
            _ => None,
        };
        let mut command = match (likely, self.below(100)) {
            (Some(0x22), _) => self.set_configuration(now),
            (Some(0x04), _) => self.put_wires(now),
            (Some(opcode), _) => vec![opcode],
            (None, 0..=2) => vec![0x01],
            (None, 3..=22) => self.read(now),
            (None, 23..=32) => self.io_write(now),
            (None, 33..=48) => self.write(now),
            (None, 49..=51) => vec![0x05],
            (None, 52..=64) => self.put_wires(now),
            (None, 65..=73) => self.get_configuration(),
            (None, 74..=85) => self.set_configuration(now),
            (None, 86) => return self.reset(),
            (None, 87) => self.random.bytes(1),
            (None, 88..=90) => self.no_opcode(),
            (None, _) => vec![0x25],
        };
        // Damage under a right CRC.
        if self.once_in(20) {
            self.damage(&mut command);
        }
        let sum = crc(&command, 0);
        command.push(sum);
        // Damage that the CRC does not cover.
        match self.below(60) {
            0..=3 => {
                let last = command.len() - 1;
                command[last] ^= 1 << self.below(8);
            }
            4 => self.damage(&mut command),
            _ => {}
        }
        command
    }

    fn damage(&mut self, command: &mut Vec<u8>) {
        match self.below(8) {
            0 => command.truncate(self.below(command.len() + 1)),
            1 => command.truncate(1 + self.below(4)),
            2 => command.truncate(command.len().saturating_sub(1)),
            3 => command.push(self.random.byte()),
            4 => {
                let more = if self.once_in(20) { 5000 } else { 1 + self.below(6) };
                command.extend(self.random.bytes(more));
            }
            5 if command.len() > 1 => command[1] = self.random.byte(),
            6 if !command.is_empty() => command[0] = self.random.byte(),
            _ if !command.is_empty() => {
                let at = self.below(command.len());
                command[at] ^= 1 << self.below(8);
            }
            _ => {}
        }
    }

    /// Opcodes that are none, with bytes behind them as if they were.
    fn no_opcode(&mut self) -> Vec<u8> {
        const NEAR: [u8; 15] = [0x03, 0x06, 0x07, 0x08, 0x09, 0x0A, 0x0B, 0x20, 0x23, 0x24, 0x26, 0x3F, 0x50, 0x80, 0xFE];
        let opcode = if self.once_in(2) { self.pick(&[0x42, 0x46, 0x4A, 0x4E]) } else { self.pick(&NEAR) };
        let more = self.below(9);
        let mut command = vec![opcode];
        command.extend(self.random.bytes(more));
        command
    }

    /// FFh two or more times, or nearly so.
    fn reset(&mut self) -> Vec<u8> {
        let length = match self.below(8) {
            0 => 1,
            1 => 3 + self.below(8),
            2 => self.pick(&[16, 263, 4096, 20_000]),
            _ => 2,
        };
        let mut command = vec![0xFF; length];
        if self.once_in(3) {
            let at = self.below(length);
            command[at] ^= 1 << self.below(8);
        }
        command
    }

    /// An address whose place within a block of `block` bytes is `into`.
    fn address(&mut self, bits: u32, block: u32, into: u32) -> u64 {
        let all = if bits == 64 { u64::MAX } else { (1 << bits) - 1 };
        let base = match self.below(6) {
            0 => 0,
            1 => u64::MAX,
            2 => u64::MAX - 0xFFFF_FFFF,
            3 => 0x1000,
            _ => self.random.double(),
        };
        (base & !u64::from(block - 1) | u64::from(into % block)) & all
    }

    /// A place in the block and a length: mostly within it, often up to its edge or one past it.
    fn span(&mut self, block: u32) -> (u32, u32) {
        let into = match self.below(4) {
            0 => 0,
            1 => block - 1 - self.below(8) as u32,
            _ => self.below(block as usize) as u32,
        };
        let rest = block - into;
        match self.below(16) {
            0..=3 => (into, rest),
            4 => (into, rest + 1),
            5..=7 => (0, block),
            8 => (into, 1 + self.below(4096) as u32),
            9 => (self.below(4096) as u32, 1 + self.below(300) as u32),
            10 => (0, 4096),
            _ => (into, 1 + self.below(rest as usize) as u32),
        }
    }

    /// The place of a short access, often at an edge of either size.
    fn short_span(&mut self, now: &State) -> (u32, u32) {
        let block = self.pick(&[now.payload(), now.read_size(), 64, 4]);
        let into = match self.below(3) {
            0 => self.below(block as usize) as u32,
            _ => (block - self.below(5).min(block as usize) as u32) % block,
        };
        (block, into)
    }

    fn long_header(&mut self, opcode: u8, cycle: u8, length: u32, address: u64, address_bytes: usize) -> Vec<u8> {
        let tag = self.below(16) as u8;
        let mut command = vec![opcode, cycle, tag << 4 | (length >> 8 & 0x0F) as u8, length as u8];
        command.extend_from_slice(&address.to_be_bytes()[8 - address_bytes..]);
        if self.once_in(25) {
            command[1] = self.pick(&[0x00, 0x01, 0x02, 0x03, 0x04, 0x05, 0x06, 0x10, 0x11, 0x0F, 0x82]);
        }
        command
    }

    fn short_header(&mut self, opcode: u8, address: u64, address_bytes: usize) -> (Vec<u8>, usize) {
        let (code, size) = self.pick(&[(0, 1), (1, 2), (3, 4)]);
        let mut command = vec![opcode + code];
        command.extend_from_slice(&address.to_be_bytes()[8 - address_bytes..]);
        (command, size)
    }

    /// PUT_PC or a short memory write.
    fn write(&mut self, now: &State) -> Vec<u8> {
        if self.once_in(2) {
            let (block, into) = self.short_span(now);
            let address = self.address(32, block, into);
            let (mut command, size) = self.short_header(0x4C, address, 4);
            command.extend(self.random.bytes(size));
            return command;
        }
        let (into, mut length) = self.span(now.payload());
        if length > 600 && !self.once_in(8) {
            length = 1 + length % 300;
        }
        let (cycle, bytes) = self.pick(&[(0x01, 4), (0x03, 8)]);
        let address = self.address(8 * bytes as u32, 4096, into);
        let mut command = self.long_header(0x00, cycle, length, address, bytes);
        command.extend(self.random.bytes(length.min(4096) as usize));
        command
    }

    /// PUT_NP, a short memory read or an I/O read.
    fn read(&mut self, now: &State) -> Vec<u8> {
        match self.below(4) {
            0 => {
                let (block, into) = self.short_span(now);
                let address = self.address(16, block, into);
                self.short_header(0x40, address, 2).0
            }
            1 => {
                let (block, into) = self.short_span(now);
                let address = self.address(32, block, into);
                self.short_header(0x48, address, 4).0
            }
            _ => {
                let (into, length) = self.span(now.read_size());
                let (cycle, bytes) = self.pick(&[(0x00, 4), (0x02, 8)]);
                let address = self.address(8 * bytes as u32, 4096, into);
                self.long_header(0x02, cycle, length, address, bytes)
            }
        }
    }

    fn io_write(&mut self, now: &State) -> Vec<u8> {
        let (block, into) = self.short_span(now);
        let address = self.address(16, block, into);
        let (mut command, size) = self.short_header(0x44, address, 2);
        command.extend(self.random.bytes(size));
        command
    }

    /// Mostly no wire has a third transition; now and then one has, in the last pair or anywhere, or more of them. The bits
    /// that do not count come as they are. Wires change with every pair or seldom, so that the last pairs of a long packet
    /// still do something; in one packet of four one wire takes the other value with nearly every pair.
    fn put_wires(&mut self, now: &State) -> Vec<u8> {
        let limit = now.operating_count();
        let count = match self.below(10) {
            0 => limit + 1,
            1 => limit,
            2 => 1 + self.below(64),
            3..=7 if limit >= 63 => 64,
            _ => 1 + self.below(limit),
        };
        let ignored = self.pick(&[0x00, 0x00, 0x40, 0x80, 0xC0]);
        let mut command = vec![0x04, (count - 1) as u8 & 0x3F | ignored];
        let most = self.pick(&[2, 2, 2, 2, 2, 3, 64]);
        let most_at_last = self.pick(&[2, 2, 3]).max(most);
        let seldom = self.pick(&[1, 1 + count / 4]);
        let swings = self.once_in(4);
        let (swung, swung_bit) = (self.pick(&[2, 2, 3, 3, 7, 7, 4, 5, 6]), self.below(4));
        let mut packet = Packet { levels: now.levels, changes: [[0; 4]; 6] };
        for at in 1..=count {
            let mut data = self.random.byte();
            let index = match self.below(6) {
                0 => self.pick(&[0, 1, 4, 5, 6, 8, 64, 128 + 2, 255]),
                1..=4 if swings => swung,
                _ => self.pick(&[2, 3, 7]),
            };
            if let Some(row) = usize::from(index).checked_sub(FIRST_GROUP).filter(|&row| row < GROUPS.len()) {
                if swings && index == swung {
                    let value = packet.levels[row] >> swung_bit & 1 ^ 1;
                    data = data & !(0x11 << swung_bit) | (0x10 | value) << swung_bit;
                }
                data = if at == count {
                    packet.calmed(row, data, most_at_last, || false)
                } else {
                    packet.calmed(row, data, most, || !self.random.once_in(seldom))
                };
            }
            command.extend([index, data]);
        }
        self.lead_pltrst(now, &mut command[2..]);
        command
    }

    /// In half of the packets, and in all of calm times, PLTRST# takes a course of its own, and no other pair names it (02, Q-1).
    /// Mostly it rises where it is low. Where it is high it may swing and come back; it falls seldom, in calm times never, and
    /// more often where that is rare: a completion is ready, channel 0 is off, the packet is the longest.
    fn lead_pltrst(&mut self, now: &State, pairs: &mut [u8]) {
        let ready = now.request.as_ref().is_some_and(|request| request.phase != Phase::Open);
        let longest = pairs.len() == 2 * 64;
        let rare = ready || !now.on0() || longest;
        if !self.calm && !rare && self.once_in(2) {
            return;
        }
        let high = now.levels[3 - FIRST_GROUP] & 0x02 != 0;
        let falls = high && !self.calm && self.once_in(if rare { 2 } else { 5 });
        let courses: &[&[u8]] = match (high, falls) {
            (false, _) => &[&[1], &[1], &[1], &[0, 1], &[1, 0], &[1, 0], &[1, 0, 1], &[0], &[]],
            (true, false) => &[&[0, 1], &[1, 0, 1], &[1], &[]],
            (true, true) => &[&[0], &[0], &[1, 0], &[0, 0], &[0, 1, 0]],
        };
        let course = self.pick(courses);
        let count = pairs.len() / 2;
        // Its end stays where the packet is too short for all of it.
        let mut values = &course[course.len().saturating_sub(count)..];
        let from = if longest || self.once_in(3) { count - values.len() } else { 0 };
        for (at, pair) in pairs.chunks_exact_mut(2).enumerate() {
            if pair[0] == 3 {
                pair[1] &= !0x20;
            }
            if at < from || self.below(count - at) >= values.len() {
                continue;
            }
            if pair[0] != 3 {
                pair.copy_from_slice(&[3, if self.once_in(2) { self.random.byte() } else { 0 }]);
            }
            pair[1] = pair[1] & !0x02 | 0x20 | values[0] << 1;
            values = &values[1..];
        }
    }

    /// An operating count less one: mostly a few groups, seldom any count, and often enough the greatest ones.
    fn count_code(&mut self) -> u32 {
        match self.below(8) {
            0 => self.below(64) as u32,
            1 => self.pick(&[7, 8, 31, 32, 62, 62, 63, 63, 63, 63]),
            _ => self.pick(&[0, 0, 1, 1, 2, 3, 7]),
        }
    }

    fn register_address(&mut self) -> u16 {
        let address =
            self.pick(&[0x004, 0x008, 0x008, 0x010, 0x010, 0x010, 0x020, 0x020, 0x020, 0x000, 0x00C, 0x014, 0x030, 0x040, 0x810, 0xFFC]);
        match self.below(6) {
            0 => address | (self.random.word() & 0xF003) as u16,
            _ => address,
        }
    }

    fn get_configuration(&mut self) -> Vec<u8> {
        let [high, low] = self.register_address().to_be_bytes();
        vec![0x21, high, low]
    }

    /// A write that mostly asks for legal values, with any value in the bits that it cannot write.
    fn set_configuration(&mut self, now: &State) -> Vec<u8> {
        let mut address = self.register_address();
        if !now.on0() && self.once_in(2) {
            address = 0x010;
        }
        // With lines waiting 020h is asked for a count of 1 more often.
        let lines_wait = now.line_waits() && self.once_in(3);
        if lines_wait {
            address = 0x020;
        }
        let other = match self.below(3) {
            0 => 0,
            1 => u32::MAX,
            _ => self.random.word(),
        };
        let data = match address & 0x0FFC {
            0x008 => {
                let mode = if self.once_in(12) { 3 } else { self.below(3) as u32 };
                let frequency = if self.once_in(12) { 5 + self.below(3) as u32 } else { self.below(5) as u32 };
                other & !0x8C70_0000 | (self.below(2) as u32) << 31 | mode << 26 | frequency << 20
            }
            0x010 => {
                let read = if self.once_in(12) { 0 } else { self.pick(&[1, 2, 3, 4, 5, 6, 7, 7, 7]) };
                let payload = if self.once_in(10) { self.pick(&[0, 4, 5, 6, 7]) } else { self.pick(&[1, 1, 2, 3]) };
                let enable = u32::from(self.calm || !self.once_in(8));
                other & !0x7701 | read << 12 | payload << 8 | enable
            }
            0x020 => {
                let count = if lines_wait && self.once_in(2) { 0 } else { self.count_code() };
                let enable = u32::from(if now.on1() { !self.once_in(6) } else { self.once_in(2) });
                other & !0x003F_0001 | count << 16 | enable
            }
            _ => other,
        };
        let [high, low] = address.to_be_bytes();
        let mut command = vec![0x22, high, low];
        command.extend_from_slice(&data.to_le_bytes());
        command
    }

    // ---- states

    /// Any sound state, mostly with something held.
    pub fn sound_state(&mut self) -> State {
        let mut state = State::fresh();
        loop {
            state.general = GENERAL.reset ^ self.random.word() & GENERAL.writable;
            if !forbidden(0x008, state.general, 0) {
                break;
            }
        }
        loop {
            let value = CHANNEL_0.reset ^ self.random.word() & CHANNEL_0.writable;
            let enable = if self.once_in(8) { 0 } else { ENABLE | READY };
            state.channel0 = value & !(ENABLE | READY) | enable;
            if !forbidden(0x010, state.channel0, 0) {
                break;
            }
        }
        let enable = if self.once_in(3) { 0 } else { ENABLE | READY };
        state.channel1 = CHANNEL_1.reset | self.count_code() << 16 | enable;
        state.serial = self.pick(&[0, 1, 2, 0xFFFF_FFFE, u32::MAX, 0x7FFF_FFFF, 0x0001_0000]);
        for (row, group) in GROUPS.iter().enumerate() {
            state.levels[row] = if self.once_in(3) { group.reset } else { self.random.byte() & group.defined };
            state.pending[row] = group.up && state.on1() && self.once_in(2);
        }
        self.put_lines(&mut state);
        if state.on0() {
            if self.once_in(2) {
                state.write = Some(self.held_write());
            }
            if !self.once_in(4) {
                state.request = Some(self.held_request());
            }
        }
        state
    }

    /// Lines and a place: in half of the states no line is high or waits; else a few are, or all, or any.
    fn put_lines(&mut self, state: &mut State) {
        let (on, two_fit) = (state.on1(), state.operating_count() > 1);
        let one_in = self.pick(&[0, 0, 0, 0, 1, 2, 16, 64, 128]);
        let all_high = self.once_in(if on { 4 } else { 2 });
        let waits = self.pick(&[&[Waits::Level][..], &[Waits::Edge], &[Waits::Not, Waits::Level, Waits::Edge]]);
        for line in &mut state.lines {
            let taken = one_in > 0 && self.random.once_in(one_in);
            let waits = match self.random.pick(waits) {
                Waits::Edge if on && !two_fit => Waits::Level,
                waits if on => waits,
                _ => Waits::Not,
            };
            if taken {
                *line = Line { high: self.random.once_in(2), waits };
            }
            line.high |= all_high && one_in > 0;
        }
        state.place = match self.below(4) {
            0 => Sender::Line(self.below(LINES)),
            1 => self.pick(&[Sender::Line(0), Sender::Line(127), Sender::Line(128), Sender::Line(254), Sender::Line(255)]),
            _ => self.pick(&[Sender::Group(4), Sender::Group(5), Sender::Group(6), Sender::Group(6)]),
        };
    }

    fn held_write(&mut self) -> Write {
        let payload = self.pick(&[64, 128, 256]);
        let into = self.below(payload as usize) as u32;
        let length = 1 + self.below((payload - into) as usize) as u32;
        Write { address: self.address(64, payload, into), length, payload }
    }

    fn held_request(&mut self) -> Request {
        let kind = self.pick(&[Kind::MemoryRead, Kind::MemoryRead, Kind::IoRead, Kind::IoWrite]);
        let payload = self.pick(&[64, 128, 256]);
        let read_size = self.pick(&[64, 128, 256, 512, 1024, 2048, 4096]);
        let (address, length) = match kind {
            Kind::MemoryRead => {
                let into = if self.once_in(3) { 0 } else { self.below(read_size as usize) as u32 };
                let length = if self.once_in(3) { read_size - into } else { 1 + self.below((read_size - into) as usize) as u32 };
                (self.address(64, read_size, into), length)
            }
            Kind::IoRead | Kind::IoWrite => loop {
                let block = if kind == Kind::IoWrite { payload } else { read_size };
                let edge = self.pick(&[payload, block]);
                let into = (edge - self.below(5) as u32) % edge;
                let address = self.address(16, edge, into);
                let length = self.pick(&[1, 2, 4]);
                if within(address, length, block) {
                    break (address, length);
                }
            },
        };
        let phase = self.pick(&[Phase::Open, Phase::Success, Phase::Success, Phase::Failure]);
        let bytes = match kind {
            Kind::IoWrite if length == 4 => self.random.word(),
            Kind::IoWrite => self.random.word() & ((1 << (8 * length)) - 1),
            _ => 0,
        };
        let tag = if kind == Kind::MemoryRead { self.below(16) as u8 } else { 0 };
        let mut request = Request { phase, kind, tag, address, length, payload, read_size, bytes, sent: 0 };
        if phase == Phase::Success && kind != Kind::IoWrite {
            request.sent = self.an_edge(&request).unwrap_or(0);
        }
        request
    }

    /// Some count of bytes sent that ends at a piece's edge, short of the whole, if there is one above 0.
    fn an_edge(&mut self, request: &Request) -> Option<u32> {
        let first = rest_of_block(request.address, request.payload);
        if first >= request.length || request.payload == 0 {
            return None;
        }
        let edges = (request.length - 1 - first) / request.payload + 1;
        Some(first + request.payload * self.below(edges as usize) as u32)
    }

    /// State bytes that are damaged, or nearly: bits flipped, or one or two fields at the edge of what is sound.
    pub fn damaged_bytes(&mut self, now: &State) -> [u8; STATE_LEN] {
        let mut state = if self.once_in(4) { now.clone() } else { self.sound_state() };
        let mut bytes = [0; STATE_LEN];
        let (fields, places) = self.pick(&[(1, 0), (1, 0), (1, 0), (0, 1), (0, 1), (0, 1), (2, 0), (1, 1), (0, 2)]);
        for _ in 0..fields {
            self.bend(&mut state);
        }
        pack(&state, &mut bytes);
        for _ in 0..places {
            self.bend_bytes(&mut bytes);
        }
        bytes
    }

    /// A change of one field of the state's bytes.
    fn bend_bytes(&mut self, bytes: &mut [u8; STATE_LEN]) {
        match self.below(14) {
            0 | 1 => {
                let at = self.below(LINE_LEVELS);
                bytes[at] ^= 1 << self.below(8);
            }
            2 => {
                let at = self.below(LINE_LEVELS);
                bytes[at] = self.random.byte();
            }
            3 => bytes[12] = self.pick(&[0, 1, 2, 0x81, 0xFF]),
            4 => bytes[29] = self.pick(&[0, 1, 2, 3, 4, 5, 0xFF]),
            5 => bytes[30] = self.pick(&[0, 1, 2, 3, 4, 0x82, 0xFF]),
            6 => {
                let at = 13 + self.below(16);
                bytes[at] = bytes[at].wrapping_add(1);
            }
            7 => {
                let at = 30 + self.below(30);
                bytes[at] = bytes[at].wrapping_add(1);
            }
            8 => {
                let at = 64 + self.below(6);
                bytes[at] ^= self.pick(&[1, 2, 4, 8, 0x10, 0x80]);
            }
            9 => {
                let at = 70 + self.below(6);
                bytes[at] = self.pick(&[0, 1, 2, 0xFF]);
            }
            10 => {
                let place = self.pick(&[0_u16, 1, 255, 256, 257, 258, 259, 259, 260, 0x204, 0xFF00, u16::MAX]);
                bytes[76..78].copy_from_slice(&place.to_le_bytes());
            }
            11 | 12 => {
                // One line's bit of the levels, what waits or the edges; the first and the last byte of a map more often.
                let map = self.pick(&[LINE_LEVELS, LINE_WAITS, LINE_WAITS, LINE_EDGES, LINE_EDGES]);
                let at = if self.once_in(2) { self.pick(&[0, 7, 8, 31]) } else { self.below(LINES / 8) };
                bytes[map + at] ^= 1 << self.below(8);
            }
            _ => {
                let at = self.below(12);
                bytes[at] ^= 1 << self.below(8);
            }
        }
    }

    /// A change of one field of the state to something at the edge of what is sound.
    fn bend(&mut self, state: &mut State) {
        match self.below(4) {
            0 => self.bend_registers(state),
            1 if state.write.is_some() => self.bend_write(state),
            _ if state.request.is_some() => self.bend_request(state),
            _ => self.bend_registers(state),
        }
    }

    fn bend_registers(&mut self, state: &mut State) {
        match self.below(12) {
            0 => state.channel0 ^= ENABLE,
            1 => state.channel0 ^= READY,
            2 => state.channel0 ^= ENABLE | READY,
            3 => state.channel1 ^= ENABLE,
            4 => state.channel1 ^= READY,
            5 => state.channel1 ^= ENABLE | READY,
            6 => state.channel0 = state.channel0 & !0x7000 | self.pick(&[0, 1, 7]) << 12,
            7 => state.channel0 = state.channel0 & !0x0700 | self.pick(&[0, 1, 3, 4, 7]) << 8,
            // What an engine packed that advertised 8 groups.
            8 => state.channel1 &= !0x3800,
            9 => state.channel1 = state.channel1 & !0x003F_0000 | self.pick(&[0, 0, 1]) << 16,
            10 => state.general = state.general & !0x0C00_0000 | self.pick(&[2, 3]) << 26,
            _ => state.general = state.general & !0x0070_0000 | self.pick(&[4, 5, 6, 7]) << 20,
        }
    }

    fn bend_write(&mut self, state: &mut State) {
        let Some(write) = state.write.as_mut() else {
            return;
        };
        let rest = rest_of_block(write.address, write.payload);
        match self.random.below(5) {
            0 => write.length = self.random.pick(&[0, 0, rest, rest + 1, write.payload, write.payload + 1, 0x0100_0001]),
            1 => write.payload = self.random.pick(&[0, 32, 64, 65, 128, 256, 257, 258, 512, 0x0100_0040]),
            2 => {
                // A size that is not legal and holds the write all the same.
                write.payload = self.random.pick(&[32, 257, 258, 512]);
                write.length = 1 + self.random.below(16) as u32;
                write.address &= !63;
            }
            3 => write.address = self.random.double(),
            _ => write.address = write.address.wrapping_add(1),
        }
    }

    fn bend_request(&mut self, state: &mut State) {
        let Some(mut request) = state.request else {
            return;
        };
        let block = if request.kind == Kind::IoWrite { request.payload } else { request.read_size };
        let rest = rest_of_block(request.address, block);
        let length = request.length;
        match self.below(14) {
            0 => request.phase = self.pick(&[Phase::Open, Phase::Success, Phase::Failure]),
            1 => request.kind = self.pick(&[Kind::MemoryRead, Kind::IoRead, Kind::IoWrite]),
            2 => request.tag = self.pick(&[0, 1, 15, 16, 0xFF]),
            3 => request.address = self.pick(&[0x1_0000, 0xFFFF, 0xFFFF_0000, request.address & 0xFFFF | 1 << 40]),
            4 => request.address = request.address.wrapping_add(1),
            5 if request.kind == Kind::MemoryRead => {
                request.length = self.pick(&[0, 0, rest, rest + 1, block, block + 1, 4096, 4097, 0x0100_0001]);
                request.sent = 0;
            }
            5 => request.length = self.pick(&[0, 1, 2, 3, 3, 3, 4, 5, 8, 0x0100_0001]),
            6 => request.payload = self.pick(&[0, 32, 64, 96, 128, 256, 257, 258, 512, 0x0100_0040]),
            7 => request.read_size = self.pick(&[0, 32, 64, 96, 128, 4096, 4097, 8192, 0x0100_0040]),
            8 => request.bytes = self.pick(&[1, 0x100, 0x1_0000, 0x0100_0000]),
            9 => request.bytes ^= 1 << self.below(32),
            10 => {
                // Bytes sent at an edge, whatever the phase and kind.
                if let Some(edge) = self.an_edge(&request) {
                    request.sent = edge;
                }
            }
            11 => {
                request.sent = self.pick(&[
                    1,
                    length,
                    length.wrapping_sub(1),
                    length + 1,
                    request.payload,
                    request.sent ^ 1,
                    request.sent ^ 0x0100_0000,
                ])
            }
            12 => {
                // A length such that all bytes sent end at an edge.
                if let Some(edge) = self.an_edge(&request) {
                    request.length = edge;
                    request.sent = edge;
                }
            }
            _ => {
                // Sizes that are not legal and hold the request all the same.
                let size = self.pick(&[32, 257, 258, 512, 4097, 8192]);
                if self.once_in(2) {
                    request.payload = size;
                } else {
                    request.read_size = size;
                }
                request.address &= 0xFFC0;
                request.length = self.pick(&[1, 2, 4]);
                request.sent = 0;
                request.bytes &= 0xFF;
            }
        }
        state.request = Some(request);
    }
}

/// The bytes from an address to the end of its block.
fn rest_of_block(address: u64, block: u32) -> u32 {
    block - address.checked_rem(u64::from(block)).unwrap_or(0) as u32
}
