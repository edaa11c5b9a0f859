//! Document 01 as eleven calls over byte slices, as include/espi.h describes them.
use crate::fault;
use crate::state::{
    forbidden, pack, unpack, within, Kind, Line, Phase, Register, Request, Sender, State, Waits, Write, CHANNEL_0, CHANNEL_1, ENABLE,
    FIRST_GROUP, GENERAL, GROUPS, IDENTIFICATION, LINES, READY, STATE_LEN,
};

pub const REPLY_LEN: usize = 263;
pub const WRITE_STORE_LEN: usize = 256;
pub const READ_STORE_LEN: usize = 4096;
pub const LOOK_REPORT_LEN: usize = 19;
pub const TAKE_REPORT_LEN: usize = 10;

/// The numbers of 01's table (Replies and refusals).
pub const OK: u32 = 0;
pub const FATAL: u32 = 1;
pub const FORBIDDEN: u32 = 2;
pub const SHORT_STORE: u32 = 10;
pub const NOT_SOUND: u32 = 11;
pub const BAD_LENGTH: u32 = 12;
pub const BAD_OPCODE: u32 = 13;
pub const CHANNEL_OFF: u32 = 14;
pub const BAD_CYCLE: u32 = 15;
pub const BAD_CRC: u32 = 16;
pub const NO_REQUEST: u32 = 20;
pub const BAD_COUNT: u32 = 21;
pub const BAD_WIRE: u32 = 22;
pub const NOTHING: u32 = 23;
pub const NOT_NOW: u32 = 24;

/// The eleven calls. Each returns a word: bits 7:0 its number, bits 31:8 its value.
pub trait Calls {
    fn start(&mut self, state: &mut [u8]) -> u32;
    fn reset(&mut self, state: &mut [u8]) -> u32;
    fn platform_reset(&mut self, state: &mut [u8]) -> u32;
    fn exchange(&mut self, state: &mut [u8], command: &[u8], reply: &mut [u8], write_store: &mut [u8], read_store: &[u8]) -> u32;
    fn look(&mut self, state: &[u8], report: &mut [u8]) -> u32;
    fn answer(&mut self, state: &mut [u8], read_store: &mut [u8], serial: u32, success: u32, data: &[u8]) -> u32;
    fn take_write(&mut self, state: &mut [u8], write_store: &[u8], report: &mut [u8]) -> u32;
    fn set_wire(&mut self, state: &mut [u8], index: u32, bit: u32, value: u32) -> u32;
    fn read_wire(&mut self, state: &[u8], index: u32, bit: u32) -> u32;
    fn set_line(&mut self, state: &mut [u8], line: u32, level: u32) -> u32;
    fn pulse_line(&mut self, state: &mut [u8], line: u32) -> u32;
}

/// CRC-8, polynomial 07h, bit 7 first (01, Commands). The seed is 00h.
pub fn crc(bytes: &[u8], seed: u8) -> u8 {
    bytes.iter().fold(seed, |sum, &byte| CRC_OF[usize::from(sum ^ byte)])
}

const CRC_OF: [u8; 256] = {
    let mut table = [0; 256];
    let mut at = 0;
    while at < 256 {
        let mut rest = at as u8;
        let mut bit = 0;
        while bit < 8 {
            rest = if rest & 0x80 != 0 { rest << 1 ^ 0x07 } else { rest << 1 };
            bit += 1;
        }
        table[at] = rest;
        at += 1;
    }
    table
};

/// Which short access (01, Commands).
#[derive(Clone, Copy, PartialEq, Eq)]
enum Access {
    IoRead,
    IoWrite,
    MemoryRead,
    MemoryWrite,
}

#[derive(Clone, Copy, PartialEq, Eq)]
enum Opcode {
    PutPc,
    GetPc,
    PutNp,
    PutVwire,
    GetVwire,
    GetConfiguration,
    SetConfiguration,
    GetStatus,
    Short(Access, usize),
}

/// A command with everything that decides it.
enum Command<'a> {
    Reset,
    Write { address: u64, data: &'a [u8] },
    Request { kind: Kind, short: bool, tag: u8, address: u64, length: u32, bytes: &'a [u8] },
    GetPc,
    PutVwire { pairs: &'a [u8] },
    GetVwire,
    GetConfiguration { address: u16 },
    SetConfiguration { address: u16, data: u32 },
    GetStatus,
}

/// The responses of an exchange that is not refused (01, Replies and refusals).
const ACCEPT: u8 = 0x08;
const DEFER: u8 = 0x01;

/// How an exchange ends without being accepted.
enum Refusal {
    Silent(u32),
    Error(u32),
}

/// The engine, with the knob for a deliberate fault (0: none).
#[derive(Clone, Copy, Default)]
pub struct Engine {
    pub fault: u32,
}

impl Engine {
    fn wrong(&self, fault: u32) -> bool {
        self.fault == fault
    }

    /// The beginning of every call but start: 10 for a short store, then 11 for bytes that pack no sound state.
    fn open(&self, state: &[u8], stores: &[(usize, usize)]) -> Result<State, u32> {
        let short = state.len() < STATE_LEN || stores.iter().any(|&(lent, needed)| lent < needed);
        if self.wrong(fault::SOUND_BEFORE_STORES) && state.len() >= STATE_LEN {
            unpack(state, self.fault).ok_or(NOT_SOUND)?;
        }
        if short {
            return Err(SHORT_STORE);
        }
        unpack(state, self.fault).ok_or(NOT_SOUND)
    }

    // ---- decoding (01, Commands; the order of numbers is 01's, Replies and refusals)

    fn opcode(&self, byte: u8) -> Option<Opcode> {
        Some(match byte {
            0x00 => Opcode::PutPc,
            0x01 => Opcode::GetPc,
            0x02 => Opcode::PutNp,
            0x04 => Opcode::PutVwire,
            0x05 => Opcode::GetVwire,
            0x21 => Opcode::GetConfiguration,
            0x22 => Opcode::SetConfiguration,
            0x25 => Opcode::GetStatus,
            0x40..=0x4F => {
                let access = match byte >> 2 & 3 {
                    0 => Access::IoRead,
                    1 => Access::IoWrite,
                    2 => Access::MemoryRead,
                    _ => Access::MemoryWrite,
                };
                match byte & 3 {
                    0 => Opcode::Short(access, 1),
                    1 => Opcode::Short(access, 2),
                    3 => Opcode::Short(access, 4),
                    _ if self.wrong(fault::SHORT_SIZE_3) => Opcode::Short(access, 3),
                    _ => return None,
                }
            }
            _ => return None,
        })
    }

    /// 14: the opcode's channel is disabled.
    fn channel_off(&self, now: &State, opcode: Opcode) -> bool {
        match opcode {
            Opcode::PutPc | Opcode::GetPc | Opcode::PutNp | Opcode::Short(..) => !now.on0(),
            Opcode::PutVwire | Opcode::GetVwire => !now.on1(),
            Opcode::GetConfiguration | Opcode::SetConfiguration | Opcode::GetStatus => false,
        }
    }

    fn decode<'a>(&self, now: &State, command: &'a [u8]) -> Result<Command<'a>, u32> {
        let Some(&first) = command.first() else {
            return Err(BAD_LENGTH);
        };
        if first == 0xFF {
            // RESET: two or more bytes, all FFh; no CRC, no reply.
            let looked_at = if self.wrong(fault::RESET_PREFIX) { &command[..command.len().min(2)] } else { command };
            let long_enough = command.len() >= if self.wrong(fault::RESET_ONE) { 1 } else { 2 };
            let too_long = self.wrong(fault::RESET_TWO_ONLY) && command.len() > 2;
            let reset = long_enough && !too_long && looked_at.iter().all(|&byte| byte == 0xFF);
            return if reset { Ok(Command::Reset) } else { Err(BAD_OPCODE) };
        }
        if self.wrong(fault::CHANNEL_BEFORE_OPCODE) && first == 0x42 && !now.on0() {
            return Err(CHANNEL_OFF);
        }
        let opcode = self.opcode(first).ok_or(BAD_OPCODE)?;
        let off = self.channel_off(now, opcode);
        if off && !self.wrong(fault::CHANNEL_AFTER_LENGTH) {
            return Err(CHANNEL_OFF);
        }
        let (header, data) = self.lengths(opcode, command)?;
        let end = header + data;
        if self.wrong(fault::CRC_BEFORE_LENGTH) {
            self.check_crc(now, command)?;
        }
        if command.len() != end + 1 {
            return Err(BAD_LENGTH);
        }
        if off {
            return Err(CHANNEL_OFF); // reached only under the fault
        }
        let decoded = self.command(opcode, command, header, end);
        let too_early = match decoded {
            Command::GetPc => self.wrong(fault::CREDIT_BEFORE_CRC) && now.request.is_none(),
            Command::SetConfiguration { address, data } => self.wrong(fault::FORBIDDEN_BEFORE_CRC) && forbidden(address, data, fault::NONE),
            _ => false,
        };
        if !too_early {
            self.check_crc(now, command)?;
        }
        Ok(decoded)
    }

    /// The lengths of header and data without the CRC byte: 12 for a missing header byte, 15 for an unlisted cycle type.
    fn lengths(&self, opcode: Opcode, command: &[u8]) -> Result<(usize, usize), u32> {
        let header_byte = |at: usize| command.get(at).copied().ok_or(BAD_LENGTH);
        Ok(match opcode {
            Opcode::PutPc | Opcode::PutNp => {
                let cycle = header_byte(1)?;
                if self.wrong(fault::CYCLE_AFTER_LENGTH) && command.len() < 9 {
                    return Err(BAD_LENGTH);
                }
                let address = match (opcode, cycle) {
                    (Opcode::PutPc, 0x01) => 4,
                    (Opcode::PutPc, 0x03) => 8,
                    (Opcode::PutNp, 0x00) => 4,
                    (Opcode::PutNp, 0x02) if !self.wrong(fault::READ_64_UNKNOWN) => 8,
                    (Opcode::PutNp, 0x01) if self.wrong(fault::WRITE_TYPE_FOR_READ) => 4,
                    _ => return Err(BAD_CYCLE),
                };
                let length = self.length(header_byte(2)?, header_byte(3)?);
                (4 + address, if opcode == Opcode::PutPc { length } else { 0 })
            }
            Opcode::PutVwire => (2, 2 * self.wire_count(header_byte(1)?)),
            Opcode::GetPc | Opcode::GetVwire | Opcode::GetStatus => (1, 0),
            Opcode::GetConfiguration => (3, 0),
            Opcode::SetConfiguration => (3, 4),
            Opcode::Short(Access::IoRead, _) => (3, 0),
            Opcode::Short(Access::IoWrite, size) => (3, size),
            Opcode::Short(Access::MemoryRead, _) => (5, 0),
            Opcode::Short(Access::MemoryWrite, size) => (5, size),
        })
    }

    /// Length bits 11:8 stand beside the tag; length 0 means 4,096.
    fn length(&self, tagged: u8, low: u8) -> usize {
        let high = if self.wrong(fault::LENGTH_8_BITS) { 0 } else { usize::from(tagged & 0x0F) };
        match high << 8 | usize::from(low) {
            0 if !self.wrong(fault::LENGTH_ZERO) => 4096,
            length => length,
        }
    }

    /// The group count less one stands in the low six bits; bits 7:6 are ignored.
    fn wire_count(&self, byte: u8) -> usize {
        let bits = match self.fault {
            fault::COUNT_BITS => 0xFF,
            fault::COUNT_5_BITS => 0x1F,
            _ => 0x3F,
        };
        usize::from(byte & bits) + 1
    }

    /// 16: the last byte is not the CRC of all before it, while CRCs are checked.
    fn check_crc(&self, now: &State, command: &[u8]) -> Result<(), u32> {
        let Some((&last, before)) = command.split_last() else {
            return Ok(());
        };
        let mut checked = now.crc_checked();
        if self.wrong(fault::CRC_ALWAYS) {
            checked = true;
        }
        if self.wrong(fault::CRC_UNCHECKED) {
            checked = false;
        }
        if self.wrong(fault::CRC_NEW_RULE) && command.len() == 8 && command[..3] == [0x22, 0x00, 0x08] {
            checked = command[6] & 0x80 != 0;
        }
        let wrong = match before.len() {
            0..=2 => fault::CHECK_1,
            3 => fault::CHECK_3,
            4..=7 => fault::CHECK_4,
            8..=16 => fault::CHECK_8,
            _ => fault::CHECK_17,
        };
        if checked && crc(before, 0x00) ^ u8::from(self.wrong(wrong)) != last {
            return Err(BAD_CRC);
        }
        Ok(())
    }

    /// The command in bytes of the right length: header up to `header`, data up to `end`, then the CRC.
    fn command<'a>(&self, opcode: Opcode, command: &'a [u8], header: usize, end: usize) -> Command<'a> {
        let high_first = |bytes: &[u8]| bytes.iter().fold(0, |sum, &byte| sum << 8 | u64::from(byte));
        let data = &command[header..end];
        match opcode {
            Opcode::PutPc => Command::Write { address: high_first(&command[4..header]), data },
            Opcode::PutNp => Command::Request {
                kind: Kind::MemoryRead,
                short: false,
                tag: command[2] >> 4,
                address: high_first(&command[4..header]),
                length: self.length(command[2], command[3]) as u32,
                bytes: &[],
            },
            Opcode::Short(access, size) => {
                let mut address = high_first(&command[1..header]);
                if self.wrong(fault::ADDRESS_LOW_FIRST) {
                    address = address.swap_bytes() >> (64 - 8 * (header - 1));
                }
                // Tag 0. An I/O write is non-posted.
                let request = |kind| Command::Request { kind, short: true, tag: 0, address, length: size as u32, bytes: data };
                match access {
                    Access::IoRead => request(Kind::IoRead),
                    Access::IoWrite => request(Kind::IoWrite),
                    Access::MemoryRead => request(Kind::MemoryRead),
                    Access::MemoryWrite => Command::Write { address, data },
                }
            }
            Opcode::GetPc => Command::GetPc,
            Opcode::PutVwire => Command::PutVwire { pairs: data },
            Opcode::GetVwire => Command::GetVwire,
            Opcode::GetConfiguration => Command::GetConfiguration { address: self.register_address(command) },
            Opcode::SetConfiguration => {
                let data = u32::from_le_bytes([data[0], data[1], data[2], data[3]]);
                Command::SetConfiguration { address: self.register_address(command), data }
            }
            Opcode::GetStatus => Command::GetStatus,
        }
    }

    /// Address bits 1:0 and 15:12 are ignored.
    fn register_address(&self, command: &[u8]) -> u16 {
        let mut read = 0x0FFC;
        if self.wrong(fault::REGISTER_BITS_HIGH) {
            read |= 0xF000;
        }
        if self.wrong(fault::REGISTER_BITS_LOW) {
            read |= 0x0003;
        }
        u16::from_be_bytes([command[1], command[2]]) & read
    }

    // ---- replies (01, Replies and refusals; status: Registers and status)

    fn status(&self, now: &State) -> u16 {
        let answered = now.request.as_ref().is_some_and(|request| request.phase != Phase::Open);
        let np_free = now.request.is_none() || (self.wrong(fault::NP_FREE_AT_ANSWER) && answered);
        let mut pc_avail = answered;
        if self.wrong(fault::PC_AVAIL_AT_REQUEST) {
            pc_avail = now.request.is_some();
        }
        if self.wrong(fault::PC_AVAIL_ON_SUCCESS) {
            pc_avail = now.request.as_ref().is_some_and(|request| request.phase == Phase::Success);
        }
        let vwire_free = !self.wrong(fault::VWIRE_FREE_OFF) || now.on1();
        let vwire_avail = now.pending.contains(&true) || now.line_waits() && !self.wrong(fault::VWIRE_AVAIL_GROUPS);
        u16::from(now.write.is_none())
            | u16::from(np_free) << 1
            | u16::from(vwire_free) << 2
            | u16::from(pc_avail) << 4
            | u16::from(vwire_avail) << 6
    }

    /// Completes a reply whose body of `body` bytes already stands from the second byte on. Gives the reply's length.
    fn finish(&self, reply: &mut [u8], response: u8, body: usize, status: u16) -> usize {
        let at = 1 + body;
        reply[0] = response;
        reply[at..at + 2].copy_from_slice(&status.to_le_bytes());
        let covered = if self.wrong(fault::CRC_WITHOUT_STATUS) { at } else { at + 2 };
        let seed = if self.wrong(fault::CRC_SEED) { 0xFF } else { 0x00 };
        let wrong = match covered {
            0..=3 => fault::REPLY_3,
            4..=7 => fault::REPLY_4,
            8..=16 => fault::REPLY_8,
            _ => fault::REPLY_17,
        };
        reply[at + 2] = crc(&reply[..covered], seed) ^ u8::from(self.wrong(wrong));
        at + 3
    }

    // ---- carrying out

    /// A mod B + L at most B (01, Size rules).
    fn fits(&self, address: u64, length: u32, block: u32) -> bool {
        match self.fault {
            fault::SUM_FOR_REMAINDER => u128::from(address) + u128::from(length) <= u128::from(block),
            fault::LENGTH_ONLY => length <= block,
            fault::EDGE_REFUSED => within(address, length + 1, block),
            _ => within(address, length, block),
        }
    }

    /// Changes the state and the stores, and gives the reply's length; or refuses, with the state as it was.
    fn carry_out(
        &self,
        now: &mut State,
        command: &[u8],
        reply: &mut [u8],
        write_store: &mut [u8],
        read_store: &[u8],
    ) -> Result<usize, Refusal> {
        let sent = command;
        let before = self.status(now);
        let command = self.decode(now, command).map_err(Refusal::Silent)?;
        let (response, body) = match command {
            Command::Reset => {
                // It resets register 008h and nothing else.
                now.general = if self.wrong(fault::RESET_CRC_ONLY) { now.general & !(1 << 31) } else { GENERAL.reset };
                if self.wrong(fault::RESET_010) {
                    now.channel0 = CHANNEL_0.reset;
                }
                return Ok(0);
            }
            Command::Write { address, data } => {
                let (length, payload) = (data.len() as u32, now.payload());
                if now.write.is_some() || !self.fits(address, length, payload) {
                    return Err(Refusal::Error(FATAL));
                }
                write_store[..data.len()].copy_from_slice(data);
                if self.wrong(fault::STORE_WITH_CRC) && data.len() < write_store.len() {
                    write_store[data.len()] = sent[sent.len() - 1];
                }
                now.write = Some(Write { address, length, payload });
                (ACCEPT, 0)
            }
            Command::Request { kind, short, tag, address, length, bytes } => {
                let (payload, read_size) = (now.payload(), now.read_size());
                let mut block = if kind == Kind::IoWrite { payload } else { read_size };
                if self.wrong(fault::IO_WRITE_READ_SIZE) && kind == Kind::IoWrite {
                    block = read_size;
                }
                if (self.wrong(fault::IO_READ_PAYLOAD) && kind == Kind::IoRead)
                    || (self.wrong(fault::MEMORY_READ_PAYLOAD) && kind == Kind::MemoryRead && short)
                {
                    block = payload;
                }
                if now.request.is_some() || !self.fits(address, length, block) {
                    return Err(Refusal::Error(FATAL));
                }
                let mut kept = [0; 4];
                kept[..bytes.len()].copy_from_slice(bytes);
                if self.wrong(fault::IO_BYTES_ALL) && kind == Kind::IoWrite {
                    let from = sent.len() - 1 - bytes.len();
                    for (at, byte) in kept.iter_mut().enumerate() {
                        *byte = sent.get(from + at).copied().unwrap_or(0);
                    }
                }
                if self.wrong(fault::IO_BYTES_HIGH_FIRST) {
                    kept[..bytes.len()].reverse();
                }
                now.serial = if self.wrong(fault::SERIAL_SATURATES) { now.serial.saturating_add(1) } else { now.serial.wrapping_add(1) };
                now.request = Some(Request {
                    phase: Phase::Open,
                    kind,
                    tag,
                    address,
                    length,
                    payload,
                    read_size,
                    bytes: u32::from_le_bytes(kept),
                    sent: 0,
                });
                (if self.wrong(fault::ACCEPT_REQUEST) { ACCEPT } else { DEFER }, 0)
            }
            Command::GetPc => (ACCEPT, self.completion(now, reply, read_store).ok_or(Refusal::Error(FATAL))?),
            Command::PutVwire { pairs } => return self.put_vwire(now, pairs, reply),
            Command::GetVwire => (ACCEPT, self.wire_packet(now, reply).ok_or(Refusal::Error(FATAL))?),
            Command::GetConfiguration { address } => {
                let value = match address {
                    0x004 if self.wrong(fault::IDENTIFICATION_0) => 0,
                    0x004 => IDENTIFICATION,
                    0x008 => now.general,
                    0x010 => now.channel0,
                    0x020 if self.wrong(fault::ADVERTISED_8) => now.channel1 & !0x3800,
                    0x020 => now.channel1,
                    _ if self.wrong(fault::OTHER_ONES) => u32::MAX,
                    _ => 0,
                };
                reply[1..5].copy_from_slice(&value.to_le_bytes());
                (ACCEPT, 4)
            }
            Command::SetConfiguration { address, data } => {
                if forbidden(address, data, self.fault) || self.edge_forbids(now, address, data) {
                    return Err(Refusal::Error(FORBIDDEN));
                }
                // The write takes effect after its own reply, whose status is the old one.
                let length = self.finish(reply, ACCEPT, 0, before);
                self.set_register(now, address, data);
                if self.wrong(fault::STATUS_NEW_IN_SET) {
                    return Ok(self.finish(reply, ACCEPT, 0, self.status(now)));
                }
                return Ok(length);
            }
            Command::GetStatus => (ACCEPT, 0),
        };
        let status = if self.wrong(fault::STATUS_BEFORE) { before } else { self.status(now) };
        Ok(self.finish(reply, response, body, status))
    }

    /// One completion in the reply, or `None` if none is ready (01, Requests, answers, pieces). Gives the body's length.
    fn completion(&self, now: &mut State, reply: &mut [u8], read_store: &[u8]) -> Option<usize> {
        let today = now.payload();
        let request = now.request.as_mut()?;
        let (mark, piece) = match (request.phase, request.kind) {
            (Phase::Open, _) => return None,
            (Phase::Failure, _) if self.wrong(fault::FAILURE_0C) => (0x0C, 0),
            (Phase::Failure, _) => (0x0E, 0),
            (Phase::Success, Kind::IoWrite) if self.wrong(fault::IO_WRITE_0F) => (0x0F, 0),
            (Phase::Success, Kind::IoWrite) => (0x06, 0),
            (Phase::Success, _) => {
                // Up to the next block of the recorded payload size, marked only, first, middle or last.
                let payload = if self.wrong(fault::TODAYS_PAYLOAD) { today } else { request.payload };
                let left = request.length - request.sent;
                let into = (request.address.wrapping_add(u64::from(request.sent)) % u64::from(payload)) as u32;
                let to_edge = if self.wrong(fault::CUT_FROM_A) { payload } else { payload - into };
                let piece = left.min(to_edge);
                let mut first = request.sent == 0;
                let mut last = piece == left;
                if self.wrong(fault::FIRST_BY_EDGE) {
                    first = into != 0;
                }
                if self.wrong(fault::LAST_BY_LENGTH) {
                    last = left <= payload;
                }
                let mark = match (first, last) {
                    (true, true) => 0x0F,
                    (true, false) => 0x0B,
                    (false, false) => 0x09,
                    (false, true) => 0x0D,
                };
                (mark, piece)
            }
        };
        let tag = if self.wrong(fault::TAG_DROPPED) { 0 } else { request.tag };
        let high = if self.wrong(fault::PIECE_LENGTH_8_BITS) { 0 } else { (piece >> 8) as u8 };
        reply[1] = mark;
        reply[2] = tag << 4 | high;
        reply[3] = piece as u8;
        // The data goes into the reply from its fifth byte on.
        let (from, count) = (request.sent as usize, piece as usize);
        let from = if self.wrong(fault::DATA_FROM_START) { 0 } else { from };
        reply[4..4 + count].copy_from_slice(&read_store[from..from + count]);
        request.sent += piece;
        // The request is held until its last completion is sent.
        let ends = piece == 0 || request.sent == request.length;
        if ends && !(self.wrong(fault::FAILURE_KEPT) && request.phase == Phase::Failure) {
            now.request = None;
        }
        Some(3 + count)
    }

    // ---- registers and resets (01, Registers and status; Requests, answers, pieces)

    fn set_register(&self, now: &mut State, address: u16, data: u32) {
        let written = |old: u32, register: &Register, more: u32| {
            let writable = register.writable ^ more;
            let value = old & !writable | data & writable;
            // Ready equals enable.
            if self.wrong(fault::READY_STAYS) {
                return value;
            }
            value & !READY | (value & ENABLE) << 1
        };
        let extra = |fault: u32, bits: u32| if self.wrong(fault) { bits } else { 0 };
        let (was_on0, was_on1) = (now.on0(), now.on1());
        match address {
            0x008 => {
                let writable = GENERAL.writable ^ extra(fault::READ_ONLY_008, 1 << 25) ^ extra(fault::NOT_WRITABLE_008, 1 << 28);
                now.general = now.general & !writable | data & writable;
            }
            0x010 => {
                now.channel0 = written(now.channel0, &CHANNEL_0, extra(fault::READ_ONLY_010, 1 << 5) | extra(fault::BUS_MASTER, 1 << 2));
                if was_on0 && (!now.on0() || self.wrong(fault::REWRITE_DROPS)) {
                    let kept = now.clone();
                    self.drop_queues(now);
                    if self.wrong(fault::DISABLE_KEEPS_WRITE) {
                        now.write = kept.write;
                    }
                    if self.wrong(fault::DISABLE_KEEPS_REQUEST) {
                        now.request = kept.request.filter(|request| request.phase == Phase::Open);
                    }
                    if self.wrong(fault::DISABLE_SIZES) {
                        now.channel0 = CHANNEL_0.reset & !(ENABLE | READY);
                    }
                }
            }
            0x020 => {
                now.channel1 = written(now.channel1, &CHANNEL_1, extra(fault::READ_ONLY_020, 1 << 8));
                let is_on = now.on1();
                if is_on && (!was_on1 || self.wrong(fault::REWRITE_ENABLES)) {
                    self.enable_wires(now);
                }
                if was_on1 && !is_on {
                    self.disable_wires(now);
                }
                if self.wrong(fault::ZERO_TO_ZERO) && !was_on1 && !is_on {
                    now.place = Sender::FIRST;
                }
            }
            // Other addresses take writes without effect.
            _ => {}
        }
    }

    /// A write of 020h that leaves channel 1 on with an operating count of 1 while an edge waits (02, Q-4).
    fn edge_forbids(&self, now: &State, address: u16, data: u32) -> bool {
        let on = data & ENABLE != 0 || self.wrong(fault::COUNT_1_WHEN_DISABLING);
        let waits = if self.wrong(fault::COUNT_1_LINE_WAITS) { now.line_waits() } else { now.edge_waits() };
        let low = if self.wrong(fault::COUNT_2_FORBIDDEN) { data >> 16 & 0x3F <= 1 } else { data >> 16 & 0x3F == 0 };
        address == 0x020 && on && low && waits && !self.wrong(fault::COUNT_1_WITH_EDGE)
    }

    /// Held write, request and completions go; store bytes stay.
    fn drop_queues(&self, now: &mut State) {
        now.write = None;
        now.request = None;
    }

    fn reset_group(&self, now: &mut State, index: usize) {
        now.levels[index - FIRST_GROUP] = GROUPS[index - FIRST_GROUP].reset;
        now.pending[index - FIRST_GROUP] = false;
    }

    /// Where the going round begins.
    fn first(&self) -> Sender {
        if self.wrong(fault::PLACE_LINE_0) {
            Sender::Line(0)
        } else {
            Sender::FIRST
        }
    }

    /// Platform reset, by the board's call or by wire (02, Q-1): 010h, wire groups 6 and 7, the queues, the going-round place and,
    /// lowered, the lines (02, Q-4).
    fn reset_platform(&self, now: &mut State) {
        self.drop_queues(now);
        now.channel0 = CHANNEL_0.reset;
        self.reset_group(now, 6);
        self.reset_group(now, 7);
        now.place = self.first();
        now.lines = [Line::LOW; LINES];
    }

    // ---- wires (01, Wires)

    /// A packet over the operating count or with a third transition of a wire (02, Q-6) is refused. If PLTRST# falls in one that
    /// is not, the platform reset follows after the reply, which shows the status before it (02, Q-1).
    fn put_vwire(&self, now: &mut State, pairs: &[u8], reply: &mut [u8]) -> Result<usize, Refusal> {
        let limit = match (self.fault, now.operating_count()) {
            (fault::OPERATING_COUNT, count) => count + 1,
            (fault::OPERATING_63, 63) => 64,
            (fault::OPERATING_5_BITS, count) => (count - 1) % 32 + 1,
            (_, count) => count,
        };
        let over = pairs.len() / 2 > limit;
        let third = !over && self.third_transition(now, pairs);
        let old = now.clone();
        let mut put = now.clone();
        self.put_wires(&mut put, pairs);
        let falls = self.pltrst_falls(&old, &put, pairs);
        if over || third {
            if third && self.wrong(fault::THIRD_APPLIED) {
                *now = put;
            }
            if falls && (over && self.wrong(fault::FALL_OVER_COUNT) || third && self.wrong(fault::FALL_AT_THIRD)) {
                self.reset_platform(now);
            }
            return Err(Refusal::Error(FATAL));
        }
        *now = put;
        let status = self.status(now);
        if falls {
            self.reset_by_wire(now, &old, pairs);
        }
        let status = if self.wrong(fault::FALL_STATUS_AFTER) { self.status(now) } else { status };
        Ok(self.finish(reply, ACCEPT, 0, status))
    }

    /// Whether PLTRST#, bit 1 of group 3 (source 004, table 10), is low after a packet and was high before it (02, Q-1). The pairs
    /// are asked by faults alone: what PLTRST# does in between does not count.
    fn pltrst_falls(&self, old: &State, put: &State, pairs: &[u8]) -> bool {
        let (row, bit) = match self.fault {
            fault::FALL_OF_SUS_STAT => (1, 0),
            fault::FALL_OF_OOB_RST_WARN => (1, 2),
            fault::FALL_OF_SLP_S4 => (0, 1),
            _ => (1, 1),
        };
        let high = |state: &State| state.levels[row] >> bit & 1 == 1;
        let (was, is) = (high(old), high(put));
        let falls = was && !is;
        let given = pltrst_values(pairs);
        let low_in = |pairs: &[u8]| pltrst_values(pairs).last() == Some(&false);
        let of_group_3 = |pair: &&[u8]| pair[0] == 3;
        match self.fault {
            fault::FALL_IGNORED => false,
            fault::LOW_RESETS => !is,
            fault::LOW_AGAIN_RESETS => falls || !was && given.contains(&false) && !given.contains(&true),
            fault::PULSE_LOW_RESETS => was && given.contains(&false),
            fault::PULSE_HIGH_RESETS => falls || !is && given.contains(&true),
            fault::RISE_RESETS => was != is,
            fault::FALL_BY_FIRST => falls && given.first() == Some(&false),
            fault::FALL_BY_LAST_PAIR => falls && low_in(&pairs[pairs.len() - 2..]),
            fault::FALL_63 => falls && low_in(&pairs[..pairs.len().min(2 * 63)]),
            fault::FALL_VALID_IGNORED => was && pairs.chunks_exact(2).rfind(of_group_3).is_some_and(|pair| pair[1] >> 1 & 1 == 0),
            fault::FALL_WHILE_ON => falls && old.on0(),
            _ => falls,
        }
    }

    /// The platform reset after a packet: groups 2 and 3 keep what the packet put, and what it put in group 7 goes (02, Q-1).
    fn reset_by_wire(&self, now: &mut State, old: &State, pairs: &[u8]) {
        let put = now.clone();
        self.reset_platform(now);
        let held = |kept: fn(&Request) -> bool| put.request.filter(kept);
        match self.fault {
            fault::FALL_BEFORE_WIRES => self.put_wires(now, pairs),
            fault::FALL_AT_PAIR => self.put_wires(now, after_pltrst(pairs)),
            fault::FALL_FORGETS_WIRES => now.levels[..2].copy_from_slice(&old.levels[..2]),
            fault::FALL_KEEPS_010 => now.channel0 = put.channel0,
            fault::FALL_RESETS_008 => now.general = GENERAL.reset,
            fault::FALL_RESETS_020 => now.channel1 = CHANNEL_1.reset,
            fault::FALL_KEEPS_WRITE => now.write = put.write,
            fault::FALL_KEEPS_REQUEST => now.request = held(|request| request.phase == Phase::Open),
            fault::FALL_KEEPS_ANSWERED => now.request = held(|request| request.phase != Phase::Open),
            fault::FALL_KEEPS_REST => now.request = held(|request| request.sent > 0),
            fault::FALL_SERIAL_0 => now.serial = 0,
            fault::FALL_RESETS_2 => self.reset_group(now, 2),
            fault::FALL_RESETS_3 => self.reset_group(now, 3),
            fault::FALL_RESETS_4 => self.reset_group(now, 4),
            fault::FALL_RESETS_5 => self.reset_group(now, 5),
            fault::FALL_DROPS_MARKS => now.pending = [false; 6],
            fault::FALL_KEEPS_6 => now.levels[4] = put.levels[4],
            fault::FALL_KEEPS_MARK_6 => now.pending[4] = put.pending[4],
            fault::FALL_KEEPS_7 => now.levels[5] = put.levels[5],
            fault::FALL_KEEPS_PLACE => now.place = put.place,
            fault::FALL_KEEPS_LINES => keep_levels(now, &put),
            fault::FALL_KEEPS_WAITS => keep_waits(now, &put),
            _ => {}
        }
    }

    /// Whether a wire has more than two transitions in a packet (02, Q-6).
    pub fn third_transition(&self, now: &State, pairs: &[u8]) -> bool {
        let most = match self.fault {
            fault::SECOND_REFUSED => 1,
            fault::THIRD_ALLOWED => 3,
            _ => 2,
        };
        GROUPS.iter().enumerate().any(|(row, group)| {
            let defined = if self.wrong(fault::UNDEFINED_COUNTED) { 0xF } else { group.defined };
            let counts = (0..4).filter(|bit| defined >> bit & 1 == 1).map(|bit| self.transitions(now, pairs, row, bit));
            let more = if self.wrong(fault::GROUP_COUNTED) { counts.sum::<usize>() > most } else { counts.max() > Some(most) };
            more && (!group.up || self.wrong(fault::UP_GROUP_COUNTED))
        })
    }

    /// How often a wire's value differs from the one just before, beginning with the held value. Pairs of other groups and
    /// values that are not valid are passed over.
    fn transitions(&self, now: &State, pairs: &[u8], row: usize, bit: u32) -> usize {
        let last = if self.wrong(fault::TRANSITIONS_63) { 63 } else { 64 };
        let mut values = vec![if self.wrong(fault::COUNTED_FROM_0) { 0 } else { now.levels[row] >> bit & 1 }];
        if self.wrong(fault::HELD_NOT_COUNTED) {
            values.clear();
        }
        for pair in pairs.chunks_exact(2).take(last).filter(|pair| usize::from(pair[0]) == FIRST_GROUP + row) {
            if pair[1] >> (4 + bit) & 1 == 1 || self.wrong(fault::INVALID_COUNTED) {
                values.push(pair[1] >> bit & 1);
            }
        }
        values.windows(2).filter(|two| two[0] != two[1] || self.wrong(fault::REPEATS_COUNTED)).count()
    }

    /// Pairs in order; only valid and defined bits of down groups change, other groups are passed over.
    fn put_wires(&self, now: &mut State, pairs: &[u8]) {
        let count = pairs.len() / 2;
        let applied = if self.wrong(fault::PAIRS_63) { count.min(63) } else { count };
        for at in 0..applied {
            let at = if self.wrong(fault::PAIRS_REVERSED) { count - 1 - at } else { at };
            let (index, data) = (usize::from(pairs[2 * at]), pairs[2 * at + 1]);
            if self.wrong(fault::PUT_LINE) && index <= 1 {
                now.lines[128 * index + usize::from(data & 0x7F)].high = data >> 7 == 1;
            }
            let Some(group) = index.checked_sub(FIRST_GROUP).and_then(|row| GROUPS.get(row)) else {
                continue;
            };
            if group.up && !(self.wrong(fault::UP_GROUP_TAKEN) && index == 4) {
                continue;
            }
            let valid = if self.wrong(fault::VALID_IGNORED) { 0xF } else { data >> 4 };
            let defined = if self.wrong(fault::UNDEFINED_TAKEN) { 0xF } else { group.defined };
            let changed = valid & defined;
            let level = &mut now.levels[index - FIRST_GROUP];
            *level = *level & !changed | data & changed;
        }
    }

    /// The next packet in the reply: what waits, going round from the place, up to the first that does not fit the operating count
    /// (02, Q-4); or `None`.
    fn wire_packet(&self, now: &mut State, reply: &mut [u8]) -> Option<usize> {
        if self.wrong(fault::CREDIT_GROUPS) && !now.pending.contains(&true) {
            return None;
        }
        let most = match self.fault {
            fault::PACKET_ALL => 64,
            fault::PACKET_63 => now.operating_count().min(63),
            _ => now.operating_count(),
        };
        let mut sent: Vec<(Sender, Vec<[u8; 2]>)> = Vec::new();
        let mut room = most;
        for sender in self.turns(now.place) {
            let entries = self.entries(now, sender);
            let taken = if self.wrong(fault::EDGE_ONE_PLACE) { entries.len().min(1) } else { entries.len() };
            if taken == 0 {
                continue;
            }
            if taken > room {
                if room == 1 && self.wrong(fault::EDGE_SPLIT) {
                    sent.push((sender, entries[..1].to_vec()));
                }
                if self.wrong(fault::PACKET_GOES_ON) {
                    continue;
                }
                break;
            }
            room -= taken;
            sent.push((sender, entries));
        }
        let last = sent.last()?.0;
        if self.wrong(fault::PACKET_IN_ORDER) {
            sent.sort_by_key(|(sender, _)| sender.number());
        }
        let pairs: Vec<u8> = sent.iter().flat_map(|(_, entries)| entries.concat()).collect();
        reply[1] = (pairs.len() / 2) as u8 - 1;
        reply[2..2 + pairs.len()].copy_from_slice(&pairs);
        for &(sender, ref entries) in &sent {
            self.is_sent(now, sender, entries.len());
        }
        let next = |sender: Sender| match sender {
            Sender::Group(6) if self.wrong(fault::AFTER_6_GROUP_4) => Sender::Group(4),
            sender => sender.next(),
        };
        match self.fault {
            fault::PLACE_NOT_ADVANCED => {}
            fault::PLACE_AT_LAST => now.place = last,
            _ => now.place = next(last),
        }
        Some(1 + pairs.len())
    }

    /// Every sender once, from a place on.
    fn turns(&self, place: Sender) -> Vec<Sender> {
        let mut turns: Vec<Sender> = std::iter::successors(Some(place), |sender| Some(sender.next())).take(LINES + 3).collect();
        if self.wrong(fault::GROUPS_FIRST) {
            turns.sort_by_key(|sender| matches!(sender, Sender::Line(_)));
        }
        turns
    }

    /// The index and data of what a sender has to say, nothing if it does not wait: a group all its defined bits, a line its level, an
    /// edge the other level and then the level.
    fn entries(&self, now: &State, sender: Sender) -> Vec<[u8; 2]> {
        let line = match sender {
            Sender::Group(index) => {
                let row = usize::from(index) - FIRST_GROUP;
                let valid = if self.wrong(fault::UNDEFINED_SENT) { 0xF } else { GROUPS[row].defined };
                return if now.pending[row] { vec![[index, valid << 4 | now.levels[row]]] } else { vec![] };
            }
            Sender::Line(line) => line,
        };
        let Line { high, waits } = now.lines[line];
        let index = if self.wrong(fault::LINE_INDEX_0) { 0 } else { (line / 128) as u8 };
        let shown = if self.wrong(fault::LINE_8_BITS) { line as u8 } else { (line % 128) as u8 };
        let entry = |high: bool| [index, if high { shown | 0x80 } else { shown }];
        match waits {
            Waits::Not => vec![],
            Waits::Level if self.wrong(fault::LEVEL_SENT_HIGH) => vec![entry(true)],
            Waits::Level => vec![entry(high)],
            Waits::Edge if self.wrong(fault::EDGE_REVERSED) => vec![entry(high), entry(!high)],
            Waits::Edge if self.wrong(fault::EDGE_RISES) => vec![entry(true), entry(false)],
            Waits::Edge => vec![entry(!high), entry(high)],
        }
    }

    /// What was sent waits no more, and levels stay.
    fn is_sent(&self, now: &mut State, sender: Sender, entries: usize) {
        match sender {
            Sender::Group(index) if !self.wrong(fault::MARK_KEPT) => now.pending[usize::from(index) - FIRST_GROUP] = false,
            Sender::Line(line) if !self.wrong(fault::LINE_KEPT) => {
                let line = &mut now.lines[line];
                let edge = line.waits == Waits::Edge;
                line.waits = Waits::Not;
                if edge && (self.wrong(fault::EDGE_KEPT) || entries == 1) {
                    line.waits = Waits::Level;
                }
                if edge && self.wrong(fault::EDGE_TURNS) {
                    line.high = !line.high;
                }
            }
            _ => {}
        }
    }

    /// Each up group becomes pending that differs from its reset value, and every high line waits.
    fn enable_wires(&self, now: &mut State) {
        for (row, group) in GROUPS.iter().enumerate() {
            let differs = now.levels[row] != group.reset || self.wrong(fault::ENABLE_ALL);
            if group.up && differs && !self.wrong(fault::ENABLE_NONE) {
                now.pending[row] = true;
            }
        }
        for line in now.lines.iter_mut().filter(|line| line.high || self.wrong(fault::ENABLE_LOW_LINES)) {
            if line.waits == Waits::Not && !self.wrong(fault::ENABLE_NO_LINES) {
                line.waits = Waits::Level;
            }
        }
        if self.wrong(fault::ENABLE_PLACE) {
            now.place = Sender::FIRST;
        }
    }

    /// What waits does so no more, values and levels stay, and the going round begins with group 4 again.
    fn disable_wires(&self, now: &mut State) {
        if !self.wrong(fault::DISABLE_KEEPS_MARKS) {
            now.pending = [false; 6];
        }
        if !self.wrong(fault::DISABLE_KEEPS_PLACE) {
            now.place = self.first();
        }
        if self.wrong(fault::DISABLE_RESETS_VALUES) {
            for index in 4..=6 {
                self.reset_group(now, index);
            }
        }
        for line in &mut now.lines {
            if !self.wrong(fault::DISABLE_KEEPS_WAITS) {
                line.waits = Waits::Not;
            }
            line.high &= !self.wrong(fault::DISABLE_LOWERS);
        }
    }

    /// Which line a number names (any may come).
    fn line(&self, line: u32) -> Option<usize> {
        let line = if self.wrong(fault::LINE_LOW_BYTE) { line & 0xFF } else { line };
        usize::try_from(line).ok().filter(|&line| line < LINES && !(line == 255 && self.wrong(fault::LINES_255)))
    }

    /// The row and bit mask of a defined wire (any numbers may come).
    fn wire(&self, index: u32, bit: u32) -> Option<(usize, u8)> {
        let index = if self.wrong(fault::INDEX_LOW_BYTE) { index & 0xFF } else { index };
        let row = usize::try_from(index).ok()?.checked_sub(FIRST_GROUP)?;
        let group = GROUPS.get(row)?;
        if bit > 3 {
            return None;
        }
        let mask = 1 << bit;
        (group.defined & mask != 0).then_some((row, mask))
    }
}

/// Whether a pair gives PLTRST# a value: group 3, bit 1 valid.
fn names_pltrst(pair: &[u8]) -> bool {
    pair[0] == 3 && pair[1] & 0x20 != 0
}

/// The values that a packet's pairs give PLTRST#, in order.
pub fn pltrst_values(pairs: &[u8]) -> Vec<bool> {
    pairs.chunks_exact(2).filter(|pair| names_pltrst(pair)).map(|pair| pair[1] & 0x02 != 0).collect()
}

/// The pairs after the last one that gives PLTRST# a value.
pub fn after_pltrst(pairs: &[u8]) -> &[u8] {
    let until = pairs.chunks_exact(2).rposition(names_pltrst).map_or(0, |at| at + 1);
    &pairs[2 * until..]
}

/// Faults of the resets: the levels stay, or what waits does.
fn keep_levels(now: &mut State, old: &State) {
    for (line, kept) in now.lines.iter_mut().zip(&old.lines) {
        line.high = kept.high;
    }
}

fn keep_waits(now: &mut State, old: &State) {
    for (line, kept) in now.lines.iter_mut().zip(&old.lines) {
        line.waits = kept.waits;
    }
}

/// Stores a changed state.
fn done(now: &State, state: &mut [u8]) -> u32 {
    pack(now, state);
    OK
}

/// Ends a call at the first refusal: its number is the call's word.
fn word(outcome: Result<u32, u32>) -> u32 {
    outcome.unwrap_or_else(|number| number)
}

impl Calls for Engine {
    /// Start takes no state and gives the fresh one.
    fn start(&mut self, state: &mut [u8]) -> u32 {
        if state.len() < STATE_LEN {
            return SHORT_STORE;
        }
        done(&State { place: self.first(), ..State::fresh() }, state)
    }

    /// eSPI reset: all registers and groups, and the queues. No reset touches the serial.
    fn reset(&mut self, state: &mut [u8]) -> u32 {
        word(self.open(state, &[]).map(|old| {
            let mut now = State { place: self.first(), ..State::fresh() };
            now.serial = if self.wrong(fault::SERIAL_RESET) { 0 } else { old.serial };
            if self.wrong(fault::RESET_KEEPS_GROUP_2) {
                now.levels[0] = old.levels[0];
            }
            if self.wrong(fault::RESET_KEEPS_LINES) {
                keep_levels(&mut now, &old);
            }
            done(&now, state)
        }))
    }

    /// Platform reset by the board's call; its faults leave the one by wire as it should be.
    fn platform_reset(&mut self, state: &mut [u8]) -> u32 {
        word(self.open(state, &[]).map(|mut now| {
            let old = now.clone();
            self.reset_platform(&mut now);
            match self.fault {
                fault::PLATFORM_KEEPS_010 => now.channel0 = old.channel0,
                fault::PLATFORM_RESETS_020 => now.channel1 = CHANNEL_1.reset,
                fault::PLATFORM_KEEPS_7 => now.levels[5] = old.levels[5],
                fault::PLATFORM_KEEPS_MARK_6 => now.pending[4] = old.pending[4],
                fault::PLATFORM_RESETS_5 => self.reset_group(&mut now, 5),
                fault::PLATFORM_KEEPS_PLACE => now.place = old.place,
                fault::PLATFORM_KEEPS_LINES => keep_levels(&mut now, &old),
                fault::PLATFORM_KEEPS_WAITS => keep_waits(&mut now, &old),
                fault::PLATFORM_KEEPS_QUEUES => (now.write, now.request) = (old.write, old.request),
                _ => {}
            }
            done(&now, state)
        }))
    }

    fn exchange(&mut self, state: &mut [u8], command: &[u8], reply: &mut [u8], write_store: &mut [u8], read_store: &[u8]) -> u32 {
        if self.wrong(fault::REPLY_262) && reply.len() == REPLY_LEN - 1 {
            // The longest reply has one byte more: it is cut.
            let mut longer = [&reply[..], &[0]].concat();
            let word = self.exchange(state, command, &mut longer, write_store, read_store);
            reply.copy_from_slice(&longer[..REPLY_LEN - 1]);
            return word;
        }
        let stores = [(reply.len(), REPLY_LEN), (write_store.len(), WRITE_STORE_LEN), (read_store.len(), READ_STORE_LEN)];
        let mut now = match self.open(state, &stores) {
            Ok(now) => now,
            Err(number) => return number,
        };
        let old = now.clone();
        match self.carry_out(&mut now, command, reply, write_store, read_store) {
            Ok(length) => (length as u32) << 8 | done(&now, state),
            Err(Refusal::Silent(number)) => number,
            Err(Refusal::Error(number)) => {
                // The four bytes of an error reply, with the status of the unchanged state.
                let response = if number == FATAL { 0x03 } else { 0x02 };
                let length = self.finish(reply, response, 0, self.status(&old));
                if self.wrong(fault::ERROR_CLEARS_STORE) {
                    reply[4] = 0;
                }
                if self.wrong(fault::ERROR_DROPS_WRITE) && command[0] == 0x00 {
                    pack(&State { write: None, ..old }, state);
                } else if self.wrong(fault::SERIAL_AT_REFUSAL) && command[0] == 0x02 {
                    pack(&State { serial: old.serial.wrapping_add(1), ..old }, state);
                } else if matches!(self.fault, fault::THIRD_APPLIED | fault::FALL_OVER_COUNT | fault::FALL_AT_THIRD) && command[0] == 0x04 {
                    pack(&now, state);
                }
                (length as u32) << 8 | number
            }
        }
    }

    /// Looking yields the request's kind, address, length, serial and an I/O write's bytes, and changes nothing.
    fn look(&mut self, state: &[u8], report: &mut [u8]) -> u32 {
        let needed = if self.wrong(fault::REPORT_UNCHECKED) { LOOK_REPORT_LEN - 1 } else { LOOK_REPORT_LEN };
        let now = match self.open(state, &[(report.len(), needed)]) {
            Ok(now) => now,
            Err(number) => return number,
        };
        let Some(request) = now.request.filter(|request| request.phase == Phase::Open || self.wrong(fault::LOOK_ANSWERED)) else {
            return NOTHING;
        };
        if report.len() < LOOK_REPORT_LEN {
            return SHORT_STORE;
        }
        report[0] = request.kind as u8;
        report[1..9].copy_from_slice(&request.address.to_le_bytes());
        report[9..11].copy_from_slice(&(request.length as u16).to_le_bytes());
        report[11..15].copy_from_slice(&now.serial.to_le_bytes());
        report[15..19].copy_from_slice(&request.bytes.to_le_bytes());
        OK
    }

    /// The answer to the request with this serial: success with exactly its length of data, or failure with none.
    fn answer(&mut self, state: &mut [u8], read_store: &mut [u8], serial: u32, success: u32, data: &[u8]) -> u32 {
        let success = if self.wrong(fault::SUCCESS_LOW_BYTE) { success & 0xFF != 0 } else { success != 0 };
        let needed = if self.wrong(fault::READ_STORE_UNCHECKED) && !success { 0 } else { READ_STORE_LEN };
        let mut now = match self.open(state, &[(read_store.len(), needed)]) {
            Ok(now) => now,
            Err(number) => return number,
        };
        let last = now.serial;
        let named = |request: &&mut Request| {
            (request.phase == Phase::Open || self.wrong(fault::SECOND_ANSWER)) && (serial == last || self.wrong(fault::LATE_ANSWER))
        };
        if self.wrong(fault::COUNT_BEFORE_SERIAL) && !success && !data.is_empty() {
            return BAD_COUNT;
        }
        let Some(request) = now.request.as_mut().filter(named) else {
            return NO_REQUEST;
        };
        let io_write = request.kind == Kind::IoWrite && !self.wrong(fault::IO_WRITE_WITH_DATA);
        let wanted = if success && !io_write { request.length as usize } else { 0 };
        let accepted = data.len() == wanted
            || (self.wrong(fault::FAILURE_WITH_DATA) && !success)
            || (self.wrong(fault::LONGER_ANSWER) && data.len() > wanted);
        if !accepted {
            return BAD_COUNT;
        }
        let copied = if self.wrong(fault::COPY_SHORT) { wanted.saturating_sub(1) } else { wanted };
        read_store[..copied].copy_from_slice(&data[..copied]);
        request.phase = if success { Phase::Success } else { Phase::Failure };
        done(&now, state)
    }

    /// The take yields the held write's address and length, frees the place and leaves the store.
    fn take_write(&mut self, state: &mut [u8], write_store: &[u8], report: &mut [u8]) -> u32 {
        let needed = if self.wrong(fault::TAKE_STORE_UNCHECKED) { 0 } else { WRITE_STORE_LEN };
        let mut now = match self.open(state, &[(write_store.len(), needed), (report.len(), TAKE_REPORT_LEN)]) {
            Ok(now) => now,
            Err(number) => return number,
        };
        let Some(write) = now.write.take() else {
            return NOTHING;
        };
        report[0..8].copy_from_slice(&write.address.to_le_bytes());
        report[8..10].copy_from_slice(&(write.length as u16).to_le_bytes());
        if self.wrong(fault::TAKE_KEEPS) {
            return OK;
        }
        done(&now, state)
    }

    /// Sets one defined bit of an up group; a real change while channel 1 is enabled makes it pending.
    fn set_wire(&mut self, state: &mut [u8], index: u32, bit: u32, value: u32) -> u32 {
        let mut now = match self.open(state, &[]) {
            Ok(now) => now,
            Err(number) => return number,
        };
        let boards = |&(row, _): &(usize, u8)| GROUPS[row].up || (self.wrong(fault::SET_DOWN) && index == 7);
        let Some((row, mask)) = self.wire(index, bit).filter(boards) else {
            return BAD_WIRE;
        };
        if value > 1 && !self.wrong(fault::SET_ANY_VALUE) {
            return BAD_WIRE;
        }
        let old = now.levels[row];
        let level = if value == 0 { old & !mask } else { old | mask };
        now.levels[row] = level;
        let changed = level != old || self.wrong(fault::EQUAL_IS_A_CHANGE);
        if changed && (now.on1() || self.wrong(fault::PENDING_WHILE_OFF)) {
            now.pending[row] = true;
        }
        if self.wrong(fault::MARK_CLEARED_ON_SET_BACK) && level == GROUPS[row].reset {
            now.pending[row] = false;
        }
        done(&now, state)
    }

    /// One defined bit of any group.
    fn read_wire(&mut self, state: &[u8], index: u32, bit: u32) -> u32 {
        let now = match self.open(state, &[]) {
            Ok(now) => now,
            Err(number) => return number,
        };
        match self.wire(index, bit) {
            Some((row, mask)) => u32::from(now.levels[row] & mask != 0) << 8 | OK,
            None if self.wrong(fault::READ_UNDEFINED) && (2..=7).contains(&index) && bit <= 3 => OK,
            None => BAD_WIRE,
        }
    }

    /// Raises or lowers a line (02, Q-4): 22 for no such line or level, then 24 while its edge waits; a real change while channel 1 is
    /// enabled makes it wait.
    fn set_line(&mut self, state: &mut [u8], line: u32, level: u32) -> u32 {
        let mut now = match self.open(state, &[]) {
            Ok(now) => now,
            Err(number) => return number,
        };
        let on = now.on1() || self.wrong(fault::LINE_WAITS_OFF);
        let Some(line) = self.line(line).map(|line| &mut now.lines[line]) else {
            return BAD_WIRE;
        };
        let (edge, equal) = (line.waits == Waits::Edge, u32::from(line.high) == level);
        let refused = match self.fault {
            fault::SET_WHILE_EDGE => false,
            fault::SET_EQUAL_WHILE_EDGE => edge && !equal,
            fault::SET_WHILE_LINE_WAITS => line.waits != Waits::Not,
            _ => edge,
        };
        if refused && self.wrong(fault::EDGE_BEFORE_LEVEL) {
            return NOT_NOW;
        }
        if level > 1 && !self.wrong(fault::LINE_ANY_LEVEL) {
            return BAD_WIRE;
        }
        if refused {
            return NOT_NOW;
        }
        let high = level != 0;
        let changed = line.high != high || self.wrong(fault::LINE_EQUAL_CHANGES);
        line.high = high;
        if changed && on && !edge {
            line.waits = Waits::Level;
        }
        if changed && !high && self.wrong(fault::LOWERED_NOT_SENT) {
            line.waits = Waits::Not;
        }
        done(&now, state)
    }

    /// Asks for an edge (02, Q-4): 22 for no such line, then 24 while channel 1 is disabled, the operating count is 1 or the line waits.
    fn pulse_line(&mut self, state: &mut [u8], line: u32) -> u32 {
        let mut now = match self.open(state, &[]) {
            Ok(now) => now,
            Err(number) => return number,
        };
        let off = !now.on1() && !self.wrong(fault::PULSE_OFF);
        let one = now.operating_count() == 1 && !self.wrong(fault::PULSE_COUNT_1);
        if off && self.wrong(fault::OFF_BEFORE_LINE) {
            return NOT_NOW;
        }
        let Some(line) = self.line(line).map(|line| &mut now.lines[line]) else {
            return BAD_WIRE;
        };
        let waits = match self.fault {
            fault::PULSE_LEVEL_WAITS => line.waits == Waits::Edge,
            fault::PULSE_AGAIN => line.waits == Waits::Level,
            fault::PULSE_HIGH => line.waits != Waits::Not || line.high,
            _ => line.waits != Waits::Not,
        };
        if off || one || waits {
            return NOT_NOW;
        }
        line.waits = Waits::Edge;
        if self.wrong(fault::PULSE_RAISES) {
            line.high = true;
        }
        done(&now, state)
    }
}
