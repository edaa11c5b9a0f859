//! The target as a struct that its caller keeps, and nobody checks.
use crate::command::{decode, Command};
use crate::crc::crc;
use crate::number::{BAD_COUNT, BAD_WIRE, FATAL, FORBIDDEN, NOT_NOW, NO_REQUEST, OK};
use crate::peripheral::{within, Kind, Phase, Request, Write};
use crate::registers::{forbidden, leaves_one, Registers, CHANNEL_0, GENERAL};
use crate::wires::{defined, Wires, BODY_LEN, GROUPS};
use crate::{READ_STORE_LEN, REPLY_LEN, WRITE_STORE_LEN};

#[derive(Clone, Debug, PartialEq, Eq)]
pub struct Target {
    pub registers: Registers,
    pub write: Option<Write>,
    pub request: Option<Request>,
    /// The serial last given.
    pub serial: u32,
    pub wires: Wires,
}

/// The part of a target that a call has changed.
#[derive(Clone, Copy, Debug, PartialEq, Eq)]
pub enum Part {
    Nothing,
    Registers,
    Peripheral,
    /// The groups of channel 1.
    Wires,
    /// The lines of channel 1.
    Lines,
    /// Both, after a packet.
    Packet,
    All,
}

/// How an exchange ended: its number, the reply's length, and what it has changed.
#[derive(Clone, Copy, Debug, PartialEq, Eq)]
pub struct Outcome {
    pub number: u32,
    pub length: usize,
    pub changed: Part,
}

/// What a look reports of the open request.
#[derive(Clone, Copy, Debug, PartialEq, Eq)]
pub struct Look {
    pub kind: Kind,
    pub address: u64,
    pub length: u32,
    pub serial: u32,
    pub bytes: u32,
}

/// The responses (01, Replies and refusals).
#[derive(Clone, Copy)]
enum Response {
    Accept = 0x08,
    Defer = 0x01,
    NonFatal = 0x02,
    Fatal = 0x03,
}

/// Completes a reply whose body of so many bytes stands from the second byte on; its length.
fn reply_with(reply: &mut [u8; REPLY_LEN], response: Response, body: usize, status: u16) -> usize {
    let end = 1 + body;
    reply[0] = response as u8;
    reply[end..end + 2].copy_from_slice(&status.to_le_bytes());
    reply[end + 2] = crc(&reply[..end + 2]);
    end + 3
}

impl Default for Target {
    fn default() -> Target {
        Target::new()
    }
}

impl Target {
    pub fn new() -> Target {
        Target { registers: Registers::RESET, write: None, request: None, serial: 0, wires: Wires::RESET }
    }

    /// eSPI reset: all but the serial.
    pub fn reset(&mut self) {
        *self = Target { serial: self.serial, ..Target::new() };
    }

    pub fn platform_reset(&mut self) {
        self.registers.channel_0 = CHANNEL_0.reset;
        self.drop_queues();
        self.wires.platform_reset();
    }

    fn drop_queues(&mut self) {
        self.write = None;
        self.request = None;
    }

    fn status(&self) -> u16 {
        u16::from(self.write.is_none())
            | u16::from(self.request.is_none()) << 1
            | 1 << 2
            | u16::from(self.request.is_some_and(|request| request.phase != Phase::Open)) << 4
            | u16::from(self.wires.any_pending()) << 6
    }

    /// One exchange: the whole command phase of one Chip Select# assertion.
    #[inline(never)]
    pub fn exchange(
        &mut self,
        command: &[u8],
        reply: &mut [u8; REPLY_LEN],
        write_store: &mut [u8; WRITE_STORE_LEN],
        read_store: &[u8; READ_STORE_LEN],
    ) -> Outcome {
        self.carry_out(command, reply, write_store, read_store)
    }

    #[inline(always)]
    pub(crate) fn carry_out(
        &mut self,
        command: &[u8],
        reply: &mut [u8; REPLY_LEN],
        write_store: &mut [u8; WRITE_STORE_LEN],
        read_store: &[u8; READ_STORE_LEN],
    ) -> Outcome {
        let command = match decode(&self.registers, command) {
            Ok(command) => command,
            Err(number) => return Outcome { number, length: 0, changed: Part::Nothing },
        };
        let done = match command {
            Command::Write { address, data } => self.post(address, data, write_store).map(|()| (Response::Accept, 0, Part::Peripheral)),
            Command::Request { kind, tag, address, length, bytes } => {
                self.ask(kind, tag, address, length, bytes).map(|()| (Response::Defer, 0, Part::Peripheral))
            }
            Command::GetPc => self.hand_over(reply, read_store).map(|body| (Response::Accept, body, Part::Peripheral)),
            Command::PutVwire { pairs } => return self.put_wires(pairs, reply),
            Command::GetVwire => self.send_wires(reply).map(|body| (Response::Accept, body, Part::Packet)),
            Command::GetConfiguration { address } => {
                reply[1..5].copy_from_slice(&self.registers.read(address).to_le_bytes());
                Ok((Response::Accept, 4, Part::Nothing))
            }
            Command::SetConfiguration { address, value } => return self.configure(address, value, reply),
            Command::GetStatus => Ok((Response::Accept, 0, Part::Nothing)),
            Command::Reset => {
                self.registers.general = GENERAL.reset;
                return Outcome { number: OK, length: 0, changed: Part::Registers };
            }
        };
        let (number, response, body, changed) = match done {
            Ok((response, body, changed)) => (OK, response, body, changed),
            Err(number) => (number, Response::Fatal, 0, Part::Nothing),
        };
        Outcome { number, length: reply_with(reply, response, body, self.status()), changed }
    }

    fn post(&mut self, address: u64, data: &[u8], write_store: &mut [u8; WRITE_STORE_LEN]) -> Result<(), u32> {
        let (length, payload) = (data.len() as u32, self.registers.payload());
        if self.write.is_some() || !within(address, length, payload) {
            return Err(FATAL);
        }
        write_store[..data.len()].copy_from_slice(data);
        self.write = Some(Write { address, length, payload });
        Ok(())
    }

    fn ask(&mut self, kind: Kind, tag: u8, address: u64, length: u32, bytes: u32) -> Result<(), u32> {
        let (payload, read_size) = (self.registers.payload(), self.registers.read_size());
        let request = Request { phase: Phase::Open, kind, tag, address, length, payload, read_size, bytes, sent: 0 };
        if self.request.is_some() || !within(address, length, request.block()) {
            return Err(FATAL);
        }
        self.serial = self.serial.wrapping_add(1);
        self.request = Some(request);
        Ok(())
    }

    /// The next completion; its length in the reply. The request is held until its last one.
    fn hand_over(&mut self, reply: &mut [u8; REPLY_LEN], read_store: &[u8; READ_STORE_LEN]) -> Result<usize, u32> {
        let request = self.request.as_mut().ok_or(FATAL)?;
        let piece = request.next().ok_or(FATAL)?;
        let length = piece.length;
        reply[1] = piece.cycle;
        reply[2] = request.tag << 4 | (length >> 8) as u8;
        reply[3] = length as u8;
        reply[4..4 + length].copy_from_slice(&read_store[piece.from..piece.from + length]);
        request.sent += length as u32;
        if length == 0 || request.sent == request.length {
            self.request = None;
        }
        Ok(3 + length)
    }

    fn send_wires(&mut self, reply: &mut [u8; REPLY_LEN]) -> Result<usize, u32> {
        let body = (&mut reply[1..1 + BODY_LEN]).try_into().expect("the body's bytes");
        match self.wires.send(self.registers.operating_count(), body) {
            0 => Err(FATAL),
            length => Ok(length),
        }
    }

    /// If PLTRST# falls the platform reset follows the reply, which shows the status before it (02, Q-1).
    #[inline(always)]
    fn put_wires(&mut self, pairs: &[u8], reply: &mut [u8; REPLY_LEN]) -> Outcome {
        let fits = pairs.len() / 2 <= self.registers.operating_count();
        let Some(levels) = fits.then(|| self.wires.put(pairs)).flatten() else {
            return Outcome { number: FATAL, length: reply_with(reply, Response::Fatal, 0, self.status()), changed: Part::Nothing };
        };
        let was = self.wires.pltrst();
        self.wires.levels = levels;
        let length = reply_with(reply, Response::Accept, 0, self.status());
        if was && !self.wires.pltrst() {
            self.platform_reset();
            return Outcome { number: OK, length, changed: Part::All };
        }
        Outcome { number: OK, length, changed: Part::Wires }
    }

    /// The write takes effect after its own reply, which shows the status before it.
    #[inline(always)]
    fn configure(&mut self, address: u16, value: u32, reply: &mut [u8; REPLY_LEN]) -> Outcome {
        if forbidden(address, value) || self.wires.lines.edge_waits() && leaves_one(address, value) {
            let length = reply_with(reply, Response::NonFatal, 0, self.status());
            return Outcome { number: FORBIDDEN, length, changed: Part::Nothing };
        }
        let length = reply_with(reply, Response::Accept, 0, self.status());
        let was = self.registers;
        self.registers.write(address, value);
        let mut changed = Part::Registers;
        if was.on_0() && !self.registers.on_0() {
            self.drop_queues();
            changed = Part::All;
        }
        if was.on_1() != self.registers.on_1() {
            if was.on_1() {
                self.wires.disable();
            } else {
                self.wires.enable();
            }
            changed = Part::All;
        }
        Outcome { number: OK, length, changed }
    }

    /// The open request, if there is one.
    pub fn look(&self) -> Option<Look> {
        let request = self.request.filter(|request| request.phase == Phase::Open)?;
        let Request { kind, address, length, bytes, .. } = request;
        Some(Look { kind, address, length, serial: self.serial, bytes })
    }

    /// The answer to the request with this serial: success with exactly its length of data, or failure with none.
    pub fn answer(&mut self, read_store: &mut [u8; READ_STORE_LEN], serial: u32, success: bool, data: &[u8]) -> Result<(), u32> {
        let last = self.serial;
        let named = |request: &&mut Request| request.phase == Phase::Open && serial == last;
        let request = self.request.as_mut().filter(named).ok_or(NO_REQUEST)?;
        let wanted = if success { request.wanted() } else { 0 };
        if data.len() != wanted {
            return Err(BAD_COUNT);
        }
        read_store[..wanted].copy_from_slice(data);
        request.phase = if success { Phase::Success } else { Phase::Failure };
        Ok(())
    }

    /// The held write, whose place is free after it.
    pub fn take_write(&mut self) -> Option<Write> {
        self.write.take()
    }

    /// Sets one defined bit of an up group.
    pub fn set_wire(&mut self, index: u32, bit: u32, value: u32) -> Result<(), u32> {
        let (row, mask) = defined(index, bit).filter(|&(row, _)| GROUPS[row].up && value <= 1).ok_or(BAD_WIRE)?;
        self.wires.set(row, mask, value == 1, self.registers.on_1());
        Ok(())
    }

    /// One defined bit of any group.
    pub fn read_wire(&self, index: u32, bit: u32) -> Result<u32, u32> {
        let (row, mask) = defined(index, bit).ok_or(BAD_WIRE)?;
        Ok(u32::from(self.wires.levels[row] & mask != 0))
    }

    /// Raises or lowers a line (02, Q-4).
    pub fn set_line(&mut self, line: u32, level: u32) -> Result<(), u32> {
        let line = u8::try_from(line).ok().filter(|_| level <= 1).ok_or(BAD_WIRE)?;
        let done = self.wires.lines.set(line, level == 1, self.registers.on_1());
        done.then_some(()).ok_or(NOT_NOW)
    }

    /// Asks for an edge on a line (02, Q-4): it needs two places of a packet.
    pub fn pulse_line(&mut self, line: u32) -> Result<(), u32> {
        let line = u8::try_from(line).map_err(|_| BAD_WIRE)?;
        let can = self.registers.on_1() && self.registers.operating_count() > 1;
        let done = can && self.wires.lines.pulse(line);
        done.then_some(()).ok_or(NOT_NOW)
    }
}
