//! The mix: exchanges as a terminal sees them, with refusals and damaged commands among them, and the board's calls between. It is
//! made once from a seed. The engine of tests/differential is carried along, so that what is sent fits what is held.
use crate::kind::{ByKind, Kind, KINDS};
use differential::engine::{crc, Calls, Engine, LOOK_REPORT_LEN, READ_STORE_LEN, REPLY_LEN, TAKE_REPORT_LEN, WRITE_STORE_LEN};
use differential::fault;
use differential::state::{unpack, Phase, State, FIRST_GROUP, GROUPS, STATE_LEN};
use differential::traffic::Random;

/// What host or board begins; what belongs to it follows by itself: the answer and every completion of a request, the take of a write,
/// the GET_VWIRE after wires or lines were set.
#[derive(Clone, Copy)]
enum Begins {
    GetStatus,
    GetConfiguration,
    /// Sizes, the operating count and 008h; seldom a channel off, commands to it, and on again.
    SetConfiguration,
    /// Of 1, 2 or 4 bytes, I/O or memory.
    ShortRead,
    IoWrite,
    /// PUT_NP of 1 to 4,096 bytes within the read request size.
    LongRead,
    /// Of 1 to 256 bytes within the payload size.
    PutPc,
    MemoryWrite,
    /// Mostly one pair, up to 64; one packet in 32 turns PLTRST#.
    PutVwire,
    /// The board sets one to three wires.
    SetWires,
    /// The board raises, lowers or pulses one to three lines, often a timer's or the keyboard's; one time in ten up to 64 of them.
    SetLines,
    /// FATAL: no credit, size, edge of a block, group count, third transition. NON_FATAL: a forbidden value.
    Refused,
    /// A wrong CRC, cut, too long, no such opcode or cycle type, empty.
    Damaged,
    Reset,
}

/// How often each is begun, of 1,000 times. Half as many exchanges again follow from them.
const SHARES: [(Begins, usize); 14] = [
    (Begins::GetStatus, 240),
    (Begins::GetConfiguration, 30),
    (Begins::SetConfiguration, 30),
    (Begins::ShortRead, 200),
    (Begins::IoWrite, 120),
    (Begins::LongRead, 40),
    (Begins::PutPc, 60),
    (Begins::MemoryWrite, 40),
    (Begins::PutVwire, 80),
    (Begins::SetWires, 50),
    (Begins::SetLines, 30),
    (Begins::Refused, 40),
    (Begins::Damaged, 39),
    (Begins::Reset, 1),
];

/// So many bytes of the mix, from a place on.
#[derive(Clone, Copy)]
pub struct Span {
    from: u32,
    length: u32,
}

#[derive(Clone, Copy)]
pub enum Call {
    Exchange { command: Span },
    Look,
    Answer { serial: u32, success: u32, data: Span },
    Take,
    SetWire { index: u8, bit: u8, value: u8 },
    ReadWire { index: u8, bit: u8 },
    SetLine { line: u8, level: u8 },
    PulseLine { line: u8 },
}

#[derive(Clone, Copy)]
pub struct Event {
    pub kind: Kind,
    pub call: Call,
}

pub struct Mix {
    pub events: Vec<Event>,
    pub exchanges: usize,
    /// The block that answers take their data from, then the commands in order.
    bytes: Vec<u8>,
}

/// The block that answers take their data from: 4,096 bytes from any of its first 4,096 places on.
const DATA: usize = 8192;

impl Mix {
    /// So many exchanges and the calls before the last of them. Fewer of the same seed are the first of more.
    pub fn new(exchanges: usize, seed: u64) -> Mix {
        let mut maker = Maker::new(seed);
        while maker.mix.exchanges < exchanges {
            maker.step();
        }
        let mut mix = maker.mix;
        while mix.exchanges > exchanges {
            let dropped = mix.events.pop().expect("each exchange is an event");
            mix.exchanges -= usize::from(dropped.kind.is_exchange());
        }
        mix
    }

    #[inline(always)]
    pub fn bytes(&self, span: Span) -> &[u8] {
        &self.bytes[span.from as usize..][..span.length as usize]
    }

    pub fn board_calls(&self) -> usize {
        self.events.len() - self.exchanges
    }

    /// How many events of each kind there are.
    pub fn counts(&self) -> ByKind<usize> {
        let mut counts = [0; KINDS.len()];
        for event in &self.events {
            counts[event.kind.row()] += 1;
        }
        counts
    }
}

/// Host and board, and the engine between them.
struct Maker {
    random: Random,
    engine: Engine,
    state: [u8; STATE_LEN],
    reply: [u8; REPLY_LEN],
    write_store: [u8; WRITE_STORE_LEN],
    read_store: [u8; READ_STORE_LEN],
    now: State,
    mix: Mix,
}

impl Maker {
    fn new(seed: u64) -> Maker {
        let mut random = Random::new(seed);
        let mix = Mix { events: Vec::new(), exchanges: 0, bytes: random.bytes(DATA) };
        let mut engine = Engine { fault: fault::NONE };
        let mut state = [0; STATE_LEN];
        engine.start(&mut state);
        let (reply, write_store, read_store) = ([0; REPLY_LEN], [0; WRITE_STORE_LEN], [0; READ_STORE_LEN]);
        Maker { random, engine, state, reply, write_store, read_store, now: State::fresh(), mix }
    }

    fn below(&mut self, n: usize) -> usize {
        self.random.below(n)
    }

    fn once_in(&mut self, n: usize) -> bool {
        self.random.once_in(n)
    }

    fn pick<T: Copy>(&mut self, from: &[T]) -> T {
        self.random.pick(from)
    }

    // ---- events

    fn event(&mut self, kind: Kind, call: Call) {
        self.now = unpack(&self.state, fault::NONE).expect("a state that calls have made is sound");
        self.mix.events.push(Event { kind, call });
    }

    /// An exchange of these bytes, the last of which is in the CRC's place.
    fn exchange(&mut self, command: &[u8]) {
        let word = self.engine.exchange(&mut self.state, command, &mut self.reply, &mut self.write_store, &self.read_store);
        let span = Span { from: self.mix.bytes.len() as u32, length: command.len() as u32 };
        self.mix.bytes.extend_from_slice(command);
        self.mix.exchanges += 1;
        self.event(Kind::of_exchange(command, word), Call::Exchange { command: span });
    }

    /// An exchange of these bytes and their CRC.
    fn send(&mut self, mut command: Vec<u8>) {
        command.push(crc(&command, 0));
        self.exchange(&command);
    }

    /// The board looks at the open request and answers it, one time in 16 with a failure.
    fn answer(&mut self) {
        self.engine.look(&self.state, &mut [0; LOOK_REPORT_LEN]);
        self.event(Kind::Look, Call::Look);
        let Some(request) = self.now.request else { return };
        let success = u32::from(!self.once_in(16));
        let is_read = request.kind != differential::state::Kind::IoWrite;
        let length = if success == 1 && is_read { request.length } else { 0 };
        let data = Span { from: self.below(DATA / 2) as u32, length };
        let serial = self.now.serial;
        self.engine.answer(&mut self.state, &mut self.read_store, serial, success, self.mix.bytes(data));
        self.event(Kind::of_answer(self.mix.bytes(data)), Call::Answer { serial, success, data });
    }

    fn take(&mut self) {
        self.engine.take_write(&mut self.state, &self.write_store, &mut [0; TAKE_REPORT_LEN]);
        self.event(Kind::Take, Call::Take);
    }

    /// The board sets one of its wires, mostly to the other level.
    fn set_wire(&mut self) {
        let (index, bit) = self.pick(&[(4, 0), (4, 2), (4, 3), (5, 0), (5, 1), (5, 2), (5, 3), (6, 0), (6, 1), (6, 2), (6, 3)]);
        let level = self.now.levels[usize::from(index) - FIRST_GROUP] >> bit & 1;
        let value = if self.once_in(8) { level } else { level ^ 1 };
        self.engine.set_wire(&mut self.state, index.into(), bit.into(), value.into());
        self.event(Kind::SetWire, Call::SetWire { index, bit, value });
    }

    fn read_wire(&mut self) {
        let (index, bit) = self.pick(&[(2, 0), (2, 1), (2, 2), (3, 0), (3, 1), (3, 2), (7, 0), (7, 1), (7, 2)]);
        self.engine.read_wire(&self.state, index.into(), bit.into());
        self.event(Kind::ReadWire, Call::ReadWire { index, bit });
    }

    /// The board turns a line or, one time in three, pulses it.
    fn set_line(&mut self, line: u8) {
        if self.once_in(3) {
            self.engine.pulse_line(&mut self.state, line.into());
            self.event(Kind::PulseLine, Call::PulseLine { line });
        } else {
            let level = u8::from(!self.now.lines[usize::from(line)].high);
            self.engine.set_line(&mut self.state, line.into(), level.into());
            self.event(Kind::SetLine, Call::SetLine { line, level });
        }
    }

    // ---- what is held

    fn is_open(&self) -> bool {
        self.now.request.is_some_and(|request| request.phase == Phase::Open)
    }

    fn is_ready(&self) -> bool {
        self.now.request.is_some_and(|request| request.phase != Phase::Open)
    }

    /// A request is answered and its completions are fetched, so that another one finds a place.
    fn free_request(&mut self) {
        if self.is_open() {
            self.answer();
        }
        while self.is_ready() {
            self.send(vec![0x01]);
        }
    }

    fn free_write(&mut self) {
        if self.now.write.is_some() {
            self.take();
        }
    }

    // ---- the course

    /// The board does its work, mostly at once, and the host fetches what is ready or begins something.
    fn step(&mut self) {
        if self.is_open() && !self.once_in(4) {
            self.answer();
        }
        if self.now.write.is_some() && !self.once_in(4) {
            self.take();
        }
        self.set_right();
        let pending = self.now.something_waits();
        if self.is_ready() && !self.once_in(4) {
            if self.once_in(4) {
                self.send(vec![0x25]);
            }
            self.send(vec![0x01]);
        } else if pending && self.once_in(2) {
            self.send(vec![0x05]);
        } else {
            self.begin();
        }
    }

    /// The host soon has CRCs checked and both channels on again.
    fn set_right(&mut self) {
        if !self.now.crc_checked() && self.once_in(20) {
            self.set_general(true);
        }
        if !self.now.on0() && self.once_in(2) {
            self.set_sizes(true);
        }
        if !self.now.on1() && self.once_in(2) {
            self.set_count(true);
        }
    }

    fn begin(&mut self) {
        let mut at = self.below(SHARES.iter().map(|share| share.1).sum());
        let share = SHARES.iter().find(|share| {
            let here = at < share.1;
            at = at.saturating_sub(share.1);
            here
        });
        match share.expect("a number below the sum").0 {
            Begins::GetStatus => self.send(vec![0x25]),
            Begins::GetConfiguration => {
                let command = self.get_configuration();
                self.send(command);
            }
            Begins::SetConfiguration => self.set_configuration(),
            Begins::ShortRead => {
                self.free_request();
                let command = self.short_read();
                self.send(command);
            }
            Begins::IoWrite => {
                self.free_request();
                let command = self.short(0x44, 2, true);
                self.send(command);
            }
            Begins::LongRead => {
                self.free_request();
                let command = self.long_read();
                self.send(command);
            }
            Begins::PutPc => {
                self.free_write();
                let command = self.put_pc();
                self.send(command);
            }
            Begins::MemoryWrite => {
                self.free_write();
                let command = self.short(0x4C, 4, true);
                self.send(command);
            }
            Begins::PutVwire => {
                let command = self.put_vwire();
                self.send(command);
                if self.once_in(2) {
                    self.read_wire();
                }
            }
            Begins::SetWires => {
                for _ in 0..self.pick(&[1, 1, 2, 3]) {
                    self.set_wire();
                }
            }
            Begins::SetLines => {
                let many = self.once_in(10);
                let count = if many { 1 + self.below(64) } else { self.pick(&[1, 1, 2, 3]) };
                for _ in 0..count {
                    let any = self.random.byte();
                    let line = if many { any } else { self.pick(&[0, 1, 8, 12, any, any]) };
                    self.set_line(line);
                }
            }
            Begins::Refused => self.refused(),
            Begins::Damaged => self.damaged(),
            Begins::Reset => {
                let length = self.pick(&[2, 2, 2, 3, 8]);
                self.exchange(&[0xFF; 8][..length]);
            }
        }
    }

    // ---- registers

    fn get_configuration(&mut self) -> Vec<u8> {
        vec![0x21, 0x00, self.pick(&[0x04, 0x08, 0x08, 0x10, 0x10, 0x20, 0x20, 0x40])]
    }

    fn write_register(&mut self, address: u8, value: u32) {
        let mut command = vec![0x22, 0x00, address];
        command.extend(value.to_le_bytes());
        self.send(command);
    }

    /// 008h: any legal mode and frequency.
    fn set_general(&mut self, checked: bool) {
        let (mode, frequency, wait) = (self.below(3) as u32, self.below(5) as u32, self.below(16) as u32);
        self.write_register(0x08, u32::from(checked) << 31 | mode << 26 | frequency << 20 | wait << 12);
    }

    /// 010h: any payload size, and of the read request sizes the largest more often.
    fn set_sizes(&mut self, on: bool) {
        let (payload, read) = (self.pick(&[1, 2, 3]), self.pick(&[1, 2, 3, 4, 5, 6, 7, 7, 7]));
        self.write_register(0x10, read << 12 | payload << 8 | u32::from(on));
    }

    /// 020h.
    fn set_count(&mut self, on: bool) {
        let count: u32 = self.pick(&[1, 4, 8, 16, 64, 64, 64, 64]);
        self.write_register(0x20, (count - 1) << 16 | u32::from(on));
    }

    fn set_configuration(&mut self) {
        match self.below(20) {
            0..=9 => self.set_sizes(true),
            10..=13 => {
                let checked = !self.once_in(8);
                self.set_general(checked);
            }
            14..=17 => self.set_count(true),
            18 => self.write_register(0x40, 0),
            _ if self.once_in(2) => {
                self.set_sizes(false);
                for _ in 0..self.below(3) {
                    let command = if self.once_in(2) { vec![0x01] } else { self.short_read() };
                    self.send(command);
                }
                self.set_sizes(true);
            }
            _ => {
                self.set_count(false);
                for _ in 0..self.below(3) {
                    let command = if self.once_in(2) { vec![0x05] } else { self.put_vwire() };
                    self.send(command);
                }
                self.set_count(true);
            }
        }
    }

    // ---- channel 0

    /// A short access at an address of so many bytes, which is a multiple of its size.
    fn short(&mut self, opcode: u8, address_bytes: usize, with_data: bool) -> Vec<u8> {
        let (code, size) = self.pick(&[(0, 1), (1, 2), (3, 4)]);
        let address = self.random.word() & !(size as u32 - 1);
        let mut command = vec![opcode + code];
        command.extend(&address.to_be_bytes()[4 - address_bytes..]);
        if with_data {
            command.extend(self.random.bytes(size));
        }
        command
    }

    fn short_read(&mut self) -> Vec<u8> {
        if self.once_in(2) {
            self.short(0x40, 2, false)
        } else {
            self.short(0x48, 4, false)
        }
    }

    /// A long header: cycle types of 32-bit and 64-bit addresses; so many bytes from any place on at which they stay within a block.
    fn long(&mut self, opcode: u8, cycles: [u8; 2], block: u32, length: u32) -> Vec<u8> {
        let room = block.saturating_sub(length);
        let into = if self.once_in(2) { 0 } else { self.below(room as usize + 1) as u64 };
        let address = self.random.double() & !u64::from(block - 1) | into;
        let tag = self.below(16) as u8;
        let wide = usize::from(self.once_in(3));
        let mut command = vec![opcode, cycles[wide], tag << 4 | (length >> 8 & 0x0F) as u8, length as u8];
        command.extend(&address.to_be_bytes()[4 - 4 * wide..]);
        command
    }

    /// Mostly short ones, so that pieces are no more than a few of a read's: half have up to 64 bytes, one in eight up to 4,096.
    fn read_length(&mut self) -> u32 {
        let most = self.pick(&[64, 64, 64, 64, 256, 256, 1024, 4096]);
        1 + self.below(most) as u32
    }

    fn long_read(&mut self) -> Vec<u8> {
        let block = self.now.read_size();
        let length = self.read_length().min(block);
        self.long(0x02, [0x00, 0x02], block, length)
    }

    fn put_pc_of(&mut self, length: u32) -> Vec<u8> {
        let block = self.now.payload();
        let mut command = self.long(0x00, [0x01, 0x03], block, length);
        command.extend(self.random.bytes(length as usize));
        command
    }

    fn put_pc(&mut self) -> Vec<u8> {
        let length = 1 + self.below(self.now.payload() as usize) as u32;
        self.put_pc_of(length)
    }

    // ---- channel 1

    fn put_vwire(&mut self) -> Vec<u8> {
        let count = match self.below(16) {
            0..=10 => 1,
            11..=13 => 2 + self.below(7),
            _ => 1 + self.below(64),
        };
        let count = count.min(self.now.operating_count());
        let mut command = self.packet(count);
        if self.once_in(32) {
            let high = self.now.levels[3 - FIRST_GROUP] & 0x02;
            let end = command.len();
            command[end - 2..].copy_from_slice(&[3, 0x20 | high ^ 0x02]);
        }
        command
    }

    /// A packet of so many pairs, in which no wire has a third transition and PLTRST# is not named; one pair in eight is of a group that
    /// is passed over.
    fn packet(&mut self, count: usize) -> Vec<u8> {
        let mut levels = self.now.levels;
        let mut changes = [[0; 4]; 6];
        let mut command = vec![0x04, count as u8 - 1];
        for _ in 0..count {
            let index: u8 = if self.once_in(8) { self.pick(&[0, 1, 4, 5, 6, 8, 0x82]) } else { self.pick(&[2, 3, 7]) };
            let mut data = self.random.byte() & if index == 3 { 0xDF } else { 0xFF };
            let row = usize::from(index).wrapping_sub(FIRST_GROUP);
            if GROUPS.get(row).is_some_and(|group| !group.up) {
                for (bit, changed) in changes[row].iter_mut().enumerate() {
                    let changes_now = data >> (4 + bit) & 1 == 1 && (data ^ levels[row]) >> bit & 1 == 1;
                    if changes_now && (*changed == 2 || !self.once_in(1 + count / 4)) {
                        data ^= 1 << bit;
                    } else if changes_now {
                        levels[row] ^= 1 << bit;
                        *changed += 1;
                    }
                }
            }
            command.extend([index, data]);
        }
        command
    }

    // ---- what is refused

    fn refused(&mut self) {
        let command = match self.below(9) {
            // No credit.
            0 => {
                while self.is_ready() {
                    self.send(vec![0x01]);
                }
                vec![0x01]
            }
            1 => {
                if self.now.request.is_none() {
                    let first = self.short_read();
                    self.send(first);
                }
                if self.once_in(2) {
                    self.short_read()
                } else {
                    self.long_read()
                }
            }
            2 => {
                if self.now.write.is_none() {
                    let first = self.put_pc();
                    self.send(first);
                }
                self.put_pc()
            }
            3 => {
                while self.now.something_waits() {
                    self.send(vec![0x05]);
                }
                vec![0x05]
            }
            // Over the size or a block's edge.
            4 => {
                self.free_request();
                let block = self.now.read_size();
                let mut command = self.long(0x02, [0x00, 0x02], block, block);
                let last = command.len() - 1;
                command[last] |= 1 + self.below(63) as u8;
                command
            }
            5 => {
                self.free_write();
                let more = self.now.payload() + 1 + self.below(8) as u32;
                self.put_pc_of(more)
            }
            // More groups than the operating count; three transitions.
            6 if self.now.operating_count() < 64 => {
                let count = self.now.operating_count() + 1;
                self.packet(count)
            }
            6 | 7 => {
                let level = self.now.levels[0] & 1;
                let (turned, back) = (0x10 | level ^ 1, 0x10 | level);
                vec![0x04, 2, 2, turned, 2, back, 2, turned]
            }
            // A value that the register forbids.
            _ => {
                let (address, value): (u8, u32) =
                    self.pick(&[(0x08, 0x8C00_0000), (0x08, 0x8050_0000), (0x10, 0x0000_0001), (0x10, 0x0000_1401)]);
                let mut command = vec![0x22, 0x00, address];
                command.extend(value.to_le_bytes());
                command
            }
        };
        self.send(command);
    }

    /// A command that would be well formed, without its CRC.
    fn any(&mut self) -> Vec<u8> {
        match self.below(10) {
            0 | 1 => vec![0x25],
            2 => self.get_configuration(),
            3 | 4 => self.short_read(),
            5 => self.short(0x44, 2, true),
            6 => self.long_read(),
            7 | 8 => self.put_pc(),
            _ => self.put_vwire(),
        }
    }

    fn damaged(&mut self) {
        let mut command = self.any();
        match self.below(8) {
            0 | 1 if self.now.crc_checked() => {
                let wrong = crc(&command, 0) ^ 1 << self.below(8);
                command.push(wrong);
                return self.exchange(&command);
            }
            0..=2 => command.truncate(self.below(command.len())),
            3 => {
                let more = 1 + self.below(8);
                command.extend(self.random.bytes(more));
            }
            4 => command[0] = self.pick(&[0x03, 0x06, 0x0A, 0x20, 0x24, 0x42, 0x46, 0x4A, 0x80, 0xFE]),
            5 => command = vec![self.pick(&[0x00, 0x02]), self.pick(&[0x04, 0x05, 0x0F, 0x11]), 0x00, 0x04, 0x00, 0x00, 0x10, 0x00],
            6 => return self.exchange(&[]),
            _ => return self.exchange(&[0xFF]),
        }
        self.send(command);
    }
}
