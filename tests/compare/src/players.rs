//! The engines that are compared, behind one trait: the archive and plain Rust over lent bytes, which are played by the same code, and
//! plain Rust as a struct. Each has its state and its stores.
use crate::mix::{Call, Event, Mix};
use differential::engine::Calls;
use plain::peripheral::Write;
use plain::target::{Look, Target};
use plain::{lent, state, LOOK_REPORT_LEN, READ_STORE_LEN, REPLY_LEN, STATE_LEN, TAKE_REPORT_LEN, WRITE_STORE_LEN};
use std::hint::black_box;

/// Begins at a cache line, in every player.
#[repr(align(64))]
struct Aligned<T>(T);

/// What a call may have changed.
pub struct Seen<'a> {
    pub state: [u8; STATE_LEN],
    pub reply: &'a [u8; REPLY_LEN],
    pub write_store: &'a [u8; WRITE_STORE_LEN],
    pub read_store: &'a [u8; READ_STORE_LEN],
    pub looked: [u8; LOOK_REPORT_LEN],
    pub taken: [u8; TAKE_REPORT_LEN],
}

/// An engine with its state and its stores. A call gives its word, whose number is in bits 7:0.
pub trait Player {
    /// The state as this engine keeps it.
    type State;

    /// The fresh state, and zeroes in the stores.
    fn new() -> Self;
    fn exchange(&mut self, command: &[u8]) -> u32;
    fn look(&mut self) -> u32;
    fn answer(&mut self, serial: u32, success: u32, data: &[u8]) -> u32;
    fn take_write(&mut self) -> u32;
    fn set_wire(&mut self, index: u32, bit: u32, value: u32) -> u32;
    fn read_wire(&mut self, index: u32, bit: u32) -> u32;
    fn set_line(&mut self, line: u32, level: u32) -> u32;
    fn pulse_line(&mut self, line: u32) -> u32;

    fn state_of(bytes: &[u8; STATE_LEN]) -> Self::State;
    fn put(&mut self, state: &Self::State);
    fn seen(&self) -> Seen<'_>;
}

/// Makes the call of an event.
#[inline(always)]
pub fn make<P: Player>(player: &mut P, mix: &Mix, event: &Event) -> u32 {
    match event.call {
        Call::Exchange { command } => player.exchange(mix.bytes(command)),
        Call::Look => player.look(),
        Call::Answer { serial, success, data } => player.answer(serial, success, mix.bytes(data)),
        Call::Take => player.take_write(),
        Call::SetWire { index, bit, value } => player.set_wire(index.into(), bit.into(), value.into()),
        Call::ReadWire { index, bit } => player.read_wire(index.into(), bit.into()),
        Call::SetLine { line, level } => player.set_line(line.into(), level.into()),
        Call::PulseLine { line } => player.pulse_line(line.into()),
    }
}

// ---- over lent bytes

/// Plain Rust over lent bytes.
#[derive(Default)]
pub struct Plain;

impl Calls for Plain {
    fn start(&mut self, state: &mut [u8]) -> u32 {
        lent::start(state)
    }

    fn reset(&mut self, state: &mut [u8]) -> u32 {
        lent::reset(state)
    }

    fn platform_reset(&mut self, state: &mut [u8]) -> u32 {
        lent::platform_reset(state)
    }

    #[inline(always)]
    fn exchange(&mut self, state: &mut [u8], command: &[u8], reply: &mut [u8], write_store: &mut [u8], read_store: &[u8]) -> u32 {
        lent::exchange(state, command, reply, write_store, read_store)
    }

    #[inline(always)]
    fn look(&mut self, state: &[u8], report: &mut [u8]) -> u32 {
        lent::look(state, report)
    }

    #[inline(always)]
    fn answer(&mut self, state: &mut [u8], read_store: &mut [u8], serial: u32, success: u32, data: &[u8]) -> u32 {
        lent::answer(state, read_store, serial, success, data)
    }

    #[inline(always)]
    fn take_write(&mut self, state: &mut [u8], write_store: &[u8], report: &mut [u8]) -> u32 {
        lent::take_write(state, write_store, report)
    }

    #[inline(always)]
    fn set_wire(&mut self, state: &mut [u8], index: u32, bit: u32, value: u32) -> u32 {
        lent::set_wire(state, index, bit, value)
    }

    #[inline(always)]
    fn read_wire(&mut self, state: &[u8], index: u32, bit: u32) -> u32 {
        lent::read_wire(state, index, bit)
    }

    #[inline(always)]
    fn set_line(&mut self, state: &mut [u8], line: u32, level: u32) -> u32 {
        lent::set_line(state, line, level)
    }

    #[inline(always)]
    fn pulse_line(&mut self, state: &mut [u8], line: u32) -> u32 {
        lent::pulse_line(state, line)
    }
}

/// The lengths of the lent stores. The compiler is kept from knowing them, or it would leave out the tests of plain Rust that the
/// archive, which it does not see into, has to make.
struct Lengths {
    state: usize,
    reply: usize,
    write_store: usize,
    read_store: usize,
    looked: usize,
    taken: usize,
}

/// An engine over lent bytes, and what is lent to it.
pub struct Lent<C> {
    engine: C,
    lengths: Lengths,
    state: Aligned<[u8; STATE_LEN]>,
    reply: Aligned<[u8; REPLY_LEN]>,
    write_store: Aligned<[u8; WRITE_STORE_LEN]>,
    read_store: Aligned<[u8; READ_STORE_LEN]>,
    looked: Aligned<[u8; LOOK_REPORT_LEN]>,
    taken: Aligned<[u8; TAKE_REPORT_LEN]>,
}

impl<C: Calls + Default> Player for Lent<C> {
    type State = [u8; STATE_LEN];

    fn new() -> Lent<C> {
        let lengths = Lengths {
            state: black_box(STATE_LEN),
            reply: black_box(REPLY_LEN),
            write_store: black_box(WRITE_STORE_LEN),
            read_store: black_box(READ_STORE_LEN),
            looked: black_box(LOOK_REPORT_LEN),
            taken: black_box(TAKE_REPORT_LEN),
        };
        let mut player = Lent {
            engine: C::default(),
            lengths,
            state: Aligned([0; STATE_LEN]),
            reply: Aligned([0; REPLY_LEN]),
            write_store: Aligned([0; WRITE_STORE_LEN]),
            read_store: Aligned([0; READ_STORE_LEN]),
            looked: Aligned([0; LOOK_REPORT_LEN]),
            taken: Aligned([0; TAKE_REPORT_LEN]),
        };
        player.engine.start(&mut player.state.0);
        player
    }

    #[inline(always)]
    fn exchange(&mut self, command: &[u8]) -> u32 {
        self.engine.exchange(
            &mut self.state.0[..self.lengths.state],
            command,
            &mut self.reply.0[..self.lengths.reply],
            &mut self.write_store.0[..self.lengths.write_store],
            &self.read_store.0[..self.lengths.read_store],
        )
    }

    #[inline(always)]
    fn look(&mut self) -> u32 {
        self.engine.look(&self.state.0[..self.lengths.state], &mut self.looked.0[..self.lengths.looked])
    }

    #[inline(always)]
    fn answer(&mut self, serial: u32, success: u32, data: &[u8]) -> u32 {
        let read_store = &mut self.read_store.0[..self.lengths.read_store];
        self.engine.answer(&mut self.state.0[..self.lengths.state], read_store, serial, success, data)
    }

    #[inline(always)]
    fn take_write(&mut self) -> u32 {
        let write_store = &self.write_store.0[..self.lengths.write_store];
        self.engine.take_write(&mut self.state.0[..self.lengths.state], write_store, &mut self.taken.0[..self.lengths.taken])
    }

    #[inline(always)]
    fn set_wire(&mut self, index: u32, bit: u32, value: u32) -> u32 {
        self.engine.set_wire(&mut self.state.0[..self.lengths.state], index, bit, value)
    }

    #[inline(always)]
    fn read_wire(&mut self, index: u32, bit: u32) -> u32 {
        self.engine.read_wire(&self.state.0[..self.lengths.state], index, bit)
    }

    #[inline(always)]
    fn set_line(&mut self, line: u32, level: u32) -> u32 {
        self.engine.set_line(&mut self.state.0[..self.lengths.state], line, level)
    }

    #[inline(always)]
    fn pulse_line(&mut self, line: u32) -> u32 {
        self.engine.pulse_line(&mut self.state.0[..self.lengths.state], line)
    }

    fn state_of(bytes: &[u8; STATE_LEN]) -> [u8; STATE_LEN] {
        *bytes
    }

    #[inline(always)]
    fn put(&mut self, state: &[u8; STATE_LEN]) {
        self.state.0 = *state;
    }

    fn seen(&self) -> Seen<'_> {
        Seen {
            state: self.state.0,
            reply: &self.reply.0,
            write_store: &self.write_store.0,
            read_store: &self.read_store.0,
            looked: self.looked.0,
            taken: self.taken.0,
        }
    }
}

// ---- as a struct

/// Plain Rust as a struct, with its stores.
pub struct Kept {
    target: Aligned<Target>,
    reply: Aligned<[u8; REPLY_LEN]>,
    write_store: Aligned<[u8; WRITE_STORE_LEN]>,
    read_store: Aligned<[u8; READ_STORE_LEN]>,
    looked: Option<Look>,
    taken: Option<Write>,
}

/// The board's calls of the struct. They are called and not inlined, as those over lent bytes are, so that they can be counted.
mod board {
    use super::{Look, Target, Write, READ_STORE_LEN};

    #[inline(never)]
    pub fn look(target: &Target) -> Option<Look> {
        target.look()
    }

    #[inline(never)]
    pub fn answer(target: &mut Target, read_store: &mut [u8; READ_STORE_LEN], serial: u32, success: u32, data: &[u8]) -> u32 {
        number(target.answer(read_store, serial, success != 0, data))
    }

    #[inline(never)]
    pub fn take_write(target: &mut Target) -> Option<Write> {
        target.take_write()
    }

    #[inline(never)]
    pub fn set_wire(target: &mut Target, index: u32, bit: u32, value: u32) -> u32 {
        number(target.set_wire(index, bit, value))
    }

    #[inline(never)]
    pub fn read_wire(target: &Target, index: u32, bit: u32) -> u32 {
        target.read_wire(index, bit).map_or_else(|number| number, |level| level << 8)
    }

    #[inline(never)]
    pub fn set_line(target: &mut Target, line: u32, level: u32) -> u32 {
        number(target.set_line(line, level))
    }

    #[inline(never)]
    pub fn pulse_line(target: &mut Target, line: u32) -> u32 {
        number(target.pulse_line(line))
    }

    fn number(done: Result<(), u32>) -> u32 {
        done.err().unwrap_or(0)
    }
}

impl Player for Kept {
    type State = Target;

    fn new() -> Kept {
        Kept {
            target: Aligned(Target::new()),
            reply: Aligned([0; REPLY_LEN]),
            write_store: Aligned([0; WRITE_STORE_LEN]),
            read_store: Aligned([0; READ_STORE_LEN]),
            looked: None,
            taken: None,
        }
    }

    #[inline(always)]
    fn exchange(&mut self, command: &[u8]) -> u32 {
        let outcome = self.target.0.exchange(command, &mut self.reply.0, &mut self.write_store.0, &self.read_store.0);
        (outcome.length as u32) << 8 | outcome.number
    }

    #[inline(always)]
    fn look(&mut self) -> u32 {
        self.looked = board::look(&self.target.0);
        if self.looked.is_some() {
            0
        } else {
            plain::number::NOTHING
        }
    }

    #[inline(always)]
    fn answer(&mut self, serial: u32, success: u32, data: &[u8]) -> u32 {
        board::answer(&mut self.target.0, &mut self.read_store.0, serial, success, data)
    }

    #[inline(always)]
    fn take_write(&mut self) -> u32 {
        self.taken = board::take_write(&mut self.target.0);
        if self.taken.is_some() {
            0
        } else {
            plain::number::NOTHING
        }
    }

    #[inline(always)]
    fn set_wire(&mut self, index: u32, bit: u32, value: u32) -> u32 {
        board::set_wire(&mut self.target.0, index, bit, value)
    }

    #[inline(always)]
    fn read_wire(&mut self, index: u32, bit: u32) -> u32 {
        board::read_wire(&self.target.0, index, bit)
    }

    #[inline(always)]
    fn set_line(&mut self, line: u32, level: u32) -> u32 {
        board::set_line(&mut self.target.0, line, level)
    }

    #[inline(always)]
    fn pulse_line(&mut self, line: u32) -> u32 {
        board::pulse_line(&mut self.target.0, line)
    }

    fn state_of(bytes: &[u8; STATE_LEN]) -> Target {
        state::unpack(bytes).expect("a state that calls have made is sound")
    }

    #[inline(always)]
    fn put(&mut self, state: &Target) {
        self.target.0.clone_from(state);
    }

    /// Reports as the calls over bytes have them.
    fn seen(&self) -> Seen<'_> {
        let mut bytes = [0; STATE_LEN];
        state::pack(&self.target.0, &mut bytes);
        let (mut looked, mut taken) = ([0; LOOK_REPORT_LEN], [0; TAKE_REPORT_LEN]);
        if let Some(look) = &self.looked {
            looked[0] = look.kind as u8;
            looked[1..9].copy_from_slice(&look.address.to_le_bytes());
            looked[9..11].copy_from_slice(&(look.length as u16).to_le_bytes());
            looked[11..15].copy_from_slice(&look.serial.to_le_bytes());
            looked[15..19].copy_from_slice(&look.bytes.to_le_bytes());
        }
        if let Some(write) = &self.taken {
            taken[0..8].copy_from_slice(&write.address.to_le_bytes());
            taken[8..10].copy_from_slice(&(write.length as u16).to_le_bytes());
        }
        Seen { state: bytes, reply: &self.reply.0, write_store: &self.write_store.0, read_store: &self.read_store.0, looked, taken }
    }
}
