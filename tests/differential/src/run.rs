//! A run: each call is made on two engines, each with stores of its own, and every byte is compared afterwards.
use crate::coverage::Coverage;
use crate::engine::Calls;
use crate::fault;
use crate::state::{pack, unpack, State, STATE_LEN};
use crate::traffic::{Call, Lengths, Random, Traffic, CALLS, ROOM};

/// Bytes before each lent slice; those behind it are what is left of its room.
const FRONT: usize = 19;

/// The rooms of the lent slices of one engine.
#[derive(Clone, PartialEq, Eq)]
struct Rooms {
    state: Vec<u8>,
    reply: Vec<u8>,
    write_store: Vec<u8>,
    read_store: Vec<u8>,
    report: Vec<u8>,
}

impl Rooms {
    fn new(random: &mut Random) -> Rooms {
        let mut room = |length: usize| {
            let mut bytes = vec![0; FRONT + length];
            random.fill(&mut bytes);
            bytes
        };
        Rooms {
            state: room(ROOM.state),
            reply: room(ROOM.reply),
            write_store: room(ROOM.write_store),
            read_store: room(ROOM.read_store),
            report: room(ROOM.report),
        }
    }

    /// Slices of these lengths.
    fn lend(&mut self, lengths: &Lengths) -> Lent<'_> {
        Lent {
            state: &mut self.state[FRONT..FRONT + lengths.state],
            reply: &mut self.reply[FRONT..FRONT + lengths.reply],
            write_store: &mut self.write_store[FRONT..FRONT + lengths.write_store],
            read_store: &mut self.read_store[FRONT..FRONT + lengths.read_store],
            report: &mut self.report[FRONT..FRONT + lengths.report],
        }
    }

    fn state_bytes(&self) -> &[u8] {
        &self.state[FRONT..FRONT + STATE_LEN]
    }

    fn named(&self) -> [(&'static str, &Vec<u8>); 5] {
        [
            ("state", &self.state),
            ("reply", &self.reply),
            ("write store", &self.write_store),
            ("read store", &self.read_store),
            ("report", &self.report),
        ]
    }
}

/// The slices lent to a call.
pub struct Lent<'a> {
    pub state: &'a mut [u8],
    pub reply: &'a mut [u8],
    pub write_store: &'a mut [u8],
    pub read_store: &'a mut [u8],
    pub report: &'a mut [u8],
}

/// Makes a call on these slices.
pub fn make(engine: &mut impl Calls, lent: Lent, call: &Call) -> u32 {
    let Lent { state, reply, write_store, read_store, report } = lent;
    match call {
        Call::Start => engine.start(state),
        Call::Reset => engine.reset(state),
        Call::PlatformReset => engine.platform_reset(state),
        Call::Exchange { command } => engine.exchange(state, command, reply, write_store, read_store),
        Call::Look => engine.look(state, report),
        Call::Answer { serial, success, data } => engine.answer(state, read_store, *serial, *success, data),
        Call::TakeWrite => engine.take_write(state, write_store, report),
        Call::SetWire { index, bit, value } => engine.set_wire(state, *index, *bit, *value),
        Call::ReadWire { index, bit } => engine.read_wire(state, *index, *bit),
        Call::SetLine { line, level } => engine.set_line(state, *line, *level),
        Call::PulseLine { line } => engine.pulse_line(state, *line),
    }
}

/// The first call after which the two engines differ.
pub struct Difference {
    pub at: u64,
    pub call: &'static str,
    pub text: String,
}

/// Makes the calls on both engines, from a start on. The first one is named `archive` in a report, the second `engine`.
pub fn run(archive: &mut impl Calls, engine: &mut impl Calls, calls: u64, seed: u64) -> Result<Coverage, Difference> {
    let mut traffic = Traffic::new(seed);
    let mut ours = Rooms::new(&mut traffic.random);
    let mut theirs = ours.clone();
    let mut coverage = Coverage::default();
    let mut now = None;
    for at in 0..calls {
        traffic.change_times();
        renew(&mut traffic, &mut ours, &mut theirs);
        // The first call is a start; then now and then another sound state is put in place.
        let mut before = now.take().unwrap_or_else(State::fresh);
        if at > 0 && traffic.replaces_state() {
            before = traffic.sound_state();
            put(&before, &mut ours, &mut theirs);
        }
        let mut kept = None;
        let mut shown = Some(before.clone());
        if at > 0 && traffic.random.once_in(16) {
            kept = Some(ours.state_bytes().to_vec());
            let bytes = traffic.damaged_bytes(&before);
            put_bytes(&bytes, &mut ours, &mut theirs);
            shown = unpack(&bytes, fault::NONE);
        }
        let hint = shown.as_ref().unwrap_or(&before);
        let (call, lengths) = if at == 0 {
            (Call::Start, ROOM)
        } else {
            let call = if kept.is_some() { traffic.call_on_damaged(hint) } else { traffic.call(hint) };
            let lengths = traffic.lengths(&call);
            (call, lengths)
        };
        let input = ours.state_bytes().to_vec();
        let lent = call.clone();
        let word = make(engine, ours.lend(&lengths), &call);
        let their_word = make(archive, theirs.lend(&lengths), &lent);
        if word != their_word || ours != theirs || !same_bytes(&call, &lent) {
            let mut text = format!("call {at} of seed {seed}: {call:X?}\n  {lengths:?}\n  state before: {}\n", hex(&input));
            text += &format!("  word: engine {word:X}, archive {their_word:X}\n");
            text += &differing(&ours, &theirs);
            if !same_bytes(&call, &lent) {
                text += "  the archive wrote to a slice that it may only read\n";
            }
            return Err(Difference { at, call: CALLS[call.row()], text });
        }
        let after = unpack(ours.state_bytes(), fault::NONE);
        let reply = &ours.reply[FRONT..];
        coverage.record(&call, shown.as_ref(), kept.is_some(), word, reply, after.as_ref());
        if shown.is_some() && after.is_none() {
            let text = format!("call {at} of seed {seed}: {call:X?} leaves a state that is not sound: {}\n", hex(ours.state_bytes()));
            return Err(Difference { at, call: CALLS[call.row()], text });
        }
        now = match kept {
            Some(bytes) => {
                put_bytes(&bytes, &mut ours, &mut theirs);
                Some(before)
            }
            None => after,
        };
    }
    Ok(coverage)
}

/// Now and then the bytes that no call owes anything to are new ones, the same for both.
fn renew(traffic: &mut Traffic, ours: &mut Rooms, theirs: &mut Rooms) {
    if traffic.random.once_in(40) {
        let past = FRONT + STATE_LEN;
        traffic.random.fill(&mut ours.state[past..]);
        if traffic.random.once_in(4) {
            ours.state[past..].fill(0xFF);
        }
        traffic.random.fill(&mut ours.reply);
        traffic.random.fill(&mut ours.write_store);
        traffic.random.fill(&mut ours.report);
        theirs.state[past..].copy_from_slice(&ours.state[past..]);
        theirs.reply.copy_from_slice(&ours.reply);
        theirs.write_store.copy_from_slice(&ours.write_store);
        theirs.report.copy_from_slice(&ours.report);
    }
    if traffic.random.once_in(400) {
        traffic.random.fill(&mut ours.read_store);
        theirs.read_store.copy_from_slice(&ours.read_store);
    }
}

fn put(state: &State, ours: &mut Rooms, theirs: &mut Rooms) {
    let mut bytes = [0; STATE_LEN];
    pack(state, &mut bytes);
    put_bytes(&bytes, ours, theirs);
}

fn put_bytes(bytes: &[u8], ours: &mut Rooms, theirs: &mut Rooms) {
    ours.state[FRONT..FRONT + STATE_LEN].copy_from_slice(bytes);
    theirs.state[FRONT..FRONT + STATE_LEN].copy_from_slice(bytes);
}

/// The read-only bytes of a call are as they were.
fn same_bytes(call: &Call, lent: &Call) -> bool {
    match (call, lent) {
        (Call::Exchange { command: kept }, Call::Exchange { command: used }) => kept == used,
        (Call::Answer { data: kept, .. }, Call::Answer { data: used, .. }) => kept == used,
        _ => true,
    }
}

fn hex(bytes: &[u8]) -> String {
    bytes.iter().map(|byte| format!("{byte:02X}")).collect::<Vec<_>>().join(" ")
}

/// The bytes in which two sets of rooms differ; offsets are those of the lent slice.
fn differing(ours: &Rooms, theirs: &Rooms) -> String {
    let mut text = String::new();
    for ((name, mine), (_, other)) in ours.named().into_iter().zip(theirs.named()) {
        let places: Vec<usize> = (0..mine.len()).filter(|&at| mine[at] != other[at]).collect();
        for &at in places.iter().take(12) {
            text += &format!("  {name} byte {}: engine {:02X}, archive {:02X}\n", at as isize - FRONT as isize, mine[at], other[at]);
        }
        if places.len() > 12 {
            text += &format!("  {name}: {} bytes differ in all\n", places.len());
        }
    }
    text += &format!("  state after: engine  {}\n               archive {}\n", hex(ours.state_bytes()), hex(theirs.state_bytes()));
    text += &format!(
        "  reply after: engine  {}\n               archive {}\n",
        hex(&ours.reply[FRONT..FRONT + 16]),
        hex(&theirs.reply[FRONT..FRONT + 16])
    );
    text
}
