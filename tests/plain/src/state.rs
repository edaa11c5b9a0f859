//! The target in 174 bytes (docs/STATE.md), and which bytes pack a sound one (01, Wires, "Sound state").
use crate::lines::{Lines, Map};
use crate::peripheral::{within, Kind, Phase, Request, Write};
use crate::registers::Registers;
use crate::target::{Part, Target};
use crate::wires::{Wires, GROUPS, SENDERS};
use crate::STATE_LEN;

fn word(bytes: &[u8; STATE_LEN], at: usize) -> u32 {
    u32::from_le_bytes(bytes[at..at + 4].try_into().expect("four bytes"))
}

fn long(bytes: &[u8; STATE_LEN], at: usize) -> u64 {
    u64::from_le_bytes(bytes[at..at + 8].try_into().expect("eight bytes"))
}

/// The target that the bytes pack, if they are the one form of a sound one.
#[inline(always)]
pub fn unpack(bytes: &[u8; STATE_LEN]) -> Option<Target> {
    let registers = Registers { general: word(bytes, 0), channel_0: word(bytes, 4), channel_1: word(bytes, 8) };
    let write = unpack_write(bytes)?;
    let request = unpack_request(bytes)?;
    let (on, two_fit) = (registers.on_1(), registers.operating_count() > 1);
    let lines = Lines { levels: map(bytes, LEVELS), waits: map(bytes, WAITS), edges: map(bytes, EDGES) };
    let idle = write.is_none() && request.is_none();
    let sound = registers.reachable() && (registers.on_0() || idle) && sound_wires(bytes, on) && lines.sound(on, two_fit);
    if !sound {
        return None;
    }
    let wires = Wires {
        levels: bytes[64..70].try_into().expect("six bytes"),
        pending: [bytes[72] == 1, bytes[73] == 1, bytes[74] == 1],
        place: place(bytes),
        lines,
    };
    Some(Target { registers, write, request, serial: word(bytes, 60), wires })
}

fn is_payload(size: u32) -> bool {
    matches!(size, 64 | 128 | 256)
}

fn is_read_size(size: u32) -> bool {
    size.is_power_of_two() && (64..=4096).contains(&size)
}

/// `None`: these bytes pack no sound held write, nor that there is none.
fn unpack_write(bytes: &[u8; STATE_LEN]) -> Option<Option<Write>> {
    let write = Write { address: long(bytes, 13), length: word(bytes, 21), payload: word(bytes, 25) };
    let Write { address, length, payload } = write;
    match bytes[12] {
        0 if (address, length, payload) == (0, 0, 0) => Some(None),
        1 if is_payload(payload) && length >= 1 && within(address, length, payload) => Some(Some(write)),
        _ => None,
    }
}

fn unpack_request(bytes: &[u8; STATE_LEN]) -> Option<Option<Request>> {
    let phase = match bytes[29] {
        0 => return (bytes[30..60] == [0; 30]).then_some(None),
        1 => Phase::Open,
        2 => Phase::Success,
        3 => Phase::Failure,
        _ => return None,
    };
    let kind = match bytes[30] {
        0 => Kind::MemoryRead,
        1 => Kind::IoRead,
        2 => Kind::IoWrite,
        _ => return None,
    };
    let request = Request {
        phase,
        kind,
        tag: bytes[31],
        address: long(bytes, 32),
        length: word(bytes, 40),
        payload: word(bytes, 44),
        read_size: word(bytes, 48),
        bytes: word(bytes, 52),
        sent: word(bytes, 56),
    };
    (is_made(&request) && is_sent(&request)).then_some(Some(request))
}

/// Whether a command makes it under the sizes recorded with it.
fn is_made(request: &Request) -> bool {
    let &Request { kind, tag, address, length, payload, read_size, bytes, .. } = request;
    let by_kind = match kind {
        Kind::MemoryRead => tag <= 15 && length >= 1 && bytes == 0,
        Kind::IoRead => is_short(request) && bytes == 0,
        Kind::IoWrite => is_short(request) && (length == 4 || bytes >> (8 * length) == 0),
    };
    is_payload(payload) && is_read_size(read_size) && by_kind && within(address, length, request.block())
}

fn is_short(request: &Request) -> bool {
    request.tag == 0 && request.address <= 0xFFFF && matches!(request.length, 1 | 2 | 4)
}

/// Bytes sent are 0 unless a read was answered with success, and end at a piece's edge, short of the whole.
fn is_sent(request: &Request) -> bool {
    let &Request { phase, kind, address, length, payload, sent, .. } = request;
    let at_edge = (address as u32).wrapping_add(sent) & (payload - 1) == 0;
    sent == 0 || phase == Phase::Success && kind != Kind::IoWrite && sent < length && at_edge
}

/// The levels' undefined bits, group 2 lowest, and the marks of groups 2 and 3 above them: all 0 in a sound state.
const NEVER_SET: u64 = {
    let mut bits = 0xFFFF << 48;
    let mut row = 0;
    while row < 6 {
        bits |= (!GROUPS[row].defined as u64) << (8 * row);
        row += 1;
    }
    bits
};

fn place(bytes: &[u8; STATE_LEN]) -> u16 {
    u16::from_le_bytes([bytes[76], bytes[77]])
}

/// Undefined wire bits are 0; up groups alone are pending, and none while channel 1 is off; the place is a sender.
fn sound_wires(bytes: &[u8; STATE_LEN], on: bool) -> bool {
    let may_wait = if on { 0x0001_0101 } else { 0 };
    long(bytes, 64) & NEVER_SET == 0 && word(bytes, 72) & !may_wait == 0 && usize::from(place(bytes)) < SENDERS
}

/// Where the lines' maps stand.
const LEVELS: usize = 78;
const WAITS: usize = 110;
const EDGES: usize = 142;

fn map(bytes: &[u8; STATE_LEN], at: usize) -> Map {
    [long(bytes, at), long(bytes, at + 8), long(bytes, at + 16), long(bytes, at + 24)]
}

/// Packs a target in the one form.
pub fn pack(target: &Target, bytes: &mut [u8; STATE_LEN]) {
    pack_part(target, Part::All, bytes);
}

/// Packs what a call has changed.
#[inline(always)]
pub fn pack_part(target: &Target, part: Part, bytes: &mut [u8; STATE_LEN]) {
    if matches!(part, Part::Registers | Part::All) {
        pack_registers(&target.registers, bytes);
    }
    if matches!(part, Part::Peripheral | Part::All) {
        pack_peripheral(target, bytes);
    }
    if matches!(part, Part::Wires | Part::Packet | Part::All) {
        pack_wires(&target.wires, bytes);
    }
    if matches!(part, Part::Lines | Part::Packet | Part::All) {
        pack_lines(&target.wires.lines, bytes);
    }
}

fn pack_registers(registers: &Registers, bytes: &mut [u8; STATE_LEN]) {
    bytes[0..4].copy_from_slice(&registers.general.to_le_bytes());
    bytes[4..8].copy_from_slice(&registers.channel_0.to_le_bytes());
    bytes[8..12].copy_from_slice(&registers.channel_1.to_le_bytes());
}

fn pack_peripheral(target: &Target, bytes: &mut [u8; STATE_LEN]) {
    match &target.write {
        None => bytes[12..29].fill(0),
        Some(write) => {
            bytes[12] = 1;
            bytes[13..21].copy_from_slice(&write.address.to_le_bytes());
            bytes[21..25].copy_from_slice(&write.length.to_le_bytes());
            bytes[25..29].copy_from_slice(&write.payload.to_le_bytes());
        }
    }
    match &target.request {
        None => bytes[29..60].fill(0),
        Some(request) => {
            bytes[29] = request.phase as u8 + 1;
            bytes[30] = request.kind as u8;
            bytes[31] = request.tag;
            bytes[32..40].copy_from_slice(&request.address.to_le_bytes());
            bytes[40..44].copy_from_slice(&request.length.to_le_bytes());
            bytes[44..48].copy_from_slice(&request.payload.to_le_bytes());
            bytes[48..52].copy_from_slice(&request.read_size.to_le_bytes());
            bytes[52..56].copy_from_slice(&request.bytes.to_le_bytes());
            bytes[56..60].copy_from_slice(&request.sent.to_le_bytes());
        }
    }
    bytes[60..64].copy_from_slice(&target.serial.to_le_bytes());
}

fn pack_wires(wires: &Wires, bytes: &mut [u8; STATE_LEN]) {
    bytes[64..70].copy_from_slice(&wires.levels);
    bytes[70..72].fill(0);
    bytes[72..75].copy_from_slice(&wires.pending.map(u8::from));
    bytes[75] = 0;
    bytes[76..78].copy_from_slice(&wires.place.to_le_bytes());
}

fn pack_lines(lines: &Lines, bytes: &mut [u8; STATE_LEN]) {
    for (at, map) in [(LEVELS, &lines.levels), (WAITS, &lines.waits), (EDGES, &lines.edges)] {
        for (eight, word) in bytes[at..at + 32].chunks_exact_mut(8).zip(map) {
            eight.copy_from_slice(&word.to_le_bytes());
        }
    }
}
