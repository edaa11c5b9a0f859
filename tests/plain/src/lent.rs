//! The eleven calls of include/espi.h over lent bytes. Each returns a word: bits 7:0 its number, bits 31:8 its value. The state's
//! bytes are unpacked and tested by every call but start, and packed again where the call has changed something.
use crate::number::{BAD_WIRE, NOTHING, NOT_SOUND, OK, SHORT_STORE};
use crate::state::{pack, pack_part, unpack};
use crate::target::{Part, Target};
use crate::{LOOK_REPORT_LEN, READ_STORE_LEN, REPLY_LEN, STATE_LEN, TAKE_REPORT_LEN, WRITE_STORE_LEN};

/// What a call does with the target in the state's bytes: its word, and the part that it has changed.
#[inline(always)]
fn changed(state: &mut [u8], change: impl FnOnce(&mut Target) -> (u32, Part)) -> u32 {
    let Some(bytes) = state.first_chunk_mut::<STATE_LEN>() else {
        return SHORT_STORE;
    };
    let Some(mut target) = unpack(bytes) else {
        return NOT_SOUND;
    };
    let (word, part) = change(&mut target);
    pack_part(&target, part, bytes);
    word
}

/// A board call's word, and its part where it is not refused.
fn part_if_done(done: Result<(), u32>, part: Part) -> (u32, Part) {
    match done {
        Ok(()) => (OK, part),
        Err(number) => (number, Part::Nothing),
    }
}

#[inline(never)]
pub fn start(state: &mut [u8]) -> u32 {
    let Some(bytes) = state.first_chunk_mut::<STATE_LEN>() else {
        return SHORT_STORE;
    };
    pack(&Target::new(), bytes);
    OK
}

#[inline(never)]
pub fn reset(state: &mut [u8]) -> u32 {
    changed(state, |target| {
        target.reset();
        (OK, Part::All)
    })
}

#[inline(never)]
pub fn platform_reset(state: &mut [u8]) -> u32 {
    changed(state, |target| {
        target.platform_reset();
        (OK, Part::All)
    })
}

#[inline(never)]
pub fn exchange(state: &mut [u8], command: &[u8], reply: &mut [u8], write_store: &mut [u8], read_store: &[u8]) -> u32 {
    let (Some(reply), Some(write_store), Some(read_store)) = (
        reply.first_chunk_mut::<REPLY_LEN>(),
        write_store.first_chunk_mut::<WRITE_STORE_LEN>(),
        read_store.first_chunk::<READ_STORE_LEN>(),
    ) else {
        return SHORT_STORE;
    };
    changed(state, |target| {
        let outcome = target.carry_out(command, reply, write_store, read_store);
        ((outcome.length as u32) << 8 | outcome.number, outcome.changed)
    })
}

#[inline(never)]
pub fn look(state: &[u8], report: &mut [u8]) -> u32 {
    let (Some(bytes), Some(report)) = (state.first_chunk::<STATE_LEN>(), report.first_chunk_mut::<LOOK_REPORT_LEN>()) else {
        return SHORT_STORE;
    };
    let Some(target) = unpack(bytes) else {
        return NOT_SOUND;
    };
    let Some(look) = target.look() else {
        return NOTHING;
    };
    report[0] = look.kind as u8;
    report[1..9].copy_from_slice(&look.address.to_le_bytes());
    report[9..11].copy_from_slice(&(look.length as u16).to_le_bytes());
    report[11..15].copy_from_slice(&look.serial.to_le_bytes());
    report[15..19].copy_from_slice(&look.bytes.to_le_bytes());
    OK
}

#[inline(never)]
pub fn answer(state: &mut [u8], read_store: &mut [u8], serial: u32, success: u32, data: &[u8]) -> u32 {
    let Some(read_store) = read_store.first_chunk_mut::<READ_STORE_LEN>() else {
        return SHORT_STORE;
    };
    changed(state, |target| part_if_done(target.answer(read_store, serial, success != 0, data), Part::Peripheral))
}

#[inline(never)]
pub fn take_write(state: &mut [u8], write_store: &[u8], report: &mut [u8]) -> u32 {
    let Some(report) = report.first_chunk_mut::<TAKE_REPORT_LEN>().filter(|_| write_store.len() >= WRITE_STORE_LEN) else {
        return SHORT_STORE;
    };
    changed(state, |target| {
        let Some(write) = target.take_write() else {
            return (NOTHING, Part::Nothing);
        };
        report[0..8].copy_from_slice(&write.address.to_le_bytes());
        report[8..10].copy_from_slice(&(write.length as u16).to_le_bytes());
        (OK, Part::Peripheral)
    })
}

#[inline(never)]
pub fn set_wire(state: &mut [u8], index: u32, bit: u32, value: u32) -> u32 {
    changed(state, |target| part_if_done(target.set_wire(index, bit, value), Part::Wires))
}

#[inline(never)]
pub fn read_wire(state: &[u8], index: u32, bit: u32) -> u32 {
    let Some(bytes) = state.first_chunk::<STATE_LEN>() else {
        return SHORT_STORE;
    };
    let Some(target) = unpack(bytes) else {
        return NOT_SOUND;
    };
    target.read_wire(index, bit).map_or(BAD_WIRE, |level| level << 8 | OK)
}

#[inline(never)]
pub fn set_line(state: &mut [u8], line: u32, level: u32) -> u32 {
    changed(state, |target| part_if_done(target.set_line(line, level), Part::Lines))
}

#[inline(never)]
pub fn pulse_line(state: &mut [u8], line: u32) -> u32 {
    changed(state, |target| part_if_done(target.pulse_line(line), Part::Lines))
}
