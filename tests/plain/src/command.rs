//! The decoder (01, Commands): numbers 12 to 16 in the order of 01's table.
use crate::crc::crc;
use crate::number::{BAD_CRC, BAD_CYCLE, BAD_LENGTH, BAD_OPCODE, CHANNEL_OFF};
use crate::peripheral::Kind;
use crate::registers::Registers;

pub enum Command<'a> {
    Write {
        address: u64,
        data: &'a [u8],
    },
    /// `bytes`: those of an I/O write, the first one lowest.
    Request {
        kind: Kind,
        tag: u8,
        address: u64,
        length: u32,
        bytes: u32,
    },
    GetPc,
    PutVwire {
        pairs: &'a [u8],
    },
    GetVwire,
    GetConfiguration {
        address: u16,
    },
    SetConfiguration {
        address: u16,
        value: u32,
    },
    GetStatus,
    Reset,
}

/// The command in the bytes of a command phase, or the number that refuses it.
#[inline(always)]
pub fn decode<'a>(registers: &Registers, bytes: &'a [u8]) -> Result<Command<'a>, u32> {
    let (&opcode, after) = bytes.split_first().ok_or(BAD_LENGTH)?;
    let on = match opcode {
        0x00..=0x02 | 0x40 | 0x41 | 0x43..=0x45 | 0x47..=0x49 | 0x4B..=0x4D | 0x4F => registers.on_0(),
        0x04 | 0x05 => registers.on_1(),
        0x21 | 0x22 | 0x25 => true,
        // No CRC, no reply.
        0xFF if bytes.len() >= 2 && bytes.iter().all(|&byte| byte == 0xFF) => return Ok(Command::Reset),
        _ => return Err(BAD_OPCODE),
    };
    if !on {
        return Err(CHANNEL_OFF);
    }
    let command = match opcode {
        0x00 => posted_write(after)?,
        0x01 => exactly(after, 0).map(|_| Command::GetPc)?,
        0x02 => long_read(after)?,
        0x04 => {
            let count = usize::from(*after.first().ok_or(BAD_LENGTH)? & 0x3F) + 1;
            Command::PutVwire { pairs: &exactly(after, 1 + 2 * count)?[1..] }
        }
        0x05 => exactly(after, 0).map(|_| Command::GetVwire)?,
        0x21 => Command::GetConfiguration { address: register(exactly(after, 2)?) },
        0x22 => {
            let fields = exactly(after, 6)?;
            Command::SetConfiguration { address: register(fields), value: low_first(&fields[2..]) }
        }
        0x25 => exactly(after, 0).map(|_| Command::GetStatus)?,
        _ => short(opcode, after)?,
    };
    let (last, before) = (bytes[bytes.len() - 1], &bytes[..bytes.len() - 1]);
    if registers.crc_checked() && crc(before) != last {
        return Err(BAD_CRC);
    }
    Ok(command)
}

/// The fields behind the opcode, if they are so many and the CRC byte follows.
fn exactly(after: &[u8], count: usize) -> Result<&[u8], u32> {
    if after.len() == count + 1 {
        Ok(&after[..count])
    } else {
        Err(BAD_LENGTH)
    }
}

fn high_first(bytes: &[u8]) -> u64 {
    bytes.iter().fold(0, |sum, &byte| sum << 8 | u64::from(byte))
}

fn low_first(bytes: &[u8]) -> u32 {
    bytes.iter().rev().fold(0, |sum, &byte| sum << 8 | u32::from(byte))
}

/// Address bits 1:0 and 15:12 are ignored.
fn register(fields: &[u8]) -> u16 {
    u16::from_be_bytes([fields[0], fields[1]]) & 0x0FFC
}

/// The bytes of the address by the cycle type: 12 where that is missing, 15 where it is not listed.
fn address_bytes(after: &[u8], narrow: u8, wide: u8) -> Result<usize, u32> {
    match *after.first().ok_or(BAD_LENGTH)? {
        cycle if cycle == narrow => Ok(4),
        cycle if cycle == wide => Ok(8),
        _ => Err(BAD_CYCLE),
    }
}

/// Length bits 11:8 stand beside the tag; length 0 means 4,096.
fn length(fields: &[u8]) -> usize {
    match usize::from(fields[1] & 0x0F) << 8 | usize::from(fields[2]) {
        0 => 4096,
        length => length,
    }
}

fn posted_write(after: &[u8]) -> Result<Command<'_>, u32> {
    let header = 3 + address_bytes(after, 0x01, 0x03)?;
    if after.len() < 3 {
        return Err(BAD_LENGTH);
    }
    let (fields, data) = exactly(after, header + length(after))?.split_at(header);
    Ok(Command::Write { address: high_first(&fields[3..]), data })
}

fn long_read(after: &[u8]) -> Result<Command<'_>, u32> {
    let fields = exactly(after, 3 + address_bytes(after, 0x00, 0x02)?)?;
    let (tag, length) = (fields[1] >> 4, length(fields) as u32);
    Ok(Command::Request { kind: Kind::MemoryRead, tag, address: high_first(&fields[3..]), length, bytes: 0 })
}

/// The four short accesses: I/O has 2 address bytes, memory 4. Tag 0.
fn short(opcode: u8, after: &[u8]) -> Result<Command<'_>, u32> {
    let size = usize::from(opcode & 3) + 1;
    let request = |kind, fields, bytes| Command::Request { kind, tag: 0, address: high_first(fields), length: size as u32, bytes };
    Ok(match opcode >> 2 & 3 {
        0 => request(Kind::IoRead, exactly(after, 2)?, 0),
        1 => {
            let (fields, data) = exactly(after, 2 + size)?.split_at(2);
            request(Kind::IoWrite, fields, low_first(data))
        }
        2 => request(Kind::MemoryRead, exactly(after, 4)?, 0),
        _ => {
            let (fields, data) = exactly(after, 4 + size)?.split_at(4);
            Command::Write { address: high_first(fields), data }
        }
    })
}
