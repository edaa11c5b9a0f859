//! Channel 1 (01, Wires): six groups, indexes 2 to 7, and the lines (02, Q-4), and the packets of both.
use crate::lines::{Lines, LINES};

/// A row of the wire table; groups 2 and 3 have the reset values of source 004, tables 9 and 10.
pub struct Group {
    pub up: bool,
    pub defined: u8,
    pub reset: u8,
}

pub const GROUPS: [Group; 6] = [
    Group { up: false, defined: 0x7, reset: 0x0 },
    Group { up: false, defined: 0x7, reset: 0x0 },
    Group { up: true, defined: 0xD, reset: 0xC },
    Group { up: true, defined: 0xF, reset: 0x0 },
    Group { up: true, defined: 0xF, reset: 0x7 },
    Group { up: false, defined: 0x7, reset: 0x6 },
];

const FIRST_INDEX: u8 = 2;
/// The up groups: 4, 5 and 6.
const UPS: usize = 3;
const FIRST_UP: usize = 2;
/// The senders of a going round: the lines, then the up groups. It begins with group 4.
pub const SENDERS: usize = LINES + UPS;
const FIRST_PLACE: u16 = LINES as u16;

/// The longest body of a GET_VWIRE's reply.
pub const BODY_LEN: usize = 1 + 2 * 64;

#[derive(Clone, Copy, Debug, PartialEq, Eq)]
pub struct Wires {
    pub levels: [u8; 6],
    /// The marks of the up groups.
    pub pending: [bool; UPS],
    /// The sender that the next GET_VWIRE begins with.
    pub place: u16,
    pub lines: Lines,
}

/// A packet that is being filled.
struct Packet<'a> {
    body: &'a mut [u8; BODY_LEN],
    entries: usize,
    count: usize,
}

impl Packet<'_> {
    fn fits(&self, entries: usize) -> bool {
        self.entries + entries <= self.count
    }

    fn put(&mut self, index: u8, data: u8) {
        self.body[1 + 2 * self.entries] = index;
        self.body[2 + 2 * self.entries] = data;
        self.entries += 1;
    }
}

impl Wires {
    pub const RESET: Wires = {
        let mut levels = [0; 6];
        let mut row = 0;
        while row < 6 {
            levels[row] = GROUPS[row].reset;
            row += 1;
        }
        Wires { levels, pending: [false; UPS], place: FIRST_PLACE, lines: Lines::RESET }
    };

    pub fn any_pending(&self) -> bool {
        self.pending.contains(&true) || self.lines.any_waits()
    }

    /// PLTRST#, bit 1 of group 3 (source 004, table 10).
    pub fn pltrst(&self) -> bool {
        self.levels[1] & 2 != 0
    }

    /// The levels after a packet's pairs, or `None` if a wire has a third transition in it (02, Q-6). Only valid and defined bits
    /// of down groups change, other groups are passed over.
    pub fn put(&self, pairs: &[u8]) -> Option<[u8; 6]> {
        let mut levels = self.levels;
        let (mut once, mut twice, mut third) = ([0; 6], [0; 6], 0);
        for pair in pairs.chunks_exact(2) {
            let (row, data) = (usize::from(pair[0].wrapping_sub(FIRST_INDEX)), pair[1]);
            let Some(group) = GROUPS.get(row).filter(|group| !group.up) else {
                continue;
            };
            let changed = (levels[row] ^ data) & data >> 4 & group.defined;
            third |= twice[row] & changed;
            twice[row] |= once[row] & changed;
            once[row] |= changed;
            levels[row] ^= changed;
        }
        (third == 0).then_some(levels)
    }

    /// The body of a GET_VWIRE's reply, its length; 0 if nothing waits. It goes round from the place and ends at the first that does not
    /// fit.
    pub fn send(&mut self, count: usize, body: &mut [u8; BODY_LEN]) -> usize {
        let mut packet = Packet { body, entries: 0, count: count.min(64) };
        let place = usize::from(self.place);
        if place < LINES {
            let _ = self.send_lines(place, LINES, &mut packet)
                && self.send_groups(0, UPS, &mut packet)
                && self.send_lines(0, place, &mut packet);
        } else {
            let up = place - LINES;
            let _ =
                self.send_groups(up, UPS, &mut packet) && self.send_lines(0, LINES, &mut packet) && self.send_groups(0, up, &mut packet);
        }
        if packet.entries == 0 {
            return 0;
        }
        packet.body[0] = packet.entries as u8 - 1;
        1 + 2 * packet.entries
    }

    /// The lines from one on and below another; false: the packet is closed.
    fn send_lines(&mut self, from: usize, below: usize, packet: &mut Packet) -> bool {
        for word in from / 64..below.div_ceil(64) {
            let mut waiting = self.lines.waiting(word, from, below);
            while waiting != 0 {
                let bit = waiting & waiting.wrapping_neg();
                let line = 64 * word + waiting.trailing_zeros() as usize;
                let edge = self.lines.edges[word] & bit != 0;
                if !packet.fits(1 + usize::from(edge)) {
                    return false;
                }
                let level = u8::from(self.lines.levels[word] & bit != 0) << 7;
                let (index, data) = ((line >> 7) as u8, level | line as u8 & 0x7F);
                if edge {
                    packet.put(index, data ^ 0x80);
                }
                packet.put(index, data);
                self.lines.waits[word] ^= bit;
                self.lines.edges[word] &= !bit;
                self.place = line as u16 + 1;
                waiting ^= bit;
            }
        }
        true
    }

    /// The up groups from one on and below another, counted from group 4; false: the packet is closed.
    fn send_groups(&mut self, from: usize, below: usize, packet: &mut Packet) -> bool {
        for up in from..below {
            if !self.pending[up] {
                continue;
            }
            if !packet.fits(1) {
                return false;
            }
            let row = FIRST_UP + up;
            packet.put(FIRST_INDEX + row as u8, GROUPS[row].defined << 4 | self.levels[row]);
            self.pending[up] = false;
            self.place = if up + 1 == UPS { 0 } else { (LINES + up + 1) as u16 };
        }
        true
    }

    /// Channel 1 switched on: each up group becomes pending that differs from its reset value, and the high lines wait.
    pub fn enable(&mut self) {
        for (up, mark) in self.pending.iter_mut().enumerate() {
            *mark = self.levels[FIRST_UP + up] != GROUPS[FIRST_UP + up].reset;
        }
        self.lines.enable();
    }

    /// Channel 1 switched off: marks go, values stay.
    pub fn disable(&mut self) {
        self.pending = [false; UPS];
        self.place = FIRST_PLACE;
        self.lines.disable();
    }

    pub fn platform_reset(&mut self) {
        self.levels[4] = GROUPS[4].reset;
        self.levels[5] = GROUPS[5].reset;
        self.pending[2] = false;
        self.place = FIRST_PLACE;
        self.lines = Lines::RESET;
    }

    /// Sets the wire of an up group; a real change while channel 1 is on makes the group pending.
    pub fn set(&mut self, row: usize, mask: u8, high: bool, on: bool) {
        let old = self.levels[row];
        let level = if high { old | mask } else { old & !mask };
        self.levels[row] = level;
        self.pending[row - FIRST_UP] |= on && level != old;
    }
}

/// The row and the mask of a defined wire; any numbers may come.
pub fn defined(index: u32, bit: u32) -> Option<(usize, u8)> {
    let row = index.wrapping_sub(u32::from(FIRST_INDEX)) as usize;
    let group = GROUPS.get(row)?;
    (bit < 4 && group.defined >> bit & 1 == 1).then(|| (row, 1 << bit))
}
