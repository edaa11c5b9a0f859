//! The configuration registers (01, Registers and status).

/// A register: its value at reset and the bits that a command can write.
pub struct Register {
    pub reset: u32,
    pub writable: u32,
}

pub const IDENTIFICATION: u32 = 0x0000_0001;
pub const GENERAL: Register = Register { reset: 0x030C_0003, writable: 0xDCF0_F000 };
pub const CHANNEL_0: Register = Register { reset: 0x0000_1133, writable: 0x0000_7705 };
/// Its bits 13:8 advertise packets of 64 groups (02, Q-5).
pub const CHANNEL_1: Register = Register { reset: 0x0000_3F00, writable: 0x003F_0001 };

const ENABLE: u32 = 1;
const READY: u32 = 2;

#[derive(Clone, Copy, Debug, PartialEq, Eq)]
pub struct Registers {
    pub general: u32,
    pub channel_0: u32,
    pub channel_1: u32,
}

impl Registers {
    pub const RESET: Registers = Registers { general: GENERAL.reset, channel_0: CHANNEL_0.reset, channel_1: CHANNEL_1.reset };

    pub fn on_0(&self) -> bool {
        self.channel_0 & ENABLE != 0
    }

    pub fn on_1(&self) -> bool {
        self.channel_1 & ENABLE != 0
    }

    pub fn crc_checked(&self) -> bool {
        self.general >> 31 == 1
    }

    /// A size code n means 64 times 2^(n-1) bytes.
    pub fn payload(&self) -> u32 {
        32 << (self.channel_0 >> 8 & 7)
    }

    pub fn read_size(&self) -> u32 {
        32 << (self.channel_0 >> 12 & 7)
    }

    pub fn operating_count(&self) -> usize {
        (self.channel_1 >> 16 & 0x3F) as usize + 1
    }

    pub fn read(&self, address: u16) -> u32 {
        match address {
            0x004 => IDENTIFICATION,
            0x008 => self.general,
            0x010 => self.channel_0,
            0x020 => self.channel_1,
            _ => 0,
        }
    }

    /// Other addresses take a write without effect.
    pub fn write(&mut self, address: u16, value: u32) {
        match address {
            0x008 => self.general = written(self.general, value, &GENERAL),
            0x010 => self.channel_0 = readied(written(self.channel_0, value, &CHANNEL_0)),
            0x020 => self.channel_1 = readied(written(self.channel_1, value, &CHANNEL_1)),
            _ => {}
        }
    }

    /// Read-only bits as at reset, ready equal to enable, no forbidden field.
    pub fn reachable(&self) -> bool {
        written(GENERAL.reset, self.general, &GENERAL) == self.general
            && readied(written(CHANNEL_0.reset, self.channel_0, &CHANNEL_0)) == self.channel_0
            && readied(written(CHANNEL_1.reset, self.channel_1, &CHANNEL_1)) == self.channel_1
            && !forbidden(0x008, self.general)
            && !forbidden(0x010, self.channel_0)
    }
}

fn written(old: u32, value: u32, register: &Register) -> u32 {
    old & !register.writable | value & register.writable
}

/// Bit 1 (ready) equals bit 0 (enable).
fn readied(value: u32) -> u32 {
    value & !READY | (value & ENABLE) << 1
}

/// Whether this write leaves channel 1 on with an operating count of 1, where no edge fits (02, Q-4).
pub fn leaves_one(address: u16, value: u32) -> bool {
    address == 0x020 && value & (0x3F << 16 | ENABLE) == ENABLE
}

/// Whether the register at this address refuses the value (02, Q-5: 020h refuses none).
pub fn forbidden(address: u16, value: u32) -> bool {
    match address {
        0x008 => value >> 26 & 3 == 3 || value >> 20 & 7 > 4,
        0x010 => value >> 12 & 7 == 0 || !matches!(value >> 8 & 7, 1..=3),
        _ => false,
    }
}
