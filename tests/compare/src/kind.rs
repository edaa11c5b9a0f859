//! What each event of the mix is: exchanges by what they are and how they ended, then the board's calls.
use differential::engine::{FATAL, FORBIDDEN, OK};

#[derive(Clone, Copy, Debug, PartialEq, Eq)]
pub enum Kind {
    GetStatus,
    GetConfiguration,
    SetConfiguration,
    ShortRead,
    IoWrite,
    LongRead,
    Piece16,
    Piece64,
    Piece256,
    Write64,
    Write256,
    PutVwire3,
    PutVwire64,
    GetVwire3,
    GetVwire64,
    Reset,
    Refused,
    NoReply,
    Look,
    Answer64,
    Answer4096,
    Take,
    SetWire,
    ReadWire,
    SetLine,
    PulseLine,
}

/// Every kind with its name in the report, in the order of their numbers; exchanges come first.
pub const KINDS: [(Kind, &str); 26] = [
    (Kind::GetStatus, "GET_STATUS"),
    (Kind::GetConfiguration, "GET_CONFIGURATION"),
    (Kind::SetConfiguration, "SET_CONFIGURATION"),
    (Kind::ShortRead, "short read"),
    (Kind::IoWrite, "short I/O write"),
    (Kind::LongRead, "long read (PUT_NP)"),
    (Kind::Piece16, "completion of up to 16 bytes"),
    (Kind::Piece64, "piece of 17 to 64 bytes"),
    (Kind::Piece256, "piece of 65 to 256 bytes"),
    (Kind::Write64, "posted write of up to 64 bytes"),
    (Kind::Write256, "posted write of 65 to 256 bytes"),
    (Kind::PutVwire3, "PUT_VWIRE of 1 to 3 pairs"),
    (Kind::PutVwire64, "PUT_VWIRE of 4 to 64 pairs"),
    (Kind::GetVwire3, "GET_VWIRE of 1 to 3 entries"),
    (Kind::GetVwire64, "GET_VWIRE of 4 to 64 entries"),
    (Kind::Reset, "RESET"),
    (Kind::Refused, "refused with 1 or 2"),
    (Kind::NoReply, "no reply (12 to 16)"),
    (Kind::Look, "look"),
    (Kind::Answer64, "answer of up to 64 bytes"),
    (Kind::Answer4096, "answer of 65 to 4096 bytes"),
    (Kind::Take, "take a write"),
    (Kind::SetWire, "set a wire"),
    (Kind::ReadWire, "read a wire"),
    (Kind::SetLine, "raise or lower a line"),
    (Kind::PulseLine, "pulse a line"),
];

/// A number for each kind, by `Kind::row`.
pub type ByKind<T> = [T; KINDS.len()];

const _: () = {
    let mut row = 0;
    while row < KINDS.len() {
        assert!(KINDS[row].0 as usize == row);
        row += 1;
    }
};

impl Kind {
    pub fn row(self) -> usize {
        self as usize
    }

    pub fn is_exchange(self) -> bool {
        self.row() < Kind::Look.row()
    }

    /// The kind of an exchange, by its command and its word.
    pub fn of_exchange(command: &[u8], word: u32) -> Kind {
        match word & 0xFF {
            OK => {}
            FATAL | FORBIDDEN => return Kind::Refused,
            _ => return Kind::NoReply,
        }
        match (command[0], size(command, word)) {
            (0x01, 0..=16) => Kind::Piece16,
            (0x01, 17..=64) => Kind::Piece64,
            (0x01, _) => Kind::Piece256,
            (0x02, _) => Kind::LongRead,
            (0x04, 0..=3) => Kind::PutVwire3,
            (0x04, _) => Kind::PutVwire64,
            (0x05, 0..=3) => Kind::GetVwire3,
            (0x05, _) => Kind::GetVwire64,
            (0x21, _) => Kind::GetConfiguration,
            (0x22, _) => Kind::SetConfiguration,
            (0x25, _) => Kind::GetStatus,
            (0x44..=0x47, _) => Kind::IoWrite,
            (0x00 | 0x4C..=0x4F, 0..=64) => Kind::Write64,
            (0x00 | 0x4C..=0x4F, _) => Kind::Write256,
            (0xFF, _) => Kind::Reset,
            _ => Kind::ShortRead,
        }
    }

    pub fn of_answer(data: &[u8]) -> Kind {
        if data.len() <= 64 {
            Kind::Answer64
        } else {
            Kind::Answer4096
        }
    }
}

/// The bytes of a piece or of a posted write, or the pairs of a packet, of an accepted command. It has the length that its header says
/// and the CRC byte; a reply has seven bytes beside a piece and five beside a packet's pairs.
pub fn size(command: &[u8], word: u32) -> usize {
    let length = command.len();
    match command[0] {
        0x00 if command[1] == 0x01 => length - 9,
        0x00 => length - 13,
        0x01 => (word >> 8) as usize - 7,
        0x04 => (length - 3) / 2,
        0x05 => ((word >> 8) as usize - 5) / 2,
        0x4C..=0x4F => length - 6,
        _ => 0,
    }
}
