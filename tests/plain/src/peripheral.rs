//! Channel 0 (01, Requests, answers, pieces): one posted write and one non-posted request are held.

#[derive(Clone, Copy, Debug, PartialEq, Eq)]
pub struct Write {
    pub address: u64,
    pub length: u32,
    pub payload: u32,
}

#[derive(Clone, Copy, Debug, PartialEq, Eq)]
pub enum Kind {
    MemoryRead,
    IoRead,
    IoWrite,
}

#[derive(Clone, Copy, Debug, PartialEq, Eq)]
pub enum Phase {
    Open,
    Success,
    Failure,
}

/// A request with the sizes in force when it was accepted.
#[derive(Clone, Copy, Debug, PartialEq, Eq)]
pub struct Request {
    pub phase: Phase,
    pub kind: Kind,
    pub tag: u8,
    pub address: u64,
    pub length: u32,
    pub payload: u32,
    pub read_size: u32,
    /// An I/O write's bytes, the first one lowest.
    pub bytes: u32,
    /// Bytes of the answer already sent.
    pub sent: u32,
}

/// A completion: its cycle type, and how many bytes of data from where in the read store.
pub struct Piece {
    pub cycle: u8,
    pub from: usize,
    pub length: usize,
}

/// Whether so many bytes at an address stay within one block of a size, which is a power of 2 (01, Size rules).
pub fn within(address: u64, length: u32, block: u32) -> bool {
    (address as u32 & (block - 1)).checked_add(length).is_some_and(|end| end <= block)
}

impl Request {
    /// The block that it may not cross: an I/O write obeys the payload size.
    pub fn block(&self) -> u32 {
        if self.kind == Kind::IoWrite {
            self.payload
        } else {
            self.read_size
        }
    }

    /// How many bytes an answer with success has.
    pub fn wanted(&self) -> usize {
        if self.kind == Kind::IoWrite {
            0
        } else {
            self.length as usize
        }
    }

    /// What GET_PC hands over next, if it has been answered.
    pub fn next(&self) -> Option<Piece> {
        let bare = |cycle| Some(Piece { cycle, from: 0, length: 0 });
        match (self.phase, self.kind) {
            (Phase::Open, _) => None,
            (Phase::Failure, _) => bare(0x0E),
            (Phase::Success, Kind::IoWrite) => bare(0x06),
            (Phase::Success, _) => {
                let into = (self.address as u32).wrapping_add(self.sent) & (self.payload - 1);
                let left = self.length - self.sent;
                let length = left.min(self.payload - into);
                let cycle = match (self.sent == 0, length == left) {
                    (true, true) => 0x0F,
                    (true, false) => 0x0B,
                    (false, false) => 0x09,
                    (false, true) => 0x0D,
                };
                Some(Piece { cycle, from: self.sent as usize, length: length as usize })
            }
        }
    }
}
