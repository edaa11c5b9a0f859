//! The interrupt lines of channel 1 (02, Q-4): 256 of them, a bit each in words of 64.

pub const LINES: usize = 256;
const WORDS: usize = LINES / 64;

/// A bit for each line.
pub type Map = [u64; WORDS];

#[derive(Clone, Copy, Debug, PartialEq, Eq)]
pub struct Lines {
    pub levels: Map,
    /// Those that the host has still to fetch.
    pub waits: Map,
    /// Of these the ones that go as an edge, in two entries.
    pub edges: Map,
}

fn any(map: &Map) -> bool {
    map.iter().fold(0, |all, word| all | word) != 0
}

fn place(line: u8) -> (usize, u64) {
    (usize::from(line / 64), 1 << (line % 64))
}

impl Lines {
    /// All low.
    pub const RESET: Lines = Lines { levels: [0; WORDS], waits: [0; WORDS], edges: [0; WORDS] };

    pub fn any_waits(&self) -> bool {
        any(&self.waits)
    }

    pub fn edge_waits(&self) -> bool {
        any(&self.edges)
    }

    /// An edge is one that waits, none waits while channel 1 is off, and no edge where one entry fits a packet.
    pub fn sound(&self, on: bool, two_fit: bool) -> bool {
        let alone = (0..WORDS).fold(0, |all, word| all | self.edges[word] & !self.waits[word]);
        alone == 0 && (on || !self.any_waits()) && (two_fit || !self.edge_waits())
    }

    /// A real change while channel 1 is on waits; false: an edge of the line waits.
    pub fn set(&mut self, line: u8, high: bool, on: bool) -> bool {
        let (word, bit) = place(line);
        if self.edges[word] & bit != 0 {
            return false;
        }
        if (self.levels[word] & bit != 0) != high {
            self.levels[word] ^= bit;
            self.waits[word] |= if on { bit } else { 0 };
        }
        true
    }

    /// False: the line waits already.
    pub fn pulse(&mut self, line: u8) -> bool {
        let (word, bit) = place(line);
        if self.waits[word] & bit != 0 {
            return false;
        }
        self.waits[word] |= bit;
        self.edges[word] |= bit;
        true
    }

    /// Channel 1 switched on: the high lines wait.
    pub fn enable(&mut self) {
        self.waits = self.levels;
    }

    /// Channel 1 switched off: levels stay.
    pub fn disable(&mut self) {
        self.waits = [0; WORDS];
        self.edges = [0; WORDS];
    }

    /// Those that wait of a word's lines from one line on and below another.
    pub fn waiting(&self, word: usize, from: usize, below: usize) -> u64 {
        let mut bits = self.waits[word];
        if word == from / 64 {
            bits &= !0 << (from % 64);
        }
        if word == below / 64 {
            bits &= !(!0 << (below % 64));
        }
        bits
    }
}
