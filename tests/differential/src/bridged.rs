//! The proved engine in a process of its own: the bridge (bridge.c), run by an emulator of the machine that the archive is
//! made for. A call goes there with every byte of every slice, and every byte comes back.
use differential::engine::Calls;
use std::io::{Read, Write};
use std::process::{Child, ChildStdin, ChildStdout, Command, Stdio};

/// No call gives these words. They stand for a bridge that ended, and for a byte written beside a slice or into one that
/// may only be read.
const GONE: u32 = u32::MAX;
const OUTSIDE: u32 = u32::MAX - 1;

/// A message's words (bridge.c), and the bytes that stand before and behind every slice.
const WORDS: usize = 15;
const GUARD: [u8; 29] = [0x5A; 29];

/// A slice of a call: one that may be written, or one that may only be read.
enum Lent<'a> {
    Written(&'a mut [u8]),
    Read(&'a [u8]),
}
use Lent::{Read as Only, Written};

impl Lent<'_> {
    fn bytes(&self) -> &[u8] {
        match self {
            Written(bytes) => bytes,
            Only(bytes) => bytes,
        }
    }
}

pub struct Archive {
    process: Child,
    to: ChildStdin,
    from: ChildStdout,
    message: Vec<u8>,
    answer: Vec<u8>,
    gone: bool,
}

impl Archive {
    pub fn new() -> Archive {
        let (runner, bridge) = (env!("ESPI_RUNNER"), env!("ESPI_BRIDGE"));
        let started = Command::new(runner).arg(bridge).stdin(Stdio::piped()).stdout(Stdio::piped()).spawn();
        let mut process = started.unwrap_or_else(|error| panic!("{runner} {bridge}: {error}"));
        let to = process.stdin.take().expect("a pipe");
        let from = process.stdout.take().expect("a pipe");
        Archive { process, to, from, message: Vec::new(), answer: Vec::new(), gone: false }
    }

    /// Whether the bridge ended before its time.
    pub fn gone(&self) -> bool {
        self.gone
    }

    fn call(&mut self, row: u32, numbers: [u32; 3], slices: &mut [Lent]) -> u32 {
        let mut words = [0; WORDS];
        words[1] = row;
        words[2..5].copy_from_slice(&numbers);
        self.message.clear();
        self.message.resize(4 * WORDS, 0);
        for (at, slice) in slices.iter().enumerate() {
            self.message.extend_from_slice(&GUARD);
            words[5 + 2 * at] = self.message.len() as u32;
            words[6 + 2 * at] = slice.bytes().len() as u32;
            self.message.extend_from_slice(slice.bytes());
        }
        self.message.extend_from_slice(&GUARD);
        words[0] = self.message.len() as u32;
        for (at, word) in words.iter().enumerate() {
            self.message[4 * at..4 * at + 4].copy_from_slice(&word.to_le_bytes());
        }
        self.answer.resize(self.message.len(), 0);
        let passed = self.to.write_all(&self.message).and_then(|()| self.from.read_exact(&mut self.answer));
        if let Err(error) = passed {
            self.gone = true;
            println!("the archive's process ended: {error}");
            return GONE;
        }

        // What may be written is taken over; all else must be as it was sent.
        let word = u32::from_le_bytes([self.answer[0], self.answer[1], self.answer[2], self.answer[3]]);
        let mut from = 4;
        for (at, slice) in slices.iter_mut().enumerate() {
            let begin = words[5 + 2 * at] as usize;
            let end = begin + slice.bytes().len();
            if let Written(bytes) = slice {
                bytes.copy_from_slice(&self.answer[begin..end]);
                if self.answer[from..begin] != self.message[from..begin] {
                    return self.outside();
                }
                from = end;
            }
        }
        if self.answer[from..] != self.message[from..] {
            return self.outside();
        }
        word
    }

    fn outside(&self) -> u32 {
        println!("the archive wrote a byte that it may not write");
        OUTSIDE
    }
}

impl Drop for Archive {
    fn drop(&mut self) {
        // The bridge would end with its input, too; nothing is lost by ending it here.
        let _ = self.process.kill();
        let _ = self.process.wait();
    }
}

impl Calls for Archive {
    fn start(&mut self, state: &mut [u8]) -> u32 {
        self.call(0, [0; 3], &mut [Written(state)])
    }

    fn reset(&mut self, state: &mut [u8]) -> u32 {
        self.call(1, [0; 3], &mut [Written(state)])
    }

    fn platform_reset(&mut self, state: &mut [u8]) -> u32 {
        self.call(2, [0; 3], &mut [Written(state)])
    }

    fn exchange(&mut self, state: &mut [u8], command: &[u8], reply: &mut [u8], write_store: &mut [u8], read_store: &[u8]) -> u32 {
        self.call(3, [0; 3], &mut [Written(state), Only(command), Written(reply), Written(write_store), Only(read_store)])
    }

    fn look(&mut self, state: &[u8], report: &mut [u8]) -> u32 {
        self.call(4, [0; 3], &mut [Only(state), Written(report)])
    }

    fn answer(&mut self, state: &mut [u8], read_store: &mut [u8], serial: u32, success: u32, data: &[u8]) -> u32 {
        self.call(5, [serial, success, 0], &mut [Written(state), Written(read_store), Only(data)])
    }

    fn take_write(&mut self, state: &mut [u8], write_store: &[u8], report: &mut [u8]) -> u32 {
        self.call(6, [0; 3], &mut [Written(state), Only(write_store), Written(report)])
    }

    fn set_wire(&mut self, state: &mut [u8], index: u32, bit: u32, value: u32) -> u32 {
        self.call(7, [index, bit, value], &mut [Written(state)])
    }

    fn read_wire(&mut self, state: &[u8], index: u32, bit: u32) -> u32 {
        self.call(8, [index, bit, 0], &mut [Only(state)])
    }

    fn set_line(&mut self, state: &mut [u8], line: u32, level: u32) -> u32 {
        self.call(9, [line, level, 0], &mut [Written(state)])
    }

    fn pulse_line(&mut self, state: &mut [u8], line: u32) -> u32 {
        self.call(10, [line, 0, 0], &mut [Written(state)])
    }
}
