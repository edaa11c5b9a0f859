//! The eSPI target engine in ordinary Rust, to hold the proved one's speed against: document 01 with what document 02 has changed
//! in it, no unsafe code, no outside crate. `target` keeps the state as a struct that nobody checks; `lent` has the eleven calls of
//! include/espi.h over lent bytes, which refuse any bytes that pack no sound state.
//!
//! "01" in a comment is document 01, with the name of its section; "02" is document 02, with the number of its request.
#![forbid(unsafe_code)]
pub mod command;
pub mod crc;
pub mod lent;
pub mod lines;
pub mod peripheral;
pub mod registers;
pub mod state;
pub mod target;
pub mod wires;

pub const STATE_LEN: usize = 174;
pub const REPLY_LEN: usize = 263;
pub const WRITE_STORE_LEN: usize = 256;
pub const READ_STORE_LEN: usize = 4096;
pub const LOOK_REPORT_LEN: usize = 19;
pub const TAKE_REPORT_LEN: usize = 10;

/// The numbers of 01's table (Replies and refusals).
pub mod number {
    pub const OK: u32 = 0;
    pub const FATAL: u32 = 1;
    pub const FORBIDDEN: u32 = 2;
    pub const SHORT_STORE: u32 = 10;
    pub const NOT_SOUND: u32 = 11;
    pub const BAD_LENGTH: u32 = 12;
    pub const BAD_OPCODE: u32 = 13;
    pub const CHANNEL_OFF: u32 = 14;
    pub const BAD_CYCLE: u32 = 15;
    pub const BAD_CRC: u32 = 16;
    pub const NO_REQUEST: u32 = 20;
    pub const BAD_COUNT: u32 = 21;
    pub const BAD_WIRE: u32 = 22;
    pub const NOTHING: u32 = 23;
    pub const NOT_NOW: u32 = 24;
}
