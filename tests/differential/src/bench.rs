//! The bench lines of document 01 and of readings made of it, run on this engine alone; and each deliberate fault found
//! by a run against an engine without it.
use crate::engine::{crc, Calls, Engine};
use crate::fault;
use crate::run::run;
use crate::state::{forbidden, pack, unpack, Sender, State, GENERAL, STATE_LEN};
use crate::traffic::Traffic;

const RIGHT: Engine = Engine { fault: fault::NONE };

struct Board {
    engine: Engine,
    state: [u8; STATE_LEN],
    reply: [u8; 263],
    write_store: [u8; 256],
    read_store: [u8; 4096],
}

fn bytes(text: &str) -> Vec<u8> {
    text.split_whitespace().map(|byte| u8::from_str_radix(byte, 16).expect("a byte in hex")).collect()
}

impl Board {
    fn fresh() -> Board {
        let mut board = Board { engine: RIGHT, state: [0xAA; STATE_LEN], reply: [0; 263], write_store: [0; 256], read_store: [0; 4096] };
        assert_eq!(board.engine.start(&mut board.state), 0);
        board
    }

    /// A command gets a number and a reply.
    fn line(&mut self, command: &str, number: u32, reply: &str) -> &mut Board {
        let word = self.engine.exchange(&mut self.state, &bytes(command), &mut self.reply, &mut self.write_store, &self.read_store);
        assert_eq!(word & 0xFF, number, "number of {command}");
        let length = (word >> 8) as usize;
        assert_eq!(self.reply[..length], bytes(reply), "reply to {command}");
        self
    }

    /// An answer with counting bytes.
    fn answer(&mut self, serial: u32, count: usize, number: u32) -> &mut Board {
        let data: Vec<u8> = (0..count).map(|at| at as u8).collect();
        assert_eq!(self.engine.answer(&mut self.state, &mut self.read_store, serial, 1, &data), number, "answer {serial}");
        self
    }

    /// GET_PC shows this header, and behind it the counting bytes from `from` on.
    fn piece(&mut self, header: &str, from: usize) -> &mut Board {
        let word = self.engine.exchange(&mut self.state, &bytes("01 07"), &mut self.reply, &mut self.write_store, &self.read_store);
        let header = bytes(header);
        let length = usize::from(header[1] & 15) << 8 | usize::from(header[2]);
        assert_eq!(word as usize, (length + 7) << 8);
        assert_eq!(self.reply[0], 0x08);
        assert_eq!(self.reply[1..4], header);
        assert!(self.reply[4..4 + length].iter().enumerate().all(|(at, &byte)| byte == (from + at) as u8));
        assert_eq!(self.reply[length + 6], crc(&self.reply[..length + 6], 0));
        self
    }
}

#[test]
fn crc_check_value() {
    assert_eq!(crc(b"123456789", 0), 0xF4);
}

#[test]
fn first_lines() {
    Board::fresh()
        .line("25 FB", 0, "08 07 00 3A")
        .line("21 00 08 10", 0, "08 03 00 0C 03 07 00 AF")
        .line("21 00 10 00", 0, "08 33 11 00 00 07 00 0F")
        .line("01 07", 1, "03 07 00 D6")
        .line("40 00 64 BD", 0, "01 05 00 2A");
    let mut board = Board::fresh();
    board.line("40 00 64 BD", 0, "01 05 00 2A");
    assert_eq!(board.engine.answer(&mut board.state, &mut board.read_store, 1, 1, &[0x1D]), 0);
    board.line("25 FB", 0, "08 15 00 47").line("01 07", 0, "08 0F 00 01 1D 07 00 34");
}

#[test]
fn wire_line() {
    let mut board = Board::fresh();
    board.line("22 00 20 01 00 00 00 6A", 0, "08 07 00 3A");
    assert_eq!(board.engine.set_wire(&mut board.state, 6, 0, 0), 0);
    board.line("25 FB", 0, "08 47 00 61").line("05 1B", 0, "08 00 06 F6 07 00 41");
}

/// 64 pairs, of which the last one alone names PLTRST#, at operating counts of 64 and 63.
#[test]
fn sixty_four_groups() {
    let put = |pairs: usize| format!("04 {:02X} {}03 22 00", pairs - 1, "02 11 ".repeat(pairs - 1));
    let levels = |board: &mut Board| [(2, 0), (3, 1)].map(|(index, bit)| board.engine.read_wire(&board.state, index, bit));
    let mut board = Board::fresh();
    board.line("21 00 20 C8", 0, "08 00 3F 00 00 07 00 E7").line("22 00 20 01 00 3F 00 50", 0, "08 07 00 3A");
    board.line(&put(64), 0, "08 07 00 3A");
    assert_eq!(levels(&mut board), [0x100, 0x100]);
    let mut board = Board::fresh();
    board.line("22 00 20 01 00 3E 00 45", 0, "08 07 00 3A").line(&put(64), 1, "03 07 00 D6");
    assert_eq!(levels(&mut board), [0, 0]);
    board.line(&put(63), 0, "08 07 00 3A");
    assert_eq!(levels(&mut board), [0x100, 0x100]);
}

/// packets at an operating count of 4 from SLP_S3# low on, and at 64; which wires are high after them.
#[test]
fn third_transition() {
    const TAKEN: &str = "08 07 00 3A";
    const REFUSED: &str = "03 07 00 D6";
    let high = |board: &mut Board| -> Vec<(u32, u32)> {
        let wires = [2, 3, 7].into_iter().flat_map(|index| (0..3).map(move |bit| (index, bit)));
        wires.filter(|&(index, bit)| board.engine.read_wire(&board.state, index, bit) == 0x100).collect()
    };
    let at_reset = [(7, 1), (7, 2)];
    let on4 = || {
        let mut board = Board::fresh();
        board.line("22 00 20 01 00 03 00 55", 0, TAKEN);
        board
    };
    // One wire three times, there and back; the same over another group and one that is none.
    for (packet, number, reply) in [
        ("04 02 02 11 02 10 02 11 24", 1, REFUSED),
        ("04 01 02 11 02 10 79", 0, TAKEN),
        ("04 03 02 11 03 11 02 10 02 11 00", 1, REFUSED),
        ("04 03 02 11 FF FF 02 10 02 11 00", 1, REFUSED),
        // Beginning with the held value: group 7 bit 1 is high.
        ("04 02 07 20 07 22 07 20 00", 1, REFUSED),
        // The held value again is no transition.
        ("04 02 07 22 07 20 07 22 00", 0, TAKEN),
        // An undefined bit, a group of the board's, the valid bit clear.
        ("04 02 02 88 02 80 02 88 00", 0, TAKEN),
        ("04 02 05 11 05 10 05 11 00", 0, TAKEN),
        ("04 02 02 01 02 00 02 01 00", 0, TAKEN),
        // Two wires of a group, two transitions each.
        ("04 03 02 11 02 22 02 20 02 10 00", 0, TAKEN),
    ] {
        let mut board = on4();
        board.line(packet, number, reply);
        assert_eq!(high(&mut board), at_reset, "wires after {packet}");
    }
    let mut board = on4();
    board.line("04 03 02 11 02 11 02 11 02 11 00", 0, TAKEN);
    assert_eq!(high(&mut board), [(2, 0), (7, 1), (7, 2)]);
    // From high on three changes begin with low, and no wire changes.
    board.line("04 03 02 10 03 11 02 11 02 10 00", 1, REFUSED);
    assert_eq!(high(&mut board), [(2, 0), (7, 1), (7, 2)]);
    board.line("04 03 02 11 02 10 03 11 02 11 00", 0, TAKEN);
    assert_eq!(high(&mut board), [(2, 0), (3, 0), (7, 1), (7, 2)]);
    // The last of 64 pairs.
    let put = |last: &str| format!("04 3F {}02 10 {last} 00", "02 11 ".repeat(62));
    let mut board = Board::fresh();
    board.line("22 00 20 01 00 3F 00 50", 0, TAKEN).line(&put("02 11"), 1, REFUSED);
    assert_eq!(high(&mut board), at_reset);
    board.line(&put("03 11"), 0, TAKEN);
    assert_eq!(high(&mut board), [(3, 0), (7, 1), (7, 2)]);
}

/// the calls over lines, and their numbers.
impl Board {
    /// Lines raised (1) or lowered (0).
    fn level(&mut self, line: u32, level: u32, number: u32) -> &mut Board {
        assert_eq!(self.engine.set_line(&mut self.state, line, level), number, "level {level} of line {line}");
        self
    }

    fn pulse(&mut self, line: u32, number: u32) -> &mut Board {
        assert_eq!(self.engine.pulse_line(&mut self.state, line), number, "pulse of line {line}");
        self
    }

    fn wire(&mut self, index: u32, bit: u32, value: u32) -> &mut Board {
        assert_eq!(self.engine.set_wire(&mut self.state, index, bit, value), 0);
        self
    }

    /// Channel 1 on, or off, with so many entries in a packet; with this number.
    fn channel_1(&mut self, on: u8, count: u8, number: u32) -> &mut Board {
        let mut command = vec![0x22, 0x00, 0x20, on, 0x00, count - 1, 0x00];
        command.push(crc(&command, 0));
        let word = self.engine.exchange(&mut self.state, &command, &mut self.reply, &mut self.write_store, &self.read_store);
        assert_eq!(word, 4 << 8 | number);
        assert_eq!(self.reply[0], if number == 0 { 0x08 } else { 0x02 });
        self
    }

    /// GET_VWIRE sends these pairs, and says whether more waits.
    fn sends(&mut self, pairs: &str, more: bool) -> &mut Board {
        let pairs = bytes(pairs);
        let mut reply = vec![0x08, (pairs.len() / 2) as u8 - 1];
        reply.extend(&pairs);
        reply.extend([if more { 0x47 } else { 0x07 }, 0x00]);
        reply.push(crc(&reply, 0));
        let text: Vec<String> = reply.iter().map(|byte| format!("{byte:02X}")).collect();
        self.line("05 1B", 0, &text.join(" "))
    }
}

/// the rows of the request, at an operating count of 2.
#[test]
fn line_rows() {
    let mut board = Board::fresh();
    board.line("22 00 20 01 00 01 00 7F", 0, "08 07 00 3A").level(1, 1, 0).pulse(130, 0).wire(5, 0, 1);
    board.line("05 1B", 0, "08 01 05 F1 00 81 47 00 F1").line("05 1B", 0, "08 01 01 82 01 02 07 00 96").line("05 1B", 1, "03 07 00 D6");
}

/// 22 and 24 in each of their cases; 22 comes first.
#[test]
fn lines_refused() {
    let mut board = Board::fresh();
    board.pulse(0, 24).pulse(256, 22).level(256, 1, 22).level(u32::MAX, 0, 22).level(0, 2, 22).level(255, 1, 0).level(255, 1, 0);
    // At an operating count of 1, and on a line that waits by its level.
    board.channel_1(1, 1, 0).pulse(0, 24).sends("01 FF", false).pulse(255, 24);
    board.channel_1(1, 2, 0).level(255, 0, 0).pulse(255, 24).level(255, 1, 0).pulse(255, 24).sends("01 FF", false);
    // While an edge waits, whatever the level; the level held stays.
    board.pulse(255, 0).pulse(255, 24).level(255, 0, 24).level(255, 1, 24).level(255, 2, 22).level(0, 1, 0);
    board.sends("00 80", true).sends("01 7F 01 FF", false).level(255, 0, 0).sends("01 7F", false);
}

/// an edge with one place left closes the packet, though another would fit behind it, and is the first of the next.
#[test]
fn edge_closes() {
    let mut board = Board::fresh();
    board.channel_1(1, 4, 0).wire(4, 0, 1).level(0, 1, 0).level(1, 1, 0).pulse(2, 0).level(3, 1, 0);
    board.sends("04 DD 00 80 00 81", true).sends("00 82 00 02 00 83", false);
    // One that fits fills it.
    board.pulse(7, 0).level(4, 1, 0).level(5, 1, 0).pulse(8, 0).sends("00 84 00 85 00 87 00 07", true).sends("00 88 00 08", false);
}

/// the operating count stays above 1 while an edge waits, but for a write that disables the channel.
#[test]
fn count_with_edge() {
    let mut board = Board::fresh();
    board.channel_1(1, 8, 0).level(9, 1, 0).channel_1(1, 1, 0).channel_1(1, 2, 0).pulse(10, 0);
    board.line("22 00 20 01 00 00 00 6A", 2, "02 47 00 E6").channel_1(1, 3, 0).channel_1(1, 1, 2);
    board.channel_1(0, 1, 0).line("25 FB", 0, "08 07 00 3A").channel_1(1, 1, 0).sends("00 89", false);
}

/// enabling sends every high line; resets lower them all, and turns begin at group 4 again.
#[test]
fn lines_at_enabling() {
    let mut board = Board::fresh();
    for line in 0..256 {
        board.level(line, 1, 0);
    }
    board.channel_1(1, 64, 0);
    let lines = |from: usize| (from..from + 64).map(|line| format!("{:02X} {:02X} ", line / 128, 128 + line % 128)).collect::<String>();
    board.sends(&lines(0), true).sends(&lines(64), true).sends(&lines(128), true).sends(&lines(192), false);
    // After line 255 comes group 4, after group 6 line 0.
    board.level(0, 0, 0).wire(6, 0, 0).wire(4, 0, 1).sends("04 DD 06 F6 00 00", false);
    board.level(200, 0, 0);
    assert_eq!(board.engine.platform_reset(&mut board.state), 0);
    board.line("25 FB", 0, "08 07 00 3A").level(7, 1, 0).wire(5, 0, 1).sends("05 F1 00 87", false);
    assert_eq!(board.engine.reset(&mut board.state), 0);
    board.channel_1(1, 4, 0).line("05 1B", 1, "03 07 00 D6");
}

/// the lines' bits (STATE.md), and PUT_VWIRE passes over indexes 0 and 1.
#[test]
fn line_bits() {
    let mut board = Board::fresh();
    board.channel_1(1, 2, 0).level(8, 1, 0).pulse(255, 0).line("04 01 00 85 01 FF 00", 0, "08 47 00 61");
    let set: Vec<(usize, u8)> = board.state.iter().copied().enumerate().skip(76).filter(|&(_, byte)| byte != 0).collect();
    assert_eq!(set, [(77, 1), (79, 1), (111, 1), (141, 0x80), (173, 0x80)]);
}

/// who waits, d turns from the place, has been sent once the accepted GET_VWIREs have a sum of max(1, c / 2) above d, whatever else the
/// board asks for and the host does to the operating count c meanwhile.
#[test]
fn waits_no_longer_than_its_bound() {
    let mut traffic = Traffic::new(7);
    let mut watched = 0;
    while watched < 500 {
        let state = traffic.sound_state();
        let waiting: Vec<Sender> = (0..259).filter_map(Sender::of).filter(|&sender| state.waits(sender)).collect();
        if waiting.is_empty() {
            continue;
        }
        watched += 1;
        let sender = traffic.random.pick(&waiting);
        let turns = usize::from((sender.number() + 259 - state.place.number()) % 259);
        let most = traffic.random.pick(&[1, 2, 3, 5, 64]);
        let mut board = Board::fresh();
        pack(&state, &mut board.state);
        let mut sum = 0;
        while sum <= turns {
            for _ in 0..traffic.random.below(24) {
                let line = traffic.random.below(256) as u32;
                let level = traffic.random.below(2) as u32;
                // Refused or not.
                board.engine.set_line(&mut board.state, line, level);
                board.engine.pulse_line(&mut board.state, line);
            }
            let mut command = vec![0x22, 0x00, 0x20, 0x01, 0x00, traffic.random.below(most) as u8, 0x00];
            command.push(crc(&command, 0));
            board.engine.exchange(&mut board.state, &command, &mut board.reply, &mut board.write_store, &board.read_store);
            let now = unpack(&board.state, fault::NONE).expect("a sound state");
            assert!(now.waits(sender));
            let word = board.engine.exchange(&mut board.state, &[0x05, 0x1B], &mut board.reply, &mut board.write_store, &board.read_store);
            assert_eq!(word & 0xFF, 0);
            sum += (now.operating_count() / 2).max(1);
            if !unpack(&board.state, fault::NONE).expect("a sound state").waits(sender) {
                break;
            }
        }
        let now = unpack(&board.state, fault::NONE).expect("a sound state");
        assert!(!now.waits(sender), "{sender:?} waits on, {turns} turns from its place");
    }
}

/// Channel 1 on for 4 groups and 010h with a payload size of 256 bytes and a read request size of 256; PLTRST# high, or low as at
/// reset.
fn on4(high: bool) -> Board {
    let mut board = Board::fresh();
    board.line("22 00 20 01 00 03 00 55", 0, "08 07 00 3A").line("22 00 10 03 33 00 00 4C", 0, "08 07 00 3A");
    if high {
        board.line("04 00 03 22 89", 0, "08 07 00 3A");
    }
    board
}

/// which packets the platform reset follows, seen by 010h, and the number of each.
#[test]
fn pltrst_falls() {
    for (high, packet, number, resets) in [
        (true, "04 00 03 20 87", 0, true),
        (true, "04 01 03 22 03 20 00", 0, true),
        (true, "04 01 03 20 02 11 00", 0, true),
        // There and back within a packet; low to low; the rise.
        (true, "04 01 03 20 03 22 00", 0, false),
        (false, "04 01 03 22 03 20 00", 0, false),
        (false, "04 00 03 20 00", 0, false),
        (false, "04 00 03 22 00", 0, false),
        // The valid bit clear, SUS_STAT# and OOB_RST_WARN, SLP_S4#.
        (true, "04 00 03 00 00", 0, false),
        (true, "04 00 03 50 00", 0, false),
        (true, "04 00 02 20 00", 0, false),
        // A third transition, and five groups.
        (true, "04 02 03 20 03 22 03 20 00", 1, false),
        (true, "04 04 03 20 03 20 03 20 03 20 03 20 00", 1, false),
    ] {
        let mut board = on4(high);
        board.line(packet, number, ["08 07 00 3A", "03 07 00 D6"][number as usize]);
        board.line("21 00 10 00", 0, if resets { "08 33 11 00 00 07 00 0F" } else { "08 33 33 00 00 07 00 AF" });
    }
}

/// what the reset takes and what it leaves. A write, a read and groups 5 and 6 are there; the packet also puts SLP_S3# and
/// SUS_STAT# high and SMIOUT# low.
#[test]
fn pltrst_resets() {
    let mut board = on4(true);
    board.line("40 00 64 BD", 0, "01 05 00 2A").line("4C 00 00 10 00 5A BE", 0, "08 04 00 05");
    assert_eq!(board.engine.set_wire(&mut board.state, 6, 0, 0), 0);
    assert_eq!(board.engine.set_wire(&mut board.state, 5, 3, 1), 0);
    // The reply still shows both held; the next exchange has their places free, and the mark of group 5 alone.
    board.line("04 02 03 31 07 20 02 11 00", 0, "08 44 00 5E").line("25 FB", 0, "08 47 00 61").answer(1, 1, 20);
    assert_eq!(board.engine.take_write(&mut board.state, &board.write_store, &mut [0; 10]), 23);
    let high = |wire: &(u32, u32)| board.engine.clone().read_wire(&board.state, wire.0, wire.1) == 0x100;
    let wires = (2..=7).flat_map(|index| (0..4).map(move |bit| (index, bit)));
    let all: Vec<(u32, u32)> = wires.filter(high).collect();
    assert_eq!(all, [(2, 0), (3, 0), (4, 2), (4, 3), (5, 3), (6, 0), (6, 1), (6, 2), (7, 1), (7, 2)]);
    board.line("05 1B", 0, "08 00 05 F8 07 00 57");
    // The serial stays: the next request has 2. Low again is no fall, so the request stays, too.
    board.line("40 00 64 BD", 0, "01 05 00 2A").line("04 00 03 20 87", 0, "08 05 00 10").answer(1, 1, 20).answer(2, 1, 0);
}

#[test]
fn piece_lines() {
    const READ_1030: &str = "02 00 50 A0 00 00 10 30 FA";
    const READ_1020: &str = "02 00 50 40 00 00 10 20 B1";
    Board::fresh()
        .line("22 00 10 03 31 00 00 9A", 0, "08 07 00 3A")
        .line(READ_1030, 0, "01 05 00 2A")
        .answer(1, 160, 0)
        .piece("0B 50 10", 0)
        .piece("09 50 40", 16)
        .piece("09 50 40", 80)
        .piece("0D 50 10", 144)
        .line("01 07", 1, "03 07 00 D6");
    Board::fresh()
        .line("22 00 10 03 33 00 00 4C", 0, "08 07 00 3A")
        .line(READ_1030, 0, "01 05 00 2A")
        .answer(1, 160, 0)
        .piece("0F 50 A0", 0);
    Board::fresh()
        .line(READ_1020, 1, "03 07 00 D6")
        .line("22 00 10 03 21 00 00 00", 0, "08 07 00 3A")
        .line(READ_1020, 0, "01 05 00 2A")
        .answer(1, 64, 0)
        .piece("0B 50 20", 0)
        .piece("0D 50 20", 32);
    let mut board = Board::fresh();
    board.line("22 00 10 03 71 00 00 00", 0, "08 07 00 3A").line("02 00 00 00 00 00 10 00 00", 0, "01 05 00 2A").answer(1, 4096, 0);
    for piece in 0..64 {
        let mark = ["0B 00 40", "09 00 40", "0D 00 40"][usize::from(piece > 0) + usize::from(piece == 63)];
        board.piece(mark, 64 * piece);
    }
    board.line("25 FB", 0, "08 07 00 3A");
}

#[test]
fn refusals() {
    Board::fresh()
        .line("42 00 64 00", 13, "")
        .line("", 12, "")
        .line("02", 12, "")
        .line("02 05", 15, "")
        .line("02 00", 12, "")
        .line("04", 14, "")
        .line("FF", 13, "")
        .line("FF 00", 13, "")
        .line("22 00 10 00 00 00 00 2A", 2, "02 07 00 BD")
        .line("22 00 08 00 00 00 80 88", 0, "08 07 00 3A")
        .line("02 05 00", 15, "")
        .line("01 00", 16, "")
        .line("FF FF FF", 0, "")
        .line("01 00", 1, "03 07 00 D6");
}

/// Channel 0 off and on with an answer still open.
#[test]
fn late_answer() {
    let mut board = Board::fresh();
    board
        .line("40 00 64 BD", 0, "01 05 00 2A")
        .line("22 00 10 00 11 00 00 E3", 0, "08 05 00 10")
        .line("01 07", 14, "")
        .line("00", 14, "")
        .line("22 00 10 01 11 00 00 00", 0, "08 07 00 3A")
        .answer(1, 1, 20)
        .line("25 FB", 0, "08 07 00 3A")
        .line("40 00 60 00", 0, "01 05 00 2A")
        .answer(1, 1, 20);
    assert_eq!(board.engine.answer(&mut board.state, &mut board.read_store, 2, 1, &[0x1C]), 0);
    board.line("01 07", 0, "08 0F 00 01 1C 07 00 5F");
}

#[test]
fn packing_loses_nothing() {
    let mut traffic = Traffic::new(5);
    for _ in 0..20_000 {
        let state = traffic.sound_state();
        let mut packed = [0xEE; STATE_LEN + 1];
        pack(&state, &mut packed);
        assert_eq!(unpack(&packed, fault::NONE).as_ref(), Some(&state));
        assert_eq!(packed[STATE_LEN], 0xEE);
    }
    assert!(!forbidden(0x008, GENERAL.reset, fault::NONE));
    let mut packed = [0; STATE_LEN];
    pack(&State::fresh(), &mut packed);
    assert_eq!(unpack(&packed, fault::NONE), Some(State::fresh()));
}

/// An engine agrees with itself, and the run reaches all that it should.
#[test]
fn agrees_with_itself() {
    let Ok(coverage) = run(&mut RIGHT.clone(), &mut RIGHT.clone(), 100_000, 3) else {
        panic!("an engine that differs from itself");
    };
    let (_, missing) = coverage.report();
    assert!(missing.is_empty(), "not reached: {missing:?}");
}

/// Every fault is found.
#[test]
fn faults_are_found() {
    let missed: Vec<&str> = fault::ALL
        .iter()
        .filter(|&&(fault, _)| run(&mut RIGHT.clone(), &mut Engine { fault }, 200_000, 11).is_ok())
        .map(|&(_, says)| says)
        .collect();
    assert!(missed.is_empty(), "not found: {missed:#?}");
}
