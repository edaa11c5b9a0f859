//! What a run has reached, and whether it is enough.
use crate::engine::{after_pltrst, pltrst_values, Engine, OK, READ_STORE_LEN, WRITE_STORE_LEN};
use crate::fault;
use crate::state::{Line, Phase, Request, Sender, State, Waits, CHANNEL_0, FIRST_GROUP, GROUPS};
use crate::traffic::{Call, CALLS};

/// The numbers that each call can give, in the order of `CALLS`.
const NUMBERS: [&[u32]; 11] = [
    &[0, 10],
    &[0, 10, 11],
    &[0, 10, 11],
    &[0, 1, 2, 10, 11, 12, 13, 14, 15, 16],
    &[0, 10, 11, 23],
    &[0, 10, 11, 20, 21],
    &[0, 10, 11, 23],
    &[0, 10, 11, 22],
    &[0, 10, 11, 22],
    &[0, 10, 11, 22, 24],
    &[0, 10, 11, 22, 24],
];

/// How an exchange past 10 and 11 ended: its number, with the three conditions of number 1 apart.
#[derive(Clone, Copy, PartialEq, Eq)]
enum End {
    Accepted,
    Credit,
    Size,
    Third,
    Forbidden,
    Length,
    Opcode,
    Off,
    Cycle,
    Crc,
}
use End::*;

const ENDS: [(&str, End); 10] = [
    ("0", Accepted),
    ("1 credit", Credit),
    ("1 size", Size),
    ("1 third transition", Third),
    ("2", Forbidden),
    ("12", Length),
    ("13", Opcode),
    ("14", Off),
    ("15", Cycle),
    ("16", Crc),
];

const LONG: &[End] = &[Accepted, Credit, Size, Length, Off, Cycle, Crc];
const SHORT: &[End] = &[Accepted, Credit, Size, Length, Off, Crc];
/// One byte never crosses a block.
const BYTE: &[End] = &[Accepted, Credit, Length, Off, Crc];
const GET: &[End] = BYTE;
const WIRES: &[End] = &[Accepted, Size, Third, Length, Off, Crc];

/// Every opcode with the ends that it can have.
const OPCODES: [(u8, &str, &[End]); 21] = [
    (0x00, "PUT_PC", LONG),
    (0x01, "GET_PC", GET),
    (0x02, "PUT_NP", LONG),
    (0x04, "PUT_VWIRE", WIRES),
    (0x05, "GET_VWIRE", GET),
    (0x21, "GET_CONFIGURATION", &[Accepted, Length, Crc]),
    (0x22, "SET_CONFIGURATION", &[Accepted, Forbidden, Length, Crc]),
    (0x25, "GET_STATUS", &[Accepted, Length, Crc]),
    (0x40, "I/O read 1", BYTE),
    (0x41, "I/O read 2", SHORT),
    (0x43, "I/O read 4", SHORT),
    (0x44, "I/O write 1", BYTE),
    (0x45, "I/O write 2", SHORT),
    (0x47, "I/O write 4", SHORT),
    (0x48, "memory read 1", BYTE),
    (0x49, "memory read 2", SHORT),
    (0x4B, "memory read 4", SHORT),
    (0x4C, "memory write 1", BYTE),
    (0x4D, "memory write 2", SHORT),
    (0x4F, "memory write 4", SHORT),
    (0xFF, "RESET", &[Accepted, Opcode]),
];

const MARKS: [(u8, &str); 6] =
    [(0x0F, "0Fh only"), (0x0B, "0Bh first"), (0x09, "09h middle"), (0x0D, "0Dh last"), (0x06, "06h I/O write"), (0x0E, "0Eh failure")];

/// The cases that a run must meet besides.
const CASES: [&str; 82] = [
    "CRC checked",
    "CRC not checked",
    "channel 0 on",
    "channel 0 off",
    "channel 1 on",
    "channel 1 off",
    "packet of 1 entry",
    "packet of 2 entries",
    "packet of 3 entries",
    "packet of 64 entries",
    "packet that goes round from 6 to 4",
    "packet that goes round from group 6 to line 0",
    "packet from a line below 128 to one above",
    "packet from a line to a group",
    "packet that ends with group 6",
    "packet that ends with line 255",
    "packet with a line that is low",
    "packet with the edge of a low line",
    "packet with the edge of a high line",
    "packet that an edge fills",
    "packet closed by an edge with one place left",
    "packet closed by an edge before a sender that would fit",
    "packet that begins with the edge that closed the last one",
    "packet of lines alone",
    "GET_VWIRE refused with a line high",
    "all 256 lines high at an enabling",
    "256 lines that wait",
    "count lowered to 1 with an edge waiting",
    "count lowered to 1 with a level waiting",
    "count lowered to 1 with an edge waiting, by a disabling",
    "count kept above 1 with an edge waiting",
    "disabling of channel 1 with an edge waiting",
    "reset with a line waiting",
    "platform reset with an edge waiting",
    "line changed while channel 1 is off",
    "line set to the level that it has",
    "line set back before it was sent",
    "level held, set while the edge waits",
    "other level, set while the edge waits",
    "level above 1 while the edge waits",
    "edge refused while channel 1 is off",
    "edge refused at an operating count of 1",
    "edge refused while the level waits",
    "edge refused while the edge waits",
    "edge on no line while channel 1 is off",
    "64 groups put",
    "64 groups over a count of 63",
    "third transition in the last of 64 groups",
    "wire that is put there and back",
    "PLTRST# falls with a write held",
    "PLTRST# falls with a request open",
    "PLTRST# falls with an answer ready",
    "PLTRST# falls with a read partly handed over",
    "PLTRST# falls with group 4 pending",
    "PLTRST# falls with group 5 pending",
    "PLTRST# falls with group 6 pending",
    "PLTRST# falls with group 6 alone pending",
    "PLTRST# falls with the place past 4",
    "PLTRST# falls with a line high",
    "PLTRST# falls with an edge waiting",
    "PLTRST# falls with 010h changed",
    "PLTRST# falls while channel 0 is off",
    "PLTRST# falls after a pair of group 7",
    "PLTRST# falls before a pair of group 7",
    "PLTRST# falls after it was given high",
    "PLTRST# falls in the last of 64 groups",
    "PLTRST# rises",
    "PLTRST# given low while low",
    "PLTRST# high and low again in a packet",
    "PLTRST# low and high again in a packet",
    "PLTRST# would fall by a value that is not valid",
    "PLTRST# would fall in a packet over the operating count",
    "PLTRST# would fall in a packet with a third transition",
    "posted write of 256 bytes",
    "answer of 4,096 bytes",
    "late answer while a request is open",
    "piece cut by a size that is not today's",
    "short read in two pieces",
    "disabling of channel 0 with a request held",
    "serial that wraps to 0",
    "empty command",
    "damaged bytes that are sound",
];

pub struct Coverage {
    calls: u64,
    numbers: [[u64; 25]; CALLS.len()],
    opcodes: [[u64; ENDS.len()]; OPCODES.len()],
    unknown_opcodes: [bool; 256],
    marks: [u64; 6],
    /// Reads handed over from the first piece to the last, by their number of pieces.
    reads: [u64; 65],
    cases: [u64; CASES.len()],
    pieces_so_far: u64,
    /// The line whose edge closed the last packet, if one did.
    closed_by: Option<usize>,
}

impl Default for Coverage {
    fn default() -> Coverage {
        Coverage {
            calls: 0,
            numbers: [[0; 25]; CALLS.len()],
            opcodes: [[0; ENDS.len()]; OPCODES.len()],
            unknown_opcodes: [false; 256],
            marks: [0; 6],
            reads: [0; 65],
            cases: [0; CASES.len()],
            pieces_so_far: 0,
            closed_by: None,
        }
    }
}

/// N = floor((A+L-1)/P) - floor(A/P) + 1 (01, Requests, answers, pieces).
fn pieces(request: &Request) -> u64 {
    let (address, length, payload) = (u128::from(request.address), u128::from(request.length), u128::from(request.payload));
    ((address + length - 1) / payload - address / payload + 1) as u64
}

/// Whose an entry of a packet is.
fn sender(index: u8, data: u8) -> Sender {
    match index {
        0 | 1 => Sender::Line(128 * usize::from(index) + usize::from(data & 0x7F)),
        _ => Sender::Group(index),
    }
}

impl Coverage {
    fn case(&mut self, name: &str, met: bool) {
        let at = CASES.iter().position(|&case| case == name).expect("a case of the list");
        self.cases[at] += u64::from(met);
    }

    /// A call with the state before it (`None`: not sound), whether that state was damaged bytes, its word, the reply
    /// store after it and the state after it.
    pub fn record(&mut self, call: &Call, before: Option<&State>, damaged: bool, word: u32, reply: &[u8], after: Option<&State>) {
        self.calls += 1;
        let number = word & 0xFF;
        if let Some(count) = self.numbers[call.row()].get_mut(number as usize) {
            *count += 1;
        }
        let (Some(before), Some(after)) = (before, after) else {
            return;
        };
        if damaged {
            self.case("damaged bytes that are sound", number != 10);
            return;
        }
        self.case(if before.crc_checked() { "CRC checked" } else { "CRC not checked" }, true);
        self.case(if before.on0() { "channel 0 on" } else { "channel 0 off" }, true);
        self.case(if before.on1() { "channel 1 on" } else { "channel 1 off" }, true);
        match call {
            Call::Exchange { command } if number != 10 => self.record_exchange(command, before, number, reply, after),
            Call::Answer { serial, data, .. } => {
                let open = before.request.as_ref().is_some_and(|request| request.phase == Phase::Open);
                self.case("late answer while a request is open", number == 20 && open && *serial != before.serial);
                self.case("answer of 4,096 bytes", number == OK && data.len() == READ_STORE_LEN);
            }
            Call::Reset => self.case("reset with a line waiting", number == OK && before.line_waits()),
            Call::PlatformReset => self.case("platform reset with an edge waiting", number == OK && before.edge_waits()),
            Call::SetLine { line, level } if number != 10 => self.record_level(before, *line, *level, number),
            Call::PulseLine { line } if number != 10 => self.record_edge(before, *line, number),
            _ => {}
        }
    }

    fn record_exchange(&mut self, command: &[u8], before: &State, number: u32, reply: &[u8], after: &State) {
        let Some(&opcode) = command.first() else {
            self.case("empty command", true);
            return;
        };
        let Some(row) = OPCODES.iter().position(|&(listed, _, _)| listed == opcode) else {
            self.unknown_opcodes[usize::from(opcode)] = true;
            return;
        };
        let no_credit = match opcode {
            0x00 | 0x4C..=0x4F => before.write.is_some(),
            0x02 | 0x40..=0x4B => before.request.is_some(),
            0x01 | 0x05 => true,
            _ => false,
        };
        let puts = opcode == 0x04;
        let groups = command.len().saturating_sub(3) / 2;
        let end = match number {
            0 => Accepted,
            1 if no_credit => Credit,
            1 if puts && groups <= before.operating_count() => Third,
            1 => Size,
            2 => Forbidden,
            12 => Length,
            13 => Opcode,
            14 => Off,
            15 => Cycle,
            _ => Crc,
        };
        self.opcodes[row][end as usize] += 1;
        if puts && matches!(end, Accepted | Size | Third) {
            self.record_packet(&command[2..2 + 2 * groups], before, end);
        }
        let count_1 =
            opcode == 0x22 && command.get(1).is_some_and(|high| high & 0x0F == 0) && command.get(2).is_some_and(|low| low & 0xFC == 0x20);
        self.case("count lowered to 1 with an edge waiting", count_1 && end == Forbidden);
        self.case("GET_VWIRE refused with a line high", opcode == 0x05 && end == Credit && before.lines.iter().any(|line| line.high));
        if end != Accepted {
            return;
        }
        match opcode {
            0x00 => {
                self.case("posted write of 256 bytes", after.write.as_ref().is_some_and(|write| write.length as usize == WRITE_STORE_LEN))
            }
            0x01 => self.record_completion(before, reply),
            0x05 => self.record_sent(before, reply, after),
            0x22 => self.record_write(command, before, after),
            _ => {}
        }
        let asked = before.request.is_none() && after.request.is_some();
        self.case("serial that wraps to 0", asked && after.serial == 0);
    }

    /// A line raised or lowered.
    fn record_level(&mut self, before: &State, line: u32, level: u32, number: u32) {
        let Some(line) = before.lines.get(line as usize) else { return };
        let equal = level == u32::from(line.high);
        let edge = line.waits == Waits::Edge;
        for (name, met) in [
            ("line changed while channel 1 is off", number == OK && !equal && !before.on1()),
            ("line set to the level that it has", number == OK && equal && before.on1() && line.waits == Waits::Not),
            ("line set back before it was sent", number == OK && !equal && line.waits == Waits::Level),
            ("level held, set while the edge waits", edge && equal && number == 24),
            ("other level, set while the edge waits", edge && !equal && number == 24),
            ("level above 1 while the edge waits", edge && number == 22),
        ] {
            self.case(name, met);
        }
    }

    /// An edge asked for.
    fn record_edge(&mut self, before: &State, line: u32, number: u32) {
        let on = before.on1();
        let refused = number == 24;
        let waits = before.lines.get(line as usize).map(|line| line.waits);
        let counts = on && before.operating_count() > 1;
        for (name, met) in [
            ("edge refused while channel 1 is off", refused && !on && before.operating_count() > 1),
            ("edge refused at an operating count of 1", refused && on && waits == Some(Waits::Not)),
            ("edge refused while the level waits", refused && counts && waits == Some(Waits::Level)),
            ("edge refused while the edge waits", refused && counts && waits == Some(Waits::Edge)),
            ("edge on no line while channel 1 is off", number == 22 && !on),
        ] {
            self.case(name, met);
        }
    }

    /// What an accepted GET_VWIRE sent.
    fn record_sent(&mut self, before: &State, reply: &[u8], after: &State) {
        let entries = usize::from(reply[1]) + 1;
        let pairs: Vec<[u8; 2]> = reply[2..2 + 2 * entries].chunks_exact(2).map(|pair| [pair[0], pair[1]]).collect();
        let senders: Vec<Sender> = pairs.iter().map(|&[index, data]| sender(index, data)).collect();
        let stepped = |met: fn(Sender, Sender) -> bool| senders.windows(2).any(|two| met(two[0], two[1]));
        let edge = |line: usize| before.lines[line].waits == Waits::Edge;
        let sent_edge = |high: bool| {
            senders.iter().any(|&sender| matches!(sender, Sender::Line(line) if edge(line) && before.lines[line].high == high))
        };
        let sent_low = senders
            .iter()
            .any(|&sender| matches!(sender, Sender::Line(line) if before.lines[line] == Line { high: false, waits: Waits::Level }));
        let room = before.operating_count() - entries;
        let last = senders[entries - 1];
        // The next that waits, and whether one behind it would fit.
        let rest: Vec<Sender> = std::iter::successors(Some(last.next()), |sender| Some(sender.next()))
            .take(258)
            .filter(|&sender| after.waits(sender))
            .collect();
        let is_edge = |sender: &Sender| matches!(sender, &Sender::Line(line) if after.lines[line].waits == Waits::Edge);
        let closing = rest.first().filter(|first| room == 1 && is_edge(first));
        let begun = self.closed_by.is_some_and(|line| senders[0] == Sender::Line(line) && edge(line));
        for (name, met) in [
            ("packet of 1 entry", entries == 1),
            ("packet of 2 entries", entries == 2),
            ("packet of 3 entries", entries == 3),
            ("packet of 64 entries", entries == 64),
            ("packet that goes round from 6 to 4", stepped(|one, two| (one, two) == (Sender::Group(6), Sender::Group(4)))),
            ("packet that goes round from group 6 to line 0", stepped(|one, two| (one, two) == (Sender::Group(6), Sender::Line(0)))),
            (
                "packet from a line below 128 to one above",
                stepped(|one, two| matches!((one, two), (Sender::Line(0..=127), Sender::Line(128..)))),
            ),
            ("packet from a line to a group", stepped(|one, two| matches!((one, two), (Sender::Line(_), Sender::Group(_))))),
            ("packet that ends with group 6", last == Sender::Group(6) && after.place == Sender::Line(0)),
            ("packet that ends with line 255", last == Sender::Line(255) && after.place == Sender::Group(4)),
            ("packet with a line that is low", sent_low),
            ("packet with the edge of a low line", sent_edge(false)),
            ("packet with the edge of a high line", sent_edge(true)),
            ("packet that an edge fills", room == 0 && matches!(last, Sender::Line(line) if edge(line))),
            ("packet closed by an edge with one place left", closing.is_some()),
            ("packet closed by an edge before a sender that would fit", closing.is_some() && !rest.iter().all(is_edge)),
            ("packet that begins with the edge that closed the last one", begun),
            ("packet of lines alone", senders.iter().all(|sender| matches!(sender, Sender::Line(_)))),
            ("256 lines that wait", before.lines.iter().all(|line| line.waits != Waits::Not)),
        ] {
            self.case(name, met);
        }
        self.closed_by = closing.and_then(|sender| if let &Sender::Line(line) = sender { Some(line) } else { None });
    }

    /// An accepted write of a register.
    fn record_write(&mut self, command: &[u8], before: &State, after: &State) {
        let off = before.on1() && !after.on1();
        let of_020 = before.on1() && command[1] & 0x0F == 0 && command[2] & 0xFC == 0x20;
        let count = command[5] & 0x3F;
        for (name, met) in [
            ("disabling of channel 0 with a request held", before.request.is_some() && before.on0() && !after.on0()),
            ("all 256 lines high at an enabling", !before.on1() && after.on1() && before.lines.iter().all(|line| line.high)),
            ("count lowered to 1 with a level waiting", of_020 && count == 0 && before.operating_count() > 1 && after.line_waits()),
            ("count lowered to 1 with an edge waiting, by a disabling", of_020 && count == 0 && off && before.edge_waits()),
            ("count kept above 1 with an edge waiting", of_020 && count == 1 && !off && before.edge_waits()),
            ("disabling of channel 1 with an edge waiting", off && before.edge_waits()),
        ] {
            self.case(name, met);
        }
    }

    /// A packet of these pairs, accepted or refused by number 1.
    fn record_packet(&mut self, pairs: &[u8], before: &State, end: End) {
        let of_64 = pairs.len() == 2 * 64;
        self.case("64 groups put", of_64 && end == Accepted);
        self.case("64 groups over a count of 63", of_64 && end == Size && before.operating_count() == 63);
        let third_at_63 = || Engine::default().third_transition(before, &pairs[..2 * 63]);
        self.case("third transition in the last of 64 groups", of_64 && end == Third && !third_at_63());
        let there_and_back = || Engine { fault: fault::SECOND_REFUSED }.third_transition(before, pairs);
        self.case("wire that is put there and back", end == Accepted && there_and_back());
        self.record_pltrst(pairs, before, end);
    }

    /// What a packet of these pairs does to PLTRST#, or would do if it were not refused (02, Q-1).
    fn record_pltrst(&mut self, pairs: &[u8], before: &State, end: End) {
        let values = pltrst_values(pairs);
        let was = before.levels[3 - FIRST_GROUP] & 0x02 != 0;
        let is = values.last().copied().unwrap_or(was);
        let falls = was && !is;
        self.case("PLTRST# would fall in a packet over the operating count", falls && end == Size);
        self.case("PLTRST# would fall in a packet with a third transition", falls && end == Third);
        if end != Accepted {
            return;
        }
        if falls {
            self.record_fall(pairs, before);
        }
        let last_low = pairs.chunks_exact(2).rfind(|pair| pair[0] == 3).is_some_and(|pair| pair[1] & 0x02 == 0);
        self.case("PLTRST# would fall by a value that is not valid", was && is && last_low);
        self.case("PLTRST# rises", !was && is);
        self.case("PLTRST# given low while low", !was && !is && !values.is_empty() && !values.contains(&true));
        self.case("PLTRST# high and low again in a packet", !was && !is && values.contains(&true));
        self.case("PLTRST# low and high again in a packet", was && is && values.contains(&false));
    }

    /// What is there when PLTRST# falls: each thing that the platform reset takes back, or must leave.
    fn record_fall(&mut self, pairs: &[u8], before: &State) {
        let phase = before.request.map(|request| request.phase);
        let sent = before.request.is_some_and(|request| request.sent > 0);
        let pending = |index: usize| before.pending[index - FIRST_GROUP];
        let after = after_pltrst(pairs);
        let until = &pairs[..pairs.len() - after.len()];
        let group_7 = &GROUPS[7 - FIRST_GROUP];
        let puts_7 = |pair: &[u8]| pair[0] == 7 && (pair[1] ^ group_7.reset) & pair[1] >> 4 & group_7.defined != 0;
        for (name, met) in [
            ("PLTRST# falls with a write held", before.write.is_some()),
            ("PLTRST# falls with a request open", phase == Some(Phase::Open)),
            ("PLTRST# falls with an answer ready", phase.is_some_and(|phase| phase != Phase::Open) && !sent),
            ("PLTRST# falls with a read partly handed over", sent),
            ("PLTRST# falls with group 4 pending", pending(4)),
            ("PLTRST# falls with group 5 pending", pending(5)),
            ("PLTRST# falls with group 6 pending", pending(6)),
            ("PLTRST# falls with group 6 alone pending", pending(6) && !pending(4) && !pending(5)),
            ("PLTRST# falls with the place past 4", before.place != Sender::FIRST),
            ("PLTRST# falls with a line high", before.lines.iter().any(|line| line.high)),
            ("PLTRST# falls with an edge waiting", before.edge_waits()),
            ("PLTRST# falls with 010h changed", before.on0() && before.channel0 != CHANNEL_0.reset),
            ("PLTRST# falls while channel 0 is off", !before.on0()),
            ("PLTRST# falls after a pair of group 7", until.chunks_exact(2).any(puts_7)),
            ("PLTRST# falls before a pair of group 7", after.chunks_exact(2).any(puts_7)),
            ("PLTRST# falls after it was given high", pltrst_values(pairs).first() == Some(&true)),
            ("PLTRST# falls in the last of 64 groups", pairs.len() == 2 * 64 && pltrst_values(&pairs[..2 * 63]).last() != Some(&false)),
        ] {
            self.case(name, met);
        }
    }

    fn record_completion(&mut self, before: &State, reply: &[u8]) {
        let Some(request) = &before.request else {
            return;
        };
        let mark = reply[1];
        if let Some(at) = MARKS.iter().position(|&(listed, _)| listed == mark) {
            self.marks[at] += 1;
        }
        if !matches!(mark, 0x0F | 0x0B | 0x09 | 0x0D) {
            return;
        }
        self.pieces_so_far = if request.sent == 0 { 1 } else { self.pieces_so_far + 1 };
        self.case("piece cut by a size that is not today's", mark != 0x0F && request.payload != before.payload());
        self.case("short read in two pieces", mark == 0x0D && request.length <= 4);
        if matches!(mark, 0x0F | 0x0D) && self.pieces_so_far == pieces(request) {
            self.reads[self.pieces_so_far as usize] += 1;
        }
    }

    /// The report, and the names of everything that the run should have reached and did not.
    pub fn report(&self) -> (String, Vec<String>) {
        let mut text = String::new();
        let mut missing = Vec::new();
        let mut need = |count: u64, name: String| {
            if count == 0 {
                missing.push(name);
            }
        };
        text += "numbers of each call:\n";
        for (row, name) in CALLS.iter().enumerate() {
            text += &format!("  {name:<16}");
            for &number in NUMBERS[row] {
                let count = self.numbers[row][number as usize];
                text += &format!(" {number}: {count}");
                need(count, format!("{name} with number {number}"));
            }
            text += "\n";
        }
        text += "ends of each opcode:\n";
        for (row, (opcode, name, ends)) in OPCODES.iter().enumerate() {
            text += &format!("  {opcode:02X} {name:<18}");
            for (label, end) in ENDS.iter().filter(|(_, end)| ends.contains(end)) {
                let count = self.opcodes[row][*end as usize];
                text += &format!(" {label}: {count}");
                need(count, format!("{name} with end {label}"));
            }
            text += "\n";
        }
        let unknown = self.unknown_opcodes.iter().filter(|&&seen| seen).count();
        text += &format!("opcodes that are none: {unknown} of {}\n", 256 - OPCODES.len());
        text += "completions:";
        for (at, (_, name)) in MARKS.iter().enumerate() {
            text += &format!(" {name}: {}", self.marks[at]);
            need(self.marks[at], format!("completion {name}"));
        }
        text += "\nreads handed over by number of pieces:";
        for (number, &count) in self.reads.iter().enumerate().filter(|&(_, &count)| count > 0) {
            text += &format!(" {number}: {count}");
        }
        for number in [1, 2, 3, 4, 8, 16, 32, 64] {
            need(self.reads[number], format!("a read of {number} pieces"));
        }
        text += "\ncases:\n";
        for (at, name) in CASES.iter().enumerate() {
            text += &format!("  {name}: {}\n", self.cases[at]);
            need(self.cases[at], name.to_string());
        }
        (text, missing)
    }
}
