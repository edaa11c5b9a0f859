//! Plain Rust beside the engine of tests/differential, without the archive: the same words, replies and states over any calls; and the rows
//! of 02, Q-4, on both its forms.
use differential::engine::{Calls, Engine};
use differential::fault;
use differential::run::run;
use plain::target::Target;
use plain::{lent, state, READ_STORE_LEN, REPLY_LEN, STATE_LEN, WRITE_STORE_LEN};

struct Plain;

impl Calls for Plain {
    fn start(&mut self, state: &mut [u8]) -> u32 {
        lent::start(state)
    }

    fn reset(&mut self, state: &mut [u8]) -> u32 {
        lent::reset(state)
    }

    fn platform_reset(&mut self, state: &mut [u8]) -> u32 {
        lent::platform_reset(state)
    }

    fn exchange(&mut self, state: &mut [u8], command: &[u8], reply: &mut [u8], write_store: &mut [u8], read_store: &[u8]) -> u32 {
        lent::exchange(state, command, reply, write_store, read_store)
    }

    fn look(&mut self, state: &[u8], report: &mut [u8]) -> u32 {
        lent::look(state, report)
    }

    fn answer(&mut self, state: &mut [u8], read_store: &mut [u8], serial: u32, success: u32, data: &[u8]) -> u32 {
        lent::answer(state, read_store, serial, success, data)
    }

    fn take_write(&mut self, state: &mut [u8], write_store: &[u8], report: &mut [u8]) -> u32 {
        lent::take_write(state, write_store, report)
    }

    fn set_wire(&mut self, state: &mut [u8], index: u32, bit: u32, value: u32) -> u32 {
        lent::set_wire(state, index, bit, value)
    }

    fn read_wire(&mut self, state: &[u8], index: u32, bit: u32) -> u32 {
        lent::read_wire(state, index, bit)
    }

    fn set_line(&mut self, state: &mut [u8], line: u32, level: u32) -> u32 {
        lent::set_line(state, line, level)
    }

    fn pulse_line(&mut self, state: &mut [u8], line: u32) -> u32 {
        lent::pulse_line(state, line)
    }
}

#[test]
fn as_the_independent_engine() {
    for seed in 1..=4 {
        match run(&mut Plain, &mut Engine { fault: fault::NONE }, 200_000, seed) {
            Ok(coverage) => assert_eq!(coverage.report().1, Vec::<String>::new()),
            Err(difference) => panic!("the archive in this report is plain Rust\n{}", difference.text),
        }
    }
}

/// Channel 1 on with an operating count of 2: line 1 raised, a pulse on line 130, group 5 bit 0 set.
#[test]
fn line_rows() {
    const ROWS: [(&[u8], u32, &[u8]); 3] = [
        (&[0x05, 0x1B], 0, &[0x08, 0x01, 0x05, 0xF1, 0x00, 0x81, 0x47, 0x00, 0xF1]),
        (&[0x05, 0x1B], 0, &[0x08, 0x01, 0x01, 0x82, 0x01, 0x02, 0x07, 0x00, 0x96]),
        (&[0x05, 0x1B], 1, &[0x03, 0x07, 0x00, 0xD6]),
    ];
    const ON: [u8; 8] = [0x22, 0x00, 0x20, 0x01, 0x00, 0x01, 0x00, 0x7F];
    let (mut reply, mut write_store, read_store) = ([0; REPLY_LEN], [0; WRITE_STORE_LEN], [0; READ_STORE_LEN]);
    let mut bytes = [0; STATE_LEN];
    let mut target = Target::new();
    assert_eq!(lent::start(&mut bytes), 0);
    assert_eq!(lent::exchange(&mut bytes, &ON, &mut reply, &mut write_store, &read_store), 4 << 8);
    assert_eq!(target.exchange(&ON, &mut reply, &mut write_store, &read_store).number, 0);
    assert_eq!((lent::set_line(&mut bytes, 1, 1), target.set_line(1, 1)), (0, Ok(())));
    assert_eq!((lent::pulse_line(&mut bytes, 130), target.pulse_line(130)), (0, Ok(())));
    assert_eq!((lent::set_wire(&mut bytes, 5, 0, 1), target.set_wire(5, 0, 1)), (0, Ok(())));
    for (command, number, expected) in ROWS {
        let word = lent::exchange(&mut bytes, command, &mut reply, &mut write_store, &read_store);
        assert_eq!((word & 0xFF, &reply[..(word >> 8) as usize]), (number, expected));
        reply.fill(0);
        let outcome = target.exchange(command, &mut reply, &mut write_store, &read_store);
        assert_eq!((outcome.number, &reply[..outcome.length]), (number, expected));
        assert_eq!(state::unpack(&bytes), Some(target.clone()));
    }
}
