//! The proved engine linked in, on the machine that its archive is made for; that is a 64-bit one, whose usize is a length of the C boundary.
use differential::engine::Calls;

/// The C boundary, as include/espi.h declares it.
mod c {
    extern "C" {
        pub fn espi_start(state: *mut u8, state_len: usize) -> u32;
        pub fn espi_reset(state: *mut u8, state_len: usize) -> u32;
        pub fn espi_platform_reset(state: *mut u8, state_len: usize) -> u32;
        pub fn espi_exchange(
            state: *mut u8,
            state_len: usize,
            command: *const u8,
            command_len: usize,
            reply: *mut u8,
            reply_len: usize,
            write_store: *mut u8,
            write_store_len: usize,
            read_store: *const u8,
            read_store_len: usize,
        ) -> u32;
        pub fn espi_look(state: *const u8, state_len: usize, report: *mut u8, report_len: usize) -> u32;
        pub fn espi_answer(
            state: *mut u8,
            state_len: usize,
            read_store: *mut u8,
            read_store_len: usize,
            serial: u32,
            success: u32,
            data: *const u8,
            data_len: usize,
        ) -> u32;
        pub fn espi_take_write(
            state: *mut u8,
            state_len: usize,
            write_store: *const u8,
            write_store_len: usize,
            report: *mut u8,
            report_len: usize,
        ) -> u32;
        pub fn espi_set_wire(state: *mut u8, state_len: usize, index: u32, bit: u32, value: u32) -> u32;
        pub fn espi_read_wire(state: *const u8, state_len: usize, index: u32, bit: u32) -> u32;
        pub fn espi_set_line(state: *mut u8, state_len: usize, line: u32, level: u32) -> u32;
        pub fn espi_pulse_line(state: *mut u8, state_len: usize, line: u32) -> u32;
    }
}

/// The proved engine, behind its C boundary. The slices are valid and do not overlap, which is all that it asks.
pub struct Archive;

impl Archive {
    pub fn new() -> Archive {
        Archive
    }

    /// Whether it ended before its time; it never does.
    pub fn gone(&self) -> bool {
        false
    }
}

impl Calls for Archive {
    fn start(&mut self, state: &mut [u8]) -> u32 {
        unsafe { c::espi_start(state.as_mut_ptr(), state.len()) }
    }

    fn reset(&mut self, state: &mut [u8]) -> u32 {
        unsafe { c::espi_reset(state.as_mut_ptr(), state.len()) }
    }

    fn platform_reset(&mut self, state: &mut [u8]) -> u32 {
        unsafe { c::espi_platform_reset(state.as_mut_ptr(), state.len()) }
    }

    fn exchange(&mut self, state: &mut [u8], command: &[u8], reply: &mut [u8], write_store: &mut [u8], read_store: &[u8]) -> u32 {
        unsafe {
            c::espi_exchange(
                state.as_mut_ptr(),
                state.len(),
                command.as_ptr(),
                command.len(),
                reply.as_mut_ptr(),
                reply.len(),
                write_store.as_mut_ptr(),
                write_store.len(),
                read_store.as_ptr(),
                read_store.len(),
            )
        }
    }

    fn look(&mut self, state: &[u8], report: &mut [u8]) -> u32 {
        unsafe { c::espi_look(state.as_ptr(), state.len(), report.as_mut_ptr(), report.len()) }
    }

    fn answer(&mut self, state: &mut [u8], read_store: &mut [u8], serial: u32, success: u32, data: &[u8]) -> u32 {
        unsafe {
            c::espi_answer(
                state.as_mut_ptr(),
                state.len(),
                read_store.as_mut_ptr(),
                read_store.len(),
                serial,
                success,
                data.as_ptr(),
                data.len(),
            )
        }
    }

    fn take_write(&mut self, state: &mut [u8], write_store: &[u8], report: &mut [u8]) -> u32 {
        unsafe {
            c::espi_take_write(state.as_mut_ptr(), state.len(), write_store.as_ptr(), write_store.len(), report.as_mut_ptr(), report.len())
        }
    }

    fn set_wire(&mut self, state: &mut [u8], index: u32, bit: u32, value: u32) -> u32 {
        unsafe { c::espi_set_wire(state.as_mut_ptr(), state.len(), index, bit, value) }
    }

    fn read_wire(&mut self, state: &[u8], index: u32, bit: u32) -> u32 {
        unsafe { c::espi_read_wire(state.as_ptr(), state.len(), index, bit) }
    }

    fn set_line(&mut self, state: &mut [u8], line: u32, level: u32) -> u32 {
        unsafe { c::espi_set_line(state.as_mut_ptr(), state.len(), line, level) }
    }

    fn pulse_line(&mut self, state: &mut [u8], line: u32) -> u32 {
        unsafe { c::espi_pulse_line(state.as_mut_ptr(), state.len(), line) }
    }
}
