//! The exported functions of the archive over slices: every input is taken, a bad one is refused by its number.
//!
//! docs/PLAYER.md has the places of the machine's bytes. [`crate::Machine`] is the interface for everyday use.

/// Bytes of a machine: image, 34 zeros, next slot, kept, record length, sum.
pub const MACHINE_SIZE: usize = 284;
/// Where its next slot stands: 8 bytes, lowest first, as kept and record length.
pub const NEXT_SLOT: usize = 256;
pub const KEPT: usize = 264;
pub const RECORD_LENGTH: usize = 272;
/// Where its sum of all work RAM bytes stands, modulo 2^32: 4 bytes, lowest first.
pub const SUM: usize = 280;
/// Bytes that a cycle answers: held, edge, count, and eleven of (write, bank, address, byte).
pub const ANSWER_SIZE: usize = 58;

/// What every operation is lent.
pub struct Lent<'a> {
    pub machine: &'a mut [u8],
    pub low: &'a mut [u8],
    pub high: &'a mut [u8],
    pub record: &'a mut [u8],
    pub rom: &'a [u8],
}

type Bytes = *mut u8;
type Seen = *const u8;

// A slice crosses as its pointer and its length.
unsafe extern "C" {
    fn cloverwain_fresh(
        machine: Bytes,
        _: usize,
        low: Seen,
        _: usize,
        high: Seen,
        _: usize,
        length: usize,
        bit_cycles: u16,
    ) -> u8;
    fn cloverwain_cycle(
        machine: Bytes,
        _: usize,
        low: Bytes,
        _: usize,
        high: Bytes,
        _: usize,
        record: Bytes,
        _: usize,
        rom: Seen,
        _: usize,
        event: u8,
        line: bool,
        timer: bool,
        out: Bytes,
        _: usize,
    ) -> u8;
    fn cloverwain_read(
        machine: Bytes,
        _: usize,
        low: Bytes,
        _: usize,
        high: Bytes,
        _: usize,
        record: Bytes,
        _: usize,
        rom: Seen,
        _: usize,
        bank: u8,
        addr: u16,
        out: Bytes,
        _: usize,
    ) -> u8;
    fn cloverwain_write(
        machine: Bytes,
        _: usize,
        low: Bytes,
        _: usize,
        high: Bytes,
        _: usize,
        record: Bytes,
        _: usize,
        rom: Seen,
        _: usize,
        bank: u8,
        addr: u16,
        byte: u8,
        out: Bytes,
        _: usize,
    ) -> u8;
    fn cloverwain_pad(
        machine: Bytes,
        _: usize,
        low: Bytes,
        _: usize,
        high: Bytes,
        _: usize,
        record: Bytes,
        _: usize,
        rom: Seen,
        _: usize,
        port: u8,
        word: u16,
    ) -> u8;
    fn cloverwain_plug(
        machine: Bytes,
        _: usize,
        low: Bytes,
        _: usize,
        high: Bytes,
        _: usize,
        record: Bytes,
        _: usize,
        rom: Seen,
        _: usize,
        port: u8,
        on: bool,
    ) -> u8;
    fn cloverwain_port_answer(
        machine: Bytes,
        _: usize,
        low: Bytes,
        _: usize,
        high: Bytes,
        _: usize,
        record: Bytes,
        _: usize,
        rom: Seen,
        _: usize,
        addr: u16,
        byte: u8,
    ) -> u8;
    fn cloverwain_back(
        machine: Bytes,
        _: usize,
        low: Bytes,
        _: usize,
        high: Bytes,
        _: usize,
        record: Bytes,
        _: usize,
    ) -> u8;
    fn cloverwain_page(
        low: Seen,
        _: usize,
        high: Seen,
        _: usize,
        page: u16,
        out: Bytes,
        _: usize,
    ) -> u8;
    fn cloverwain_file_check(file: Seen, _: usize) -> u8;
}

// SAFETY, for each call below: pointers and lengths are those of slices that are borrowed for the call, no two of them
// overlap where one is written, and the functions are proved to touch nothing outside, for all inputs.

/// Calls an operation with what it is lent in front of its own arguments.
macro_rules! on {
    ($call:ident($lent:expr $(, $argument:expr)*)) => {{
        let Lent { machine, low, high, record, rom } = $lent;
        unsafe {
            $call(
                machine.as_mut_ptr(), machine.len(), low.as_mut_ptr(), low.len(), high.as_mut_ptr(), high.len(),
                record.as_mut_ptr(), record.len(), rom.as_ptr(), rom.len() $(, $argument)*
            )
        }
    }};
}

/// A machine at power-on with the sum of both banks; a refused one has bit cycles 1, record length 0 and sum 0.
pub fn fresh(machine: &mut [u8], low: &[u8], high: &[u8], length: usize, bit_cycles: u16) -> u8 {
    unsafe {
        cloverwain_fresh(
            machine.as_mut_ptr(),
            machine.len(),
            low.as_ptr(),
            low.len(),
            high.as_ptr(),
            high.len(),
            length,
            bit_cycles,
        )
    }
}

pub fn cycle(lent: Lent, event: u8, line: bool, timer: bool, out: &mut [u8]) -> u8 {
    on!(cloverwain_cycle(
        lent,
        event,
        line,
        timer,
        out.as_mut_ptr(),
        out.len()
    ))
}

/// `out` takes byte and cost.
pub fn read(lent: Lent, bank: u8, addr: u16, out: &mut [u8]) -> u8 {
    on!(cloverwain_read(
        lent,
        bank,
        addr,
        out.as_mut_ptr(),
        out.len()
    ))
}

/// `out` takes the cost.
pub fn write(lent: Lent, bank: u8, addr: u16, byte: u8, out: &mut [u8]) -> u8 {
    on!(cloverwain_write(
        lent,
        bank,
        addr,
        byte,
        out.as_mut_ptr(),
        out.len()
    ))
}

pub fn pad(lent: Lent, port: u8, word: u16) -> u8 {
    on!(cloverwain_pad(lent, port, word))
}

pub fn plug(lent: Lent, port: u8, on: bool) -> u8 {
    on!(cloverwain_plug(lent, port, on))
}

pub fn port_answer(lent: Lent, addr: u16, byte: u8) -> u8 {
    on!(cloverwain_port_answer(lent, addr, byte))
}

/// Takes no ROM.
pub fn back(lent: Lent) -> u8 {
    let Lent {
        machine,
        low,
        high,
        record,
        ..
    } = lent;
    unsafe {
        cloverwain_back(
            machine.as_mut_ptr(),
            machine.len(),
            low.as_mut_ptr(),
            low.len(),
            high.as_mut_ptr(),
            high.len(),
            record.as_mut_ptr(),
            record.len(),
        )
    }
}

/// `out` takes the 256 bytes of a page.
pub fn page(low: &[u8], high: &[u8], page: u16, out: &mut [u8]) -> u8 {
    unsafe {
        cloverwain_page(
            low.as_ptr(),
            low.len(),
            high.as_ptr(),
            high.len(),
            page,
            out.as_mut_ptr(),
            out.len(),
        )
    }
}

pub fn file_check(file: &[u8]) -> u8 {
    unsafe { cloverwain_file_check(file.as_ptr(), file.len()) }
}
