//! Document 01's cartridge, with document 02's request 1: a lent ROM in LoROM order. It repeats where its length is a
//! power of two of at least 32,768; past the end of any other, and below $8000, it is silent.

use crate::bus::AccessSpeed;
use common::snes_address::SnesAddress;
use std::error::Error;
use std::path::Path;
use std::rc::Rc;

/// The shortest ROM that repeats: what one bank shows from $8000 up.
const LEAST_REPEATED: usize = 0x8000;

pub struct Cartridge {
    pub rom: Rc<[u8]>,
}

impl Cartridge {
    /// bus.rs names this call; the oracle lends its ROM instead.
    pub fn load_from_file<P: AsRef<Path>>(rom_path: P) -> Result<Self, Box<dyn Error>> {
        Ok(Self { rom: std::fs::read(rom_path)?.into() })
    }

    /// The byte, or nothing where no chip answers, and the speed.
    pub fn read(&self, addr: SnesAddress, fast: bool) -> (Option<u8>, AccessSpeed) {
        let byte = offset(addr).and_then(|offset| self.rom.get(self.wrapped(offset)).copied());
        (byte, speed(addr, fast))
    }

    /// A ROM does not take writes.
    pub fn write(&mut self, addr: SnesAddress, _value: u8, fast: bool) -> AccessSpeed {
        speed(addr, fast)
    }

    /// The offset modulo the length of a ROM that repeats; for any other it stays, inside or past the end.
    fn wrapped(&self, offset: usize) -> usize {
        let length = self.rom.len();
        if length >= LEAST_REPEATED && length.is_power_of_two() { offset % length } else { offset }
    }
}

fn offset(addr: SnesAddress) -> Option<usize> {
    let within = addr.addr.checked_sub(0x8000)?;
    Some(usize::from(addr.bank % 128) * 0x8000 + usize::from(within))
}

fn speed(addr: SnesAddress, fast: bool) -> AccessSpeed {
    if fast && addr.bank >= 0x80 && addr.addr >= 0x8000 { AccessSpeed::Fast } else { AccessSpeed::Slow }
}
