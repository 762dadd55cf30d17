//! The published bus behind a door that notes each access and each work RAM byte about to be overwritten, and follows the
//! sum of work RAM write by write.

use apu::Apu;
use bus::Bus;
use bus::bus::AccessSpeed;
use common::snes_address::SnesAddress;
use ppu::ppu::PPU;
use std::ops::{Deref, DerefMut};

/// The most accesses one cycle makes: three table reads and four bytes moved.
pub const MOST_ACCESSES: usize = 11;
/// The most work RAM bytes one operation overwrites.
pub const MOST_OLD_BYTES: usize = 4;

#[derive(Clone, Copy, Debug, Default, PartialEq, Eq)]
pub struct Access {
    pub write: bool,
    pub bank: u8,
    pub addr: u16,
    pub byte: u8,
}

/// A work RAM place and the byte it held before a write.
#[derive(Clone, Copy, Debug, Default, PartialEq, Eq)]
pub struct OldByte {
    pub place: u32,
    pub byte: u8,
}

#[derive(Default)]
pub struct Log {
    pub accesses: [Access; MOST_ACCESSES],
    /// For each access the work RAM place it reached, $7E first.
    pub places: [Option<u32>; MOST_ACCESSES],
    pub count: usize,
    pub old_bytes: [OldByte; MOST_OLD_BYTES],
    pub old_count: usize,
    /// What the writes added to the sum of work RAM, modulo 2^32.
    pub risen: u32,
}

impl Log {
    fn note(&mut self, access: Access, place: Option<usize>) {
        self.accesses[self.count] = access;
        self.places[self.count] = place.map(|place| place as u32);
        self.count += 1;
    }

    /// A write to work RAM, which puts one byte in place of another.
    fn replace(&mut self, place: usize, old: u8, new: u8) {
        self.old_bytes[self.old_count] = OldByte { place: place as u32, byte: old };
        self.old_count += 1;
        self.risen = self.risen.wrapping_add(new.into()).wrapping_sub(old.into());
    }
}

pub struct LoggedBus {
    bus: Bus,
    pub log: Log,
}

impl LoggedBus {
    pub fn new(bus: Bus) -> Self {
        Self { bus, log: Log::default() }
    }

    pub fn into_bus(self) -> Bus {
        self.bus
    }

    pub fn read(&mut self, addr: SnesAddress, ppu: &mut PPU, apu: &mut Apu) -> (u8, AccessSpeed) {
        let place = self.place(addr);
        let (byte, speed) = self.bus.read(addr, ppu, apu);
        self.log.note(Access { write: false, bank: addr.bank, addr: addr.addr, byte }, place);
        (byte, speed)
    }

    pub fn write(&mut self, addr: SnesAddress, byte: u8, ppu: &mut PPU, apu: &mut Apu) -> AccessSpeed {
        let place = self.place(addr);
        if let Some(place) = place {
            self.log.replace(place, self.bus.wram.data[place], byte);
        }
        self.log.note(Access { write: true, bank: addr.bank, addr: addr.addr, byte }, place);
        self.bus.write(addr, byte, ppu, apu)
    }

    /// The work RAM place that an access of this address reaches now, $7E first.
    fn place(&self, addr: SnesAddress) -> Option<usize> {
        let system = matches!(addr.bank, 0x00..=0x3F | 0x80..=0xBF);
        match addr.addr {
            _ if addr.bank == 0x7E => Some(addr.addr.into()),
            _ if addr.bank == 0x7F => Some(0x10000 + usize::from(addr.addr)),
            0x0000..0x2000 if system => Some(addr.addr.into()),
            0x2180 if system => self.place(self.bus.io.wmadd.to_snes_addr()),
            _ => None,
        }
    }
}

impl Deref for LoggedBus {
    type Target = Bus;

    fn deref(&self) -> &Bus {
        &self.bus
    }
}

impl DerefMut for LoggedBus {
    fn deref_mut(&mut self) -> &mut Bus {
        &mut self.bus
    }
}
