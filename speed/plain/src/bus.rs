//! The bus: where an address leads, what an access costs, every access noted, every overwritten byte of work RAM kept.

use crate::io::Io;

pub const BANK_SIZE: usize = 0x1_0000;
pub const MOST_ACCESSES: usize = 11;
pub const MOST_OLD: usize = 4;

#[derive(Clone, Copy, Debug, Default, PartialEq, Eq)]
pub struct Access {
    pub write: bool,
    pub bank: u8,
    pub addr: u16,
    pub byte: u8,
}

/// The accesses of a cycle in order; places from `count` on are zero.
#[derive(Clone, Copy, Debug, Default, PartialEq, Eq)]
pub struct Accesses {
    pub count: usize,
    pub items: [Access; MOST_ACCESSES],
}

/// A byte of work RAM before it was overwritten; `place` counts from $7E:0000.
#[derive(Clone, Copy, Default)]
pub struct Old {
    pub place: u32,
    pub byte: u8,
}

#[derive(Default)]
pub struct Olds {
    pub count: usize,
    pub items: [Old; MOST_OLD],
}

/// What an operation works on beside the machine, and what it has done there so far.
pub struct Work<'a> {
    pub low: &'a mut [u8; BANK_SIZE],
    pub high: &'a mut [u8; BANK_SIZE],
    pub rom: &'a [u8],
    /// The machine's sum of work RAM, with every byte written so far.
    pub sum: u32,
    pub accesses: Accesses,
    pub olds: Olds,
}

#[derive(Clone, Copy)]
enum Route {
    Wram { high: bool },
    Data,
    Registers,
    Cartridge,
}

fn route(bank: u8, addr: u16) -> Route {
    match bank {
        0x00..=0x3F | 0x80..=0xBF => match addr {
            0x0000..0x2000 => Route::Wram { high: false },
            0x2180 => Route::Data,
            0x2000..0x6000 => Route::Registers,
            _ => Route::Cartridge,
        },
        0x7E => Route::Wram { high: false },
        0x7F => Route::Wram { high: true },
        _ => Route::Cartridge,
    }
}

pub fn cost(memsel: u8, bank: u8, addr: u16) -> u8 {
    match route(bank, addr) {
        Route::Wram { .. } => 8,
        Route::Data | Route::Registers if (0x4000..0x4200).contains(&addr) => 12,
        Route::Data | Route::Registers => 6,
        Route::Cartridge if addr >= 0x8000 && bank >= 0x80 && memsel & 1 != 0 => 6,
        Route::Cartridge => 8,
    }
}

/// A sum of bytes modulo 2^32 after one of them was replaced.
pub fn exchanged(sum: u32, old: u8, new: u8) -> u32 {
    sum.wrapping_add(new.into()).wrapping_sub(old.into())
}

impl Work<'_> {
    pub fn read(&mut self, io: &mut Io, bank: u8, addr: u16) -> u8 {
        let byte = match route(bank, addr) {
            Route::Wram { high } => self.bank(high)[usize::from(addr)],
            Route::Data => {
                io.open_bus = self.bank(io.wmadd.high)[usize::from(io.wmadd.addr)];
                io.wmadd.step();
                io.open_bus
            }
            Route::Registers => io.read(addr),
            Route::Cartridge => self.cartridge(bank, addr).unwrap_or(io.open_bus),
        };
        self.note(Access { write: false, bank, addr, byte });
        byte
    }

    pub fn write(&mut self, io: &mut Io, bank: u8, addr: u16, byte: u8) {
        match route(bank, addr) {
            Route::Wram { high } => self.overwrite(high, addr, byte),
            Route::Data => {
                self.overwrite(io.wmadd.high, io.wmadd.addr, byte);
                io.wmadd.step();
                io.open_bus = byte;
            }
            Route::Registers => io.write(addr, byte),
            Route::Cartridge => {}
        }
        self.note(Access { write: true, bank, addr, byte });
    }

    fn bank(&mut self, high: bool) -> &mut [u8; BANK_SIZE] {
        if high { self.high } else { self.low }
    }

    /// A ROM of a power of two from 32 KiB up repeats: the mask takes the offset modulo its length without a division.
    fn cartridge(&self, bank: u8, addr: u16) -> Option<u8> {
        let offset = usize::from(bank % 128) * 0x8000 + usize::from(addr.checked_sub(0x8000)?);
        let length = self.rom.len();
        let mask = if length >= 0x8000 && length.is_power_of_two() { length - 1 } else { usize::MAX };
        self.rom.get(offset & mask).copied()
    }

    fn overwrite(&mut self, high: bool, addr: u16, byte: u8) {
        let old = std::mem::replace(&mut self.bank(high)[usize::from(addr)], byte);
        self.sum = exchanged(self.sum, old, byte);
        self.olds.items[self.olds.count] = Old { place: u32::from(high) << 16 | u32::from(addr), byte: old };
        self.olds.count += 1;
    }

    fn note(&mut self, access: Access) {
        self.accesses.items[self.accesses.count] = access;
        self.accesses.count += 1;
    }
}
