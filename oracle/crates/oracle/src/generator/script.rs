//! A bench file under construction.

use crate::benchfile::{BenchFile, CONTENTS, MOST_FILE};
use crate::random::Random;
use crate::row::{ROW_SIZE, Row};

pub struct Script {
    pub random: Random,
    pub file: BenchFile,
}

/// Registers of a channel, as a script sets them.
pub struct Setup {
    pub dmap: u8,
    pub bbad: u8,
    pub bank: u8,
    pub addr: u16,
    pub das: u16,
    pub dasb: u8,
}

impl Script {
    /// A small random fill and ROM, and bit cycles that let an automatic read end soon.
    pub fn new(mut random: Random) -> Self {
        let bit_cycles = random.pick(&[1, 2, 3, 5, 16, 264]);
        let (fill, rom) = (random.between(1, 300) as usize, random.between(0, 600) as usize);
        let file = BenchFile { bit_cycles, fill: random.bytes(fill), rom: random.bytes(rom), rows: vec![] };
        Self { random, file }
    }

    /// The file, with rows from the end left out where it would be too long.
    pub fn finish(mut self) -> BenchFile {
        let room = MOST_FILE - CONTENTS - 2 - self.file.fill.len() - self.file.rom.len();
        self.file.rows.truncate(room / ROW_SIZE);
        self.file
    }

    pub fn row(&mut self, row: Row) {
        self.file.rows.push(row);
    }

    pub fn cycles(&mut self, count: u64) {
        self.event(count, 0, 0);
    }

    pub fn event(&mut self, count: u64, event: u8, flags: u8) {
        self.row(Row::Cycles { count: count as u16, event, flags });
    }

    /// A few cycles, now and then with an event or flags.
    pub fn some_cycles(&mut self, most: u64) {
        let count = self.random.between(1, most);
        let (event, flags) =
            if self.random.once_in(3) { (self.random.byte() % 5, self.random.byte() % 4) } else { (0, 0) };
        self.event(count, event, flags);
    }

    pub fn write(&mut self, addr: u16, byte: u8) {
        let bank = self.system_bank();
        self.row(Row::Write { bank, addr, byte });
    }

    pub fn write_word(&mut self, addr: u16, word: u16) {
        let [low, high] = word.to_le_bytes();
        self.write(addr, low);
        self.write(addr + 1, high);
    }

    pub fn read(&mut self, addr: u16) {
        let bank = self.system_bank();
        self.row(Row::Read { bank, addr });
    }

    pub fn back(&mut self, count: u64) {
        self.row(Row::Back { count: count as u16 });
    }

    /// Mostly 0; else any of $00-$3F and $80-$BF.
    pub fn system_bank(&mut self) -> u8 {
        if self.random.once_in(4) { self.random.byte() & 0xBF } else { 0 }
    }

    pub fn channel(&mut self, channel: u8, setup: &Setup) {
        let base = 0x4300 + 0x10 * u16::from(channel);
        self.write(base, setup.dmap);
        self.write(base + 1, setup.bbad);
        self.write_word(base + 2, setup.addr);
        self.write(base + 4, setup.bank);
        self.write_word(base + 5, setup.das);
        self.write(base + 7, setup.dasb);
    }

    /// Points $2180 at a random place, often near a bank's end.
    pub fn wmadd(&mut self) {
        let addr = if self.random.once_in(3) { 0xFFFC | (self.random.two() & 3) } else { self.random.two() };
        self.write_word(0x2181, addr);
        let bank = self.random.byte();
        self.write(0x2183, bank);
    }

    /// Port answers other than zero, so that reads of them show.
    pub fn answers(&mut self) {
        for _ in 0..self.random.between(1, 6) {
            let (addr, byte) = (0x2134 + self.random.two() % 16, self.random.byte());
            self.row(Row::Answer { addr, byte });
        }
    }

    /// An A side: work RAM, low mirror, ROM, or registers, often at a border.
    pub fn a_side(&mut self) -> (u8, u16) {
        let addr = self.random.two();
        match self.random.between(0, 9) {
            0..=3 => (0x7E + self.random.byte() % 2, self.near_border(addr)),
            4 => (self.system_bank(), self.random.pick(&[addr % 0x2000, 0x1FFD, 0x1FFE, 0x1FFF, 0x5FFE, 0x7FFE])),
            5 => (self.random.byte(), 0x8000 | addr),
            6 => (self.system_bank(), self.near_border(0x8000 | (addr % 700))),
            7 => (
                self.system_bank(),
                self.random.pick(&[0x2134, 0x2140, 0x2180, 0x4016, 0x4017, 0x4200, 0x4210, 0x4218]),
            ),
            8 => (self.system_bank(), 0x4300 + addr % 0x80),
            _ => (self.random.byte(), addr),
        }
    }

    /// A B side: PPU, answers, APU, $2180, WMADD, or the page's end.
    pub fn b_side(&mut self) -> u8 {
        let any = self.random.byte();
        self.random
            .pick(&[0x18, 0x04, 0x34, 0x3E, 0x40, 0x7E, 0x80, 0x80, 0x80, 0x81, 0x82, 0x83, 0xFD, 0xFF, any, any])
    }

    fn near_border(&mut self, addr: u16) -> u16 {
        if self.random.once_in(4) { self.random.pick(&[0xFFFE, 0xFFFF, 0, 1]) } else { addr }
    }
}
