//! Reads of the ROM: of which kind its length is, what the read comes to, and who reads.

use super::Group;
use crate::bench::Step;
use crate::image::DMA;
use crate::row::Row;

/// What one bank shows of the ROM.
const BANK: usize = 0x8000;
const READERS: [&str; 3] = ["script", "general", "HDMA"];
/// Each kind of length, and what reads of it come to.
const KINDS: [(&str, &[&str]); 6] = [
    ("no ROM", &["silent"]),
    ("power of two under 32,768", &["inside", "silent"]),
    ("other under 32,768", &["inside", "silent"]),
    ("32,768", &["inside", "repeated"]),
    (LONG_POWER, &["inside", "repeated"]),
    ("other over 32,768", &["inside", "silent"]),
];
/// Does not fit into a bench file.
const LONG_POWER: &str = "power of two over 32,768";

pub struct RomReads {
    reads: Group,
}

impl RomReads {
    pub fn of_calls() -> Self {
        Self::of(|_| true)
    }

    pub fn of_files() -> Self {
        Self::of(|kind| kind != LONG_POWER)
    }

    fn of(taken: impl Fn(&str) -> bool) -> Self {
        let kinds = KINDS.iter().filter(|(kind, _)| taken(kind));
        let cases = kinds.flat_map(|(kind, ends)| ends.iter().map(move |end| format!("{kind}, {end}")));
        let members = cases.flat_map(|case| READERS.map(|reader| format!("{case}, {reader}")));
        Self { reads: Group::new("ROM reads by length", members) }
    }

    /// An accepted call that was lent a ROM of some length.
    pub fn step(&mut self, step: &Step, length: usize) {
        if let Row::Read { bank, addr } = step.call {
            self.read(READERS[0], length, bank, addr);
        }
        let reader = if step.before.image.dma.state == DMA { READERS[1] } else { READERS[2] };
        for access in step.cycle.accesses[..step.cycle.count].iter().filter(|access| !access.write) {
            self.read(reader, length, access.bank, access.addr);
        }
    }

    fn read(&mut self, reader: &str, length: usize, bank: u8, addr: u16) {
        if addr < 0x8000 || matches!(bank, 0x7E | 0x7F) {
            return;
        }
        let offset = usize::from(bank % 128) * BANK + usize::from(addr - 0x8000);
        let end = match (offset < length, length >= BANK && length.count_ones() == 1) {
            (true, _) => "inside",
            (false, true) => "repeated",
            (false, false) => "silent",
        };
        self.reads.hit(format!("{}, {end}, {reader}", kind(length)));
    }

    pub fn group(&self) -> &Group {
        &self.reads
    }
}

fn kind(length: usize) -> &'static str {
    match (length, length.count_ones()) {
        (0, _) => "no ROM",
        (BANK, _) => "32,768",
        (..BANK, 1) => "power of two under 32,768",
        (..BANK, _) => "other under 32,768",
        (_, 1) => LONG_POWER,
        _ => "other over 32,768",
    }
}
