//! Registers read and written, by the script and by DMA.

use super::Group;
use crate::bench::Step;
use crate::row::Row;

pub struct Registers {
    read: Group,
    written: Group,
    dma_read: Group,
    dma_written: Group,
    open_bus: Group,
    speeds: Group,
}

impl Registers {
    pub fn new() -> Self {
        let everything = || 0x2100..=0x21FFu16;
        let readable = || (0x4016..=0x4017).chain(0x4200..=0x421F).chain(0x4300..=0x437F);
        let name = |addr: u16| format!("${addr:04X}");
        Self {
            read: Group::new("registers read by the script", everything().chain(readable()).map(name)),
            written: Group::new("registers written by the script", everything().chain(readable()).map(name)),
            dma_read: Group::new("$2100-$21FF in bank 0, read by DMA", everything().map(name)),
            dma_written: Group::new("$2100-$21FF in bank 0, written by DMA", everything().map(name)),
            open_bus: Group::new("reads where nothing answers", ["$20xx", "$22xx-$3Fxx", "$4380 up", "cartridge"]),
            speeds: Group::new(
                "costs of script accesses",
                ["$20xx", "$21xx", "$22xx-$3Fxx", "$40xx-$41xx", "$42xx-$43xx", "$44xx up"],
            ),
        }
    }

    pub fn step(&mut self, step: &Step) {
        match step.call {
            Row::Read { bank, addr } if system(bank) => {
                self.read.hit(format!("${addr:04X}"));
                self.speeds.hit(zone(addr));
                self.open_bus.hit(silent(addr));
            }
            Row::Write { bank, addr, .. } if system(bank) => {
                self.written.hit(format!("${addr:04X}"));
                self.speeds.hit(zone(addr));
            }
            _ => {}
        }
        for access in &step.cycle.accesses[..step.cycle.count] {
            let group = if access.write { &mut self.dma_written } else { &mut self.dma_read };
            if access.bank == 0 {
                group.hit(format!("${:04X}", access.addr));
            }
        }
    }

    pub fn groups(&self) -> [&Group; 6] {
        [&self.read, &self.written, &self.dma_read, &self.dma_written, &self.open_bus, &self.speeds]
    }
}

fn system(bank: u8) -> bool {
    bank & 0x40 == 0
}

fn zone(addr: u16) -> &'static str {
    match addr {
        0x2000..=0x20FF => "$20xx",
        0x2100..=0x21FF => "$21xx",
        0x2200..=0x3FFF => "$22xx-$3Fxx",
        0x4000..=0x41FF => "$40xx-$41xx",
        0x4200..=0x43FF => "$42xx-$43xx",
        0x4400..=0x5FFF => "$44xx up",
        _ => "",
    }
}

fn silent(addr: u16) -> &'static str {
    match addr {
        0x2000..=0x20FF => "$20xx",
        0x2200..=0x3FFF => "$22xx-$3Fxx",
        0x4380..=0x5FFF => "$4380 up",
        0x6000..=0x7FFF => "cartridge",
        _ => "",
    }
}
