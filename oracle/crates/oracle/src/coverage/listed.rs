//! What a list of single calls reaches.

use super::{Group, dma, registers, rom, sums};
use crate::bench::Step;
use crate::listed::answer::Desk;
use crate::listed::even::{BANKS, EDGES};
use crate::listed::{Call, Listed};
use crate::row::Row;
use std::fmt;

pub struct Reached {
    numbers: Group,
    borders: Group,
    registers: registers::Registers,
    dma: dma::Transfers,
    rom: rom::RomReads,
    sums: sums::Sums,
    pub calls: usize,
}

const CALLS: [(&str, &[u8]); 9] = [
    ("fresh", &[0, 1, 2, 10]),
    ("cycle", &[0, 1, 2, 3, 4, 5, 7]),
    ("read", &[0, 1, 2, 3, 4]),
    ("write", &[0, 1, 2, 3, 4]),
    ("pad", &[0, 1, 2, 3, 4, 6]),
    ("plug", &[0, 1, 2, 3, 4, 6]),
    ("answer", &[0, 1, 2, 3, 4, 6]),
    ("back", &[0, 1, 2, 4, 8, 9]),
    ("page look", &[0, 1, 12]),
];

/// Carries out a list and counts.
pub fn reached(list: &[u8]) -> Result<Reached, String> {
    let numbers = CALLS.iter().flat_map(|(name, numbers)| numbers.iter().map(move |number| format!("{name} {number}")));
    let places = BANKS.iter().flat_map(|bank| EDGES.iter().map(move |addr| (*bank, *addr)));
    let mut reached = Reached {
        numbers: Group::new("calls by their number", numbers),
        borders: Group::new(
            "borders of the map",
            places.flat_map(|place| ["read", "write"].map(|way| border(way, place))),
        ),
        registers: registers::Registers::new(),
        dma: dma::Transfers::new(),
        rom: rom::RomReads::of_calls(),
        sums: sums::Sums::of_calls(),
        calls: 0,
    };
    let mut desk = Desk::default();
    for call in Call::list(list)? {
        let (number, _) = desk.answer(&call, &mut |step| reached.step(&step, call.listed.lent_rom as usize));
        reached.call(&call.listed, number);
        reached.sums.given(&call.listed, number, desk.lent_sum());
    }
    Ok(reached)
}

fn border(way: &str, (bank, addr): (u8, u16)) -> String {
    format!("{way} ${bank:02X}:{addr:04X}")
}

impl Reached {
    fn call(&mut self, listed: &Listed, number: u8) {
        self.calls += 1;
        self.numbers.hit(format!("{} {number}", CALLS[usize::from(listed.kind)].0));
    }

    fn step(&mut self, step: &Step, rom: usize) {
        if step.number != 0 {
            return;
        }
        self.registers.step(step);
        self.rom.step(step, rom);
        self.sums.step(step);
        match step.call {
            Row::Cycles { .. } => self.dma.step(step),
            Row::Read { bank, addr } => self.borders.hit(border("read", (bank, addr))),
            Row::Write { bank, addr, .. } => self.borders.hit(border("write", (bank, addr))),
            _ => {}
        }
    }

    fn groups(&self) -> impl Iterator<Item = &Group> {
        let groups = [&self.numbers, &self.borders].into_iter();
        groups.chain(self.registers.groups()).chain(self.dma.groups()).chain([self.rom.group(), self.sums.group()])
    }

    /// How many members of all groups were never reached.
    pub fn never(&self) -> usize {
        self.groups().map(Group::never).sum()
    }
}

impl fmt::Display for Reached {
    fn fmt(&self, out: &mut fmt::Formatter) -> fmt::Result {
        writeln!(out, "| group | reached | least | |\n|---|---|---|---|")?;
        self.groups().try_for_each(|group| writeln!(out, "{group}"))
    }
}
