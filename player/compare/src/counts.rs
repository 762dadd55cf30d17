//! What was compared: calls by their number, those with a false sum, those that wrote over random bytes, and reads of
//! ROMs by length.

use crate::roms::{self, LENGTHS};
use std::collections::BTreeMap;
use std::fmt;

#[derive(Default)]
pub struct Counts {
    calls: BTreeMap<(&'static str, u8), u64>,
    /// Calls whose machine came with a false sum.
    false_sums: u64,
    /// Accepted calls whose slot was filled with random bytes before.
    over_random: u64,
    /// By length; all lengths that are not drawn stand together under none.
    roms: BTreeMap<Option<usize>, Rom>,
}

#[derive(Default)]
struct Rom {
    runs: u64,
    /// Accepted reads of offsets before the ROM's end.
    within: u64,
    /// The same at its end or past it, where it repeats or is silent.
    past: u64,
}

impl Counts {
    pub fn call(&mut self, name: &'static str, number: u8) {
        *self.calls.entry((name, number)).or_default() += 1;
    }

    pub fn false_sum(&mut self) {
        self.false_sums += 1;
    }

    pub fn over_random(&mut self) {
        self.over_random += 1;
    }

    pub fn total(&self) -> u64 {
        self.calls.values().sum()
    }

    pub fn run(&mut self, length: usize) {
        self.rom(length).runs += 1;
    }

    /// A read that was accepted; one that does not lead to the ROM is left out.
    pub fn read(&mut self, length: usize, bank: u8, addr: u16) {
        match roms::offset(bank, addr) {
            Some(offset) if offset < length => self.rom(length).within += 1,
            Some(_) => self.rom(length).past += 1,
            None => {}
        }
    }

    fn rom(&mut self, length: usize) -> &mut Rom {
        let drawn = LENGTHS.contains(&length).then_some(length);
        self.roms.entry(drawn).or_default()
    }
}

impl fmt::Display for Counts {
    fn fmt(&self, out: &mut fmt::Formatter) -> fmt::Result {
        for ((call, number), count) in &self.calls {
            writeln!(out, "{call} {number}: {count}")?;
        }
        writeln!(out, "with a false sum: {} calls", self.false_sums)?;
        writeln!(out, "over random bytes: {} calls", self.over_random)?;
        for (length, Rom { runs, within, past }) in &self.roms {
            let length = length.map_or("other".into(), |length| length.to_string());
            writeln!(
                out,
                "ROM length {length}: {runs} runs, {within} reads before the end, {past} past it"
            )?;
        }
        Ok(())
    }
}
