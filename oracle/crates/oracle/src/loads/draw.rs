//! A set-up drawn at random: channels are prepared and started, the formula's cycles pass, and registers are read back.

use super::channels::channels;
use super::formula::{held, selected};
use crate::benchfile::BenchFile;
use crate::generator::joypad::{hold, plug};
use crate::generator::script::Script;
use crate::image::Channel;
use crate::random::Random;
use crate::row::Row;

const MOST_CYCLES: u64 = 65_535;

pub struct SetUp {
    pub file: BenchFile,
    /// How many rows there are up to the write of MDMAEN, which is the last of them.
    pub prepared: usize,
}

pub fn set_up(seed: u64, index: u64) -> SetUp {
    let mut script = Script::new(Random::new(seed, index));
    settings(&mut script);
    let (channels, mask) = channels(&mut script);
    wmadd(&mut script, &channels, mask);
    if !script.random.once_in(4) {
        automatic_read(&mut script);
    }
    last_moments(&mut script);
    script.write(0x420B, mask);
    let prepared = script.file.rows.len();
    held_cycles(&mut script, mask, &channels);
    script.cycles(1);
    read_back(&mut script);
    SetUp { file: script.finish(), prepared }
}

/// An automatic read that is short or long. A ROM of 32 KiB answers in every bank.
fn settings(script: &mut Script) {
    script.file.bit_cycles = script.random.pick(&[1, 3, 16, 16, 264, 4096]);
    if script.random.once_in(4) {
        script.file.rom = script.random.bytes(0x8000);
    }
    let memsel = script.random.byte();
    script.write(0x420D, memsel);
    script.answers();
}

/// Anywhere, or at the A side of a channel, so that a transfer meets its own bytes.
fn wmadd(script: &mut Script, channels: &[Channel; 8], mask: u8) {
    if script.random.once_in(2) {
        return script.wmadd();
    }
    let numbers: Vec<usize> = selected(mask).collect();
    let channel = &channels[script.random.pick(&numbers)];
    let away = script.random.pick(&[0, 0, 1, 0xFFFF]);
    script.write_word(0x2181, channel.a1t_addr.wrapping_add(away));
    script.write(0x2183, channel.a1t_bank & 1);
}

/// V-blank starts with the automatic read on, which is then pending, reading or over.
fn automatic_read(script: &mut Script) {
    plug(script);
    hold(script);
    hold(script);
    let nmitimen = script.random.byte() | 1;
    script.write(0x4200, nmitimen);
    let read = 16 * u64::from(script.file.bit_cycles);
    let (waiting, reading) = (script.random.between(1, 297), script.random.between(298, 298 + read));
    let passed = script.random.pick(&[waiting, waiting, reading, reading, 299 + read]);
    script.event(passed.min(MOST_CYCLES), 3, 0);
}

/// Idle cycles for every alignment. Then buttons and an NMI line that change in the first cycle of the transfer.
fn last_moments(script: &mut Script) {
    let idle = script.random.between(0, 7);
    if idle > 0 {
        script.cycles(idle);
    }
    if script.random.once_in(2) {
        let nmitimen = script.random.byte();
        script.write(0x4200, nmitimen);
    }
    if script.random.once_in(2) {
        hold(script);
    }
}

/// As many quiet cycles as the formula says, in rows.
fn held_cycles(script: &mut Script, mask: u8, channels: &[Channel; 8]) {
    let mut left = held(clock(&script.file.rows), mask, channels);
    while left > 0 {
        let count = left.min(MOST_CYCLES);
        script.cycles(count);
        left -= count;
    }
}

fn clock(rows: &[Row]) -> u64 {
    let passed = |row: &Row| if let Row::Cycles { count, .. } = *row { count.into() } else { 0 };
    rows.iter().map(passed).sum()
}

/// The channels, the automatic read's words, and now and then work RAM where $2180 points.
fn read_back(script: &mut Script) {
    for base in (0x4300..0x4380).step_by(0x10) {
        (base..=base + 0xA).for_each(|addr| script.read(addr));
    }
    (0x4218..=0x421F).for_each(|addr| script.read(addr));
    (0..script.random.between(0, 4)).for_each(|_| script.read(0x2180));
}
