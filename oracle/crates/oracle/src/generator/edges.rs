//! Scripts at the edges: refused rows, the ring, the cartridge, the file's own limits.

use super::hdma::table;
use super::registers::{ram_access, registers};
use super::script::{Script, Setup};
use crate::benchfile::{CONTENTS, MOST_FILE, MOST_FILL};
use crate::row::{ROW_SIZE, Row};

/// A few good rows, then one that its call refuses, then one that must not run.
pub fn refused(script: &mut Script) {
    for _ in 0..script.random.between(0, 6) {
        ram_access(script);
    }
    let done = script.file.rows.len() as u64;
    let (any, word) = (script.random.byte(), script.random.two());
    let row = match script.random.between(0, 4) {
        0 => Row::Cycles { count: 3, event: script.random.pick(&[5, 6, 0xFF, 5 + any % 251]), flags: any % 4 },
        1 => Row::Pad { port: script.random.pick(&[2, 3, 0xFF, 2 + any % 254]), word },
        2 => Row::Plug { port: script.random.pick(&[2, 3, 0xFF, 2 + any % 254]), value: any % 2 },
        3 => Row::Answer { addr: script.random.pick(&[0x2133, 0x2144, 0, 0xFFFF, 0x4016, word | 0x8000]), byte: any },
        _ => Row::Back { count: (done + script.random.between(1, 300)) as u16 },
    };
    script.row(row);
    script.cycles(1);
}

/// More calls than the record holds, and back steps up to the oldest entry, now and then one too many.
pub fn ring(script: &mut Script) {
    for _ in 0..script.random.between(0, 20) {
        ram_access(script);
    }
    script.wmadd();
    let channel = u16::from(script.random.byte() % 8);
    let dmap = script.random.byte();
    script.write(0x4300 + 0x10 * channel, dmap);
    script.write(0x4301 + 0x10 * channel, 0x80);
    script.write(0x4304 + 0x10 * channel, 0x7E);
    for _ in 0..script.random.between(1, 4) {
        script.write(0x420B, 1 << channel);
        let count = script.random.between(200, 900);
        script.cycles(count);
        let steps = script.random.pick(&[1, 100, 255, 256]);
        script.back(steps);
        for _ in 0..script.random.between(0, 10) {
            ram_access(script);
        }
        script.some_cycles(600);
    }
    let steps = script.random.pick(&[1, 256, 257]);
    script.back(steps);
    script.read(0x2180);
}

/// ROM lengths around the 32 KiB steps, read around their ends in all banks. 32,768 comes up more often, because no
/// other ROM that repeats fits into a file.
pub fn borders(script: &mut Script) {
    let any = script.random.between(0, 60_000);
    let lengths = [0, 1, 255, 16_384, 32_767, 32_768, 32_768, 32_768, 32_769, 49_152, 60_000, any];
    let length = script.random.pick(&lengths);
    script.file.rom = script.random.bytes(length as usize);
    for _ in 0..script.random.between(20, 80) {
        let memsel = script.random.byte();
        script.write(0x420D, memsel);
        let (bank, addr) = border(script, length);
        let byte = script.random.byte();
        script.row(if byte & 7 == 0 { Row::Write { bank, addr, byte } } else { Row::Read { bank, addr } });
    }
    rom_transfer(script);
    rom_table(script);
}

/// An address at a border, in a bank of either half; at the ROM's end also in banks where it may repeat.
fn border(script: &mut Script, length: u64) -> (u8, u16) {
    let half = script.random.byte() & 0x80;
    let step = script.random.between(0, 2);
    let offset = (length + step).saturating_sub(1);
    let end = 0x8000 | (offset % 0x8000) as u16;
    match script.random.between(0, 7) {
        0 => (script.random.byte(), script.random.pick(&[0x5FFF, 0x6000, 0x7FFF, 0x8000, 0xFFFF])),
        1 => {
            (script.random.pick(&[0x3F, 0x40, 0x7D, 0x7E, 0x7F, 0x80, 0xBF, 0xC0, 0xFF]), 0x8000 | script.random.two())
        }
        2 => (half | (script.random.byte() % 3), 0x8000 | script.random.two()),
        3 | 4 => (cartridge_bank(script), end),
        _ => (half | (offset / 0x8000) as u8, end),
    }
}

/// Any bank that reaches the cartridge: all but $7E and $7F.
fn cartridge_bank(script: &mut Script) -> u8 {
    let bank = script.random.byte();
    if matches!(bank, 0x7E | 0x7F) { bank | 0x80 } else { bank }
}

/// A general transfer from the ROM's first bank or any other into work RAM, read there afterwards.
fn rom_transfer(script: &mut Script) {
    let any = cartridge_bank(script);
    let bank = script.random.pick(&[0, 1, 0x40, 0x80, 0x81, any, any, any]);
    let addr = script.random.pick(&[0x7FFE, 0x8000, 0xBFFE, 0xFFFE]);
    let place = script.random.two();
    point(script, place);
    script.channel(0, &Setup { dmap: 0, bbad: 0x80, bank, addr, das: 6, dasb: 0 });
    script.write(0x420B, 1);
    script.cycles(80);
    point(script, place);
    (0..6).for_each(|_| script.read(0x2180));
}

/// HDMA from a small table at the ROM's start or end, shown by any bank, into work RAM, read there afterwards.
fn rom_table(script: &mut Script) {
    let end = script.file.rom.len().saturating_sub(8);
    let at = script.random.pick(&[0, end]);
    let table = table(script, 8);
    script.file.rom[at..].iter_mut().zip(table).for_each(|(place, byte)| *place = byte);
    let (any, dasb) = (cartridge_bank(script), cartridge_bank(script));
    let bank = script.random.pick(&[(at / 0x8000) as u8, any, any]);
    let dmap = script.random.pick(&[0x00, 0x02, 0x40, 0x42]);
    let place = script.random.two();
    point(script, place);
    script.channel(0, &Setup { dmap, bbad: 0x80, bank, addr: 0x8000 | (at % 0x8000) as u16, das: 0, dasb });
    script.write(0x420C, 1);
    script.event(60, 4, 0);
    (0..12).for_each(|_| script.event(60, 1, 1));
    (5..10).for_each(|offset| script.read(0x4300 + offset));
    point(script, place);
    (0..16).for_each(|_| script.read(0x2180));
}

/// Points $2180 at a place of bank $7E.
fn point(script: &mut Script, addr: u16) {
    script.write_word(0x2181, addr);
    script.write(0x2183, 0);
}

/// Sound files at the limits of their form; bit cycles at and past theirs.
pub fn limits(script: &mut Script) {
    script.file.bit_cycles = script.random.pick(&[0, 1, 4095, 4096, 4097, 0xFFFF]);
    match script.random.between(0, 3) {
        0 => script.file.fill = script.random.bytes(MOST_FILL),
        1 => script.file.fill.truncate(1),
        2 => script.file.rom.clear(),
        _ => return largest(script),
    }
    if script.random.once_in(2) {
        registers(script);
    }
}

/// A file of exactly 65,536 bytes.
fn largest(script: &mut Script) {
    registers(script);
    let rest = CONTENTS + 2 + script.file.fill.len() + script.file.rows.len() * ROW_SIZE;
    script.file.rom = script.random.bytes(MOST_FILE - rest);
}
