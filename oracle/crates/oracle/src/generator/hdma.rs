//! Scripts about HDMA. Tables stand in the fill, so every bank and the low mirror show them.

use super::script::{Script, Setup};

const COUNTERS: [u8; 12] = [0, 1, 1, 2, 3, 5, 0x7F, 0x80, 0x81, 0x82, 0x85, 0xFF];

fn table_fill(script: &mut Script) {
    let groups = script.random.between(20, 300);
    script.file.fill = table(script, groups);
}

/// Table-like bytes: counters of note with data between.
pub fn table(script: &mut Script, groups: u64) -> Vec<u8> {
    let mut bytes = vec![];
    for _ in 0..groups {
        bytes.push(script.random.pick(&COUNTERS));
        let data = script.random.between(0, 4) as usize;
        bytes.extend(script.random.bytes(data));
    }
    bytes
}

/// A channel whose table is in work RAM, now and then elsewhere.
fn hdma_setup(script: &mut Script) -> Setup {
    let any = script.random.two();
    let (bank, addr) = match script.random.between(0, 9) {
        0 => script.a_side(),
        1 => (script.system_bank(), 0x1FF8 + any % 8),
        _ => (script.random.pick(&[0x7E, 0x7F, 0x00, 0x81]), any % 0x1F00),
    };
    let dasb = script.random.pick(&[0x7E, 0x7F, 0x00, 0x80]);
    Setup { dmap: script.random.byte(), bbad: script.b_side(), bank, addr, das: script.random.two(), dasb }
}

fn set_up(script: &mut Script) -> u8 {
    table_fill(script);
    script.answers();
    script.wmadd();
    let mask = if script.random.once_in(3) { script.random.byte() | 1 } else { 1 << (script.random.byte() % 8) };
    for channel in (0..8).filter(|channel| mask & (1 << channel) != 0) {
        let setup = hdma_setup(script);
        script.channel(channel, &setup);
    }
    script.write(0x420C, mask);
    mask
}

/// Frames with many lines, a pass each.
pub fn tables(script: &mut Script) {
    let mask = set_up(script);
    for _ in 0..script.random.between(1, 3) {
        script.event(300, 4, 0);
        let lines = script.random.pick(&[4, 12, 30, 140]);
        let cycles = 20 + 60 * u64::from(mask.count_ones());
        (0..lines).for_each(|_| script.event(cycles, 1, 1));
        let base = 0x4300 + 0x10 * mask.trailing_zeros() as u16;
        (5..11).for_each(|offset| script.read(base + offset));
    }
}

/// Units that rewrite their own channel, the enables or WMADD, and writes to the channel between lines.
pub fn selfwrite(script: &mut Script) {
    let mask = set_up(script);
    let base = 0x4300 + 0x10 * mask.trailing_zeros() as u16;
    let rewrite = script.random.pick(&[into_wmadd, place_twice, table_in_registers, indirect_into_registers]);
    rewrite(script, base);
    script.event(80, 4, 1);
    for _ in 0..script.random.between(4, 30) {
        let byte = script.random.pick(&[1, 2, 0x80, 0x81]);
        let offset = script.random.two() % 16;
        if script.random.once_in(3) {
            script.write(base + offset, byte);
        }
        script.event(120, 1, 1);
    }
    let steps = script.random.between(1, 256);
    script.back(steps);
}

/// A to B into $2180-$2183.
fn into_wmadd(script: &mut Script, base: u16) {
    let (dmap, bbad) = (script.random.byte() & 0x47, 0x80 + script.random.byte() % 4);
    script.write(base, dmap);
    script.write(base + 1, bbad);
}

/// Mode 5 to $2180: the unit sets WMADD's low byte back and writes the same place again.
fn place_twice(script: &mut Script, base: u16) {
    let low = script.random.byte();
    script.file.fill = vec![0xFF];
    for _ in 0..254 {
        let byte = script.random.byte();
        script.file.fill.extend([byte, low]);
    }
    table_at_fill(script, base, 5);
    script.write(base + 1, 0x80);
    script.write(0x2181, low);
}

/// The table itself stands in the registers.
fn table_in_registers(script: &mut Script, base: u16) {
    let (dmap, target) =
        (0x80 | (script.random.byte() & 0x47), script.random.pick(&[0x4300, base, base + 2, base + 8, 0x420A]));
    script.write(base, dmap);
    script.write_word(base + 2, target);
    script.write(base + 4, 0);
    script.write(base + 7, 0);
}

/// B to A, where the table names registers as the indirect address.
fn indirect_into_registers(script: &mut Script, base: u16) {
    let counter = script.random.pick(&[1, 0x81]);
    let targets = [base, base + 2, base + 5, base + 7, 0x4209, 0x420A, 0x420B, 0x2181];
    let target = script.random.pick(&targets).to_le_bytes();
    script.file.fill = vec![counter, target[0], target[1]];
    let mode = script.random.byte() & 7;
    table_at_fill(script, base, 0xC0 | mode);
    script.write(base + 7, 0);
}

/// A table that starts where the fill starts.
fn table_at_fill(script: &mut Script, base: u16, dmap: u8) {
    script.write(base, dmap);
    script.write_word(base + 2, 0);
    script.write(base + 4, 0x7E);
}

/// Line due, frame start and MDMAEN at all moments of each other.
pub fn takeover(script: &mut Script) {
    let mask = set_up(script);
    script.event(200, 4, 0);
    for _ in 0..script.random.between(10, 40) {
        let (first, second) = (script.random.between(1, 30), script.random.between(1, 20));
        let general = script.random.byte() & !mask;
        match script.random.between(0, 5) {
            0 => script.event(first, 1, 1),
            1 => script.event(first, 4, 1),
            2 => {
                script.write(0x420B, general | 1);
                script.event(first, 1, 1);
            }
            3 => {
                script.event(first, 1, 1);
                script.write(0x420B, general);
                script.event(second, 0, 1);
            }
            4 => short_transfer(script, first),
            _ => {
                let enabled = script.random.pick(&[0, mask, 0xFF]);
                script.write(0x420C, enabled);
                script.cycles(second);
            }
        }
    }
}

fn short_transfer(script: &mut Script, cycles: u64) {
    let channel = script.random.byte() % 8;
    let (das, bbad) = (script.random.between(1, 6) as u16, script.b_side());
    script.write(0x4301 + 0x10 * u16::from(channel), bbad);
    script.write_word(0x4305 + 0x10 * u16::from(channel), das);
    script.write(0x420B, 1 << channel);
    script.event(cycles, 0, 1);
    script.event(cycles, 0, 1);
}
