//! Scripts about the controllers.

use super::script::Script;
use crate::row::Row;

pub fn hold(script: &mut Script) {
    let (port, word) = (script.random.byte() % 2, script.random.two());
    script.row(Row::Pad { port, word });
}

pub fn plug(script: &mut Script) {
    let (port, value) = (script.random.byte() % 2, script.random.byte() % 2);
    script.row(Row::Plug { port, value });
}

/// V-blank starts with the automatic read on, and everything that can meet it.
pub fn automatic(script: &mut Script) {
    let bit_cycles = u64::from(script.file.bit_cycles);
    for _ in 0..script.random.between(1, 4) {
        hold(script);
        hold(script);
        script.write(0x4200, 0x81);
        let delay = script.random.pick(&[1, 296, 297, 298, 299, 300]);
        script.event(delay, 3, 0);
        for _ in 0..script.random.between(3, 20) {
            disturb(script, bit_cycles);
            let reg = 0x4218 + script.random.two() % 8;
            script.read(reg);
            script.read(0x4212);
        }
        script.cycles(300 + 16 * bit_cycles);
        (0x4218..=0x421F).for_each(|addr| script.read(addr));
        script.event(3, 4, 0);
    }
}

fn disturb(script: &mut Script, bit_cycles: u64) {
    let byte = script.random.byte();
    match script.random.between(0, 11) {
        0 => hold(script),
        1 => plug(script),
        2 => script.write(0x4016, byte),
        3 => script.read(0x4016 + u16::from(byte % 2)),
        4 => script.write(0x4200, byte),
        5 => script.event(1, 3, 0),
        _ => {
            let count = script.random.between(1, 4 * bit_cycles);
            script.cycles(count);
        }
    }
}

/// Strobes and serial reads, past the sixteenth bit too.
pub fn manual(script: &mut Script) {
    for _ in 0..script.random.between(1, 5) {
        hold(script);
        if script.random.once_in(3) {
            plug(script);
        }
        script.some_cycles(3);
        script.write(0x4016, 1);
        script.read(0x4016);
        script.read(0x4017);
        let low = script.random.byte() & 0xFE;
        script.write(0x4016, low);
        let port = script.random.two() % 2;
        (0..script.random.between(3, 20)).for_each(|_| script.read(0x4016 + port));
        let open_bus = script.random.byte();
        script.write(0x4213, open_bus);
        script.read(0x4016);
        script.read(0x4017);
    }
}
