//! Scripts about the register file.

use super::script::Script;
use crate::row::Row;

/// A register address: mostly one that means something.
fn register(script: &mut Script) -> u16 {
    let any = script.random.two();
    match script.random.between(0, 13) {
        0..=3 => 0x4300 + any % 0x80,
        4 | 5 => 0x4200 + any % 0x20,
        6 => 0x2134 + any % 16,
        7 => 0x2180 + any % 4,
        8 => 0x4016 + any % 2,
        9..=11 => 0x2100 + any % 0x100,
        12 => script
            .random
            .pick(&[0x20FF, 0x2100, 0x2133, 0x2140, 0x217F, 0x3FFF, 0x4000, 0x41FF, 0x437F, 0x4380, 0x5FFF]),
        _ => 0x2000 + any % 0x4000,
    }
}

pub fn registers(script: &mut Script) {
    script.answers();
    for _ in 0..script.random.between(100, 400) {
        let (addr, byte) = (register(script), script.random.byte());
        match script.random.between(0, 9) {
            0..=3 => script.write(addr, byte),
            4..=7 => script.read(addr),
            8 => ram_access(script),
            _ => script.some_cycles(12),
        }
    }
}

/// A read or write anywhere outside the registers: work RAM and its mirror, cartridge.
pub fn ram_access(script: &mut Script) {
    let (addr, byte) = (script.random.two(), script.random.byte());
    let (bank, addr) = match script.random.between(0, 3) {
        0 => (0x7E, addr),
        1 => (0x7F, addr),
        2 => (script.system_bank(), addr % 0x2000),
        _ => (script.random.byte(), addr),
    };
    script.row(if byte & 1 == 0 { Row::Read { bank, addr } } else { Row::Write { bank, addr, byte } });
}

pub fn arithmetic(script: &mut Script) {
    for _ in 0..script.random.between(5, 25) {
        let any = script.random.byte();
        let factor = script.random.pick(&[0, 1, 2, 7, 0x80, 0xFF, any]);
        match script.random.between(0, 2) {
            0 => {
                script.write(0x4202, any);
                script.write(0x4203, factor);
            }
            1 => {
                let dividend = script.random.two();
                script.write_word(0x4204, dividend);
                script.write(0x4206, factor);
            }
            _ => wram_port(script),
        }
        (0x4214..=0x4217).for_each(|addr| script.read(addr));
    }
}

fn wram_port(script: &mut Script) {
    script.wmadd();
    for _ in 0..script.random.between(1, 6) {
        let byte = script.random.byte();
        if byte & 1 == 0 { script.read(0x2180) } else { script.write(0x2180, byte) }
    }
}

pub fn signals(script: &mut Script) {
    for _ in 0..script.random.between(30, 120) {
        let (byte, flags) = (script.random.byte(), script.random.byte() % 4);
        match script.random.between(0, 6) {
            0 => script.write(0x4200, byte),
            1 => script.write(0x4200, 0x80 | (byte & 0x31)),
            2 => script.read(0x4210 + u16::from(byte % 3)),
            3 => script.write(0x420C, byte & 1),
            _ => {
                let count = script.random.between(1, 5);
                script.event(count, byte % 5, flags);
            }
        }
    }
}
