//! Scripts with a piece of everything and back steps between the pieces, and rows without any plan.

use super::script::Script;
use super::{dma, edges, hdma, joypad, registers};
use crate::row::Row;

const PIECES: [fn(&mut Script); 11] = [
    registers::arithmetic,
    registers::signals,
    dma::general,
    dma::queue,
    dma::selfwrite,
    hdma::tables,
    hdma::selfwrite,
    hdma::takeover,
    joypad::automatic,
    joypad::manual,
    edges::ring,
];

pub fn mixed(script: &mut Script) {
    for _ in 0..script.random.between(2, 5) {
        let piece = script.random.pick(&PIECES);
        piece(script);
        let steps = script.random.between(1, 60);
        script.back(steps);
    }
}

/// Any row with any argument that its call accepts; a back step takes less than was done.
pub fn noise(script: &mut Script) {
    for _ in 0..script.random.between(50, 400) {
        let (bank, addr, byte) = (script.random.byte(), script.random.two(), script.random.byte());
        let count = script.random.between(1, 40) as u16;
        let row = match script.random.between(0, 8) {
            0 => Row::Read { bank, addr },
            1 => Row::Write { bank, addr, byte },
            2 => Row::Write { bank: bank & 0xBF, addr: 0x2000 + addr % 0x4000, byte },
            3 => Row::Write { bank: bank & 0xBF, addr: 0x4200 + addr % 0x180, byte },
            4 => Row::Pad { port: bank % 2, word: addr },
            5 => Row::Plug { port: bank % 2, value: byte % 2 },
            6 => Row::Answer { addr: 0x2134 + addr % 16, byte },
            _ => Row::Cycles { count, event: bank % 5, flags: byte % 4 },
        };
        script.row(row);
        if script.random.once_in(30) {
            script.back(1);
        }
    }
}
