//! Draws that leave nothing out: every register, every border of the map, every B address, every case of an HDMA line,
//! every register that a transfer can rewrite in its own channel.

use super::Call;
use super::aimed::rewrite;
use super::lot::Lot;
use crate::image::{DMA, HDMA};
use crate::row::Row;
use rsnes::dma::Dma;

/// First and last addresses of the ranges in which the bus and the registers decide alike.
pub const EDGES: [u16; 28] = [
    0x0000, 0x1FFF, 0x2000, 0x20FF, 0x2100, 0x2133, 0x2140, 0x217F, 0x2184, 0x21FF, 0x2200, 0x3FFF, 0x4000, 0x4015,
    0x4018, 0x41FF, 0x4200, 0x420E, 0x4220, 0x42FF, 0x4300, 0x437F, 0x4380, 0x5FFF, 0x6000, 0x7FFF, 0x8000, 0xFFFF,
];
/// First and last banks of each kind.
pub const BANKS: [u8; 10] = [0x00, 0x3F, 0x40, 0x7D, 0x7E, 0x7F, 0x80, 0xBF, 0xC0, 0xFF];

/// Every register, read and written.
pub fn registers(lot: &mut Lot, calls: &mut Vec<Call>) {
    for addr in (0x2100..=0x21FF).chain(0x4016..=0x4017).chain(0x4200..=0x421F).chain(0x4300..=0x437F) {
        both_ways(lot, calls, None, addr);
    }
}

pub fn borders(lot: &mut Lot, calls: &mut Vec<Call>) {
    for bank in BANKS {
        EDGES.iter().for_each(|addr| both_ways(lot, calls, Some(bank), *addr));
    }
}

fn both_ways(lot: &mut Lot, calls: &mut Vec<Call>, bank: Option<u8>, addr: u16) {
    let bank = bank.unwrap_or_else(|| lot.system_bank());
    calls.push(lot.machine().call(Row::Read { bank, addr }));
    let byte = lot.random.byte();
    calls.push(lot.machine().call(Row::Write { bank, addr, byte }));
}

/// $2180 at both ends of both banks.
pub fn data_port(lot: &mut Lot, calls: &mut Vec<Call>) {
    for (bank, addr) in [(0x7E, 0), (0x7E, 0xFFFF), (0x7F, 0), (0x7F, 0xFFFF)] {
        for row in [Row::Read { bank: 0, addr: 0x2180 }, Row::Write { bank: 0, addr: 0x2180, byte: 0x5A }] {
            let mut listed = lot.machine();
            (listed.machine.image.wmadd_bank, listed.machine.image.wmadd_addr) = (bank, addr);
            calls.push(listed.call(row));
        }
    }
}

/// One byte of a general transfer over every B address, in both directions; modes and channels go round.
pub fn general(lot: &mut Lot, calls: &mut Vec<Call>) {
    for target in 0..=0xFF {
        for (way, turn) in [(0x00, 0), (0x80, 3)] {
            let mut listed = lot.machine();
            let mode = (target / 8 + turn) % 8;
            let dma = &mut listed.machine.image.dma;
            (dma.state, dma.wait, dma.running, dma.present, dma.pending) = (DMA, 0, 1, 1, 0);
            dma.channel = target % 8;
            let pattern = Dma::transfer_pattern(mode);
            let offset = pattern[dma.unit as usize % pattern.len()];
            let channel = &mut listed.machine.image.channels[usize::from(target % 8)];
            channel.dmap = way | mode | channel.dmap & 0x78;
            channel.bbad = target.wrapping_sub(offset);
            (channel.a1t_bank, channel.a1t_addr) = a_side(lot);
            channel.das = lot.random.pick(&[0, 1, 2, 0x100, 0xFFFF]);
            calls.push(listed.call(Row::Cycles { count: 1, event: 0, flags: 0 }));
        }
    }
}

fn a_side(lot: &mut Lot) -> (u8, u16) {
    let any = lot.random.two();
    match lot.random.between(0, 5) {
        0 => (0x7E, lot.random.pick(&[0, 0xFFFF, any])),
        1 => (0x7F, lot.random.pick(&[0, 0xFFFF, any])),
        2 => (lot.system_bank(), any % 0x2000),
        3 => (lot.system_bank(), 0x4300 + any % 0x80),
        4 => (lot.system_bank(), 0x4200 + any % 0x20),
        _ => (lot.random.byte(), any),
    }
}

/// What an HDMA channel meets.
#[derive(Clone, Copy)]
enum Line {
    Init(u8),
    Finished,
    Reload(u8),
    /// Counter and whether the line transfers.
    Goes(u8, bool),
}

/// Every mode, direction and addressing with every kind of line.
pub fn hdma(lot: &mut Lot, calls: &mut Vec<Call>) {
    let counters = [0x00, 0x01, 0x02, 0x80, 0x81, 0xFF];
    let lines = counters.map(Line::Init).into_iter().chain(counters.map(Line::Reload)).chain([
        Line::Finished,
        Line::Goes(1, true),
        Line::Goes(2, false),
        Line::Goes(2, true),
        Line::Goes(0x81, true),
        Line::Goes(0xFF, false),
    ]);
    for (number, line) in lines.enumerate() {
        let dmaps = if matches!(line, Line::Init(_) | Line::Finished) { vec![0x00, 0x40] } else { all_dmaps() };
        dmaps.iter().for_each(|dmap| calls.push(hdma_call(lot, line, *dmap, number as u8 % 8)));
    }
}

fn all_dmaps() -> Vec<u8> {
    (0..0x100).filter(|dmap| dmap & 0x38 == 0).map(|dmap| dmap as u8).collect()
}

/// The table stands in work RAM, with an address behind its counter; the queue starts with this channel.
fn hdma_call(lot: &mut Lot, line: Line, dmap: u8, number: u8) -> Call {
    let mut listed = lot.machine();
    let dma = &mut listed.machine.image.dma;
    (dma.state, dma.wait, dma.pending) = (HDMA, 0, 0);
    (dma.init, dma.running) = (matches!(line, Line::Init(_)).into(), lot.random.byte() % 2);
    dma.queue = (0xFF << number) & (lot.random.byte() | 1 << number);
    // MDMAEN would start a transfer of its own.
    listed.machine.image.mdmaen = if dma.running == 0 { 0 } else { listed.machine.image.mdmaen };
    let state = &mut listed.machine.image.lines[usize::from(number)];
    state.finished = matches!(line, Line::Finished).into();
    let first = match line {
        Line::Init(counter) | Line::Reload(counter) => counter,
        _ => lot.random.byte(),
    };
    match line {
        Line::Reload(_) => state.counter = lot.random.pick(&[0x00, 0x80]),
        Line::Goes(counter, transfers) => (state.counter, state.do_transfer) = (counter, transfers.into()),
        _ => {}
    }
    let channel = &mut listed.machine.image.channels[usize::from(number)];
    channel.dmap = dmap | lot.random.byte() & 0x38;
    channel.bbad = lot.random.pick(&[0x80, 0x80, 0x81, 0x18, 0x40, 0x3F, 0xFF]);
    channel.dasb = lot.random.pick(&[0x7E, 0x7F, 0x00, 0x80]);
    (channel.a1t_bank, channel.a1t_addr) = (0x7E, lot.random.two() & 0xFFF0);
    channel.a2a = channel.a1t_addr;
    let place = u32::from(channel.a1t_addr);
    let behind = [lot.random.byte(), lot.random.byte()];
    listed.patch(&[(place, first), (place + 1, behind[0]), (place + 2, behind[1])]);
    listed.call(Row::Cycles { count: 1, event: 0, flags: 0 })
}

/// A transfer, general or HDMA, over each register of its own channel.
pub fn own_registers(lot: &mut Lot, calls: &mut Vec<Call>) {
    for hdma in [false, true] {
        for offset in 0..12 {
            let (number, bbad) = (lot.random.byte() % 8, lot.random.pick(&[0x34, 0x40, 0x80]));
            let target = 0x4300 + 0x10 * u16::from(number) + offset;
            calls.push(rewrite(lot, number, hdma, target, (0x80, bbad)));
        }
    }
}
