//! The cartridge: ROM lengths on both sides of each limit, read at their ends and in high banks by the script, by a
//! general transfer and by HDMA.

use super::lot::Lot;
use super::{Call, Listed};
use crate::image::{DMA, HDMA};
use crate::lent::MOST_ROM;
use crate::row::Row;

const QUIET: Row = Row::Cycles { count: 1, event: 0, flags: 0 };
/// Lengths that repeat, and others beside them.
const LENGTHS: [u32; 11] =
    [0, 0x4000, 0x7FFF, 0x8000, 0x8001, 0xC000, 0x1_0000, 0x1_8000, 0x4_0000, 0x20_0000, MOST_ROM as u32];
/// The last bank of each kind that reaches the cartridge; the last two are past 2 MiB.
const HIGH: [u8; 4] = [0x3F, 0xBF, 0x7D, 0xFF];

/// Each length at its first byte, at its last and, where there is such an offset, at the one past its end.
pub fn lengths(lot: &mut Lot, calls: &mut Vec<Call>) {
    for length in LENGTHS {
        let mut offsets = vec![0, length.saturating_sub(1), length];
        offsets.retain(|offset| *offset < MOST_ROM as u32);
        offsets.dedup();
        offsets.iter().for_each(|offset| at(lot, calls, length, *offset));
    }
}

/// An offset in its own bank of both halves, and its address in high banks.
fn at(lot: &mut Lot, calls: &mut Vec<Call>, length: u32, offset: u32) {
    let (own, addr) = ((offset / 0x8000) as u8, 0x8000 | (offset % 0x8000) as u16);
    let banks = [own, 0x80 | own].into_iter().chain(HIGH).filter(|bank| !matches!(bank, 0x7E | 0x7F));
    calls.extend(banks.map(|bank| lent(lot, length).call(Row::Read { bank, addr })));
    for bank in [0x80 | own, lot.random.pick(&HIGH[2..])] {
        calls.push(general(lot, length, bank, addr));
        calls.extend([1, 0].map(|init| table(lot, length, bank, addr, init)));
    }
}

/// Any machine with a ROM of some length; its open bus is no byte of the ROM, so that silence shows.
fn lent(lot: &mut Lot, length: u32) -> Listed {
    let mut listed = lot.machine();
    listed.lent_rom = length;
    listed.machine.image.open_bus = 251 + lot.random.byte() % 5;
    listed
}

/// One byte of a general transfer.
fn general(lot: &mut Lot, length: u32, bank: u8, addr: u16) -> Call {
    let mut listed = lent(lot, length);
    let dma = &mut listed.machine.image.dma;
    (dma.state, dma.wait, dma.running, dma.present, dma.pending) = (DMA, 0, 1, 1, 0);
    let channel = &mut listed.machine.image.channels[usize::from(dma.channel)];
    (channel.dmap, channel.bbad) = (channel.dmap & 0x7F, lot.random.pick(&[0x18, 0x80]));
    (channel.a1t_bank, channel.a1t_addr) = (bank, addr);
    listed.call(QUIET)
}

/// The first counter of a table at frame start, or the next one on a line and its unit.
fn table(lot: &mut Lot, length: u32, bank: u8, addr: u16, init: u8) -> Call {
    let mut listed = lent(lot, length);
    let number = lot.random.byte() % 8;
    let dma = &mut listed.machine.image.dma;
    (dma.state, dma.wait, dma.running, dma.pending) = (HDMA, 0, 1, 0);
    (dma.init, dma.queue) = (init, 1 << number);
    let line = &mut listed.machine.image.lines[usize::from(number)];
    (line.counter, line.finished) = (0, 0);
    let channel = &mut listed.machine.image.channels[usize::from(number)];
    (channel.dmap, channel.bbad) = (channel.dmap & 0x7F, lot.random.pick(&[0x18, 0x80]));
    (channel.a1t_bank, channel.a1t_addr, channel.a2a, channel.dasb) = (bank, addr, addr, bank);
    listed.call(QUIET)
}
