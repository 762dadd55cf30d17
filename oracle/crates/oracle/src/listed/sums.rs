//! The sum of work RAM: each way to write there, with bytes that raise the sum, lower it or leave it; back steps over such
//! writes; each from a true sum and from false ones at both ends of the range. And fresh on banks of all sorts.

use super::lot::Lot;
use super::{Call, Listed, aimed};
use crate::image::{DMA, Entry, HDMA, Line, Old, Place};
use crate::layout::Field;
use crate::row::Row;

const QUIET: Row = Row::Cycles { count: 1, event: 0, flags: 0 };
/// A byte, and the one that takes its place.
const PAIRS: [(u8, u8); 3] = [(0x00, 0xFF), (0xFF, 0x01), (0x5A, 0x5A)];
/// A byte, the one written over it, and the one written over that.
const TRIPLES: [(u8, u8, u8); 6] = [
    (0x5A, 0x01, 0x02),
    (0x00, 0xFF, 0x00),
    (0xFF, 0x00, 0x80),
    (0x09, 0x09, 0x07),
    (0x01, 0x80, 0xFF),
    (0x02, 0xFF, 0xC0),
];
const WAYS: [fn(&mut Lot, u8, u8) -> Call; 6] = [
    |lot, old, new| script(lot, 0x7E, old, new),
    |lot, old, new| script(lot, 0x7F, old, new),
    |lot, old, new| script(lot, 0x00, old, new),
    data_port,
    general_to_port,
    general_from_port,
];

/// Operations and back steps.
pub fn each(lot: &mut Lot, calls: &mut Vec<Call>) {
    for way in WAYS {
        PAIRS.iter().for_each(|(old, new)| with_each_sum(lot, calls, |lot| way(lot, *old, *new)));
    }
    for dmap in (0..=0xFF).filter(|dmap| dmap & 0x38 == 0) {
        with_each_sum(lot, calls, |lot| hdma(lot, dmap));
    }
    for (number, triple) in TRIPLES.iter().enumerate() {
        let dmap = [0x05, 0x45][number % 2];
        with_each_sum(lot, calls, |lot| hdma_twice(lot, dmap, *triple));
        with_each_sum(lot, calls, |lot| back_twice(lot, *triple));
    }
    for (there, old) in PAIRS {
        with_each_sum(lot, calls, |lot| back_one(lot, there, old));
        with_each_sum(lot, calls, |lot| back_four(lot, there, old));
    }
}

/// The call once from the true sum, and once from each of three false ones.
fn with_each_sum(lot: &mut Lot, calls: &mut Vec<Call>, draw: impl Fn(&mut Lot) -> Call) {
    for number in 0..4 {
        let mut call = draw(lot);
        let sums = [lot.true_sum(&call.listed), 0, u32::MAX, lot.random.word() as u32];
        call.listed.machine.sum = sums[number];
        calls.push(call);
    }
}

/// A write row in a bank of work RAM, or, for bank 0, in the mirror of a system bank.
fn script(lot: &mut Lot, bank: u8, old: u8, new: u8) -> Call {
    let any = lot.random.two();
    let (bank, addr) = if bank == 0 { (lot.system_bank(), any % 0x2000) } else { (bank, any) };
    let mut listed = lot.machine();
    listed.patch(&[(u32::from(addr) + if bank == 0x7F { 0x10000 } else { 0 }, old)]);
    listed.call(Row::Write { bank, addr, byte: new })
}

fn data_port(lot: &mut Lot, old: u8, new: u8) -> Call {
    let (mut listed, place, bank) = (lot.machine(), lot.place(), lot.system_bank());
    aim_port(&mut listed, place);
    listed.patch(&[(place, old)]);
    listed.call(Row::Write { bank, addr: 0x2180, byte: new })
}

fn aim_port(listed: &mut Listed, place: u32) {
    let image = &mut listed.machine.image;
    (image.wmadd_bank, image.wmadd_addr) = bank_and_addr(place);
}

fn bank_and_addr(place: u32) -> (u8, u16) {
    (0x7E + (place >> 16) as u8, place as u16)
}

/// A general transfer from the same address in the other bank to $2180.
fn general_to_port(lot: &mut Lot, old: u8, new: u8) -> Call {
    let place = lot.place();
    let mut listed = general(lot, place ^ 0x10000, 0x00, 0x80);
    aim_port(&mut listed, place);
    listed.patch(&[(place, old), (place ^ 0x10000, new)]);
    listed.call(QUIET)
}

/// A general transfer from an answer byte of the PPU.
fn general_from_port(lot: &mut Lot, old: u8, new: u8) -> Call {
    let place = lot.place();
    let mut listed = general(lot, place, 0x80, 0x34);
    listed.machine.image.ppu_answers[0] = new;
    listed.patch(&[(place, old)]);
    listed.call(QUIET)
}

/// A byte in mode 0, between a place of work RAM and a B side.
fn general(lot: &mut Lot, place: u32, way: u8, bbad: u8) -> Listed {
    let mut listed = lot.machine();
    let dma = &mut listed.machine.image.dma;
    (dma.state, dma.wait, dma.running, dma.present, dma.pending) = (DMA, 0, 1, 1, 0);
    let channel = &mut listed.machine.image.channels[usize::from(dma.channel)];
    (channel.dmap, channel.bbad) = (channel.dmap & 0x78 | way, bbad);
    (channel.a1t_bank, channel.a1t_addr) = bank_and_addr(place);
    listed
}

/// A unit from work RAM to $2180 and on, or from answer bytes of the PPU to work RAM.
fn hdma(lot: &mut Lot, dmap: u8) -> Call {
    let (source, target) = (lot.place() & !3, lot.place());
    let mut listed = unit(lot, source, dmap, if dmap & 0x80 == 0 { 0x80 } else { 0x34 });
    aim_port(&mut listed, target);
    let bytes = (source..).zip(lot.random.bytes(4)).chain([(target, lot.random.byte())]);
    listed.patch(&bytes.collect::<Vec<_>>());
    listed.call(QUIET)
}

/// Document 01's unit in mode 5 that brings WMADD back, and so writes a place twice.
fn hdma_twice(lot: &mut Lot, dmap: u8, (old, first, second): (u8, u8, u8)) -> Call {
    let (source, target) = (lot.place() & !3, lot.place() & !0xF | 8);
    let target = if source & !0xF == target & !0xF { target ^ 0x10000 } else { target };
    let mut listed = unit(lot, source, dmap, 0x80);
    aim_port(&mut listed, target);
    let bytes = (source..).zip([first, target as u8, second, target as u8]).chain([(target, old)]);
    listed.patch(&bytes.collect::<Vec<_>>());
    listed.call(QUIET)
}

/// An HDMA line that moves a unit, whose A side starts at a place of work RAM.
fn unit(lot: &mut Lot, place: u32, dmap: u8, bbad: u8) -> Listed {
    let mut listed = lot.machine();
    let number = lot.random.byte() % 8;
    let dma = &mut listed.machine.image.dma;
    (dma.state, dma.wait, dma.running, dma.pending, dma.init) = (HDMA, 0, 1, 0, 0);
    dma.queue = 1 << number;
    listed.machine.image.lines[usize::from(number)] = Line { counter: 2, do_transfer: 1, finished: 0 };
    let channel = &mut listed.machine.image.channels[usize::from(number)];
    (channel.dmap, channel.bbad) = (channel.dmap & 0x38 | dmap, bbad);
    let (bank, addr) = bank_and_addr(place);
    (channel.a1t_bank, channel.a2a, channel.dasb, channel.das) = (bank, addr, bank, addr);
    listed
}

fn back_one(lot: &mut Lot, there: u8, old: u8) -> Call {
    let any = lot.place();
    let place = lot.random.pick(&[any, 0, 0xFFFF, 0x10000, 0x1FFFF]);
    back(lot, &[(place, there)], &[(place, old)])
}

fn back_twice(lot: &mut Lot, (old, first, second): (u8, u8, u8)) -> Call {
    let place = lot.place();
    back(lot, &[(place, second)], &[(place, old), (place, first)])
}

/// A back step over a write to each of four places.
fn back_four(lot: &mut Lot, there: u8, old: u8) -> Call {
    let places = [0x0000, 0x8000, 0x10000, 0x18000].map(|start| start + lot.place() % 0x8000);
    back(lot, &places.map(|place| (place, there)), &places.map(|place| (place, old)))
}

/// A back step where these bytes stand in work RAM, over an entry with these old bytes.
fn back(lot: &mut Lot, there: &[(u32, u8)], olds: &[(u32, u8)]) -> Call {
    let mut call = aimed::back(lot);
    call.listed.patch(there);
    let bytes = call.entry.as_mut().expect("a back step has an entry");
    let mut entry = Entry::take(bytes);
    entry.count = olds.len() as u8;
    entry.old = std::array::from_fn(|index| {
        let (place, byte) = olds.get(index).copied().unwrap_or_default();
        Old { place: Place(place), byte }
    });
    entry.put(bytes);
    call
}

/// Each length of a bank with each, with a record length and bit cycles good and bad; then fills of each length and
/// the least and the greatest sum.
pub fn fresh(lot: &mut Lot, calls: &mut Vec<Call>) {
    let lengths = [0xFFFF, 0x10000, 0x10001];
    for (low, high) in lengths.iter().flat_map(|low| lengths.map(|high| (*low, high))) {
        for (record, bits) in [(512, 264), (255, 264), (512, 0), (255, 4_097)] {
            calls.push(fresh_on(lot, (low, high), record, bits));
        }
    }
    for fill_length in (1..=16).flat_map(|length| [length; 2]) {
        let mut call = fresh_on(lot, (0x10000, 0x10000), 256, 1);
        call.listed.fill_length = fill_length;
        calls.push(call);
    }
    for byte in [0x00, 0xFF] {
        let mut call = fresh_on(lot, (0x10000, 0x10000), 1_024, 4_096);
        (call.listed.fill_length, call.listed.fill) = (1, [byte; 16]);
        call.listed.patch(&[(0, byte)]);
        calls.push(call);
    }
}

fn fresh_on(lot: &mut Lot, lengths: (u32, u32), record: u32, bits: u16) -> Call {
    let mut call = aimed::fresh(lot);
    let listed = &mut call.listed;
    ((listed.lent_low, listed.lent_high), listed.lent_record, listed.word) = (lengths, record, bits);
    call
}
