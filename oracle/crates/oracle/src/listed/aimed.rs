//! Draws at random that are after something: changes of hand, the automatic read, signals, the host's calls, the record.

use super::lot::Lot;
use super::{BACK, Call, FRESH, PAGE};
use crate::any_image::any_image;
use crate::image::{ENTRY_SIZE, Entry, Old, Place};
use crate::layout::Field;
use crate::lent::{BANK_SIZE, WRAM_SIZE};
use crate::row::Row;

/// A cycle where the DMA unit may change hands: wait 0 or little, everything else about it drawn anew.
pub fn hands(lot: &mut Lot) -> Call {
    let mut listed = lot.machine();
    let dma = &mut listed.machine.image.dma;
    dma.wait = lot.random.pick(&[0, 0, 0, 1, 7, 55]);
    listed.machine.image.mdmaen &= lot.random.pick(&[0, 0xFF]);
    listed.machine.image.hdmaen &= lot.random.pick(&[0, 0xFF]);
    dma.queue &= lot.random.pick(&[0, 0xFF]);
    let row = lot.cycle();
    listed.call(row)
}

/// A general transfer between two channels: the next one is picked, or none is left.
pub fn picks(lot: &mut Lot) -> Call {
    let mut listed = lot.machine();
    let dma = &mut listed.machine.image.dma;
    (dma.state, dma.wait, dma.running, dma.pending) = (2, 0, 1, 0);
    (dma.present, dma.channel, dma.unit) = (0, 0, 0);
    listed.machine.image.mdmaen &= lot.random.pick(&[0, 0x80, 0xF0, 0xFF]);
    listed.call(Row::Cycles { count: 1, event: 0, flags: 0 })
}

/// A transfer, general or HDMA, that writes registers of DMA: its own channel's, the enables, WMADD.
pub fn rewrites(lot: &mut Lot) -> Call {
    let (number, hdma) = (lot.random.byte() % 8, lot.random.once_in(2));
    let target = 0x4300 + 0x10 * u16::from(number) + lot.random.two() % 12;
    let target = lot.random.pick(&[target, target, target, 0x4209, 0x420A, 0x420B, 0x420C, 0x2181, 0x1FFD, 0x1FFE]);
    let (way, bbad) = if lot.random.once_in(4) {
        (0x00, 0x80 + target as u8 % 4)
    } else {
        (0x80, lot.random.pick(&[0x34, 0x40, 0x80]))
    };
    rewrite(lot, number, hdma, target, (way, bbad))
}

/// A channel's transfer between an A side address in a system bank and a B side, one way or the other.
pub fn rewrite(lot: &mut Lot, number: u8, hdma: bool, target: u16, (way, bbad): (u8, u8)) -> Call {
    let mut listed = lot.machine();
    let dma = &mut listed.machine.image.dma;
    (dma.state, dma.wait, dma.running, dma.pending, dma.init) = (2 + u8::from(hdma), 0, 1, 0, 0);
    (dma.present, dma.channel, dma.unit) = (1, number, lot.random.pick(&[dma.unit, 0, 65_535]));
    dma.queue = (0xFF << number) & (lot.random.byte() | 1 << number);
    let line = &mut listed.machine.image.lines[usize::from(number)];
    (line.finished, line.counter, line.do_transfer) = (0, line.counter | 1, 1);
    let bank = lot.system_bank();
    let channel = &mut listed.machine.image.channels[usize::from(number)];
    (channel.dmap, channel.bbad) = (channel.dmap & 0x7F | way, bbad);
    (channel.a1t_bank, channel.dasb, channel.a1t_addr, channel.a2a) = (bank, bank, target, target);
    channel.das = if hdma { target } else { lot.random.pick(&[0, 1, 1, 2]) };
    listed.call(Row::Cycles { count: 1, event: 0, flags: 0 })
}

/// A cycle of the automatic read near each of its turns.
pub fn automatic(lot: &mut Lot) -> Call {
    let mut listed = lot.machine();
    let auto = &mut listed.machine.image.auto;
    if auto.kind != 0 {
        auto.countdown = lot.random.pick(&[0, 0, 0, auto.countdown.min(1)]);
    }
    if auto.kind == 2 {
        auto.bits_left = lot.random.pick(&[1, 2, 15, 16]);
    }
    listed.machine.image.nmitimen = lot.random.pick(&[0, 1, 0x80, 0x81]);
    listed.machine.image.joyout = lot.random.byte() % 2;
    let row = lot.cycle();
    listed.call(row)
}

/// A cycle without DMA: events, NMI edges, timer hits, the end of the clock.
pub fn signals(lot: &mut Lot) -> Call {
    let mut listed = lot.machine();
    let dma = &mut listed.machine.image.dma;
    (dma.state, dma.wait, dma.running, dma.pending) = (0, 0, 0, 0);
    listed.machine.image.mdmaen = 0;
    listed.machine.image.clock = lot.random.pick(&[0, 7, u64::from(u32::MAX), u64::MAX - 1, u64::MAX]);
    let row = lot.cycle();
    listed.call(row)
}

/// The joypad ports by hand.
pub fn manual(lot: &mut Lot) -> Call {
    let (bank, byte) = (lot.system_bank(), lot.random.byte());
    let row = lot.random.pick(&[
        Row::Write { bank, addr: 0x4016, byte },
        Row::Read { bank, addr: 0x4016 },
        Row::Read { bank, addr: 0x4017 },
    ]);
    lot.machine().call(row)
}

/// pad, plug and port answer.
pub fn host(lot: &mut Lot) -> Call {
    let (port, word, byte) = (lot.random.byte() % 2, lot.random.two(), lot.random.byte());
    let row = lot.random.pick(&[
        Row::Pad { port, word },
        Row::Plug { port, value: byte % 2 },
        Row::Answer { addr: 0x2134 + word % 16, byte },
    ]);
    lot.machine().call(row)
}

/// A read or a write anywhere.
pub fn anywhere(lot: &mut Lot) -> Call {
    let (bank, addr, byte) = (lot.random.byte(), lot.random.two(), lot.random.byte());
    let row = lot.random.pick(&[Row::Read { bank, addr }, Row::Write { bank, addr, byte }]);
    lot.machine().call(row)
}

/// A back step over 0 to 4 old bytes, one place twice now and then; its machine and its entry's differ in a few parts
/// or in all.
pub fn back(lot: &mut Lot) -> Call {
    let mut listed = lot.machine();
    listed.machine.kept = listed.machine.kept.max(1);
    listed.kind = BACK;
    let capacity = listed.machine.record_length / ENTRY_SIZE as u64;
    listed.first = ((listed.machine.next_slot + capacity - 1) % capacity) as u8;
    let mut image = if lot.random.once_in(4) { any_image(&mut lot.random) } else { listed.machine.image };
    (image.clock, image.open_bus, image.rdnmi) = (lot.random.word(), lot.random.byte(), lot.random.byte());
    let count = lot.random.between(0, 4) as usize;
    let mut old = [Old { place: Place(0), byte: 0 }; 4];
    for index in 0..count {
        let any = lot.place();
        let place = lot.random.pick(&[any, 0, 0xFFFF, 0x10000, 0x1FFFF, old[0].place.0]);
        old[index] = Old { place: Place(place), byte: lot.random.byte() };
    }
    let mut entry = [0; ENTRY_SIZE];
    Entry { image, count: count as u8, old, tail: [0; 17] }.put(&mut entry);
    Call { listed, entry: Some(entry) }
}

/// A fresh machine, or one refused; the image before is all zero. The record length that is asked for stands where
/// other calls have the length of the record lent.
pub fn fresh(lot: &mut Lot) -> Call {
    let mut listed = lot.machine();
    listed.machine.image = Field::take(&[0; ENTRY_SIZE]);
    listed.kind = FRESH;
    (listed.lent_low, listed.lent_high) = (bank_length(lot), bank_length(lot));
    listed.patch(&[(); 8].map(|_| (lot.place(), lot.random.byte())));
    listed.lent_record = lot.random.pick(&[0, 1, 255, 256, 257, 512, 65_536, 0xFFFF_FF00]);
    let any = lot.random.two();
    listed.word = lot.random.pick(&[0, 1, 2, 264, 4_095, 4_096, 4_097, 0xFFFF, any]);
    Call { listed, entry: None }
}

/// A page look, now and then refused.
pub fn page(lot: &mut Lot) -> Call {
    let mut listed = lot.machine();
    listed.kind = PAGE;
    let any = lot.random.two();
    listed.word = lot.random.pick(&[0, 1, 255, 256, 511, 512, 513, 0xFFFF, any % 512, any]);
    let place = (u32::from(listed.word) * 256 + u32::from(any % 256)) % WRAM_SIZE as u32;
    listed.patch(&[(place, lot.random.byte())]);
    (listed.lent_low, listed.lent_high) = (bank_length(lot), bank_length(lot));
    Call { listed, entry: None }
}

/// A wrong length now and then.
fn bank_length(lot: &mut Lot) -> u32 {
    let around = [BANK_SIZE as u32; 20].into_iter().chain([0, 0xFFFF, 0x10001]).collect::<Vec<_>>();
    lot.random.pick(&around)
}
