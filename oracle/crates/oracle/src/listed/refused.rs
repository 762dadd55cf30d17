//! Calls with one or two things wrong, each at the edge of what is right. Ranges are broken only where a machine by
//! value can break them; a byte that stands for no case (a third flag, a bank $80) has no such machine.

use super::lot::Lot;
use super::{BACK, Call, Listed};
use crate::image::{ENTRY_SIZE, Machine};
use crate::row::Row;

/// What is wrong with a call.
const WRONGS: [fn(&mut Listed, &mut Lot); 16] = [
    |listed, lot| listed.lent_low = lot.random.pick(&[0, 0xFFFF, 0x10001]),
    |listed, lot| listed.lent_high = lot.random.pick(&[0, 0xFFFF, 0x10001]),
    |listed, lot| listed.lent_record = lot.random.pick(&[0, 255, 257, 1023]),
    |listed, _| listed.lent_record = if listed.lent_record == 1024 { 768 } else { listed.lent_record + 256 },
    |listed, lot| {
        listed.machine.record_length =
            lot.random.pick(&[0, 255, 257, 2048, listed.machine.record_length | OVER_32_BITS]);
    },
    |listed, _| listed.lent_rom = 4_194_305,
    |listed, lot| listed.machine.image.bit_cycles = lot.random.pick(&[0, 4_097, 0xFFFF]),
    |listed, lot| {
        let auto = &mut listed.machine.image.auto;
        (auto.kind, auto.bits_left, auto.countdown) = (1, 0, lot.random.pick(&[298, 0xFFFF_FFFF]));
    },
    |listed, lot| {
        let auto = &mut listed.machine.image.auto;
        (auto.kind, auto.bits_left, auto.countdown) = (2, lot.random.pick(&[0, 17, 0xFF]), 0);
    },
    |listed, _| {
        let auto = &mut listed.machine.image.auto;
        (auto.kind, auto.bits_left, auto.countdown) = (2, 1, listed.machine.image.bit_cycles.into());
    },
    |listed, lot| {
        listed.machine.image.ports[usize::from(lot.random.byte() % 2)].buttons |= lot.random.pick(&[1, 2, 4, 8])
    },
    |listed, lot| listed.machine.image.pads[usize::from(lot.random.byte() % 2)] |= lot.random.pick(&[1, 2, 4, 8]),
    |listed, lot| {
        let dma = &mut listed.machine.image.dma;
        (dma.present, dma.channel) = (1, lot.random.pick(&[8, 0xFF]));
    },
    |listed, lot| listed.machine.image.dma.wait = lot.random.pick(&[56, 0xFFFF_FFFF]),
    |listed, lot| {
        let Machine { next_slot, record_length, .. } = listed.machine;
        listed.machine.next_slot = lot.random.pick(&[record_length / 256, next_slot | OVER_32_BITS, u64::MAX]);
    },
    |listed, lot| {
        let Machine { kept, record_length, .. } = listed.machine;
        listed.machine.kept = lot.random.pick(&[record_length / 256 + 1, kept | OVER_32_BITS, u64::MAX]);
    },
];
/// Makes a number wrong that would be right if only its low 32 bits counted.
const OVER_32_BITS: u64 = 1 << 32;

/// Each call with each thing wrong, its own argument good and bad in turn.
pub fn each(lot: &mut Lot, calls: &mut Vec<Call>) {
    for kind in 1..=BACK {
        for (number, wrong) in WRONGS.iter().enumerate() {
            let mut call = bad_argument(lot, kind, number % 3 != 0);
            wrong(&mut call.listed, lot);
            calls.push(call);
        }
    }
}

/// One thing wrong, or two.
pub fn any(lot: &mut Lot) -> Call {
    let kind = lot.random.between(1, BACK.into()) as u8;
    let good = lot.random.once_in(2);
    let mut call = bad_argument(lot, kind, good);
    for _ in 0..lot.random.between(0, 2) {
        let wrong = lot.random.pick(&WRONGS);
        wrong(&mut call.listed, lot);
    }
    call
}

/// Nothing wrong but the call's own argument.
pub fn argument(lot: &mut Lot) -> Call {
    let kind = lot.random.pick(&[1, 4, 5, 6, BACK]);
    bad_argument(lot, kind, false)
}

/// A call of a kind on a sound machine, whose own argument is good or bad.
fn bad_argument(lot: &mut Lot, kind: u8, good: bool) -> Call {
    let (byte, word) = (lot.random.byte(), lot.random.two());
    let event = if good { byte % 5 } else { lot.random.pick(&[5, 0xFF]) };
    let port = if good { byte % 2 } else { lot.random.pick(&[2, 0xFF]) };
    let bad = lot.random.pick(&[0x2133, 0x2144, 0, 0xFFFF]);
    let addr = if good { lot.random.pick(&[0x2134, 0x213F, 0x2140, 0x2143]) } else { bad };
    let row = match kind {
        1 => Row::Cycles { count: 1, event, flags: byte % 4 },
        2 => Row::Read { bank: byte, addr: word },
        3 => Row::Write { bank: byte, addr: word, byte },
        4 => Row::Pad { port, word },
        5 => Row::Plug { port, value: byte % 2 },
        6 => Row::Answer { addr, byte },
        _ => return bad_back(lot, good),
    };
    let mut listed = lot.machine();
    if !good && lot.random.once_in(2) {
        listed.machine.image.clock = u64::MAX;
    }
    let row = if listed.machine.image.clock == u64::MAX && kind == 1 { last_cycle(lot) } else { row };
    listed.call(row)
}

/// At the end of the clock, with a good event or a bad one.
fn last_cycle(lot: &mut Lot) -> Row {
    Row::Cycles { count: 1, event: lot.random.pick(&[0, 4, 5]), flags: 3 }
}

/// A back step with nothing kept, or over an entry that breaks its ranges in one byte.
fn bad_back(lot: &mut Lot, good: bool) -> Call {
    let mut call = super::aimed::back(lot);
    if good {
        return call;
    }
    if lot.random.once_in(3) {
        call.listed.machine.kept = 0;
    }
    let entry = call.entry.as_mut().expect("a back step has an entry");
    match lot.random.between(0, 6) {
        0 => entry[0] = lot.random.pick(&[0x7D, 0x80]),
        1 => entry[34] = 3,
        2 => entry[lot.random.pick(&[40, 41, 46, 47, 56, 60, 61, 71, 72, 75, 97])] = 2,
        3 => (entry[59], entry[222]) = lot.random.pick(&[(4, 0), (0, 5)]),
        4 => entry[225 + 4 * lot.random.between(0, 3) as usize] = 2,
        5 => entry[lot.random.between(239, 255) as usize] = 1,
        _ => entry[..ENTRY_SIZE / 2].fill(super::UNWRITTEN),
    }
    call
}
