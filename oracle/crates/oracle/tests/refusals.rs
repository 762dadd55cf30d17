//! Each number at both sides of its limit, and the order between them.

mod help;

use help::{RECORD, bench, call, lent};
use oracle::bench::Bench;
use oracle::calls;
use oracle::convert::power_on;
use oracle::image::Image;
use oracle::lent::{Banks, Lent, MOST_ROM};
use oracle::row::Row;
use std::rc::Rc;

const READ: Row = Row::Read { bank: 0, addr: 0 };
const BACK: Row = Row::Back { count: 1 };
const CYCLE: Row = Row::Cycles { count: 1, event: 0, flags: 0 };

/// One call of each operation that takes everything.
const OPERATIONS: [Row; 6] = [
    CYCLE,
    READ,
    Row::Write { bank: 0x7E, addr: 0, byte: 1 },
    Row::Pad { port: 0, word: 1 },
    Row::Plug { port: 1, value: 0 },
    Row::Answer { addr: 0x2134, byte: 1 },
];

fn number(bench: &mut Bench, row: Row) -> u8 {
    call(bench, row).number
}

#[test]
fn bank_lengths_1() {
    for lengths in [[65_535, 65_536], [65_537, 65_536], [65_536, 65_535], [65_536, 65_537], [0, 0]] {
        let mut bench = bench();
        bench.banks.lengths = lengths;
        OPERATIONS.iter().chain([&BACK]).for_each(|row| assert_eq!(number(&mut bench, *row), 1));
        assert_eq!((calls::page_look_number(&bench.banks, 0), calls::page_look(&bench.banks, 0).len()), (1, 0));
        assert_eq!(calls::page_look_number(&bench.banks, 512), 1);
    }
}

#[test]
fn record_length_2() {
    for (length, expected) in
        [(0, 2), (RECORD - 1, 2), (RECORD + 1, 2), (RECORD + 256, 2), (RECORD - 256, 2), (RECORD, 0)]
    {
        let mut bench = bench();
        let mut record = vec![0; length];
        for row in OPERATIONS {
            let mut lent = Lent { banks: &mut bench.banks, record: &mut record, rom: &bench.rom };
            assert_eq!(one(&mut bench.machine, &mut lent, row), expected);
        }
        let expected = if expected == 0 { 0 } else { 2 };
        assert_eq!(calls::back(&mut bench.machine, &mut bench.banks, &record), expected);
    }
}

/// A call with a lent record of any length.
fn one(machine: &mut oracle::image::Machine, lent: &mut Lent, row: Row) -> u8 {
    match row {
        Row::Cycles { event, .. } => calls::cycle(machine, lent, event, false, false).number,
        Row::Read { bank, addr } => calls::read(machine, lent, bank, addr).number,
        Row::Write { bank, addr, byte } => calls::write(machine, lent, bank, addr, byte).number,
        Row::Pad { port, word } => calls::pad(machine, lent, port, word),
        Row::Plug { port, value } => calls::plug(machine, lent, port, value != 0),
        Row::Answer { addr, byte } => calls::answer(machine, lent, addr, byte),
        Row::Back { .. } => calls::back(machine, lent.banks, lent.record),
    }
}

#[test]
fn rom_length_3() {
    for (length, expected) in [(MOST_ROM, 0), (MOST_ROM + 1, 3)] {
        let mut bench = bench();
        bench.rom = Rc::from(vec![1; length]);
        OPERATIONS.iter().for_each(|row| assert_eq!(number(&mut bench, *row), expected));
    }
}

type Change = fn(&mut Image);

/// Changes that keep the ranges (at the limit) and changes that break them (just past it).
const KEEP: [Change; 14] = [
    |image| image.wmadd_bank = 0x7F,
    |image| image.bit_cycles = 1,
    |image| image.bit_cycles = 4096,
    |image| image.nmi_line = 1,
    |image| (image.auto.kind, image.auto.countdown) = (1, 297),
    |image| (image.auto.kind, image.auto.bits_left, image.auto.countdown) = (2, 1, 263),
    |image| (image.auto.kind, image.auto.bits_left) = (2, 16),
    |image| image.ports[1].buttons = 0xFFF0,
    |image| image.pads = [0xFFF0, 0x10],
    |image| image.dma.state = 3,
    |image| (image.dma.present, image.dma.channel, image.dma.unit) = (1, 7, u32::MAX),
    |image| image.dma.wait = 55,
    |image| (image.lines[7].do_transfer, image.lines[0].finished) = (1, 1),
    |image| (image.rdnmi, image.timeup, image.hvbjoy) = (0xFF, 0xFF, 0xFF),
];

const BREAK: [Change; 34] = [
    |image| image.wmadd_bank = 0x7D,
    |image| image.wmadd_bank = 0x80,
    |image| image.bit_cycles = 0,
    |image| image.bit_cycles = 4097,
    |image| image.nmi_line = 2,
    |image| image.auto.kind = 3,
    |image| image.auto.bits_left = 1,
    |image| image.auto.countdown = 1,
    |image| (image.auto.kind, image.auto.countdown) = (1, 298),
    |image| (image.auto.kind, image.auto.bits_left) = (1, 1),
    |image| image.auto.kind = 2,
    |image| (image.auto.kind, image.auto.bits_left) = (2, 17),
    |image| (image.auto.kind, image.auto.bits_left, image.auto.countdown) = (2, 1, 264),
    |image| image.ports[0].connected = 2,
    |image| image.ports[1].connected = 0xFF,
    |image| image.ports[0].latch = 2,
    |image| image.ports[1].latch = 2,
    |image| image.ports[0].buttons = 1,
    |image| image.ports[1].buttons = 8,
    |image| image.pads[0] = 1,
    |image| image.pads[1] = 8,
    |image| image.dma.state = 4,
    |image| image.dma.running = 2,
    |image| image.dma.present = 2,
    |image| image.dma.channel = 1,
    |image| image.dma.unit = 1,
    |image| (image.dma.present, image.dma.channel) = (1, 8),
    |image| image.dma.wait = 56,
    |image| image.dma.pending = 2,
    |image| image.dma.init = 2,
    |image| image.lines[0].do_transfer = 2,
    |image| image.lines[7].do_transfer = 2,
    |image| image.lines[0].finished = 2,
    |image| image.lines[7].finished = 2,
];

#[test]
fn machine_4() {
    for (changes, expected) in [(&KEEP[..], 0), (&BREAK[..], 4)] {
        for (index, change) in changes.iter().enumerate() {
            for row in OPERATIONS.into_iter().chain([BACK]) {
                let mut bench = bench();
                call(&mut bench, READ);
                change(&mut bench.machine.image);
                assert_eq!(number(&mut bench, row), expected, "change {index}, {row:?}");
            }
        }
    }
}

#[test]
fn slot_and_kept_4() {
    for (next_slot, kept, expected) in [(3, 4, 0), (4, 4, 4), (3, 5, 4), (u64::MAX, 0, 4), (0, u64::MAX, 4)] {
        for row in OPERATIONS {
            let mut bench = bench();
            (bench.machine.next_slot, bench.machine.kept) = (next_slot, kept);
            assert_eq!(number(&mut bench, row), expected);
        }
        let mut bench = bench();
        (0..4).for_each(|_| assert_eq!(number(&mut bench, READ), 0));
        (bench.machine.next_slot, bench.machine.kept) = (next_slot, kept);
        assert_eq!(number(&mut bench, BACK), expected);
    }
}

#[test]
fn events_ports_and_addresses_5_6() {
    let mut bench = bench();
    for (event, expected) in [(4, 0), (5, 5), (255, 5)] {
        assert_eq!(number(&mut bench, Row::Cycles { count: 1, event, flags: 0 }), expected);
    }
    for (port, expected) in [(0, 0), (1, 0), (2, 6), (255, 6)] {
        assert_eq!(number(&mut bench, Row::Pad { port, word: 0 }), expected);
        assert_eq!(number(&mut bench, Row::Plug { port, value: 1 }), expected);
    }
    for (addr, expected) in [(0x2133, 6), (0x2134, 0), (0x213F, 0), (0x2140, 0), (0x2143, 0), (0x2144, 6), (0, 6)] {
        assert_eq!(number(&mut bench, Row::Answer { addr, byte: 1 }), expected);
    }
}

#[test]
fn clock_7() {
    let mut bench = bench();
    bench.machine.image.clock = u64::MAX - 1;
    assert_eq!(number(&mut bench, CYCLE), 0);
    assert_eq!(bench.machine.image.clock, u64::MAX);
    assert_eq!(number(&mut bench, CYCLE), 7);
    assert_eq!(number(&mut bench, Row::Cycles { count: 1, event: 5, flags: 0 }), 5);
    OPERATIONS[1..].iter().for_each(|row| assert_eq!(number(&mut bench, *row), 0));
    assert_eq!(number(&mut bench, BACK), 0);
}

#[test]
fn back_8_9() {
    let mut bench = bench();
    assert_eq!(number(&mut bench, BACK), 8);
    // Offsets in the entry: count, a place, an unused old byte, the zero tail, the image's bank.
    for (offset, byte) in [(222, 5), (225, 2), (227, 1), (230, 1), (238, 1), (239, 1), (255, 1), (0, 0), (67, 56)] {
        assert_eq!(number(&mut bench, Row::Write { bank: 0x7F, addr: 0xFFFF, byte: 3 }), 0);
        let start = (bench.machine.next_slot as usize + 3) % 4 * 256;
        let right = std::mem::replace(&mut bench.record[start + offset], byte);
        let (machine, banks) = (bench.machine, bench.banks.bytes().to_vec());
        assert_eq!(number(&mut bench, BACK), 9, "offset {offset}");
        assert_eq!((bench.machine, bench.banks.bytes().to_vec()), (machine, banks));
        bench.record[start + offset] = right;
        assert_eq!(number(&mut bench, BACK), 0);
    }
}

#[test]
fn fresh_1_2_10() {
    const WHOLE: [usize; 2] = [65_536; 2];
    let cases = [
        (WHOLE, 0, 1, 2),
        (WHOLE, 255, 1, 2),
        (WHOLE, 257, 1, 2),
        (WHOLE, 256, 1, 0),
        (WHOLE, 256, 0, 10),
        (WHOLE, 256, 4096, 0),
        (WHOLE, 256, 4097, 10),
        (WHOLE, 1, 0, 2),
        (WHOLE, u64::MAX, u64::MAX, 2),
        (WHOLE, u64::MAX - 255, 1, 0),
        ([65_535, 65_536], 256, 1, 1),
        ([65_537, 65_536], 256, 1, 1),
        ([65_536, 65_535], 256, 1, 1),
        ([65_536, 65_537], 256, 1, 1),
        ([0, 0], 256, 1, 1),
        ([65_535, 65_536], 255, 1, 1),
        ([65_536, 65_537], 256, 0, 1),
        ([0, 65_536], 0, 4097, 1),
    ];
    let mut banks = Banks::filled(&[1]);
    for (lengths, length, bit_cycles, expected) in cases {
        banks.lengths = lengths;
        let (number, machine) = calls::fresh(&banks, length, bit_cycles);
        assert_eq!(number, expected);
        let (length, bit_cycles, sum) = if number == 0 { (length, bit_cycles as u16, 131_072) } else { (0, 1, 0) };
        assert_eq!((machine.record_length, machine.image.bit_cycles, machine.sum), (length, bit_cycles, sum));
        assert_eq!((machine.next_slot, machine.kept), (0, 0));
        assert!(machine.image == power_on(bit_cycles));
    }
}

#[test]
fn pages_12() {
    let mut banks = Banks::filled(&[0]);
    banks.bytes_mut()[65_535] = 1;
    banks.bytes_mut()[65_536] = 2;
    assert_eq!((calls::page_look(&banks, 255)[255], calls::page_look(&banks, 256)[0]), (1, 2));
    assert_eq!((calls::page_look_number(&banks, 511), calls::page_look(&banks, 511).len()), (0, 256));
    assert_eq!((calls::page_look_number(&banks, 512), calls::page_look(&banks, 512).len()), (12, 0));
}

/// With everything wrong the smallest number comes; mending it brings the next.
#[test]
fn order() {
    let mut bench = bench();
    bench.banks.lengths = [0, 0];
    bench.machine.record_length += 256;
    bench.rom = Rc::from(vec![0; MOST_ROM + 1]);
    bench.machine.image.wmadd_bank = 0;
    bench.machine.image.clock = u64::MAX;
    let event = Row::Cycles { count: 1, event: 9, flags: 0 };
    let port = Row::Pad { port: 9, word: 0 };
    let numbers = |bench: &mut Bench| [event, port, BACK].map(|row| number(bench, row));
    assert_eq!(numbers(&mut bench), [1, 1, 1]);
    bench.banks.lengths = [65_536; 2];
    assert_eq!(numbers(&mut bench), [2, 2, 2]);
    bench.machine.record_length -= 256;
    assert_eq!(numbers(&mut bench), [3, 3, 4]);
    bench.rom = Rc::default();
    assert_eq!(numbers(&mut bench), [4, 4, 4]);
    bench.machine.image.wmadd_bank = 0x7E;
    assert_eq!(numbers(&mut bench), [5, 6, 8]);
    assert_eq!(number(&mut bench, CYCLE), 7);
    assert_eq!(calls::cycle(&mut bench.machine.clone(), &mut lent(&mut bench), 0, true, true).count, 0);
}
