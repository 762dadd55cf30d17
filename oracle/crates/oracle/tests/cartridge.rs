//! The cartridge on both sides of each limit: document 01's offsets, and document 02's request 1 (small ones repeat).
//! The offsets are worked out by hand.

mod help;

use bus::cartridge::Cartridge;
use common::snes_address::SnesAddress;
use help::{bench, call, cycle, write};
use oracle::bench::Bench;
use oracle::lent::MOST_ROM;
use oracle::row::Row;
use std::iter::repeat_n;
use std::rc::Rc;

/// An open bus that is no byte of a ROM here, so that silence shows.
const SILENT: u8 = 0xFF;

/// Byte i is i mod 251: what is 32,768 bytes or a multiple away differs.
fn byte(offset: usize) -> u8 {
    (offset % 251) as u8
}

fn rom(length: usize) -> Rc<[u8]> {
    (0..length).map(byte).collect()
}

fn with_rom(length: usize) -> Bench {
    let mut bench = bench();
    bench.rom = rom(length);
    bench.machine.image.open_bus = SILENT;
    bench
}

/// Reads each place of a ROM of some length: the byte at an offset, or none.
fn shows(length: usize, places: &[(u8, u16, Option<usize>)]) {
    let mut bench = with_rom(length);
    for (bank, addr, offset) in places {
        let answer = call(&mut bench, Row::Read { bank: *bank, addr: *addr });
        let expected = offset.map_or(SILENT, byte);
        assert_eq!((answer.number, answer.a), (0, expected.into()), "{length} bytes, ${bank:02X}:{addr:04X}");
    }
}

#[test]
fn under_32768_is_silent_past_its_end() {
    shows(0, &[(0x00, 0x8000, None), (0x80, 0x8000, None), (0x7D, 0xFFFF, None), (0xFF, 0xFFFF, None)]);
    shows(1, &[(0x00, 0x8000, Some(0)), (0x00, 0x8001, None), (0x01, 0x8000, None), (0xFF, 0x8000, None)]);
    shows(16_384, &[(0x00, 0x8000, Some(0)), (0x00, 0xBFFF, Some(0x3FFF)), (0x00, 0xC000, None)]);
    shows(16_384, &[(0x80, 0x8000, Some(0)), (0x80, 0xBFFF, Some(0x3FFF)), (0x80, 0xC000, None)]);
    shows(16_384, &[(0x01, 0x8000, None), (0x3F, 0xBFFF, None), (0x7D, 0x8000, None), (0xFF, 0xBFFF, None)]);
    shows(32_767, &[(0x00, 0x8000, Some(0)), (0x00, 0xFFFE, Some(0x7FFE)), (0x00, 0xFFFF, None)]);
    shows(32_767, &[(0x80, 0x8000, Some(0)), (0x80, 0xFFFE, Some(0x7FFE)), (0x80, 0xFFFF, None)]);
    shows(32_767, &[(0x01, 0x8000, None), (0xBF, 0xFFFE, None), (0x7D, 0xFFFE, None), (0xFF, 0x8000, None)]);
}

#[test]
fn powers_of_two_from_32768_repeat() {
    shows(32_768, &[(0x00, 0x8000, Some(0)), (0x00, 0xFFFF, Some(0x7FFF)), (0x01, 0x8000, Some(0))]);
    shows(32_768, &[(0x3F, 0x8001, Some(1)), (0x7D, 0xFFFF, Some(0x7FFF)), (0x7D, 0x9234, Some(0x1234))]);
    shows(32_768, &[(0x80, 0x8000, Some(0)), (0xBF, 0xFFFF, Some(0x7FFF)), (0xFF, 0x9234, Some(0x1234))]);
    // Two banks' worth: even banks show the first half, odd ones the second.
    shows(65_536, &[(0x00, 0x8000, Some(0)), (0x01, 0xFFFF, Some(0xFFFF)), (0x02, 0x8000, Some(0))]);
    shows(65_536, &[(0x7C, 0x8001, Some(1)), (0x7D, 0x8001, Some(0x8001)), (0x81, 0xFFFF, Some(0xFFFF))]);
    shows(65_536, &[(0x82, 0x8000, Some(0)), (0xFE, 0x8000, Some(0)), (0xFF, 0xFFFF, Some(0xFFFF))]);
    // Eight banks' worth: $7D is the sixth again, $BF and $FF the eighth.
    shows(262_144, &[(0x00, 0x8000, Some(0)), (0x07, 0xFFFF, Some(0x3_FFFF)), (0x08, 0x8000, Some(0))]);
    shows(262_144, &[(0x7D, 0x8000, Some(0x2_8000)), (0x87, 0xFFFF, Some(0x3_FFFF)), (0x88, 0x8000, Some(0))]);
    shows(262_144, &[(0xBF, 0x8000, Some(0x3_8000)), (0xFF, 0xFFFF, Some(0x3_FFFF))]);
    // 64 banks' worth: $40 and $C0 start anew.
    shows(2_097_152, &[(0x00, 0x8000, Some(0)), (0x3F, 0xFFFF, Some(0x1F_FFFF)), (0x40, 0x8000, Some(0))]);
    shows(2_097_152, &[(0x7D, 0xFFFF, Some(0x1E_FFFF)), (0xBF, 0xFFFF, Some(0x1F_FFFF)), (0xC0, 0x8000, Some(0))]);
    shows(2_097_152, &[(0xFF, 0x8000, Some(0x1F_8000)), (0xFF, 0xFFFF, Some(0x1F_FFFF))]);
    // All 128 banks: nothing is past the end.
    shows(4_194_304, &[(0x00, 0x8000, Some(0)), (0x40, 0x8000, Some(0x20_0000)), (0x7D, 0xFFFF, Some(0x3E_FFFF))]);
    shows(4_194_304, &[(0x80, 0x8000, Some(0)), (0xFE, 0x8000, Some(0x3F_0000)), (0xFF, 0xFFFF, Some(0x3F_FFFF))]);
}

#[test]
fn other_lengths_are_silent_past_their_end() {
    shows(32_769, &[(0x00, 0x8000, Some(0)), (0x01, 0x8000, Some(0x8000)), (0x01, 0x8001, None)]);
    shows(32_769, &[(0x80, 0xFFFF, Some(0x7FFF)), (0x81, 0x8000, Some(0x8000)), (0x81, 0x8001, None)]);
    shows(32_769, &[(0x02, 0x8000, None), (0x3F, 0x8000, None), (0x7D, 0x8000, None), (0xFF, 0x8000, None)]);
    shows(49_152, &[(0x00, 0x8000, Some(0)), (0x01, 0xBFFF, Some(0xBFFF)), (0x01, 0xC000, None)]);
    shows(49_152, &[(0x80, 0x8000, Some(0)), (0x81, 0xBFFF, Some(0xBFFF)), (0x81, 0xC000, None)]);
    shows(49_152, &[(0x02, 0x8000, None), (0xBF, 0xBFFF, None), (0x7D, 0xBFFF, None), (0xFF, 0x8000, None)]);
    shows(98_304, &[(0x00, 0x8000, Some(0)), (0x02, 0xFFFF, Some(0x1_7FFF)), (0x03, 0x8000, None)]);
    shows(98_304, &[(0x80, 0x8000, Some(0)), (0x82, 0xFFFF, Some(0x1_7FFF)), (0x83, 0x8000, None)]);
    shows(98_304, &[(0x3F, 0x8000, None), (0x7D, 0xFFFF, None), (0xBF, 0xFFFF, None), (0xFF, 0xFFFF, None)]);
}

/// At every offset: a ROM that repeats is itself laid end to end, any other is followed by silence.
#[test]
fn every_offset() {
    let powers = [0x8000, 0x1_0000, 0x2_0000, 0x4_0000, 0x8_0000, 0x10_0000, 0x20_0000, 0x40_0000];
    for length in powers {
        compare(length, rom(length).repeat(MOST_ROM / length).into_iter().map(Some));
    }
    let others = [0, 1, 2, 0x4000, 0x7FFF, 0x8001, 0xC000, 0xFFFF, 0x1_0001, 0x1_8000, 0x3_FFFF, 0x30_0000, 0x3F_FFFF];
    for length in others {
        compare(length, rom(length).iter().map(|byte| Some(*byte)).chain(repeat_n(None, MOST_ROM - length)));
    }
}

/// Both halves of the banks show these bytes from $8000 up, bank after bank.
fn compare(length: usize, expected: impl Iterator<Item = Option<u8>>) {
    let cartridge = Cartridge { rom: rom(length) };
    let places = (0x00..=0x7F).flat_map(|bank| (0x8000..=0xFFFF).map(move |addr| (bank, addr)));
    let mut compared = 0;
    for ((bank, addr), expected) in places.zip(expected) {
        for bank in [bank, 0x80 | bank] {
            let found = cartridge.read(SnesAddress { bank, addr }, false).0;
            assert_eq!(found, expected, "{length} bytes, ${bank:02X}:{addr:04X}");
        }
        compared += 1;
    }
    assert_eq!(compared, MOST_ROM);
}

#[test]
fn silent_below_8000_at_every_length() {
    for length in [0, 0x4000, 0x8000, 0x8001, 0x1_0000, 0x4_0000, 0x40_0000] {
        shows(length, &[(0x00, 0x6000, None), (0x3F, 0x7FFF, None), (0x80, 0x6000, None), (0xBF, 0x7FFF, None)]);
        shows(length, &[(0x40, 0x0000, None), (0x7D, 0x7FFF, None), (0xC0, 0x0000, None), (0xFF, 0x7FFF, None)]);
    }
}

#[test]
fn costs_and_writes_at_every_length() {
    for length in [0, 0x8000, 0x8001, 0x4_0000] {
        let mut bench = with_rom(length);
        for (memsel, bank, addr, cost) in [
            (0, 0xFF, 0x8000, 8),
            (1, 0xFF, 0x8000, 6),
            (1, 0xFF, 0x7FFF, 8),
            (1, 0x7D, 0x8000, 8),
            (1, 0x80, 0x8000, 6),
            (0xFE, 0x80, 0x8000, 8),
        ] {
            bench.machine.image.memsel = memsel;
            assert_eq!(call(&mut bench, Row::Read { bank, addr }).b, cost);
            let before = bench.machine.image;
            let answer = call(&mut bench, Row::Write { bank, addr, byte: 0xAA });
            assert_eq!((answer.number, answer.a, answer.b), (0, 0, cost));
            assert_eq!((bench.machine.image, &bench.rom), (before, &rom(length)));
        }
    }
}

/// Reads by DMA until it gives the bus back.
fn dma_reads(bench: &mut Bench, event: u8, line_due: bool) -> Vec<u8> {
    bench.machine.image.open_bus = SILENT;
    let mut answer = cycle(bench, event, line_due);
    let mut bytes = vec![];
    while answer.held {
        let reads = answer.accesses[..answer.count].iter().filter(|access| !access.write);
        bytes.extend(reads.map(|access| access.byte));
        answer = cycle(bench, 0, false);
    }
    bytes
}

/// $5A:FFFD up, three bytes: with eight banks' worth, $5A is the third again.
#[test]
fn general_transfer_from_a_high_bank() {
    let channel =
        [(0x4300, 0), (0x4301, 0x18), (0x4302, 0xFD), (0x4303, 0xFF), (0x4304, 0x5A), (0x4305, 3), (0x4306, 0)];
    let silence = vec![SILENT; 3];
    for (length, bytes) in [
        (262_144, vec![byte(0x1_7FFD), byte(0x1_7FFE), byte(0x1_7FFF)]),
        (32_768, vec![byte(0x7FFD), byte(0x7FFE), byte(0x7FFF)]),
        (32_769, silence.clone()),
        (98_304, silence),
    ] {
        let mut bench = with_rom(length);
        channel.iter().chain(&[(0x420B, 1)]).for_each(|(addr, byte)| write(&mut bench, *addr, *byte));
        assert_eq!(dma_reads(&mut bench, 0, false), bytes, "{length} bytes");
    }
}

/// An indirect table at $C9:9000, its data at $FF: with eight banks' worth, the second and the eighth again. The table
/// has the counter 218 and the address 219, 220, which is $DCDB.
#[test]
fn hdma_table_in_a_high_bank() {
    let channel =
        [(0x4300, 0x40), (0x4301, 0x18), (0x4302, 0), (0x4303, 0x90), (0x4304, 0xC9), (0x4307, 0xFF), (0x420C, 1)];
    assert_eq!([byte(0x9000), byte(0x9001), byte(0x9002)], [218, 219, 220]);
    for (length, table, data) in
        [(262_144, vec![218, 219, 220], byte(0x3_8000 + 0x5CDB)), (98_304, vec![SILENT; 3], SILENT)]
    {
        let mut bench = with_rom(length);
        channel.iter().for_each(|(addr, byte)| write(&mut bench, *addr, *byte));
        assert_eq!(dma_reads(&mut bench, 4, false), table, "{length} bytes");
        assert_eq!(dma_reads(&mut bench, 0, true), [data], "{length} bytes");
    }
}
