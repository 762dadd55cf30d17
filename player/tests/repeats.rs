//! Request 1/12 through the library: a ROM whose length is a power of two of at least 32,768 repeats, any other is silent
//! past its end. Expected bytes are taken from the ROM at the offset that the rule gives.

use cloverwain::{Access, Event, Machine, Refusal};

const WORDS: &[u8; 15] = b"AXLE AXIS APEX\n";
/// Where the words stand in the 256 KiB ROM: in its bank 5 at $9000.
const WORDS_AT: usize = 5 * 0x8000 + 0x1000;
const WORDS_ADDRESS: u16 = 0x9000;
/// Banks that are 5 modulo the eight banks of such a ROM; only $05 and $85 lie before its end.
const WORDS_BANKS: [u8; 12] = [
    0x05, 0x0D, 0x3D, 0x45, 0x4D, 0x7D, 0x85, 0x8D, 0xBD, 0xC5, 0xCD, 0xFD,
];

/// A byte that no ROM here has, so that silence shows.
const OPEN_BUS: u8 = 0xFE;

fn rom(length: usize) -> Vec<u8> {
    let mixed = |place: u32| place.wrapping_mul(0x9E37_79B1) >> 16;
    (0..length as u32)
        .map(|place| (mixed(place) % 251) as u8)
        .collect()
}

fn words_rom() -> Vec<u8> {
    let mut rom = rom(262_144);
    rom[WORDS_AT..][..WORDS.len()].copy_from_slice(WORDS);
    rom
}

/// A machine with that ROM and a known byte on the open bus, which cartridge accesses leave there.
fn machine(rom: &[u8]) -> Machine {
    let mut machine = Machine::filled(&[0], 64, 264, rom.to_vec()).expect("accepted");
    write(&mut machine, 0x2100, &[OPEN_BUS]);
    machine
}

/// Registers from an address of bank 0 on.
fn write(machine: &mut Machine, address: u16, bytes: &[u8]) {
    for (address, byte) in (address..).zip(bytes) {
        machine.write(0, address, *byte).expect("accepted");
    }
}

fn read(machine: &mut Machine, bank: u8, address: u16) -> (u8, u8) {
    let read = machine.read(bank, address).expect("accepted");
    (read.byte, read.cost)
}

/// Document 01's offset of an address from $8000 up.
fn offset(bank: u8, address: u16) -> usize {
    usize::from(bank % 128) * 32_768 + usize::from(address - 0x8000)
}

/// The banks that lead to the cartridge from $8000 up: all but work RAM's.
fn banks() -> impl Iterator<Item = u8> {
    (0x00..=0xFF).filter(|bank| !matches!(bank, 0x7E | 0x7F))
}

/// Both ends and the middle of a bank, and the place in a bank where a ROM of that length ends.
fn addresses(length: usize) -> impl Iterator<Item = u16> {
    let end = 0x8000 + length % 0x8000;
    [0x8000, 0x8001, 0xBFFF, 0xC000, 0xFFFE, 0xFFFF]
        .into_iter()
        .chain(end - 1..=end + 1)
        .filter(|address| (0x8000..=0xFFFF).contains(address))
        .map(|address| address as u16)
}

/// The accesses of some cycles, the first with an event and a line due or not.
fn cycles(machine: &mut Machine, count: usize, event: Event, line_due: bool) -> Vec<Access> {
    let first = machine.cycle(event, line_due, false).expect("accepted");
    let mut accesses: Vec<Access> = first.accesses().collect();
    for _ in 1..count {
        let next = machine.cycle(Event::None, false, false).expect("accepted");
        accesses.extend(next.accesses());
    }
    accesses
}

fn read_of(bank: u8, address: u16, byte: u8) -> Access {
    Access {
        write: false,
        bank,
        address,
        byte,
    }
}

/// A byte on its way to work RAM: read from the A side, written to $2180.
fn moved(bank: u8, address: u16, byte: u8) -> [Access; 2] {
    let to = Access {
        write: true,
        bank: 0,
        address: 0x2180,
        byte,
    };
    [read_of(bank, address, byte), to]
}

/// Points $2180 at $7E:0200, the start of page 2.
fn to_page_2(machine: &mut Machine) {
    write(machine, 0x2181, &[0x00, 0x02, 0x00]);
}

fn page_2(machine: &Machine, length: usize) -> &[u8] {
    &machine.page(2).expect("a page")[..length]
}

/// A general transfer by channel 0 to page 2 of work RAM.
fn transfer(machine: &mut Machine, bank: u8, address: u16, count: u8) -> Vec<Access> {
    let [low, high] = address.to_le_bytes();
    to_page_2(machine);
    write(machine, 0x4300, &[0x00, 0x80, low, high, bank, count, 0]);
    write(machine, 0x420B, &[1]);
    cycles(machine, 32 + 8 * usize::from(count), Event::None, false)
}

#[test]
fn the_cpu_reads_the_table_from_high_banks_at_both_speeds() {
    let rom = words_rom();
    let mut machine = machine(&rom);
    for memsel in [0, 1] {
        write(&mut machine, 0x420D, &[memsel]);
        for bank in WORDS_BANKS {
            let cost = if bank >= 0x80 && memsel == 1 { 6 } else { 8 };
            assert_eq!(offset(bank, WORDS_ADDRESS) % rom.len(), WORDS_AT);
            for (address, byte) in (WORDS_ADDRESS..).zip(WORDS) {
                assert_eq!(
                    read(&mut machine, bank, address),
                    (*byte, cost),
                    "{bank:02X}:{address:04X}, MEMSEL {memsel}"
                );
            }
        }
    }
}

#[test]
fn a_high_bank_is_the_same_as_the_low_one() {
    let rom = words_rom();
    let mut machine = machine(&rom);
    for (address, byte) in (0x8000..=0xFFFF).zip(&rom[5 * 0x8000..]) {
        for bank in [0x05, 0x05 + 8, 0xFD - 8, 0xFD] {
            assert_eq!(
                read(&mut machine, bank, address).0,
                *byte,
                "{bank:02X}:{address:04X}"
            );
        }
    }
}

#[test]
fn a_general_transfer_moves_the_table_from_high_banks() {
    for bank in WORDS_BANKS {
        let mut machine = machine(&words_rom());
        let accesses = transfer(&mut machine, bank, WORDS_ADDRESS, WORDS.len() as u8);
        let expected: Vec<Access> = (WORDS_ADDRESS..)
            .zip(WORDS)
            .flat_map(|(address, byte)| moved(bank, address, *byte))
            .collect();
        assert_eq!(accesses, expected, "bank {bank:02X}");
        assert_eq!(page_2(&machine, WORDS.len()), WORDS, "bank {bank:02X}");
    }
}

/// A frame start and some lines of channel 0 in mode 0, to page 2 of work RAM.
fn frame(machine: &mut Machine, registers: [u8; 8], lines: usize) -> Vec<Access> {
    to_page_2(machine);
    write(machine, 0x4300, &registers);
    write(machine, 0x420C, &[1]);
    let mut accesses = cycles(machine, 64, Event::FrameStart, false);
    for _ in 0..lines {
        accesses.extend(cycles(machine, 64, Event::HBlankStart, true));
    }
    accesses
}

#[test]
fn hdma_follows_a_table_in_a_high_bank() {
    // Three lines with a byte each, one line with a byte, the end: only the letters are moved.
    let table = [0x83, b'A', b'X', b'L', 0x01, b'E', 0x00];
    let mut rom = words_rom();
    rom[WORDS_AT..][..table.len()].copy_from_slice(&table);
    for bank in WORDS_BANKS {
        let mut machine = machine(&rom);
        let accesses = frame(&mut machine, [0x00, 0x80, 0x00, 0x90, bank, 0, 0, 0], 6);
        let mut expected = vec![];
        for (address, byte) in (WORDS_ADDRESS..).zip(table) {
            match byte {
                b'A'..=b'Z' => expected.extend(moved(bank, address, byte)),
                _ => expected.push(read_of(bank, address, byte)),
            }
        }
        assert_eq!(accesses, expected, "bank {bank:02X}");
        assert_eq!(page_2(&machine, 4), b"AXLE", "bank {bank:02X}");
    }
}

#[test]
fn hdma_takes_indirect_data_from_a_high_bank() {
    // Nine lines from $9000 on, the end; the table stands in bank 0 of the ROM, the words in bank 5.
    let table = [0x89, 0x00, 0x90, 0x00];
    let mut rom = words_rom();
    rom[..table.len()].copy_from_slice(&table);
    for (bank, data) in WORDS_BANKS.map(|bank| (bank - 5, bank)) {
        let mut machine = machine(&rom);
        let registers = [0x40, 0x80, 0x00, 0x80, bank, 0, 0, data];
        let accesses = frame(&mut machine, registers, 10);
        let mut expected: Vec<Access> = (0x8000..)
            .zip(table)
            .map(|(address, byte)| read_of(bank, address, byte))
            .collect();
        let end = expected.pop();
        for (address, byte) in (WORDS_ADDRESS..).zip(&WORDS[..9]) {
            expected.extend(moved(data, address, *byte));
        }
        expected.extend(end);
        assert_eq!(accesses, expected, "table {bank:02X}, data {data:02X}");
        assert_eq!(page_2(&machine, 9), &WORDS[..9], "data {data:02X}");
    }
}

#[test]
fn a_power_of_two_from_32_kib_up_answers_in_every_bank() {
    for length in [32_768, 65_536, 262_144, 2_097_152, 4_194_304] {
        let rom = rom(length);
        let mut machine = machine(&rom);
        for bank in banks() {
            for address in addresses(length) {
                assert_eq!(
                    read(&mut machine, bank, address).0,
                    rom[offset(bank, address) % length],
                    "{bank:02X}:{address:04X} of {length}"
                );
            }
        }
    }
}

#[test]
fn every_other_length_is_silent_past_its_end() {
    for length in [0, 1, 16_384, 32_767, 32_769, 49_152, 98_304, 4_194_303] {
        let rom = rom(length);
        let mut machine = machine(&rom);
        for bank in banks() {
            for address in addresses(length) {
                let byte = rom.get(offset(bank, address)).copied();
                assert_eq!(
                    read(&mut machine, bank, address).0,
                    byte.unwrap_or(OPEN_BUS),
                    "{bank:02X}:{address:04X} of {length}"
                );
            }
        }
    }
}

#[test]
fn a_transfer_over_a_silent_end_moves_the_open_bus() {
    // 48 KiB end at $81:BFFF; past it, the byte that was just written to $2180 is on the bus.
    let rom = rom(49_152);
    let last = rom[49_151];
    let bytes = [rom[49_150], last, last, last];
    let expected: Vec<Access> = (0xBFFE..)
        .zip(bytes)
        .flat_map(|(address, byte)| moved(0x81, address, byte))
        .collect();
    let mut machine = machine(&rom);
    assert_eq!(transfer(&mut machine, 0x81, 0xBFFE, 4), expected);
    assert_eq!(page_2(&machine, 4), bytes);
}

#[test]
fn below_8000_no_chip_answers() {
    let mut machine = machine(&rom(262_144));
    write(&mut machine, 0x420D, &[1]);
    write(&mut machine, 0x2100, &[OPEN_BUS]);
    for (bank, address) in [
        (0x00, 0x6000),
        (0x08, 0x7FFF),
        (0x88, 0x6000),
        (0xBF, 0x7FFF),
        (0x40, 0x0000),
        (0x48, 0x2100),
        (0x7D, 0x7FFF),
        (0xC0, 0x0000),
        (0xFD, 0x5000),
        (0xFF, 0x7FFF),
    ] {
        assert_eq!(
            read(&mut machine, bank, address),
            (OPEN_BUS, 8),
            "{bank:02X}:{address:04X}"
        );
    }
}

#[test]
fn a_write_to_the_rom_has_no_effect() {
    let rom = words_rom();
    let mut machine = machine(&rom);
    for (memsel, fast) in [(0, 8), (1, 6)] {
        write(&mut machine, 0x420D, &[memsel]);
        for (bank, cost) in [(0x0D, 8), (0x4D, 8), (0x8D, fast), (0xFD, fast)] {
            let before = *machine.bytes();
            assert_eq!(machine.write(bank, WORDS_ADDRESS, 0x55), Ok(cost));
            assert_eq!(machine.bytes()[..256], before[..256]);
            // Seen where the ROM's own bytes stand, before its end.
            assert_eq!(read(&mut machine, 0x05, WORDS_ADDRESS).0, WORDS[0]);
        }
    }
    let is_zero = |bank: &[u8]| bank.iter().all(|byte| *byte == 0);
    assert!(
        machine.banks().into_iter().all(is_zero),
        "no byte went to work RAM"
    );
}

#[test]
fn a_rom_of_one_byte_more_than_4_mib_is_refused_by_3() {
    let rom = vec![0; 4_194_305];
    let mut machine = Machine::filled(&[0], 4, 264, rom).expect("fresh takes no ROM");
    let refused = Refusal::RomLength;
    assert_eq!(refused.number(), 3);
    assert_eq!(machine.read(0x00, 0x8000), Err(refused));
    assert_eq!(machine.write(0x00, 0x8000, 1), Err(refused));
    assert_eq!(
        machine.cycle(Event::None, false, false).err(),
        Some(refused)
    );
    assert_eq!(machine.pad(0, 0), Err(refused));
    assert_eq!(machine.plug(0, true), Err(refused));
    assert_eq!(machine.answer(0x2140, 1), Err(refused));
    // Back takes no ROM, so it gets as far as finding that none of these was kept.
    assert_eq!(machine.back(), Err(Refusal::NothingKept));
}
