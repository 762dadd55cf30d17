//! The interface, call by call, and the paper's numbers.

use cloverwain::{Event, Machine, Refusal, raw};

fn machine() -> Machine {
    Machine::filled(&[0], 4, 264, vec![0x11, 0x22]).expect("accepted")
}

#[test]
fn fresh_is_refused_by_2_and_10() {
    let refused = |slots, bit_cycles| Machine::filled(&[0], slots, bit_cycles, vec![]).err();
    assert_eq!(refused(0, 264), Some(Refusal::RecordLength));
    assert_eq!(refused(usize::MAX, 264), Some(Refusal::RecordLength));
    assert_eq!(refused(1, 0), Some(Refusal::BitCycles));
    assert_eq!(refused(1, 4097), Some(Refusal::BitCycles));
    assert_eq!(refused(1, 4096), None);
}

#[test]
fn a_byte_written_is_read_back_and_taken_back() {
    let mut machine = machine();
    assert_eq!(machine.write(0x7E, 0x1234, 0x5A), Ok(8));
    assert_eq!(machine.page(0x12).expect("a page")[0x34], 0x5A);
    assert_eq!(machine.read(0x00, 0x1234).expect("accepted").byte, 0x5A);
    assert_eq!(machine.kept(), 2);
    machine.back().expect("the read");
    machine.back().expect("the write");
    assert_eq!(machine.back(), Err(Refusal::NothingKept));
    assert_eq!(machine.page(0x12).expect("a page")[0x34], 0);
}

#[test]
fn the_rom_is_read_at_its_speed() {
    let mut machine = machine();
    assert_eq!(
        machine
            .read(0x00, 0x8001)
            .map(|read| (read.byte, read.cost)),
        Ok((0x22, 8))
    );
    machine.write(0, 0x420D, 1).expect("accepted");
    assert_eq!(
        machine
            .read(0x80, 0x8000)
            .map(|read| (read.byte, read.cost)),
        Ok((0x11, 6))
    );
}

#[test]
fn ports_addresses_and_pages_are_judged() {
    let mut machine = machine();
    assert_eq!(machine.pad(2, 0), Err(Refusal::PortOrAddress));
    assert_eq!(machine.plug(1, true), Ok(()));
    assert_eq!(machine.answer(0x2144, 1), Err(Refusal::PortOrAddress));
    assert_eq!(machine.answer(0x2143, 7), Ok(()));
    assert_eq!(machine.read(0, 0x2143).expect("accepted").byte, 7);
    assert_eq!(machine.page(512), Err(Refusal::Page));
    assert_eq!(Refusal::Page.number(), 12);
}

#[test]
fn an_image_out_of_the_ranges_is_refused_by_4() {
    let good = machine();
    for (place, byte) in [
        (0, 0x80),
        (34, 3),
        (40, 2),
        (59, 4),
        (62, 8),
        (67, 56),
        (222, 1),
        (255, 1),
    ] {
        let mut bytes = *good.bytes();
        bytes[place] = byte;
        let (mut low, mut high, mut record) = (vec![0; 65_536], vec![0; 65_536], vec![0; 1024]);
        let lent = raw::Lent {
            machine: &mut bytes,
            low: &mut low,
            high: &mut high,
            record: &mut record,
            rom: &[],
        };
        assert_eq!(raw::pad(lent, 0, 0), 4, "byte {place}");
    }
}

#[test]
fn a_transfer_shows_its_accesses() {
    let mut machine = Machine::filled(&[0], 64, 264, vec![]).expect("accepted");
    for (address, byte) in [
        (0x4300, 0),
        (0x4301, 0x18),
        (0x4302, 0),
        (0x4303, 0),
        (0x4304, 0x7E),
        (0x4305, 1),
        (0x4306, 0),
        (0x420B, 1),
    ] {
        machine.write(0, address, byte).expect("accepted");
    }
    let mut accesses = vec![];
    for _ in 0..40 {
        accesses.extend(
            machine
                .cycle(Event::None, false, false)
                .expect("accepted")
                .accesses(),
        );
    }
    let seen: Vec<_> = accesses
        .iter()
        .map(|access| (access.write, access.bank, access.address))
        .collect();
    assert_eq!(seen, [(false, 0x7E, 0), (true, 0, 0x2118)]);
}
