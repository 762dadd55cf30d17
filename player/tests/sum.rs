//! Request 2/12 through the interface: a machine carries the sum of its work RAM, and every call keeps it true.

use cloverwain::{Access, BANK_SIZE, Event, Machine, Refusal};

/// What a machine's sum should be.
fn added_up(machine: &Machine) -> u32 {
    let bytes = machine.banks().into_iter().flatten();
    bytes.map(|byte| u32::from(*byte)).sum()
}

fn filled(fill: &[u8], slots: usize) -> Machine {
    Machine::filled(fill, slots, 264, vec![]).expect("accepted")
}

/// A machine and what its sum was before each operation.
struct Run {
    machine: Machine,
    sums: Vec<u32>,
}

impl Run {
    /// Room to take back everything.
    fn new(fill: &[u8], rom: &[u8]) -> Self {
        let machine = Machine::filled(fill, 2048, 264, rom.to_vec()).expect("accepted");
        let sums = vec![];
        Self { machine, sums }
    }

    /// One operation, after which the sum is true.
    #[track_caller]
    fn after<T>(&mut self, operation: impl FnOnce(&mut Machine) -> Result<T, Refusal>) -> T {
        self.sums.push(self.machine.ram_sum());
        let answer = operation(&mut self.machine).expect("accepted");
        assert_eq!(self.machine.ram_sum(), added_up(&self.machine));
        answer
    }

    #[track_caller]
    fn write(&mut self, bank: u8, address: u16, byte: u8) {
        self.after(|machine| machine.write(bank, address, byte));
    }

    /// Registers from an address of bank 0 on.
    #[track_caller]
    fn registers(&mut self, address: u16, bytes: &[u8]) {
        for (address, byte) in (address..).zip(bytes) {
            self.write(0, address, *byte);
        }
    }

    /// The accesses of a cycle.
    #[track_caller]
    fn cycle(&mut self, event: Event, line_due: bool) -> Vec<Access> {
        self.after(|machine| {
            let cycle = machine.cycle(event, line_due, false)?;
            Ok(cycle.accesses().collect())
        })
    }

    /// The same for some cycles, the first with an event and a line due or not.
    #[track_caller]
    fn cycles(&mut self, count: usize, event: Event, line_due: bool) -> Vec<Vec<Access>> {
        let first = self.cycle(event, line_due);
        let rest = (1..count).map(|_| self.cycle(Event::None, false));
        [first].into_iter().chain(rest).collect()
    }

    /// The sum's way back, step by step.
    #[track_caller]
    fn all_back(mut self) {
        for sum in self.sums.into_iter().rev() {
            self.machine.back().expect("kept");
            assert_eq!(self.machine.ram_sum(), sum);
            assert_eq!(added_up(&self.machine), sum);
        }
        assert_eq!(self.machine.back(), Err(Refusal::NothingKept));
    }
}

/// The writes among accesses, as (bank, address, byte).
fn writes(accesses: &[Access]) -> Vec<(u8, u16, u8)> {
    let writes = accesses.iter().filter(|access| access.write);
    writes
        .map(|access| (access.bank, access.address, access.byte))
        .collect()
}

#[test]
fn fresh_adds_up_the_banks_that_it_is_given() {
    let low: Vec<u8> = (0..BANK_SIZE).map(|place| place as u8).collect();
    let high = vec![1; BANK_SIZE];
    let sum = 256 * (255 * 128) + 65_536;
    for [low, high] in [[&low, &high], [&high, &low]] {
        let machine = Machine::fresh(low.clone(), high.clone(), 4, 264, vec![]).expect("accepted");
        assert_eq!(machine.ram_sum(), sum);
        assert_eq!(machine.banks(), [&low[..], &high[..]]);
    }
}

#[test]
fn fresh_counts_the_bytes_at_the_ends_of_both_banks() {
    for (bank, place) in [(0, 0), (0, BANK_SIZE - 1), (1, 0), (1, BANK_SIZE - 1)] {
        let mut banks = [(); 2].map(|()| vec![0; BANK_SIZE]);
        banks[bank][place] = 200;
        let [low, high] = banks;
        let machine = Machine::fresh(low, high, 4, 264, vec![]).expect("accepted");
        assert_eq!(machine.ram_sum(), 200, "place {place} of bank {bank}");
    }
}

#[test]
fn a_fill_starts_anew_in_each_bank() {
    for (fill, sum) in [
        (&[0][..], 0),
        (&[0x5A], 131_072 * 0x5A),
        (&[0xFF], 33_423_360),
        // 21,845 times and one byte more, in each bank.
        (&[1, 2, 3], 2 * (21_845 * 6 + 1)),
        // As long as both banks: the second half is never reached.
        (&[[3; BANK_SIZE], [7; BANK_SIZE]].concat(), 131_072 * 3),
    ] {
        let machine = filled(fill, 4);
        assert_eq!(machine.ram_sum(), sum);
        assert_eq!(added_up(&machine), sum);
        assert_eq!(machine.banks()[0], machine.banks()[1]);
    }
}

#[test]
fn a_bank_of_another_length_is_refused_by_1_before_2_before_10() {
    const RIGHT: usize = BANK_SIZE;
    let fresh = |low, high, slots, bit_cycles| {
        let (low, high) = (vec![1; low], vec![1; high]);
        Machine::fresh(low, high, slots, bit_cycles, vec![]).err()
    };
    for wrong in [0, RIGHT - 1, RIGHT + 1] {
        for (low, high) in [(wrong, RIGHT), (RIGHT, wrong), (wrong, wrong)] {
            for (slots, bit_cycles) in [(4, 264), (0, 264), (usize::MAX, 264), (4, 0), (0, 0)] {
                let refusal = fresh(low, high, slots, bit_cycles);
                assert_eq!(refusal, Some(Refusal::BankLength), "{low} and {high}");
            }
        }
    }
    // Wrong ones that are right together.
    assert_eq!(
        fresh(RIGHT - 1, RIGHT + 1, 4, 264),
        Some(Refusal::BankLength)
    );
    assert_eq!(fresh(0, 2 * RIGHT, 4, 264), Some(Refusal::BankLength));
    assert_eq!(fresh(RIGHT, RIGHT, 0, 0), Some(Refusal::RecordLength));
    assert_eq!(fresh(RIGHT, RIGHT, 4, 0), Some(Refusal::BitCycles));
    assert_eq!(fresh(RIGHT, RIGHT, 4, 264), None);
}

#[test]
fn an_empty_fill_is_refused_by_1() {
    let refusal = Machine::filled(&[], 0, 0, vec![]).err().expect("refused");
    assert_eq!(
        refusal.to_string(),
        "a work RAM slice is not 65,536 bytes (1)"
    );
}

#[test]
fn a_write_changes_the_sum_by_its_difference() {
    let mut run = Run::new(&[0x40], &[0; 0x8000]);
    for (bank, address, byte, difference) in [
        (0x7E, 0x1234, 0x50, 0x10),
        (0x7E, 0x1234, 0x4F, -1),
        (0x7E, 0x1234, 0x4F, 0),
        (0x7E, 0x0000, 0x00, -0x40),
        (0x7E, 0xFFFF, 0xFF, 0xBF),
        (0x7F, 0x0000, 0xFF, 0xBF),
        (0x7F, 0xFFFF, 0x00, -0x40),
        // The low 8 KiB are seen in every system bank.
        (0x00, 0x1234, 0x40, -0x0F),
        (0xBF, 0x1FFF, 0x41, 0x01),
        // No work RAM.
        (0x00, 0x2000, 0xFF, 0),
        (0x00, 0x2118, 0xFF, 0),
        (0x00, 0x4300, 0xFF, 0),
        (0x00, 0x8000, 0xFF, 0),
        (0x40, 0x1234, 0xFF, 0),
    ] {
        let before = run.machine.ram_sum();
        run.write(bank, address, byte);
        let after = before.checked_add_signed(difference).expect("in range");
        assert_eq!(run.machine.ram_sum(), after, "{bank:02X}:{address:04X}");
    }
    run.all_back();
}

#[test]
fn the_data_port_keeps_the_sum_over_both_ends() {
    let mut run = Run::new(&[1, 2, 3, 5, 7], &[]);
    for bank in [0x00, 0x01] {
        run.registers(0x2181, &[0xFE, 0xFF, bank]);
        for byte in [0x11, 0x00, 0xFF, 0x7F] {
            run.write(0, 0x2180, byte);
        }
    }
    run.registers(0x2181, &[0xFF, 0xFF, 0x01]);
    for _ in 0..3 {
        run.after(|machine| machine.read(0, 0x2180));
    }
    let [low, high] = run.machine.banks();
    assert_eq!(
        [low[0], low[1], low[0xFFFE], low[0xFFFF]],
        [0xFF, 0x7F, 0x11, 0x00]
    );
    assert_eq!(
        [high[0], high[1], high[0xFFFE], high[0xFFFF]],
        [0xFF, 0x7F, 0x11, 0x00]
    );
    run.all_back();
}

/// A general transfer of six bytes by channel 0, with its waiting cycles and the first one that is not held.
fn transfer(run: &mut Run, dmap: u8, bbad: u8, address: u16, bank: u8) {
    let [low, high] = address.to_le_bytes();
    run.registers(0x4300, &[dmap, bbad, low, high, bank, 6, 0]);
    run.registers(0x420B, &[1]);
    let moved = run.cycles(80, Event::None, false);
    assert_eq!(moved.concat().len(), 12);
}

#[test]
fn general_transfers_keep_the_sum() {
    let mut run = Run::new(&[0x10, 0x80, 0xF0], &[9, 8, 7, 6, 5, 4, 3, 2, 1]);
    for (port, byte) in (0x2134..0x2138).zip([0xA1, 0x00, 0xFF, 0x42]) {
        run.after(|machine| machine.answer(port, byte));
    }
    run.registers(0x2181, &[0xFD, 0xFF, 0x01]);
    // From the ROM and from work RAM to $2180, upwards, downwards, fixed; by mode 5 to WMADD too.
    transfer(&mut run, 0x00, 0x80, 0x8000, 0x00);
    transfer(&mut run, 0x10, 0x80, 0x0003, 0x7F);
    transfer(&mut run, 0x0D, 0x80, 0x8002, 0x00);
    // From the PPU to work RAM, over a bank's end, and from $2180.
    transfer(&mut run, 0x84, 0x34, 0xFFFD, 0x7F);
    transfer(&mut run, 0x91, 0x34, 0x0002, 0x7E);
    transfer(&mut run, 0x80, 0x80, 0x1FFC, 0x00);
    run.all_back();
}

/// The cycles of a frame start and of one line after it, with channel 0 alone.
fn line(run: &mut Run, registers: [u8; 8]) -> Vec<Vec<Access>> {
    run.registers(0x4300, &registers);
    run.registers(0x420C, &[1]);
    run.cycles(64, Event::FrameStart, false);
    run.cycles(80, Event::HBlankStart, true)
}

#[test]
fn hdma_that_writes_one_place_twice_in_a_cycle_keeps_the_sum() {
    // Document 01's bytes: mode 5 goes to $2180, $2181, $2180, $2181. A line of them, and the table's end.
    let mut run = Run::new(&[0xC8], &[0x01, 1, 0x34, 2, 0x77, 0]);
    let sum = 131_072 * 0xC8;
    run.registers(0x2181, &[0x34, 0x12, 0x00]);
    let cycles = line(&mut run, [0x05, 0x80, 0x00, 0x80, 0x00, 0, 0, 0]);
    let unit = cycles.iter().find(|accesses| accesses.len() == 8);
    assert_eq!(
        writes(unit.expect("a cycle with a unit")),
        [
            (0, 0x2180, 1),
            (0, 0x2181, 0x34),
            (0, 0x2180, 2),
            (0, 0x2181, 0x77)
        ]
    );
    assert_eq!(run.machine.banks()[0][0x1233..0x1236], [0xC8, 2, 0xC8]);
    assert_eq!(run.machine.ram_sum(), sum - 0xC8 + 2);
    run.all_back();
}

#[test]
fn hdma_that_writes_four_places_in_a_cycle_keeps_the_sum() {
    // Mode 4 from the PPU to work RAM, indirect: a line to $7F:FFFE, over the bank's end, and the table's end.
    let mut run = Run::new(&[0x33], &[0x01, 0xFE, 0xFF, 0]);
    let bytes = [0x00, 0xFF, 0x34, 0x32];
    for (port, byte) in (0x2134..).zip(bytes) {
        run.after(|machine| machine.answer(port, byte));
    }
    let cycles = line(&mut run, [0xC4, 0x34, 0x00, 0x80, 0x00, 0, 0, 0x7F]);
    let unit = cycles.iter().find(|accesses| accesses.len() == 8);
    assert_eq!(
        writes(unit.expect("a cycle with a unit")),
        [
            (0x7F, 0xFFFE, 0x00),
            (0x7F, 0xFFFF, 0xFF),
            (0x7F, 0x0000, 0x34),
            (0x7F, 0x0001, 0x32)
        ]
    );
    let change = bytes.map(|byte| i32::from(byte) - 0x33).iter().sum();
    let sum = (131_072u32 * 0x33).checked_add_signed(change);
    assert_eq!(Some(run.machine.ram_sum()), sum);
    run.all_back();
}

#[test]
fn what_writes_no_work_ram_keeps_the_sum_as_it_is() {
    let mut run = Run::new(&[0xEE, 0x01], &[0; 0x8000]);
    let sum = run.machine.ram_sum();
    run.after(|machine| machine.pad(0, 0xABC0));
    run.after(|machine| machine.pad(1, 0xFFFF));
    run.after(|machine| machine.plug(0, false));
    run.after(|machine| machine.plug(1, true));
    run.after(|machine| machine.answer(0x2134, 0xFF));
    run.after(|machine| machine.answer(0x2143, 0xFF));
    for (bank, address) in [(0x7E, 0x1234), (0x7F, 0xFFFF), (0, 0x2180), (0, 0x8000)] {
        run.after(|machine| machine.read(bank, address));
    }
    run.registers(0x4200, &[0x81]);
    for event in [
        Event::None,
        Event::HBlankStart,
        Event::NormalLine,
        Event::VBlankStart,
        Event::FrameStart,
    ] {
        run.cycles(20, event, true);
    }
    assert_eq!(run.machine.ram_sum(), sum);
    run.all_back();
}

#[test]
fn a_refused_call_keeps_the_sum() {
    let mut machine = filled(&[0x5A], 2);
    assert_eq!(machine.back(), Err(Refusal::NothingKept));
    machine.write(0x7E, 0x0000, 0x5B).expect("accepted");
    let before = *machine.bytes();
    assert_eq!(machine.pad(2, 0), Err(Refusal::PortOrAddress));
    assert_eq!(machine.plug(2, true), Err(Refusal::PortOrAddress));
    assert_eq!(machine.answer(0x2133, 1), Err(Refusal::PortOrAddress));
    assert_eq!(machine.page(512), Err(Refusal::Page));
    assert_eq!(*machine.bytes(), before);
    assert_eq!(machine.ram_sum(), 131_072 * 0x5A + 1);
}

#[test]
fn operations_whose_entries_are_gone_stay_in_the_sum() {
    let mut machine = filled(&[0], 2);
    for address in 0..5 {
        machine.write(0x7E, address, 1).expect("accepted");
    }
    assert_eq!(machine.ram_sum(), 5);
    machine.back().expect("kept");
    machine.back().expect("kept");
    assert_eq!(machine.back(), Err(Refusal::NothingKept));
    assert_eq!(machine.ram_sum(), 3);
    assert_eq!(added_up(&machine), 3);
}
