//! One machine twice: as the oracle has it and as the library has it, with what is lent to each.

use crate::counts::Counts;
use crate::draw::{CYCLE, Rows, any_row};
use crate::roms::{self, Roms};
use cloverwain::raw::{self, ANSWER_SIZE, MACHINE_SIZE, NEXT_SLOT, SUM};
use oracle::any_image::any_image;
use oracle::calls::{self, Cycle};
use oracle::image::{ENTRY_SIZE, Entry, Image, Machine};
use oracle::layout::Field;
use oracle::lent::{BANK_SIZE, Banks, Lent};
use oracle::random::Random;
use oracle::ranges::image_in_ranges;
use oracle::row::Row;
use std::fmt::Debug;
use std::rc::Rc;

/// Calls between two comparisons of whole banks and their sum.
const WHOLE: u64 = 256;

pub struct Pair<'a> {
    machine: Machine,
    banks: Banks,
    record: Vec<u8>,
    rom: Rc<[u8]>,
    roms: &'a Roms,
    bytes: [u8; MACHINE_SIZE],
    halves: [Vec<u8>; 2],
    entries: Vec<u8>,
    /// Lengths that the next call is lent: both banks and the record.
    lengths: [usize; 3],
    /// What slots are filled with. It is a stream of its own, so that the run's calls do not depend on it.
    fill: Random,
    /// How much was added to the machine's sum to make it false, modulo 2^32.
    false_by: u32,
    calls: u64,
}

impl<'a> Pair<'a> {
    /// Both fresh, after some fresh calls that are mostly refused.
    pub fn fresh(
        random: &mut Random,
        fill: Random,
        rows: &Rows,
        roms: &'a Roms,
        counts: &mut Counts,
    ) -> Result<Self, String> {
        let mut pair = Self::lent(random, fill, rows, roms);
        (0..2).try_for_each(|_| pair.any_fresh(random, counts))?;
        let length = pair.record.len();
        // The file's own bit cycles may be refused.
        if pair.fresh_call(length, rows.bit_cycles, counts)? != 0 {
            pair.fresh_call(length, 264, counts)?;
        }
        Ok(pair)
    }

    /// All that is lent, with any bytes where fresh will put the machine.
    fn lent(random: &mut Random, fill: Random, rows: &Rows, roms: &'a Roms) -> Self {
        let banks = Banks::filled(&rows.fill);
        let halves = [0, 1].map(|half| {
            banks.bytes()[half * BANK_SIZE..][..BANK_SIZE]
                .iter()
                .copied()
                .chain([0xA5])
                .collect()
        });
        let slots = random.pick(&[1, 2, 3, 7, 20]);
        let record = random.bytes(slots * ENTRY_SIZE);
        let bytes = random.bytes(MACHINE_SIZE);
        let bytes: [u8; MACHINE_SIZE] = bytes.try_into().expect("a machine's bytes");
        let (entries, lengths) = (record.clone(), [BANK_SIZE, BANK_SIZE, record.len()]);
        Self {
            machine: Machine::take(&bytes),
            banks,
            record,
            rom: rows.rom.clone(),
            roms,
            bytes,
            halves,
            entries,
            lengths,
            fill,
            false_by: 0,
            calls: 0,
        }
    }

    /// Fresh on both, over banks of the lengths that the next call is lent; answers the number.
    fn fresh_call(
        &mut self,
        record_length: usize,
        bit_cycles: u16,
        counts: &mut Counts,
    ) -> Result<u8, String> {
        let [low, high, _] = self.lengths;
        self.banks.lengths = [low, high];
        let (theirs, machine) = calls::fresh(&self.banks, record_length as u64, bit_cycles.into());
        let ours = raw::fresh(
            &mut self.bytes,
            &self.halves[0][..low],
            &self.halves[1][..high],
            record_length,
            bit_cycles,
        );
        self.machine = machine;
        counts.call("fresh", ours);
        let given = format!("fresh {low} {high} {record_length} {bit_cycles}");
        same(
            &given,
            &(ours, self.bytes),
            &(theirs, machine_bytes(&machine)),
        )?;
        Ok(ours)
    }

    /// Fresh over the banks as they are now, mostly with something wrong; then the run goes on with its own machine.
    fn any_fresh(&mut self, random: &mut Random, counts: &mut Counts) -> Result<(), String> {
        let (machine, bytes, sound) = (self.machine, self.bytes, self.lengths);
        self.bank_lengths(random);
        let any = random.between(0, 600) as usize;
        let length = random.pick(&[0, any, self.record.len(), self.record.len()]);
        let any = random.two();
        let bit_cycles = random.pick(&[0, 1, 264, 4096, 4097, any]);
        let answer = self.fresh_call(length, bit_cycles, counts);
        (self.machine, self.bytes, self.lengths) = (machine, bytes, sound);
        answer.map(|_| ())
    }

    /// One call on both, and everything compared.
    pub fn call(&mut self, row: Row, counts: &mut Counts) -> Result<(), String> {
        let filled = self.fill_slot(row);
        let (theirs, ours) = (self.oracle(row), self.library(row));
        self.compared(&ours, &theirs)
            .map_err(|what| format!("{row:?} with a ROM of {} bytes: {what}", self.rom.len()))?;
        counts.call(name(row), ours.number);
        if self.false_by != 0 {
            counts.false_sum();
        }
        if filled && ours.number == 0 {
            counts.over_random();
        }
        for (bank, addr) in ours.reads(row) {
            counts.read(self.rom.len(), bank, addr);
        }
        Ok(())
    }

    /// Random bytes where an operation writes its entry, so that a byte which it leaves out shows: always where no entry
    /// is kept, now and then over the oldest one. Answers whether they were put there.
    fn fill_slot(&mut self, row: Row) -> bool {
        let capacity = (self.record_length() / ENTRY_SIZE) as u64;
        let (slot, kept) = (self.machine.next_slot, self.machine.kept);
        if matches!(row, Row::Back { .. })
            || slot >= capacity
            || (kept >= capacity && !self.fill.once_in(8))
        {
            return false;
        }
        let bytes = self.fill.bytes(ENTRY_SIZE);
        for record in [&mut self.record, &mut self.entries] {
            record[slot as usize * ENTRY_SIZE..][..ENTRY_SIZE].copy_from_slice(&bytes);
        }
        true
    }

    /// How much of the record the next call is lent.
    fn record_length(&self) -> usize {
        self.lengths[2].min(self.record.len())
    }

    fn compared(&mut self, ours: &Answer, theirs: &Answer) -> Result<(), String> {
        same("answers", ours, theirs)?;
        same("machine", &self.bytes, &machine_bytes(&self.machine))?;
        if self.entries != self.record {
            return Err("the records differ".into());
        }
        self.calls += 1;
        if self.calls.is_multiple_of(WHOLE) {
            self.whole_banks()
        } else {
            self.written_bytes()
        }
    }

    pub fn whole_banks(&self) -> Result<(), String> {
        let (low, high) = self.banks.bytes().split_at(BANK_SIZE);
        let same = self.halves[0][..BANK_SIZE] == *low && self.halves[1][..BANK_SIZE] == *high;
        let spare = self.halves.iter().all(|half| half[BANK_SIZE] == 0xA5);
        if !same || !spare {
            return Err("the banks differ".into());
        }
        self.whole_sum()
    }

    /// The library's sum is that of its banks, or false by as much as it was made so.
    fn whole_sum(&self) -> Result<(), String> {
        let whole = self.halves.iter().map(|half| added_up(&half[..BANK_SIZE]));
        let whole = whole.sum::<u32>().wrapping_add(self.false_by);
        let sum = u32::take(&self.bytes[SUM..]);
        if sum == whole {
            Ok(())
        } else {
            Err(format!(
                "the library's sum is {sum}, its banks' and {} are {whole}",
                self.false_by
            ))
        }
    }

    /// The places that the newest entry names.
    fn written_bytes(&self) -> Result<(), String> {
        let entry = Entry::take(&self.record[self.newest()..][..ENTRY_SIZE]);
        for old in &entry.old {
            let place = old.place.0 as usize % (2 * BANK_SIZE);
            same(
                "work RAM byte",
                &self.halves[place / BANK_SIZE][place % BANK_SIZE],
                &self.banks.bytes()[place],
            )?;
        }
        Ok(())
    }

    /// Where the newest entry starts.
    fn newest(&self) -> usize {
        let capacity = self.record.len() / ENTRY_SIZE;
        (self.machine.next_slot as usize % capacity + capacity - 1) % capacity * ENTRY_SIZE
    }

    fn oracle(&mut self, row: Row) -> Answer {
        self.banks.lengths = [self.lengths[0], self.lengths[1]];
        let length = self.record_length();
        let (machine, banks, record) = (
            &mut self.machine,
            &mut self.banks,
            &mut self.record[..length],
        );
        let lent = &mut Lent {
            banks,
            record,
            rom: &self.rom,
        };
        let plain = |number| Answer {
            number,
            ..Answer::default()
        };
        match row {
            Row::Cycles { event, flags, .. } => {
                let cycle = calls::cycle(machine, lent, event, flags & 1 != 0, flags & 2 != 0);
                Answer {
                    number: cycle.number,
                    bytes: cycle_bytes(&cycle),
                }
            }
            Row::Read { bank, addr } => {
                let moved = calls::read(machine, lent, bank, addr);
                Answer::moved(moved.number, &[moved.byte, moved.cost as u8])
            }
            Row::Write { bank, addr, byte } => {
                let moved = calls::write(machine, lent, bank, addr, byte);
                Answer::moved(moved.number, &[moved.cost as u8])
            }
            Row::Pad { port, word } => plain(calls::pad(machine, lent, port, word)),
            Row::Plug { port, value } => plain(calls::plug(machine, lent, port, value != 0)),
            Row::Answer { addr, byte } => plain(calls::answer(machine, lent, addr, byte)),
            Row::Back { .. } => plain(calls::back(machine, lent.banks, lent.record)),
        }
    }

    fn library(&mut self, row: Row) -> Answer {
        let mut answer = Answer::default();
        let length = self.record_length();
        let [low, high] = &mut self.halves;
        let lent = raw::Lent {
            machine: &mut self.bytes,
            low: &mut low[..self.lengths[0]],
            high: &mut high[..self.lengths[1]],
            record: &mut self.entries[..length],
            rom: &self.rom,
        };
        let out = &mut answer.bytes;
        answer.number = match row {
            Row::Cycles { event, flags, .. } => {
                raw::cycle(lent, event, flags & 1 != 0, flags & 2 != 0, out)
            }
            Row::Read { bank, addr } => raw::read(lent, bank, addr, out),
            Row::Write { bank, addr, byte } => raw::write(lent, bank, addr, byte, out),
            Row::Pad { port, word } => raw::pad(lent, port, word),
            Row::Plug { port, value } => raw::plug(lent, port, value != 0),
            Row::Answer { addr, byte } => raw::port_answer(lent, addr, byte),
            Row::Back { .. } => raw::back(lent),
        };
        answer
    }

    /// Now and then something wrong is lent for a call, the image or the sum is changed, or a page or the ROM looked at.
    pub fn disturb(&mut self, random: &mut Random, counts: &mut Counts) -> Result<(), String> {
        match random.between(0, 255) {
            0..4 => self.wrong_lengths(random, counts),
            4..8 => self.wrong_machine(random, counts),
            8..10 => self.any_machine(random),
            10..14 => self.page(random, counts),
            14..18 => self.call(any_row(random), counts),
            18..20 => (0..random.between(1, 9))
                .try_for_each(|_| self.call(Row::Back { count: 1 }, counts)),
            20 => self.broken_record(random, counts),
            21 => self.with_rom(self.roms.too_long.clone(), |pair| {
                pair.call(any_row(random), counts)
            }),
            22..34 => self.with_rom(self.some_rom(random), |pair| {
                pair.call(roms::row(random, pair.rom.len()), counts)
            }),
            34..36 => self.with_rom(self.some_rom(random), |pair| {
                pair.rom_machine(random, counts)
            }),
            36..38 => self.any_sum(random),
            38 => self.any_fresh(random, counts),
            _ => Ok(()),
        }
    }

    fn wrong_lengths(&mut self, random: &mut Random, counts: &mut Counts) -> Result<(), String> {
        let sound = self.lengths;
        self.bank_lengths(random);
        let record = sound[2];
        self.lengths[2] = random
            .pick(&[record, record, record - 1, record - 256, 0, 255])
            .min(record);
        let answer = self.call(any_row(random), counts);
        self.lengths = sound;
        answer
    }

    fn bank_lengths(&mut self, random: &mut Random) {
        for length in &mut self.lengths[..2] {
            *length = random.pick(&[
                BANK_SIZE,
                BANK_SIZE,
                BANK_SIZE,
                BANK_SIZE + 1,
                BANK_SIZE - 1,
                0,
            ]);
        }
    }

    /// Any byte of the machine changed, for one call at least; one that breaks the ranges is put back after it.
    fn wrong_machine(&mut self, random: &mut Random, counts: &mut Counts) -> Result<(), String> {
        let (machine, bytes) = (self.machine, self.bytes);
        let places = random.pick(&[(0, 221), (34, 98), (NEXT_SLOT, SUM - 1)]);
        let place = random.between(places.0 as u64, places.1 as u64) as usize;
        let any = random.byte();
        self.bytes[place] = random.pick(&[any, 2, 3, 4, 8, 0x7D, 0x80, 0xFF]);
        self.machine = Machine::take(&self.bytes);
        self.call(any_row(random), counts)?;
        if !self.sound() {
            (self.machine, self.bytes) = (machine, bytes);
        }
        Ok(())
    }

    fn sound(&self) -> bool {
        let (machine, length) = (&self.machine, self.record.len() as u64);
        let capacity = length / ENTRY_SIZE as u64;
        let counts = machine.next_slot < capacity
            && machine.kept <= capacity
            && machine.record_length == length;
        counts && image_in_ranges(&machine.image)
    }

    /// Any sum from here on, or the true one again.
    fn any_sum(&mut self, random: &mut Random) -> Result<(), String> {
        let right = self.machine.sum.wrapping_sub(self.false_by);
        let any = random.word() as u32;
        let sum = random.pick(&[right, right, 0, u32::MAX, any]);
        self.false_by = sum.wrapping_sub(right);
        self.machine.sum = sum;
        self.bytes = machine_bytes(&self.machine);
        Ok(())
    }

    /// Another machine within the ranges.
    fn any_machine(&mut self, random: &mut Random) -> Result<(), String> {
        let mut image = any_image(random);
        if random.once_in(20) {
            image.clock = u64::MAX - random.between(0, 1);
        }
        self.put(image);
        Ok(())
    }

    /// Cycles of a machine whose channels look at the ROM; then the run goes on from where it was.
    fn rom_machine(&mut self, random: &mut Random, counts: &mut Counts) -> Result<(), String> {
        let before = self.machine.image;
        self.put(roms::machine(random, self.rom.len()));
        (0..random.between(1, 40)).try_for_each(|_| self.call(CYCLE, counts))?;
        self.put(before);
        Ok(())
    }

    /// The run's own, or any other: each call is lent its ROM anew.
    fn some_rom(&self, random: &mut Random) -> Rc<[u8]> {
        if random.once_in(2) {
            self.rom.clone()
        } else {
            self.roms.draw(random)
        }
    }

    /// Calls with another ROM than the run's.
    fn with_rom(
        &mut self,
        rom: Rc<[u8]>,
        calls: impl FnOnce(&mut Self) -> Result<(), String>,
    ) -> Result<(), String> {
        let own = std::mem::replace(&mut self.rom, rom);
        let answer = calls(self);
        self.rom = own;
        answer
    }

    fn put(&mut self, image: Image) {
        self.machine.image = image;
        self.bytes = machine_bytes(&self.machine);
    }

    /// Bytes of the newest entry changed, and a back step over it.
    fn broken_record(&mut self, random: &mut Random, counts: &mut Counts) -> Result<(), String> {
        let place = self.newest() + random.between(0, 255) as usize;
        let (old, new) = (self.record[place], random.byte());
        (self.record[place], self.entries[place]) = (new, new);
        self.call(Row::Back { count: 1 }, counts)?;
        (self.record[place], self.entries[place]) = (old, old);
        Ok(())
    }

    fn page(&mut self, random: &mut Random, counts: &mut Counts) -> Result<(), String> {
        let any = random.two();
        let page = random.pick(&[any % 520, any]);
        self.banks.lengths = [
            BANK_SIZE,
            random.pick(&[BANK_SIZE, BANK_SIZE, BANK_SIZE - 1]),
        ];
        let mut bytes = [0; 256];
        let number = raw::page(
            &self.halves[0][..BANK_SIZE],
            &self.halves[1][..self.banks.lengths[1]],
            page,
            &mut bytes,
        );
        counts.call("page look", number);
        same(
            "page number",
            &number,
            &calls::page_look_number(&self.banks, page.into()),
        )?;
        let seen = calls::page_look(&self.banks, page.into());
        if seen.is_empty() {
            same("page", &bytes, &[0; 256])
        } else {
            same("page", &bytes[..], seen)
        }
    }
}

/// The number, and what the call answers beside it.
#[derive(Debug, PartialEq)]
struct Answer {
    number: u8,
    bytes: [u8; ANSWER_SIZE],
}

impl Default for Answer {
    fn default() -> Self {
        Self {
            number: 0,
            bytes: [0; ANSWER_SIZE],
        }
    }
}

impl Answer {
    fn moved(number: u8, moved: &[u8]) -> Self {
        let mut answer = Self {
            number,
            ..Self::default()
        };
        answer.bytes[..moved.len()].copy_from_slice(moved);
        answer
    }

    /// Where an accepted call read, as the CPU or by DMA.
    fn reads(&self, row: Row) -> Vec<(u8, u16)> {
        match row {
            _ if self.number != 0 => vec![],
            Row::Read { bank, addr } => vec![(bank, addr)],
            Row::Cycles { .. } => self.bytes[3..]
                .chunks_exact(5)
                .take(self.bytes[2].into())
                .filter(|access| access[0] == 0)
                .map(|access| (access[1], u16::from_le_bytes([access[2], access[3]])))
                .collect(),
            _ => vec![],
        }
    }
}

fn cycle_bytes(cycle: &Cycle) -> [u8; ANSWER_SIZE] {
    let mut bytes = [0; ANSWER_SIZE];
    bytes[..3].copy_from_slice(&[cycle.held.into(), cycle.nmi.into(), cycle.count as u8]);
    for (part, access) in bytes[3..].chunks_exact_mut(5).zip(&cycle.accesses) {
        let [low, high] = access.addr.to_le_bytes();
        part.copy_from_slice(&[access.write.into(), access.bank, low, high, access.byte]);
    }
    bytes
}

fn machine_bytes(machine: &Machine) -> [u8; MACHINE_SIZE] {
    let mut bytes = [0; MACHINE_SIZE];
    machine.put(&mut bytes);
    bytes
}

fn added_up(bytes: &[u8]) -> u32 {
    bytes.iter().map(|byte| u32::from(*byte)).sum()
}

fn name(row: Row) -> &'static str {
    ["cycle", "read", "write", "pad", "plug", "answer", "back"][usize::from(row.kind()) - 1]
}

fn same<T: PartialEq + Debug + ?Sized>(what: &str, ours: &T, theirs: &T) -> Result<(), String> {
    if ours == theirs {
        Ok(())
    } else {
        Err(format!(
            "{what}: the library has {ours:?}, the oracle {theirs:?}"
        ))
    }
}
