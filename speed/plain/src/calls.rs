//! Document 01's calls. A refused one answers its number and alters nothing.

use crate::bus::{Accesses, BANK_SIZE, Olds, Work, cost, exchanged};
use crate::image::{ENTRY_SIZE, Entry, put_olds, take_olds};
use crate::joypad::ID_MASK;
use crate::machine::{Event, Machine};
use crate::refusals::{MOST_BIT_CYCLES, check_banks};

const MACHINE_SIZE: usize = 284;
/// Where next slot, kept and record length stand in a machine's bytes, and after them the sum.
const NEXT_SLOT: usize = 256;
const SUM: usize = 280;

/// What every operation is lent.
pub struct Lent<'a> {
    pub low: &'a mut [u8],
    pub high: &'a mut [u8],
    pub record: &'a mut [u8],
    pub rom: &'a [u8],
}

#[derive(Clone, Copy, Debug, PartialEq, Eq)]
pub struct Cycle {
    pub held: bool,
    pub nmi: bool,
    pub accesses: Accesses,
}

/// A byte read, or 0 for a write, and the access's cost.
#[derive(Clone, Copy, Debug, PartialEq, Eq)]
pub struct Moved {
    pub byte: u8,
    pub cost: u8,
}

impl Machine {
    /// The banks are only looked at: their bytes are added up once, and every call keeps the sum from then on.
    pub fn fresh(low: &[u8], high: &[u8], record_length: usize, bit_cycles: u16) -> Result<Self, u8> {
        check_banks(low, high)?;
        if record_length == 0 || !record_length.is_multiple_of(ENTRY_SIZE) {
            return Err(2);
        }
        if !matches!(bit_cycles, 1..=MOST_BIT_CYCLES) {
            return Err(10);
        }
        Ok(Self::power_on(record_length, bit_cycles, added_up(low) + added_up(high)))
    }

    pub fn cycle(&mut self, lent: Lent, event: u8, line_due: bool, timer_hit: bool) -> Result<Cycle, u8> {
        self.check(&lent)?;
        let event = Event::from_number(event).ok_or(5)?;
        if self.clock == u64::MAX {
            return Err(7);
        }
        Ok(self.operate(lent, |machine, work| {
            let (held, nmi) = machine.update(work, event, line_due, timer_hit);
            Cycle { held, nmi, accesses: work.accesses }
        }))
    }

    pub fn read(&mut self, lent: Lent, bank: u8, addr: u16) -> Result<Moved, u8> {
        self.check(&lent)?;
        Ok(self.operate(lent, |machine, work| {
            let cost = cost(machine.io.memsel, bank, addr);
            Moved { byte: work.read(&mut machine.io, bank, addr), cost }
        }))
    }

    pub fn write(&mut self, lent: Lent, bank: u8, addr: u16, byte: u8) -> Result<Moved, u8> {
        self.check(&lent)?;
        Ok(self.operate(lent, |machine, work| {
            let cost = cost(machine.io.memsel, bank, addr);
            work.write(&mut machine.io, bank, addr, byte);
            Moved { byte: 0, cost }
        }))
    }

    pub fn pad(&mut self, lent: Lent, port: u8, word: u16) -> Result<(), u8> {
        self.check(&lent)?;
        check_port(port)?;
        self.operate(lent, |machine, _| machine.joypads[usize::from(port)] = word & !ID_MASK);
        Ok(())
    }

    pub fn plug(&mut self, lent: Lent, port: u8, connected: bool) -> Result<(), u8> {
        self.check(&lent)?;
        check_port(port)?;
        self.operate(lent, |machine, _| machine.io.controllers[usize::from(port)].connected = connected);
        Ok(())
    }

    pub fn answer(&mut self, lent: Lent, addr: u16, byte: u8) -> Result<(), u8> {
        self.check(&lent)?;
        match addr {
            0x2134..0x2140 => {
                self.operate(lent, |machine, _| machine.io.ppu_answers[usize::from(addr - 0x2134)] = byte)
            }
            0x2140..0x2144 => {
                self.operate(lent, |machine, _| machine.io.apu_answers[usize::from(addr - 0x2140)] = byte)
            }
            _ => return Err(6),
        }
        Ok(())
    }

    /// The newest operation is taken back.
    pub fn back(&mut self, low: &mut [u8], high: &mut [u8], record: &[u8]) -> Result<(), u8> {
        self.check_banks_and_record(low, high, record)?;
        self.check_machine()?;
        if self.kept == 0 {
            return Err(8);
        }
        let slot = if self.next_slot == 0 { self.record_length / ENTRY_SIZE } else { self.next_slot } - 1;
        let entry = record[slot * ENTRY_SIZE..].first_chunk().expect("the slot is in the record");
        let olds = take_olds(entry).ok_or(9)?;
        let mut machine = self.take_image(entry).ok_or(9)?;
        for old in olds.items[..olds.count].iter().rev() {
            let bank = if old.place < BANK_SIZE as u32 { &mut *low } else { &mut *high };
            let replaced = std::mem::replace(&mut bank[old.place as usize % BANK_SIZE], old.byte);
            machine.sum = exchanged(machine.sum, replaced, old.byte);
        }
        machine.next_slot = slot;
        machine.kept -= 1;
        *self = machine;
        Ok(())
    }

    /// The machine's image, and beside it 34 zeros, next slot, kept and record length, 8 bytes each, and the sum, 4 bytes.
    pub fn bytes(&self) -> [u8; MACHINE_SIZE] {
        let mut bytes = [0; MACHINE_SIZE];
        self.put_image(bytes.first_chunk_mut().expect("an image and more"));
        let (slots, sum) = bytes[NEXT_SLOT..].split_at_mut(SUM - NEXT_SLOT);
        for (part, number) in slots.chunks_exact_mut(8).zip([self.next_slot, self.kept, self.record_length]) {
            part.copy_from_slice(&(number as u64).to_le_bytes());
        }
        sum.copy_from_slice(&self.sum.to_le_bytes());
        bytes
    }

    /// An accepted operation: its entry has the machine before it and the bytes that it overwrote.
    fn operate<T>(&mut self, lent: Lent, action: impl FnOnce(&mut Self, &mut Work) -> T) -> T {
        let entry: &mut Entry =
            lent.record[self.next_slot * ENTRY_SIZE..].first_chunk_mut().expect("the slot is in the record");
        self.put_image(entry);
        let mut work = Work {
            low: lent.low.try_into().expect("a whole bank"),
            high: lent.high.try_into().expect("a whole bank"),
            rom: lent.rom,
            sum: self.sum,
            accesses: Accesses::default(),
            olds: Olds::default(),
        };
        let answer = action(self, &mut work);
        put_olds(&work.olds, entry);
        self.sum = work.sum;
        let capacity = self.record_length / ENTRY_SIZE;
        self.next_slot = if self.next_slot + 1 == capacity { 0 } else { self.next_slot + 1 };
        self.kept = capacity.min(self.kept + 1);
        answer
    }
}

/// At most 255 times 65,536, so two banks stay far below 2^32.
fn added_up(bank: &[u8]) -> u32 {
    bank.iter().map(|byte| u32::from(*byte)).sum()
}

fn check_port(port: u8) -> Result<(), u8> {
    if port > 1 { Err(6) } else { Ok(()) }
}

/// A page of work RAM: 0 to 255 in bank $7E, 256 to 511 in bank $7F.
pub fn page<'a>(low: &'a [u8], high: &'a [u8], page: u16) -> Result<&'a [u8], u8> {
    check_banks(low, high)?;
    let (bank, page) = match page {
        0..256 => (low, page),
        256..512 => (high, page - 256),
        _ => return Err(12),
    };
    Ok(&bank[usize::from(page) * 256..][..256])
}
