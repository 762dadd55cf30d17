//! Document 01's calls. A refused one alters nothing and answers its number, false flags and zeros.

use crate::convert::{load, power_on, store};
use crate::image::Machine;
use crate::lent::{Banks, Lent};
use crate::{record, refusals};
use common::snes_address::SnesAddress;
use rsnes::logged::{Access, MOST_ACCESSES};
use rsnes::rsnes::{Event, RSnesCore};

#[derive(Clone, Copy, Debug, Default, PartialEq, Eq)]
pub struct Cycle {
    pub number: u8,
    pub held: bool,
    pub nmi: bool,
    pub count: usize,
    /// In order; places from `count` on are zero.
    pub accesses: [Access; MOST_ACCESSES],
    /// The work RAM place that each access reached.
    pub places: [Option<u32>; MOST_ACCESSES],
}

/// A write answers byte 0.
#[derive(Clone, Copy, Debug, Default, PartialEq, Eq)]
pub struct Moved {
    pub number: u8,
    pub byte: u8,
    pub cost: u32,
    /// The work RAM place that was reached.
    pub place: Option<u32>,
}

/// The only call that adds up all of work RAM.
pub fn fresh(banks: &Banks, record_length: u64, bit_cycles: u64) -> (u8, Machine) {
    let number = refusals::fresh(banks, record_length, bit_cycles);
    let (record_length, bit_cycles, sum) =
        if number == 0 { (record_length, bit_cycles as u16, banks.sum()) } else { (0, 1, 0) };
    (number, Machine { image: power_on(bit_cycles), next_slot: 0, kept: 0, record_length, sum })
}

pub fn cycle(machine: &mut Machine, lent: &mut Lent, event: u8, line_due: bool, timer_hit: bool) -> Cycle {
    const EVENTS: [Event; 5] =
        [Event::None, Event::HBlankStart, Event::NormalLine, Event::VBlankStart, Event::FrameStart];
    let number = refusals::cycle(machine, lent, event);
    if number != 0 {
        return Cycle { number, ..Cycle::default() };
    }
    operate(machine, lent, |core| {
        let (held, nmi) = core.update(EVENTS[usize::from(event)], line_due, timer_hit);
        let log = &core.bus.log;
        Cycle { number, held, nmi, count: log.count, accesses: log.accesses, places: log.places }
    })
}

pub fn read(machine: &mut Machine, lent: &mut Lent, bank: u8, addr: u16) -> Moved {
    let number = refusals::operation(machine, lent);
    if number != 0 {
        return Moved { number, ..Moved::default() };
    }
    operate(machine, lent, |core| {
        let (byte, speed) = core.bus.read(SnesAddress { bank, addr }, &mut core.ppu, &mut core.apu);
        Moved { number, byte, cost: speed.cycles(), place: core.bus.log.places[0] }
    })
}

pub fn write(machine: &mut Machine, lent: &mut Lent, bank: u8, addr: u16, byte: u8) -> Moved {
    let number = refusals::operation(machine, lent);
    if number != 0 {
        return Moved { number, ..Moved::default() };
    }
    operate(machine, lent, |core| {
        let speed = core.bus.write(SnesAddress { bank, addr }, byte, &mut core.ppu, &mut core.apu);
        Moved { number, byte: 0, cost: speed.cycles(), place: core.bus.log.places[0] }
    })
}

pub fn pad(machine: &mut Machine, lent: &mut Lent, port: u8, word: u16) -> u8 {
    let number = refusals::controller(machine, lent, port);
    if number == 0 {
        operate(machine, lent, |core| core.joypads[usize::from(port)] = word & 0xFFF0);
    }
    number
}

pub fn plug(machine: &mut Machine, lent: &mut Lent, port: u8, connected: bool) -> u8 {
    let number = refusals::controller(machine, lent, port);
    if number == 0 {
        operate(machine, lent, |core| core.bus.io.controllers[usize::from(port)].connected = connected);
    }
    number
}

pub fn answer(machine: &mut Machine, lent: &mut Lent, addr: u16, byte: u8) -> u8 {
    let number = refusals::answer(machine, lent, addr);
    if number == 0 {
        operate(machine, lent, |core| match addr {
            0x2134..=0x213F => core.ppu.answers[usize::from(addr - 0x2134)] = byte,
            _ => core.apu.memory.answers[usize::from(addr - 0x2140)] = byte,
        });
    }
    number
}

/// Strikes the newest operation.
pub fn back(machine: &mut Machine, banks: &mut Banks, record: &[u8]) -> u8 {
    let number = refusals::back(machine, banks, record);
    if number == 0 {
        let entry = record::newest(machine, record);
        for old in entry.old[..entry.count.into()].iter().rev() {
            let struck = std::mem::replace(&mut banks.bytes_mut()[old.place.0 as usize], old.byte);
            machine.sum = machine.sum.wrapping_add(old.byte.into()).wrapping_sub(struck.into());
        }
        machine.image = entry.image;
        machine.next_slot = record::newest_slot(machine, record);
        machine.kept -= 1;
    }
    number
}

pub fn page_look_number(banks: &Banks, page: u64) -> u8 {
    refusals::page_look(banks, page)
}

pub fn page_look(banks: &Banks, page: u64) -> &[u8] {
    if page_look_number(banks, page) != 0 { &[] } else { &banks.bytes()[page as usize * 256..][..256] }
}

/// Runs an accepted operation on the published core, and writes its entry.
fn operate<T>(machine: &mut Machine, lent: &mut Lent, action: impl FnOnce(&mut RSnesCore) -> T) -> T {
    let before = machine.image;
    let mut core = load(&before, lent);
    let result = action(&mut core);
    machine.image = store(&core, before.bit_cycles);
    machine.sum = machine.sum.wrapping_add(core.bus.log.risen);
    record::push(machine, lent.record, &record::entry(&before, &core.bus.log));
    lent.banks.give_back(core.bus.into_bus().wram);
    result
}
