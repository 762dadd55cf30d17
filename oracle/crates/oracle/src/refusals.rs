//! Document 01's table of refusals. 0 stands for an accepted call; a smaller number goes first.

use crate::image::{ENTRY_SIZE, Machine};
use crate::lent::{Banks, Lent, MOST_ROM};
use crate::ranges::{MOST_BIT_CYCLES, entry_in_ranges, image_in_ranges};
use crate::record;

/// The number so far, or the next one if its test refuses.
fn then(number: u8, next: u8, refused: impl FnOnce() -> bool) -> u8 {
    if number == 0 && refused() { next } else { number }
}

/// Number 1 comes from document 02's request 2.
pub fn fresh(banks: &Banks, record_length: u64, bit_cycles: u64) -> u8 {
    let number = then(0, 1, || !banks.sound());
    let number = then(number, 2, || !length_has_form(record_length));
    then(number, 10, || !(1..=MOST_BIT_CYCLES.into()).contains(&bit_cycles))
}

/// What every operation tests first.
pub fn operation(machine: &Machine, lent: &Lent) -> u8 {
    let number = banks_and_record(machine, lent.banks, lent.record);
    let number = then(number, 3, || lent.rom.len() > MOST_ROM);
    then(number, 4, || !machine_sound(machine, lent.record))
}

pub fn cycle(machine: &Machine, lent: &Lent, event: u8) -> u8 {
    let number = then(operation(machine, lent), 5, || event > 4);
    then(number, 7, || machine.image.clock == u64::MAX)
}

/// pad and plug.
pub fn controller(machine: &Machine, lent: &Lent, port: u8) -> u8 {
    then(operation(machine, lent), 6, || port > 1)
}

pub fn answer(machine: &Machine, lent: &Lent, addr: u16) -> u8 {
    then(operation(machine, lent), 6, || !(0x2134..=0x2143).contains(&addr))
}

pub fn back(machine: &Machine, banks: &Banks, record: &[u8]) -> u8 {
    let number = banks_and_record(machine, banks, record);
    let number = then(number, 4, || !machine_sound(machine, record));
    let number = then(number, 8, || machine.kept == 0);
    then(number, 9, || !entry_in_ranges(&record::newest(machine, record)))
}

pub fn page_look(banks: &Banks, page: u64) -> u8 {
    then(then(0, 1, || !banks.sound()), 12, || page > 511)
}

fn banks_and_record(machine: &Machine, banks: &Banks, record: &[u8]) -> u8 {
    let length = record.len() as u64;
    let number = then(0, 1, || !banks.sound());
    then(number, 2, || !length_has_form(length) || length != machine.record_length)
}

fn length_has_form(length: u64) -> bool {
    length != 0 && length.is_multiple_of(ENTRY_SIZE as u64)
}

fn machine_sound(machine: &Machine, record: &[u8]) -> bool {
    let capacity = record::capacity(record);
    image_in_ranges(&machine.image) && machine.next_slot < capacity && machine.kept <= capacity
}
