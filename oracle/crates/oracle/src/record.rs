//! The ring of entries in the lent record.

use crate::image::{ENTRY_SIZE, Entry, Image, Machine, Old, Place};
use crate::layout::Field;
use rsnes::logged::Log;

/// Writes the entry of an accepted operation at the next slot, and steps slot and kept.
pub fn push(machine: &mut Machine, record: &mut [u8], entry: &Entry) {
    let capacity = capacity(record);
    entry.put(&mut record[machine.next_slot as usize * ENTRY_SIZE..][..ENTRY_SIZE]);
    machine.next_slot = (machine.next_slot + 1) % capacity;
    machine.kept = capacity.min(machine.kept + 1);
}

/// The slot before the next one.
pub fn newest_slot(machine: &Machine, record: &[u8]) -> u64 {
    if machine.next_slot == 0 { capacity(record) - 1 } else { machine.next_slot - 1 }
}

pub fn newest(machine: &Machine, record: &[u8]) -> Entry {
    Entry::take(&record[newest_slot(machine, record) as usize * ENTRY_SIZE..][..ENTRY_SIZE])
}

pub fn capacity(record: &[u8]) -> u64 {
    (record.len() / ENTRY_SIZE) as u64
}

/// The machine before an operation, with the bytes that the operation overwrote.
pub fn entry(before: &Image, log: &Log) -> Entry {
    let old = log.old_bytes.map(|old| Old { place: Place(old.place), byte: old.byte });
    Entry { image: *before, count: log.old_count as u8, old, tail: [0; 17] }
}
