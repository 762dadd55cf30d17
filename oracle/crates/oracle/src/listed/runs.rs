//! Calls as random runs make them: the machine is one that a run reached, and the call the one it made there.

use super::lot::Lot;
use super::{BACK, Call};
use crate::bench::Step;
use crate::benchfile::BenchFile;
use crate::generator;
use crate::row::Row;
use crate::trace::watched;

/// How many calls of one run are taken.
const OF_A_RUN: usize = 4;

/// Some calls of file `index` of a seed, drawn evenly over its calls.
pub fn calls(lot: &mut Lot, seed: u64, index: u64) -> Vec<Call> {
    let file = generator::file(seed, index);
    let Some(BenchFile { fill, .. }) = BenchFile::parse(&file) else { return vec![] };
    let mut taken: Vec<Call> = vec![];
    let mut met = 0;
    watched(&file, &mut |step| {
        met += 1;
        let place = lot.random.between(0, met - 1) as usize;
        if taken.len() < OF_A_RUN {
            taken.push(call(lot, &step, &fill));
        } else if place < OF_A_RUN {
            taken[place] = call(lot, &step, &fill);
        }
    });
    taken
}

/// The banks are the start of the run's fill, with the bytes that the call read from work RAM where the run had them.
fn call(lot: &mut Lot, step: &Step, fill: &[u8]) -> Call {
    let mut listed = lot.around(step.before.image);
    let length = fill.len().min(listed.fill.len());
    listed.fill[..length].copy_from_slice(&fill[..length]);
    listed.fill_length = length as u8;
    listed.patch(&[(0, listed.fill[0])]);
    listed.patch(&seen(step));
    if !matches!(step.call, Row::Back { .. }) {
        return listed.call(step.call);
    }
    let capacity = listed.machine.record_length / 256;
    listed.machine.kept = listed.machine.kept.max(u64::from(step.number == 0));
    (listed.kind, listed.first) = (BACK, ((listed.machine.next_slot + capacity - 1) % capacity) as u8);
    let entry = step.entry.try_into().unwrap_or([super::UNWRITTEN; 256]);
    Call { listed, entry: Some(entry) }
}

/// Work RAM bytes that the accesses read.
fn seen(step: &Step) -> Vec<(u32, u8)> {
    let reads = step.cycle.accesses[..step.cycle.count].iter().filter(|access| !access.write);
    let places = reads.filter_map(|access| match (access.bank, access.addr) {
        (0x7E, addr) => Some((addr.into(), access.byte)),
        (0x7F, addr) => Some((0x10000 + u32::from(addr), access.byte)),
        (bank, addr @ 0..=0x1FFF) if bank & 0x40 == 0 => Some((addr.into(), access.byte)),
        _ => None,
    });
    places.collect()
}
