//! Demand 3 on the oracle: after random runs with back steps, the state is that of the survivors alone.
//! Each back step is also held against the state before its operation, found without a look at the record, and after
//! each call the machine's sum against the sum over the banks.

use crate::bench::{Bench, RowAnswer};
use crate::benchfile::BenchFile;
use crate::generator::{self, KINDS};
use crate::image::{ENTRY_SIZE, Image, Machine};
use crate::random::Random;
use crate::row::Row;
use std::fmt;

/// A run is cut here, so that long transfers do not crowd out the rest.
const MOST_CALLS: usize = 4_000;
const PAGE: usize = 256;

#[derive(Default)]
pub struct Counts {
    pub runs: u64,
    pub operations: u64,
    pub back_steps: u64,
    pub refused: u64,
    pub rounds: u64,
    pub replayed: u64,
    /// Runs whose machine had a false sum from the start.
    pub false_sums: u64,
    /// Calls that changed the sum, and those of them that took it past an end of its range.
    pub sums_changed: u64,
    pub sums_wrapped: u64,
}

impl fmt::Display for Counts {
    fn fmt(&self, out: &mut fmt::Formatter) -> fmt::Result {
        write!(
            out,
            "{} runs, {} accepted operations, {} back steps, {} refused calls, {} times round a record, {} replayed, \
             {} runs with a false sum, {} sums changed, {} of them past an end: all equal",
            self.runs,
            self.operations,
            self.back_steps,
            self.refused,
            self.rounds,
            self.replayed,
            self.false_sums,
            self.sums_changed,
            self.sums_wrapped
        )
    }
}

/// Runs until `count` operations were accepted; the text says what differed.
pub fn selfcheck(seed: u64, count: u64) -> Result<Counts, String> {
    let mut counts = Counts::default();
    while counts.operations < count {
        let randoms = [seed, !seed].map(|seed| Random::new(seed, counts.runs));
        run(randoms, &mut counts).map_err(|what| format!("seed {seed}, run {}: {what}", counts.runs))?;
        counts.runs += 1;
    }
    Ok(counts)
}

/// A run and its model: the survivors, the banks as they ought to be, and how many entries are kept.
struct Run {
    file: BenchFile,
    random: Random,
    bench: Bench,
    survivors: Vec<Survivor>,
    banks: Vec<u8>,
    kept: u64,
    capacity: u64,
    /// What the machine's sum has over the true one, modulo 2^32.
    over: u32,
}

/// A call not struck, with the state before it.
struct Survivor {
    call: Row,
    answer: RowAnswer,
    before: Image,
    /// Places whose byte changed, and the byte before.
    changed: Vec<(usize, u8)>,
}

/// The second stream of numbers is for the sum.
fn run([mut random, mut sums]: [Random; 2], counts: &mut Counts) -> Result<(), String> {
    let kind = &KINDS[random.between(0, KINDS.len() as u64 - 1) as usize];
    let mut file = generator::sound(kind, Random::new(random.word(), 0));
    file.bit_cycles = file.bit_cycles.clamp(1, 4096);
    let capacity = random.pick(&[1, 2, 3, 7, 20, 64]);
    let mut bench = bench(&file, capacity);
    let banks = bench.banks.bytes().to_vec();
    same("sum after fresh", &bench.machine.sum, &whole_sum(&banks))?;
    let over = over(&mut sums, bench.machine.sum);
    bench.machine.sum = bench.machine.sum.wrapping_add(over);
    counts.false_sums += u64::from(over != 0);
    let mut run = Run { bench, file, random, survivors: vec![], banks, kept: 0, capacity, over };
    for call in single_calls(&run.file.rows) {
        run.call(call, counts)?;
        run.disturb(counts)?;
    }
    run.replay(counts)?;
    while run.kept > 0 {
        run.call(Row::Back { count: 1 }, counts)?;
    }
    run.replay(counts)
}

/// Nothing for half of the runs. The others get a false sum: off by one, any, or one that starts at 0 and so soon wraps.
fn over(random: &mut Random, sum: u32) -> u32 {
    let any = random.word() as u32;
    if random.once_in(2) { 0 } else { random.pick(&[1, u32::MAX, any, sum.wrapping_neg(), sum.wrapping_neg()]) }
}

/// No number on the way wraps: a page's sum is under 2^16, that of all pages under 2^32.
fn whole_sum(banks: &[u8]) -> u32 {
    let page = |page: &[u8]| page.iter().fold(0, |sum: u16, byte| sum.wrapping_add(u16::from(*byte)));
    banks.chunks(PAGE).map(|bytes| u32::from(page(bytes))).sum()
}

fn bench(file: &BenchFile, capacity: u64) -> Bench {
    Bench::fresh(capacity as usize * ENTRY_SIZE, file.bit_cycles, &file.fill, file.rom.clone().into())
        .expect("bit cycles and length are in range")
}

/// The rows call by call, up to the most.
fn single_calls(rows: &[Row]) -> Vec<Row> {
    let mut calls = vec![];
    for row in rows {
        let (count, rest) = match *row {
            Row::Cycles { count, .. } => (count, Row::Cycles { count: 1, event: 0, flags: 0 }),
            Row::Back { count } => (count.min(70), *row),
            _ => (1, *row),
        };
        calls.push(*row);
        calls.extend((1..count).map(|_| rest));
    }
    calls.truncate(MOST_CALLS);
    calls
}

impl Run {
    /// Now and then some back steps (more often when work RAM was written), or a call that must be refused.
    fn disturb(&mut self, counts: &mut Counts) -> Result<(), String> {
        let wrote = self.survivors.last().is_some_and(|last| !last.changed.is_empty());
        if self.random.once_in(if wrote { 4 } else { 60 }) {
            let most = if wrote { 3 } else { 2 * self.capacity };
            for _ in 0..self.random.between(1, most) {
                self.call(Row::Back { count: 1 }, counts)?;
            }
        }
        if self.random.once_in(200) {
            let call = self.random.pick(&[
                Row::Cycles { count: 1, event: 5, flags: 3 },
                Row::Pad { port: 2, word: 0xFFFF },
                Row::Plug { port: 0xFF, value: 0 },
                Row::Answer { addr: 0x2133, byte: 1 },
                Row::Answer { addr: 0x2144, byte: 1 },
            ]);
            self.call(call, counts)?;
        }
        Ok(())
    }

    fn call(&mut self, call: Row, counts: &mut Counts) -> Result<(), String> {
        let (before, record) = (self.bench.machine, self.bench.record.clone());
        let expected = expected_number(&call, self.kept);
        let answer = self.bench.call(call, &mut |_| {});
        same("refusal", &answer.number, &expected)?;
        let written = expected == 0 && !matches!(call, Row::Back { .. });
        match expected {
            0 if written => self.operated(call, answer, &before, counts),
            0 => self.stepped_back(counts)?,
            _ => {
                counts.refused += 1;
                same("machine after a refusal", &self.bench.machine, &before)?;
            }
        }
        self.check_banks()?;
        self.check_sum(before.sum, counts)?;
        self.check_record(&before, &record, written)?;
        same("kept", &self.bench.machine.kept, &self.kept)
    }

    fn stepped_back(&mut self, counts: &mut Counts) -> Result<(), String> {
        counts.back_steps += 1;
        self.kept -= 1;
        let struck = self.survivors.pop().ok_or("a back step with nothing to strike")?;
        struck.changed.iter().for_each(|(place, byte)| self.banks[*place] = *byte);
        same("image after a back step", &self.bench.machine.image, &struck.before)
    }

    fn operated(&mut self, call: Row, answer: RowAnswer, before: &Machine, counts: &mut Counts) {
        counts.operations += 1;
        counts.rounds += u64::from(before.next_slot + 1 == self.capacity);
        self.kept = self.capacity.min(self.kept + 1);
        let changed = take_changes(&mut self.banks, self.bench.banks.bytes());
        self.survivors.push(Survivor { call, answer, before: before.image, changed });
    }

    fn check_banks(&self) -> Result<(), String> {
        if self.banks == self.bench.banks.bytes() { Ok(()) } else { Err("a work RAM byte differs".into()) }
    }

    /// The machine's sum is as far from the true one as it was at the start.
    fn check_sum(&self, before: u32, counts: &mut Counts) -> Result<(), String> {
        let sum = self.bench.machine.sum;
        counts.sums_changed += u64::from(sum != before);
        counts.sums_wrapped += u64::from((sum.wrapping_sub(before) as i32 > 0) != (sum > before));
        same("sum", &sum, &whole_sum(&self.banks).wrapping_add(self.over))
    }

    /// Only the slot of an accepted operation changed, and it holds the image before.
    fn check_record(&self, before: &Machine, old: &[u8], written: bool) -> Result<(), String> {
        let new = &self.bench.record;
        let start = before.next_slot as usize * ENTRY_SIZE;
        let end = if written { start + ENTRY_SIZE } else { start };
        same("record before the slot", &new[..start], &old[..start])?;
        same("record after the slot", &new[end..], &old[end..])?;
        if written {
            let entry = crate::layout::Field::take(&new[start..end]);
            same("image in the entry", &entry, &before.image)?;
        }
        Ok(())
    }

    /// The survivors alone, from fresh, give the same answers and the same state.
    fn replay(&self, counts: &mut Counts) -> Result<(), String> {
        let mut alone = bench(&self.file, self.capacity);
        for survivor in &self.survivors {
            same("answer in the replay", &alone.call(survivor.call, &mut |_| {}), &survivor.answer)?;
        }
        counts.replayed += self.survivors.len() as u64;
        same("image", &self.bench.machine.image, &alone.machine.image)?;
        same("sum of the survivors", &self.bench.machine.sum, &alone.machine.sum.wrapping_add(self.over))?;
        if self.bench.banks.bytes() != alone.banks.bytes() {
            return Err("the banks differ from those of the survivors".into());
        }
        Ok(())
    }
}

/// Brings the model's banks up to date, page by page; gives the places changed with their old bytes.
fn take_changes(old: &mut [u8], new: &[u8]) -> Vec<(usize, u8)> {
    let mut changed = vec![];
    for (page, (old, new)) in old.chunks_exact_mut(PAGE).zip(new.chunks_exact(PAGE)).enumerate() {
        if old != new {
            let places = (0..PAGE).filter(|place| old[*place] != new[*place]);
            changed.extend(places.map(|place| (page * PAGE + place, old[place])));
            old.copy_from_slice(new);
        }
    }
    changed
}

/// The number a call of a script gives, as document 01 has it.
fn expected_number(call: &Row, kept: u64) -> u8 {
    match *call {
        Row::Cycles { event: 5.., .. } => 5,
        Row::Pad { port: 2.., .. } | Row::Plug { port: 2.., .. } => 6,
        Row::Answer { addr, .. } if !(0x2134..=0x2143).contains(&addr) => 6,
        Row::Back { .. } if kept == 0 => 8,
        _ => 0,
    }
}

pub(crate) fn same<T: PartialEq + fmt::Debug + ?Sized>(what: &str, got: &T, expected: &T) -> Result<(), String> {
    if got == expected { Ok(()) } else { Err(format!("{what} differs: {got:?} in place of {expected:?}")) }
}
