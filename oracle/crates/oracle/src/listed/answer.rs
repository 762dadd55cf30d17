//! A listed call carried out on the published Rust, and its answer as a line of text.

use super::{Call, FRESH, Listed, MOST_RECORD, PAGE, UNWRITTEN};
use crate::bench::{Bench, Step};
use crate::calls::{self, Cycle};
use crate::image::{ENTRY_SIZE, Machine};
use crate::layout::Field;
use crate::lent::{BANK_SIZE, Banks};
use crate::row::Row;
use std::collections::BTreeMap;
use std::fmt::Write;
use std::rc::Rc;

/// The answers to a list, a line each.
pub fn answers(list: &[u8]) -> Result<String, String> {
    let mut desk = Desk::default();
    Ok(Call::list(list)?.iter().map(|call| desk.answer(call, &mut |_| {}).1).collect())
}

/// Banks and ROMs that are used again from call to call.
pub struct Desk {
    lent: Banks,
    banks: Option<Banks>,
    roms: BTreeMap<u32, Rc<[u8]>>,
}

/// What a call answers beside the machine.
#[derive(Default)]
struct Answer {
    number: u8,
    byte: u8,
    cost: u32,
    cycle: Cycle,
    page: Vec<u8>,
}

impl Default for Desk {
    fn default() -> Self {
        Self { lent: Banks::filled(&[0]), banks: Some(Banks::filled(&[0])), roms: BTreeMap::new() }
    }
}

impl Desk {
    /// The number and the line; an onlooker sees the call unless it is fresh or a page look.
    pub fn answer(&mut self, call: &Call, watch: &mut dyn FnMut(Step)) -> (u8, String) {
        let listed = &call.listed;
        let mut bench = self.bench(call);
        let record = bench.record.clone();
        let not_lent = bench.record.split_off(MOST_RECORD.min(listed.lent_record as usize));
        let answer = carry_out(listed, &mut bench, watch);
        bench.record.extend(not_lent);
        let line = self.line(listed, &answer, &bench, &record);
        self.banks = Some(bench.banks);
        (answer.number, line)
    }

    fn bench(&mut self, call: &Call) -> Bench {
        let listed = &call.listed;
        lay(&mut self.lent, listed);
        let mut banks = self.banks.take().expect("banks are back after each call");
        lay(&mut banks, listed);
        banks.lengths = [listed.lent_low as usize, listed.lent_high as usize];
        let mut record = vec![UNWRITTEN; MOST_RECORD];
        if let Some(entry) = &call.entry {
            record[usize::from(listed.first) * ENTRY_SIZE..][..ENTRY_SIZE].copy_from_slice(entry);
        }
        let rom = self.roms.entry(listed.lent_rom).or_insert_with(|| rom(listed.lent_rom)).clone();
        Bench { machine: listed.machine, banks, record, rom }
    }

    /// The true sum of the banks as the latest call was lent them.
    pub fn lent_sum(&self) -> u32 {
        self.lent.sum()
    }

    fn line(&self, listed: &Listed, answer: &Answer, bench: &Bench, record: &[u8]) -> String {
        let (held, edge) = (u8::from(answer.cycle.held), u8::from(answer.cycle.nmi));
        let mut line = format!(
            "{:02X} {:02X} {held:02X} {edge:02X} {:02X} {:02X}",
            listed.kind, answer.number, answer.byte, answer.cost
        );
        let before = machine_bytes(listed.machine);
        changes(&mut line, 'm', &before, &machine_bytes(bench.machine), 3);
        let halves = self.lent.bytes().chunks(BANK_SIZE).zip(bench.banks.bytes().chunks(BANK_SIZE));
        halves.zip(['l', 'h']).for_each(|((before, after), name)| changes(&mut line, name, before, after, 6));
        let slots = record.chunks(ENTRY_SIZE).zip(bench.record.chunks(ENTRY_SIZE)).enumerate();
        for (slot, (_, after)) in slots.filter(|(_, (before, after))| before != after) {
            add(&mut line, format_args!(" e{slot:02X}"));
            changes(&mut line, 'o', &before[..ENTRY_SIZE], after, 2);
        }
        for access in &answer.cycle.accesses[..answer.cycle.count] {
            let way = if access.write { 'w' } else { 'r' };
            add(&mut line, format_args!(" {way}{:02X}{:04X}={:02X}", access.bank, access.addr, access.byte));
        }
        if !answer.page.is_empty() {
            line += " p";
            answer.page.iter().for_each(|byte| add(&mut line, format_args!("{byte:02X}")));
        }
        line + "\n"
    }
}

fn carry_out(listed: &Listed, bench: &mut Bench, watch: &mut dyn FnMut(Step)) -> Answer {
    match (listed.kind, listed.row()) {
        (FRESH, _) => {
            let (number, machine) = calls::fresh(&bench.banks, listed.lent_record.into(), listed.word.into());
            bench.machine = machine;
            Answer { number, ..Answer::default() }
        }
        (PAGE, _) => {
            let number = calls::page_look_number(&bench.banks, listed.word.into());
            let page = calls::page_look(&bench.banks, listed.word.into()).to_vec();
            Answer { number, page, ..Answer::default() }
        }
        (_, Some(row)) => operation(bench, row, watch),
        (kind, None) => unreachable!("no call has the kind {kind}"),
    }
}

/// An operation or a back step. Of a cycle the onlooker's answer counts, not the row's A and B.
fn operation(bench: &mut Bench, row: Row, watch: &mut dyn FnMut(Step)) -> Answer {
    let mut cycle = Cycle::default();
    let answer = bench.call(row, &mut |step| {
        cycle = *step.cycle;
        watch(step);
    });
    let (byte, cost) = if matches!(row, Row::Cycles { .. }) { (0, 0) } else { (answer.a as u8, answer.b as u32) };
    Answer { number: answer.number, byte, cost, cycle, page: vec![] }
}

/// The fill over both banks, and the patches on it.
pub fn lay(banks: &mut Banks, listed: &Listed) {
    banks.fill(&listed.fill[..listed.fill_length.into()]);
    listed.patches.iter().for_each(|patch| banks.bytes_mut()[patch.place.0 as usize] = patch.byte);
}

/// Every listed ROM is a start of one row of bytes.
pub fn rom(length: u32) -> Rc<[u8]> {
    (0..length).map(|at| (at % 251) as u8).collect()
}

/// The first 256 are those of an entry without old bytes.
fn machine_bytes(machine: Machine) -> [u8; Machine::SIZE] {
    let mut bytes = [0; Machine::SIZE];
    machine.put(&mut bytes);
    bytes
}

/// Places, in hex digits, and the new bytes where two rows differ.
fn changes(line: &mut String, name: char, before: &[u8], after: &[u8], digits: usize) {
    for (at, byte) in (0..after.len()).filter(|at| before[*at] != after[*at]).map(|at| (at, after[at])) {
        add(line, format_args!(" {name}{at:0digits$X}={byte:02X}"));
    }
}

fn add(line: &mut String, text: std::fmt::Arguments) {
    line.write_fmt(text).expect("a string takes every text");
}
