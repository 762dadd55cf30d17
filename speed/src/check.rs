//! Both players over a file, call by call: answers and machine after each call, banks and record after each row. Before
//! that, fresh on both sides of its limits.

use crate::files::{File, Row};
use crate::players::{Plain, Player, Proved, checked, same_lent};
use cloverwain::{BANK_SIZE, raw};

/// Counts that are printed beside the verdict.
#[derive(Default)]
pub struct Counts {
    pub calls: u64,
    pub held: u64,
    pub accesses: u64,
}

/// Both lengths right, either one wrong, and two wrong ones that add up to the right whole.
const BANKS: [[usize; 2]; 9] = [
    [BANK_SIZE, BANK_SIZE],
    [0, BANK_SIZE],
    [BANK_SIZE - 1, BANK_SIZE],
    [BANK_SIZE + 1, BANK_SIZE],
    [BANK_SIZE, 0],
    [BANK_SIZE, BANK_SIZE - 1],
    [BANK_SIZE, BANK_SIZE + 1],
    [BANK_SIZE - 1, BANK_SIZE + 1],
    [0, 2 * BANK_SIZE],
];

/// Answers how many calls were the same.
pub fn fresh() -> Result<u64, String> {
    let bytes: Vec<u8> = (0..=2 * BANK_SIZE).map(|place| (place % 251) as u8).collect();
    let mut calls = 0;
    for lengths in BANKS {
        // The second starts one byte later, so that two whole banks have two sums.
        let (low, high) = (&bytes[..lengths[0]], &bytes[1..][..lengths[1]]);
        for record_length in [0, 255, 256, 512] {
            for bit_cycles in [0, 1, 4096, 4097] {
                same_fresh(low, high, record_length, bit_cycles).map_err(|what| {
                    format!("fresh with banks of {lengths:?}, {record_length}, {bit_cycles}: {what} differ")
                })?;
                calls += 1;
            }
        }
    }
    Ok(calls)
}

fn same_fresh(low: &[u8], high: &[u8], record_length: usize, bit_cycles: u16) -> Result<(), &'static str> {
    let mut machine = [0; raw::MACHINE_SIZE];
    let number = raw::fresh(&mut machine, low, high, record_length, bit_cycles);
    let ours = plain::Machine::fresh(low, high, record_length, bit_cycles).map(|machine| machine.bytes());
    same("machines", ours, checked(number, machine))
}

pub fn check(file: &File, passes: usize) -> Result<Counts, String> {
    let number = raw::file_check(&file.bytes());
    if number != 0 {
        return Err(format!("{}: file check gives {number}", file.name));
    }
    let (mut plain, mut proved) = (Plain::fresh(file), Proved::fresh(file));
    let mut counts = Counts::default();
    for pass in 0..passes {
        for (index, row) in file.rows.iter().enumerate() {
            let at = |what| format!("{}, pass {pass}, row {index} {row:?}: {what} differ", file.name);
            same_row(&mut plain, &mut proved, *row, &mut counts).map_err(at)?;
            same_lent(&plain, &proved).map_err(at)?;
        }
    }
    Ok(counts)
}

fn same_row(plain: &mut Plain, proved: &mut Proved, row: Row, counts: &mut Counts) -> Result<(), &'static str> {
    match row {
        Row::Cycles { count, event, line_due } => {
            same_cycle(plain, proved, event, line_due, counts)?;
            (1..count).try_for_each(|_| same_cycle(plain, proved, 0, false, counts))
        }
        Row::Write { addr, byte } => {
            counts.calls += 1;
            same("costs", plain.write(addr, byte), proved.write(addr, byte))
        }
        Row::Answer { addr, byte } => {
            counts.calls += 1;
            same("answers", plain.answer(addr, byte), proved.answer(addr, byte))
        }
    }
}

fn same_cycle(
    plain: &mut Plain,
    proved: &mut Proved,
    event: u8,
    line_due: bool,
    counts: &mut Counts,
) -> Result<(), &'static str> {
    let ours = plain.answered(event, line_due);
    same("answers", ours, proved.answered(event, line_due))?;
    let answer = ours.map_err(|_| "refusals: the script has none, so answers")?;
    counts.calls += 1;
    counts.held += u64::from(answer[0]);
    counts.accesses += u64::from(answer[2]);
    same("machines", plain.machine(), proved.machine())
}

fn same<T: PartialEq>(what: &'static str, ours: T, theirs: T) -> Result<(), &'static str> {
    if ours == theirs { Ok(()) } else { Err(what) }
}
