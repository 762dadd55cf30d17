//! A bench with short names for tests.
#![allow(dead_code)] // each test file uses its own part

use oracle::bench::{Bench, RowAnswer};
use oracle::calls::{self, Cycle};
use oracle::lent::Lent;
use oracle::row::Row;

pub const RECORD: usize = 4 * 256;

pub fn bench() -> Bench {
    filled(&[0x5A])
}

pub fn filled(fill: &[u8]) -> Bench {
    Bench::fresh(RECORD, 264, fill, vec![].into()).expect("accepted")
}

pub fn lent(bench: &mut Bench) -> Lent<'_> {
    Lent { banks: &mut bench.banks, record: &mut bench.record, rom: &bench.rom }
}

pub fn call(bench: &mut Bench, row: Row) -> RowAnswer {
    bench.call(row, &mut |_| {})
}

pub fn write(bench: &mut Bench, addr: u16, byte: u8) {
    assert_eq!(call(bench, Row::Write { bank: 0, addr, byte }).number, 0);
}

pub fn read(bench: &mut Bench, addr: u16) -> u8 {
    let answer = call(bench, Row::Read { bank: 0, addr });
    assert_eq!(answer.number, 0);
    answer.a as u8
}

pub fn word(bench: &mut Bench, addr: u16) -> u16 {
    u16::from_le_bytes([read(bench, addr), read(bench, addr + 1)])
}

pub fn cycle(bench: &mut Bench, event: u8, line_due: bool) -> Cycle {
    let Bench { machine, banks, record, rom } = bench;
    calls::cycle(machine, &mut Lent { banks, record, rom }, event, line_due, false)
}
