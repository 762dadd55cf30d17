//! Document 01's worked example, and the lines for files that do not run to their end.

use oracle::benchfile::{BenchFile, section_look};
use oracle::row::Row;
use oracle::trace::trace;

const LINES: &str = "1 3 0 0 6
2 3 0 0 6
3 3 0 0 6
4 3 0 0 6
5 3 0 0 6
6 3 0 0 6
7 3 0 0 6
8 1 0 40 33
9 2 0 17 6
10 7 0 41 0
11 2 0 16 6
";

fn file(rows: &[Row]) -> BenchFile {
    BenchFile { bit_cycles: 264, fill: vec![0x5A], rom: vec![], rows: rows.to_vec() }
}

fn cycles(count: u16) -> Row {
    Row::Cycles { count, event: 0, flags: 0 }
}

#[test]
fn worked_example() {
    let registers =
        [(0x4300, 0), (0x4301, 0x18), (0x4302, 0x10), (0x4303, 0), (0x4304, 0x7E), (0x4305, 1), (0x420B, 1)];
    let mut rows: Vec<Row> = registers.map(|(addr, byte)| Row::Write { bank: 0, addr, byte }).to_vec();
    let read = Row::Read { bank: 0, addr: 0x4302 };
    rows.extend([cycles(40), read, Row::Back { count: 41 }, read]);
    assert_eq!(trace(&file(&rows).bytes()), LINES);
}

#[test]
fn stops_after_a_refusal() {
    let rows = [cycles(3), Row::Back { count: 4 }, cycles(1)];
    assert_eq!(trace(&file(&rows).bytes()), "1 1 0 3 0\n2 7 8 3 0\n");
    let rows = [Row::Cycles { count: 2, event: 5, flags: 0 }, cycles(1)];
    assert_eq!(trace(&file(&rows).bytes()), "1 1 5 0 0\n");
}

#[test]
fn refused_whole() {
    assert_eq!(trace(&[]), "0 0 11 0 0\n");
    for (bit_cycles, lines) in [(0, "0 0 10 0 0\n"), (1, ""), (4096, ""), (4097, "0 0 10 0 0\n")] {
        assert_eq!(trace(&BenchFile { bit_cycles, ..file(&[]) }.bytes()), lines);
    }
    let bad_row = BenchFile { bit_cycles: 0, ..file(&[cycles(0)]) };
    assert_eq!(trace(&bad_row.bytes()), "0 0 11 0 0\n");
}

#[test]
fn file_there_and_back() {
    let whole = BenchFile { rom: vec![7; 40], ..file(&[cycles(9), Row::Plug { port: 9, value: 1 }]) };
    let bytes = whole.bytes();
    assert_eq!(BenchFile::parse(&bytes), Some(whole));
    assert_eq!(section_look(&bytes, 0), [8, 1]);
    assert_eq!(section_look(&bytes, 1), [0x5A]);
    assert_eq!(section_look(&bytes, 2), [7; 40]);
    assert_eq!(section_look(&bytes, 3).len(), 16);
}
