//! Document 01's trace program.

use crate::bench::{Bench, Step};
use crate::benchfile::BenchFile;
use crate::row::Row;
use std::fmt::Write;

pub const RECORD_LENGTH: usize = 65_536;

/// The lines printed for a file.
pub fn trace(file: &[u8]) -> String {
    watched(file, &mut |_| {})
}

/// The same, with each call shown to an onlooker.
pub fn watched(file: &[u8], watch: &mut dyn FnMut(Step)) -> String {
    match start(file) {
        Ok((bench, script)) => rows(bench, &script, watch),
        Err(number) => format!("0 0 {number} 0 0\n"),
    }
}

/// A fresh bench for a file, and the rows of its script; or the number with which the whole file is refused.
pub fn start(file: &[u8]) -> Result<(Bench, Vec<Row>), u8> {
    let file = BenchFile::parse(file).ok_or(11)?;
    let bench = Bench::fresh(RECORD_LENGTH, file.bit_cycles, &file.fill, file.rom.into())?;
    Ok((bench, file.rows))
}

fn rows(mut bench: Bench, script: &[Row], watch: &mut dyn FnMut(Step)) -> String {
    let mut lines = String::new();
    for (index, row) in script.iter().enumerate() {
        let answer = bench.row(*row, watch);
        writeln!(lines, "{} {} {} {} {}", index + 1, row.kind(), answer.number, answer.a, answer.b)
            .expect("a string takes every line");
        if answer.number != 0 {
            break;
        }
    }
    lines
}
