//! The lines of the program sums: the sum of all work RAM bytes after each row of a run.

use crate::bench::Bench;
use crate::moves::refusal;
use crate::row::Row;
use crate::trace::start;
use std::fmt::Write;

/// The lines printed for a file, and the message if the file cannot be run or a row of it is refused.
pub fn sums(file: &[u8]) -> (String, Option<String>) {
    match start(file) {
        Ok((bench, script)) => rows(bench, &script),
        Err(number) => (String::new(), Some(format!("sums: standard input: {}", refusal(number)))),
    }
}

fn rows(mut bench: Bench, rows: &[Row]) -> (String, Option<String>) {
    let mut lines = String::new();
    for (number, row) in (1..).zip(rows) {
        let answer = bench.row(*row, &mut |_| {});
        writeln!(lines, "{number} {}", bench.machine.sum).expect("a string takes every line");
        if answer.number != 0 {
            return (lines, Some(format!("sums: row {number}: {}", refusal(answer.number))));
        }
    }
    (lines, None)
}
