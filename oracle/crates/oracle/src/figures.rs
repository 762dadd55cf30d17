//! The lines of the program figures: what each channel moved in some files, and how long DMA held them (document 02's request 4).

mod folder;
mod tally;

pub use folder::{Summary, summary};
pub use tally::{Count, Figures, count, names};

use crate::moves::refusal;
use std::io::Write;

const MOST_FILES: usize = 256;

/// How many of the files named are counted, and the message if that is not all of them.
pub fn counted(files: usize) -> (usize, Option<String>) {
    let message = || format!("figures: file {}: {}", MOST_FILES + 1, refusal(14));
    (files.min(MOST_FILES), (files > MOST_FILES).then(message))
}

/// The lines printed for files, each given as its name and its bytes. A name may be any bytes.
pub fn figures(files: &[(&[u8], Vec<u8>)]) -> Vec<u8> {
    let counts: Vec<Count> = files.iter().map(|(_, file)| count(file)).collect();
    let mut lines = vec![];
    for (number, ((name, _), count)) in (1..).zip(files.iter().zip(&counts)) {
        write!(lines, "file {number} {} {} ", count.number, count.row).expect("a vector takes every line");
        lines.extend([name, &b"\n"[..]].concat());
    }
    for (figure, name) in names().iter().enumerate() {
        let all: Vec<u128> = counts.iter().map(|count| count.all[figure]).collect();
        let survivors: Vec<u128> = counts.iter().map(|count| count.survivors[figure]).collect();
        for (column, values) in [("all", all), ("survivors", survivors)] {
            writeln!(lines, "{name} {column} {}", summary(&values)).expect("a vector takes every line");
        }
    }
    lines
}
