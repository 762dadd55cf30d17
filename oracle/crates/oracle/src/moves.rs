//! The lines of the program moves (docs/MOVES.md): every access of a run, who made it, and the byte of work RAM it reached.

use crate::bench::{RowAnswer, Step};
use crate::image::{ENTRY_SIZE, Engine};
use crate::row::Row;
use crate::trace::{RECORD_LENGTH, start};
use rsnes::logged::Access;
use std::fmt::Write;

const CAPACITY: usize = RECORD_LENGTH / ENTRY_SIZE;

/// The lines printed for a file, or the line that says why it cannot be run. With a place, only what touched it.
pub fn moves(file: &[u8], only: Option<u32>) -> Result<String, String> {
    let (mut bench, rows) = start(file).map_err(|number| format!("moves: standard input: {}", refusal(number)))?;
    let mut listing = Listing { text: String::new(), only, row: 0, done: 0, made: [(0, 0); CAPACITY], left: (0, 0) };
    for row in rows {
        (listing.row, listing.done) = (listing.row + 1, 0);
        let answer = bench.row(row, &mut |step| listing.step(&step));
        listing.row_end(row, answer, bench.machine.image.clock);
        if answer.number != 0 {
            break;
        }
    }
    Ok(listing.text)
}

struct Listing {
    text: String,
    only: Option<u32>,
    row: usize,
    /// Calls of the row that were accepted.
    done: u64,
    /// Which row wrote the entry in each slot of the record, and how many calls of that row came before.
    made: [(usize, u64); CAPACITY],
    /// The same of the entry that the latest back step struck.
    left: (usize, u64),
}

impl Listing {
    fn step(&mut self, step: &Step) {
        if step.number != 0 {
            return;
        }
        let next = step.after.next_slot as usize;
        match step.call {
            Row::Back { .. } => self.left = self.made[next],
            _ => self.made[(next + CAPACITY - 1) % CAPACITY] = (self.row, self.done),
        }
        self.done += 1;
        match step.call {
            Row::Cycles { .. } => self.cycle(step),
            Row::Read { bank, addr } => self.cpu(step, Access { write: false, bank, addr, byte: step.moved.byte }),
            Row::Write { bank, addr, byte } => self.cpu(step, Access { write: true, bank, addr, byte }),
            _ => {}
        }
    }

    fn cpu(&mut self, step: &Step, access: Access) {
        self.access(step.before.image.clock, "CPU", access, step.moved.place, "");
    }

    fn cycle(&mut self, step: &Step) {
        let clock = step.before.image.clock;
        for index in 0..step.cycle.count {
            let access = step.cycle.accesses[index];
            let (name, channel) = holder(&step.before.image.dma, &step.after.image.dma);
            let mut marks = String::new();
            if access.write && rewrites(channel, access) {
                marks += "  ! rewrites its own channel";
            }
            if index == 0 && starts_at_zero(step) {
                marks += "  ! byte count 0: 65536 bytes";
            }
            self.access(clock, &format!("{name} {channel}"), access, step.cycle.places[index], &marks);
        }
        if step.cycle.nmi && self.only.is_none() {
            self.line(clock, "NMI     edge");
        }
    }

    fn access(&mut self, clock: u64, who: &str, access: Access, place: Option<u32>, marks: &str) {
        if self.only.is_some() && place != self.only {
            return;
        }
        let Access { write, bank, addr, byte } = access;
        let what = if write { "write" } else { "read " };
        let at =
            place.map_or(String::new(), |place| format!("  at ${:02X}:{:04X}", 0x7E + (place >> 16), place & 0xFFFF));
        self.line(clock, &format!("{who:<6}  {what} ${bank:02X}:{addr:04X} = ${byte:02X}{at}{marks}"));
    }

    /// What is said of a row as a whole.
    fn row_end(&mut self, row: Row, answer: RowAnswer, clock: u64) {
        match row {
            Row::Cycles { count, .. } if answer.number == 0 && self.only.is_none() => {
                self.line(clock, &format!("CPU     held {} of {count} cycles", answer.b));
            }
            Row::Back { count } if answer.a != 0 => {
                let to = match self.left {
                    (row, 0) => format!("before row {row}"),
                    (row, done) => format!("after cycle {done} of row {row}"),
                };
                self.line(clock, &format!("back    {} of {count} steps, to {to}", answer.a));
            }
            _ => {}
        }
        if answer.number != 0 {
            self.line(clock, &refusal(answer.number));
        }
    }

    fn line(&mut self, clock: u64, text: &str) {
        writeln!(self.text, "{:>5} {clock:>10}  {text}", self.row).expect("a string takes every line");
    }
}

/// Who makes the accesses of a cycle: in state Dma the transfer in progress, in state Hdma the channel that left the queue.
pub(crate) fn holder(before: &Engine, after: &Engine) -> (&'static str, u8) {
    match before.state {
        2 if before.present != 0 => ("DMA", before.channel),
        3 => ("HDMA", (before.queue & !after.queue).trailing_zeros() as u8),
        _ => unreachable!("only Dma and Hdma access the bus"),
    }
}

fn rewrites(channel: u8, access: Access) -> bool {
    let base = 0x4300 + 0x10 * u16::from(channel);
    matches!(access.bank, 0x00..=0x3F | 0x80..=0xBF) && (base..base + 0x10).contains(&access.addr)
}

/// The cycle moves a general transfer's first byte, with a byte count of 0.
fn starts_at_zero(step: &Step) -> bool {
    let dma = &step.before.image.dma;
    dma.state == 2 && dma.unit == 0 && step.before.image.channels[usize::from(dma.channel)].das == 0
}

/// The numbers that a folder, a file or a row of one can be refused with.
pub(crate) fn refusal(number: u8) -> String {
    let words = match number {
        5 => "event over 4",
        6 => "port over 1, or answer outside $2134-$213F and $2140-$2143",
        7 => "the clock is at its end",
        8 => "back with no operation kept",
        10 => "bit cycles outside 1 to 4096",
        11 => "no bench file",
        14 => "more than 256 files",
        _ => unreachable!("a bench lends what its calls take"),
    };
    format!("refusal {number}: {words}")
}
