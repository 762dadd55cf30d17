//! The calls of a run: the rows of a generated bench file one by one.

use crate::counts::Counts;
use crate::roms::Roms;
use oracle::benchfile::BenchFile;
use oracle::generator;
use oracle::random::Random;
use oracle::row::Row;
use std::rc::Rc;

/// A run is cut here, so that long transfers do not crowd out the rest.
const MOST_CALLS: usize = 20_000;

pub const CYCLE: Row = Row::Cycles {
    count: 1,
    event: 0,
    flags: 0,
};

pub struct Rows {
    pub calls: Vec<Row>,
    pub fill: Vec<u8>,
    pub rom: Rc<[u8]>,
    pub bit_cycles: u16,
}

/// A file's rows, half of the time with a drawn ROM in place of its own: a file has room for less than 64 KiB.
pub fn rows(
    random: &mut Random,
    seed: u64,
    run: u64,
    roms: &Roms,
    counts: &mut Counts,
) -> Result<Rows, String> {
    let mut rows = file_rows(random, seed, run, counts)?;
    if random.once_in(2) {
        rows.rom = roms.draw(random);
    }
    counts.run(rows.rom.len());
    Ok(rows)
}

/// The file's check is compared too; a broken file gives a run of rows without any plan.
fn file_rows(
    random: &mut Random,
    seed: u64,
    run: u64,
    counts: &mut Counts,
) -> Result<Rows, String> {
    let bytes = generator::file(seed, run);
    let file = BenchFile::parse(&bytes);
    let number = cloverwain::raw::file_check(&bytes);
    counts.call("file check", number);
    if (number == 0) != file.is_some() || !matches!(number, 0 | 11) {
        return Err(format!("file check gives {number}"));
    }
    Ok(match file {
        Some(file) => Rows {
            calls: single(&file.rows),
            fill: file.fill,
            rom: file.rom.into(),
            bit_cycles: file.bit_cycles,
        },
        None => Rows {
            calls: (0..200).map(|_| any_row(random)).collect(),
            fill: random.bytes(7),
            rom: random.bytes(99).into(),
            bit_cycles: 264,
        },
    })
}

fn single(rows: &[Row]) -> Vec<Row> {
    let mut calls = vec![];
    for row in rows {
        let (count, rest) = match *row {
            Row::Cycles { count, .. } => (count, CYCLE),
            Row::Back { count } => (count.min(70), *row),
            _ => (1, *row),
        };
        calls.push(*row);
        calls.extend((1..count).map(|_| rest));
    }
    calls.truncate(MOST_CALLS);
    calls
}

/// Any call with any arguments.
pub fn any_row(random: &mut Random) -> Row {
    let (bank, addr, byte) = (random.byte(), random.two(), random.byte());
    match random.between(0, 9) {
        0 => Row::Read { bank, addr },
        1 => Row::Write { bank, addr, byte },
        2 => Row::Write {
            bank: bank & 0xBF,
            addr: 0x2000 + addr % 0x4000,
            byte,
        },
        3 => Row::Read {
            bank: bank & 0xBF,
            addr: 0x2000 + addr % 0x4000,
        },
        4 => Row::Pad {
            port: bank % 3,
            word: addr,
        },
        5 => Row::Plug {
            port: bank % 3,
            value: byte % 2,
        },
        6 => Row::Answer {
            addr: 0x2132 + addr % 20,
            byte,
        },
        7 => Row::Back { count: 1 },
        _ => Row::Cycles {
            count: 1,
            event: bank % 6,
            flags: byte % 4,
        },
    }
}
