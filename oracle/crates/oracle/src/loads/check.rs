//! A transfer made by the published Rust, cycle by cycle, beside the formula.

use super::draw::SetUp;
use super::formula::{self, Aim, Load};
use crate::bench::Bench;
use crate::calls::{self, Cycle};
use crate::image::Image;
use crate::lent::Lent;
use crate::row::Row;
use crate::selfcheck::same;
use crate::trace::start;
use rsnes::logged::Access;

/// A transfer that went as the formula says.
pub struct Run {
    pub before: Image,
    pub after: Image,
    pub load: Load,
    /// The place in work RAM that each access reached.
    pub places: Vec<Option<u32>>,
}

/// Prepares a set-up and follows it. Its rows after that must have the formula's cycles, and one.
pub fn check(set_up: &SetUp) -> Result<Run, String> {
    let (mut bench, rows) = start(&set_up.file.bytes()).map_err(|number| format!("refusal {number}"))?;
    let (prepared, rest) = rows.split_at(set_up.prepared);
    for row in prepared {
        same("refusal of a row", &bench.row(*row, &mut |_| {}).number, &0)?;
    }
    let run = follow(&mut bench)?;
    same("cycles in the rows", &quiet_cycles(rest), &(run.load.held, 1))?;
    Ok(run)
}

/// How many cycles the rows have up to the last row of cycles, and how many that one has.
fn quiet_cycles(rows: &[Row]) -> (u64, u64) {
    let quiet = rows.iter().map_while(|row| match *row {
        Row::Cycles { count, event: 0, flags: 0 } => Some(u64::from(count)),
        _ => None,
    });
    let counts: Vec<u64> = quiet.collect();
    counts.split_last().map_or((0, 0), |(last, others)| (others.iter().sum(), *last))
}

/// Makes the transfer that a bench is about to make, and one cycle more; the text says what differs from the formula.
pub fn follow(bench: &mut Bench) -> Result<Run, String> {
    let before = bench.machine.image;
    let load = formula::load(&before).map_err(|what| format!("the set-up lacks {what}"))?;
    let (mut made, mut places) = (vec![], vec![]);
    for number in 1..=load.held {
        let cycle = quiet_cycle(bench);
        if !cycle.held {
            return Err(format!("cycle {number} of {} is not held (refusal {})", load.held, cycle.number));
        }
        made.extend_from_slice(&cycle.accesses[..cycle.count]);
        places.extend_from_slice(&cycle.places[..cycle.count]);
    }
    let ended = bench.machine.image;
    let cycle = quiet_cycle(bench);
    let after = bench.machine.image;
    same("the cycle after (refusal, held, accesses)", &(cycle.number, cycle.held, cycle.count), &(0, false, 0))?;
    same_accesses(&made, &load.accesses)?;
    same_end(&ended, &before, &load)?;
    same_end(&after, &before, &load)?;
    Ok(Run { before, after, load, places })
}

fn quiet_cycle(bench: &mut Bench) -> Cycle {
    let Bench { machine, banks, record, rom } = bench;
    calls::cycle(machine, &mut Lent { banks, record, rom }, 0, false, false)
}

/// The formula's accesses, and each write has the byte of the read before it.
fn same_accesses(made: &[Access], expected: &[Aim]) -> Result<(), String> {
    let aims: Vec<Aim> = made.iter().map(|&Access { write, bank, addr, .. }| Aim { write, bank, addr }).collect();
    let differs = |index: &usize| aims.get(*index) != expected.get(*index);
    if let Some(index) = (0..aims.len().max(expected.len())).find(differs) {
        return same(&format!("access {}", index + 1), &aims.get(index), &expected.get(index));
    }
    match made.chunks(2).position(|moved| moved[0].byte != moved[1].byte) {
        Some(index) => Err(format!("byte {} is written as another: {:?}", index + 1, &made[2 * index..2 * index + 2])),
        None => Ok(()),
    }
}

/// What the sentence says of the end. The unit is as it was: idle, and HDMA's part of it unchanged.
fn same_end(image: &Image, before: &Image, load: &Load) -> Result<(), String> {
    for (number, (channel, expected)) in image.channels.iter().zip(&load.channels).enumerate() {
        same(&format!("channel {number} at the end"), channel, expected)?;
    }
    same("MDMAEN at the end", &image.mdmaen, &0)?;
    same("the unit at the end", &(image.dma, image.lines), &(before.dma, before.lines))
}
