//! The figures of one file, counted over the accepted operations of its run.

use crate::bench::Step;
use crate::image::DMA;
use crate::moves::holder;
use crate::row::Row;
use crate::trace::start;

// Where the figures of channel 0 stand, those of the cycles held that end in state 0, and that of all cycles held.
const GENERAL: usize = 0;
const UNITS: usize = 8;
const TABLE: usize = 16;
const HELD: usize = 24;
const HELD_ALL: usize = 28;

/// A number for each name of `names`.
pub type Figures = [u128; HELD_ALL + 1];

pub fn names() -> Vec<String> {
    let of_channels = ["general", "units", "table"].into_iter().flat_map(|name| (0..8).map(move |at| (name, at)));
    let held = ["idle", "startup", "dma", "hdma", "all"].map(|state| format!("held {state}"));
    of_channels.map(|(name, channel)| format!("{name} {channel}")).chain(held).collect()
}

#[derive(Clone, Debug, Default, PartialEq, Eq)]
pub struct Count {
    /// What the file or a row of it was refused with; 0 if the whole script was accepted.
    pub number: u8,
    /// The row that was refused, counted from 1; 0 if none was.
    pub row: usize,
    /// Over all accepted operations.
    pub all: Figures,
    /// Over those that no back step has struck.
    pub survivors: Figures,
}

pub fn count(file: &[u8]) -> Count {
    let (mut bench, rows) = match start(file) {
        Ok(started) => started,
        Err(number) => return Count { number, ..Count::default() },
    };
    let mut tally = Tally::default();
    let numbers = rows.into_iter().map(|row| bench.row(row, &mut |step| tally.step(&step)).number);
    let (row, number) = (1..).zip(numbers).find(|(_, number)| *number != 0).unwrap_or_default();
    let mut survivors = Figures::default();
    tally.surviving.iter().for_each(|gain| gain.add_to(&mut survivors));
    Count { number, row, all: tally.all, survivors }
}

#[derive(Default)]
struct Tally {
    all: Figures,
    /// What each surviving operation added, the latest last. It knows nothing of the record: an operation whose entry was
    /// overwritten stays.
    surviving: Vec<Gain>,
}

impl Tally {
    fn step(&mut self, step: &Step) {
        match step.call {
            _ if step.number != 0 => {}
            Row::Back { .. } => {
                self.surviving.pop().expect("an accepted back step strikes an operation");
            }
            _ => {
                let gain = Gain::of(step);
                gain.add_to(&mut self.all);
                self.surviving.push(gain);
            }
        }
    }
}

/// What one operation adds to the figures; small, as a run may have many operations.
#[derive(Default)]
struct Gain {
    channel: u8,
    general: u8,
    units: u8,
    table: u8,
    /// The DMA state after a cycle that was held.
    held: Option<u8>,
}

impl Gain {
    /// A call that is no cycle adds nothing: the accesses of read and write rows are the CPU's.
    fn of(step: &Step) -> Gain {
        let (before, after) = (&step.before.image.dma, &step.after.image.dma);
        let gain = Gain { held: step.cycle.held.then_some(after.state), ..Gain::default() };
        let accesses = &step.cycle.accesses[..step.cycle.count];
        if accesses.is_empty() {
            return gain;
        }
        let (_, channel) = holder(before, after);
        let writes = accesses.iter().filter(|access| access.write).count() as u8;
        let reads = accesses.len() as u8 - writes;
        // A byte that is moved is a read and a write. HDMA's other reads are of its table.
        match before.state {
            DMA => Gain { channel, general: writes, ..gain },
            _ => Gain { channel, units: u8::from(writes > 0), table: reads - writes, ..gain },
        }
    }

    fn add_to(&self, figures: &mut Figures) {
        for (first, amount) in [(GENERAL, self.general), (UNITS, self.units), (TABLE, self.table)] {
            figures[first + usize::from(self.channel)] += u128::from(amount);
        }
        if let Some(state) = self.held {
            figures[HELD + usize::from(state)] += 1;
            figures[HELD_ALL] += 1;
        }
    }
}
