//! Single calls as a fixed list: what is lent and asked stands in 354 bytes, for a back step with an entry behind them.
//! docs/CALLS.md has the places and the form of an answer.

mod aimed;
pub mod answer;
mod cartridge;
pub mod draw;
pub mod even;
mod lot;
mod refused;
mod runs;
mod sums;

use crate::image::{ENTRY_SIZE, Machine, Old};
use crate::layout::{Field, fields};
use crate::row::Row;

pub const FRESH: u8 = 0;
pub const BACK: u8 = 7;
pub const PAGE: u8 = 8;
/// The most bytes of record that a listed call lends.
pub const MOST_RECORD: usize = 4 * ENTRY_SIZE;
/// A record byte that no entry was written over.
pub const UNWRITTEN: u8 = 0xEE;

fields! {
    Listed {
        machine: Machine,
        lent_record: u32,
        lent_low: u32,
        lent_high: u32,
        lent_rom: u32,
        kind: u8,
        first: u8,
        word: u16,
        last: u8,
        fill_length: u8,
        fill: [u8; 16],
        patches: [Old; 8],
    }
}

const _: () = assert!(Listed::SIZE == 354);

/// A listed call, with the entry that stands in the record's slot `first` where it is a back step.
#[derive(Clone)]
pub struct Call {
    pub listed: Listed,
    pub entry: Option<[u8; ENTRY_SIZE]>,
}

impl Call {
    pub fn bytes(&self) -> Vec<u8> {
        let mut bytes = vec![0; Listed::SIZE];
        self.listed.put(&mut bytes);
        bytes.extend(self.entry.iter().flatten());
        bytes
    }

    /// The calls of a list; an error names the byte at which one is cut off.
    pub fn list(bytes: &[u8]) -> Result<Vec<Call>, String> {
        let mut calls = vec![];
        let mut at = 0;
        while at < bytes.len() {
            let rest = &bytes[at..];
            let cut = || format!("the list ends inside the call at byte {at}");
            let listed = Listed::take(rest.get(..Listed::SIZE).ok_or_else(cut)?);
            let behind = if listed.kind == BACK { ENTRY_SIZE } else { 0 };
            let entry = rest.get(Listed::SIZE..Listed::SIZE + behind).ok_or_else(cut)?;
            calls.push(Call { listed, entry: entry.try_into().ok() });
            at += Listed::SIZE + behind;
        }
        Ok(calls)
    }
}

impl Listed {
    /// The call as a script's row, unless it is fresh or a page look.
    pub fn row(&self) -> Option<Row> {
        let Listed { first, word, last, .. } = *self;
        match self.kind {
            1 => Some(Row::Cycles { count: 1, event: first, flags: last }),
            2 => Some(Row::Read { bank: first, addr: word }),
            3 => Some(Row::Write { bank: first, addr: word, byte: last }),
            4 => Some(Row::Pad { port: first, word }),
            5 => Some(Row::Plug { port: first, value: last }),
            6 => Some(Row::Answer { addr: word, byte: last }),
            BACK => Some(Row::Back { count: 1 }),
            _ => None,
        }
    }

    pub fn with_row(mut self, row: Row) -> Self {
        (self.first, self.word, self.last) = match row {
            Row::Cycles { event, flags, .. } => (event, 0, flags),
            Row::Read { bank, addr } => (bank, addr, 0),
            Row::Write { bank, addr, byte } => (bank, addr, byte),
            Row::Pad { port, word } => (port, word, 0),
            Row::Plug { port, value } => (port, 0, value),
            Row::Answer { addr, byte } => (0, addr, byte),
            Row::Back { .. } => (0, 0, 0),
        };
        self.kind = row.kind();
        self
    }
}
