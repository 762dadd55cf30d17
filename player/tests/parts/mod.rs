//! A machine's bytes and what its calls are lent.

use cloverwain::raw::{self, Lent, MACHINE_SIZE};

#[derive(Clone, PartialEq)]
pub struct Parts {
    pub machine: [u8; MACHINE_SIZE],
    pub low: Vec<u8>,
    pub high: Vec<u8>,
    pub record: Vec<u8>,
    pub rom: Vec<u8>,
}

impl Parts {
    /// A fresh machine over these banks, in bytes that held something else before.
    pub fn fresh(low: Vec<u8>, high: Vec<u8>, record: Vec<u8>, rom: Vec<u8>) -> Self {
        let mut machine = [0xEE; MACHINE_SIZE];
        assert_eq!(raw::fresh(&mut machine, &low, &high, record.len(), 264), 0);
        Self {
            machine,
            low,
            high,
            record,
            rom,
        }
    }

    pub fn lent(&mut self) -> Lent<'_> {
        Lent {
            machine: &mut self.machine,
            low: &mut self.low,
            high: &mut self.high,
            record: &mut self.record,
            rom: &self.rom,
        }
    }
}
