//! Document 01's table of refusals, in number order, and its ranges of a machine.

use crate::bus::BANK_SIZE;
use crate::calls::Lent;
use crate::image::ENTRY_SIZE;
use crate::io::AutoJoypad;
use crate::joypad::ID_MASK;
use crate::machine::Machine;

const MOST_ROM: usize = 4_194_304;
pub const MOST_BIT_CYCLES: u16 = 4096;
const MOST_PENDING: u32 = 297;
const MOST_WAIT: u32 = 55;

impl Machine {
    /// 1 to 4: what every operation tests.
    pub(crate) fn check(&self, lent: &Lent) -> Result<(), u8> {
        self.check_banks_and_record(lent.low, lent.high, lent.record)?;
        if lent.rom.len() > MOST_ROM {
            return Err(3);
        }
        self.check_machine()
    }

    pub(crate) fn check_banks_and_record(&self, low: &[u8], high: &[u8], record: &[u8]) -> Result<(), u8> {
        check_banks(low, high)?;
        if record.is_empty() || !record.len().is_multiple_of(ENTRY_SIZE) || record.len() != self.record_length {
            return Err(2);
        }
        Ok(())
    }

    pub(crate) fn check_machine(&self) -> Result<(), u8> {
        let capacity = self.record_length / ENTRY_SIZE;
        if !self.in_ranges() || self.next_slot >= capacity || self.kept > capacity {
            return Err(4);
        }
        Ok(())
    }

    pub(crate) fn in_ranges(&self) -> bool {
        let words = [self.io.controllers[0].buttons, self.io.controllers[1].buttons, self.joypads[0], self.joypads[1]];
        let auto = match self.io.auto_joypad {
            AutoJoypad::Idle => true,
            AutoJoypad::Pending(left) => left <= MOST_PENDING,
            AutoJoypad::Reading { bits_left, countdown } => {
                matches!(bits_left, 1..=16) && countdown < self.bit_cycles.into()
            }
        };
        matches!(self.bit_cycles, 1..=MOST_BIT_CYCLES)
            && auto
            && words.iter().fold(0, |all, word| all | word) & ID_MASK == 0
            && self.dma.progress.is_none_or(|progress| progress.channel < 8)
            && self.dma.wait <= MOST_WAIT
    }
}

pub fn check_banks(low: &[u8], high: &[u8]) -> Result<(), u8> {
    if low.len() != BANK_SIZE || high.len() != BANK_SIZE { Err(1) } else { Ok(()) }
}
