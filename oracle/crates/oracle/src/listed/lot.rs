//! What all draws share: a sound call on a machine drawn within the ranges, and help to change it.

use super::answer::lay;
use super::{Call, Listed};
use crate::any_image::any_image;
use crate::image::{Image, Machine, Old, Place};
use crate::lent::{BANK_SIZE, Banks, WRAM_SIZE};
use crate::random::Random;
use crate::row::Row;

/// ROM lengths that a sound call may be lent: some that repeat, and others.
const ROMS: [u32; 13] =
    [0, 1, 0x4000, 0x7FFF, 0x8000, 0x8001, 0xC000, 0x1_0000, 0x1_8000, 0x1_8001, 0x4_0000, 0x20_0000, 0x40_0000];
/// Bytes of note in an HDMA table, for fills.
const COUNTERS: [u8; 6] = [0, 1, 2, 0x80, 0x81, 0xFF];

pub struct Lot {
    pub random: Random,
    banks: Banks,
}

impl Lot {
    pub fn new(random: Random) -> Self {
        Self { random, banks: Banks::filled(&[0]) }
    }

    /// Any machine within the ranges with everything lent as it should be; the call is a cycle without event.
    pub fn machine(&mut self) -> Listed {
        let image = any_image(&mut self.random);
        self.around(image)
    }

    /// What is lent around an image.
    pub fn around(&mut self, image: Image) -> Listed {
        let capacity = self.random.between(1, 4);
        let fill = std::array::from_fn(|_| self.table_byte());
        let next_slot = self.random.between(0, capacity - 1);
        let kept = self.random.between(0, capacity);
        Listed {
            machine: Machine { image, next_slot, kept, record_length: 256 * capacity, sum: 0 },
            lent_record: 256 * capacity as u32,
            lent_low: BANK_SIZE as u32,
            lent_high: BANK_SIZE as u32,
            lent_rom: self.random.pick(&ROMS),
            kind: 1,
            first: 0,
            word: 0,
            last: 0,
            fill_length: self.random.between(1, 16) as u8,
            fill,
            patches: [Old { place: Place(0), byte: fill[0] }; 8],
        }
    }

    pub fn cycle(&mut self) -> Row {
        Row::Cycles { count: 1, event: self.random.byte() % 5, flags: self.random.byte() % 4 }
    }

    pub fn system_bank(&mut self) -> u8 {
        self.random.byte() & 0xBF
    }

    /// Any place of work RAM.
    pub fn place(&mut self) -> u32 {
        self.random.word() as u32 % WRAM_SIZE as u32
    }

    /// The sum of the banks that a call is lent.
    pub fn true_sum(&mut self, listed: &Listed) -> u32 {
        lay(&mut self.banks, listed);
        self.banks.sum()
    }

    /// Gives each call a sum: the true one of the banks lent, or, for six in sixteen, any other, off by one or at an end.
    pub fn draw_sums(&mut self, calls: &mut [Call]) {
        for call in calls {
            let (truth, any) = (self.true_sum(&call.listed), self.random.word() as u32);
            let others = [truth.wrapping_add(1), truth.wrapping_sub(1), 0, u32::MAX, any, any];
            let at = self.random.between(0, 15) as usize;
            call.listed.machine.sum = others.get(at).copied().unwrap_or(truth);
        }
    }

    fn table_byte(&mut self) -> u8 {
        if self.random.once_in(2) { self.random.pick(&COUNTERS) } else { self.random.byte() }
    }
}

impl Listed {
    pub fn call(self, row: Row) -> Call {
        Call { listed: self.with_row(row), entry: None }
    }

    /// Lays bytes at places of work RAM; what is not used repeats the last of them.
    pub fn patch(&mut self, bytes: &[(u32, u8)]) {
        for (index, patch) in self.patches.iter_mut().enumerate() {
            if let Some((place, byte)) = bytes.get(index).or(bytes.last()) {
                *patch = Old { place: Place(*place), byte: *byte };
            }
        }
    }
}
