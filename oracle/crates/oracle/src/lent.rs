//! What a caller lends: the two work RAM banks, the record and the ROM.

use bus::constants;
use bus::wram::Wram;
use std::rc::Rc;

pub const BANK_SIZE: usize = constants::BANK_SIZE;
pub const WRAM_SIZE: usize = constants::WRAM_SIZE;
pub const MOST_ROM: usize = 4_194_304;

/// Both banks in one array, so that the published `Wram` can have them without a copy, and the lengths they are lent
/// with. A length other than 65,536 is only ever judged, never read from.
pub struct Banks {
    data: Option<Box<[u8; WRAM_SIZE]>>,
    pub lengths: [usize; 2],
}

impl Banks {
    pub fn filled(fill: &[u8]) -> Self {
        let mut banks = Self { data: Some(Wram::default().data), lengths: [BANK_SIZE; 2] };
        banks.fill(fill);
        banks
    }

    /// Repeats the fill over each bank; it starts anew in the second.
    pub fn fill(&mut self, fill: &[u8]) {
        for bank in self.bytes_mut().chunks_exact_mut(BANK_SIZE) {
            for part in bank.chunks_mut(fill.len()) {
                part.copy_from_slice(&fill[..part.len()]);
            }
        }
    }

    /// The sum of all bytes of both banks, modulo 2^32.
    pub fn sum(&self) -> u32 {
        self.bytes().iter().fold(0, |sum: u32, byte| sum.wrapping_add((*byte).into()))
    }

    pub fn sound(&self) -> bool {
        self.lengths == [BANK_SIZE; 2]
    }

    pub fn bytes(&self) -> &[u8; WRAM_SIZE] {
        self.data.as_ref().expect("lent banks are back after each call")
    }

    pub fn bytes_mut(&mut self) -> &mut [u8; WRAM_SIZE] {
        self.data.as_mut().expect("lent banks are back after each call")
    }

    pub(crate) fn lend(&mut self) -> Wram {
        Wram { data: self.data.take().expect("lent banks are back after each call") }
    }

    pub(crate) fn give_back(&mut self, wram: Wram) {
        self.data = Some(wram.data);
    }
}

pub struct Lent<'a> {
    pub banks: &'a mut Banks,
    pub record: &'a mut [u8],
    pub rom: &'a Rc<[u8]>,
}
