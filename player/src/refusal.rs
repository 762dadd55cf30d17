//! The paper's refusals, with their numbers and words.

use std::error::Error;
use std::fmt;

/// Why a call was refused. A refused call changes nothing.
#[derive(Clone, Copy, Debug, PartialEq, Eq)]
#[repr(u8)]
pub enum Refusal {
    BankLength = 1,
    RecordLength = 2,
    RomLength = 3,
    MachineRange = 4,
    Event = 5,
    PortOrAddress = 6,
    ClockEnd = 7,
    NothingKept = 8,
    EntryRange = 9,
    BitCycles = 10,
    FileForm = 11,
    Page = 12,
}

const ALL: [(Refusal, &str); 12] = [
    (Refusal::BankLength, "a work RAM slice is not 65,536 bytes"),
    (
        Refusal::RecordLength,
        "record length is 0, no multiple of 256, or not fresh's length",
    ),
    (Refusal::RomLength, "ROM is too long"),
    (
        Refusal::MachineRange,
        "machine breaks the ranges, next slot is not under the capacity, or kept is over it",
    ),
    (Refusal::Event, "event over 4"),
    (
        Refusal::PortOrAddress,
        "controller port over 1, or answer address outside $2134-$213F and $2140-$2143",
    ),
    (Refusal::ClockEnd, "cycle with the clock at 2^64 - 1"),
    (Refusal::NothingKept, "back with kept 0"),
    (
        Refusal::EntryRange,
        "back where the newest entry breaks the ranges",
    ),
    (
        Refusal::BitCycles,
        "fresh with bit cycles outside 1 to 4,096",
    ),
    (
        Refusal::FileForm,
        "bench file or script row breaks its form, or section over 3",
    ),
    (Refusal::Page, "page over 511"),
];

impl Refusal {
    /// The paper's number.
    pub fn number(self) -> u8 {
        self as u8
    }

    /// 0 is an accepted call.
    pub(crate) fn check(number: u8) -> Result<(), Refusal> {
        match number {
            0 => Ok(()),
            _ => Err(ALL[usize::from(number) - 1].0),
        }
    }
}

impl fmt::Display for Refusal {
    fn fmt(&self, out: &mut fmt::Formatter) -> fmt::Result {
        write!(
            out,
            "{} ({})",
            ALL[usize::from(self.number()) - 1].1,
            self.number()
        )
    }
}

impl Error for Refusal {}
