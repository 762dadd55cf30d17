//! The part of an SNES player that moves bytes: bus, registers, work RAM, DMA and HDMA, joypads, one master cycle at a
//! time, with a record that takes operations back. The code behind it is Rattle, proved against its definitions for
//! every input; this crate lends it memory and names its answers.
//!
//! ```
//! use cloverwain::{Event, Machine};
//!
//! let mut machine = Machine::filled(&[0], 64, 264, vec![])?;
//! machine.write(0x7E, 0x1234, 0x5A)?;
//! assert_eq!(machine.read(0x00, 0x1234)?.byte, 0x5A);
//! assert_eq!(machine.ram_sum(), 0x5A);
//! let cycle = machine.cycle(Event::VBlankStart, false, false)?;
//! assert!(!cycle.held);
//! machine.back()?; // the cycle is undone
//! # Ok::<(), cloverwain::Refusal>(())
//! ```

pub mod raw;
mod refusal;

use raw::{ANSWER_SIZE, KEPT, Lent, MACHINE_SIZE, SUM};
pub use refusal::Refusal;

/// Bytes of a work RAM bank.
pub const BANK_SIZE: usize = 65_536;
const ENTRY_SIZE: usize = 256;
const PAGE_SIZE: usize = 256;

/// What the PPU has to say in a cycle.
#[derive(Clone, Copy, Debug, PartialEq, Eq)]
pub enum Event {
    None,
    HBlankStart,
    NormalLine,
    VBlankStart,
    FrameStart,
}

/// One access of the bus by the DMA unit.
#[derive(Clone, Copy, Debug, PartialEq, Eq)]
pub struct Access {
    pub write: bool,
    pub bank: u8,
    pub address: u16,
    pub byte: u8,
}

/// What a cycle answers. Its accesses stand with the machine until the next call, so that a cycle copies none.
#[derive(Clone, Copy, Debug, PartialEq, Eq)]
pub struct Cycle<'a> {
    /// DMA had the bus.
    pub held: bool,
    /// The NMI line rose.
    pub nmi: bool,
    bytes: &'a [u8; ANSWER_SIZE],
}

impl<'a> Cycle<'a> {
    /// The accesses of this cycle, in order: none to eleven.
    pub fn accesses(&self) -> impl ExactSizeIterator<Item = Access> + 'a {
        self.bytes[3..]
            .chunks_exact(5)
            .take(self.bytes[2].into())
            .map(|bytes| Access {
                write: bytes[0] != 0,
                bank: bytes[1],
                address: u16::from_le_bytes([bytes[2], bytes[3]]),
                byte: bytes[4],
            })
    }
}

/// A byte read, and its cost in master cycles.
#[derive(Clone, Copy, Debug, PartialEq, Eq)]
pub struct Read {
    pub byte: u8,
    pub cost: u8,
}

/// A machine with its work RAM, its record and its ROM. Only its calls write to work RAM, so its sum stays true.
#[derive(Clone)]
pub struct Machine {
    bytes: [u8; MACHINE_SIZE],
    low: Box<[u8]>,
    high: Box<[u8]>,
    record: Box<[u8]>,
    rom: Box<[u8]>,
    answer: [u8; ANSWER_SIZE],
}

impl Machine {
    /// A machine at power-on over its work RAM, the banks $7E and $7F of [`BANK_SIZE`] bytes each, whose record keeps
    /// `slots` operations. `bit_cycles` is how long the automatic joypad read takes for a bit (264 on the console).
    /// `rom` repeats where its length is a power of two of at least 32,768; any other is silent past its end.
    ///
    /// ```
    /// use cloverwain::{BANK_SIZE, Machine, Refusal};
    ///
    /// let (low, high) = (vec![1; BANK_SIZE], vec![2; BANK_SIZE]);
    /// let machine = Machine::fresh(low, high, 64, 264, vec![])?;
    /// assert_eq!(machine.ram_sum(), 3 * 65_536);
    /// let short = Machine::fresh(vec![1; 100], vec![2; BANK_SIZE], 64, 264, vec![]);
    /// assert_eq!(short.err(), Some(Refusal::BankLength));
    /// # Ok::<(), Refusal>(())
    /// ```
    pub fn fresh(
        low: Vec<u8>,
        high: Vec<u8>,
        slots: usize,
        bit_cycles: u16,
        rom: Vec<u8>,
    ) -> Result<Self, Refusal> {
        // A length past the last number is refused as 0 is, and like it after the banks.
        let length = slots.checked_mul(ENTRY_SIZE).unwrap_or(0);
        let mut bytes = [0; MACHINE_SIZE];
        Refusal::check(raw::fresh(&mut bytes, &low, &high, length, bit_cycles))?;
        Ok(Self {
            bytes,
            low: low.into(),
            high: high.into(),
            record: vec![0; length].into(),
            rom: rom.into(),
            answer: [0; ANSWER_SIZE],
        })
    }

    /// The same with a fill that is repeated from the start of each bank, as a bench file's is. An empty one fills no
    /// bank, and so is refused by 1.
    pub fn filled(
        fill: &[u8],
        slots: usize,
        bit_cycles: u16,
        rom: Vec<u8>,
    ) -> Result<Self, Refusal> {
        let bank: Vec<u8> = fill.iter().copied().cycle().take(BANK_SIZE).collect();
        Self::fresh(bank.clone(), bank, slots, bit_cycles, rom)
    }

    /// All that a call is lent, and the buffer for a cycle's answer.
    fn parts(&mut self) -> (Lent<'_>, &mut [u8; ANSWER_SIZE]) {
        let Self {
            bytes,
            low,
            high,
            record,
            rom,
            answer,
        } = self;
        let lent = Lent {
            machine: bytes,
            low,
            high,
            record,
            rom,
        };
        (lent, answer)
    }

    fn lent(&mut self) -> Lent<'_> {
        self.parts().0
    }

    /// One master cycle.
    pub fn cycle(
        &mut self,
        event: Event,
        line_due: bool,
        timer_hit: bool,
    ) -> Result<Cycle<'_>, Refusal> {
        let (lent, answer) = self.parts();
        Refusal::check(raw::cycle(lent, event as u8, line_due, timer_hit, answer))?;
        Ok(Cycle {
            held: answer[0] != 0,
            nmi: answer[1] != 0,
            bytes: answer,
        })
    }

    /// A byte from the bus, as the CPU reads it.
    pub fn read(&mut self, bank: u8, address: u16) -> Result<Read, Refusal> {
        let mut out = [0; 2];
        Refusal::check(raw::read(self.lent(), bank, address, &mut out))?;
        Ok(Read {
            byte: out[0],
            cost: out[1],
        })
    }

    /// A byte to the bus, as the CPU writes it; answers the cost.
    pub fn write(&mut self, bank: u8, address: u16, byte: u8) -> Result<u8, Refusal> {
        let mut out = [0; 1];
        Refusal::check(raw::write(self.lent(), bank, address, byte, &mut out))?;
        Ok(out[0])
    }

    /// The buttons of a controller port (0 or 1) from the next cycle on; the low four bits are dropped.
    pub fn pad(&mut self, port: u8, word: u16) -> Result<(), Refusal> {
        Refusal::check(raw::pad(self.lent(), port, word))
    }

    /// Plugs a pad into a controller port, or pulls it.
    pub fn plug(&mut self, port: u8, connected: bool) -> Result<(), Refusal> {
        Refusal::check(raw::plug(self.lent(), port, connected))
    }

    /// What the PPU ($2134-$213F) or the APU ($2140-$2143) answers from now on.
    pub fn answer(&mut self, address: u16, byte: u8) -> Result<(), Refusal> {
        Refusal::check(raw::port_answer(self.lent(), address, byte))
    }

    /// Takes the newest operation back.
    pub fn back(&mut self) -> Result<(), Refusal> {
        Refusal::check(raw::back(self.lent()))
    }

    /// A page of work RAM: 0 to 255 in bank $7E, 256 to 511 in bank $7F.
    pub fn page(&self, page: u16) -> Result<&[u8], Refusal> {
        let mut out = [0; PAGE_SIZE];
        Refusal::check(raw::page(&self.low, &self.high, page, &mut out))?;
        let (bank, page) = if page < 256 {
            (&self.low, page)
        } else {
            (&self.high, page - 256)
        };
        Ok(&bank[usize::from(page) * PAGE_SIZE..][..PAGE_SIZE])
    }

    /// Both work RAM banks, $7E and $7F. A byte is changed by [`Machine::write`], which keeps the sum.
    pub fn banks(&self) -> [&[u8]; 2] {
        [&self.low, &self.high]
    }

    /// The sum of all work RAM bytes, modulo 2^32. It stands with the machine, so nothing is added up here.
    pub fn ram_sum(&self) -> u32 {
        u32::from_le_bytes(self.bytes_at(SUM))
    }

    /// How many operations can be taken back.
    pub fn kept(&self) -> u64 {
        u64::from_le_bytes(self.bytes_at(KEPT))
    }

    fn bytes_at<const N: usize>(&self, place: usize) -> [u8; N] {
        std::array::from_fn(|index| self.bytes[place + index])
    }

    /// The machine's bytes, as docs/PLAYER.md has them.
    pub fn bytes(&self) -> &[u8; MACHINE_SIZE] {
        &self.bytes
    }
}

/// Whether bytes are a bench file.
pub fn file_check(file: &[u8]) -> Result<(), Refusal> {
    Refusal::check(raw::file_check(file))
}
