//! The two players behind one trait, with what they are lent.

use crate::files::{BIT_CYCLES, File};
use cloverwain::{BANK_SIZE, raw};
use std::hint::black_box;

/// The trace program's record.
const RECORD_SIZE: usize = 65_536;

pub trait Player {
    fn fresh(file: &File) -> Self;
    /// One cycle, after which the answer is there as a whole: returned by plain Rust, in a buffer lent to the library.
    fn cycle(&mut self, event: u8, line_due: bool) -> Result<(), u8>;
    /// The same, with the answer as docs/PLAYER.md has it: held, edge, count and the accesses.
    fn answered(&mut self, event: u8, line_due: bool) -> Result<[u8; raw::ANSWER_SIZE], u8>;
    fn write(&mut self, addr: u16, byte: u8) -> Result<u8, u8>;
    fn answer(&mut self, addr: u16, byte: u8) -> Result<(), u8>;
    fn machine(&self) -> [u8; raw::MACHINE_SIZE];
    fn lent(&self) -> &Lent;
}

pub struct Lent {
    pub low: Vec<u8>,
    pub high: Vec<u8>,
    pub record: Vec<u8>,
}

impl Lent {
    fn fresh(file: &File) -> Self {
        let bank: Vec<u8> = file.fill.iter().copied().cycle().take(BANK_SIZE).collect();
        Self { low: bank.clone(), high: bank, record: vec![0; RECORD_SIZE] }
    }
}

pub struct Plain {
    machine: plain::Machine,
    lent: Lent,
}

impl Plain {
    pub fn parts<'a>(&'a mut self, rom: &'a [u8]) -> (&'a mut plain::Machine, plain::Lent<'a>) {
        let Lent { low, high, record } = &mut self.lent;
        (&mut self.machine, plain::Lent { low, high, record, rom })
    }

    /// An answer in the library's bytes.
    pub fn bytes(answer: &plain::Cycle) -> [u8; raw::ANSWER_SIZE] {
        let mut bytes = [0; raw::ANSWER_SIZE];
        bytes[..3].copy_from_slice(&[answer.held.into(), answer.nmi.into(), answer.accesses.count as u8]);
        for (part, access) in bytes[3..].chunks_exact_mut(5).zip(answer.accesses.items) {
            let [low, high] = access.addr.to_le_bytes();
            part.copy_from_slice(&[access.write.into(), access.bank, low, high, access.byte]);
        }
        bytes
    }
}

impl Player for Plain {
    fn fresh(file: &File) -> Self {
        let lent = Lent::fresh(file);
        let machine = plain::Machine::fresh(&lent.low, &lent.high, RECORD_SIZE, BIT_CYCLES).expect("accepted");
        Self { machine, lent }
    }

    fn cycle(&mut self, event: u8, line_due: bool) -> Result<(), u8> {
        let (machine, lent) = self.parts(&[]);
        black_box(&machine.cycle(lent, event, line_due, false)?);
        Ok(())
    }

    fn answered(&mut self, event: u8, line_due: bool) -> Result<[u8; raw::ANSWER_SIZE], u8> {
        let (machine, lent) = self.parts(&[]);
        machine.cycle(lent, event, line_due, false).map(|cycle| Plain::bytes(&cycle))
    }

    fn write(&mut self, addr: u16, byte: u8) -> Result<u8, u8> {
        let (machine, lent) = self.parts(&[]);
        machine.write(lent, 0, addr, byte).map(|moved| moved.cost)
    }

    fn answer(&mut self, addr: u16, byte: u8) -> Result<(), u8> {
        let (machine, lent) = self.parts(&[]);
        machine.answer(lent, addr, byte)
    }

    fn machine(&self) -> [u8; raw::MACHINE_SIZE] {
        self.machine.bytes()
    }

    fn lent(&self) -> &Lent {
        &self.lent
    }
}

/// The proved library, one call at a time.
pub struct Proved {
    machine: [u8; raw::MACHINE_SIZE],
    lent: Lent,
    answer: [u8; raw::ANSWER_SIZE],
}

impl Proved {
    pub fn parts<'a>(&'a mut self, rom: &'a [u8]) -> raw::Lent<'a> {
        let Lent { low, high, record } = &mut self.lent;
        raw::Lent { machine: &mut self.machine, low, high, record, rom }
    }
}

pub fn checked<T>(number: u8, answer: T) -> Result<T, u8> {
    if number == 0 { Ok(answer) } else { Err(number) }
}

impl Player for Proved {
    fn fresh(file: &File) -> Self {
        let lent = Lent::fresh(file);
        let mut machine = [0; raw::MACHINE_SIZE];
        assert_eq!(raw::fresh(&mut machine, &lent.low, &lent.high, RECORD_SIZE, BIT_CYCLES), 0);
        Self { machine, lent, answer: [0; raw::ANSWER_SIZE] }
    }

    fn cycle(&mut self, event: u8, line_due: bool) -> Result<(), u8> {
        let Self { machine, lent: Lent { low, high, record }, answer } = self;
        let lent = raw::Lent { machine, low, high, record, rom: &[] };
        let number = raw::cycle(lent, event, line_due, false, answer);
        black_box(&self.answer);
        checked(number, ())
    }

    fn answered(&mut self, event: u8, line_due: bool) -> Result<[u8; raw::ANSWER_SIZE], u8> {
        self.cycle(event, line_due)?;
        Ok(self.answer)
    }

    fn write(&mut self, addr: u16, byte: u8) -> Result<u8, u8> {
        let mut cost = [0];
        let number = raw::write(self.parts(&[]), 0, addr, byte, &mut cost);
        checked(number, cost[0])
    }

    fn answer(&mut self, addr: u16, byte: u8) -> Result<(), u8> {
        checked(raw::port_answer(self.parts(&[]), addr, byte), ())
    }

    fn machine(&self) -> [u8; raw::MACHINE_SIZE] {
        self.machine
    }

    fn lent(&self) -> &Lent {
        &self.lent
    }
}

/// Banks and record of both, and the sum that each machine carries, added up anew.
pub fn same_lent(plain: &Plain, proved: &Proved) -> Result<(), &'static str> {
    let (ours, theirs) = (plain.lent(), proved.lent());
    if (&ours.low, &ours.high) != (&theirs.low, &theirs.high) {
        return Err("banks");
    }
    let sum: u32 = ours.low.iter().chain(&ours.high).map(|byte| u32::from(*byte)).sum();
    if [plain.machine(), proved.machine()].iter().any(|machine| machine[raw::SUM..] != sum.to_le_bytes()) {
        return Err("a sum and the banks");
    }
    if ours.record != theirs.record { Err("records") } else { Ok(()) }
}

/// One pass over a file's script, in which every call is accepted.
pub fn pass<P: Player>(player: &mut P, file: &File) {
    use crate::files::Row;
    for row in &file.rows {
        match *row {
            Row::Cycles { count, event, line_due } => {
                player.cycle(event, line_due).expect("accepted");
                for _ in 1..count {
                    player.cycle(0, false).expect("accepted");
                }
            }
            Row::Write { addr, byte } => {
                player.write(addr, byte).expect("accepted");
            }
            Row::Answer { addr, byte } => player.answer(addr, byte).expect("accepted"),
        }
    }
}
