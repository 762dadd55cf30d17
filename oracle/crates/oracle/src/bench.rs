//! One run: a machine with all that is lent to it, and the rows of a script as calls.

use crate::calls::{self, Cycle, Moved};
use crate::image::{ENTRY_SIZE, Machine};
use crate::lent::{Banks, Lent};
use crate::record;
use crate::row::Row;
use std::rc::Rc;

pub struct Bench {
    pub machine: Machine,
    pub banks: Banks,
    pub record: Vec<u8>,
    pub rom: Rc<[u8]>,
}

/// What a row prints: refusal or 0, A, B.
#[derive(Clone, Copy, Debug, Default, PartialEq, Eq)]
pub struct RowAnswer {
    pub number: u8,
    pub a: u64,
    pub b: u64,
}

/// One call, as shown to an onlooker.
pub struct Step<'a> {
    /// The row this call belongs to, with a count of 1 and the event and flags of this call.
    pub call: Row,
    pub number: u8,
    pub before: &'a Machine,
    pub after: &'a Machine,
    /// All zero unless the call is a cycle.
    pub cycle: &'a Cycle,
    /// All zero unless the call is a read or a write.
    pub moved: &'a Moved,
    /// The bytes of the entry written, or of the one that a back step struck; none if refused.
    pub entry: &'a [u8],
}

impl Bench {
    /// Fills the banks. A fresh machine on them, or the number with which fresh is refused.
    pub fn fresh(record_length: usize, bit_cycles: u16, fill: &[u8], rom: Rc<[u8]>) -> Result<Bench, u8> {
        let banks = Banks::filled(fill);
        match calls::fresh(&banks, record_length as u64, bit_cycles.into()) {
            (0, machine) => Ok(Bench { machine, banks, record: vec![0; record_length], rom }),
            (number, _) => Err(number),
        }
    }

    /// All calls of a row, up to the first refused one.
    pub fn row(&mut self, row: Row, watch: &mut dyn FnMut(Step)) -> RowAnswer {
        match row {
            Row::Cycles { count, event, flags } => {
                let first = Row::Cycles { count: 1, event, flags };
                let quiet = Row::Cycles { count: 1, event: 0, flags: 0 };
                self.repeat(count, first, quiet, watch)
            }
            Row::Back { count } => self.repeat(count, Row::Back { count: 1 }, Row::Back { count: 1 }, watch),
            single => self.call(single, watch),
        }
    }

    /// `a` counts the accepted calls, `b` adds up.
    fn repeat(&mut self, count: u16, first: Row, rest: Row, watch: &mut dyn FnMut(Step)) -> RowAnswer {
        let mut total = RowAnswer::default();
        for index in 0..count {
            let answer = self.call(if index == 0 { first } else { rest }, watch);
            if answer.number != 0 {
                return RowAnswer { number: answer.number, ..total };
            }
            total.a += 1;
            total.b += answer.b;
        }
        total
    }

    /// A row that is one call.
    pub fn call(&mut self, call: Row, watch: &mut dyn FnMut(Step)) -> RowAnswer {
        let before = self.machine;
        let (mut cycle, mut moved) = Default::default();
        let answer = self.answer(call, &mut cycle, &mut moved);
        watch(Step {
            call,
            number: answer.number,
            before: &before,
            after: &self.machine,
            cycle: &cycle,
            moved: &moved,
            entry: if answer.number == 0 { self.touched_entry(call) } else { &[] },
        });
        answer
    }

    fn touched_entry(&self, call: Row) -> &[u8] {
        let slot = match call {
            Row::Back { .. } => self.machine.next_slot,
            _ => record::newest_slot(&self.machine, &self.record),
        };
        &self.record[slot as usize * ENTRY_SIZE..][..ENTRY_SIZE]
    }

    fn answer(&mut self, call: Row, cycle: &mut Cycle, moved: &mut Moved) -> RowAnswer {
        let machine = &mut self.machine;
        let lent = &mut Lent { banks: &mut self.banks, record: &mut self.record, rom: &self.rom };
        let number = |number| RowAnswer { number, a: 0, b: 0 };
        let mut access = |answer: Moved| {
            *moved = answer;
            RowAnswer { number: answer.number, a: answer.byte.into(), b: answer.cost.into() }
        };
        match call {
            Row::Cycles { event, flags, .. } => {
                *cycle = calls::cycle(machine, lent, event, flags & 1 != 0, flags & 2 != 0);
                RowAnswer { number: cycle.number, a: 0, b: cycle.held.into() }
            }
            Row::Read { bank, addr } => access(calls::read(machine, lent, bank, addr)),
            Row::Write { bank, addr, byte } => access(calls::write(machine, lent, bank, addr, byte)),
            Row::Pad { port, word } => number(calls::pad(machine, lent, port, word)),
            Row::Plug { port, value } => number(calls::plug(machine, lent, port, value != 0)),
            Row::Answer { addr, byte } => number(calls::answer(machine, lent, addr, byte)),
            Row::Back { .. } => number(calls::back(machine, &mut self.banks, &self.record)),
        }
    }
}
