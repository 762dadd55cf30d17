//! Request 3/12 on the record's bytes: an entry is written straight into its slot, which may hold anything before. So each
//! of its 256 bytes is written, the zeros too, and no other byte of the record.

mod parts;

use cloverwain::BANK_SIZE;
use cloverwain::raw::{self, ANSWER_SIZE, Lent};
use parts::Parts;

const ENTRY: usize = 256;
const SLOTS: usize = 64;
/// Where the old bytes stand in an entry, and where its zeros do.
const OLDS: usize = 222;
const TAIL: usize = 239;
/// Where the DMA unit's state, running and present stand in an image, and where its wait does.
const UNIT: usize = 59;
const WAIT: usize = 67;

/// A fresh machine with a record of such bytes.
fn fresh(fill: u8) -> Parts {
    let (low, high) = (vec![0x11; BANK_SIZE], vec![0x22; BANK_SIZE]);
    Parts::fresh(low, high, vec![fill; SLOTS * ENTRY], vec![])
}

impl Parts {
    /// Makes a call that is accepted: its entry is the image from before and these old bytes, and no other byte of the
    /// record changes.
    fn noted(&mut self, olds: &[u8], call: impl FnOnce(Lent) -> u8) {
        let slot = usize::from(self.machine[raw::NEXT_SLOT]);
        let mut expected = self.record.clone();
        let entry = &mut expected[slot * ENTRY..][..ENTRY];
        entry.fill(0);
        entry[..OLDS].copy_from_slice(&self.machine[..OLDS]);
        entry[OLDS..][..olds.len()].copy_from_slice(olds);
        assert_eq!(self.machine[OLDS..ENTRY], [0; ENTRY - OLDS]);
        assert_eq!(call(self.lent()), 0);
        assert_eq!(self.record[slot * ENTRY..][TAIL..ENTRY], [0; ENTRY - TAIL]);
        assert!(self.record == expected, "slot {slot}");
    }

    fn cycle(&mut self, olds: &[u8], event: u8) {
        let out = &mut [0; ANSWER_SIZE];
        self.noted(olds, |lent| raw::cycle(lent, event, false, false, out));
    }

    fn write(&mut self, olds: &[u8], addr: u16, byte: u8) {
        let out = &mut [0];
        self.noted(olds, |lent| raw::write(lent, 0, addr, byte, out));
    }
}

/// What overwrites no work RAM.
const NONE: &[u8] = &[];

#[test]
fn each_call_writes_its_whole_slot() {
    for fill in [0x00, 0x5A, 0xA5, 0xFF] {
        let mut parts = fresh(fill);
        parts.cycle(NONE, 0);
        parts.cycle(NONE, 3);
        let out = &mut [0; 2];
        parts.noted(NONE, |lent| raw::read(lent, 0x7E, 0x1234, out));
        parts.write(&[1, 0x34, 0x12, 0, 0x11], 0x1234, 0x77);
        parts.noted(NONE, |lent| raw::pad(lent, 1, 0xABC0));
        parts.noted(NONE, |lent| raw::plug(lent, 0, true));
        parts.noted(NONE, |lent| raw::port_answer(lent, 0x2140, 0x99));
    }
}

/// Two bytes of channel 0 from $7F:0001 to $2180, which leads to $7E:0100: the steps that start the transfer, cycles that
/// wait, a byte that moves while more are to come, and the last one.
#[test]
fn so_do_the_cycles_of_a_transfer() {
    for fill in [0x00, 0x5A, 0xA5, 0xFF] {
        let mut parts = fresh(fill);
        parts.write(NONE, 0x2182, 0x01);
        for (register, byte) in (0x4300..).zip([0, 0x80, 0x01, 0, 0x7F, 2, 0]) {
            parts.write(NONE, register, byte);
        }
        parts.write(NONE, 0x420B, 1);
        for addr in [0x0100_u16, 0x0101] {
            for _ in 0..SLOTS {
                if parts.low[usize::from(addr)] != 0x11 {
                    break;
                }
                let [low, high] = addr.to_le_bytes();
                let replaced = [1, low, high, 0, 0x11];
                let count = if moves_next(&parts) { 5 } else { 0 };
                parts.cycle(&replaced[..count], 0);
            }
        }
        assert_eq!(parts.low[0x0100..0x0102], [0x22, 0x22]);
    }
}

/// The unit moves a byte: it is at DMA, waits no more, and a channel is in progress.
fn moves_next(parts: &Parts) -> bool {
    let [state, _, present] = parts.machine[UNIT..][..3] else {
        unreachable!()
    };
    state == 2 && present == 1 && parts.machine[WAIT..][..4] == [0; 4]
}
