//! The two sides of a channel that a set-up draws.

use super::formula::{Step, count, step};
use crate::generator::script::Script;
use crate::image::Channel;

const BANK: u64 = 65_536;

/// Often $2180-$2183.
pub fn b_side(script: &mut Script) -> u8 {
    if script.random.once_in(2) { 0x80 + script.random.byte() % 4 } else { script.b_side() }
}

/// A bank and A1T, for a channel that has DMAP and DAS, such that no address used is in $2000-$5FFF of a system bank.
pub fn a_side(script: &mut Script, channel: &Channel) -> (u8, u16) {
    let step = step(channel);
    let span = if step == Step::Fixed { 1 } else { count(channel) };
    let (bank, low, length) = match region(script, span) {
        (.., length) if length < span => work_ram(script),
        region => region,
    };
    let any = script.random.between(0, length - span);
    let lowest = low + script.random.pick(&[0, length - span, any, any]);
    let first = if step == Step::Down { lowest + span - 1 } else { lowest };
    (bank, (first % BANK) as u16)
}

/// A bank, and addresses of it that are clear: the lowest, and how many. They may go on past the bank's end.
fn region(script: &mut Script, span: u64) -> (u8, u64, u64) {
    match script.random.between(0, 8) {
        0..=2 => work_ram(script),
        3 | 4 => (script.system_bank(), 0x6000, 0xC000),
        5 => (script.system_bank(), 0x0000, 0x2000),
        6 => (script.random.byte(), 0x8000, 0x8000),
        7 => (script.random.byte() | 0x40, 0x2000, 0x4000),
        _ => (script.random.byte(), BANK - span / 2, span.min(0x4000)),
    }
}

fn work_ram(script: &mut Script) -> (u8, u64, u64) {
    (0x7E + script.random.byte() % 2, script.random.two().into(), BANK)
}
