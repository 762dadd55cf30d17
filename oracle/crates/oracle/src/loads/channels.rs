//! The channels of a set-up, and which of them MDMAEN selects.

use super::formula::selected;
use super::sides::{a_side, b_side};
use crate::generator::script::Script;
use crate::image::Channel;
use crate::layout::Field;

pub const POWER_ON: Channel = Channel {
    dmap: 0xFF,
    bbad: 0xFF,
    a1t_addr: 0xFFFF,
    a1t_bank: 0xFF,
    das: 0x00FF,
    dasb: 0xFF,
    a2a: 0xFFFF,
    nltr: 0xFF,
    unused: 0xFF,
};

/// Some channels written and some left as at power-on, and MDMAEN: mostly only channels that were written.
pub fn channels(script: &mut Script) -> ([Channel; 8], u8) {
    let any = script.random.byte();
    let written = script.random.pick(&[1 << (any % 8), any.max(1), any.max(1), 0xFF]);
    let mut channels = [POWER_ON; 8];
    for number in selected(written) {
        channels[number] = channel(script);
        // $43x0 to $43xB are in the image's order.
        let mut registers = [0; Channel::SIZE];
        channels[number].put(&mut registers);
        let base = 0x4300 + 0x10 * number as u16;
        (base..).zip(registers).for_each(|(addr, byte)| script.write(addr, byte));
    }
    let other = script.random.byte();
    let part = if written & other == 0 { written } else { written & other };
    (channels, script.random.pick(&[written, written, written, part, part, part, written | other]))
}

/// Any bytes, but for what says how and where the transfer goes.
fn channel(script: &mut Script) -> Channel {
    let mut channel = Channel::take(&script.random.bytes(Channel::SIZE));
    channel.dmap &= script.random.pick(&[0xFF, 0xF7, 0xF7]);
    channel.bbad = b_side(script);
    channel.das = match script.random.between(0, 119) {
        0 => 0,
        1 | 2 => script.random.between(1_000, 9_000) as u16,
        3..=19 => 1,
        _ => script.random.between(2, 40) as u16,
    };
    (channel.a1t_bank, channel.a1t_addr) = a_side(script, &channel);
    channel
}
