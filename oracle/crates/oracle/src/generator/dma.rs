//! Scripts about general transfers.

use super::script::{Script, Setup};

/// A channel with a short count and anything else.
fn any_setup(script: &mut Script) -> Setup {
    let (bank, addr) = script.a_side();
    let das = script.random.between(1, 20) as u16;
    Setup { dmap: script.random.byte(), bbad: script.b_side(), bank, addr, das, dasb: script.random.byte() }
}

pub fn general(script: &mut Script) {
    script.answers();
    for _ in 0..script.random.between(3, 12) {
        script.wmadd();
        let channel = script.random.byte() % 8;
        let setup = any_setup(script);
        script.channel(channel, &setup);
        let before = script.random.between(1, 9);
        script.cycles(before);
        script.write(0x420B, 1 << channel);
        script.cycles(26 + 8 * u64::from(setup.das));
        (2..7).for_each(|offset| script.read(0x4300 + 0x10 * u16::from(channel) + offset));
    }
}

pub fn queue(script: &mut Script) {
    script.answers();
    script.wmadd();
    for channel in 0..8 {
        let setup = any_setup(script);
        script.channel(channel, &setup);
    }
    for _ in 0..script.random.between(2, 8) {
        let mask = script.random.byte();
        script.write(0x420B, mask);
        for _ in 0..script.random.between(1, 6) {
            script.some_cycles(300);
            script.read(0x420B);
        }
    }
}

/// DAS 0, one in three to its end (65,536 bytes, eight cycles each).
pub fn long(script: &mut Script) {
    let channel = script.random.byte() % 8;
    let das = script.random.pick(&[0, 0, 0, 1, 0x100, 0xFFFF]);
    let setup = Setup { das, dmap: script.random.byte() & 0x9F, ..any_setup(script) };
    script.wmadd();
    script.channel(channel, &setup);
    script.write(0x420B, 1 << channel);
    if das == 0 && script.random.once_in(3) {
        (0..9).for_each(|_| script.cycles(58_300));
    } else {
        script.cycles(5_000);
    }
    (2..7).for_each(|offset| script.read(0x4300 + 0x10 * u16::from(channel) + offset));
    let steps = script.random.between(1, 256);
    script.back(steps);
    script.cycles(50);
}

/// B to A into $43x0 up or the enables, or A to B into $2180-$2183, with bytes from work RAM or the answers.
pub fn selfwrite(script: &mut Script) {
    script.answers();
    for _ in 0..script.random.between(2, 8) {
        script.wmadd();
        let channel = script.random.byte() % 8;
        let own = 0x4300 + 0x10 * u16::from(channel);
        let mut setup = any_setup(script);
        if script.random.once_in(3) {
            setup.bbad = 0x80 + script.random.byte() % 4;
            setup.dmap &= 0x7F;
        } else {
            let offset = script.random.two() % 16;
            setup.addr = script.random.pick(&[own, own + 2, own + 5, own + offset, own + offset, 0x420A, 0x2180]);
            setup.bank = script.system_bank();
            setup.bbad = script.random.pick(&[0x34, 0x38, 0x40, 0x80, 0x80]);
            setup.dmap |= 0x80;
        }
        script.channel(channel, &setup);
        script.write(0x420B, 1 << channel);
        (0..3).for_each(|_| script.some_cycles(150));
        (0..16).for_each(|offset| script.read(own + offset));
    }
}
