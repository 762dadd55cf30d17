//! Request 5's sentence as a formula: all that it says of a transfer, from the image before its first cycle.
//! It is written from the documents and does not ask the published Rust.

use crate::image::{Channel, Image};
use std::fmt;

/// The place of each byte on the B side, by DMAP's mode.
const PATTERNS: [&[u16]; 8] =
    [&[0], &[0, 1], &[0, 0], &[0, 0, 1, 1], &[0, 1, 2, 3], &[0, 1, 0, 1], &[0, 0], &[0, 0, 1, 1]];

/// An access without its byte.
#[derive(Clone, Copy, PartialEq, Eq)]
pub struct Aim {
    pub write: bool,
    pub bank: u8,
    pub addr: u16,
}

impl fmt::Debug for Aim {
    fn fmt(&self, out: &mut fmt::Formatter) -> fmt::Result {
        write!(out, "{} ${:02X}:{:04X}", if self.write { "write" } else { "read" }, self.bank, self.addr)
    }
}

#[derive(Clone, Copy, Debug, PartialEq, Eq)]
pub enum Step {
    Up,
    Down,
    Fixed,
}

#[derive(Clone, Debug, PartialEq, Eq)]
pub struct Load {
    /// How many cycles are held; the next one is not.
    pub held: u64,
    pub accesses: Vec<Aim>,
    /// The channels at the end.
    pub channels: [Channel; 8],
}

/// The transfer that an image is about to make, or what the sentence supposes and this image lacks.
pub fn load(image: &Image) -> Result<Load, &'static str> {
    if let Some(lacking) = lacking(image) {
        return Err(lacking);
    }
    let (mut accesses, mut channels) = (vec![], image.channels);
    for number in selected(image.mdmaen) {
        let channel = &image.channels[number];
        accesses.extend((0..count(channel)).flat_map(|index| accesses_of_byte(channel, index)));
        channels[number].a1t_addr = a_address(channel, count(channel));
        channels[number].das = 0;
    }
    Ok(Load { held: held(image.clock, image.mdmaen, &image.channels), accesses, channels })
}

pub fn held(clock: u64, mdmaen: u8, channels: &[Channel; 8]) -> u64 {
    alignment(clock) + 9 + selected(mdmaen).map(|number| 8 + 8 * count(&channels[number])).sum::<u64>()
}

pub fn alignment(clock: u64) -> u64 {
    8 - clock % 8
}

/// The numbers of the channels selected, lowest first.
pub fn selected(mdmaen: u8) -> impl Iterator<Item = usize> {
    (0..8).filter(move |number| mdmaen & (1 << number) != 0)
}

/// How many bytes a channel moves.
pub fn count(channel: &Channel) -> u64 {
    if channel.das == 0 { 65_536 } else { channel.das.into() }
}

/// Which way A1T goes: DMAP's bit 3 keeps it, else bit 4 says down.
pub fn step(channel: &Channel) -> Step {
    match channel.dmap & 0x18 {
        0x00 => Step::Up,
        0x10 => Step::Down,
        _ => Step::Fixed,
    }
}

/// A1T after it was stepped up to 65,536 times.
pub fn a_address(channel: &Channel, times: u64) -> u16 {
    let first = u64::from(channel.a1t_addr);
    let stepped = match step(channel) {
        Step::Up => first + times,
        Step::Down => first + 65_536 - times,
        Step::Fixed => first,
    };
    (stepped % 65_536) as u16
}

pub fn a_addresses(channel: &Channel) -> impl Iterator<Item = u16> {
    (0..count(channel)).map(|index| a_address(channel, index))
}

/// The address in $2100-$21FF of a byte.
pub fn b_address(channel: &Channel, index: u64) -> u16 {
    let pattern = PATTERNS[usize::from(channel.dmap % 8)];
    0x2100 + (u16::from(channel.bbad) + pattern[index as usize % pattern.len()]) % 256
}

pub fn in_system_bank(channel: &Channel) -> bool {
    matches!(channel.a1t_bank, 0x00..=0x3F | 0x80..=0xBF)
}

/// A read and a write, from the A side to the B side unless DMAP's bit 7 is set.
fn accesses_of_byte(channel: &Channel, index: u64) -> [Aim; 2] {
    let a_side = (channel.a1t_bank, a_address(channel, index));
    let b_side = (0x00, b_address(channel, index));
    let (from, to) = if channel.dmap & 0x80 == 0 { (a_side, b_side) } else { (b_side, a_side) };
    [(false, from), (true, to)].map(|(write, (bank, addr))| Aim { write, bank, addr })
}

/// The first supposition that does not hold.
fn lacking(image: &Image) -> Option<&'static str> {
    let dma = &image.dma;
    let clear = |number| !in_system_bank(&image.channels[number]) || is_clear(&image.channels[number]);
    let last = image.clock.checked_add(held(image.clock, image.mdmaen, &image.channels));
    let supposed = [
        (dma.state == 0, "DMA idle"),
        (dma.wait == 0, "wait 0"),
        (dma.running == 0, "nothing running"),
        (dma.present == 0, "no progress"),
        (dma.pending == 0, "no HDMA pending"),
        (image.hdmaen == 0, "HDMAEN 0"),
        (image.mdmaen != 0, "an MDMAEN bit"),
        (last.is_some_and(|last| last < u64::MAX), "a clock clear of its end"),
        (selected(image.mdmaen).all(clear), "A addresses outside $2000-$5FFF of system banks"),
    ];
    supposed.into_iter().find(|(holds, _)| !holds).map(|(_, name)| name)
}

fn is_clear(channel: &Channel) -> bool {
    a_addresses(channel).all(|addr| !(0x2000..=0x5FFF).contains(&addr))
}
