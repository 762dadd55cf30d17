//! ROMs of lengths on both sides of the rule, and addresses, calls and machines that look at them.

use oracle::any_image::any_image;
use oracle::image::{Auto, Channel, Image, Line};
use oracle::lent::MOST_ROM;
use oracle::random::Random;
use oracle::row::Row;
use std::rc::Rc;

/// A power of two from 32,768 up repeats, any other length is silent past its end.
pub const LENGTHS: [usize; 14] = [
    0, 16_384, 32_767, 32_768, 32_769, 49_152, 65_536, 98_304, 131_072, 262_144, 524_288,
    1_048_576, 2_097_152, MOST_ROM,
];

/// All are starts of one ROM of random bytes. They are made once, so that a run takes one without copying it.
pub struct Roms {
    drawn: [Rc<[u8]>; LENGTHS.len()],
    /// One byte more than a call accepts.
    pub too_long: Rc<[u8]>,
}

impl Roms {
    pub fn new(random: &mut Random) -> Self {
        let too_long: Rc<[u8]> = random.bytes(MOST_ROM + 1).into();
        let drawn = LENGTHS.map(|length| too_long[..length].into());
        Self { drawn, too_long }
    }

    pub fn draw(&self, random: &mut Random) -> Rc<[u8]> {
        let index = random.between(0, LENGTHS.len() as u64 - 1);
        self.drawn[index as usize].clone()
    }
}

/// Where an address leads in a ROM that is long enough, unless it leads elsewhere.
pub fn offset(bank: u8, addr: u16) -> Option<usize> {
    let work_ram = matches!(bank, 0x7E | 0x7F);
    let addr = addr.checked_sub(0x8000).filter(|_| !work_ram)?;
    Some(usize::from(bank % 128) * 0x8000 + usize::from(addr))
}

/// From $8000 up in any bank, half of the time about the end of the ROM or of one of its repetitions.
fn place(random: &mut Random, length: usize) -> (u8, u16) {
    let (length, most) = (length as u64, MOST_ROM as u64);
    let any = random.between(0, most - 1);
    let turns = random.pick(&[1, 1, 2, any / length.max(1)]);
    let end = (turns * length + random.between(0, 2) + most - 1) % most;
    let offset = random.pick(&[any, end]);
    let half = random.pick(&[0x00, 0x80]);
    let (bank, addr) = (half | (offset / 0x8000) as u8, (offset % 0x8000) as u16);
    (bank, 0x8000 + addr)
}

/// Mostly a read; a write has no effect, and its cost is compared.
pub fn row(random: &mut Random, length: usize) -> Row {
    let ((bank, addr), byte) = (place(random, length), random.byte());
    if random.once_in(4) {
        Row::Write { bank, addr, byte }
    } else {
        Row::Read { bank, addr }
    }
}

/// A machine about to move bytes, general ones or HDMA's, whose channels all look at the ROM.
pub fn machine(random: &mut Random, length: usize) -> Image {
    let mut image = any_image(random);
    for (channel, line) in image.channels.iter_mut().zip(&mut image.lines) {
        aim(random, length, channel, line);
    }
    image.dma.state = random.pick(&[2, 3]);
    image.dma.running = 1;
    image.dma.wait = 0;
    image.dma.pending = random.once_in(4).into();
    // The library moves a byte by a way of its own where no automatic read goes on.
    if !random.once_in(4) {
        image.auto = Auto {
            kind: 0,
            bits_left: 0,
            countdown: 0,
        };
    }
    image
}

/// A side, table and indirect address; a counter without lines has the table read on the next line.
fn aim(random: &mut Random, length: usize, channel: &mut Channel, line: &mut Line) {
    (channel.a1t_bank, channel.a1t_addr) = place(random, length);
    (channel.dasb, channel.das) = place(random, length);
    channel.a2a = channel.a1t_addr;
    channel.bbad = random.pick(&[0x80, channel.bbad]);
    line.counter = random.pick(&[0x00, 0x80, line.counter]);
}
