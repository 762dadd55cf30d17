//! Document 01's ranges, in its order.

use crate::image::{Auto, Engine, Entry, Image, Line, Port};
use crate::lent::WRAM_SIZE;

pub const MOST_BIT_CYCLES: u16 = 4096;
const MOST_PENDING: u32 = 297;
const MOST_WAIT: u32 = 55;
const PAD_ID_BITS: u16 = 0x000F;

pub fn image_in_ranges(image: &Image) -> bool {
    matches!(image.wmadd_bank, 0x7E | 0x7F)
        && matches!(image.bit_cycles, 1..=MOST_BIT_CYCLES)
        && flag(image.nmi_line)
        && auto_in_ranges(&image.auto, image.bit_cycles)
        && image.ports.iter().all(port_in_ranges)
        && image.pads.iter().all(|word| word & PAD_ID_BITS == 0)
        && engine_in_ranges(&image.dma)
        && image.lines.iter().all(line_in_ranges)
}

pub fn entry_in_ranges(entry: &Entry) -> bool {
    let count = usize::from(entry.count);
    image_in_ranges(&entry.image)
        && count <= entry.old.len()
        && entry.old[..count].iter().all(|old| (old.place.0 as usize) < WRAM_SIZE)
        && entry.old[count..].iter().all(|old| old.place.0 == 0 && old.byte == 0)
        && entry.tail == [0; 17]
}

fn flag(byte: u8) -> bool {
    byte <= 1
}

fn auto_in_ranges(auto: &Auto, bit_cycles: u16) -> bool {
    match auto.kind {
        0 => auto.bits_left == 0 && auto.countdown == 0,
        1 => auto.bits_left == 0 && auto.countdown <= MOST_PENDING,
        2 => matches!(auto.bits_left, 1..=16) && auto.countdown < u32::from(bit_cycles),
        _ => false,
    }
}

fn port_in_ranges(port: &Port) -> bool {
    flag(port.connected) && flag(port.latch) && port.buttons & PAD_ID_BITS == 0
}

fn engine_in_ranges(dma: &Engine) -> bool {
    let progress = if dma.present == 0 { dma.channel == 0 && dma.unit == 0 } else { dma.channel < 8 };
    dma.state <= 3
        && [dma.running, dma.present, dma.pending, dma.init].into_iter().all(flag)
        && progress
        && dma.wait <= MOST_WAIT
}

fn line_in_ranges(line: &Line) -> bool {
    flag(line.do_transfer) && flag(line.finished)
}
