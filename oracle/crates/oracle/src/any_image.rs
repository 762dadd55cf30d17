//! Machines drawn at random within the ranges, whether a run reaches them or not.

use crate::image::Image;
use crate::layout::Field;
use crate::random::Random;

/// Any numbers within the ranges.
pub fn any_image(random: &mut Random) -> Image {
    let bytes = random.bytes(222);
    let mut image: Image = Field::take(&bytes);
    image.wmadd_bank = 0x7E + image.wmadd_bank % 2;
    image.bit_cycles = 1 + image.bit_cycles % 4096;
    image.nmi_line %= 2;
    image.auto.kind %= 3;
    image.auto.bits_left = if image.auto.kind == 2 { 1 + image.auto.bits_left % 16 } else { 0 };
    image.auto.countdown %= [1, 298, u32::from(image.bit_cycles)][usize::from(image.auto.kind)];
    image.pads = image.pads.map(|word| word & 0xFFF0);
    for port in &mut image.ports {
        port.connected %= 2;
        port.latch %= 2;
        port.buttons &= 0xFFF0;
    }
    let dma = &mut image.dma;
    dma.state %= 4;
    for flag in [&mut dma.running, &mut dma.present, &mut dma.pending, &mut dma.init] {
        *flag %= 2;
    }
    dma.channel = if dma.present == 0 { 0 } else { dma.channel % 8 };
    dma.unit = if dma.present == 0 { 0 } else { dma.unit };
    dma.wait %= 56;
    for line in &mut image.lines {
        line.do_transfer %= 2;
        line.finished %= 2;
    }
    image
}
