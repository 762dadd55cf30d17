//! The image's bytes are where document 01 puts them.

mod help;

use help::{bench, lent};
use oracle::any_image::any_image;
use oracle::convert::{load, power_on, store};
use oracle::image::{Entry, Image};
use oracle::layout::Field;
use oracle::random::Random;
use oracle::ranges::image_in_ranges;

/// The little-endian number that starts at an offset when each byte holds its own offset.
fn at<T: Field>(offset: usize) -> T {
    let bytes: Vec<u8> = (0..=255).collect();
    T::take(&bytes[offset..])
}

fn numbered() -> Entry {
    at(0)
}

#[test]
fn registers() {
    let image = numbered().image;
    assert_eq!((image.wmadd_bank, image.wmadd_addr, image.joyout, image.nmitimen), (0, at(1), 3, 4));
    assert_eq!((image.wrio, image.wrmpya, image.wrmpyb, image.wrdiv, image.wrdivb), (5, 6, 7, at(8), 10));
    assert_eq!((image.htime, image.vtime, image.mdmaen, image.hdmaen, image.memsel), (at(11), at(13), 15, 16, 17));
    assert_eq!((image.rddiv, image.rdmpy, image.rdnmi, image.timeup), (at(18), at(20), 22, 23));
    assert_eq!((image.hvbjoy, image.open_bus, image.joys), (24, 25, [at(26), at(28), at(30), at(32)]));
    assert_eq!(
        (image.ppu_answers[0], image.apu_answers[0], image.apu_written[0], image.clock),
        (194, 206, 210, at(214))
    );
}

#[test]
fn joypad_and_nmi() {
    let image = numbered().image;
    assert_eq!((image.auto.kind, image.auto.bits_left, image.auto.countdown), (34, 35, at(36)));
    for (port, start) in image.ports.iter().zip([40, 46]) {
        assert_eq!((port.connected, port.latch), (start, start + 1));
        assert_eq!((port.buttons, port.shift), (at(start as usize + 2), at(start as usize + 4)));
    }
    assert_eq!((image.pads, image.nmi_line, image.bit_cycles), ([at(52), at(54)], 56, at(57)));
}

#[test]
fn dma() {
    let image = numbered().image;
    let dma = image.dma;
    assert_eq!(
        (dma.state, dma.running, dma.present, dma.channel, dma.unit, dma.wait),
        (59, 60, 61, 62, at(63), at(67))
    );
    assert_eq!((dma.pending, dma.init, dma.queue), (71, 72, 73));
    for (line, start) in image.lines.iter().zip((74..).step_by(3)) {
        assert_eq!((line.counter, line.do_transfer, line.finished), (start, start + 1, start + 2));
    }
    for (channel, start) in image.channels.iter().zip((98..).step_by(12)) {
        let start: usize = start;
        assert_eq!((channel.dmap, channel.bbad, channel.a1t_addr), (at(start), at(start + 1), at(start + 2)));
        assert_eq!((channel.a1t_bank, channel.das, channel.dasb), (at(start + 4), at(start + 5), at(start + 7)));
        assert_eq!((channel.a2a, channel.nltr, channel.unused), (at(start + 8), at(start + 10), at(start + 11)));
    }
}

#[test]
fn entry() {
    let entry = numbered();
    assert_eq!(entry.count, 222);
    for (old, start) in entry.old.iter().zip([223u32, 227, 231, 235]) {
        assert_eq!(old.place.0, start | (start + 1) << 8 | (start + 2) << 16);
        assert_eq!(u32::from(old.byte), start + 3);
    }
    assert_eq!(entry.tail[0], 239);
    let mut bytes = [0; 256];
    entry.put(&mut bytes);
    assert_eq!(bytes.to_vec(), (0..=255).collect::<Vec<u8>>());
}

/// Every field goes into the published structs and comes out of them.
#[test]
fn there_and_back_through_the_core() {
    let mut bench = bench();
    let mut random = Random::new(1, 1);
    for _ in 0..2_000 {
        let image: Image = any_image(&mut random);
        assert!(image_in_ranges(&image));
        let core = load(&image, &mut lent(&mut bench));
        assert_eq!(store(&core, image.bit_cycles), image);
        bench = help::bench();
    }
}

#[test]
fn at_power_on() {
    let image = power_on(264);
    assert!(image_in_ranges(&image));
    let mut bytes = [0; 222];
    image.put(&mut bytes);
    let mut expected = [0; 222];
    expected[0] = 0x7E;
    expected[5..11].fill(0xFF);
    expected[11..15].copy_from_slice(&[0xFF, 1, 0xFF, 1]);
    expected[22] = 2;
    expected[40] = 1;
    expected[46] = 1;
    expected[57..59].copy_from_slice(&[8, 1]);
    expected[98..194].fill(0xFF);
    (0..8).for_each(|channel| expected[98 + 12 * channel + 6] = 0);
    assert_eq!(bytes, expected);
}
