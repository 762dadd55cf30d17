//! Whole transfers: the formula by hand, what it supposes, and the published Rust beside it.

mod help;

use help::{bench, write};
use oracle::any_image::any_image;
use oracle::bench::Bench;
use oracle::benchfile::BenchFile;
use oracle::image::{Channel, Image};
use oracle::loads::formula::{Aim, Load, alignment, load};
use oracle::loads::{follow, loads, set_up};
use oracle::random::Random;
use oracle::trace::trace;

/// A fresh machine about to move bytes by some channels. Each has DMAP, BBAD, bank and A1T, and DAS.
fn about_to(channels: &[(usize, [u8; 2], (u8, u16), u16)]) -> Bench {
    let mut bench = bench();
    for &(number, [dmap, bbad], (a1t_bank, a1t_addr), das) in channels {
        let image = &mut bench.machine.image;
        image.channels[number] = Channel { dmap, bbad, a1t_addr, a1t_bank, das, ..image.channels[number] };
        image.mdmaen |= 1 << number;
    }
    bench
}

fn formula(bench: &Bench) -> Load {
    load(&bench.machine.image).expect("supposed")
}

/// A read and a write for each pair of sides.
fn moves(list: &[[(u8, u16); 2]]) -> Vec<Aim> {
    let aims = list.iter().map(|sides| [(false, sides[0]), (true, sides[1])]);
    aims.flatten().map(|(write, (bank, addr))| Aim { write, bank, addr }).collect()
}

fn port(addr: u16) -> (u8, u16) {
    (0, addr)
}

#[test]
fn alignments() {
    assert_eq!([0, 1, 7, 8, 15].map(alignment), [8, 7, 1, 8, 1]);
}

/// 8 + 9 + 8 + 8 x 256 cycles.
#[test]
fn a_page_at_clock_0() {
    let mut bench = about_to(&[(0, [0x00, 0x18], (0x7E, 0x1234), 256)]);
    let load = formula(&bench);
    assert_eq!((load.held, load.accesses.len()), (2_073, 512));
    assert_eq!(load.accesses[..2], moves(&[[(0x7E, 0x1234), port(0x2118)]]));
    assert_eq!(load.accesses[510..], moves(&[[(0x7E, 0x1333), port(0x2118)]]));
    let mut channels = bench.machine.image.channels;
    (channels[0].a1t_addr, channels[0].das) = (0x1334, 0);
    assert_eq!(load.channels, channels);
    assert_eq!(follow(&mut bench).map(|run| run.load), Ok(load));
    assert_eq!(bench.machine.image.clock, 2_074);
}

/// 65,536 bytes, up, down and not at all; A1T comes back to where it was. At clock 13 the alignment is 3.
#[test]
fn byte_count_0() {
    for (dmap, second) in [(0x80, 0x0000), (0x90, 0xFFFE), (0x88, 0xFFFF), (0x98, 0xFFFF)] {
        let mut bench = about_to(&[(7, [dmap, 0x80], (0x7F, 0xFFFF), 0)]);
        bench.machine.image.clock = 13;
        let load = formula(&bench);
        assert_eq!((load.held, load.accesses.len()), (3 + 9 + 8 + 524_288, 131_072));
        assert_eq!(load.accesses[..4], moves(&[[port(0x2180), (0x7F, 0xFFFF)], [port(0x2180), (0x7F, second)]]));
        assert_eq!(load.channels, bench.machine.image.channels);
        assert_eq!(follow(&mut bench).map(|run| run.load), Ok(load));
    }
}

/// Channels 1, 4 and 6, in modes 3, 4 and 5: up over a bank's end, fixed from B to A past $21FF, and down to $6000.
#[test]
fn three_channels() {
    let channels = [
        (6, [0x15, 0x82], (0xBF, 0x6002), 3),
        (1, [0x63, 0x40], (0x05, 0xFFFE), 5),
        (4, [0x8C, 0xFE], (0x40, 0x2000), 6),
    ];
    let mut bench = about_to(&channels);
    let load = formula(&bench);
    assert_eq!(load.held, 8 + 9 + (8 + 40) + (8 + 48) + (8 + 24));
    let up = [(0x05, 0xFFFE), (0x05, 0xFFFF), (0x05, 0x0000), (0x05, 0x0001), (0x05, 0x0002)];
    let first = up.into_iter().zip([0x2140, 0x2140, 0x2141, 0x2141, 0x2140].map(port));
    let second = [0x21FE, 0x21FF, 0x2100, 0x2101, 0x21FE, 0x21FF].map(|addr| (port(addr), (0x40, 0x2000)));
    let third = [(0xBF, 0x6002), (0xBF, 0x6001), (0xBF, 0x6000)].into_iter().zip([0x2182, 0x2183, 0x2182].map(port));
    let list: Vec<[(u8, u16); 2]> = first.chain(second).chain(third).map(<[(u8, u16); 2]>::from).collect();
    assert_eq!(load.accesses, moves(&list));
    assert_eq!([1, 4, 6].map(|number| load.channels[number].a1t_addr), [0x0003, 0x2000, 0x5FFF]);
    assert_eq!([1, 4, 6].map(|number| load.channels[number].das), [0, 0, 0]);
    assert_eq!(follow(&mut bench).map(|run| run.load), Ok(load));
}

/// Where the fifth byte of each mode goes is where the first one went, and between them by hand.
#[test]
fn patterns() {
    let places: [[u16; 5]; 8] = [
        [0, 0, 0, 0, 0],
        [0, 1, 0, 1, 0],
        [0, 0, 0, 0, 0],
        [0, 0, 1, 1, 0],
        [0, 1, 2, 3, 0],
        [0, 1, 0, 1, 0],
        [0, 0, 0, 0, 0],
        [0, 0, 1, 1, 0],
    ];
    for (mode, places) in (0..).zip(places) {
        let mut bench = about_to(&[(3, [mode, 0x10], (0x7E, 0), 5)]);
        let load = formula(&bench);
        let written: Vec<u16> = load.accesses.iter().filter(|aim| aim.write).map(|aim| aim.addr).collect();
        assert_eq!(written, places.map(|place| 0x2110 + place));
        assert_eq!(follow(&mut bench).map(|run| run.load), Ok(load));
    }
}

/// One byte beside $2000-$5FFF of a system bank is clear; one more, where it leads inside, is not.
#[test]
fn clear_a_sides() {
    let is_clear = |dmap, bank, addr, das| {
        let lacking = load(&about_to(&[(2, [dmap, 0x80], (bank, addr), das)]).machine.image).err();
        assert!(lacking.is_none_or(|what| what == "A addresses outside $2000-$5FFF of system banks"));
        lacking.is_none()
    };
    for bank in [0x00, 0x3F, 0x80, 0xBF] {
        assert_eq!([1, 2].map(|das| is_clear(0x00, bank, 0x1FFF, das)), [true, false]);
        assert_eq!([1, 2].map(|das| is_clear(0x10, bank, 0x6000, das)), [true, false]);
        assert_eq!([0xC000, 0xC001, 0].map(|das| is_clear(0x00, bank, 0x6000, das)), [true, false, false]);
        assert_eq!([0xC000, 0xC001, 0].map(|das| is_clear(0x10, bank, 0x1FFF, das)), [true, false, false]);
        assert_eq!([0x1FFF, 0x2000, 0x5FFF, 0x6000].map(|at| is_clear(0x18, bank, at, 0)), [true, false, false, true]);
    }
    for bank in [0x40, 0x7D, 0x7E, 0x7F, 0xC0, 0xFF] {
        assert!(is_clear(0x00, bank, 0x2000, 0) && is_clear(0x08, bank, 0x5FFF, 0));
    }
}

/// A channel that is not selected may have its A side anywhere.
#[test]
fn other_channels() {
    let mut bench = about_to(&[(2, [0x00, 0x80], (0x7E, 0), 9), (5, [0x00, 0x80], (0x00, 0x4300), 9)]);
    assert!(load(&bench.machine.image).is_err());
    bench.machine.image.mdmaen = 1 << 2;
    assert_eq!(follow(&mut bench).map(|run| run.load.held), Ok(8 + 9 + 80));
}

#[test]
fn what_is_supposed() {
    let lacking = |change: fn(&mut Image)| {
        let mut bench = about_to(&[(0, [0x00, 0x18], (0x7E, 0), 1)]);
        change(&mut bench.machine.image);
        load(&bench.machine.image).err()
    };
    assert_eq!(lacking(|image| image.dma.queue = 0xFF), None);
    assert_eq!(lacking(|image| image.dma.state = 1), Some("DMA idle"));
    assert_eq!(lacking(|image| image.dma.wait = 1), Some("wait 0"));
    assert_eq!(lacking(|image| image.dma.running = 1), Some("nothing running"));
    assert_eq!(lacking(|image| image.dma.present = 1), Some("no progress"));
    assert_eq!(lacking(|image| image.dma.pending = 1), Some("no HDMA pending"));
    assert_eq!(lacking(|image| image.hdmaen = 0x80), Some("HDMAEN 0"));
    assert_eq!(lacking(|image| image.mdmaen = 0), Some("an MDMAEN bit"));
    assert_eq!(lacking(|image| image.clock = u64::MAX - 31), Some("a clock clear of its end"));
    assert_eq!(lacking(|image| image.clock = u64::MAX), Some("a clock clear of its end"));
}

/// 32 cycles before the clock's end the alignment is 1, and 26 cycles are held.
#[test]
fn near_the_end_of_the_clock() {
    let mut bench = about_to(&[(0, [0x00, 0x18], (0x7E, 0), 1)]);
    bench.machine.image.clock = u64::MAX - 32;
    assert_eq!(follow(&mut bench).map(|run| run.load.held), Ok(26));
    assert_eq!(bench.machine.image.clock, u64::MAX - 32 + 27);
}

#[test]
fn a_set_up_that_lacks_something() {
    let mut bench = about_to(&[(0, [0x00, 0x18], (0x7E, 0), 1)]);
    write(&mut bench, 0x420C, 1);
    assert_eq!(follow(&mut bench).err(), Some("the set-up lacks HDMAEN 0".into()));
}

/// Machines with any other numbers, whether a script leads to them or not.
#[test]
fn any_machines() {
    let (mut random, mut followed) = (Random::new(15, 15), 0);
    let mut bench = bench();
    for _ in 0..2_000 {
        let image = &mut bench.machine.image;
        *image = any_image(&mut random);
        (image.dma.state, image.dma.wait, image.dma.running, image.dma.pending, image.hdmaen) = (0, 0, 0, 0, 0);
        (image.dma.present, image.dma.channel, image.dma.unit) = (0, 0, 0);
        image.channels.iter_mut().for_each(|channel| channel.das = 1 + channel.das % 60);
        if load(image).is_ok() {
            let run = follow(&mut bench);
            assert!(run.is_ok(), "{:?}", run.err());
            followed += 1;
        }
    }
    assert!(followed > 200, "{followed}");
}

#[test]
fn generated_set_ups() {
    let reached = loads(15, 100).expect("as the formula says");
    assert!(reached.to_string().starts_with("100 set-ups, "), "{reached}");
}

/// The file of a set-up is sound, and its trace has every cycle held but the last.
#[test]
fn files_of_set_ups() {
    for index in 0..20 {
        let set_up = set_up(16, index);
        let bytes = set_up.file.bytes();
        assert_eq!(BenchFile::parse(&bytes), Some(set_up.file));
        let lines = trace(&bytes);
        let rows: Vec<Vec<&str>> = lines.lines().map(|line| line.split(' ').collect()).collect();
        assert!(rows.iter().all(|row| row[2] == "0"));
        let mut cycles: Vec<_> = rows[set_up.prepared..].iter().filter(|row| row[1] == "1").collect();
        assert_eq!(cycles.pop().map(|row| &row[3..]), Some(&["1", "0"][..]));
        assert!(!cycles.is_empty() && cycles.iter().all(|row| row[3] == row[4]));
    }
}
