//! Document 01's corners (a) to (j), and the two "easy to get wrong" rows about bytes.

mod help;

use help::{bench, cycle, filled, read, word, write};
use oracle::bench::Bench;
use oracle::image::Line;
use oracle::row::Row;

/// One HDMA channel with its table at the start of bank $7E; the init pass is over.
fn hdma(table: &[u8], dmap: u8, bbad: u8) -> Bench {
    let mut fill = vec![0; 64];
    fill[..table.len()].copy_from_slice(table);
    let mut bench = filled(&fill);
    for (addr, byte) in [(0x4300, dmap), (0x4301, bbad), (0x4302, 0), (0x4303, 0), (0x4304, 0x7E), (0x4307, 0x7E)] {
        write(&mut bench, addr, byte);
    }
    write(&mut bench, 0x420C, 1);
    cycle(&mut bench, 4, false);
    while cycle(&mut bench, 0, false).held {}
    bench
}

/// One line pass: the cycles held and the B addresses touched.
fn line(bench: &mut Bench) -> (u32, Vec<u16>) {
    let (mut held, mut addresses) = (1, vec![]);
    cycle(bench, 0, true);
    loop {
        let answer = cycle(bench, 0, false);
        if !answer.held {
            return (held, addresses);
        }
        held += 1;
        let seen = answer.accesses[..answer.count].iter();
        addresses.extend(seen.filter(|access| access.bank == 0).map(|access| access.addr));
    }
}

#[test]
fn a_alignment() {
    for (clock, alignment) in [(0, 8), (1, 7), (15, 1)] {
        let mut bench = bench();
        write(&mut bench, 0x420B, 1);
        bench.machine.image.clock = clock;
        let mut held = 0;
        while bench.machine.image.dma.state != 2 {
            held += u32::from(cycle(&mut bench, 0, false).held);
        }
        assert_eq!(held, alignment + 8);
    }
}

#[test]
fn b_c_arithmetic() {
    let mut bench = bench();
    for (divisor, quotient, remainder) in [(7, 142, 6), (0, 65_535, 1000)] {
        write(&mut bench, 0x4204, 0xE8);
        write(&mut bench, 0x4205, 3);
        write(&mut bench, 0x4206, divisor);
        assert_eq!((word(&mut bench, 0x4214), word(&mut bench, 0x4216)), (quotient, remainder));
    }
    write(&mut bench, 0x4202, 255);
    write(&mut bench, 0x4203, 255);
    assert_eq!(word(&mut bench, 0x4216), 65_025);
}

#[test]
fn d_e_wmadd() {
    let mut bench = bench();
    for (given, bank, next) in [(0xFE, 0x7E, 0x7F), (1, 0x7F, 0x7E)] {
        write(&mut bench, 0x2181, 0xFF);
        write(&mut bench, 0x2182, 0xFF);
        write(&mut bench, 0x2183, given);
        assert_eq!(bench.machine.image.wmadd_bank, bank);
        read(&mut bench, 0x2180);
        assert_eq!((bench.machine.image.wmadd_bank, bench.machine.image.wmadd_addr), (next, 0));
    }
}

#[test]
fn f_patterns() {
    let mut bench = hdma(&[1], 5, 0x18);
    line(&mut bench);
    for (mode, bbad, addresses) in [(5, 0x18, vec![0x2118, 0x2119, 0x2118, 0x2119]), (1, 0xFF, vec![0x21FF, 0x2100])] {
        assert_eq!(line(&mut hdma(&[1], mode, bbad)).1, addresses);
    }
}

#[test]
fn g_counters() {
    for (counter, after, again) in [(1, 0, 1), (2, 1, 0), (0x81, 0x80, 1)] {
        let mut bench = hdma(&[counter], 0, 0x18);
        line(&mut bench);
        assert_eq!(bench.machine.image.lines[0], Line { counter: after, do_transfer: again, finished: 0 });
    }
    // A $80 read on a line: a $01 line comes first, then the table's next counter.
    let mut bench = hdma(&[1, 9, 0x80], 0, 0x18);
    line(&mut bench);
    line(&mut bench);
    assert_eq!(bench.machine.image.lines[0], Line { counter: 0x7F, do_transfer: 1, finished: 0 });
}

#[test]
fn h_open_bus() {
    let mut bench = bench();
    bench.machine.image.open_bus = 0xFF;
    assert_eq!(read(&mut bench, 0x4017), 0xFC);
    bench.machine.image.open_bus = 0xFF;
    bench.machine.image.ports[0].shift = 0x8000;
    assert_eq!(read(&mut bench, 0x4016), 0xFD);
}

#[test]
fn i_indirect_reload_in_mode_4() {
    let mut bench = hdma(&[1, 0, 0x10, 1, 0, 0x20], 0x44, 0x18);
    let (held, _) = line(&mut bench);
    assert_eq!(held, 18 + (8 + 32) + 1);
    assert_eq!(line(&mut bench).0, 18 + 56 + 1);
}

#[test]
fn j_finished_channel() {
    assert_eq!(line(&mut hdma(&[0], 0, 0x18)).0, 20);
}

#[test]
fn a_place_written_twice() {
    let mut bench = hdma(&[1, 1, 0x34, 2, 0x34], 5, 0x80);
    for (addr, byte) in [(0x2181, 0x34), (0x2182, 0x12), (0x2183, 0)] {
        write(&mut bench, addr, byte);
    }
    let before = bench.banks.bytes().to_vec();
    cycle(&mut bench, 0, true);
    while bench.machine.image.lines[0].counter == 1 {
        cycle(&mut bench, 0, false);
    }
    assert_eq!(bench.banks.bytes()[0x1234], 2);
    assert_eq!(help::call(&mut bench, Row::Back { count: 1 }).number, 0);
    assert_eq!(bench.banks.bytes().to_vec(), before);
}

#[test]
fn das_0_moves_65536_bytes() {
    let mut bench = bench();
    for (addr, byte) in [(0x4300, 0), (0x4301, 0x18), (0x4305, 0), (0x4306, 0), (0x420B, 1)] {
        write(&mut bench, addr, byte);
    }
    let mut held = 0;
    while cycle(&mut bench, 0, false).held {
        held += 1;
    }
    assert_eq!(held, (8 + 8) + 8 + 8 * 65_536 + 1);
}
